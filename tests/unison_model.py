"""What readings of profiles reach and write, and which rules they break, by the definitions of hub_reach and hub_parts.

A reading is what `hubsync import` writes of a profile. A path is a tuple of names. Where roots are nested, whole paths from the top of the
file system are compared, and each is counted from the root of each profile and rule: no line is said from another root.
"""
import functools
import re

BARRED = {'nocreation': ['create'], 'noupdate': ['update', 'delete'], 'nodeletion': ['delete']}
FORBIDDEN = {'nolose': 'delete', 'nochange': 'update', 'nonew': 'create'}
STAR = r'(?:(?:(?<![^/])(?!\.)|(?<=[^/]))[^/]+)?'    # no slash, and no dot at the start of a component
PIECE = re.compile(r'\\.|\[(?:\\.|[^\]\\])*\]|.')


def path_of(text):
    """The names of a path that is written with slashes."""
    return tuple(name for name in text.split('/') if name)


def is_over(upper, lower):
    return lower[:len(upper)] == upper


def are_nested(one, other):
    """Whether of two different roots one lies within the other."""
    return one != other and (is_over(one, other) or is_over(other, one))


@functools.lru_cache(maxsize=None)
def expression(pattern):
    """The regular expression of a pattern."""
    found, in_braces = '', False
    for piece in PIECE.findall(pattern):
        if piece in '{}':
            in_braces = piece == '{'
        if piece == ',' and in_braces:
            found += '|'
        elif piece[0] == '[' and len(piece) > 1:
            found += piece
        else:
            found += {'*': STAR, '?': '[^/]', '{': '(?:', '}': ')'}.get(piece) or re.escape(piece[-1])
    return re.compile(found)


@functools.lru_cache(maxsize=1 << 18)
def matches(spec, path):
    """Whether a kind with its pattern matches a path."""
    kind, pattern = spec.split(' ', 1)
    texts = {'Name': path[-1:], 'Path': ['/'.join(path)] if path else [],
             'BelowPath': ['/'.join(path[:count]) for count in range(1, len(path) + 1)]}[kind]
    return any(expression(pattern).fullmatch(text) for text in texts)


class Reading:
    """The roots of a profile and its kept values, its patterns, the root that it forces, and its bars with their roots."""

    def __init__(self, text):
        self.forced, self.bars, self.partial, self.known = None, [], [], {}
        settings = [line.split(' = ', 1) for line in text.partition('%rules')[0].splitlines()[1:]]
        values = lambda wanted: [value for name, value in settings if name == wanted]
        self.roots, self.paths = [path_of(root) for root in values('root')], [path_of(path) for path in values('path')] or [()]
        self.ignore, self.ignorenot = values('ignore'), values('ignorenot')
        for name, value in settings:
            if name == 'force':
                self.forced = path_of(value)
            elif name in BARRED:
                self.bars += [(path_of(value), verb) for verb in BARRED[name]]
            elif name.endswith('partial'):
                spec, _, root = value.rpartition(' -> ')
                self.partial += [(path_of(root), verb, spec) for verb in BARRED[name[:-len('partial')]]]
            elif name not in ('root', 'path', 'ignore', 'ignorenot', 'prefer'):
                raise ValueError(f'import wrote {name}')

    def is_ignored(self, path):
        return any(matches(spec, path) for spec in self.ignore) and not any(matches(spec, path) for spec in self.ignorenot)

    def is_open(self, top, path):
        """Whether no path from a kept value down to this one is ignored."""
        return not any(self.is_ignored(path[:count]) for count in range(max(1, len(top)), len(path) + 1))

    def reaches(self, path):
        if path not in self.known:
            self.known[path] = bool(path) and any(is_over(top, path) and self.is_open(top, path) for top in self.paths)
        return self.known[path]

    def may(self, root, path, verb):
        """Whether a change of that kind is allowed at a path of a root."""
        return root != self.forced and (root, verb) not in self.bars \
            and not any((root, verb) == barred[:2] and matches(barred[2], path) for barred in self.partial)

    def writes(self, root, path):
        return self.reaches(path) and any(self.may(root, path, verb) for verb in FORBIDDEN.values())

    def is_near(self, path):
        """Whether a path is over a kept value or below one: others, and all below them, aren't reached."""
        return any(is_over(top, path) or is_over(path, top) for top in self.paths)


def paths_below(base, names, depth, is_near):
    """This whole path and those below it by up to so many of these names, as far as they are near."""
    if is_near(base):
        yield base
        for name in names if depth else ():
            yield from paths_below(base + (name,), names, depth - 1, is_near)


def clashes(writer, root, other, other_root, names, depth):
    """Whether one reading writes at a root over what another one reaches at a root that is nested with it. Paths have up to so many of
    these names below the lower root."""
    def is_near(whole):
        return writer.is_near(whole[len(root):]) and other.is_near(whole[len(other_root):])

    return any(other.reaches(whole[len(other_root):])
               and any(writer.writes(root, whole[len(root):count]) for count in range(len(root) + 1, len(whole) + 1))
               for whole in paths_below(max(root, other_root, key=len), names, depth, is_near))


def reaches_some(reading, names, depth):
    """Whether a reading reaches a path of up to so many of these names."""
    return any(reading.reaches(path) for path in paths_below((), names, depth, reading.is_near))


def breaks_at(reading, root, rule, whole):
    """Whether a reading may do at a root what a rule forbids, at this whole path. A rule has a root, a verb and a pattern with its kind."""
    path = whole[len(root):]
    return is_over(root, whole) and is_over(rule.root, whole) and reading.reaches(path) and reading.may(root, path, rule.verb) \
        and matches(rule.spec, whole[len(rule.root):])


def breaks(reading, root, rule, names, depth):
    """Whether a reading breaks a rule at a root that is nested with the rule's, with paths as those of clashes."""
    def is_near(whole):
        return reading.is_near(whole[len(root):])

    return any(breaks_at(reading, root, rule, whole) for whole in paths_below(max(root, rule.root, key=len), names, depth, is_near))
