"""Random profiles and trees of files, and runs of real Unison on them: what the tests/unison-* share."""
import os
import random
import re
import shutil
import subprocess
import sys
import tempfile
import unicodedata

TOP = os.path.dirname(os.path.dirname(os.path.realpath(__file__)))
UNISON = os.environ.get('UNISON_PROGRAM', 'unison')    # another version, to be compared
NAMES = ['a', 'b', 'c', '.a', '.b', '.tmp', 'x.tmp', 'a.b', '.x.tmp', 'é', 'éa', 'ab', 'a b', '[a]']
# Names with characters that patterns or lines give a meaning, with control characters, and with an accent in its other form.
ODD_NAMES = ['e\u0301', 'a\x01', '\x0b', 'a\x7fb', 'a\tb', 'a ', 'b ', '{a', 'a}', '{a,b}', 'a,b', '\\a', 'a\\b', 'a -> b', 'a->b',
             '->', '!a', '^a', '#a', '%a', 'a=b', '=', 'a\u00a0b', '\u0085', '[a', 'a]', 'a?', '-', "a'b", '$a', '~', 'A', 'É', '..a',
             'a..']
BLANKS = ['\r', '\t', ' ', '\r\r', ' \r', '\r ', '\t\r', '\r\t\r', '  ']    # what Unison drops at the ends of names and values
TRIMMED = ' \t\r'    # the characters that Unison drops there
CONTROLS = [chr(code) for code in range(32) if chr(code) not in '\t\n\r'] + ['\x7f', '\x85', '\xa0', '\u2028', '\ufeff']
ODD_PIECES = ['\\*', '\\?', '\\{', '\\}', '\\,', '\\[', '\\\\', '\\a', '{{a,b},c}', '{a,{b,{c,}}}', '{,{a,}b}', '{a,b', '[{a,b}]',
              '{[ab],c}', '{a\\,b,c}', '[ab', 'a]', '[]a]', '[a-]', '[-a]', '[b-a]', '[^a]', '[!ab]', '[é]', '[e\u0301]', 'é',
              'e\u0301', '->', ' -> ', ' -> a', 'a -> ', ' ->', '-> ', ' ->  ', '//', '/', './', '/.', '/*', '#', '%', '=', '"', "'",
              '$', '~', '{', '}', ',', '[', ']', '-', '!', '^', '.', '..', '(', '|']
# Lines that hold changes back, or that have no influence on what is synchronized.
HARMLESS = ['maxsizethreshold = 1', 'maxerrors = 1', 'mountpoint = a', 'immutable = Path a', 'immutablenot = Path b', 'ignorearchives = true',
            'links = false', 'fastercheckUNSAFE = true', 'ignoreinodenumbers = true', 'times = true', 'perms = 0', 'owner = true',
            'numericids = true', 'dontchmod = true', 'rsrc = false', 'rsrc = default', 'fat = false', 'ignorecase = false', 'unicode = false',
            'ignorelocks = false', 'copyonconflict = false', 'backups = false', 'backuploc = central', 'backuplocation = central',
            'backup = Name *', 'backupcurr = Name *', 'backupcurrnot = Name a', 'backupnot = Name b', 'maxbackups = 1', 'backupprefix = v$VERSION.',
            'height = 20', 'sortbysize = true', 'sortnewfirst = true', 'sortfirst = Name a', 'sortlast = Name b', 'maxthreads = 1', 'copymax = 1',
            'stream = false', 'xferbycopying = false', 'halfduplex = true', 'sshargs = -C', 'confirmbigdel = false', 'auto = true']


FOLDING = 'ignorecase = true'


def spelled(rng, text):
    """Another spelling of a text, which is the same where names fold."""
    made = ''.join(it.swapcase() if rng.random() < 0.3 else it for it in text)
    return unicodedata.normalize(rng.choice(['NFC', 'NFD']), made)


def spelled_tree(rng, made):
    """The tree with other spellings of its names."""
    return {spelled(rng, name): spelled_tree(rng, it) if isinstance(it, dict) else it for name, it in made.items()}


def spelled_line(rng, line):
    """The line with another spelling of its path or pattern."""
    name, equals, value = line.partition(' = ')
    if name == 'path':
        return name + equals + spelled(rng, value)
    if name in ('ignore', 'ignorenot') or name.endswith('partial'):
        kind, blank, rest = value.partition(' ')
        text, arrow, root = rest.rpartition(' -> ') if name.endswith('partial') and ' -> ' in rest else (rest, '', '')
        return name + equals + kind + blank + spelled(rng, text) + arrow + root
    return line


def folding(rng, lines):
    """The lines of a profile whose names fold."""
    kept = [line for line in lines if line.partition(' = ')[0] not in ('ignorecase', 'fat', 'unicode')]
    return [spelled_line(rng, line) for line in kept] + [FOLDING]


def jobs():
    """The number behind `--jobs` in the words of the command line, which is taken out of them, or 1."""
    if sys.argv[1:2] != ['--jobs']:
        return 1
    _, number = sys.argv.pop(1), (sys.argv.pop(1) if len(sys.argv) > 1 else '')
    return int(number) if number.isdigit() and int(number) > 0 else sys.exit('--jobs takes a number from 1 on')


def words(name, doc, count):
    """The program, the number and the first seed that the words of the command line name."""
    if any(word.startswith('-') for word in sys.argv[1:]) or len(sys.argv) > 4:
        sys.exit(print(doc) if sys.argv[1:] == ['--help'] else doc)
    program = os.path.realpath(sys.argv[1] if len(sys.argv) > 1 else os.path.join(TOP, 'dist/hubsync'))
    if not os.access(program, os.X_OK):
        sys.exit(name + ': there is no program at ' + program)
    version = subprocess.run([UNISON, '-version'], stdout=subprocess.PIPE).stdout.decode()
    if UNISON == 'unison' and not version.startswith('unison version 2.52'):
        print(name + ': was not tried: ' + version.strip() + ' is not 2.52')
        sys.exit(0)
    return program, int((sys.argv[2:3] or [count])[0]), int((sys.argv[3:4] or [1])[0])


def pattern(rng):
    """A pattern for names or paths, as people and fuzzers write them."""
    piece = lambda: rng.choice(['a', 'b', '*', '?', '*.tmp', '.*', '*.b', '??', '[ab]', '[.a]b', '[a-c]', '{a,b}', '{*.tmp,*.b}', '.a', 'a*',
                                '*a', '?*', '{.,}a', '*.{tmp,b}', 'é', 'x.tmp', '.tmp', '*.*', 'a.b', '[!a]', '{a,{b,c}}', '[é]', '*b*'])
    kind = rng.choice(['Name', 'Name', 'Path', 'BelowPath', 'Regex'] if rng.random() < 0.3 else ['Name', 'Path', 'BelowPath'])
    if kind == 'Regex':
        return 'Regex ' + rng.choice(['a.*', '.*b', '[ab]/.*', '.*tmp'])
    count = 1 if kind == 'Name' else rng.choice([1, 1, 2, 2, 3])
    return kind + ' ' + '/'.join(piece() for _ in range(count))


def bar(rng, roots):
    """The value of a bar on some paths. Unison sees an arrow that has blanks on both sides, if it is the only one."""
    arrow = rng.choice(['->', ' ->', '-> ', ' -> x -> ', '\t->\t', '  ->  ']) if rng.random() < 0.2 else ' -> '
    return pattern(rng) + arrow + rng.choice(roots)


def profile(rng, roots):
    """The lines of a profile but for its roots."""
    lines = []
    some = lambda most: range(rng.choice([0] * 2 + list(range(most + 1))))
    path = lambda: '/'.join(rng.choice(NAMES[:9]) for _ in range(rng.choice([1, 1, 2])))
    for _ in some(3):
        lines.append('path = ' + rng.choice([path(), path(), path() + '/*', '*', './' + path()] if rng.random() < 0.3 else [path()]))
    for _ in some(4):
        lines.append('ignore = ' + pattern(rng))
    for _ in some(2):
        lines.append('ignorenot = ' + pattern(rng))
    for _ in some(2):
        lines.append(rng.choice(['nocreation', 'noupdate', 'nodeletion']) + ' = ' + rng.choice(roots))
    for _ in some(3):
        lines.append(rng.choice(['nocreation', 'noupdate', 'nodeletion']) + 'partial = ' + bar(rng, roots))
    if rng.random() < 0.4:    # all changes are barred, so a bar that holds in hubsync alone shows
        value = bar(rng, roots)
        lines += ['noupdatepartial = ' + value, 'nocreationpartial = ' + value]
    if rng.random() < 0.3:
        lines.append('force = ' + rng.choice(roots + ['newer', 'older']))
    if rng.random() < 0.1:
        lines.append('force = ' + rng.choice(roots))
    if rng.random() < 0.4:
        lines.append('prefer = ' + rng.choice(roots + ['newer', 'older']))
    if rng.random() < 0.1:
        lines.append(rng.choice(['forcepartial', 'preferpartial']) + ' = ' + pattern(rng) + ' -> ' + rng.choice(roots))
    for _ in range(rng.choice([0, 0, 1, 2])):
        lines.append(rng.choice(HARMLESS))
    rng.shuffle(lines)
    return lines


def escaped(text):
    """A pattern that matches this text alone."""
    return re.sub(r'([*?\[\]{}\\,])', r'\\\1', text)


def odd_component(rng, names):
    """A part of a pattern that is near to one of these names, or odd."""
    name = rng.choice(names)
    at = rng.randrange(len(name))
    one = rng.choice(['?', '*', '', '\\' + name[at], '[' + name[at] + ']', '{' + name[at] + ',b}', rng.choice(CONTROLS)])
    pieces = ''.join(rng.choice(ODD_PIECES + names) for _ in range(rng.choice([1, 1, 2, 3])))
    return rng.choice([name, escaped(name), escaped(name), name[:at] + one + name[at + 1:], pieces])


def odd_value(rng, name, value, names):
    """The value of a line with a part that is near to a name of the trees, or odd, in the place of its pattern or path."""
    text = '/'.join(odd_component(rng, names) for _ in range(rng.choice([1, 1, 1, 2])))
    if name == 'path':
        return text
    kind, _, rest = value.partition(' ')
    arrow = ' -> ' + rest.rpartition(' -> ')[2] if name.endswith('partial') and ' -> ' in rest else ''
    return rng.choice(['Name', 'Path', 'Path', 'BelowPath']) + ' ' + text + arrow if kind in ('Name', 'Path', 'BelowPath') else value


def with_piece(rng, line):
    """The line with blanks or a control character in it. Unison refuses most control characters outside of a pattern."""
    name, _, value = line.partition(' = ')
    blank = rng.choice(BLANKS)
    odd = blank if rng.random() < 0.8 else rng.choice(CONTROLS)
    place = rng.random()
    if place < 0.4:
        return line + odd
    kind, _, rest = value.partition(' ')
    if place < 0.6 and rest and name != 'root':
        return f'{name} = {kind} {odd}{rest}'
    if place < 0.7 and ' -> ' in rest:
        return line.replace(' -> ', rng.choice([odd + ' -> ', ' -> ' + odd, odd + '-> ', ' ->' + odd, odd + '->' + odd]))
    if place < 0.8 and name != 'root':
        at = rng.randrange(len(value) + 1)
        return f'{name} = {value[:at]}{rng.choice([blank, rng.choice(CONTROLS), rng.choice(ODD_PIECES)])}{value[at:]}'
    return rng.choice([blank + line, f'{name}{blank}= {value}', f'{name}={blank}{value}', f'{name} = {odd}{value}', f'{name} {blank}= {value}'])


def excepted(rng, names):
    """Lines that ignore what has one of these names, and except it again if Unison drops the blanks at an end of the pattern."""
    text = escaped(rng.choice(names))
    kind = lambda: rng.choice(['Name', 'Path', 'BelowPath'])
    shape = rng.choice(['{}', '{}', '{{{},b}}', '{{b,{}}}', '*{}', '{}*'])
    return [f'ignore = {kind()} {rng.choice([text, text, "?*", "*" + text])}', with_piece(rng, f'ignorenot = {kind()} {shape.format(text)}')]


def widened(rng, lines, names):
    """The lines with odd patterns and paths in place of some, with blanks and control characters in them, or with other line ends."""
    lines = lines + (excepted(rng, names) if rng.random() < 0.5 else [])
    odd = rng.choice([0, 0, 0.2, 0.5])    # an `ignorenot` that hubsync can't read takes all `ignore` lines away, so often there is none
    made = []
    for line in lines:
        name, _, value = line.partition(' = ')
        if (name in ('path', 'ignore', 'ignorenot') or name.endswith('partial')) and rng.random() < odd:
            line = f'{name} = {odd_value(rng, name, value, names)}'
        made.append(with_piece(rng, line) if rng.random() < 0.12 else line)
    end = rng.choice(['\r', '\r\r', ' \r', '\r\r\r']) if rng.random() < 0.15 else ''
    return [line + end for line in made]


def tree(rng, depth=3, names=NAMES):
    """A random tree: a dict of names to bytes or trees."""
    made = {}
    for name in rng.sample(names, rng.randrange(1, 6 if depth == 3 else 5)):
        made[name] = tree(rng, depth - 1, names) if depth > 1 and rng.random() < 0.55 else content(rng)
    return made


def content(rng):
    return bytes(rng.choice(b'xyz') for _ in range(rng.randrange(1, 30)))


def copy(made):
    return {name: copy(it) if isinstance(it, dict) else it for name, it in made.items()}


def edit(rng, made, times, names=NAMES):
    """Changes, removes or adds something, at random places."""
    for _ in range(times):
        at = made
        while True:
            below = [it for it in at.values() if isinstance(it, dict)]
            if not below or rng.random() < 0.35:
                break
            at = rng.choice(below)
        name = rng.choice(list(at) if at and rng.random() < 0.6 else names)
        what = rng.random()
        if what < 0.3:
            at.pop(name, None)
        elif what < 0.75:
            at[name] = content(rng)
        else:
            at[name] = tree(rng, 2, names)


def write(made, folder):
    os.mkdir(folder)
    for name, it in made.items():
        path = os.path.join(folder, name)
        if isinstance(it, dict):
            write(it, path)
        else:
            with open(path, 'wb') as file:
                file.write(it)


def read(folder):
    """What is in a folder, by path: bytes, or None for a folder."""
    found = {}
    for at, folders, files in os.walk(folder):
        here = os.path.relpath(at, folder)
        place = lambda name: name if here == '.' else here + '/' + name
        for name in folders:
            found[place(name)] = None
        for name in files:
            with open(os.path.join(at, name), 'rb') as file:
                found[place(name)] = file.read()
    return found


def changes(before, after):
    """The paths that were changed: each with the rule that forbids such a change."""
    for path in sorted(set(before) | set(after)):
        if path not in after:
            yield path, 'nolose'
        elif path not in before:
            yield path, 'nonew'
        elif before[path] != after[path]:
            yield path, 'nochange'


def start(room, name, lines, folder=None):
    """Starts Unison for a profile, with archives of its own, or with those of a folder."""
    unison = os.path.join(room, 'unison.' + (folder or name))
    os.makedirs(unison, exist_ok=True)
    with open(os.path.join(unison, name + '.prf'), 'w') as file:
        file.write('\n'.join(lines) + '\n')
    words = [UNISON, name, '-batch', '-ui', 'text', '-silent', '-confirmbigdel=false', '-log=false', '-backupdir', os.path.join(room, 'kept')]
    return subprocess.Popen(words, env={**os.environ, 'UNISON': unison, 'HOME': room}, stdin=subprocess.DEVNULL, stdout=subprocess.DEVNULL,
                            stderr=subprocess.DEVNULL)


def synchronize(room, name, lines):
    """Has Unison synchronize the two roots of a profile, and returns its status."""
    return start(room, name, lines).wait(timeout=60)


def run_all(room, profiles, order, at_once):
    """Has Unison run these profiles in this order, or all at the same time. Returns the statuses by name, and what each root holds."""
    statuses, started = {}, {}
    for name in order:
        started[name] = start(room, name, profiles[name])
        if not at_once:
            started[name].wait(timeout=60)
    for name, process in started.items():
        statuses[name] = process.wait(timeout=60)
    roots = {line[len('root = '):] for lines in profiles.values() for line in lines if line.startswith('root = ')}
    return statuses, {root: read(root) for root in roots}


def from_start(room, profiles, order, at_once):
    """The same from what stands in the room now, which is put back afterwards."""
    with tempfile.TemporaryDirectory(prefix='unison-runs.') as kept:
        shutil.copytree(room, os.path.join(kept, 'room'))
        left = run_all(room, profiles, order, at_once)
        for it in os.listdir(room):
            path = os.path.join(room, it)
            shutil.rmtree(path) if os.path.isdir(path) else os.remove(path)
        shutil.copytree(os.path.join(kept, 'room'), room, dirs_exist_ok=True)
        return left


def ask(program, bundle, *words):
    """What hubsync answers to a bundle with `--unison`, and its status. Where names fold it reads files alone."""
    flag = () if '--unison' in words else ('--unison',)
    if FOLDING in bundle:
        return ask_of_files(program, bundle, *words, *flag)
    done = subprocess.run([program, *words, *flag], input=bundle.encode(), stdout=subprocess.PIPE, stderr=subprocess.DEVNULL)
    return done.stdout.decode(), done.returncode


def ask_of_files(program, bundle, *words):
    """The same, with a file for each section of the bundle: profiles and rules."""
    with tempfile.TemporaryDirectory(prefix='unison-files.') as room:
        files, rules = [], []
        for section in bundle.split('\n%'):
            heading, _, lines = section.removeprefix('%').partition('\n')
            path = os.path.join(room, 'rules' if heading == 'rules' else heading.removeprefix('profile ') + '.prf')
            with open(path, 'w', newline='') as file:
                file.write(lines + '\n')
            if heading == 'rules':
                rules = ['--rules', path]
            else:
                files.append(path)
        done = subprocess.run([program, *words, *rules, *files], stdout=subprocess.PIPE, stderr=subprocess.DEVNULL)
        return done.stdout.decode(), done.returncode


def nested(found):
    """The tree that has these paths."""
    made = {}
    for path in sorted(found, key=lambda it: (it.count('/'), it)):    # on each file system the same
        at = made
        *above, name = path.split('/')
        for it in above:
            at = at[it]
        at[name] = {} if found[path] is None else found[path]
    return made
