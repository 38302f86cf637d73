"""Large offices in Unison, with what is known of the answers about them by how they were made: pairs of profiles, names of many
characters, graphs of clashes, and the profiles of docs/GUIDE.md in one office. tests/unison-parts asks the questions.
"""
import collections
import functools
import itertools
import random
import re

HUB = '/srv/hub'
MANY = 10_000    # profiles
OWN_PATHS = 7    # of each of these; with the one beside its partner's they are 8
CHARACTERS = 600    # in names of one character; a plain set may have 512
MOST_IN_PART = 24    # profiles of a part of a graph, for which the least number of rounds is found

Question = collections.namedtuple('Question', ['title', 'bundle', 'words', 'fault'])    # fault(text, status) is None if the answer is right
Kind = collections.namedtuple('Kind', ['first', 'second', 'clashes'])    # lines of two profiles, and (who writes, held, reached)

# `{0}` is the folder in which both profiles of a pair have their paths.
KINDS = [
    Kind(['path = {0}/x'], ['path = {0}/x/y'], [(0, 'x', 'x/y'), (1, 'x/y', 'x/y')]),
    Kind(['path = {0}/x'], ['path = {0}/x'], [(0, 'x', 'x'), (1, 'x', 'x')]),
    Kind(['path = {0}/x', f'force = {HUB}'], ['path = {0}/x/y'], [(1, 'x/y', 'x/y')]),    # the first one writes nothing at the hub
    Kind(['path = {0}/x', 'ignore = Name y'], ['path = {0}/x/y'], [(0, 'x', 'x/y')]),    # `x` may go with all that is in it
    Kind(['path = {0}/x', 'ignore = Path {0}/x/y', f'noupdatepartial = Path {{0}}/x -> {HUB}', f'nocreationpartial = Path {{0}}/x -> {HUB}'],
         ['path = {0}/x/y'], []),
    Kind(['path = {0}/x', f'force = {HUB}'], ['path = {0}/x', f'force = {HUB}'], []),
    Kind(['path = {0}/x'], ['path = {0}/z'], []),
    Kind(['path = {0}/x'], ['path = {0}/x.y'], []),    # in the order of bytes it is between `x` and `x/y`
    Kind(['path = {0}/x'], ['path = {0}/X/y'], []),
]
SAFE = [kind for kind in KINDS if not kind.clashes]

STAR = {'docs': ['path = docs'], 'plans': ['path = plans'], 'photos': ['path = photos'], 'lists': ['path = docs/lists']}
STAR_CLASH = 'overlap: docs writes docs at /srv/hub, lists reaches docs/lists\n'
STAR_OTHER_WAY = 'overlap: lists writes docs/lists at /srv/hub, docs reaches docs/lists\n'
STAR_MENDED = {**STAR, 'docs': ['path = docs', 'ignore = Path docs/lists', f'noupdatepartial = Path docs -> {HUB}',
                                f'nocreationpartial = Path docs -> {HUB}']}
RECORDS = {'records': ['path = records/lists', f'nodeletion = {HUB}']}    # there it is `lists`, as one of the star is
RECORDS_KEPT = {'records': ['path = records/lists', f'noupdate = {HUB}']}
RECORDS_RULES = ['nolose = BelowPath records', 'nochange = BelowPath records']
RECORDS_BREACH = 'breach: records may update records/lists at /srv/hub, rule 1\n'
SHARED = {'office': ['path = reports', 'ignore = Path reports/2026', f'noupdatepartial = Path reports -> {HUB}',
                     f'nocreationpartial = Path reports -> {HUB}'],
          'monthly': ['path = reports/2026']}


def profile(name, lines, is_hub_first=True):
    """The section of a profile of the hub and a root of its own."""
    roots = [HUB, f'/{name}'] if is_hub_first else [f'/{name}', HUB]
    return '\n'.join([f'%profile {name}', *(f'root = {root}' for root in roots), *lines, ''])


def fault_of_text(wanted, wanted_status, text, status):
    """What is wrong with an answer that is known as a whole."""
    for number, (line, found) in enumerate(itertools.zip_longest(wanted.splitlines(), text.splitlines()), 1):
        if line != found:
            return f'line {number} is {found!r} and not {line!r}'
    return None if status == wanted_status else f'status {status}'


def fault_of_rounds(wanted, count, apart, together, text, status):
    """What is wrong with rounds of so many profiles, of which these pairs must be parted and those not."""
    head = re.match(r'rounds (\d+)\nat least (\d+)\n', text)
    if not head or status != 0:
        return f'status {status} and {text[:100]!r}'
    if (int(head[1]), int(head[2])) != wanted:
        return f'rounds {head[1]}, at least {head[2]}, and not {wanted[0]} and {wanted[1]}'
    rounds = {int(name): int(number) for number, name in re.findall(r'^round (\d+) p(\d+)$', text, re.M)}
    if sorted(rounds) != list(range(count)) or text.count('\n') != count + 2 or set(rounds.values()) != set(range(1, wanted[0] + 1)):
        return 'not each profile is in one round, or a round is empty'
    for pairs, is_parted in ((apart, True), (together, False)):
        for i, j in pairs:
            if (rounds[i] != rounds[j]) != is_parted:
                return f'p{i} is in round {rounds[i]}, and p{j} in round {rounds[j]}'
    return None


def question(title, bundle, words, wanted, status):
    """A question whose answer is known as a whole."""
    return Question(title, bundle, words, functools.partial(fault_of_text, wanted, status))


def own_lines(number, lines):
    """The lines of one of many profiles with those of its pair: 8 paths and 5 patterns in all."""
    paths = [f'path = team/t{number}/a{k}' for k in range(OWN_PATHS)]
    patterns = ['ignore = Name *.{tmp,bak}', 'ignore = Name {*~,.#*}', f'ignore = BelowPath team/t{number}/a0/private', 'ignorenot = Name keep.tmp']
    if not any(line.startswith('ignore') for line in lines):
        patterns.append(f'ignore = BelowPath team/t{number}/a1/copy')
    return paths + lines + patterns


def office_of_pairs(rng, kinds, places):
    """The bundle of pairs of these kinds, whose profiles have these numbers, and the lines of its clashes."""
    sections, clashes = {}, []
    for pair, (kind, numbers) in enumerate(zip(kinds, places)):
        folder = f'shared/d{pair}'
        for number, lines in zip(numbers, (kind.first, kind.second)):
            named = [line.format(folder) for line in lines]
            sections[number] = profile(f'p{number}', own_lines(number, named), rng.random() < 0.5)
        for place, held, path in kind.clashes:
            writer, other = numbers[place], numbers[1 - place]
            clashes.append((writer, f'overlap: p{writer} writes {folder}/{held} at {HUB}, p{other} reaches {folder}/{path}\n'))
    return ''.join(sections[number] for number in sorted(sections)), [line for _, line in sorted(clashes)]


def questions_of_pairs(rng):
    """Questions about many profiles, each of which has one path near that of one other."""
    in_order = [(number, number + 1) for number in range(0, MANY, 2)]
    kinds = [rng.choice(SAFE) for _ in in_order]
    bundle, _ = office_of_pairs(rng, kinds, in_order)
    yield question('many, safe', bundle, ['check', '--unison'], 'safe\n', 0)
    bundle, lines = office_of_pairs(rng, [*kinds[:-1], KINDS[0]], in_order)
    yield question('many, the last two clash', bundle, ['check', '--unison'], lines[0], 1)
    mixed = rng.sample(range(MANY), MANY)
    places = list(zip(mixed[::2], mixed[1::2]))
    kinds = [rng.choice(KINDS) for _ in places]
    bundle, lines = office_of_pairs(rng, kinds, places)
    yield question('many, pairs of all kinds', bundle, ['clashes', '--unison'], ''.join(lines), 1)
    apart = [place for kind, place in zip(kinds, places) if kind.clashes]
    together = [place for kind, place in zip(kinds, places) if not kind.clashes]
    yield Question('many, pairs of all kinds', bundle, ['rounds', '--unison'], functools.partial(fault_of_rounds, (2, 2), MANY, apart, together))


def questions_of_characters():
    """Questions about profiles, or paths of profiles, that are named by other Chinese characters each."""
    names = [chr(0x4e00 + number) for number in range(CHARACTERS)]
    for count in (CHARACTERS, 10):
        lines = CHARACTERS // count
        paths = [names[number * lines:(number + 1) * lines] for number in range(count)]
        over, under = paths[-2][-1], f'{paths[-2][-1]}/{paths[-1][-1]}'
        overlap = f'overlap: p{count - 2} writes {over} at {HUB}, p{count - 1} reaches {under}\n'
        for last, wanted, status in ((paths[-1][-1], 'safe\n', 0), (under, overlap, 1)):
            paths[-1][-1] = last
            bundle = ''.join(profile(f'p{number}', [f'path = {path}' for path in own]) for number, own in enumerate(paths))
            yield question(f'{CHARACTERS} characters, {count} profiles', bundle, ['check', '--unison'], wanted, status)


def clique(count):
    """So many profiles of which each two clash: how many, and the pairs."""
    return count, list(itertools.combinations(range(count), 2))


def chain(count):
    return count, [(number, number + 1) for number in range(count - 1)]


def cycle(count):
    return count, [*chain(count)[1], (0, count - 1)]


def crown(count):
    """Twice so many profiles in two halves: one of each clashes with all of the other half but its partner."""
    return 2 * count, [(i, count + j) for i, j in itertools.permutations(range(count), 2)]


def three_parts(rng):
    """Profiles that stand in three rounds, of which the first three clash, and of the others some in different rounds do."""
    count = rng.randrange(MOST_IN_PART // 2, MOST_IN_PART + 1)
    rounds = [0, 1, 2, *(rng.randrange(3) for _ in range(count - 3))]
    share = rng.uniform(0.2, 0.5)
    return count, [(i, j) for i, j in itertools.combinations(range(count), 2) if rounds[i] != rounds[j] and (j < 3 or rng.random() < share)]


def office_of_graphs(rng, graphs):
    """The bundle of an office in which those clash that are joined in these graphs, how many profiles it has, and the pairs."""
    count, starts = sum(size for size, _ in graphs), itertools.accumulate([0, *(size for size, _ in graphs)])
    mixed = rng.sample(range(count), count)
    pairs = [(mixed[start + i], mixed[start + j]) for start, (_, joined) in zip(starts, graphs) for i, j in joined]
    paths = [[f'path = own{number}'] for number in range(count)]
    for i, j in pairs:
        for number in (i, j):
            paths[number].append(f'path = both{i}-{j}')
    return ''.join(profile(f'p{number}', lines) for number, lines in enumerate(paths)), count, pairs


def questions_of_graphs(rng):
    """Questions about rounds of offices of many parts that have nothing to do with each other. The least number of rounds is known, and
    so is how many profiles there are at most of which each two clash."""
    offices = [
        ('triangles, 5-cycles, single profiles, a chain', [clique(3)] * 14 + [cycle(5)] * 13 + [clique(1)] * 13 + [chain(MOST_IN_PART + 6)], (3, 3)),
        ('5-cycles and pairs', [cycle(5)] * 20 + [clique(2)] * 20, (3, 2)),
        ('crowns', [crown(number) for number in range(3, MOST_IN_PART // 2 + 1)], (2, 2)),
        ('parts of three rounds', [three_parts(rng) for _ in range(40)], (3, 3)),
    ]
    for title, graphs, wanted in offices:
        bundle, count, pairs = office_of_graphs(rng, graphs)
        yield Question(title, bundle, ['rounds', '--unison'], functools.partial(fault_of_rounds, wanted, count, pairs, []))


def questions_of_guide():
    """Questions about profiles of several sections of docs/GUIDE.md in one office: each section's own answer still comes, and all are
    safe once each is mended as that section says."""
    offices = [
        ([RECORDS, SHARED], 'check', RECORDS_BREACH, 1),
        ([RECORDS_KEPT, SHARED], 'check', 'safe\n', 0),
        ([STAR, RECORDS], 'check', STAR_CLASH, 1),
        ([STAR, RECORDS_KEPT, SHARED], 'check', STAR_CLASH, 1),
        ([STAR_MENDED, RECORDS, SHARED], 'check', RECORDS_BREACH, 1),
        ([STAR_MENDED, RECORDS_KEPT, SHARED], 'check', 'safe\n', 0),
        ([STAR, RECORDS, SHARED], 'clashes', STAR_CLASH + STAR_OTHER_WAY + RECORDS_BREACH, 1),
    ]
    for sections, word, wanted, status in offices:
        bundle = ''.join(profile(name, lines) for section in sections for name, lines in section.items())
        bundle += '\n'.join(['%rules', f'root = {HUB}', *RECORDS_RULES, ''])
        yield question('sections of the guide', bundle, [word, '--unison'], wanted, status)


def questions(seed):
    """All questions about large offices. Those that take longest come first."""
    rng = random.Random(seed)
    return [*questions_of_pairs(rng), *questions_of_graphs(rng), *questions_of_characters(), *questions_of_guide()]
