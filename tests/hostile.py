#!/usr/bin/env python3
"""Asks the program about random and damaged bundles, for some minutes, and looks for an answer that may not come.

    tests/hostile.py [--program PATH] [--minutes N] [--seed N] [--megabytes N] [--seconds N] [--keep FOLDER]

A bundle is made of random sections, or of an example or a table's input, and is then damaged: bytes, lines and sections are taken
out, doubled, changed and swapped, lines are put in whose words are right or almost, and it is cut. Half of the safe bundles get
their own certificates, which are then damaged in the same way. Each is asked with the words of a random command.

A run may take --seconds (20) and --megabytes of memory (2,000). With few of them many answers are `fault: out of memory`, which is
always right, or a refused thread. Another answer is right if

- the status is 0 to 3, and standard error is empty unless the status is 2 and nothing was written;
- it is one line that this status may have, or `safe` and a run fault, or a whole report: `safe`, a line for each thing that the jobs
  did, and a state text that ends with `end`, or certificates that end with `end`;
- what `check` calls safe, `certify` certifies, and `verify` then verifies; where `verify` says `verified`, `check` says `safe` or
  `too large`;
- the state text of a run is read back, and written again as it is by a bundle without profiles.

The seed is printed first. An input with a wrong answer is kept in FOLDER (/tmp/hostile), with the words in its name, and is printed.
The last lines count the answers. The status is 1 if an answer was wrong. It needs Python 3.8 and nothing else.
"""
import argparse
import collections
import hashlib
import pathlib
import random
import re
import resource
import subprocess
import sys
import time

TOP = pathlib.Path(__file__).resolve().parent.parent
HEADERS = ('hubsync state 1', 'hubsync state 2')
OUT_OF_MEMORY = b'fault: out of memory\n'
FAULT = re.compile(rb'fault: [^\n]*\n')
STOPS = re.compile(rb'run fault: (MissingReplica /[^\n]*|NoWorkers|TooManyWorkers|ThreadRefused)\n')
JOB_LINE = re.compile(rb'(job [^\n]* (finished|stopped)|to /[^\n]*|skip [A-Za-z]+ [^\n]*)\n')
REFUSAL = re.compile(rb'(overlap: [^\n]*, [^\n]*|breach: [^\n]*, rule \d+|too large: goal \d+ has more than \d+ stages|refused: [^\n]*)\n')

ROOTS = ['/srv/hub', '/srv/s1', '/srv/s2', '/srv/hub/a', '/', '/srv/hub/', '/srv//', 'x', 'ssh://h//a', '//', '/srv/ä']
NAMES = ['a', 'b', 'c', 'a/b', 'a/b/c', 'b/x', 'docs', 'd-', 'd', '.x', 'ä', '..', 'a/', '/a', 'a//b', '', 'x' * 255, 'x' * 256,
         '/'.join('a' * 64), '/'.join('a' * 65), 'a\rb', 'a\0b', '<61>', ' a', '%']
PATTERNS = ['Name a', 'Name *', 'Name *.{a,b}', 'Path a/b', 'Path a/*', 'BelowPath a', 'BelowPath {a,b}/c', 'Name [a-z]?', 'Name .*',
            'Name {' + ',' * 63 + '}', 'Name {' + ',' * 64 + '}', 'Name [', 'Name {', 'Name \\', 'Regex a', 'Name', '', 'Name ' + 'a' * 200,
            'Name ' + 'a' * 201, 'Name ' + '*a' * 100, 'Name ' + '?' * 17, 'Path a' + '?' * 8, 'Name [!a]', 'Name []', 'Name a/b', 'Path /a']
VERBS = ['nodeletion', 'noupdate', 'nocreation']
PLAIN = ['auto', 'batch', 'times', 'log', 'perms', 'include', 'rootalias', 'merge', '']


def pick(draw, usual, rare, odds=0.03):
    """Mostly one of the usual ones."""
    return draw.choice(rare if draw.random() < odds else usual)


def root(draw):
    return pick(draw, ROOTS[:3], ROOTS)


def path(draw):
    return pick(draw, NAMES[:10], NAMES)


def pattern(draw):
    return pick(draw, PATTERNS[:9], PATTERNS)


def profile_line(draw):
    kind = draw.randrange(10)
    if kind < 4:
        return 'path = ' + path(draw)
    if kind < 6:
        return draw.choice(['ignore', 'ignore', 'ignorenot']) + ' = ' + pattern(draw)
    if kind < 7:
        return draw.choice(['force', 'prefer']) + ' = ' + pick(draw, ROOTS[:3], ['newer', 'older', ''])
    if kind < 8:
        return draw.choice(VERBS) + ' = ' + root(draw)
    if kind < 9:
        return draw.choice(VERBS) + 'partial = ' + pattern(draw) + pick(draw, [' -> '], ['->', ' ', '-> ->']) + root(draw)
    return draw.choice(PLAIN + ['# x', '']) + pick(draw, [' = true'], ['', '=', ' = \0'])


def profile(draw, number):
    lines = [f'%profile p{number}', 'root = /srv/hub', 'root = ' + draw.choice(ROOTS[1:3])]
    if draw.random() < 0.5:
        lines.append('path = ' + draw.choice(NAMES[:7]))
    lines += [profile_line(draw) for _ in range(draw.choice([0, 0, 1, 2, 5, 12]))]
    return lines


def rules(draw):
    lines = ['%rules', 'root = ' + root(draw)]
    for _ in range(draw.randrange(4)):
        lines.append(draw.choice(['nolose', 'nochange', 'nonew']) + ' = ' + pattern(draw))
    return lines


def contents(draw):
    return draw.choice(['-', '61', '6869', '00ff', draw.choice(['6', 'zz', '', 'A' * 64])])


def entries(draw, in_archive):
    lines = []
    for name in sorted(draw.sample(NAMES[:10], draw.randrange(6))):
        for i, letter in enumerate(name):
            if letter == '/' and f'dir {name[:i]}' not in lines:
                lines.append(f'dir {name[:i]}')
        if f'dir {name}' in lines:
            continue
        if draw.random() < 0.3:
            lines.append('dir ' + name)
        elif in_archive:
            lines.append(f'file {draw.getrandbits(256):064x} {name}')
        else:
            lines.append(f'file {contents(draw)} {name}')
    return lines


def with_blobs(lines):
    """The lines of a state of version 1 in version 2: each file names the digest of its bytes."""
    blobs, changed, in_replica = {}, [], False
    for line in lines:
        word, _, rest = line.partition(' ')
        in_replica = word == 'replica' or (in_replica and word != 'archive')
        field, _, name = rest.partition(' ')
        if word == 'file' and in_replica and re.fullmatch('-|([0-9a-f]{2})+', field):
            digest = hashlib.sha256(bytes.fromhex(field.strip('-'))).hexdigest()
            blobs[digest] = field
            line = f'file {digest} {name}'
        changed.append(line)
    return [HEADERS[1], *(f'blob {digest} {field}' for digest, field in blobs.items()), *changed[1:]]


def state(draw):
    lines = [HEADERS[0]]
    for place in ROOTS[:3]:
        if draw.random() < 0.95:
            lines += ['replica ' + place] + entries(draw, False)
    if draw.random() < 0.4:
        lines += ['archive /srv/hub', 'with /srv/s1'] + entries(draw, True)
    lines.append('end')
    return ['%state', *(with_blobs(lines) if draw.random() < 0.3 else lines)]


def bundle(draw):
    lines = []
    for number in range(draw.choice([0, 1, 2, 2, 3, 5, 34])):
        lines += profile(draw, number)
    if draw.random() < 0.4:
        lines += rules(draw)
    if draw.random() < 0.5:
        lines += state(draw)
    if draw.random() < 0.05:
        lines += ['%certificates', 'hubsync certificates 1', 'goal clash 0 1 root 0', 'stage -', 'end']
    return ('\n'.join(lines) + '\n').encode()


def all_examples():
    """The examples, and the inputs of the tables."""
    found = [file.read_bytes() for file in sorted((TOP / 'examples').glob('*.bundle'))]
    for table in sorted((TOP / 'examples' / 'answers').glob('*.txt')):
        for case in re.findall(r'^== .*\n((?:[^$].*\n|\n)*)\$', table.read_text(), re.M):
            found.append(case.encode())
    return found


WORDS = ['%profile p', '%profile ', '%rules', '%state', '%certificates', '%', 'end', 'replica /srv/hub', 'archive /srv/hub', 'with /srv/s1',
         'dir a', 'dir a/b', 'file - a', 'file 61 a/b', 'blob - -', 'blob ' + 'e3b0c442' * 8 + ' -', 'goal clash 0 1 root 0', 'goal breach 0 0',
         'goal clash 0 1 archive', 'goal clash 9999 1 root 1', 'stage -', 'stage 61', 'stage ff', 'stage 6', 'stage 0a', 'stage 2f61', '']


def damage_lines(draw, data):
    lines = data.split(b'\n')
    at = draw.randrange(len(lines))
    to = min(len(lines), at + draw.choice([1, 1, 1, 2, 5, 20]))
    kind = draw.randrange(6)
    if kind == 0:
        del lines[at:to]
    elif kind == 1:
        lines[at:at] = lines[at:to]
    elif kind == 2:
        other = draw.randrange(len(lines))
        lines[at], lines[other] = lines[other], lines[at]
    elif kind == 3:
        lines.insert(at, draw.choice([profile_line(draw), draw.choice(WORDS)]).encode())
    elif kind == 4:
        lines[at] += draw.choice([b'\r', b' ', b'\t', b'\0', b'/', b'x', b'\xff', b'\xc3', b'-> /srv/hub'])
    else:
        lines[at] = lines[at] * draw.choice([2, 3, 200])
    return b'\n'.join(lines)


def damage_bytes(draw, data):
    at = draw.randrange(len(data))
    kind = draw.randrange(5)
    if kind == 0:
        return data[:at]
    if kind == 1:
        return data[:at] + data[at + draw.choice([1, 1, 3, 30]):]
    if kind == 2:
        return data[:at] + bytes([draw.choice(b'\n\r \t\0%/=-.*?[]{},\\\xff\xc3\xa4a0')]) + data[at + draw.randrange(2):]
    if kind == 3:
        return data[:at] + bytes([data[at] ^ 1 << draw.randrange(8)]) + data[at + 1:]
    return data[:at] + bytes(draw.randrange(256) for _ in range(draw.choice([1, 4, 16]))) + data[at:]


def damaged(draw, data):
    for _ in range(draw.choice([0, 1, 1, 2, 3, 8, 30])):
        if 0 < len(data) < 100_000:
            data = draw.choice([damage_lines, damage_lines, damage_bytes])(draw, data)
    return data


COMMANDS = [[], [], ['check'], ['certify'], ['verify'], ['verify'], ['run'], ['run', '--workers', '1'], ['run', '--workers', '16'],
            ['run', '--workers', '0'], ['run', '--workers', '17'], ['reach', 'p0', 'a/b'], ['reach', 'p1', 'a/../b'], ['reach', 'x', '']]


def asked(options, words, data):
    """The status, the output and the errors of a run, or what went wrong with it."""
    limit = options.megabytes << 20

    def bound():
        resource.setrlimit(resource.RLIMIT_AS, (limit, limit))
        resource.setrlimit(resource.RLIMIT_CORE, (0, 0))

    try:
        done = subprocess.run([options.program, *words], input=data, capture_output=True, timeout=options.seconds, preexec_fn=bound)
    except subprocess.TimeoutExpired:
        return None, b'', b''
    # without the remarks on the answer
    errors = b''.join(line for line in done.stderr.splitlines(True) if not line.startswith(b'hubsync: '))
    return done.returncode, done.stdout, errors


def is_whole_state(text):
    return text.startswith(tuple(header.encode() + b'\n' for header in HEADERS)) and text.endswith(b'\nend\n')


def is_report(text):
    """Whether the text is what the jobs did and the state that they left."""
    while True:
        line = JOB_LINE.match(text)
        if line is None:
            return is_whole_state(text)
        text = text[line.end():]


def wrong_with(status, output, errors):
    """What is wrong with an answer by itself, if something is."""
    if status is None:
        return 'it takes too long'
    if status not in (0, 1, 2, 3):
        return f'status {status}: {errors[:200]!r}'
    if errors and not (status == 2 and not output):
        return f'standard error: {errors[:200]!r}'
    if status == 1 and REFUSAL.fullmatch(output):
        return None
    if status == 2 and (FAULT.fullmatch(output) or (errors and not output)):
        return None
    if status == 3 and output.startswith(b'safe\n') and STOPS.fullmatch(output[5:]):
        return None
    if status == 0 and output in (b'safe\n', b'verified\n', b'reached\n', b'not reached\n'):
        return None
    if status == 0 and output.startswith(b'hubsync certificates 1\n') and output.endswith(b'\nend\n'):
        return None
    if status in (0, 3) and output.startswith(b'safe\n') and is_report(output[5:]):
        return None
    return f'status {status} and {output[:200]!r}'


def first_word(status, output):
    line = output.split(b'\n', 1)[0].decode('utf-8', 'replace')
    if line.startswith('fault: '):
        line = re.sub(r'profile .* line \d+', 'profile P line L', line)
        line = re.sub(r'line \d+', 'line L', line)
        line = re.sub(r'UnknownPreference.*', 'UnknownPreference', line)
        line = re.sub(r'no profile .*', 'no profile P', line)
    elif line.startswith('refused: '):
        line = re.sub(r'\d+', 'N', line)
        line = re.sub(r'(SameName|NestedRoots).*', r'\1', line)
    else:
        line = line.split(':', 1)[0]
    if output.startswith(b'safe\nrun fault'):
        line = 'safe, run fault'
    elif output.startswith(b'safe\n') and output != b'safe\n':
        line = 'safe, jobs and a state'
    return f'{status} {line}'


class Hunt:
    """Asks, judges and counts."""

    def __init__(self, options):
        self.options = options
        self.counts = collections.Counter()
        self.longest = 0.0
        self.wrong = 0

    def ask(self, words, data, wanted=None):
        """The answer to a bundle. `wanted` is what the output has to be, if that is known."""
        begin = time.monotonic()
        status, output, errors = asked(self.options, words, data)
        self.longest = max(self.longest, time.monotonic() - begin)
        problem = wrong_with(status, output, errors)
        if problem is None and wanted is not None and output not in [*wanted, OUT_OF_MEMORY]:
            problem = f'wanted {[text[:200] for text in wanted]}, got {output[:200]!r}'
        if problem is not None:
            self.keep(words, data, problem)
            return None, b''
        self.counts[first_word(status, output)] += 1
        return status, output

    def keep(self, words, data, problem):
        self.wrong += 1
        folder = pathlib.Path(self.options.keep)
        folder.mkdir(parents=True, exist_ok=True)
        name = '-'.join([str(self.options.seed), str(self.wrong), *words]).replace('/', '_')
        (folder / name).write_bytes(data)
        print(f'wrong: {folder / name}: {problem}', flush=True)

    def follow(self, draw, words, data, status, output):
        """Asks what has to follow from an answer."""
        if output == b'verified\n':
            _, other = self.ask(['check'], data)
            if other and not (other in (b'safe\n', OUT_OF_MEMORY) or other.startswith(b'too large')):
                self.keep(['check'], data, f'verified, and then {other[:200]!r}')
        elif output.startswith(b'safe\n') and len(output) > 5 and STOPS.match(output[5:]) is None:
            text = re.search(rb'^hubsync state \d\n', output, re.M)
            state = output[text.start():]
            self.ask([], b'%state\n' + state, [b'safe\n' + state])
        if output.startswith(b'safe\n') and b'%certificates' not in data and draw.random() < 0.5:
            self.certify(draw, data)

    def certify(self, draw, data):
        """Has a safe bundle certified and verified, and asks about damaged certificates."""
        if not data.endswith(b'\n'):
            data += b'\n'
        status, output = self.ask(['certify'], data)
        if status != 0 or not output.startswith(b'hubsync'):
            if status is not None and output != OUT_OF_MEMORY:
                self.keep(['certify'], data, f'safe, and then {output[:200]!r}')
            return
        self.ask(['verify'], data + b'%certificates\n' + output, [b'verified\n'])
        for _ in range(3):
            forged = data + b'%certificates\n' + damaged(draw, output)
            self.ask(['verify'], forged)


def main():
    parser = argparse.ArgumentParser(description=__doc__, formatter_class=argparse.RawDescriptionHelpFormatter)
    parser.add_argument('--program', default=str(TOP / 'crates/hubsync/out/hubsync'))
    parser.add_argument('--minutes', type=float, default=1)
    parser.add_argument('--seed', type=int, default=random.randrange(10**9))
    parser.add_argument('--megabytes', type=int, default=2000)
    parser.add_argument('--seconds', type=float, default=20)
    parser.add_argument('--keep', default='/tmp/hostile')
    options = parser.parse_args()
    print(f'seed {options.seed}, {options.minutes:g} minutes', flush=True)
    draw = random.Random(options.seed)
    examples = all_examples()
    hunt = Hunt(options)
    end = time.monotonic() + 60 * options.minutes
    while time.monotonic() < end:
        data = damaged(draw, draw.choice(examples) if draw.random() < 0.4 else bundle(draw))
        words = draw.choice(COMMANDS)
        status, output = hunt.ask(words, data)
        if status is not None:
            hunt.follow(draw, words, data, status, output)
    for answer, count in hunt.counts.most_common():
        print(f'{count:7} {answer}')
    total = sum(hunt.counts.values())
    print(f'{total + hunt.wrong} answers, {hunt.wrong} of them wrong, the longest after {hunt.longest:.2f} s')
    return 1 if hunt.wrong else 0


if __name__ == '__main__':
    sys.exit(main())
