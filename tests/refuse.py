#!/usr/bin/env python3
"""Runs the program, and the test programs, with each request for memory refused in turn, until a run makes no such request.

    tests/refuse.py [--program PATH] [--only WORD]

Of PATH (crates/hubsync/out/hubsync) these are tried: `check`, `certify`, `verify` and `reach` on safe bundles and on those that
are refused or faulty, `run` by one, two and three workers on bundles with one, two and three jobs, and `run --in-order` by one and four
workers on three jobs of which two clash, in each thread. Standard error has at most remarks on the answer, and none if that is
`fault: out of memory`. An answer is right if

- it is that with ample memory;
- it is `fault: out of memory`, status 2;
- a request of the first thread of a run was refused: it is the first line and `run fault: ThreadRefused`, status 3;
- a request of a worker was refused: the status is 3, at least one job is stopped and the others ended as with ample memory. In
  the state below, the paths of a finished job are as with ample memory. Each path of a stopped job is at each root as it was before,
  or as with ample memory, and its archive is as it was. In order one job is stopped after some of its changes, and those after it
  end as they do in runs of one after another on what it left.

The test programs are asked the questions of QUESTIONS, each by itself. Their answer is that with ample memory, or one of those that
are given, where memory for a step was refused and the next steps go on, or it is the error. Those that aren't built are left out,
and named.

A C compiler is needed for tests/refuse.c, which takes the place of `malloc`, `calloc`, `realloc` and `pthread_create`. One worker
makes the same requests in each run. With more, each number that a single worker comes to is tried once in each thread. As many runs go
on at a time as there are processors. A line for each question counts the answers. The status is 1 if one was wrong.
"""
import argparse
import collections
import concurrent.futures
import hashlib
import os
import pathlib
import re
import subprocess
import sys
import tempfile

TOP = pathlib.Path(__file__).resolve().parent.parent
NONE_EXPECTED = b'0 right\n'    # the last line of a test program whose question came without an answer
OUT_OF_MEMORY = b'fault: out of memory\n'
# What is said of an input of which not all is kept. All inputs here are short.
OF_LONG_INPUTS = (b'the input is longer', b'a profile follows a line')
ROOTS = 'root = /srv/hub\nroot = /srv/s1\n'


def is_remark(line):
    """Whether a line of standard error may belong to an answer."""
    return line.startswith(b'hubsync: ') and not any(words in line for words in OF_LONG_INPUTS)


class Runner:
    """Runs programs with a request refused."""

    def __init__(self, folder):
        self.library = str(folder / 'refuse.so')
        subprocess.run(['cc', '-O1', '-shared', '-fPIC', '-o', self.library, str(TOP / 'tests/refuse.c'), '-ldl'], check=True)
        self.lanes = os.cpu_count() or 1
        self.pool = concurrent.futures.ThreadPoolExecutor(self.lanes)

    def run(self, command, data, number=0, thread=0, threads=0):
        """Whether the request was refused, the status, the output and the errors."""
        ours, theirs = os.pipe()
        own = dict(os.environ, LD_PRELOAD=self.library, REFUSE=str(number), THREAD=str(thread), THREADS=str(threads), REFUSE_FILE=str(theirs))
        done = subprocess.run(command, input=data, capture_output=True, env=own, pass_fds=[theirs])
        os.close(theirs)
        said = os.read(ours, 1)
        os.close(ours)
        errors = b''.join(line for line in done.stderr.splitlines(True) if done.stdout == OUT_OF_MEMORY or not is_remark(line))
        return said != b'', done.returncode, done.stdout, errors

    def each(self, command, data, judge, thread=0, threads=0, bound=None):
        """Counts what `judge` says of each run, up to the first that makes no such request, or to a number of requests."""
        counts = collections.Counter()
        wrong = []
        number = 1
        while bound is None or number <= bound:
            numbers = range(number, number + 8 * self.lanes)
            runs = self.pool.map(lambda n: self.run(command, data, n, thread, threads), numbers)
            for each, (refused, status, output, errors) in zip(numbers, runs):
                if bound is None and not refused:
                    if judge(status, output, errors, thread) != 'ample':
                        wrong.append((each, status, output, errors))
                    return each - 1, counts, wrong
                if bound is not None and each > bound:
                    break
                word = judge(status, output, errors, thread) if refused else 'not made'
                counts[word] += 1
                if word == 'wrong':
                    wrong.append((each, status, output, errors))
            number += 8 * self.lanes
        return bound, counts, wrong


def parts_of(text):
    """The state of a state text: what stands at each root and path, a file by its digest."""
    found, place = {}, None
    for line in text.decode().splitlines()[1:-1]:
        word, rest = line.split(' ', 1)
        if word in ('replica', 'archive'):
            place = (word, rest)
        elif word == 'with':
            place = (*place, rest)
        elif word == 'dir':
            found[(place, rest)] = 'dir'
        elif word == 'file':
            field, path = rest.split(' ', 1)
            if place[0] == 'replica' and text.startswith(b'hubsync state 1'):
                field = hashlib.sha256(bytes.fromhex('' if field == '-' else field)).hexdigest()
            found[(place, path)] = field.lower()
    return found


def cut(output):
    """The lines of the jobs, by name, and the state text."""
    at = re.search(rb'^hubsync state \d\n', output, re.M).start()
    jobs, name = {}, None
    for line in output[:at].decode().splitlines()[1:]:
        if line.startswith('job '):
            _, name, end = line.split(' ')
            jobs[name] = [end]
        else:
            jobs[name].append(line)
    return jobs, output[at:]


class Ran:
    """Judges runs. Each job has the name of its only path."""

    def __init__(self, before, ample):
        self.ample = ample
        self.refused = ample.split(b'\n', 1)[0] + b'\nrun fault: ThreadRefused\n'
        self.before = parts_of(before)
        self.jobs, state = cut(ample)
        self.after = parts_of(state)

    def judge(self, status, output, errors, thread):
        if errors:
            return 'wrong'
        if (status, output) == (0, self.ample):
            return 'ample'
        if thread == 0:
            return {(2, OUT_OF_MEMORY): 'out of memory', (3, self.refused): 'refused thread'}.get((status, output), 'wrong')
        return 'stopped' if status == 3 and output != self.refused and self.is_stopped(output) else 'wrong'

    def is_stopped(self, output):
        jobs, state = cut(output)
        parts = parts_of(state)
        stopped = [name for name, lines in jobs.items() if lines == ['stopped']]
        if not stopped or any(jobs[name] != lines for name, lines in self.jobs.items() if name not in stopped):
            return False
        for key in {*parts, *self.before, *self.after}:
            place, path = key
            allowed = [self.after.get(key)]
            if path.split('/')[0] in stopped:
                allowed = [self.before.get(key)] + (allowed if place[0] == 'replica' else [])
            if parts.get(key) not in allowed:
                return False
        return True


class RanInOrder(Ran):
    """Judges runs in order, by runs of one profile after another. Each change of a job brings a file, and they come by path."""

    def __init__(self, before, ample, program, profiles):
        super().__init__(before, ample)
        self.program, self.profiles = program, ['%profile ' + it for it in profiles.split('%profile ')[1:]]
        self.left = {self.one_by_one(before, name, made) for name, lines in self.jobs.items() for made in range(len(lines))}
        if self.one_by_one(before) != ample:
            self.ample = None    # no answer is right

    def run(self, profile, now):
        """The lines of the job of a profile, and the state that it leaves."""
        bundle = profile.encode() + b'%state\n' + now
        answer = subprocess.run([self.program, 'run'], input=bundle, capture_output=True, check=True).stdout
        at = answer.index(b'hubsync state ')
        return answer[answer.index(b'\n') + 1:at], answer[at:]

    def one_by_one(self, now, stopped=None, made=0):
        """The answer if the job of that name is stopped when it has made so many of its changes."""
        lines = b''
        for profile, (name, items) in zip(self.profiles, self.jobs.items()):
            own, after = self.run(profile, now)
            if name == stopped:
                own = f'job {name} stopped\n'.encode()
                after = self.with_changes(profile, items[1:made + 1], now)
            lines, now = lines + own, after
        return b'in order\n' + lines + now

    def with_changes(self, profile, items, now):
        """The state with these changes of a job, and no other archive."""
        if not items:
            return now
        paths = ''.join(f'path = {item.split(" ")[2]}\n' for item in items)
        _, after = self.run(profile[:profile.index('path = ')] + paths, now)
        archives = re.compile(rb'^(archive |end$).*', re.M | re.S)    # to the end of the text
        return archives.sub(archives.search(now)[0], after)

    def is_stopped(self, output):
        return output in self.left


class Answered:
    """Judges answers that are one thing or another."""

    def __init__(self, status, output, steps=()):
        self.wanted = (status, output)
        self.steps = steps

    def judge(self, status, output, errors, _thread):
        if (status, output) == self.wanted and not errors:
            return 'ample'
        if (status, output) == (2, OUT_OF_MEMORY) and not errors:
            return 'out of memory'
        if status == 0 and not errors and output in self.steps:
            return 'refused step'
        if self.is_error(status, output, errors):
            return 'error'
        return 'wrong'

    def is_error(self, _status, _output, _errors):
        return False


class Tested(Answered):
    """Judges the answers of a test program: it ends with an error, and wrote a prefix of the answer. Its error is `WriteFailed` if the
    text that it writes a state into could not grow. Where it compares two searches of each goal, one refused search is not the same."""

    def judge(self, status, output, errors, thread):
        word = super().judge(status, output, errors, thread)
        is_one = output.count(b'not the same') == 1 and output.replace(b'not the same', b'the same') == self.wanted[1]
        return 'refused step' if word == 'wrong' and status == 0 and not errors and is_one else word

    def judge_table(self, status, output, errors, thread):
        return self.judge(status, output.removesuffix(NONE_EXPECTED), errors, thread)

    def is_error(self, status, output, errors):
        words = (b'OutOfMemory', b'WriteFailed', b'out of memory', b'memory allocation failed', b'AllocError', b'no set', b"isn't safe", b'no book', b'no desk')
        return status == 1 and self.wanted[1].startswith(output) and any(word in errors for word in words)


class TestedRan(Tested):
    """Judges what a test program says of a run: how the jobs ended, with their logs, and the state. The jobs are `a` and `b`."""

    def __init__(self, before, question, ample):
        super().__init__(0, ample)
        self.question = question
        self.ends, state = self.ends_of(ample)
        self.ran = Ran(before, b'safe\njob a finished\njob b finished\n' + state)

    def ends_of(self, output):
        """How each job ended, with its log, and the state text."""
        first, state = output[len(self.question) + 4:].split(b'\n', 1)
        return first.decode().split(', '), state[:-1]

    def judge(self, status, output, errors, thread):
        word = super().judge(status, output, errors, thread)
        if word != 'wrong' or status != 0 or errors:
            return word
        if output in [f'{self.question} => {fault}\n'.encode() for fault in ('OutOfMemory', 'ThreadRefused')]:
            return 'fault'
        return 'stopped' if self.is_outcome(output) else 'wrong'

    def is_outcome(self, output):
        ends, state = self.ends_of(output)
        if len(ends) != 2:
            return False
        for end, whole in zip(ends, self.ends):
            log = end.split(' ')[1:]
            if end != whole and not (end.startswith('stopped') and log == whole.split(' ')[1:][:len(log)]):
                return False
        lines = [f'job {name} {end.split(" ")[0]}\n' for name, end in zip('ab', ends)]
        return self.ran.is_stopped(('safe\n' + ''.join(lines)).encode() + state)


def profile(name, more=''):
    return f'%profile {name}\n{ROOTS}path = {name}\n{more}'


def state(hub, other, header='hubsync state 1'):
    """A state of these files, whose only byte is their name's last letter."""
    lines = [header, 'replica /srv/hub', *hub.split('; '), 'replica /srv/s1', *other.split('; '), 'end']
    return '\n'.join(line for line in lines if line) + '\n'


SAFE = profile('a', 'ignore = Name {x*,[0-9]y}\n') + profile('b') + '%rules\nroot = /srv/hub\nnolose = BelowPath c\n'
ONE = (profile('a'), state('file 61 a', ''))
TWO = (profile('a') + profile('b'), state('file 61 a', 'file 62 b'))
THREE = (profile('a') + profile('b') + profile('c'), state('file 61 a; dir c; file 63 c/x', 'file 62 b; dir c; file 64 c/y'))
# `b` brings to /srv/s2 what `a` brought to /srv/hub. It runs in a second wave, after `a` and `c`.
AFTER_A = '%profile b\nroot = /srv/hub\nroot = /srv/s2\npath = a\n'
CLASHING = (profile('a') + AFTER_A + profile('c'), state('dir a; file 63 c', 'dir a; file 61 a/x; file 62 a/y\nreplica /srv/s2\ndir a'))
# The words, the bundle, and for some numbers of workers how many threads are started at once, and how many in all.
RUNS = [
    (['run'], ONE, [(1, 1, 1)]),
    (['run'], TWO, [(1, 1, 1), (2, 2, 2)]),
    (['run'], THREE, [(1, 1, 1), (2, 2, 2), (3, 3, 3)]),
    (['run', '--in-order'], CLASHING, [(1, 1, 2), (4, 2, 3)]),
]
# The words, the bundle, and the status and the first line with ample memory.
COMMANDS = [
    ([], SAFE, 0, 'safe'),
    (['check'], SAFE, 0, 'safe'),
    (['certify'], SAFE, 0, 'hubsync certificates 1'),
    (['verify'], SAFE + '%certificates\n', 0, 'verified'),
    (['reach', 'a', 'a/b'], SAFE, 0, 'reached'),
    (['reach', 'a', 'b'], SAFE, 0, 'not reached'),
    (['reach', 'z', 'b'], SAFE, 2, 'fault: no profile z'),
    (['reach', 'a', '/b'], SAFE, 2, 'fault: path: LeadingSlash'),
    (['check'], profile('a') + f'%profile b\n{ROOTS}path = a/b\n', 1, 'overlap: a writes a at /srv/hub, b reaches a/b'),
    (['certify'], profile('a') + '%rules\nroot = /srv/s1\nnolose = BelowPath a\n', 1, 'breach: a may delete a at /srv/s1, rule 0'),
    (['verify'], SAFE, 1, 'refused: goal 0 Missing'),
    ([], profile('a') + profile('a'), 1, 'refused: SameName a'),
    ([], profile('a') + '%profile b\nroot = /srv/hub/x\nroot = /srv/s2\n', 1, 'refused: NestedRoots /srv/hub and /srv/hub/x'),
    ([], profile('a', 'auto = true\ninclude = x\n'), 2, 'fault: profile a line 5: UnknownPreference include'),
    ([], profile('a') + '%state\n' + state('file 61 b/c', ''), 2, 'fault: state line 3: NoParent'),
    (['run'], SAFE, 2, 'fault: no state'),
    (['run', '--workers', '0'], ONE[0] + '%state\n' + ONE[1], 3, 'safe'),
    (['run', '--in-order', '--workers', '0'], CLASHING[0] + '%state\n' + CLASHING[1], 3, 'in order'),
    (['run', '--in-order'], CLASHING[0] + '%rules\nroot = /srv/s1\nnolose = BelowPath a\n%state\n' + CLASHING[1], 1,
     'breach: a may delete a at /srv/s1, rule 0'),
]
# A test program, what is given and asked, and the answers where memory for a step was refused. `None` are those of a run.
STATE = state('file 61 a', 'file 62 b')
PROFILES = 'profile a /srv/hub /srv/s1 path = a\nprofile b /srv/hub /srv/s1 path = b\n' + STATE
SPOKES = 'profile a /srv/s1 path = a\nprofile b /srv/s1 path = b\n' + STATE
PAIR = 'u hub disk: path = a | v hub disk: path = b'
TEXTS = '- c . / a b c/ .. a/ b/ a/c a/. b/c b/. a/.. b/..'
# A step that is refused changes nothing, isn't in the history, and the gate's `within` was called for it.
DESK = [
    'OutOfMemory; NoParent; absent; directory; {}',
    'done; OutOfMemory; directory; directory d; {}',
    'done; done; OutOfMemory; directory d; {}',
    'done; done; directory x; OutOfMemory; {}',
]
CLOSED = 'gate 4; seat 3; 0 seats: 0 of 3; 1 seats: 0 of 3; history of 3'
# A job that is stopped stays stopped.
TURNS = [
    '0; stopped; 0; stopped | stopped | none | no archive',
    '0; Left look a; 0; stopped | stopped | none | no archive',
]
QUESTIONS = [
    ('test_checker', '', 'check ' + PAIR, ['OutOfMemory']),
    ('test_checker', '', f'verify all: {TEXTS} | {PAIR}', ['OutOfMemory']),
    ('test_checker', '', 'search clash 0 1 root 0 | ' + PAIR, ['OutOfMemory']),
    ('test_checker', '', 'certificates ' + PAIR, ['OutOfMemory']),
    ('test_checker', '', 'check u hub disk: path = a | v hub disk: path = a/b', ['OutOfMemory']),
    ('test_checker', '', 'set ' + PAIR, ['OutOfMemory']),
    ('test_jobs', SPOKES, 'cycles', None),
    ('test_jobs', SPOKES, 'sequence', None),
    ('test_jobs', SPOKES, 'turns 0 1 0 1 0 1 0 1', None),
    ('test_jobs', SPOKES, 'job 0 log; turn; log; turn', TURNS),
    ('test_runner', 'profile all /srv/hub /srv/s1\n', 'desk /srv/hub 0 mkdir d; 0 write d/x ab; 0 look d; 0 look .', [step.format(CLOSED) for step in DESK]),
    ('test_runner', PROFILES, 'settle', None),
    ('test_runner', PROFILES, 'run 1', None),
    ('test_runner', PROFILES, 'run 2', None),
]


def safe_start(text):
    """Without the line of a state text's version, which is told by `cut`."""
    return text.split(b'\n', 1)[0].decode()


def with_own_certificates(program, bundle):
    if not bundle.endswith('%certificates\n'):
        return bundle.encode()
    done = subprocess.run([program, 'certify'], input=bundle[:-len('%certificates\n')].encode(), capture_output=True, check=True)
    return bundle.encode() + done.stdout


def say(title, made, counts, wrong):
    total = ', '.join(f'{count} {word}' for word, count in sorted(counts.items()))
    print(f'{title}: {made} requests: {total}', flush=True)
    for number, status, output, errors in wrong[:3]:
        print(f'  wrong at request {number}: status {status}, {output[:300]!r} {errors[:200]!r}', flush=True)
    return len(wrong)


def try_commands(runner, program, only):
    wrong = 0
    for words, bundle, status, first in COMMANDS:
        title = ' '.join(['hubsync', *words, '=>', first])
        if only not in title:
            continue
        data = with_own_certificates(program, bundle)
        _, got, ample, _ = runner.run([program, *words], data)
        if (got, safe_start(ample)) != (status, first):
            print(f'{title}: status {got}, {ample[:200]!r}')
            wrong += 1
            continue
        wrong += say(title, *runner.each([program, *words], data, Answered(status, ample).judge))
    return wrong


def try_runs(runner, program, only):
    wrong = 0
    for words, (profiles, before), numbers in RUNS:
        data = (profiles + '%state\n' + before).encode()
        bound = 0
        for workers, at_once, threads in numbers:
            command = [program, *words, '--workers', str(workers)]
            title = f'hubsync {" ".join(words)} --workers {workers}, {profiles.count("%")} jobs'
            if only not in title:
                continue
            _, status, ample, _ = runner.run(command, data)
            ran = RanInOrder(before.encode(), ample, program, profiles) if '--in-order' in words else Ran(before.encode(), ample)
            if ran.judge(status, ample, b'', 0) != 'ample':
                print(f'{title}: status {status}, {ample[:200]!r}')
                wrong += 1
                continue
            wrong += say(f'{title}, the first thread', *runner.each(command, data, ran.judge, 0, at_once))
            for thread in range(1, threads + 1):
                result = runner.each(command, data, ran.judge, thread, at_once, bound if workers > 1 else None)
                if workers == 1:
                    bound = max(bound, result[0])
                wrong += say(f'{title}, worker {thread}', *result)
    return wrong


def try_questions(runner, only):
    wrong = 0
    for name, given, question, steps in QUESTIONS:
        program = TOP / 'crates' / name / 'out' / name
        title = f'{name}: {question}'
        if only not in title:
            continue
        if not program.exists():
            print(f'{title}: not built')
            continue
        data = (given + question + '\n').encode()
        _, status, ample, errors = runner.run([str(program)], data)
        ample = ample.removesuffix(NONE_EXPECTED)
        if status != 0:
            print(f'{title}: status {status}, {errors[:200]!r}')
            wrong += 1
            continue
        if steps is None:
            judge = TestedRan(STATE.encode(), question, ample).judge_table
        else:
            judge = Tested(status, ample, [f'{question} => {step}\n'.encode() for step in steps]).judge_table
        wrong += say(title, *runner.each([str(program)], data, judge))
        if question.startswith('run '):
            workers = int(question.split(' ')[1])
            for thread in range(1, workers + 1):
                result = runner.each([str(program)], data, judge, thread, workers, None if workers == 1 else 40)
                wrong += say(f'{title}, worker {thread}', *result)
    return wrong


def main():
    parser = argparse.ArgumentParser(description=__doc__, formatter_class=argparse.RawDescriptionHelpFormatter)
    parser.add_argument('--program', default=str(TOP / 'crates/hubsync/out/hubsync'))
    parser.add_argument('--only', default='')
    options = parser.parse_args()
    with tempfile.TemporaryDirectory() as folder:
        runner = Runner(pathlib.Path(folder))
        program = str(pathlib.Path(options.program).resolve())
        wrong = try_commands(runner, program, options.only) + try_runs(runner, program, options.only) + try_questions(runner, options.only)
    print(f'{wrong} wrong answers')
    return 1 if wrong else 0


if __name__ == '__main__':
    sys.exit(main())
