#!/usr/bin/env python3
"""Counts the instructions of answers, and their peak memory, of one program or of several beside each other.

    bench/instructions.py [--only WORD]... PROGRAM...

Instructions are counted by callgrind (Debian's package valgrind), so they don't depend on what else the machine does. Peak memory is
read by GNU time. Each row is a question on a bundle that this script makes; `--only` takes the rows whose name begins with that word.
The status is 1 if two programs answer differently.
"""
import argparse
import hashlib
import os
import re
import subprocess
import sys
import tempfile
from pathlib import Path


def profile(number, lines=()):
    return [f'%profile team{number:03}', 'root = /srv/hub', f'root = /srv/spoke{number:03}', *lines]


def star(count, paths, rules=0, ignores=('Name *.{tmp,bak}', 'Name {*~,.#*}')):
    """Profiles over one hub that keep other folders each, and rules of the hub for folders that nobody reaches."""
    lines = []
    for number in range(count):
        lines += profile(number, [f'path = team{number:03}/folder{k}' for k in range(paths)] + [f'ignore = {i}' for i in ignores])
    if rules:
        lines += ['%rules', 'root = /srv/hub', *[f'nolose = BelowPath archive/folder{k}' for k in range(rules)]]
    return lines


def parts(count, ignores=('Name *.{tmp,bak}', 'Name {*~,.#*}')):
    """Profiles over one hub of which the first one has a folder, and each other one a part of it."""
    lines = profile(0, ['path = shared', *[f'ignore = {i}' for i in ignores]])
    for number in range(1, count):
        lines += profile(number, [f'path = shared/team{number:03}', *[f'ignore = {i}' for i in ignores]])
    return lines


def nested(count, ignores=('Name *.{tmp,bak}', 'Name {*~,.#*}')):
    """Profiles over one hub, each of which has a folder of the one before it."""
    return sum((profile(k, ['path = ' + '/'.join(f'level{j}' for j in range(k + 1)), *[f'ignore = {i}' for i in ignores]])
                for k in range(count)), [])


def marks(count, patterns):
    """Profiles that keep other folders each, and whose patterns make many stages."""
    return sum((profile(k, [f'path = team{k:03}', *[f'ignore = {p}' for p in patterns]]) for k in range(count)), [])


def whole(count, marks):
    """Profiles of whole replicas, of which each two have too many stages to decide whether they clash."""
    return sum((profile(k, [f'ignore = Name *a{marks}', 'ignore = Name .*']) for k in range(count)), [])


def parted(count, marks):
    """Profiles of which every second one takes what the others ignore, with many stages."""
    taken = [f'ignore = Name *a{marks}', 'ignore = Name .*']
    rest = ['ignore = Name *', f'ignorenot = Name *a{marks}', 'ignore = Name .*']
    return sum((profile(k, [*(rest if k % 2 else taken), f'ignore = Name q{k}']) for k in range(count)), [])


def state(*sections):
    return ['%state', 'hubsync state 1', *(line for head, below in sections for line in [*head, *below]), 'end']


def entries(count, field):
    lines = []
    for k in range(count):
        if k % 1000 == 0:
            lines.append(f'dir team{k // 1000:03}')
        if k % 100 == 0:
            lines.append(f'dir team{k // 1000:03}/folder{k % 1000 // 100}')
        lines.append(f'file {field} team{k // 1000:03}/folder{k % 1000 // 100}/file{k:06}.txt')
    return lines


def chains(count, depth):
    return [f'dir chain{k:04}' + ''.join(f'/{d}' for d in range(level)) for k in range(count) for level in range(depth)]


def run(hub, spoke, archive=None):
    sections = [(['replica /srv/hub'], hub), (['replica /srv/spoke000'], spoke)]
    if archive is not None:
        sections.append((['archive /srv/hub', 'with /srv/spoke000'], archive))
    return profile(0) + state(*sections)


def bundles():
    zero = '00' * 20
    digest = hashlib.sha256(bytes(20)).hexdigest()
    mega = [f'file {hashlib.sha512(bytes([k])).hexdigest() * 16384} file{k:02}' for k in range(16)]
    characters = ''.join(map(chr, range(0x400, 0x400 + 360)))
    yield 'star', ['check', 'clashes', 'rounds', 'certify', 'verify'], star(32, 8, 16)
    yield 'paths', ['check', 'certify', 'verify'], star(32, 8)
    yield 'rules', ['check', 'certify', 'verify'], star(16, 2, 16)
    yield 'marks', ['check'], marks(4, ['Name *a??????'])
    yield 'characters', ['check'], marks(32, [f'Name [{characters[:180]}]x', f'Name [{characters[180:]}]x'])
    yield 'large', ['check', 'clashes', 'rounds'], star(128, 1)
    yield 'part', ['clashes', 'mend'], star(32, 8) + profile(99, ['path = team000'])
    yield 'parts', ['clashes', 'mend'], parts(32)
    yield 'nested', ['clashes', 'mend'], nested(24)
    yield 'undecided', ['rounds'], whole(12, '?' * 17)
    yield 'parted', ['check'], parted(2, '?' * 13)
    yield 'same', ['run'], run(entries(32600, zero), entries(32600, zero), entries(32600, digest))
    yield 'new', ['run'], run(entries(98000, zero), [])
    yield 'chains', ['run'], run(chains(800, 32), [])
    yield 'mega', ['run'], run(mega, [])


def counted(program, words, file, folder):
    """The answer, millions of instructions and MiB."""
    with open(file, 'rb') as bundle:
        done = subprocess.run(['valgrind', '--tool=callgrind', f'--callgrind-out-file={folder}/out', program, *words], stdin=bundle,
                              capture_output=True, check=False)
    counts = re.search(rb'Collected : (\d+)', done.stderr)
    with open(file, 'rb') as bundle:
        timed = subprocess.run(['/usr/bin/time', '-f', '%M', '-o', f'{folder}/peak', program, *words], stdin=bundle,
                               capture_output=True, check=False)
    if counts is None or timed.stdout != done.stdout:
        sys.exit(f'{program} {" ".join(words)}: no count')
    return done.stdout, int(counts[1]) / 1e6, int(Path(folder, 'peak').read_text().split()[-1]) / 1024


def with_certificates(program, lines, folder):
    text = subprocess.run([program, 'certify'], input='\n'.join(lines + ['']).encode(), capture_output=True, check=True).stdout
    return lines + ['%certificates', *text.decode().splitlines()]


def main():
    parser = argparse.ArgumentParser()
    parser.add_argument('--only', action='append')
    parser.add_argument('programs', nargs='+', type=os.path.abspath)
    asked = parser.parse_args()
    same = True
    with tempfile.TemporaryDirectory() as folder:
        for name, commands, lines in bundles():
            for command in commands:
                row = f'{name} {command}'
                if asked.only and not row.startswith(tuple(asked.only)):
                    continue
                given = with_certificates(asked.programs[0], lines, folder) if command == 'verify' else lines
                file = Path(folder, 'bundle')
                file.write_text('\n'.join(given + ['']))
                found = [counted(p, [command], file, folder) for p in asked.programs]
                differ = len({answer for answer, _, _ in found}) != 1
                same = same and not differ
                print(f'{row:20}', *[f'{count:9.0f} M {peak:6.1f} MiB' for _, count, peak in found],
                      found[0][0][:40].split(b'\n')[0].decode(), 'DIFFERENT' if differ else '', flush=True)
    return 0 if same else 1


if __name__ == '__main__':
    sys.exit(main())
