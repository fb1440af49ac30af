#!/usr/bin/env python3
"""Runs the event program and the peer on the same random records and prints the first difference, with its record.

usage: compare.py [COUNT [SEED]]        (200000 records in files of 20000, from seed 1 on)

It builds the peer with the machine's C compiler, and the event program by ./events where that is needed.
"""
import os
import subprocess
import sys

HERE = os.path.dirname(os.path.abspath(__file__))
ROOT = os.path.dirname(HERE)
FILE = 20000


def lines(command, records):
    """What a program writes, by event number; the last line under None."""
    done = subprocess.run(command, input=records, capture_output=True, check=True)
    by = {}
    for line in done.stdout.decode('ascii').splitlines():
        first = line.split(' ', 1)[0]
        by.setdefault(int(first) if first.isdigit() else None, []).append(line)
    return by


def main():
    words = sys.argv[1:]
    if len(words) > 2 or not all(word.isdigit() for word in words):
        sys.exit(__doc__)
    count, seed = [int(word) for word in words] + [200000, 1][len(words):]
    subprocess.run(['sh', os.path.join(HERE, 'peer', 'build.sh')], check=True, stdout=subprocess.DEVNULL)
    left = count
    while left > 0:
        records = subprocess.run([sys.executable, os.path.join(HERE, 'make_events.py'), str(seed), str(min(left, FILE))],
                                 check=True, capture_output=True).stdout
        node = lines([os.path.join(ROOT, 'events')], records)
        peer = lines([os.path.join(HERE, 'peer', 'build', 'events')], records)
        for n in sorted(set(node) | set(peer), key=lambda n: (n is None, n)):
            if node.get(n) != peer.get(n):
                record = 'the power-on' if n == 0 else 'the last line' if n is None else records[13 * (n - 1):13 * n].hex()
                print('seed %d, event %s: %s\n  the node: %s\n  the peer: %s' % (seed, n, record, node.get(n), peer.get(n)))
                return 1
        left -= min(left, FILE)
        seed += 1
    print('%d records, no difference' % count)
    return 0


if __name__ == '__main__':
    sys.exit(main())
