#!/usr/bin/env python3
"""Who calls whom in the disassembly of an object or archive, and whether anything can call itself.

usage: x86_64-linux-gnu-objdump -dr -M intel FILE | calls.py

Prints one line: the functions, and either that there is no recursion or a circle of calls. A call through a
register would leave the graph open; then the line says so and the exit status is 1, as for a circle.
"""
import re
import sys


def read(lines):
    calls, through_register, function, jumps = {}, [], None, False
    for line in lines:
        head = re.match(r'[0-9a-f]+ <(.+)>:$', line)
        if head:
            function = head.group(1)
            calls.setdefault(function, set())
            continue
        code = re.match(r' *[0-9a-f]+:\t[^\t]*\t(?:\w+ )*?(call|j\w+)\s+(.*)', line)
        if code:
            jumps = True
            target = re.search(r'<([^>+]+)(\+0x[0-9a-f]+)?>', code.group(2))
            if code.group(1) == 'call' and not re.match(r'[0-9a-f]+ <', code.group(2)):
                through_register.append(function)
            elif target and target.group(2) is None and (code.group(1) == 'call' or target.group(1) != function):
                calls[function].add(target.group(1))  # a jump to the own start is a loop
        elif re.match(r' *[0-9a-f]+:\t', line):
            jumps = False
        place = re.search(r'R_X86_64_(?:PLT32|PC32)\t(\S+?)([-+]0x[0-9a-f]+)?$', line)
        if place and jumps:
            calls[function].add(place.group(1).removeprefix('.text.'))
    return calls, through_register


def circle(calls):
    """The first chain of calls that comes back to where it was, or None."""
    done = set()

    def walk(function, chain):
        if function in chain:
            return chain[chain.index(function):] + [function]
        if function in done:
            return None
        for next_one in sorted(calls.get(function, ())):
            found = walk(next_one, chain + [function])
            if found:
                return found
        done.add(function)
        return None

    for function in sorted(calls):
        found = walk(function, [])
        if found:
            return found
    return None


def main():
    calls, through_register = read(sys.stdin.read().splitlines())
    found = circle(calls)
    if not calls:
        sys.exit('calls.py: no code on standard input')
    if through_register:
        sys.exit(print('calls through a register in ' + ', '.join(sorted(set(through_register)))) or 1)
    if found:
        sys.exit(print('recursion: ' + ' calls '.join(found)) or 1)
    print('no recursion in %d functions' % len(calls))


if __name__ == '__main__':
    main()
