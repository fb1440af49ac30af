#!/usr/bin/env python3
"""Writes what the peer answers to the questions of crates/probe: the file crates/probe/stdout is made by this.

usage: probe_expected.py LIBRARY

LIBRARY is the peer as a shared library (peer/build.sh makes it).
"""
import sys
from check_peer import Node, load

# NMT state, index, sub, size (0: not indicated), data
WRITES = [
    (127, 0x1800, 3, 1, 0x00000000),
    (127, 0x6132, 1, 4, 0x00000002),
    (127, 0x6132, 1, 1, 0x00000002),
    (127, 0x6132, 1, 1, 0x00000005),
    (127, 0x6132, 1, 0, 0xffffff04),
    (127, 0x1301, 1, 1, 0x00000002),
    (127, 0x1301, 2, 2, 0x00000000),
    (127, 0x1301, 2, 1, 0x00000005),
    (127, 0x1301, 3, 1, 0x00000000),
    (127, 0x1301, 4, 1, 0x000000fe),
    (127, 0x1301, 5, 4, 0x00000101),
    (127, 0x1301, 5, 4, 0x00000102),
    (127, 0x1301, 5, 4, 0x00000181),
    (127, 0x1301, 6, 4, 0x00000180),
    (127, 0x1301, 6, 4, 0x0000017f),
    (127, 0x1301, 7, 1, 0x00000000),
    (127, 0x1301, 0, 1, 0x00000006),
    (127, 0x1800, 2, 1, 0x000000f1),
    (127, 0x1800, 2, 1, 0x000000f0),
    (127, 0x1800, 2, 2, 0x000000fa),
    (127, 0x1800, 5, 2, 0x0000ffff),
    (127, 0x6121, 1, 4, 0x49742400),
    (127, 0x6121, 1, 4, 0x49742401),
    (127, 0x6121, 1, 4, 0xc9742401),
    (127, 0x6121, 1, 4, 0x7f800000),
    (127, 0x6121, 1, 4, 0x7fc00001),
    (127, 0x6121, 1, 3, 0x00000000),
    (127, 0x51fe, 0, 1, 0x000000a5),
    (127, 0x51fe, 0, 1, 0x000000a4),
    (127, 0x13fe, 0, 1, 0x000000a5),
    (127, 0x51ff, 1, 2, 0x0000ea44),
    (127, 0x1010, 1, 4, 0x65766173),
    (127, 0x1010, 1, 4, 0x64616f6c),
    (127, 0x1011, 3, 4, 0x64616f6c),
    (127, 0x1010, 4, 4, 0x65766173),
    (127, 0x1011, 0, 1, 0x00000003),
    (127, 0x1008, 0, 4, 0x00000000),
    (127, 0x1000, 0, 1, 0x00000000),
    (127, 0x2000, 0, 1, 0x00000000),
    (127, 0x1017, 0, 2, 0x000003e8),
    (127, 0x1017, 1, 2, 0x000003e8),
    (127, 0x2330, 0, 1, 0x00000002),
    (5, 0x6132, 1, 1, 0x00000005),
    (5, 0x6132, 1, 4, 0x00000002),
    (5, 0x1000, 0, 4, 0x00000000),
    (5, 0x1800, 3, 1, 0x00000000),
    (5, 0x1017, 0, 2, 0x00000005),
    (5, 0x1800, 2, 2, 0x000000fa),
    (5, 0x1010, 1, 2, 0x00000001),
    (5, 0x51fe, 0, 1, 0x000000a5),
]
COMMAND = {0: 0x22, 1: 0x2f, 2: 0x2b, 3: 0x27, 4: 0x23}


def frame(can_id, data):
    return bytes([1]) + can_id.to_bytes(2, 'little') + bytes([0, len(data)]) + data + bytes(8 - len(data))


def write(index, sub, size, data, to=1):
    return frame(0x600 + to, bytes([COMMAND[size]]) + index.to_bytes(2, 'little') + bytes([sub]) + data.to_bytes(4, 'little'))


def reply(node, event):
    """The data of the first frame that an event is answered with."""
    answer = node.lib.peer_event(node.state, event, 13, node.out, 48, node.store, 64)
    assert answer.number == 0
    return node.out.raw[4:4 + node.out.raw[3]]


def code(lib, nmt, index, sub, size, data):
    node = Node(lib)
    if nmt == 5:
        for event in (write(0x1301, 1, 1, 0), write(0x51ff, 1, 2, 0xea44), write(0x51fe, 0, 1, 0xa5), frame(0, bytes([1, 0]))):
            reply(node, event)
    answered = reply(node, write(index, sub, size, data))
    return 0 if answered[0] == 0x60 else int.from_bytes(answered[4:8], 'little')


def cobs(lib, node_id):
    node = Node(lib)
    lss = lambda data: frame(0x7e5, data + bytes(8 - len(data)))
    for event in (lss(bytes([4, 1])), lss(bytes([0x11, node_id])), frame(0, bytes([130, 0]))):
        reply(node, event)
    read = lambda sub: frame(0x600 + node_id, bytes([0x40, 0x01, 0x13, sub, 0, 0, 0, 0]))
    return [int.from_bytes(reply(node, read(sub))[4:8], 'little') for sub in (5, 6)]


def main():
    lib = load(sys.argv[1])
    for node_id in (1, 64, 65):
        print('cobs %d %03x %03x' % (node_id, *cobs(lib, node_id)))
    for nmt, index, sub, size, data in WRITES:
        print('write %d %04x %d %d %08x %08x' % (nmt, index, sub, size, data, code(lib, nmt, index, sub, size, data)))
    print('saved 0 0 0')
    node = Node(lib)
    reply(node, write(0x1010, 1, 4, 0x65766173))
    print('saved 0 21 17')
    print(node.store.raw[:64].hex())


if __name__ == '__main__':
    if len(sys.argv) != 2:
        sys.exit('usage: probe_expected.py LIBRARY')
    main()
