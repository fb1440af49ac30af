#!/usr/bin/env python3
"""Holds the peer to what is known apart from any node.

usage: check_peer.py LIBRARY SIGNATURES

LIBRARY is the peer as a shared library (peer/build.sh makes it), SIGNATURES the
makers' (vectors/signatures.tsv). After those come the marked cases of the
requirements page, stores built by hand, and a comparison of both PVs with exact
fractions. The first difference ends the run. The makers' other vectors run
through peer and proved node at once, in c/vectors.c.
"""
import ctypes
import random
import struct
import sys
from fractions import Fraction

OUT, STORE = 48, 64


class Identity(ctypes.Structure):
    _fields_ = [(n, ctypes.c_uint32) for n in ('vendor', 'product', 'revision', 'serial')]


class Answer(ctypes.Structure):
    _fields_ = [('number', ctypes.c_uint8), ('count', ctypes.c_uint8)]


def load(path):
    try:
        lib = ctypes.CDLL(path)
    except OSError as error:
        sys.exit('no peer: %s' % error)
    lib.peer_power_on.restype = Answer
    lib.peer_power_on.argtypes = [ctypes.c_void_p, ctypes.POINTER(Identity), ctypes.c_void_p,
                                  ctypes.c_size_t, ctypes.c_void_p, ctypes.c_size_t]
    lib.peer_event.restype = Answer
    lib.peer_event.argtypes = [ctypes.c_void_p, ctypes.c_char_p, ctypes.c_size_t, ctypes.c_void_p,
                               ctypes.c_size_t, ctypes.c_void_p, ctypes.c_size_t]
    lib.peer_crc.restype = ctypes.c_uint16
    lib.peer_crc.argtypes = [ctypes.c_char_p, ctypes.c_size_t]
    lib.peer_pv.restype = ctypes.c_float
    lib.peer_pv.argtypes = [ctypes.c_float] * 3 + [ctypes.c_uint16]
    lib.peer_integer_pv.restype = ctypes.c_int32
    lib.peer_integer_pv.argtypes = [ctypes.c_float, ctypes.c_uint8, ctypes.POINTER(ctypes.c_bool)]
    return lib


class Node:
    """One node with its store; the state is a block of bytes to this script."""

    def __init__(self, lib, identity=(0, 0, 0, 0), store=bytes(STORE)):
        self.lib = lib
        self.state = ctypes.create_string_buffer(512)
        self.out = ctypes.create_string_buffer(OUT)
        self.store = ctypes.create_string_buffer(store, len(store))
        answer = lib.peer_power_on(self.state, ctypes.byref(Identity(*identity)), self.out, OUT,
                                   self.store, len(store))
        self.first = self.frames(answer)

    def frames(self, answer):
        if answer.number:
            return 'refused %d' % answer.number
        texts = []
        for i in range(answer.count):
            frame = self.out.raw[12 * i:12 * i + 12]
            can_id, flag, length = struct.unpack_from('<HBB', frame)
            if flag or any(frame[4 + length:]):
                return 'a badly formed frame ' + frame.hex()
            texts.append('%03X#%s' % (can_id, frame[4:4 + length].hex().upper()))
        return ' '.join(texts) or '-'

    def event(self, event):
        return self.frames(self.lib.peer_event(self.state, event, len(event), self.out, OUT,
                                               self.store, STORE))

    def tick(self, count=1):
        for _ in range(count - 1):
            early = self.event(b'\x02' + bytes(12))
            if early != '-':
                return 'too early: ' + early
        return self.event(b'\x02' + bytes(12))

    def sample(self, fv):
        return self.event(b'\x03' + struct.pack('<H', fv) + bytes(10))

    def send(self, text):
        can_id, data = text.split('#')
        remote = data == 'R'
        data = b'' if remote else bytes.fromhex(data)
        return self.event(struct.pack('<BHBB', 1, int(can_id, 16), remote, len(data))
                          + data.ljust(8, b'\0'))


def differ(row, expected, found):
    print('%s: expected %s, found %s' % (row, expected, found))
    sys.exit(1)


def same(row, expected, found):
    if expected != found:
        differ(row, expected, found)


def rows(path):
    try:
        with open(path, encoding='utf-8') as file:
            lines = [line.rstrip('\n').split('\t') for line in file if line.strip()]
    except OSError as error:
        sys.exit('no signatures: %s' % error)
    return lines[0], lines[1:]


def run_signatures(lib, path):
    head, table = rows(path)
    taken, crc = head.index('bytes signed'), head.index('recomputed CRC')
    run = 0
    for row in table:
        if row[taken] == '-':
            continue
        signed = bytes.fromhex(row[taken])
        same(row[0], row[crc], '%04X' % lib.peer_crc(signed, len(signed)))
        run += 1
    print('%d signatures run' % run)


def integer(lib, bits, digits):
    capped = ctypes.c_bool()
    value = struct.unpack('<f', struct.pack('<I', bits))[0]
    return lib.peer_integer_pv(value, digits, ctypes.byref(capped)), capped.value


def run_marked(lib):
    """The ten marked cases of the page, by events wherever a node shows them."""
    for node_id, pair in ((1, ('0101', '0201')), (64, ('7F01', '8001')), (65, ('7F01', '8001'))):
        node = Node(lib)
        node.send('7E5#0401000000000000')
        node.send('7E5#11%02X000000000000' % node_id)
        same('case 1', '%03X#00' % (0x700 + node_id), node.send('000#8200'))
        for sub, cob_id in zip((5, 6), pair):
            same('case 1', '%03X#430113%02X%s0000' % (0x580 + node_id, sub, cob_id),
                 node.send('%03X#400113%02X00000000' % (0x600 + node_id, sub)))

    cases = [('2', '5C8FC23E', 0, 0, ''), ('2', '5C8FC23E', 2, 38, ''),
             ('2', '5C8FC23E', 4, 3800, ''), ('3', '0000003E', 2, 13, ''),
             ('3', '000000BE', 2, -13, ''), ('4', '00247449', 3, 1000000000, ''),
             ('4', '00247449', 4, 2147483647, ' 081#01FF810000000000')]
    for case, real, digits, expected, emergency in cases:
        node = Node(lib)
        node.send('601#23216101' + real)
        node.send('601#23236101' + real)
        same('case ' + case, '581#6032610100000000' + emergency,
             node.send('601#2F326101%02X000000' % digits))
        same('case ' + case, '581#43309101' + struct.pack('<i', expected).hex().upper(),
             node.send('601#4030910100000000'))

    node = Node(lib)
    same('case 5', '-', node.sample(12000))
    same('case 5', '581#433061010000A042', node.send('601#4030610100000000'))
    same('case 5', '581#43309101401F0000', node.send('601#4030910100000000'))
    same('case 6', '581#8000180311000906', node.send('601#4000180300000000'))
    same('case 7', '581#8032610112000706', node.send('601#2332610102000000'))
    same('case 8', '581#4323610100002043', node.send('601#4023610100000000'))
    same('case 9', '581#410810000F000000', node.send('601#4008100000000000'))
    same('case 9', '581#00' + b'CRADLE-'.hex().upper(), node.send('601#6000000000000000'))
    same('case 9', '581#1050524553535552', node.send('601#7000000000000000'))
    same('case 9', '581#0D45000000000000', node.send('601#6000000000000000'))
    same('case 10', 0x31C3, lib.peer_crc(b'123456789', 9))
    print('marked cases run')


def run_store(lib):
    """Images built here, byte by byte, and what power-on makes of them."""
    def image(n=b'', c=b'', a=b''):
        packed = n + c + a
        places = [len(n) if c else 0xFFFF, len(n + c) if a else 0xFFFF, 0 if n else 0xFFFF]
        body = packed.ljust(56, b'\0') + struct.pack('<3H', *places)
        return body + struct.pack('<H', lib.peer_crc(body, 62))

    def shown(store):
        node = Node(lib, store=store)
        node_id = int(node.first[:3], 16) - 0x700
        asked = ['%03X#%s00000000' % (0x600 + node_id, entry)
                 for entry in ('40171000', '40011305', '40FE1300', '40236101', '40FE5100')]
        return [node_id] + [node.send(text)[12:] for text in asked]

    n = bytes([5, 6])
    c = struct.pack('<BHBHBIIBHBH', 5, 1000, 1, 30, 7, 0x109, 0x10A, 3, 50, 0, 0)
    signed = c[3:15] + bytes.fromhex('0201200130500220023050')
    c = c[:18] + b'\xA5' + struct.pack('<H', lib.peer_crc(signed, 23))
    a = struct.pack('<BfffBBH', 0, -1.5, 250.0, -0.0, 3, 0, 0)
    a = a[:14] + b'\xA5' + struct.pack('<H', lib.peer_crc(a[1:14], 13))
    fresh = [1, '00000000', '01010000', '00000000', '00002043', '00000000']
    same('zero store', fresh, shown(bytes(STORE)))
    same('no record', fresh, shown(image()))
    same('N', [5, '00000000', '09010000', '00000000', '00002043', '00000000'], shown(image(n)))
    same('C', [1, 'E8030000', '01010000', '00000000', '00002043', '00000000'], shown(image(c=c)))
    same('A', [1, '00000000', '01010000', '00000000', '00007A43', 'A5000000'], shown(image(a=a)))
    full = [5, 'E8030000', '09010000', 'A5000000', '00007A43', 'A5000000']
    same('N C A', full, shown(image(n, c, a)))

    bad = [image(n, c, a)[:i] + bytes([image(n, c, a)[i] ^ 1]) + image(n, c, a)[i + 1:]
           for i in range(STORE)]
    for value in (bytes([0, 3]), bytes([128, 3]), bytes([5, 1]), bytes([5, 5]), bytes([5, 9])):
        bad.append(image(value, c, a))
    for i, value in ((0, 0), (0, 128), (3, 2), (6, 0), (7, 8), (8, 2), (11, 9), (15, 241), (15, 251),
                     (19, c[19] ^ 1), (4, 31)):
        bad.append(image(n, c[:i] + bytes([value]) + c[i + 1:], a))
    bad.append(image(n, c[:4] + bytes(2) + c[6:18] + bytes(1) + c[19:], a))
    for i, value in ((0, 2), (4, 0x7F), (13, 5), (13, 2), (15, a[15] ^ 1)):
        bad.append(image(n, c, a[:i] + bytes([value]) + a[i + 1:]))
    bad.append(image(n, c, a[:1] + struct.pack('<f', 1000000.0625) + a[5:14] + bytes(3)))
    body = image(n, c, a)[:40] + b'\x01' + image(n, c, a)[41:62]
    bad.append(body + struct.pack('<H', lib.peer_crc(body, 62)))
    body = bytes(2) + image(c=c)[:54] + struct.pack('<3H', 2, 0xFFFF, 0xFFFF)
    bad.append(body + struct.pack('<H', lib.peer_crc(body, 62)))
    for i, store in enumerate(bad):
        same('bad store %d' % i, fresh, shown(store))

    node = Node(lib, store=image(n, c, a))
    same('save C', '585#6010100200000000', node.send('605#2310100273617665'))
    same('save C', image(n, c, a), node.store.raw)
    same('load A', '585#6011100300000000', node.send('605#231110036C6F6164'))
    same('load A', image(n, c), node.store.raw)
    node.send('7E5#0401000000000000')
    node.send('7E5#1341000000000000')
    node.send('7E5#1141000000000000')
    same('17h', '7E4#1700000000000000', node.send('7E5#1700000000000000'))
    same('17h', image(bytes([0x41, 6]), c), node.store.raw)
    same('load all', '585#6011100100000000', node.send('605#231110016C6F6164'))
    same('load all', image(bytes([0x41, 6])), node.store.raw)
    print('%d bad stores run' % len(bad))


def run_fractions(lib, count=200000):
    """The page's formula in whole numbers, against the peer's shifts."""
    chance = random.Random(1)
    ends = [0x00000000, 0x80000000, 1, 0x80000001, 0x007FFFFF, 0x00800000, 0x7F7FFFFF, 0xFF7FFFFF,
            0x4F000000, 0xCF000000, 0x4EFFFFFF, 0xCEFFFFFF, 0x3F000000, 0xBF000000, 0x3EFFFFFF,
            0x48D1B717, 0xC8D1B717, 0x4A7FFFFF, 0x49742400, 0xC9742400]
    for i in range(count):
        if i < 5 * len(ends):
            bits, digits = ends[i // 5], i % 5
        else:
            digits = chance.randrange(5)
            exponent = chance.randrange(0, 255) if i % 4 == 0 else chance.randrange(95, 165)
            bits = chance.randrange(2) << 31 | exponent << 23 | chance.getrandbits(23)
            if i % 7 == 0:
                bits &= 0xFFFF0000
        exponent = bits >> 23 & 255
        m = (bits & 0x7FFFFF) if exponent == 0 else (bits & 0x7FFFFF | 0x800000) << (exponent - 1)
        size = (2 * m * 10 ** digits + 2 ** 149) // 2 ** 150
        same('the formula itself', int(Fraction(m, 2 ** 149) * 10 ** digits + Fraction(1, 2)), size)
        whole = -size if bits >> 31 else size
        held = max(-2 ** 31, min(2 ** 31 - 1, whole))
        same('integer PV of %08X, digits %d' % (bits, digits), (held, held != whole),
             integer(lib, bits, digits))
    print('%d integer PVs compared' % count)


def as_real32(value):
    """A fraction to the nearest Real32, ties to even, as a fraction."""
    if value == 0:
        return value
    size, step = abs(value), Fraction(1, 2 ** 149)
    while size / step >= 2 ** 24:
        step *= 2
    whole, rest = divmod(size / step, 1)
    if rest > Fraction(1, 2) or (rest == Fraction(1, 2) and whole % 2 == 1):
        whole += 1
    return whole * step if value > 0 else -whole * step


def run_scaling(lib, count=2000):
    """The PV formula with exact fractions, rounded once a step."""
    chance = random.Random(2)

    def scale():
        bits = chance.randrange(2) << 31 | chance.choice(
            [chance.randrange(0, 0x49742401), chance.randrange(0x3F000000, 0x49742401),
             chance.randrange(0, 0x00900000), 0x49742400])
        return struct.unpack('<f', struct.pack('<I', bits))[0]

    for _ in range(count):
        low, high, offset = scale(), scale(), scale()
        fv = chance.choice([0, 4000, 20000, 65535, chance.randrange(65536)])
        a = as_real32(Fraction(high) - Fraction(low))
        b = as_real32(Fraction(fv) - 4000)
        d = as_real32(as_real32(a * b) / 16000)
        e = as_real32(Fraction(low) + d)
        pv = as_real32(e + Fraction(offset))
        same('PV of %r %r %r at %d' % (low, high, offset, fv), pv,
             Fraction(lib.peer_pv(low, high, offset, fv)))
    print('%d PVs compared' % count)


def main():
    if len(sys.argv) != 3:
        sys.exit(__doc__)
    lib = load(sys.argv[1])
    run_signatures(lib, sys.argv[2])
    run_marked(lib)
    run_store(lib)
    run_fractions(lib)
    run_scaling(lib)
    print('no difference')


if __name__ == '__main__':
    main()
