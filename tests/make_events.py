#!/usr/bin/env python3
"""Makes an event file: COUNT 13-byte records, chosen at random from SEED.

usage: make_events.py SEED COUNT > FILE

The records are requests that a master could send, grouped into short scenes,
with mistakes mixed in. The script is no node: it keeps a guess of what the
node holds (Node-ID, NMT state, parameters, saved groups), only so that the
requests keep reaching the node and signatures come out right often. Where the
guess is wrong the file is still a good file; scenes that start with "settle"
bring node and guess together again.

Every third seed ends with a short record. Every second seed holds one run of
more than 65536 ticks when COUNT leaves room for it.

What a file reaches is counted by peer/build/count; the end of this script has
the counts of two files.
"""
import random
import struct
import sys

CONST = {  # read-only: index, subs
    0x1000: [0], 0x1001: [0], 0x1005: [0], 0x1008: [0], 0x1014: [0], 0x1018: [0, 1, 2, 3, 4],
    0x1200: [0, 1, 2], 0x1381: [0, 1, 2], 0x1A00: [0, 1], 0x5030: [0, 1, 2], 0x6130: [0, 1],
    0x6131: [0, 1], 0x7100: [0, 1], 0x7120: [0, 1], 0x7122: [0, 1], 0x9130: [0, 1],
    0x1010: [0], 0x1011: [0], 0x1301: [0, 4], 0x13FF: [0], 0x1800: [0, 1], 0x51FF: [0],
    0x6121: [0], 0x6123: [0], 0x6124: [0], 0x6132: [0],
}
BYTES = {  # what can be written, and its length
    (0x1010, 1): 4, (0x1010, 2): 4, (0x1010, 3): 4, (0x1011, 1): 4, (0x1011, 2): 4, (0x1011, 3): 4,
    (0x1017, 0): 2, (0x1301, 1): 1, (0x1301, 2): 2, (0x1301, 3): 1, (0x1301, 5): 4, (0x1301, 6): 4,
    (0x1800, 2): 1, (0x1800, 5): 2, (0x13FE, 0): 1, (0x13FF, 1): 2, (0x2330, 0): 1, (0x6121, 1): 4,
    (0x6123, 1): 4, (0x6124, 1): 4, (0x6132, 1): 1, (0x51FE, 0): 1, (0x51FF, 1): 2,
}
GROUP_C = [(0x1017, 0), (0x1301, 1), (0x1301, 2), (0x1301, 3), (0x1301, 5), (0x1301, 6),
           (0x1800, 2), (0x1800, 5), (0x13FE, 0), (0x13FF, 1)]
GROUP_A = [(0x2330, 0), (0x6121, 1), (0x6123, 1), (0x6124, 1), (0x6132, 1), (0x51FE, 0), (0x51FF, 1)]
UNSTARRED = [(0x1017, 0), (0x1800, 2), (0x1800, 5), (0x2330, 0)]
SIGNED_C = [(0x1301, 1), (0x1301, 2), (0x1301, 3), (0x1301, 5), (0x1301, 6)]
SIGNED_A = [(0x6121, 1), (0x6123, 1), (0x6124, 1), (0x6132, 1)]
SCALES = [(0x6121, 1), (0x6123, 1), (0x6124, 1)]
BIT_INDEXES = [0, 2, 3, 4, 6, 7, 8]
SAVE, LOAD = 0x65766173, 0x64616F6C

MISSING = [0x0000, 0x1002, 0x1009, 0x1012, 0x1016, 0x1300, 0x1302, 0x1382, 0x1801, 0x1A01, 0x2331,
           0x5031, 0x51FD, 0x6122, 0x6133, 0x7101, 0x9131, 0xFFFF, 0x0008, 0x0810]


def real(value):
    return struct.unpack('<I', struct.pack('<f', value))[0]


GOOD_REALS = [real(v) for v in (0.0, -0.0, 160.0, 250.2, -1.0, 0.38, 0.125, -0.125, 6.25, 1000.0,
                                999999.9375, 1e6, -1e6, 214748.36, 214748.34, -214748.36, 1e-40,
                                -1e-45, 3.5, 16000.0, 2147.4836)]
BAD_REALS = [0x7F800000, 0xFF800000, 0x7FC00000, 0xFFC00001, 0x7F800001, 0x49742401, 0xC9742401,
             0x7F7FFFFF, 0xFF7FFFFF]

BOUNDS = {
    (0x1017, 0): [0, 1, 2, 5, 10, 50, 255, 256, 1000, 65535],
    (0x1301, 1): [0, 1, 2, 255],
    (0x1301, 2): [0, 1, 2, 5, 10, 25, 256, 65535],
    (0x1301, 3): [0, 1, 20, 255],
    (0x1301, 5): [0, 0xFF, 0x100, 0x101, 0x102, 0x103, 0x17D, 0x17E, 0x17F, 0x180, 0x181, 0x80000101,
                  0x00010101, 0xFFFFFFFF],
    (0x1301, 6): [0, 0x100, 0x101, 0x102, 0x103, 0x104, 0x17E, 0x17F, 0x180, 0x181, 0x182, 0x80000102,
                  0x00010102, 0xFFFFFFFE],
    (0x1800, 2): [0, 1, 2, 3, 5, 239, 240, 241, 246, 251, 252, 253, 254, 255],
    (0x1800, 5): [0, 1, 2, 7, 20, 100, 65535],
    (0x13FE, 0): [0, 1, 0xA4, 0xA5, 0xA5, 0xA6, 255],
    (0x51FE, 0): [0, 1, 0xA4, 0xA5, 0xA5, 0xA6, 255],
    (0x13FF, 1): [0, 0xFFFF, 0x0A32, 0x320A],
    (0x51FF, 1): [0, 0xFFFF, 0xEA44, 0x44EA],
    (0x2330, 0): [0, 1, 2, 255],
    (0x6132, 1): [0, 1, 2, 3, 4, 5, 255],
}
for key in SCALES:
    BOUNDS[key] = GOOD_REALS + BAD_REALS
for sub in (1, 2, 3):
    BOUNDS[0x1010, sub] = [SAVE, SAVE, LOAD, 0, 1, 0x73617665, SAVE ^ 1, SAVE ^ 0x20000000]
    BOUNDS[0x1011, sub] = [LOAD, LOAD, SAVE, 0, 1, 0x6C6F6164, LOAD ^ 1, LOAD ^ 0x20000000]


def crc(data):
    value = 0
    for byte in data:
        value ^= byte << 8
        for _ in range(8):
            value = (value << 1) ^ (0x11021 if value & 0x8000 else 0)
    return value


def in_range(key, value):
    if key in SCALES:
        return value & 0x7FFFFFFF <= 0x49742400
    if key == (0x1301, 5):
        return 0x101 <= value <= 0x17F and value % 2 == 1
    if key == (0x1301, 6):
        return 0x102 <= value <= 0x180 and value % 2 == 0
    if key == (0x1800, 2):
        return value <= 240 or value >= 252
    if key in ((0x1301, 1), (0x2330, 0)):
        return value <= 1
    if key in ((0x1301, 2), (0x1301, 3)):
        return value >= 1
    if key == (0x6132, 1):
        return value <= 4
    if key[0] == 0x1010:
        return value == SAVE
    if key[0] == 0x1011:
        return value == LOAD
    return True


class Full(Exception):
    pass


class Maker:
    def __init__(self, seed, count):
        self.chance = random.Random(seed)
        self.seed, self.count = seed, count
        self.records = []
        self.long_run = seed % 2 == 1 and count >= 100000
        self.id, self.pending, self.stored = 1, 1, 1
        self.nmt, self.config = 127, False
        self.value = {}
        self.saved_c = self.saved_a = None
        self.load_a()
        self.load_c()

    # The guess.

    def load_a(self):
        values = [0, 0, real(160.0), 0, 2, 0, 0] if self.saved_a is None else self.saved_a
        self.value.update(zip(GROUP_A, values))

    def load_c(self):
        first, second = (0x17F, 0x180) if self.id > 64 else (0xFF + 2 * self.id, 0x100 + 2 * self.id)
        values = [0, 1, 25, 20, first, second, 254, 100, 0, 0]
        if self.saved_c is not None:
            saved_id, values = self.saved_c
            if saved_id != self.id:
                values = values[:4] + [first, second] + values[6:8] + [0] + values[9:]
        self.value.update(zip(GROUP_C, values))

    def bytes_of(self, keys):
        return b''.join(self.value[key].to_bytes(BYTES[key], 'little') for key in keys)

    def signature_a(self):
        return crc(self.bytes_of(SIGNED_A))

    def signature_c(self):
        return crc(self.bytes_of(SIGNED_C) + bytes.fromhex('0201200130500220023050'))

    def is_valid(self, key):
        if key[0] == 0x51FE:
            return self.value[0x51FF, 1] == self.signature_a()
        return (self.value[0x13FF, 1] == self.signature_c()
                and self.value[0x1301, 6] == self.value[0x1301, 5] + 1)

    def may_start(self):
        return self.value[0x51FE, 0] == 0xA5 and (self.value[0x1301, 1] == 0
                                                 or self.value[0x13FE, 0] == 0xA5)

    def guess_write(self, key, value, size):
        if self.nmt == 4 or size != BYTES[key] or not in_range(key, value):
            return
        if self.nmt == 5 and key not in UNSTARRED:
            return
        if key[0] in (0x13FE, 0x51FE) and value == 0xA5 and not self.is_valid(key):
            return
        if key[0] == 0x1010:
            if key[1] in (1, 2):
                self.saved_c = self.id, [self.value[k] for k in GROUP_C]
            if key[1] in (1, 3):
                self.saved_a = [self.value[k] for k in GROUP_A]
        elif key[0] == 0x1011:
            if key[1] in (1, 2):
                self.saved_c = None
                self.value[0x13FE, 0] = 0
            if key[1] in (1, 3):
                self.saved_a = None
                self.value[0x51FE, 0] = 0
        elif self.value[key] != value:
            self.value[key] = value
            if key in SIGNED_A or key[0] == 0x51FF:
                self.value[0x51FE, 0] = 0
            if key in SIGNED_C or key[0] == 0x13FF:
                self.value[0x13FE, 0] = 0

    def guess_nmt(self, command):
        if command == 1 and self.may_start():
            self.nmt, self.config = 5, False
        elif command == 2:
            self.nmt, self.config = 4, False
        elif command == 128:
            self.nmt = 127
        elif command in (129, 130):
            if command == 129:
                self.pending = self.stored
                self.load_a()
            self.id = self.pending
            self.load_c()
            self.nmt, self.config = 127, False
            if self.value[0x2330, 0] == 1:
                self.guess_nmt(1)

    # Records.

    def pick(self, *choices):
        return self.chance.choice(choices)

    def percent(self, share):
        return self.chance.random() * 100 < share

    def put(self, record):
        if len(self.records) >= self.count:
            raise Full
        self.records.append(record)

    def frame(self, can_id, data, remote=0, length=None):
        length = len(data) if length is None else length
        fill = bytes(8) if self.percent(50) else self.chance.getrandbits(64).to_bytes(8, 'little')
        self.put(struct.pack('<BHBB', 1, can_id, remote, length) + (data + fill)[:8])

    def tick(self, count=1):
        for _ in range(count):
            fill = bytes(12) if self.percent(90) else self.chance.getrandbits(96).to_bytes(12, 'little')
            self.put(b'\x02' + fill)

    def sample(self, fv):
        fill = self.chance.choice([bytes(10), b'\xFF' * 10])
        self.put(b'\x03' + struct.pack('<H', fv) + fill)

    def any_sample(self):
        self.sample(self.pick(0, 1, 3999, 4000, 4001, 12000, 20000, 20001, 65535,
                              self.chance.randrange(65536), self.chance.randrange(65536)))

    def nmt_command(self, command, node=None):
        if node is None:
            node = self.pick(0, self.id)
        self.frame(0, bytes([command, node]))
        if node in (0, self.id):
            self.guess_nmt(command)

    def sync(self):
        self.frame(0x80, b'')

    def remote(self):
        self.frame(0x180 + self.id, bytes(self.chance.randrange(9)), remote=1)

    def sdo(self, data):
        self.frame(0x600 + self.id, data)

    def read(self, index, sub):
        command = 0x40 | (self.chance.getrandbits(5) if self.percent(20) else 0)
        rest = bytes(4) if self.percent(70) else self.chance.getrandbits(32).to_bytes(4, 'little')
        self.sdo(struct.pack('<BHB', command, index, sub) + rest)

    def write(self, index, sub, value, size=None, indicated=None):
        """One expedited write; the right length unless a size is given."""
        own = BYTES.get((index, sub), self.pick(1, 2, 4))
        size = own if size is None else size
        indicated = self.percent(88) if indicated is None else indicated
        command = 0x22 | (self.chance.getrandbits(1) << 4 if self.percent(20) else 0)
        if indicated:
            command |= 0x01 | (4 - size) << 2
        else:
            command |= self.pick(0, 0, 4, 8, 12)
        content = value.to_bytes(4, 'little')
        if self.percent(30):
            content = content[:own] + self.chance.getrandbits(32).to_bytes(4, 'little')[own:]
        self.sdo(struct.pack('<BHB', command, index, sub) + content)
        if (index, sub) in BYTES:
            self.guess_write((index, sub), value & (1 << 8 * own) - 1, size if indicated else own)

    def set(self, key, value):
        self.write(key[0], key[1], value)

    # Scenes.

    def settle(self):
        """Whatever was guessed: Pre-operational, and a Node-ID that is known."""
        self.frame(0, bytes([128, 0]))
        self.guess_nmt(128)
        self.lss(0x04, 1)
        self.lss(0x11, self.pick(1, 1, 2, 32, 63, 64, 65, 100, 127))
        self.nmt_command(130, 0)

    def lss(self, command, *rest):
        self.frame(0x7E5, (bytes([command]) + bytes(rest)).ljust(8, b'\0'))
        if self.nmt != 127:
            return
        if command == 0x04 and rest[0] <= 1:
            self.config = rest[0] == 1
        elif command == 0x11 and self.config and 1 <= rest[0] <= 127:
            self.pending = rest[0]
        elif command == 0x17 and self.config:
            self.stored = self.pending

    def leave_operational(self):
        if self.nmt != 127 and self.percent(85):
            self.nmt_command(128)

    def scene_read(self):
        for _ in range(self.chance.randrange(1, 6)):
            if self.percent(8):
                self.read(self.chance.choice(MISSING), self.chance.randrange(4))
            elif self.percent(12):
                index = self.chance.choice(list(CONST) + [k[0] for k in BYTES])
                self.read(index, self.pick(1, 2, 3, 4, 5, 6, 7, 255))
            elif self.percent(50):
                index = self.chance.choice(list(CONST))
                self.read(index, self.chance.choice(CONST[index]))
            else:
                self.read(*self.chance.choice(list(BYTES)))

    def scene_look(self):
        """The readings and the validity bytes."""
        for key in self.chance.sample([(0x5030, 1), (0x5030, 2), (0x6130, 1), (0x7100, 1), (0x9130, 1),
                                       (0x1001, 0), (0x51FE, 0), (0x13FE, 0)], 4):
            self.read(*key)

    def scene_write(self):
        for _ in range(self.chance.randrange(1, 5)):
            if self.percent(5):
                self.write(self.chance.choice(MISSING), self.chance.randrange(4), 1)
                continue
            if self.percent(12):
                index = self.chance.choice(list(CONST))
                self.write(index, self.chance.choice(CONST[index] + [9]), self.chance.getrandbits(32))
                continue
            key = self.chance.choice(list(BYTES))
            if key[0] in (0x1010, 0x1011) and self.percent(60):
                continue
            value = self.chance.choice(BOUNDS[key])
            if key in SCALES and self.percent(60):
                value = self.chance.choice(GOOD_REALS)
            if self.percent(10):
                value = self.chance.getrandbits(8 * BYTES[key])
            if key in self.value and self.percent(15):
                value = self.value[key]  # the same bytes again
            size = self.pick(1, 2, 3, 4) if self.percent(22) else None
            self.write(key[0], key[1], value, size)

    def scene_ranges(self):
        """Every bound of one entry in turn, in the right length."""
        self.leave_operational()
        key = self.chance.choice([key for key in BYTES if key[0] not in (0x1010, 0x1011)])
        for value in self.chance.sample(BOUNDS[key], min(6, len(BOUNDS[key]))):
            self.set(key, value)
        self.read(*key)

    def scene_cob_ids(self):
        """A pair of COB-IDs, mostly neighbours, then signed."""
        self.leave_operational()
        first = 0x101 + 2 * self.chance.randrange(64)
        second = first + 1 if self.percent(75) else 0x102 + 2 * self.chance.randrange(64)
        self.set((0x1301, 5), first)
        self.set((0x1301, 6), second)
        self.set((0x13FF, 1), self.signature_c())
        self.set((0x13FE, 0), 0xA5)
        if self.percent(50):
            self.sign_a()
            self.nmt_command(1)
            self.tick(self.chance.randrange(1, 30))

    def scene_by_sync(self):
        """Types that send at a SYNC or a remote frame, with and without samples."""
        if self.nmt != 5:
            self.leave_operational()
            self.sign_a()
            self.sign_c()
            self.nmt_command(1)
        self.set((0x1800, 2), self.pick(0, 0, 0, 1, 2, 4, 252, 253, 254))
        for _ in range(self.chance.randrange(3, 9)):
            choice = self.chance.randrange(6)
            if choice < 3:
                self.sync()
            elif choice == 3:
                self.any_sample()
            elif choice == 4:
                self.remote()
            else:
                self.tick(self.chance.randrange(1, 4))

    def scene_scale(self):
        self.leave_operational()
        for key in SCALES:
            if self.percent(60):
                value = self.chance.choice(GOOD_REALS)
                if self.percent(30):
                    value = self.chance.getrandbits(1) << 31 | self.chance.randrange(0x49742401)
                self.set(key, value)
        if self.percent(60):
            self.set((0x6132, 1), self.chance.randrange(5))

    def scene_can_cap(self):
        """Scaling with the end of Integer32 inside the range of the samples."""
        self.leave_operational()
        self.set((0x6121, 1), self.pick(0, 0x80000000, real(-100.0)))
        self.set((0x6123, 1), self.pick(real(160000.0), real(-300000.0), real(214748.36), real(1e6)))
        self.set((0x6124, 1), self.pick(0, 0, real(0.5)))
        self.set((0x6132, 1), self.pick(4, 4, 4, 3))
        if self.percent(70):
            self.sign_a()
            self.sign_c()
            self.nmt_command(1)
        for _ in range(self.chance.randrange(2, 6)):
            self.sample(self.pick(4000, 10000, 15456, 20000, 20001, 25474, 25475, 25476, 40000, 65535))
            if self.percent(40):
                self.tick(self.chance.randrange(1, 30))
            if self.percent(30):
                self.read(0x1001, 0)
            if self.percent(20):
                self.read(0x9130, 1)

    def scene_cap_while_stopped(self):
        self.scene_can_cap()
        self.nmt_command(2)
        for _ in range(self.chance.randrange(1, 4)):
            self.sample(self.pick(4000, 20000, 65535, 0))
        self.tick(self.chance.randrange(4))
        self.nmt_command(self.pick(1, 128, 128, 129, 130, 2))

    def sign_a(self):
        if self.value[0x51FE, 0] == 0xA5 and self.percent(80):
            return
        self.set((0x51FF, 1), self.signature_a())
        self.set((0x51FE, 0), 0xA5)

    def sign_c(self):
        if self.value[0x13FE, 0] == 0xA5 and self.percent(80):
            return
        if self.value[0x1301, 6] != self.value[0x1301, 5] + 1:
            if self.value[0x1301, 5] < 0x180 and self.percent(85):
                self.set((0x1301, 6), self.value[0x1301, 5] + 1)
        self.set((0x13FF, 1), self.signature_c())
        self.set((0x13FE, 0), 0xA5)

    def scene_sign(self):
        self.leave_operational()
        if self.percent(70):
            self.sign_a()
        if self.percent(70):
            self.sign_c()
        if self.percent(15):
            key = self.pick((0x51FF, 1), (0x13FF, 1))
            self.set(key, self.pick(self.value[key] ^ 1, self.value[key]))
            self.set((0x51FE if key[0] == 0x51FF else 0x13FE, 0), 0xA5)

    def scene_cover(self):
        """One covered value written, the same or another; then the byte read."""
        self.leave_operational()
        key = self.chance.choice(SIGNED_A + SIGNED_C)
        same = self.percent(40)
        self.set(key, self.value[key] if same else self.chance.choice(BOUNDS[key]))
        self.read(0x51FE if key in SIGNED_A else 0x13FE, 0)
        if self.percent(30):
            self.nmt_command(1)

    def scene_run(self):
        """Valid, started, and something to send."""
        self.leave_operational()
        if self.percent(40):
            self.scene_times()
        if self.percent(15):
            self.set((0x1301, 1), self.chance.randrange(2))
        self.sign_a()
        if self.value[0x1301, 1] or self.percent(20):
            self.sign_c()
        self.nmt_command(1)
        self.go_on()

    def go_on(self):
        for _ in range(self.chance.randrange(2, 9)):
            choice = self.chance.randrange(12)
            if choice < 4:
                self.tick(self.chance.randrange(1, 32))
            elif choice < 6:
                for _ in range(self.chance.randrange(1, 6)):
                    self.sync()
            elif choice == 6:
                self.any_sample()
                self.sync()
            elif choice == 7:
                self.remote()
            elif choice == 8:
                self.any_sample()
            elif choice == 9:
                self.scene_write()
            elif choice == 10:
                self.set((0x1800, 2), self.pick(0, 0, 1, 2, 3, 252, 253, 254, 255))
            else:
                self.scene_look()

    def scene_many_syncs(self):
        """A great type, so that the count of SYNCs goes far."""
        self.set((0x1800, 2), self.pick(5, 17, 100, 239, 240))
        for _ in range(self.pick(4, 16, 18, 99, 101, 239, 241)):
            self.sync()
            if self.percent(2):
                self.any_sample()

    def scene_times(self):
        if self.percent(60):
            self.set((0x1017, 0), self.pick(0, 1, 2, 7, 10, 25, 50, 100))
        if self.percent(60):
            self.set((0x1800, 2), self.pick(0, 1, 2, 3, 240, 252, 253, 254, 255, 254))
        if self.percent(60):
            self.set((0x1800, 5), self.pick(0, 1, 2, 10, 25, 100))
        if self.percent(40):
            self.set((0x1301, 2), self.pick(1, 2, 5, 10, 25))

    def scene_ticks(self):
        self.tick(self.pick(1, 2, 3, 10, 26, 51, 101))

    def scene_nmt(self):
        for _ in range(self.chance.randrange(1, 4)):
            command = self.pick(1, 1, 2, 128, 128, 129, 130, 0, 3, 127, 131, 255)
            node = self.pick(0, self.id, self.id, (self.id % 127) + 1, 128, 255)
            self.nmt_command(command, node)
            if self.percent(40):
                self.tick(self.chance.randrange(1, 12))
        if self.nmt == 4 and self.percent(60):
            self.scene_read()
            self.nmt_command(self.pick(1, 128))

    def scene_upload(self):
        self.leave_operational()
        self.read(0x1008, 0)
        toggle = 0
        for _ in range(self.pick(1, 2, 3, 3, 3, 3, 4)):
            spoil = self.chance.randrange(44)
            if spoil == 0:
                toggle ^= 1  # the wrong one
            elif spoil == 1:
                self.sdo(bytes([0x80]) + self.chance.getrandbits(56).to_bytes(7, 'little'))
            elif spoil == 2:
                self.sdo(bytes([self.pick(0x00, 0x0F, 0x1F)]) + self.chance.getrandbits(56).to_bytes(7, 'little'))
            elif spoil == 3:
                self.scene_read()
            elif spoil == 4:
                self.scene_write()
            elif spoil == 5:
                self.nmt_command(self.pick(1, 128, 130))
            elif spoil == 10:
                self.nmt_command(2)  # and back, with the upload gone
                self.nmt_command(self.pick(1, 128))
            elif spoil == 6:
                self.unknown_command()
            elif spoil == 7:
                self.frame(0x600 + self.id, bytes(8), remote=self.pick(0, 1), length=self.pick(0, 7, 8))
            elif spoil == 8:
                self.read(0x1008, self.pick(0, 1))
            elif spoil == 9:
                self.tick(3)
                self.any_sample()
            command = 0x60 | toggle << 4 | (self.chance.getrandbits(4) if self.percent(20) else 0)
            self.sdo(bytes([command]) + self.chance.getrandbits(56).to_bytes(7, 'little'))
            toggle ^= 1

    def unknown_command(self):
        index, sub = self.chance.choice(list(BYTES) + [(0x1008, 0), (0x1234, 5)])
        command = self.pick(0x00, 0x1F, 0x20, 0x21, 0x2C, 0x60, 0x70, 0x80, 0xA0, 0xA1, 0xC0, 0xC2, 0xE0, 0xFF)
        self.sdo(struct.pack('<BHB', command, index, sub) + self.chance.getrandbits(32).to_bytes(4, 'little'))

    def scene_odd_sdo(self):
        for _ in range(self.chance.randrange(1, 4)):
            self.unknown_command()

    def scene_save(self):
        self.leave_operational()
        self.write(0x1010, self.pick(1, 2, 3), SAVE if self.percent(85) else self.pick(LOAD, 0, SAVE ^ 1))
        if self.percent(50):
            self.nmt_command(self.pick(129, 130))
            self.scene_read()

    def scene_load(self):
        self.leave_operational()
        self.write(0x1011, self.pick(1, 2, 3), LOAD if self.percent(85) else self.pick(SAVE, 0, LOAD ^ 1))
        self.read(0x51FE, 0)
        self.read(0x13FE, 0)
        if self.percent(50):
            self.nmt_command(self.pick(129, 130))
            self.scene_read()

    def scene_autostart(self):
        self.leave_operational()
        self.set((0x2330, 0), 1)
        self.sign_a()
        self.sign_c()
        self.write(0x1010, 1, SAVE)
        self.nmt_command(self.pick(129, 130))
        self.go_on()
        if self.percent(75):
            self.set((0x2330, 0), 0)
            self.nmt_command(128)
            self.write(0x1010, 3, SAVE)

    def scene_lss_set(self):
        self.leave_operational()
        self.lss(0x04, 1)
        for _ in range(self.chance.randrange(1, 5)):
            choice = self.chance.randrange(8)
            if choice < 3:
                self.lss(0x11, self.pick(0, 1, 2, 32, 63, 64, 65, 100, 126, 127, 128, 255))
            elif choice < 5:
                self.lss(0x13, self.pick(0, 0, 0, 0, 1), self.pick(*range(11)))
            elif choice == 5:
                self.lss(0x17, 0)
            else:
                self.lss(self.pick(0x5A, 0x5B, 0x5C, 0x5D, 0x5E, 0x5E, 0x15, 0x46, 0x4C, 0x5F), 0)
        if self.percent(60):
            self.lss(0x04, self.pick(0, 0, 0, 1, 2))
            self.lss(0x5E, 0)
        if self.percent(60):
            self.nmt_command(self.pick(130, 130, 129))
            self.read(0x1014, 0)
            self.read(0x1301, 5)
            self.read(0x13FE, 0)

    def scene_lss_select(self):
        """The event program's identity is zero in all four numbers."""
        self.leave_operational()
        if self.percent(60):
            self.lss(0x04, 0)
        order = [0x40, 0x41, 0x42, 0x43]
        change = self.chance.randrange(10)
        if change == 0:
            self.chance.shuffle(order)
        elif change == 1:
            order.insert(self.chance.randrange(5), self.pick(0x04, 0x40, 0x41, 0x11, 0x5E, 0xFF))
        elif change == 2:
            order.insert(self.chance.randrange(1, 4), 0x40)
        elif change == 3:
            del order[self.chance.randrange(4)]
        for command in order:
            number = self.pick(1, 0x80000000, 0xFFFFFFFF) if self.percent(4) else 0
            self.lss(command, *number.to_bytes(4, 'little'))
            if self.percent(4):
                self.frame(0x7E5, bytes(8), remote=self.pick(0, 1), length=self.pick(0, 7, 8))
            if self.percent(4):
                self.tick()
            if self.percent(4):
                self.nmt_command(self.pick(1, 2, 2, 130))  # away and back in the middle
                self.nmt_command(128)
        if change > 3 and self.nmt == 127:
            self.config = True
        self.lss(0x5E, 0)
        if self.percent(30):
            self.lss(0x11, self.pick(1, 3, 64, 65))

    def scene_change_id(self):
        """Signed and saved under one Node-ID, then another."""
        self.leave_operational()
        if self.percent(50):
            self.sign_a()
            self.sign_c()
            self.write(0x1010, self.pick(1, 2), SAVE)
        self.lss(0x04, 1)
        self.lss(0x11, self.chance.randrange(1, 128))
        if self.percent(40):
            self.lss(0x17, 0)
        self.nmt_command(self.pick(130, 130, 129))
        for key in ((0x1301, 5), (0x1301, 6), (0x13FE, 0), (0x13FF, 1)):
            self.read(*key)
        if self.percent(50):
            self.sign_c()
            self.nmt_command(1)

    def scene_refused(self):
        noise = self.chance.getrandbits(96).to_bytes(12, 'little')
        self.put(self.pick(
            bytes([self.pick(0, 4, 5, 127, 255)]) + noise,
            struct.pack('<BHBB', 1, self.pick(2048, 0x8000, 0xFFFF), 0, 8) + noise[:8],
            struct.pack('<BHBB', 1, 0x600 + self.id, self.pick(2, 128, 255), 8) + noise[:8],
            struct.pack('<BHBB', 1, 0x600 + self.id, 0, self.pick(9, 15, 255)) + noise[:8],
            struct.pack('<BHBB', self.pick(0, 4), 0xFFFF, 9, 9) + noise[:8],
        ))

    def scene_noise(self):
        data = self.chance.getrandbits(64).to_bytes(8, 'little')
        choice = self.chance.randrange(9)
        if choice == 0:
            self.frame(self.pick(0x7E4, 0x580 + self.id, 0x700 + self.id, 0x7FF, 0x100, 0x72A), data)
        elif choice == 1:
            other = self.id % 127 + 1
            self.frame(0x600 + other, struct.pack('<BHB', 0x40, 0x1000, 0) + bytes(4))
        elif choice == 2:
            self.frame(0x80, data, length=self.chance.randrange(1, 9))
        elif choice == 3:
            self.frame(0x80, b'', remote=1)
        elif choice == 4:
            self.frame(0, bytes([self.pick(1, 2, 128, 129, 130), 0]), length=self.pick(0, 1, 3, 8))
        elif choice == 5:
            self.frame(0, bytes([self.pick(1, 2, 128, 129, 130), 0]), remote=1)
        elif choice == 6:
            self.frame(0x600 + self.id, data, remote=self.pick(0, 1), length=self.pick(0, 4, 7))
        elif choice == 7:
            self.frame(0x180 + self.id, data, remote=0, length=self.chance.randrange(9))
        else:
            self.frame(0x7E5, data)  # a random service: the guess may go wrong
            self.lss(0x04, 0)

    def scene_long_run(self):
        """Slow timers over the wrap of the clock."""
        self.settle()
        self.set((0x1017, 0), self.pick(60000, 65535, 32768))
        self.set((0x1800, 2), self.pick(254, 255))
        self.set((0x1800, 5), self.pick(65535, 65000, 40000))
        self.set((0x1301, 1), 1)
        self.set((0x1301, 2), self.pick(65535, 50000, 10000))
        self.sign_a()
        self.sign_c()
        self.nmt_command(1)
        self.tick(65536 + self.chance.randrange(4000))

    def make(self):
        scenes = [
            (10, self.scene_read), (4, self.scene_look), (14, self.scene_write), (7, self.scene_scale),
            (4, self.scene_can_cap), (3, self.scene_cap_while_stopped), (7, self.scene_sign),
            (6, self.scene_cover), (14, self.scene_run), (5, self.scene_times), (5, self.scene_ticks),
            (7, self.scene_nmt), (8, self.scene_upload), (3, self.scene_odd_sdo), (6, self.scene_save),
            (4, self.scene_load), (3, self.scene_autostart), (6, self.scene_lss_set),
            (6, self.scene_lss_select), (3, self.scene_change_id), (3, self.scene_refused),
            (5, self.scene_ranges), (4, self.scene_cob_ids), (4, self.scene_by_sync),
            (5, self.scene_noise), (2, self.settle), (0.5, self.scene_many_syncs),
        ]
        weights, calls = zip(*scenes)
        long_run_from = self.chance.randrange(self.count // 10 + 1)
        try:
            while True:
                if self.long_run and len(self.records) >= long_run_from:
                    self.long_run = False
                    self.scene_long_run()
                else:
                    self.chance.choices(calls, weights)[0]()
        except Full:
            pass
        if self.seed % 3 == 0 and self.records:
            self.records[-1] = self.records[-1][:self.chance.randrange(1, 13)]
        return b''.join(self.records)


def main():
    if len(sys.argv) != 3 or not (sys.argv[1].isdigit() and sys.argv[2].isdigit()):
        sys.exit(__doc__)
    sys.stdout.buffer.write(Maker(int(sys.argv[1]), int(sys.argv[2])).make())


if __name__ == '__main__':
    main()


# What two files reach, counted by peer/build/count: `make_events.py 1 200000`
# (with the long run of ticks) and `make_events.py 2 200000`, Python 3.
#
#    1368    1978  13FEh falls
#    1187    1729  51FEh falls
#     651     897  EMCY 0000h
#    1005    1461  EMCY FF01h
#     880    1230  LSS answer 11h, error 0
#     114     168  LSS answer 11h, error 1
#     158     212  LSS answer 13h, error 0
#     166     193  LSS answer 13h, error 1
#     271     378  LSS answer 17h
#     264     351  LSS answer 44h
#      27      56  LSS answer 5Ah
#      39      54  LSS answer 5Bh
#      38      40  LSS answer 5Ch
#      30      44  LSS answer 5Dh
#     471     586  LSS answer 5Eh
#    4151    5603  LSS without an answer
#    2018    3179  NMT Operational to Pre-operational
#     216     262  NMT Operational to Stopped
#    2179    3367  NMT Pre-operational to Operational
#     187     273  NMT Pre-operational to Stopped
#     243     438  NMT Start by 2330h
#     270     393  NMT Start not obeyed
#      24      55  NMT Stop with an open upload
#      55      75  NMT Stopped to Operational
#     348     460  NMT Stopped to Pre-operational
#      49      61  NMT command 0
#    2385    3601  NMT command 1
#      38      76  NMT command 127
#    2553    3844  NMT command 128
#     610     878  NMT command 129
#    1045    1534  NMT command 130
#      36      69  NMT command 131
#     446     597  NMT command 2
#      52      77  NMT command 255
#      51      62  NMT command 3
#      26      33  NMT reset with an open upload
#     717    1051  Node-ID changes
#      40      53  SDO abort 05030000h
#    1040    1711  SDO abort 05040001h
#     286     459  SDO abort 06010002h
#     481     789  SDO abort 06020000h
#     203     314  SDO abort 06040043h
#     132     232  SDO abort 06070012h
#      85     168  SDO abort 06070013h
#     546     786  SDO abort 06090011h
#     486     731  SDO abort 06090030h
#     276     455  SDO abort 06090031h
#     113     187  SDO abort 06090032h
#     257     351  SDO abort 08000020h
#    1733    2660  SDO abort 08000022h
#     173     241  SDO abort with an open upload
#      31      59  SDO client abort, none open
#      33      53  SDO client abort, upload open
#     247     389  SDO last segment
#   11115   16546  SDO read
#      95     116  SDO read, open upload dropped
#     957    1399  SDO segment
#     127     171  SDO upload dropped by a write
#     755    1108  SDO upload of the name opened
#     396     685  SDO write 1010h:1
#     199     268  SDO write 1010h:2
#     329     541  SDO write 1010h:3
#     113     132  SDO write 1011h:1
#      94     142  SDO write 1011h:2
#     104     134  SDO write 1011h:3
#     740    1192  SDO write 1017h:0
#     259     382  SDO write 1301h:1
#     448     796  SDO write 1301h:2
#     184     276  SDO write 1301h:3
#     396     616  SDO write 1301h:5
#     521     786  SDO write 1301h:6
#    1768    2565  SDO write 13FEh:0
#    1869    2795  SDO write 13FFh:1
#    1628    2493  SDO write 1800h:2
#     779    1127  SDO write 1800h:5
#     559     888  SDO write 2330h:0
#    1574    2445  SDO write 51FEh:0
#    1632    2354  SDO write 51FFh:1
#    1087    1647  SDO write 6121h:1
#    1083    1599  SDO write 6123h:1
#    1088    1583  SDO write 6124h:1
#    1068    1620  SDO write 6132h:1
#     452     626  SDO write with EMCY
#    2152    3340  SDO write, size not indicated
#    4847    9485  SRDO pair
#    1728    2477  SRDO period passes capped
#    5795    8541  SYNC, Operational
#    2998    4995  SYNC, other states
#     135     213  TPDO by SYNC, type 0
#     867    1205  TPDO by SYNC, type 1..240
#     152     249  TPDO by remote frame
#    1126    2375  TPDO by timer
#     409     770  TPDO by timer, capped
#    1655    2412  boot-up
#   62801   93728  event: frame
#    4234    6062  event: sample
#  132726   99845  event: tick
#      45     134  four frames in a tick
#    3153    4597  frame without effect
#    6496   10892  heartbeat, Operational
#    1764    3765  heartbeat, Pre-operational
#      72     117  heartbeat, Stopped
#     102     135  refused 2
#     137     230  refused 3
#    1232    1944  reset, A saved
#     790    1063  reset, C of another Node-ID
#     512     857  reset, C of this Node-ID
#     260     401  reset, boot-up and EMCY
#     423     468  reset, no A saved
#     353     492  reset, no C saved
#       2       1  the clock wraps
#    1274    1948  the store changes
