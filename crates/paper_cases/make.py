#!/usr/bin/env python3
"""Writes stdin and stdout of this program: papers, good and damaged, and what reading each must give.

What is expected is computed by a reader of its own, written from docs/FORMATS.md alone. Run it in this folder.
"""
import struct


class Fault(Exception):
    pass


class Reader:
    def __init__(self, data):
        self.data, self.at = data, 0

    def take(self, n):
        if self.at + n > len(self.data):
            raise Fault(1)
        self.at += n
        return self.data[self.at - n:self.at]

    def number(self, n):
        return int.from_bytes(self.take(n), 'big')

    def version(self):
        n = self.number(4)
        if n == 0:
            raise Fault(2)
        return n

    def within(self, n, low, high):
        x = self.number(n)
        if not low <= x <= high:
            raise Fault(2)
        return x

    def quorum(self):
        count = self.within(1, 1, 16)
        self.within(1, 1, count)
        last = None
        for _ in range(count):
            key = self.take(32)
            if last is not None and not last < key:
                raise Fault(3)
            last = key

    def steps(self, low):
        return [self.number(2) for _ in range(self.within(1, low, 8))]

    def paper(self):
        kind = self.number(1)
        if kind == 1:
            version = self.version()
            self.number(4)
            for _ in range(4):
                self.quorum()
            return 'root', version
        if kind == 2:
            version = self.version()
            self.number(4)
            self.version()
            self.take(32)
            return 'clock', version
        if kind == 3:
            version = self.version()
            self.number(4)
            last = None
            for _ in range(self.within(2, 0, 64)):
                role = self.number(2)
                self.version()
                if last is not None and not last < role:
                    raise Fault(3)
                last = role
            return 'index', version
        if kind == 4:
            self.number(2)
            version = self.version()
            self.number(4)
            last = None
            for _ in range(self.within(2, 0, 256)):
                path = self.steps(1)
                self.within(8, 0, 2 ** 40)
                self.take(32)
                if last is not None and not last < path:
                    raise Fault(3)
                last = path
            for _ in range(self.within(1, 0, 32)):
                self.number(2)
                self.quorum()
                self.steps(0)
                if self.number(1) > 1:
                    raise Fault(1)
            return 'list', version
        raise Fault(1)


def expected(data):
    reader = Reader(data)
    try:
        kind, version = reader.paper()
        if reader.at != len(data):
            raise Fault(1)
        return f'ok {kind} {version}'
    except Fault as fault:
        return str(fault.args[0])


def u16(n):
    return struct.pack('>H', n)


def u32(n):
    return struct.pack('>I', n)


def u64(n):
    return struct.pack('>Q', n)


def key(n):
    return bytes([n]) * 32


def quorum(keys, asked, count=None):
    return bytes([len(keys) if count is None else count, asked]) + b''.join(keys)


def steps(path):
    return bytes([len(path)]) + b''.join(u16(s) for s in path)


def root(version=3, day=900, quorums=None):
    quorums = quorums or [quorum([key(1), key(2), key(3)], 2)] + [quorum([key(n)], 1) for n in (10, 20, 30)]
    return b'\x01' + u32(version) + u32(day) + b''.join(quorums)


def clock(version=7, day=30, index=5, digest=key(9)):
    return b'\x02' + u32(version) + u32(day) + u32(index) + digest


def index(version=5, day=40, entries=((0, 3), (3, 1), (4, 2)), count=None):
    return b'\x03' + u32(version) + u32(day) + u16(len(entries) if count is None else count) + b''.join(u16(r) + u32(n) for r, n in entries)


def file(path, size=9, digest=key(7)):
    return steps(path) + u64(size) + digest


def branch(role, entry=None, start=(1,), last=0):
    return u16(role) + (entry or quorum([key(40)], 1)) + steps(start) + bytes([last])


def listed(files=None, branches=None, role=0, version=2, day=50, count=None, many=None):
    files = [file((1,)), file((1, 2)), file((2,))] if files is None else files
    branches = [branch(3), branch(4, last=1), branch(3, start=())] if branches is None else branches
    return (b'\x04' + u16(role) + u32(version) + u32(day) + u16(len(files) if count is None else count) + b''.join(files)
            + bytes([len(branches) if many is None else many]) + b''.join(branches))


def cases():
    good = [root(), clock(), index(), listed()]
    for paper in good:
        yield paper
        for cut in range(len(paper)):
            yield paper[:cut]
        yield paper + b'\x00'
        yield paper + paper
    for kind in (0, 5, 16, 17, 21, 255):
        yield bytes([kind]) + clock()[1:]
    for make in (root, clock, index, lambda **k: listed(**k)):
        for version in (0, 1, 2 ** 32 - 1):
            yield make(version=version)
        for day in (0, 2 ** 32 - 1):
            yield make(day=day)
    # quorums, in each place where one stands
    ones = [quorum([key(n)], 1) for n in (1, 2, 3, 4)]
    sixteen = [key(n) for n in range(16)]
    for entry in (quorum(sixteen, 16), quorum(sixteen, 1), quorum(sixteen, 17), quorum(sixteen + [key(99)], 1), quorum([], 0), quorum([], 1, 0),
                  quorum([key(1)], 0), quorum([key(1)], 2), quorum([key(1), key(1)], 1), quorum([key(2), key(1)], 1), quorum([key(1), key(2)], 2),
                  quorum([key(1), key(2)], 3), quorum([key(1), key(3), key(2)], 1), quorum([key(1)[:31] + b'\x02', key(1)], 1), quorum([key(1), key(1)[:31] + b'\x02'], 1)):
        for place in range(4):
            yield root(quorums=ones[:place] + [entry] + ones[place + 1:])
        yield listed(branches=[branch(3, entry)])
    # clocks and indexes
    for n in (0, 1, 2 ** 32 - 1):
        yield clock(index=n)
    for entries in ((), ((0, 1),), ((65535, 2 ** 32 - 1),), ((0, 0),), ((1, 1), (1, 1)), ((2, 1), (1, 1)), ((1, 1), (2, 1), (2, 1)), ((1, 1), (2, 0)), ((2, 1), (1, 0)),
                    tuple((r, 1) for r in range(64)), tuple((r, 1) for r in range(65))):
        yield index(entries=entries)
    yield index(entries=tuple((r, 1) for r in range(64)), count=63)
    yield index(entries=((0, 1),), count=2)
    # files
    for size in (0, 2 ** 40 - 1, 2 ** 40, 2 ** 40 + 1, 2 ** 64 - 1):
        yield listed(files=[file((1,), size)])
    for path in ((), (0,), (65535,) * 8, (1,) * 9):
        yield listed(files=[file(path)])
    for paths in (((1,), (1,)), ((2,), (1,)), ((1, 2), (1,)), ((1,), (1, 0)), ((1, 2), (1, 3)), ((1, 3), (1, 2)), ((255,), (256,)), ((256,), (255,)),
                  ((1, 255), (1, 256)), ((0, 0), (0,)), ((1,), (2,), (2,)), ((1, 2, 3), (1, 2, 4), (1, 3))):
        yield listed(files=[file(p) for p in paths])
    yield listed(files=[file((n,)) for n in range(256)], branches=[])
    yield listed(files=[file((n,)) for n in range(257)], branches=[])
    yield listed(files=[file((1,))], count=2)
    yield listed(files=[file((1,)), file((1,), 2 ** 40 + 1)])
    # branches
    for start in ((), (0,), (65535,) * 8, (1,) * 9):
        yield listed(branches=[branch(3, start=start)])
    for last in (0, 1, 2, 255):
        yield listed(branches=[branch(3, last=last)])
    yield listed(branches=[branch(3)] * 32)
    yield listed(branches=[branch(3)] * 33)
    yield listed(branches=[branch(3)], many=2)
    yield listed(role=65535)
    yield listed(files=[file((n, 1, 2, 3, 4, 5, 6, 7)) for n in range(256)], branches=[branch(n, quorum(sixteen, 16), (n,) * 8, 1) for n in range(32)])


def main():
    papers = list(cases())
    with open('stdin', 'wb') as out:
        for paper in papers:
            out.write(u32(len(paper)) + paper)
    with open('stdout', 'w') as out:
        for paper in papers:
            out.write(expected(paper) + '\n')


main()
