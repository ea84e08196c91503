#!/usr/bin/env python3
"""Writes the certificates of the built-in transform from docs/RULES.md, sharing no code with the engine.

From the repository's root, to compare with what the program `certify` must print:
    python3 tools/certificate.py | cmp - crates/certify/stdout
"""
import struct

ROWS = [(3, 1, 0, 0), (3, 2, 0, 0), (1, 0, 0, 0), (3, 0, 0, 65536)]
RECORDS = [(0, 0, 0, 0, 0, 0), (9, 2, 0, 3, 0, 2), (15, 0, 2, 4, 0, 3), (2, 1, 0, 0, 0, 0), (3, 1, 0, 3, 0, 0)]
PATCHES = [("patch 1", 0x8000), ("patch 2", 0x20000), ("patch 3", 0x10000), ("patch 4", 0xFFFF), ("patch 5", 0x80000000), ("patch 6", 0x7FFFFFFF)]
ENDINGS = ["done", "divided by zero", "out of range", "outside the table", "spent"]


class Fixed:
    name, number = "fixed", 2

    @staticmethod
    def count(word):
        return word - (1 << 32) if word >> 31 else word

    @staticmethod
    def admit(word):
        return word

    @classmethod
    def less(cls, a, b):
        return cls.count(a) < cls.count(b)

    @classmethod
    def add(cls, a, b):
        return max(-2**31, min(2**31 - 1, cls.count(a) + cls.count(b))) & 0xFFFFFFFF


class Float:
    name, number = "float", 1

    @staticmethod
    def value(word):
        return struct.unpack(">f", struct.pack(">I", word))[0]

    @classmethod
    def admit(cls, word):
        return 0x7FC00000 if cls.value(word) != cls.value(word) else word

    @classmethod
    def less(cls, a, b):
        return cls.value(a) < cls.value(b)

    @classmethod
    def add(cls, a, b):
        total = cls.value(a) + cls.value(b)
        return 0x7FC00000 if total != total else struct.unpack(">I", struct.pack(">f", total))[0]


class Pixel:
    """The built-in transform, place by place: compare, branch, then copy (3) or add (4)."""

    def __init__(self, kind, word, budget):
        self.kind, self.budget = kind, budget
        self.x, self.one = kind.admit(word), kind.admit(ROWS[3][3])
        self.place, self.steps, self.ending, self.out = 1, 0, None, 0

    def step(self):
        self.steps += 1
        if self.place == 1:
            self.less, self.place = self.kind.less(self.x, self.one), 2
        elif self.place == 2:
            self.place = 3 if self.less else 4
        elif self.place == 3:
            self.out, self.place = self.x, 0
        else:
            self.out, self.place = self.kind.add(self.x, self.one), 0
        if self.place == 0:
            self.ending = 0
        elif self.steps == self.budget:
            self.ending = 4


def rounds_together(pixels):
    rounds = 0
    while any(p.ending is None for p in pixels):
        lowest = min(p.place for p in pixels if p.ending is None)
        rounds += 1
        for p in [p for p in pixels if p.ending is None and p.place == lowest]:
            p.step()
    return rounds


def certificate(kind, budget):
    print("CERTIFICATE OF MATCH\ntransform  the built-in transform")
    print("kind       %s (%d)\nbudget     %d steps" % (kind.name, kind.number, budget))
    print("rows       type role channel word")
    for i, row in enumerate(ROWS):
        print("%9d  %4d %4d %7d %08Xh" % ((i,) + row))
    print("records    kind to  a  b  word      next")
    for i, record in enumerate(RECORDS):
        print("%9d  %4d %2d %2d %2d  %08Xh %4d" % ((i,) + record))
    print("table      0 words\nsettings   none: the transform has no uniform")
    print("patch      input      out        ending               place  steps")
    counts = [0] * 5
    for name, word in PATCHES:
        p = Pixel(kind, word, budget)
        while p.ending is None:
            p.step()
        counts[p.ending] += 1
        out = "%08Xh" % p.out if p.ending == 0 else "-        "
        print("%-10s %08Xh  %s  %d %-17s  %5d  %5d" % (name, word, out, p.ending, ENDINGS[p.ending], p.place, p.steps))
    print("ended      " + ", ".join("%d %s" % pair for pair in zip(counts, ENDINGS)))
    print("company    batch from patch 0: %d rounds" % rounds_together([Pixel(kind, w, budget) for _, w in PATCHES]))
    print("company    0 of 6 patches differ from their run alone\n")


for kind in (Fixed, Float):
    for budget in (3, 2):
        certificate(kind, budget)
