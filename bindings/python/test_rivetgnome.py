"""Tests of rivetgnome.py: `python3 -m unittest` in this folder."""
import ctypes
import doctest
import mmap
import os
import pickle
import re
import shutil
import subprocess
import sys
import tempfile
import threading
import unittest
from array import array
from pathlib import Path

import rivetgnome as rg
from rivetgnome import IJ, IJK, Cursor, Inside, Leaves, Refusal, Refused, Walked, Words

HERE = Path(__file__).resolve().parent
ROOT = HERE.parent.parent
PENTAGON, HEXAGON, DELETED = 0x08009FFFFFFFFFFF, 0x08001FFFFFFFFFFF, 0x081087FFFFFFFFFF
FINEST = 0x08F0000000000000
UNTOUCHED = 0xEEEEEEEEEEEEEEEE
TOO_WIDE = [-1, 1 << 32, 1 << 64, -(1 << 64), 1 << 200]


def load_tests(loader, tests, pattern):
    tests.addTests(doctest.DocTestSuite(rg))
    return tests


class Case(unittest.TestCase):
    def refused(self, number, function, *arguments):
        with self.assertRaises(Refused, msg=f"{function.__name__}{arguments}") as caught:
            function(*arguments)
        self.assertEqual(caught.exception.number, number, f"{function.__name__}{arguments}")
        self.assertEqual(caught.exception.name, Refusal(number).name)


class Document01(Case):
    """The twelve examples."""

    def test_check(self):
        self.refused(2, rg.check, 0)
        self.assertIsNone(rg.check(0x080F3FFFFFFFFFFF))
        self.refused(4, rg.check, 0x080F5FFFFFFFFFFF)
        self.refused(5, rg.check, 0x08101FFFFFFFFFFF)
        self.refused(6, rg.check, 0x08001FFFFFFFFFFE)
        self.refused(7, rg.check, DELETED)

    def test_counts(self):
        self.assertEqual([rg.count(PENTAGON, n) for n in (0, 1, 2, 15)], [1, 6, 41, 3956301258286])

    def test_list(self):
        whole = [0x081083, 0x08108B, 0x08108F, 0x081093, 0x081097, 0x08109B]
        self.assertEqual(rg.list_cells(PENTAGON, 1), [c << 40 | (1 << 40) - 1 for c in whole])
        self.refused(10, rg.list_into, PENTAGON, 1, array("Q", [0] * 5))

    def test_step(self):
        self.assertEqual(rg.step(0x08108FFFFFFFFFFF, 5), Inside(0x081097FFFFFFFFFF, 1))
        self.assertEqual(rg.step(0x081097FFFFFFFFFF, 3), Inside(0x08108FFFFFFFFFFF, 5))
        self.refused(17, rg.step, 0x081083FFFFFFFFFF, 1)
        self.assertEqual(rg.step(0x081013FFFFFFFFFF, 4), Leaves(4))
        self.assertEqual(rg.step(0x081013FFFFFFFFFF, 3), Inside(0x081003FFFFFFFFFF, 0))
        self.assertIsInstance(rg.step(0x081013FFFFFFFFFF, 4), Leaves)
        self.assertIsInstance(rg.step(0x081013FFFFFFFFFF, 3), Inside)

    def test_read_back(self):
        self.refused(15, rg.read_back, 1, (0, 0, 2))


class Refusals(Case):
    CELLS = {1: HEXAGON | 1 << 63, 2: 0, 3: HEXAGON | 1 << 56, 4: 0x080F5FFFFFFFFFFF}
    CELLS.update({5: 0x08101FFFFFFFFFFF, 6: 0x08001FFFFFFFFFFE, 7: DELETED})

    def test_names(self):
        text = (ROOT / "include" / "rivetgnome.h").read_text()
        header = re.findall(r"RG_(\w+) = (\d+),? +/\*", text.split("enum rg_refusal {")[1].split("}")[0])
        snake = {int(r): re.sub("(?<=[a-z])(?=[A-Z])", "_", r.name).upper() for r in Refusal}
        self.assertEqual(snake, {int(n): name for name, n in header if n != "0"})
        self.assertEqual(list(Refusal), list(range(1, 18)))

    def test_exception(self):
        e = pickle.loads(pickle.dumps(Refused(10)))
        self.assertEqual((e.number, e.name, str(e)), (Refusal.NoRoom, "NoRoom", "refusal 10, NoRoom"))

    def test_bad_cells_first(self):
        room = array("Q", [UNTOUCHED] * 3)
        for number, bad in self.CELLS.items():
            for far in TOO_WIDE:
                for f in (rg.count, rg.list_cells, Cursor, rg.ancestor, rg.turn_ccw, rg.turn_cw, rg.walk, rg.step):
                    self.refused(number, f, bad, far)
                self.refused(number, rg.child_at, bad, far, far)
                self.refused(number, rg.list_into, bad, far, room)
            for f in (rg.check, rg.list_short, rg.pentagon_turn_ccw, rg.pentagon_turn_cw, rg.centre):
                self.refused(number, f, bad)
            self.refused(number, rg.list_short_into, bad, room)
            self.refused(number, rg.position, bad, 0)
            self.refused(number, rg.position, HEXAGON, bad)
        self.assertEqual(set(room), {UNTOUCHED})

    def test_resolution(self):
        for n in [16, 255, 256] + TOO_WIDE:
            for f in (rg.count, rg.list_cells, Cursor, rg.ancestor):
                self.refused(8, f, HEXAGON, n)
            self.refused(8, rg.child_at, HEXAGON, n, -1)
            self.refused(8, rg.read_back, n, (1 << 40, 0, 0))
        self.refused(8, rg.list_short, FINEST)
        self.refused(8, rg.list_short_into, FINEST, array("Q"))

    def test_order(self):
        for f in (rg.count, rg.list_cells, Cursor):
            self.refused(9, f, FINEST, 14)
        self.refused(9, rg.child_at, FINEST, 14, -1)
        self.refused(9, rg.ancestor, HEXAGON, 1)

    def test_position(self):
        for p in [7, (1 << 64) - 1, 1 << 32, 1 << 64, -1, -(1 << 64) + 1]:
            self.refused(11, rg.child_at, HEXAGON, 1, p)

    def test_not_under(self):
        self.refused(12, rg.position, HEXAGON, PENTAGON)
        self.refused(12, rg.position, rg.child_at(HEXAGON, 1, 0), HEXAGON)

    def test_direction(self):
        for d in [7, 256 + 1] + TOO_WIDE:
            self.refused(13, rg.unit, d)
            self.refused(13, rg.neighbour, (1 << 40, 0, 0), d)
            for f in (rg.direction_turn_ccw, rg.direction_turn_cw):
                self.refused(13, f, d, -1)
        for d in [0, 7] + TOO_WIDE:
            self.refused(13, rg.step, HEXAGON, d)
            self.refused(13, rg.walk, HEXAGON, d)

    def test_range(self):
        for n in [6] + TOO_WIDE:
            for f in (rg.direction_turn_ccw, rg.direction_turn_cw):
                self.refused(14, f, 1, n)
            for f in (rg.turn_ccw, rg.turn_cw):
                self.refused(14, f, HEXAGON, n)
        for c in [100000001, -100000001, 1 << 31, 1 << 32, (1 << 32) + 1, 1 << 64, -(1 << 31) - 1, -(1 << 64)]:
            for p in ((c, 0, 0), (0, c, 0), (0, 0, c)):
                for f in POINT_TO_POINT + [rg.normalise, rg.to_ij, rg.direction_of]:
                    self.refused(14, f, p)
                self.refused(14, rg.neighbour, p, 0)
                self.refused(14, rg.read_back, 0, p)
                for f in (rg.same_point, rg.distance):
                    self.refused(14, f, p, (0, 0, 0))
                    self.refused(14, f, (0, 0, 0), p)
            self.refused(14, rg.from_ij, (c, 0))
            self.refused(14, rg.from_ij, (0, c))
        self.assertEqual(rg.normalise((100000000, -100000000, 0)), IJK(200000000, 0, 100000000))

    def test_not_unit(self):
        self.refused(16, rg.direction_of, (2, 0, 0))

    def test_deleted_way(self):
        self.refused(17, rg.step, rg.child_at(PENTAGON, 15, 0), 1)
        self.assertEqual(rg.step(PENTAGON, 1), Leaves(1))

    def test_cells_too_wide(self):
        for far in (-1, 1 << 64, HEXAGON + (1 << 64)):
            for f in (rg.check, rg.list_short, rg.pentagon_turn_ccw, rg.pentagon_turn_cw, rg.centre):
                self.assertRaises(OverflowError, f, far)
            for f in (rg.count, rg.list_cells, Cursor, rg.ancestor, rg.turn_ccw, rg.turn_cw, rg.walk, rg.step):
                self.assertRaises(OverflowError, f, far, 1)
            self.assertRaises(OverflowError, rg.position, HEXAGON, far)
            self.assertRaises(OverflowError, rg.position, far, HEXAGON)
            self.assertRaises(OverflowError, rg.child_at, far, 1, 0)
            self.assertRaises(OverflowError, rg.list_into, far, 1, array("Q"))

    def test_no_whole_number(self):
        for wrong in (1.0, "1", None, b"1", 1j):
            self.assertRaises(TypeError, rg.check, wrong)
            self.assertRaises(TypeError, rg.count, HEXAGON, wrong)
            self.assertRaises(TypeError, rg.child_at, HEXAGON, 1, wrong)
            self.assertRaises(TypeError, rg.unit, wrong)
            self.assertRaises(TypeError, rg.normalise, (0, 0, wrong))
            self.assertRaises(TypeError, rg.turn_ccw, HEXAGON, wrong)
        self.assertRaises(ValueError, rg.normalise, (0, 0))
        self.assertEqual(rg.unit(rg.Direction.IJ), IJK(1, 1, 0))


POINT_TO_POINT = [rg.down7_ccw, rg.down7_cw, rg.down3_ccw, rg.down3_cw, rg.up7_ccw, rg.up7_cw]
POINT_TO_POINT += [rg.point_turn_ccw, rg.point_turn_cw]


def mmap_of(length):
    made = mmap.mmap(-1, 8 * length)
    made.write(b"\xee" * 8 * length)
    return made


class Buffers(Case):
    def kinds(self, length):
        yield array("Q", [UNTOUCHED] * length)
        yield (ctypes.c_uint64 * length)(*[UNTOUCHED] * length)
        yield (ctypes.c_ulonglong * length)(*[UNTOUCHED] * length)
        yield memoryview(array("Q", [UNTOUCHED] * length))
        if length:
            yield memoryview(bytearray(b"\xee" * 8 * length)).cast("Q")
            yield memoryview(array("Q", [UNTOUCHED] * (length + 2)))[1:-1]
            yield memoryview(mmap_of(length)).cast("Q")
        if ctypes.sizeof(ctypes.c_ulong) == 8:
            yield array("L", [UNTOUCHED] * length)

    def test_each_length(self):
        for cell in (PENTAGON, HEXAGON):
            whole = rg.list_cells(cell, 1)
            for length in range(10):
                for buffer in self.kinds(length):
                    for fill in (rg.list_into, lambda c, _, b: rg.list_short_into(c, b)):
                        if length < len(whole):
                            self.refused(10, fill, cell, 1, buffer)
                            self.assertEqual(list(buffer), [UNTOUCHED] * length)
                        else:
                            self.assertEqual(fill(cell, 1, buffer), len(whole))
                            self.assertEqual(list(buffer), whole + [UNTOUCHED] * (length - len(whole)))

    def test_part_of_a_buffer(self):
        whole = array("Q", [UNTOUCHED] * 20)
        self.assertEqual(rg.list_into(HEXAGON, 1, memoryview(whole)[5:12]), 7)
        self.assertEqual(whole.tolist(), [UNTOUCHED] * 5 + rg.list_cells(HEXAGON, 1) + [UNTOUCHED] * 8)

    def test_wrong_buffers(self):
        q = memoryview(array("Q", [UNTOUCHED] * 16))
        two = q.cast("B").cast("Q", (2, 8))
        signed = array("q", [0] * 16)
        for wrong in (signed, array("I", [0] * 16), array("d", [0] * 16), bytearray(128), q[::2], two, [0] * 16, None, 7):
            self.assertRaises(TypeError, rg.list_into, HEXAGON, 1, wrong)
            self.assertRaises(TypeError, rg.list_short_into, HEXAGON, wrong)
        self.assertRaises(TypeError, rg.list_into, HEXAGON, 1, q.toreadonly())
        self.assertRaises(ValueError, rg.list_into, HEXAGON, 1, memoryview(bytearray(129))[1:].cast("Q"))
        self.assertEqual(set(q), {UNTOUCHED})

    def test_buffer_is_let_go(self):
        a = array("Q", [0] * 7)
        rg.list_into(HEXAGON, 1, a)
        a.append(1)
        self.assertEqual(len(a), 8)


class Descendants(Case):
    def test_whole(self):
        for cell in (PENTAGON, HEXAGON, 0x081083FFFFFFFFFF, 0x08108FFFFFFFFFFF, FINEST):
            own = cell >> 52 & 15
            for target in range(own, min(own + 5, 15) + 1):
                whole = rg.list_cells(cell, target)
                self.assertEqual(whole, sorted(set(whole)))
                self.assertEqual(len(whole), rg.count(cell, target))
                self.assertEqual(list(Cursor(cell, target)), whole)
                for at in (0, len(whole) // 3, len(whole) - 1):
                    self.assertEqual(rg.child_at(cell, target, at), whole[at])
                    self.assertEqual(rg.position(cell, whole[at]), at)
                    self.assertEqual(rg.ancestor(whole[at], own), cell)
            if own < 15:
                self.assertEqual(rg.list_short(cell), rg.list_cells(cell, own + 1))

    def test_blocks(self):
        for cell in (PENTAGON, HEXAGON):
            parts = [c for b in Cursor(cell, 2) for c in rg.list_cells(b, 5)]
            self.assertEqual(parts, list(Cursor(cell, 5)))

    def test_cursor(self):
        at = Cursor(PENTAGON, 2)
        self.assertEqual(at.words, Words(0, 2, rg.child_at(PENTAGON, 2, 0), 2, 41))
        given = []
        while True:
            kept = at.words
            again = Cursor.of_words(kept)
            cell = next(at, None)
            self.assertEqual(next(again, None), cell)
            self.assertEqual(again.words, at.words)
            if cell is None:
                break
            given.append(cell)
        self.assertEqual(given, rg.list_cells(PENTAGON, 2))
        self.assertEqual((kept, at.words.left), (at.words, 0))
        self.assertRaises(StopIteration, next, at)
        self.assertEqual(at.words, kept)
        self.assertIs(iter(at), at)

    def test_forged_cursor(self):
        good = Cursor(HEXAGON, 2).words
        self.assertEqual(good.skip, -1)
        for field in Words._fields:
            for wrong in (-2, 1 << 31, 1 << 32, 1 << 63, 1 << 64, 1 << 200, -(1 << 63), -(1 << 64), 99):
                self.refused(11, Cursor.of_words, good._replace(**{field: wrong}))
        self.refused(11, Cursor.of_words, good._replace(own=good.own + (1 << 64)))
        self.refused(11, Cursor.of_words, good._replace(skip=(1 << 64) - 1))
        self.assertRaises(TypeError, Cursor.of_words, good._replace(left=1.0))
        self.assertRaises(ValueError, Cursor.of_words, good[:4])

    def test_threads(self):
        wanted, wrong = rg.list_cells(PENTAGON, 5), []

        def work():
            room = array("Q", [0]) * len(wanted)
            for _ in range(20):
                rg.list_into(PENTAGON, 5, room)
                if room.tolist() != wanted:
                    wrong.append(1)

        threads = [threading.Thread(target=work) for _ in range(4)]
        for t in threads:
            t.start()
        for t in threads:
            t.join()
        self.assertEqual(wrong, [])


class Blocks(Case):
    """Each element has what the single function answers for it."""

    def numbers(self, length):
        block = []
        for at in range(length):
            cell, target = (HEXAGON, PENTAGON)[at % 2], at % 16
            child = rg.child_at(cell, target, at * at % rg.count(cell, target))
            block.append(child ^ 1 << at % 64 if at % 5 == 0 else child)
        return block

    def each(self, single, whole):
        def answer(number):
            try:
                value = single(number)
                return (number if value is None else value), 0
            except Refused as e:
                return 0, int(e.number)

        for length in (0, 1, 7, 1000):
            block = self.numbers(length)
            wanted = rg.Block([answer(n)[0] for n in block], [answer(n)[1] for n in block])
            kept = array("Q", block)
            for numbers in (block, tuple(block), iter(block), kept, memoryview(kept), (ctypes.c_uint64 * length)(*block)):
                self.assertEqual(whole(numbers), wanted)
            self.assertEqual(kept.tolist(), block)
            kept.append(1)

    def test_each(self):
        self.each(rg.check, rg.check_block)
        for r in (0, 3, 15, 16, -1, 1 << 32):
            self.each(lambda n: rg.ancestor(n, r), lambda block: rg.ancestor_block(block, r))
        for first in (PENTAGON, HEXAGON, DELETED):
            self.each(lambda n: rg.position(first, n), lambda block: rg.position_block(first, block))

    def test_room(self):
        block, values, refusals = (ctypes.c_uint64 * 3)(), (ctypes.c_uint64 * 3)(7, 7, 7), (ctypes.c_uint16 * 3)(9, 9, 9)
        for v, r in ((2, 3), (3, 2), (0, 0)):
            for a in (
                rg._lib.rg_check_block(block, 3, values, v, refusals, r),
                rg._lib.rg_ancestor_block(block, 3, 0, values, v, refusals, r),
                rg._lib.rg_position_block(HEXAGON, block, 3, values, v, refusals, r),
            ):
                self.assertEqual((a.refusal, a.value), (10, 0))
        self.assertEqual((list(values), list(refusals)), ([7] * 3, [9] * 3))

    def test_kinds(self):
        for f in (rg.check_block, lambda b: rg.ancestor_block(b, 0), lambda b: rg.position_block(HEXAGON, b)):
            self.assertRaises(OverflowError, f, [HEXAGON, -1])
            self.assertRaises(OverflowError, f, [1 << 64])
            self.assertRaises(TypeError, f, [1.0])
            self.assertRaises(TypeError, f, HEXAGON)
        self.assertRaises(OverflowError, rg.position_block, 1 << 64, [])
        self.assertRaises(TypeError, rg.ancestor_block, [], 1.0)


class Answers(Case):
    """The kind of each answer that no example above shows."""

    def test_kinds(self):
        self.assertEqual(repr(rg.walk(0x081013FFFFFFFFFF, 3)), f"Walked(number={0x081003FFFFFFFFFF}, carry=0)")
        self.assertEqual(rg.walk(HEXAGON, 6), Walked(HEXAGON, 6))
        self.assertEqual(repr(rg.to_ij((0, 3, 5))), "IJ(i=-5, j=-2)")
        self.assertEqual(rg.from_ij(IJ(-5, -2)), IJK(0, 3, 5))
        self.assertIs(rg.same_point((1, 1, 1), (0, 0, 0)), True)
        self.assertIs(rg.same_point((1, 1, 1), (0, 0, 1)), False)
        self.assertEqual(rg.distance((0, 0, 0), (3, 0, 1)), 3)
        self.assertEqual([rg.direction_of(rg.unit(d)) for d in range(7)], list(range(7)))
        self.assertEqual([rg.direction_turn_ccw(d, 1) for d in range(7)], [0, 5, 3, 1, 6, 4, 2])
        self.assertEqual([rg.direction_turn_cw(d, 5) for d in range(7)], [0, 5, 3, 1, 6, 4, 2])
        self.assertEqual(rg.read_back(1, rg.centre(0x081013FFFFFFFFFF)), 0x081013FFFFFFFFFF)

    def test_turns(self):
        by_digit = rg.list_cells(HEXAGON, 1)
        turns = {rg.turn_ccw: rg.direction_turn_ccw, rg.turn_cw: rg.direction_turn_cw}
        for turn, direction_turn in turns.items():
            for d in range(7):
                for n in range(6):
                    self.assertEqual(turn(by_digit[d], n), by_digit[direction_turn(d, n)])
        self.assertEqual([by_digit.index(rg.pentagon_turn_ccw(c)) for c in by_digit], [0, 5, 3, 5, 6, 4, 2])
        self.assertEqual([by_digit.index(rg.pentagon_turn_cw(c)) for c in by_digit], [0, 3, 6, 2, 5, 3, 4])


def hexadecimal(number):
    return f"{number:016x}"


def room_of(word):
    return array("Q", [UNTOUCHED]) * int(word)


def filled(fill, room):
    try:
        head = str(fill(room))
    except Refused as e:
        head = f"refusal {int(e.number)}"
    return f"{head} : " + " ".join(map(hexadecimal, room))


def listed(cell, target):
    room = room_of(8192)
    cells = room[: rg.list_into(cell, target, room)].tolist()
    assert cells == rg.list_cells(cell, target) == list(Cursor(cell, target))
    return " ".join(map(hexadecimal, cells))


def cursor_words(w):
    return f"{w.own} {w.target} {hexadecimal(w.number)} {w.skip} {w.left}"


def moved(own, target, number, skip, left):
    words = Words(int(own), int(target), int(number, 16), int(skip), int(left))
    try:
        at = Cursor.of_words(words)
    except Refused as e:
        return f"refusal {int(e.number)} : {cursor_words(words)}"
    cell = next(at, None)
    return ("Done" if cell is None else hexadecimal(cell)) + " : " + cursor_words(at.words)


def spoken(answer):
    if isinstance(answer, Inside):
        return f"Inside {hexadecimal(answer.cell)} {answer.turn}"
    if isinstance(answer, Leaves):
        return f"Leaves {answer.direction}"
    if isinstance(answer, Walked):
        return f"{hexadecimal(answer.number)} {answer.carry}"
    return " ".join(map(str, answer))


def answer(line):
    """What hexline answers to a line that fits one of its forms."""
    name, *w = line.split(" ")
    if w and w[0] in ("ccw", "cw"):
        name, w = f"{name}_{w[0]}", w[1:]
    n = [int(x) if re.fullmatch("-?[0-9]+", x) else None for x in w]
    h = int(w[0], 16) if re.fullmatch("[0-9a-f]+", w[0]) else None
    points = {"normalise": rg.normalise, "ij": rg.to_ij}
    for f in POINT_TO_POINT:
        points[f.__name__.replace("point_turn", "turnpoint")] = f
    try:
        if name in points:
            return spoken(points[name](n))
        if name == "check":
            rg.check(h)
            return "ok"
        if name == "list":
            if len(w) == 2:
                return listed(h, n[1])
            return filled(lambda room: rg.list_into(h, n[1], room), room_of(w[2]))
        if name == "short":
            return filled(lambda room: rg.list_short_into(h, room), room_of(w[1]))
        if name == "next":
            return moved(*w)
        return {
            "count": lambda: str(rg.count(h, n[1])),
            "childat": lambda: hexadecimal(rg.child_at(h, n[1], n[2])),
            "position": lambda: str(rg.position(h, int(w[1], 16))),
            "ancestor": lambda: hexadecimal(rg.ancestor(h, n[1])),
            "cursor": lambda: cursor_words(Cursor(h, n[1]).words),
            "turn_ccw": lambda: hexadecimal(rg.turn_ccw(h, n[1])),
            "turn_cw": lambda: hexadecimal(rg.turn_cw(h, n[1])),
            "pentturn_ccw": lambda: hexadecimal(rg.pentagon_turn_ccw(h)),
            "pentturn_cw": lambda: hexadecimal(rg.pentagon_turn_cw(h)),
            "unit": lambda: spoken(rg.unit(n[0])),
            "drot_ccw": lambda: str(rg.direction_turn_ccw(*n)),
            "drot_cw": lambda: str(rg.direction_turn_cw(*n)),
            "neighbour": lambda: spoken(rg.neighbour(n[:3], n[3])),
            "fromij": lambda: spoken(rg.from_ij(n)),
            "same": lambda: "yes" if rg.same_point(n[:3], n[3:]) else "no",
            "distance": lambda: str(rg.distance(n[:3], n[3:])),
            "dirof": lambda: str(rg.direction_of(n)),
            "centre": lambda: spoken(rg.centre(h)),
            "readback": lambda: hexadecimal(rg.read_back(n[0], n[1:])),
            "walk": lambda: spoken(rg.walk(h, n[1])),
            "step": lambda: spoken(rg.step(h, n[1])),
        }[name]()
    except Refused as e:
        return f"refusal {int(e.number)}"


class Stored(Case):
    def replay(self, requests, answers):
        asked = requests.read_bytes().decode("latin-1").split("\n")
        told = answers.read_bytes().decode("latin-1").split("\n")
        while asked and asked[-1] == "":
            asked.pop()
        compared = 0
        for number, (line, wanted) in enumerate(zip(asked, told), 1):
            if wanted != "input":
                self.assertEqual(answer(line), wanted, f"line {number}: {line}")
                compared += 1
        return compared

    def test_vectors(self):
        folder = ROOT / "crates" / "hexline"
        self.assertGreater(self.replay(folder / "stdin", folder / "stdout"), 3000)


class Finding(Case):
    """Each way to the library, in a process of its own."""

    CODE = "import rivetgnome as r; r.check(0x80f3fffffffffff); print(r._lib.rg_check is r._lib.rg_check)"

    @classmethod
    def setUpClass(cls):
        cls.archive = ROOT / "target" / "staticlib" / "librivetgnome.a"
        if not cls.archive.is_file() or not shutil.which("gcc"):
            raise unittest.SkipTest("no archive, or no gcc")
        cls.folder = tempfile.TemporaryDirectory()
        cls.shared = Path(cls.folder.name) / "lib" / "librivetgnome.so"
        rg._link(cls.archive, cls.shared)

    @classmethod
    def tearDownClass(cls):
        cls.folder.cleanup()

    def run_in(self, module, **environment):
        env = {k: v for k, v in os.environ.items() if k not in ("RIVETGNOME_LIB", "PKG_CONFIG_PATH")}
        env.update(PKG_CONFIG_LIBDIR="/nowhere", PYTHONPATH=str(module), PYTHONDONTWRITEBYTECODE="1")
        env.update({k: str(v) for k, v in environment.items()})
        return subprocess.run([sys.executable, "-c", self.CODE], env=env, capture_output=True, text=True, cwd="/")

    def found(self, ran):
        self.assertEqual((ran.returncode, ran.stdout), (0, "True\n"), ran.stderr)

    def alone(self, name):
        """A folder with this module and nothing above it."""
        folder = Path(self.folder.name) / name / "a" / "b"
        folder.mkdir(parents=True)
        shutil.copy(HERE / "rivetgnome.py", folder)
        return folder

    def test_given(self):
        for where in (self.shared, self.shared.parent, self.archive, self.archive.parent):
            self.found(self.run_in(HERE, RIVETGNOME_LIB=where))

    def test_given_and_not_there(self):
        for where in ("/nowhere", self.folder.name):
            ran = self.run_in(HERE, RIVETGNOME_LIB=where)
            self.assertIn("OSError: rivetgnome: RIVETGNOME_LIB: there is no", ran.stderr)

    def test_another_library(self):
        other = Path(self.folder.name) / "other.so"
        build = ["gcc", "-shared", "-o", str(other), "-x", "c", "-"]
        subprocess.run(build, input="int rg_check; ", text=True, check=True)
        ran = self.run_in(HERE, RIVETGNOME_LIB=other)
        self.assertIn(f"OSError: rivetgnome: {other} has no rg_count", ran.stderr)

    def test_pkg_config(self):
        if not shutil.which("pkg-config"):
            self.skipTest("no pkg-config")
        text = f"libdir={self.shared.parent}\nName: rivetgnome\nDescription: x\nVersion: 1\nLibs: -L${{libdir}}\n"
        (self.shared.parent / "rivetgnome.pc").write_text(text)
        self.found(self.run_in(self.alone("installed"), PKG_CONFIG_PATH=self.shared.parent))

    def test_target(self):
        self.found(self.run_in(HERE))
        self.assertTrue((ROOT / "target" / "lib" / "librivetgnome.so").is_file())

    def test_make(self):
        module = self.alone("made")
        root = module.parent.parent
        (root / "include").mkdir()
        (root / "include" / "rivetgnome.h").touch()
        (root / "Makefile").write_text(f"lib:\n\tmkdir -p target/staticlib && cp {self.archive} target/staticlib\n")
        if shutil.which("make"):
            self.found(self.run_in(module))
            self.found(self.run_in(module, PATH="/nowhere"))
            old = root / "target" / "lib" / "librivetgnome.so"
            old.write_bytes(b"")
            os.utime(old, (1, 1))
            self.found(self.run_in(module))

    def test_nothing(self):
        ran = self.run_in(self.alone("nothing"))
        self.assertIn("OSError: rivetgnome: no librivetgnome.so", ran.stderr)


class Guide(Case):
    """docs/USING.md: its examples are run and its tables are whole."""

    GUIDE = ROOT / "docs" / "USING.md"

    def test_python(self):
        ran = doctest.testfile(str(self.GUIDE), module_relative=False)
        self.assertGreater(ran.attempted, 10)
        self.assertEqual(ran.failed, 0)

    def test_c(self):
        archive = ROOT / "target" / "staticlib" / "librivetgnome.a"
        if not archive.is_file() or not shutil.which("gcc"):
            self.skipTest("no archive, or no gcc")
        programs = re.findall(r"```c\n(.*?)```\n+```text\n(.*?)```", self.GUIDE.read_text(), re.S)
        self.assertTrue(programs)
        for program, output in programs:
            with tempfile.TemporaryDirectory() as folder:
                source, made = Path(folder) / "a.c", Path(folder) / "a"
                source.write_text(program)
                warn = ["-std=c11", "-Wall", "-Wextra", "-Werror", "-pedantic"]
                build = ["gcc", *warn, "-I", str(ROOT / "include"), "-o", str(made), str(source), str(archive)]
                subprocess.run(build, check=True)
                ran = subprocess.run([str(made)], capture_output=True, text=True, check=True)
                self.assertEqual(ran.stdout, output)

    def test_refusals(self):
        rows = re.findall(r"^\| (\d+) (\w+) \|", self.GUIDE.read_text(), re.M)
        self.assertEqual([(int(n), name) for n, name in rows], [(int(r), r.name) for r in Refusal])

    def test_names(self):
        """Every entry of the header stands in the guide, and has its function here."""
        text = self.GUIDE.read_text()
        for export in rg._EXPORTS:
            self.assertIn(export, text)


if __name__ == "__main__":
    unittest.main()
