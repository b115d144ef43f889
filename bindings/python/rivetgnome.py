"""The integer part of the H3 grid index, proved: a binding of librivetgnome.

Cells are ints, points are IJK triples, directions are 0 to 6 (Direction names them). What is wrong is
raised as Refused, with a number and a name:

    >>> import rivetgnome as rg
    >>> [hex(c) for c in rg.list_cells(0x8009fffffffffff, 1)][:2]
    ['0x81083ffffffffff', '0x8108bffffffffff']
    >>> rg.step(0x81013ffffffffff, rg.Direction.I)
    Leaves(direction=4)
    >>> rg.count(0x8009fffffffffff, 16)
    Traceback (most recent call last):
    rivetgnome.Refused: refusal 8, Resolution

A number that does not fit its place in C is refused as the largest one there: Resolution for a resolution or
length, Position for a position or a cursor's word, Direction for a direction, Range for a coordinate or a
turn count. Only a cell outside 0 to 2**64 - 1 has no refusal: that is an OverflowError. What is no whole
number is a TypeError.

The library is loaded at the first call. It is looked for in this order: RIVETGNOME_LIB (librivetgnome.so or
librivetgnome.a, or a folder that holds one), pkg-config, target/ of the repository that this file stands in,
and what `make lib` builds there. An archive is linked by gcc. Where there is none it is an OSError.

The functions keep no state; any number of threads may call them. A Cursor is for one thread at a time.
"""
from __future__ import annotations

import ctypes
import os
import shutil
import subprocess
import sys
import tempfile
import threading
from array import array
from ctypes import POINTER, byref, c_int32, c_int64, c_size_t, c_uint16, c_uint32, c_uint64
from enum import IntEnum
from operator import index
from pathlib import Path
from typing import Any, Iterable, Iterator, List, NamedTuple, Tuple, Union


class Refusal(IntEnum):
    """What can be wrong with a request, by document 01's numbers and names."""

    TopBit = 1  # cell: bit 63 is set
    Mode = 2  # cell: the mode is not 1
    Reserved = 3  # cell: bits 56 to 58 are not 0
    BaseCell = 4  # cell: the base cell is above 121
    Digit = 5  # cell: a used digit is 7
    Unused = 6  # cell: an unused digit is not 7
    Deleted = 7  # cell: pentagon base cell, first used digit that is not 0 is 1
    Resolution = 8  # a resolution or length is not 0 to 15
    Order = 9  # the wanted resolution lies on the wrong side of the cell's
    NoRoom = 10  # the buffer is shorter than the listing, or than the block handed in
    Position = 11  # no such position, or a cursor that this library did not make
    NotUnder = 12  # the second cell does not lie under the first
    Direction = 13  # a direction is not 0 to 6, or is 0 where only 1 to 6 will do
    Range = 14  # a coordinate is beyond 100,000,000 either way, or a turn count is not 0 to 5
    NoString = 15  # no digit string of that length has that centre
    NotUnit = 16  # the point is neither zero nor a unit vector
    DeletedWay = 17  # a pentagon of resolution 1 or finer has no neighbour in direction 1


class Refused(Exception):
    """A request was refused. Nothing was written."""

    number: Refusal
    name: str

    def __init__(self, number: int) -> None:
        super().__init__(number)
        self.number = Refusal(number)
        self.name = self.number.name

    def __str__(self) -> str:
        return f"refusal {int(self.number)}, {self.name}"


class Direction(IntEnum):
    """The centre and the ways to the six neighbours. Counter-clockwise they are K, IK, I, IJ, J, JK."""

    Center = 0
    K = 1
    J = 2
    JK = 3
    I = 4
    IK = 5
    IJ = 6


class IJK(NamedTuple):
    """A point: steps in directions I, J and K. Points answered have 0 as their least component."""

    i: int
    j: int
    k: int


class IJ(NamedTuple):
    """The IJ form of a point."""

    i: int
    j: int


class Inside(NamedTuple):
    """The step stays in its base cell. Directions turn `turn` times counter-clockwise on the way: 0, 1 or 5."""

    cell: int
    turn: int


class Leaves(NamedTuple):
    """The step leaves its base cell in `direction`, 1 to 6."""

    direction: int


class Walked(NamedTuple):
    """New digits in the same base cell, and the direction in which it was left; 0 where it was not."""

    number: int
    carry: int


class Block(NamedTuple):
    """What a block of numbers is answered, element by element: the value and 0, or 0 and the number of a Refusal."""

    values: List[int]
    refusals: List[int]


class Words(NamedTuple):
    """What a cursor keeps: to be stored and handed to Cursor.of_words."""

    own: int  # the resolution of the cell
    target: int  # the resolution of its descendants
    number: int  # the next descendant; the last one when none is left
    skip: int  # under a pentagon the resolution whose digit 1 is skipped next; else -1
    left: int  # how many are left


Triple = Union[IJK, Tuple[int, int, int]]


class _Checked(ctypes.Structure):
    _fields_ = [("refusal", c_uint16), ("zero", c_uint16)]


class _Number(ctypes.Structure):
    _fields_ = [("refusal", c_uint16), ("zero", c_uint16), ("value", c_uint64)]


class _Point(ctypes.Structure):
    _fields_ = [("refusal", c_uint16), ("zero", c_uint16), ("i", c_int32), ("j", c_int32), ("k", c_int32)]


class _Pair(ctypes.Structure):
    _fields_ = [("refusal", c_uint16), ("zero", c_uint16), ("i", c_int32), ("j", c_int32)]


class _Walked(ctypes.Structure):
    _fields_ = [("refusal", c_uint16), ("zero", c_uint16), ("carry", c_uint32), ("number", c_uint64)]


class _Stepped(ctypes.Structure):
    _fields_ = [
        ("refusal", c_uint16),
        ("zero", c_uint16),
        ("kind", c_uint16),
        ("turn", c_uint16),
        ("cell", c_uint64),
    ]


class _Words(ctypes.Structure):
    _fields_ = [
        ("own", c_uint64),
        ("target", c_uint64),
        ("number", c_uint64),
        ("skip", c_int64),
        ("left", c_uint64),
    ]


_3 = (c_int32, c_int32, c_int32)
_BLOCK = (POINTER(c_uint64), c_size_t)
_LENT = (POINTER(c_uint64), c_size_t, POINTER(c_uint16), c_size_t)
_EXPORTS = {
    "rg_check": (_Checked, c_uint64),
    "rg_count": (_Number, c_uint64, c_uint32),
    "rg_list": (_Number, c_uint64, c_uint32, POINTER(c_uint64), c_size_t),
    "rg_list_short": (_Number, c_uint64, POINTER(c_uint64), c_size_t),
    "rg_child_at": (_Number, c_uint64, c_uint32, c_uint64),
    "rg_position": (_Number, c_uint64, c_uint64),
    "rg_ancestor": (_Number, c_uint64, c_uint32),
    "rg_check_block": (_Number, *_BLOCK, *_LENT),
    "rg_ancestor_block": (_Number, *_BLOCK, c_uint32, *_LENT),
    "rg_position_block": (_Number, c_uint64, *_BLOCK, *_LENT),
    "rg_cursor": (_Checked, c_uint64, c_uint32, POINTER(_Words)),
    "rg_next": (_Number, POINTER(_Words)),
    "rg_turn_ccw": (_Number, c_uint64, c_uint32),
    "rg_turn_cw": (_Number, c_uint64, c_uint32),
    "rg_pentagon_turn_ccw": (_Number, c_uint64),
    "rg_pentagon_turn_cw": (_Number, c_uint64),
    "rg_unit": (_Point, c_uint32),
    "rg_direction_turn_ccw": (_Number, c_uint32, c_uint32),
    "rg_direction_turn_cw": (_Number, c_uint32, c_uint32),
    "rg_normalise": (_Point, *_3),
    "rg_neighbour": (_Point, *_3, c_uint32),
    "rg_same_point": (_Number, *_3, *_3),
    "rg_distance": (_Number, *_3, *_3),
    "rg_to_ij": (_Pair, *_3),
    "rg_from_ij": (_Point, c_int32, c_int32),
    "rg_down7_ccw": (_Point, *_3),
    "rg_down7_cw": (_Point, *_3),
    "rg_down3_ccw": (_Point, *_3),
    "rg_down3_cw": (_Point, *_3),
    "rg_up7_ccw": (_Point, *_3),
    "rg_up7_cw": (_Point, *_3),
    "rg_point_turn_ccw": (_Point, *_3),
    "rg_point_turn_cw": (_Point, *_3),
    "rg_direction_of": (_Number, *_3),
    "rg_centre": (_Point, c_uint64),
    "rg_read_back": (_Number, c_uint32, *_3),
    "rg_walk": (_Walked, c_uint64, c_uint32),
    "rg_step": (_Stepped, c_uint64, c_uint32),
    "rg_version": (c_uint32,),
}

_SHARED = "librivetgnome.so"
_ARCHIVE = "librivetgnome.a"
_ROOT = Path(__file__).resolve().parent / ".." / ".."


def _link(archive: Path, into: Path) -> None:
    """Links a shared object; no other process sees it half written."""
    if shutil.which("gcc") is None:
        raise OSError(f"rivetgnome: gcc is needed to link {_SHARED}")
    into.parent.mkdir(parents=True, exist_ok=True)
    with tempfile.TemporaryDirectory(dir=into.parent) as folder:
        new = Path(folder) / _SHARED
        whole = ["-Wl,--whole-archive", str(archive), "-Wl,--no-whole-archive"]
        if subprocess.run(["gcc", "-shared", "-o", str(new), *whole]).returncode != 0:
            raise OSError(f"rivetgnome: gcc did not link {archive}")
        os.replace(new, into)


def _given(path: Path) -> ctypes.CDLL:
    """The library that RIVETGNOME_LIB names."""
    if path.is_dir():
        path = next((path / n for n in (_SHARED, _ARCHIVE) if (path / n).is_file()), path / _SHARED)
    if not path.is_file():
        raise OSError(f"rivetgnome: RIVETGNOME_LIB: there is no {path}")
    if path.suffix != ".a":
        return ctypes.CDLL(str(path.absolute()))
    with tempfile.TemporaryDirectory() as folder:
        shared = Path(folder) / _SHARED
        _link(path, shared)
        return ctypes.CDLL(str(shared))


def _load() -> ctypes.CDLL:
    given = os.environ.get("RIVETGNOME_LIB")
    if given:
        return _given(Path(given))
    if shutil.which("pkg-config"):
        ask = ["pkg-config", "--variable=libdir", "rivetgnome"]
        said = subprocess.run(ask, stdout=subprocess.PIPE, stderr=subprocess.DEVNULL, text=True)
        installed = Path(said.stdout.strip()) / _SHARED
        if said.returncode == 0 and installed.is_file():
            return ctypes.CDLL(str(installed.absolute()))
    if not (_ROOT / "include" / "rivetgnome.h").is_file():
        raise OSError(f"rivetgnome: no {_SHARED}: set RIVETGNOME_LIB, or let pkg-config find rivetgnome")
    shared, archive = _ROOT / "target" / "lib" / _SHARED, _ROOT / "target" / "staticlib" / _ARCHIVE
    if not shared.is_file() and not archive.is_file():
        print("rivetgnome: make lib", file=sys.stderr)
        make = ["make", "-s", "-C", str(_ROOT), "lib"]
        if shutil.which("make") is None or subprocess.run(make, stdout=2).returncode != 0:
            raise OSError("rivetgnome: make lib failed")
    if not shared.is_file() or archive.is_file() and archive.stat().st_mtime > shared.stat().st_mtime:
        _link(archive, shared)
    return ctypes.CDLL(str(shared))


class _Library:
    """The exports as attributes, loaded when the first is asked for."""

    _lock = threading.Lock()

    def __getattr__(self, name: str) -> Any:
        if name not in _EXPORTS:
            raise AttributeError(name)
        with self._lock:
            if name not in self.__dict__:
                library = _load()
                found = {}
                for export, (answer, *arguments) in _EXPORTS.items():
                    function = getattr(library, export, None)
                    if function is None:
                        raise OSError(f"rivetgnome: {library._name} has no {export}")
                    function.restype, function.argtypes = answer, arguments
                    found[export] = function
                self.__dict__.update(found)
        return self.__dict__[name]


_lib = _Library()


def _cell(cell: int) -> int:
    cell = index(cell)
    if not 0 <= cell < 1 << 64:
        raise OverflowError("a cell is 0 to 2**64 - 1")
    return cell


def _u32(number: int) -> int:
    number = index(number)
    return number if 0 <= number < 1 << 32 else (1 << 32) - 1


def _u64(number: int) -> int:
    number = index(number)
    return number if 0 <= number < 1 << 64 else (1 << 64) - 1


def _i32(number: int) -> int:
    return min(max(index(number), -(1 << 31)), (1 << 31) - 1)


def _triple(point: Triple) -> Tuple[int, int, int]:
    i, j, k = point
    return _i32(i), _i32(j), _i32(k)


def _value(answer: _Number) -> int:
    if answer.refusal:
        raise Refused(answer.refusal)
    return answer.value


def _point(answer: _Point) -> IJK:
    if answer.refusal:
        raise Refused(answer.refusal)
    return IJK(answer.i, answer.j, answer.k)


def version() -> int:
    """The library's version: 10000 * major + 100 * minor + patch."""
    return _lib.rg_version()


def check(cell: int) -> None:
    """Returns where `cell` is the number of a cell; else the first of Refusal 1 to 7 that is true of it."""
    refusal = _lib.rg_check(_cell(cell)).refusal
    if refusal:
        raise Refused(refusal)


# Descendants and ancestors. A cell is its own descendant and ancestor at its own resolution.


def count(cell: int, resolution: int) -> int:
    """How many descendants `cell` has at `resolution`: 7**n at n resolutions down, fewer for a pentagon.

    Order where `resolution` is coarser than the cell's.
    """
    return _value(_lib.rg_count(_cell(cell), _u32(resolution)))


def _elements(buffer: Any) -> Tuple[memoryview, Any]:
    """The view to keep while the library writes, and the address of element 0."""
    view = memoryview(buffer)
    order = "<" if sys.byteorder == "little" else ">"
    # Python 3.9 gives an empty ctypes array elements of 0 bytes
    wide = view.itemsize == 8 or len(view) == 0
    if view.ndim != 1 or not wide or view.format.lstrip("@=" + order) not in ("Q", "L"):
        raise TypeError("a buffer has one dimension and unsigned 64-bit elements, as array('Q')")
    if len(view) == 0:
        return view, None
    first = c_uint64.from_buffer(view)
    if ctypes.addressof(first) % ctypes.alignment(c_uint64):
        raise ValueError("the elements of a buffer are aligned")
    return view, byref(first)


def list_into(cell: int, resolution: int, buffer: Any) -> int:
    """Writes the descendants of `cell` at `resolution` to the elements of `buffer` from 0 on, ascending.

    Returns their count; later elements stay as they were. `buffer` is any writable buffer object of unsigned
    64-bit elements, such as array('Q'), an array of ctypes.c_uint64, a memoryview or a numpy array of uint64. It
    is filled in place, and no other thread may use it meanwhile.
    NoRoom where it is shorter than the count. Where anything is refused no element is written.
    """
    view, first = _elements(buffer)
    return _value(_lib.rg_list(_cell(cell), _u32(resolution), first, len(view)))


def list_cells(cell: int, resolution: int) -> List[int]:
    """The descendants of `cell` at `resolution`, ascending, all at once: Cursor gives them one by one."""
    cells = array("Q", [0]) * count(cell, resolution)
    list_into(cell, resolution, cells)
    return cells.tolist()


def list_short_into(cell: int, buffer: Any) -> int:
    """list_into one resolution below the cell's own: 7 cells, 6 under a pentagon.

    Resolution where the cell's is 15; then NoRoom.
    """
    view, first = _elements(buffer)
    return _value(_lib.rg_list_short(_cell(cell), first, len(view)))


def list_short(cell: int) -> List[int]:
    """The descendants of `cell` one resolution below its own, ascending. Resolution where the cell's is 15."""
    cells = array("Q", [0]) * 7
    return cells[: list_short_into(cell, cells)].tolist()


class Cursor(Iterator[int]):
    """The descendants of a cell at a resolution, one by one, ascending, however many there are.

    Order where `resolution` is coarser than the cell's.
    """

    def __init__(self, cell: int, resolution: int) -> None:
        self._words = _Words()
        refusal = _lib.rg_cursor(_cell(cell), _u32(resolution), byref(self._words)).refusal
        if refusal:
            raise Refused(refusal)

    @classmethod
    def of_words(cls, words: Iterable[int]) -> Cursor:
        """The cursor that had these words. Position where no cursor of this library has them."""
        own, target, number, skip, left = map(index, words)
        made = cls.__new__(cls)
        made._words = _Words(own, target, number, skip, left)
        tried = _Words(own, target, number, skip, left)
        if made.words != (own, target, number, skip, left):
            raise Refused(Refusal.Position)
        _value(_lib.rg_next(byref(tried)))
        return made

    @property
    def words(self) -> Words:
        """What the cursor keeps now."""
        w = self._words
        return Words(w.own, w.target, w.number, w.skip, w.left)

    def __next__(self) -> int:
        """The next descendant."""
        cell = _value(_lib.rg_next(byref(self._words)))
        if cell == 0:
            raise StopIteration
        return cell

    def __length_hint__(self) -> int:
        return self._words.left


def child_at(cell: int, resolution: int, position: int) -> int:
    """The descendant of `cell` at `resolution` in a position, from 0. Order as in count; then Position."""
    return _value(_lib.rg_child_at(_cell(cell), _u32(resolution), _u64(position)))


def position(first: int, second: int) -> int:
    """The position of `second` among the descendants of `first` at its resolution. NotUnder if it is none."""
    return _value(_lib.rg_position(_cell(first), _cell(second)))


def ancestor(cell: int, resolution: int) -> int:
    """The ancestor of `cell` at `resolution`. Order where that is finer than the cell's."""
    return _value(_lib.rg_ancestor(_cell(cell), _u32(resolution)))


# Blocks: what the single function answers for each of many numbers, in one call. Nothing in a block is raised as
# Refused. Numbers may be any iterable of ints; an array('Q') is read where it lies.


def _over(cells: Iterable[int], call: Any) -> Block:
    numbers = cells if isinstance(cells, array) and cells.typecode == "Q" else array("Q", map(_cell, cells))
    length = len(numbers)
    values, refusals = (c_uint64 * length)(), (c_uint16 * length)()
    _value(call((c_uint64 * length).from_buffer(numbers), length, (values, length, refusals, length)))
    return Block(list(values), list(refusals))


def check_block(cells: Iterable[int]) -> Block:
    """check of each number. The value of a cell is the cell itself.

    >>> check_block([0x80f3fffffffffff, 0])
    Block(values=[580753245698260991, 0], refusals=[0, 2])
    """
    return _over(cells, lambda block, length, lent: _lib.rg_check_block(block, length, *lent))


def ancestor_block(cells: Iterable[int], resolution: int) -> Block:
    """ancestor of each number at `resolution`."""
    r = _u32(resolution)
    return _over(cells, lambda block, length, lent: _lib.rg_ancestor_block(block, length, r, *lent))


def position_block(first: int, seconds: Iterable[int]) -> Block:
    """position of each of `seconds` under `first`. Where `first` is no cell its refusal is that of each."""
    n = _cell(first)
    return _over(seconds, lambda block, length, lent: _lib.rg_position_block(n, block, length, *lent))


# Turns of cells.


def turn_ccw(cell: int, count: int) -> int:
    """`cell` with each used digit turned `count` times, 0 to 5, by 60 degrees counter-clockwise.

    In a pentagon base cell the answer may be a number that check refuses with Deleted.
    """
    return _value(_lib.rg_turn_ccw(_cell(cell), _u32(count)))


def turn_cw(cell: int, count: int) -> int:
    """turn_ccw, clockwise."""
    return _value(_lib.rg_turn_cw(_cell(cell), _u32(count)))


def pentagon_turn_ccw(cell: int) -> int:
    """One turn counter-clockwise, or two where one would make the first digit that is not 0 a 1: a cell."""
    return _value(_lib.rg_pentagon_turn_ccw(_cell(cell)))


def pentagon_turn_cw(cell: int) -> int:
    """pentagon_turn_ccw, clockwise."""
    return _value(_lib.rg_pentagon_turn_cw(_cell(cell)))


# Directions.


def unit(direction: int) -> IJK:
    """The unit vector of a direction, 0 to 6."""
    return _point(_lib.rg_unit(_u32(direction)))


def direction_turn_ccw(direction: int, count: int) -> int:
    """A direction turned `count` times, 0 to 5, by 60 degrees counter-clockwise. 0 stays 0."""
    return _value(_lib.rg_direction_turn_ccw(_u32(direction), _u32(count)))


def direction_turn_cw(direction: int, count: int) -> int:
    """direction_turn_ccw, clockwise."""
    return _value(_lib.rg_direction_turn_cw(_u32(direction), _u32(count)))


# Points. Each coordinate handed in is -100,000,000 to 100,000,000, else Range.


def normalise(point: Triple) -> IJK:
    """The same point with 0 as its least component."""
    return _point(_lib.rg_normalise(*_triple(point)))


def neighbour(point: Triple, direction: int) -> IJK:
    """The next point in a direction; the point itself for 0."""
    return _point(_lib.rg_neighbour(*_triple(point), _u32(direction)))


def same_point(one: Triple, other: Triple) -> bool:
    """Do two triples mean one point?"""
    return _value(_lib.rg_same_point(*_triple(one), *_triple(other))) == 1


def distance(one: Triple, other: Triple) -> int:
    """The number of steps from one point to another."""
    return _value(_lib.rg_distance(*_triple(one), *_triple(other)))


def to_ij(point: Triple) -> IJ:
    """The IJ form, (i - k, j - k)."""
    answer = _lib.rg_to_ij(*_triple(point))
    if answer.refusal:
        raise Refused(answer.refusal)
    return IJ(answer.i, answer.j)


def from_ij(pair: Union[IJ, Tuple[int, int]]) -> IJK:
    """The point of an IJ form."""
    i, j = pair
    return _point(_lib.rg_from_ij(_i32(i), _i32(j)))


def down7_ccw(point: Triple) -> IJK:
    """The same place in the next finer grid, of a seventh of the area, turned counter-clockwise."""
    return _point(_lib.rg_down7_ccw(*_triple(point)))


def down7_cw(point: Triple) -> IJK:
    """down7_ccw, clockwise."""
    return _point(_lib.rg_down7_cw(*_triple(point)))


def down3_ccw(point: Triple) -> IJK:
    """The same place in the grid of a third of the area, turned counter-clockwise."""
    return _point(_lib.rg_down3_ccw(*_triple(point)))


def down3_cw(point: Triple) -> IJK:
    """down3_ccw, clockwise."""
    return _point(_lib.rg_down3_cw(*_triple(point)))


def up7_ccw(point: Triple) -> IJK:
    """The point of the next coarser grid under which this one lies: undoes down7_ccw."""
    return _point(_lib.rg_up7_ccw(*_triple(point)))


def up7_cw(point: Triple) -> IJK:
    """The same for down7_cw."""
    return _point(_lib.rg_up7_cw(*_triple(point)))


def point_turn_ccw(point: Triple) -> IJK:
    """The point turned by 60 degrees counter-clockwise about (0, 0, 0)."""
    return _point(_lib.rg_point_turn_ccw(*_triple(point)))


def point_turn_cw(point: Triple) -> IJK:
    """point_turn_ccw, clockwise."""
    return _point(_lib.rg_point_turn_cw(*_triple(point)))


def direction_of(point: Triple) -> int:
    """The direction of which this is the unit vector, 0 for zero. NotUnit where it is neither."""
    return _value(_lib.rg_direction_of(*_triple(point)))


# Centres and neighbours.


def centre(cell: int) -> IJK:
    """The point at which the path of the cell's digits ends, whatever the base cell."""
    return _point(_lib.rg_centre(_cell(cell)))


def read_back(length: int, point: Triple) -> int:
    """The cell of base cell 0 and resolution `length` whose centre is `point`.

    Resolution where `length` is above 15; then Range; then NoString where there is no such cell.
    """
    return _value(_lib.rg_read_back(_u32(length), *_triple(point)))


def walk(cell: int, direction: int) -> Walked:
    """The digits of the neighbour in a direction, 1 to 6, with nothing done for pentagons.

    The number may be one that check refuses with Deleted.
    """
    answer = _lib.rg_walk(_cell(cell), _u32(direction))
    if answer.refusal:
        raise Refused(answer.refusal)
    return Walked(answer.number, answer.carry)


def step(cell: int, direction: int) -> Union[Inside, Leaves]:
    """The neighbour in a direction, 1 to 6, so far as it lies in the same base cell.

    DeletedWay where the cell is a pentagon of resolution 1 or finer and the direction is 1.
    """
    answer = _lib.rg_step(_cell(cell), _u32(direction))
    if answer.refusal:
        raise Refused(answer.refusal)
    return Leaves(answer.turn) if answer.kind else Inside(answer.cell, answer.turn)
