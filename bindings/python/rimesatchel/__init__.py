"""The proved sender and receiver of spoken-book readings over ATM cells (IEC 62365), and what stands beside them.

The library isn't in this package: `make lib` proves and writes it, `make install` puts it in place. It is looked for in the
folder that RIMESATCHEL_LIB names; where it names none, in the repository's target/lib, beside an installed copy of this module,
and where the system looks for libraries. What is answered is the library's own answer. A call that is refused does nothing and
raises Refused, which has the number and its words.

56 hex is 24-bit samples; two channels in order 0 are six times two samples a cell:

>>> setup = Setup(0x56, 2, 0)
>>> sender, receiver = Sender(setup), Receiver(setup)
>>> samples = list(range(12))
>>> receiver.receive(sender.send(samples)).missing
0
>>> lost, cell = sender.send(samples), sender.send(samples)
>>> handed = receiver.receive(cell)
>>> handed.number, handed.missing, len(handed.entries)
(2, 1, 24)
>>> handed.entries[0], handed.entries[13]
(Entry(sample=0, ancillary=0, mark=<Mark.MISSING: 2>), Entry(sample=1, ancillary=0, mark=<Mark.SOUND: 0>))
>>> receiver.placed
3
>>> receiver.receive(cell)
Traceback (most recent call last):
rimesatchel.Refused: refused 9, the cell has the number of the last one

What each call keeps to is written in include/rimesatchel.h, and the rules behind it in docs/RULES.md.
"""

from __future__ import annotations

import ctypes
import enum
import mmap
import os
import pathlib
from array import array
from ctypes import POINTER, c_bool, c_char_p, c_int, c_size_t, c_ssize_t, c_uint, c_uint8, c_uint32, c_uint64, c_void_p
from typing import IO, Any, Iterator, NamedTuple, Protocol, Sequence

__all__ = [
    "VERSION", "Anything", "Batch", "Block", "Deed", "Entry", "Figures", "Fit", "Format", "Frame", "Handed", "Log", "Mark",
    "Pair", "Reader", "Received", "Receiver", "Record", "Refused", "Salvaged", "Sender", "Setup", "Sheet", "Slip", "Status",
    "Told", "Units", "Verdict", "Walked", "Watch", "Writer", "anything", "anything_from", "check_character", "check_plan",
    "controller", "equipment", "export_frame", "export_units", "figures_from", "import_frame", "lines", "listing", "plan",
    "port_packing", "port_settings", "read_unit", "received", "salvage", "salvage_from", "sheet", "words",
]

_RUN8, _RUN32, _RUN64 = ([POINTER(kind), c_size_t] for kind in (c_uint8, c_uint32, c_uint64))
_SETTINGS = [c_uint32, c_uint32, c_uint32]
_SENDER, _RECEIVER, _REPORT, _STATUS = (POINTER(c_uint8 * octets) for octets in (7, 9, 4, 25))
_LIST, _SALVAGE, _ANYTHING, _FIGURES = (POINTER(c_uint64 * numbers) for numbers in (15, 16, 14, 20))
_HELD = POINTER(c_uint8 * 49)
_ARGUMENTS: dict[str, list[Any]] = {
    "rime_format": [c_uint32, POINTER(c_uint32 * 4)],
    "rime_sender_open": [*_SETTINGS, c_uint32, c_bool, c_uint32, _SENDER],
    "rime_send": [_SENDER, c_bool, *_RUN64, *_RUN8, *_RUN8],
    "rime_receiver_open": [*_SETTINGS, _RECEIVER],
    "rime_receive": [_RECEIVER, *_RUN8, c_bool, *_RUN64, *_RUN8, *_RUN8, _REPORT],
    "rime_receiver_placed": [_RECEIVER],
    "rime_slip": [POINTER(c_uint8 * 7), _REPORT, POINTER(c_uint8 * 2)],
    "rime_status_step": [_STATUS, c_uint8, c_uint8, _STATUS],
    "rime_status_run": [_STATUS, *_RUN8, *_RUN8, c_uint64, c_uint64, _STATUS, POINTER(c_uint64)],
    "rime_check_character": [POINTER(c_uint8 * 24)],
    "rime_log_header": [*_RUN8, POINTER(c_uint32 * 4)],
    "rime_log_record": [*_RUN8, c_size_t, POINTER(c_uint64 * 4)],
    "rime_judge_log": [_RECEIVER, *_RUN8, c_size_t, *_RUN8, POINTER(c_uint64 * 3)],
    "rime_send_log": [_SENDER, c_bool, *_RUN64, *_RUN8, *_RUN8, c_size_t, POINTER(c_uint64 * 4)],
    "rime_receive_log": [_RECEIVER, *_RUN8, c_size_t, *_RUN64, *_RUN8, *_RUN8, POINTER(c_uint64 * 9)],
    "rime_log_put_header": [*_RUN8, *_SETTINGS, POINTER(c_uint64)],
    "rime_log_put_record": [*_RUN8, c_size_t, *_RUN8, c_bool, POINTER(c_uint64)],
    "rime_log_list": [*_RUN8, *_RUN8, POINTER(c_uint64 * 2)],
    "rime_anything": [*_RUN8, POINTER(c_uint64 * 2)],
    "rime_salvage": [*_RUN8, *_RUN8, *_RUN64, POINTER(c_uint64 * 3)],
    "rime_sheet": [*_RUN8, *_RUN64, *_RUN32, POINTER(c_uint32 * 10)],
    "rime_list_start": [_LIST, _HELD],
    "rime_list_take": [_LIST, _HELD, *_RUN8, *_RUN8, POINTER(c_uint64)],
    "rime_list_end": [_LIST, _HELD, *_RUN8, POINTER(c_uint64)],
    "rime_salvage_start": [_SALVAGE, _HELD],
    "rime_salvage_take": [_SALVAGE, _HELD, *_RUN8, *_RUN8, *_RUN8, POINTER(c_uint64 * 2)],
    "rime_salvage_end": [_SALVAGE, _HELD, *_RUN8, POINTER(c_uint64)],
    "rime_anything_start": [_ANYTHING, _HELD],
    "rime_anything_take": [_ANYTHING, _HELD, *_RUN8, POINTER(c_uint64)],
    "rime_anything_end": [_ANYTHING, _HELD, POINTER(c_uint64 * 2)],
    "rime_figures_start": [_FIGURES, _HELD],
    "rime_figures_take": [_FIGURES, _HELD, *_RUN8],
    "rime_figures_end": [_FIGURES, POINTER(c_uint32 * 10)],
    "rime_aes3_import": [POINTER(kind * 2) for kind in (c_uint8, c_uint32, c_uint64, c_uint8)],
    "rime_aes3_export": [POINTER(kind * 2) for kind in (c_uint64, c_uint8, c_uint8, c_uint32)],
    "rime_units_export": [c_uint32, c_uint32, c_size_t, *_RUN64, *_RUN8, *_RUN8, POINTER(c_uint64 * 3)],
    "rime_unit_read": [c_uint32, c_uint32, *_RUN8, *_RUN64, *_RUN8, POINTER(c_uint64)],
    "rime_circuits_check": [*_SETTINGS, *_RUN32, *_RUN32, POINTER(c_uint32 * 2)],
    "rime_circuits_plan": [c_uint32, c_uint32, *_RUN32],
    "rime_equipment": [*_RUN8, *_RUN8, *_RUN8, POINTER(c_uint64 * 4)],
    "rime_controller": [*_RUN8, *_RUN8],
    "rime_port_settings": [POINTER(c_uint8 * 28), POINTER(c_uint32 * 3)],
    "rime_port_packing": [*_SETTINGS, POINTER(c_uint8)],
}
_ANSWERS: dict[str, Any] = {"rime_receiver_placed": c_uint32}  # every other call returns an octet
_ABI = 2  # the first number of the version: a library of another one is another library


def _load(name: str) -> ctypes.CDLL:
    """The shared library of this name, from the first folder that has it."""
    file = f"lib{name}.so.{_ABI}"
    here = pathlib.Path(__file__).resolve().parent
    named = os.environ.get("RIMESATCHEL_LIB")
    folders = [pathlib.Path(named)] if named else [*list(here.parents)[:3], here.parents[2] / "target" / "lib"]
    places = [str(folder / file) for folder in folders if (folder / file).exists()]
    if named and not places:
        raise ImportError(f"{file} isn't in {named}, the folder that RIMESATCHEL_LIB names")
    try:
        return ctypes.CDLL(places[0] if places else file)
    except OSError as why:
        advice = "`make install` puts it in place, or RIMESATCHEL_LIB names its folder"
        raise ImportError(f"{file} can't be loaded: {advice} ({why})") from None


_library = _load("rimesatchel")
_management: list[ctypes.CDLL] = []
_library.rime_refusal_words.argtypes, _library.rime_refusal_words.restype = [c_uint], c_char_p
_library.rime_version.argtypes, _library.rime_version.restype = [], c_char_p

VERSION: str = _library.rime_version().decode()


def words(number: int) -> str:
    """What a refusal number means, in the words of include/rimesatchel.h.

    >>> words(15)
    "the cell came with indication 1, and its number isn't a multiple of 8"
    """
    text: bytes = _library.rime_refusal_words(number)
    return text.decode()


class Refused(Exception):
    """A call did nothing; `number` says why."""

    def __init__(self, number: int) -> None:
        super().__init__(f"refused {number}, {words(number)}")
        self.number = number


def _ask(name: str, *arguments: Any, library: ctypes.CDLL = _library) -> int:
    """Calls a function; a run is its ctypes array, and its length goes behind it."""
    function = getattr(library, name)
    function.argtypes, function.restype = _ARGUMENTS[name], _ANSWERS.get(name, c_uint8)
    flat: list[Any] = []
    for argument in arguments:
        flat += [argument.array, len(argument.array)] if isinstance(argument, _Lent) else [argument]
    answer: int = function(*flat)
    return answer


def _call(name: str, *arguments: Any, library: ctypes.CDLL = _library) -> None:
    """Calls a function that returns a refusal."""
    refusal = _ask(name, *arguments, library=library)
    if refusal != 0:
        raise Refused(refusal)


class _Lent:
    """A run that is lent to a call."""

    def __init__(self, kind: Any, entries: int | Sequence[int]) -> None:
        self.array = (kind * entries)() if isinstance(entries, int) else (kind * len(entries))(*_fitting(kind, entries))


def _fitting(kind: Any, numbers: Sequence[int]) -> Sequence[int]:
    """The numbers, none of which ctypes would cut."""
    most = 1 << 8 * ctypes.sizeof(kind)
    for number in numbers:
        if not 0 <= number < most:
            raise OverflowError(f"{number} isn't a number of {8 * ctypes.sizeof(kind)} bits")
    return numbers


class _Buffer(ctypes.Structure):
    """Python's own record of memory that an object lends (Py_buffer)."""

    _fields_ = [
        ("start", c_void_p), ("object", ctypes.py_object), ("octets", c_ssize_t), ("width", c_ssize_t), ("fixed", c_int),
        ("dimensions", c_int), ("format", c_char_p), ("shape", c_void_p), ("strides", c_void_p), ("offsets", c_void_p), ("own", c_void_p),
    ]


class _Over(_Lent):
    """The memory of anything with the buffer protocol (bytes, array, mmap, numpy), lent to a call without a copy."""

    def __init__(self, kind: Any, buffer: Any, written: bool = False) -> None:
        self._held: _Buffer | None = None
        view = memoryview(buffer)
        width = ctypes.sizeof(kind)
        if not view.c_contiguous or view.itemsize != width or view.format.lstrip("@=<>!") not in tuple("?cbBlLqQ"):
            raise TypeError(f"a run here is whole numbers of {width} octets, one behind the other")
        if written and view.readonly:
            raise TypeError("a run that is written into can't be read-only")
        held = _Buffer()
        ctypes.pythonapi.PyObject_GetBuffer(ctypes.py_object(view), ctypes.byref(held), 0)
        self._held = held
        self.array = (kind * (view.nbytes // width)).from_address(held.start or 0)

    def __del__(self, release: Any = ctypes.pythonapi.PyBuffer_Release, by: Any = ctypes.byref) -> None:
        if self._held is not None:
            release(by(self._held))


def _octets(octets: Any) -> _Lent:
    """Octets that a call only reads: lent as they are where they have the buffer protocol, else copied."""
    try:
        memoryview(octets)
    except TypeError:
        return _Over(c_uint8, bytes(octets))
    return _Over(c_uint8, octets)


def _copied(octets: bytes | Sequence[int]) -> _Lent:
    """A copy of octets that a call writes into."""
    return _Over(c_uint8, bytearray(octets), written=True)


def _blank(kind: Any, entries: int) -> tuple[mmap.mmap, _Lent]:
    """A long run of zeros, of which only what is written takes memory."""
    memory = mmap.mmap(-1, max(1, entries * ctypes.sizeof(kind)))
    lent = _Over(c_uint8, memory, written=True)
    lent.array = (kind * entries).from_address(ctypes.addressof(lent.array))
    return memory, lent


def _first(lent: _Lent, entries: int) -> bytes:
    """The first entries of a run, as octets."""
    return ctypes.string_at(lent.array, entries * ctypes.sizeof(lent.array._type_))


def _state(length: int, octets: bytes) -> Any:
    if len(octets) != length:
        raise ValueError(f"a state of {len(octets)} octets, where it has {length}")
    return (c_uint8 * length).from_buffer_copy(octets)


def _setting(number: int) -> int:
    return _fitting(c_uint32, [number])[0]


class Setup(NamedTuple):
    """The subframe octet, the channels and the order that both ends were told by the call set-up."""

    format: int
    channels: int
    order: int = 0


class Format(NamedTuple):
    """What a subframe octet says: the bits of a sample and of what stands beside it, and the slots in a cell."""

    sample_bits: int
    ancillary_bits: int
    overhead_bits: int
    slots: int

    @classmethod
    def of(cls, octet: int) -> Format:
        """The format of this octet. Refused 1.

        >>> Format.of(0x56)
        Format(sample_bits=24, ancillary_bits=4, overhead_bits=4, slots=12)
        """
        facts = (c_uint32 * 4)()
        _call("rime_format", _setting(octet), facts)
        return cls(*facts)

    @property
    def octets(self) -> int:
        """The octets that one entry fills."""
        return (self.sample_bits + self.ancillary_bits + self.overhead_bits) // 8


class Sender:
    """Packs samples into cells. Refused 1 to 4.

    >>> Sender(Setup(0x56, 13))
    Traceback (most recent call last):
    rimesatchel.Refused: refused 2, there are no channels, or more than slots
    """

    def __init__(self, setup: Setup, number: int = 0, second: int | None = None) -> None:
        self._state = (c_uint8 * 7)()
        _call("rime_sender_open", *map(_setting, setup), _setting(number), second is not None, _setting(second or 0), self._state)

    def send(self, samples: Sequence[int], ancillary: Sequence[int] | None = None, indication: bool = False) -> bytes:
        """The next cell, 48 octets: C×T samples and as many ancillary numbers, or none of them set. Refused 5, 6 or 7."""
        cell = _Lent(c_uint8, 48)
        beside = [0] * len(samples) if ancillary is None else ancillary
        _call("rime_send", self._state, indication, _Lent(c_uint64, samples), _Lent(c_uint8, beside), cell)
        return bytes(cell.array)

    def send_log(self, samples: Any, ancillary: Any, log: Any, place: int = 0, indications: bool = False) -> SentLog:
        """Sends cell after cell and writes each one's record into a log from a place on, up to the end of the entries or of the log,
        or a cell with a number too large. The three are anything with the buffer protocol (array, numpy, bytearray, mmap), of numbers
        of 8 octets, of 1 and of 1, and none of them is copied. The indication is 1 in every cell whose number is a multiple of 8 where
        `indications` says yes. Refused 5 where the two runs aren't equally long.

        >>> import array
        >>> Sender(Setup(0x56, 2)).send_log(array.array("Q", [7] * 36), bytes(36), bytearray(100), 1)
        SentLog(next=99, entries=24, stop=12, cells=2)
        """
        counts = (c_uint64 * 4)()
        _call("rime_send_log", self._state, indications, _Over(c_uint64, samples), _Over(c_uint8, ancillary),
              _Over(c_uint8, log, written=True), _fitting(c_size_t, [place])[0], counts)
        return SentLog(*counts)

    def to_bytes(self) -> bytes:
        """The state as the library keeps it, 7 octets, to be stored and gone on with."""
        return bytes(self._state)

    @classmethod
    def from_bytes(cls, state: bytes) -> Sender:
        """A sender that goes on from a state. Any 7 octets will do: what can't be is refused when it sends.

        >>> Sender.from_bytes(Sender(Setup(0x56, 2), 9).to_bytes()).to_bytes().hex()
        '56020009000000'
        """
        sender = cls.__new__(cls)
        sender._state = _state(7, state)
        return sender


class SentLog(NamedTuple):
    """How far sending into a log went: the place to go on from, the entries taken, why it stopped (0 fewer are left than a cell takes,
    12 no record fits any more, 6 the next cell has a number too large), and the cells."""

    next: int
    entries: int
    stop: int
    cells: int


class Mark(enum.IntEnum):
    """What a sample that was handed out is worth."""

    SOUND = 0
    DOUBTFUL = 1
    MISSING = 2


class Entry(NamedTuple):
    """A sample that was handed out, its ancillary number and its mark."""

    sample: int
    ancillary: int
    mark: Mark


class Handed(NamedTuple):
    """What a receiver makes of a cell: the entries of the cells missing before it, and its own, channels side by side."""

    missing: int
    number: int
    second: int
    indication: bool
    entries: list[Entry]


_ROOM = 721  # for fourteen missing cells and one more, of 48 slots each, and an entry that is never handed out
_NO_MARK = 3  # an entry that still has it was not handed out


class Receiver:
    """Takes cells, and hands out samples with their marks. Refused 1 to 3."""

    def __init__(self, setup: Setup) -> None:
        self._state = (c_uint8 * 9)()
        _call("rime_receiver_open", *map(_setting, setup), self._state)

    @property
    def placed(self) -> int:
        """How many cells were placed since the opening, sound and missing together."""
        return _ask("rime_receiver_placed", self._state)

    def receive(self, cell: bytes, indication: bool = False) -> Handed:
        """Takes a cell as it came. Refused 5, 8, 15, 9 or 20, and then the receiver is as it was."""
        samples, ancillary, marks = _Lent(c_uint64, _ROOM), _Lent(c_uint8, _ROOM), _Lent(c_uint8, [_NO_MARK] * _ROOM)
        report = (c_uint8 * 4)()
        _call("rime_receive", self._state, _octets(cell), indication, samples, ancillary, marks, report)
        handed = bytes(marks.array).index(_NO_MARK)
        entries = zip(samples.array[:handed], ancillary.array[:handed], map(Mark, marks.array[:handed]))
        missing, number, second, came = report
        return Handed(missing, number, second, came == 1, [Entry(*entry) for entry in entries])

    def to_bytes(self) -> bytes:
        """The state as the library keeps it, 9 octets, to be stored and gone on with."""
        return bytes(self._state)

    @classmethod
    def from_bytes(cls, state: bytes) -> Receiver:
        """A receiver that goes on from a state. Any 9 octets will do: what can't be is refused when a cell comes.

        >>> Receiver.from_bytes(bytes([0x56, 2, 0, 1, 7, 8, 0, 0, 0])).placed
        8
        """
        receiver = cls.__new__(cls)
        receiver._state = _state(9, state)
        return receiver

    def judge_log(self, log: bytes, place: int = 0, most: int | None = None) -> tuple[bytes, Walked]:
        """Judges the records of a log from a place on, at most so many, and unpacks nothing: five octets a record (its refusal,
        missing count, number, second number and indication), and how far it went.

        >>> Receiver(Setup(0x02, 1)).judge_log(bytes(98), 0, 1)
        (b'\\x00\\x00\\x00\\x00\\x00', Walked(next=49, records=1, stop=10))
        """
        lent = _octets(log)
        reports, counts = _Lent(c_uint8, 5 * (len(lent.array) // 49 if most is None else most)), (c_uint64 * 3)()
        _call("rime_judge_log", self._state, lent, _fitting(c_size_t, [place])[0], reports, counts)
        walked = Walked(*counts)
        return _first(reports, 5 * walked.records), walked

    def receive_log(self, log: Any, samples: Any, ancillary: Any, marks: Any, place: int = 0) -> Batch:
        """Receives the records of a log from a place on, into runs of the caller's: each cell's entries, with those of the cells
        missing before it, behind the last one's; what stands past them stays. A record that is refused 8, 15, 9 or 20 is passed over
        and counted. It goes on up to a record that is broken, the log's end, or a record whose entries have no room: with 720 entries
        in each run every call goes on. The log is anything with octets in a buffer, the runs anything that can be written, of 8, 1
        and 1 octets an entry (`array`, numpy); nothing is copied. Refused 5, where the runs aren't equally long, and then the receiver
        and the runs are as they were.

        >>> samples, ancillary, marks = array("Q", [7] * 20), bytearray(20), bytearray(20)
        >>> Receiver(Setup(0x08, 1)).receive_log(bytes(98), samples, ancillary, marks)[:4]
        (49, 12, 10, 1)
        >>> samples[11], samples[12]
        (0, 7)
        """
        runs = [_Over(kind, run, written=True) for kind, run in ((c_uint64, samples), (c_uint8, ancillary), (c_uint8, marks))]
        counts = (c_uint64 * 9)()
        _call("rime_receive_log", self._state, _octets(log), _fitting(c_size_t, [place])[0], *runs, counts)
        return Batch(*counts)


class Batch(NamedTuple):
    """How far a log was received: the place to go on from, the entries written to each run, why it stopped (0 the end, 10 no room, 11
    or 12 a record that is broken), cells taken, cells missing before them, and records refused by 8, 9, 15 and 20."""

    next: int
    entries: int
    stop: int
    taken: int
    missing: int
    refused_8: int
    refused_9: int
    refused_15: int
    refused_20: int


class Walked(NamedTuple):
    """How far a walk through a log went: the place to go on from, the records, and why it stopped (0 the end, 10 no room, 11 or
    12 a record that is broken)."""

    next: int
    records: int
    stop: int


class Told(enum.IntEnum):
    """What a cell that was taken tells of those before it."""

    NOTHING = 0
    BEFORE = 1
    ALONE = 2
    PERHAPS = 3


class Slip(NamedTuple):
    """What is told, and how many cells more: BEFORE the cell that was taken before this one at least so many are missing; that cell
    was out of step ALONE; PERHAPS so many are missing before this cell, and the next one decides."""

    told: Told
    cells: int


class Watch:
    """A watch over second numbers, one step for each cell that the receiver took.

    >>> watch = Watch()
    >>> [watch.step(0, number, second).cells for number, second in ((2, 5), (3, 5), (4, 13), (5, 13))]
    [0, 0, 64, 64]
    >>> watch.step(0, 6, 13)
    Slip(told=<Told.NOTHING: 0>, cells=0)
    >>> watch.step(0, 6, 13)
    Traceback (most recent call last):
    rimesatchel.Refused: refused 31, the report can't follow the cell before it
    """

    def __init__(self) -> None:
        self._watch = (c_uint8 * 7)()

    def step(self, missing: int, number: int, second: int) -> Slip:
        """Takes what the receiver reported of the next cell that it took. Refused 31 where that can't follow, 4 where the watch can't
        be."""
        slip = (c_uint8 * 2)()
        report = (c_uint8 * 4)(*_fitting(c_uint8, [missing, number, second]), 0)
        _call("rime_slip", self._watch, report, slip)
        return Slip(Told(slip[0]), slip[1])

    def to_bytes(self) -> bytes:
        """The state as the library keeps it, 7 octets, to be stored and gone on with."""
        return bytes(self._watch)

    @classmethod
    def from_bytes(cls, state: bytes) -> Watch:
        """A watch that goes on from a state. Any 7 octets will do: what can't be is refused when it steps."""
        watch = cls.__new__(cls)
        watch._watch = _state(7, state)
        return watch


class Fit(enum.IntEnum):
    """Whether a channel status block's check character fits; a block of consumer use carries none."""

    DOES_NOT_FIT = 1
    FITS = 2
    NONE_CARRIED = 3


class Block(NamedTuple):
    """A finished block of channel status: bit k is bit k mod 8 of octet k / 8, the lowest being bit 0."""

    octets: bytes
    fit: Fit


class Status:
    """One channel's status, brought forward entry by entry.

    >>> status = Status()
    >>> blocks = [status.step(8 if bit == 0 else 0) for bit in range(192)]
    >>> blocks[190] is None, blocks[191].fit
    (True, <Fit.NONE_CARRIED: 3>)
    """

    def __init__(self) -> None:
        self._block = (c_uint8 * 25)()

    def step(self, ancillary: int, mark: int = Mark.SOUND) -> Block | None:
        """Takes one entry's ancillary number and mark; a block where this was its last bit. Refused 14."""
        out = (c_uint8 * 25)()
        _call("rime_status_step", self._block, *_fitting(c_uint8, [ancillary, mark]), out)
        return Block(bytes(out[1:]), Fit(out[0])) if out[0] else None

    def run(self, ancillary: bytes, marks: bytes, first: int = 0, step: int = 1) -> tuple[Block | None, int]:
        """Takes the entries first, first + step, .. of two runs until one hands out a block or the runs end: that block, and the
        entry to go on from. Refused 5 or 14, and then nothing has moved.

        >>> Status().run(bytes([8] + [0] * 383), bytes(384), 0, 2)[1]
        384
        """
        out, after = (c_uint8 * 25)(), c_uint64()
        where = _fitting(c_uint64, [first, step])
        _call("rime_status_run", self._block, _octets(ancillary), _octets(marks), *where, out, after)
        return (Block(bytes(out[1:]), Fit(out[0])) if out[0] else None), after.value


def check_character(block: bytes) -> int:
    """The check character of octets 0 to 22 of 24."""
    if len(block) != 24:
        raise ValueError("a block of channel status is 24 octets")
    return _ask("rime_check_character", _state(24, block))


class Writer:
    """Writes a log: its header, then a record for each cell as it comes off the line. Refused 1 to 3.

    >>> setup = Setup(0x56, 2)
    >>> writer, sender = Writer(setup), Sender(setup)
    >>> writer.push(sender.send([7] * 12, indication=True), indication=True)
    >>> print(listing(writer.octets), end="")
    format 86 2 0
    0 sound 0 number 0
    end 1 sound 0 missing 0 refused
    >>> log = Log(writer.octets)
    >>> log.setup == setup, [record.indication for record in log]
    (True, [True])
    """

    def __init__(self, setup: Setup) -> None:
        header, following = _Lent(c_uint8, 3), c_uint64()
        _call("rime_log_put_header", header, *map(_setting, setup), following)
        self._log = bytearray(header.array)

    def push(self, cell: bytes, indication: bool = False) -> None:
        """Adds a record. Refused 5 where the cell isn't 48 octets."""
        record, following = _Lent(c_uint8, 49), c_uint64()
        _call("rime_log_put_record", record, 0, _octets(cell), indication, following)
        self._log += bytes(record.array)

    @property
    def octets(self) -> bytes:
        """The log so far."""
        return bytes(self._log)


class Record(NamedTuple):
    """A cell as it came off the line."""

    indication: bool
    cell: bytes


class Log:
    """A log that is read: how it was sent, and its records one after the other. Its octets are lent and not copied. Refused 11,
    1, 2 or 3; a record 11 or 12."""

    def __init__(self, octets: bytes) -> None:
        self._octets = _octets(octets)
        header = (c_uint32 * 4)()
        _call("rime_log_header", self._octets, header)
        self._first = header[0]
        self.setup = Setup(*header[1:])

    def __iter__(self) -> Iterator[Record]:
        place, record = self._first, (c_uint64 * 4)()
        while True:
            _call("rime_log_record", self._octets, place, record)
            what, indication, start, place = record
            if what == 0:
                return
            yield Record(indication == 1, bytes(self._octets.array[start:place]))


class Received(NamedTuple):
    """What was received of a log: samples (numbers of 8 octets), ancillary numbers and marks, and how far it went."""

    samples: array[int]
    ancillary: array[int]
    marks: array[int]
    batch: Batch


def received(log: Any, room: int = 65536) -> Iterator[Received]:
    """The samples of a log, block by block, of up to so many entries, 720 at least. Refused 11, 1, 2 or 3 where it can't be read, and
    11 or 12 behind the last whole record where one is broken.

    >>> writer, sender = Writer(Setup(0x56, 2)), Sender(Setup(0x56, 2))
    >>> writer.push(sender.send([7] * 12))
    >>> [(list(part.samples[:2]), part.batch.entries) for part in received(writer.octets)]
    [([7, 7], 12)]
    """
    header, room = (c_uint32 * 4)(), max(room, 720)
    _call("rime_log_header", _octets(log), header)
    receiver, place, stop = Receiver(Setup(*header[1:])), header[0], 10
    while stop == 10:
        samples, ancillary, marks = array("Q", bytes(8 * room)), array("B", bytes(room)), array("B", bytes(room))
        batch = receiver.receive_log(log, samples, ancillary, marks, place)
        for run in (samples, ancillary, marks):
            del run[batch.entries:]
        if batch.next != place:
            yield Received(samples, ancillary, marks, batch)
        place, stop = batch.next, batch.stop
    if stop != 0:
        raise Refused(stop)


def listing(log: bytes) -> str:
    """The list of a log, as the program linelist prints it. A log that can't be read has a list that says so.

    >>> listing(b"")
    'log refused 11\\n'
    """
    lent = _octets(log)
    room = 256 + len(lent.array)
    while True:
        (memory, run), listed = _blank(c_uint8, room), (c_uint64 * 2)()
        _call("rime_log_list", lent, run, listed)
        if listed[1] == 1:
            return _text(memory, listed[0])
        room *= 2


def _text(memory: mmap.mmap, octets: int) -> str:
    """The first octets as text. Each part's memory is given back as soon as it is read: a list is as long as half a log."""
    text, part = "", 256 * mmap.PAGESIZE
    for start in range(0, octets, part):
        text += str(memoryview(memory)[start:min(start + part, octets)], "ascii")
        memory.madvise(mmap.MADV_DONTNEED, start, min(part, len(memory) - start))
    return text


class Anything(NamedTuple):
    """Whether there is anything on a log: the first record that has a sound sample that isn't zero, or how many have none."""

    found: bool
    records: int


def anything(log: bytes) -> Anything:
    """Is there anything on a log at all? Refused 11, 1, 2 or 3.

    >>> writer, sender = Writer(Setup(0x56, 2)), Sender(Setup(0x56, 2))
    >>> writer.push(sender.send([0] * 12))
    >>> anything(writer.octets)
    Anything(found=False, records=1)
    >>> writer.push(sender.send([7] * 12))
    >>> anything(writer.octets)
    Anything(found=True, records=1)
    """
    answer = (c_uint64 * 2)()
    _call("rime_anything", _octets(log), answer)
    return Anything(answer[0] == 1, answer[1])


class Salvaged(NamedTuple):
    """What was saved of a log: its sound records, each whole record that was left out with its refusal, and the octets cut."""

    log: bytearray
    left_out: list[tuple[int, int]]
    cut: int


def salvage(log: bytes) -> Salvaged:
    """A new log of the sound records of a torn one. Refused 11, 1, 2 or 3.

    >>> writer, sender = Writer(Setup(0x56, 2)), Sender(Setup(0x56, 2))
    >>> cell = sender.send([7] * 12)
    >>> writer.push(cell)
    >>> sound = writer.octets
    >>> writer.push(cell)
    >>> saved = salvage(writer.octets + bytes(1))
    >>> saved.log == sound, saved.left_out, saved.cut
    (True, [(1, 9)], 1)
    """
    lent = _octets(log)
    out, counts = bytearray(len(lent.array)), (c_uint64 * 3)()
    _, pairs = _blank(c_uint64, 2 * (len(out) // 49))
    _call("rime_salvage", lent, _Over(c_uint8, out, written=True), pairs, counts)
    octets, left, cut = counts
    del out[octets:]
    return Salvaged(out, [(pairs.array[2 * k], pairs.array[2 * k + 1]) for k in range(left)], cut)


class Figures(NamedTuple):
    """The figures of a log or of all: cells sound, missing and refused by 8, 9, 15 and 20; entries marked 0, 1 and 2; missing
    cells of a million sound and missing ones, rounded down."""

    sound: int
    missing: int
    refused_8: int
    refused_9: int
    refused_15: int
    refused_20: int
    marked_0: int
    marked_1: int
    marked_2: int
    missing_per_million: int


class Sheet(NamedTuple):
    """The figures of many logs: a row for each, and all together."""

    rows: list[Figures]
    all: Figures


def sheet(logs: Sequence[bytes]) -> Sheet:
    """Counts over up to 4,096 logs. Refused 18 or 19.

    >>> writer, sender = Writer(Setup(0x56, 2)), Sender(Setup(0x56, 2))
    >>> writer.push(sender.send([7] * 12))
    >>> lost = sender.send([7] * 12)
    >>> writer.push(sender.send([7] * 12))
    >>> figures = sheet([writer.octets, b"no log"])
    >>> figures.all.sound, figures.all.missing, figures.all.marked_2, figures.all.missing_per_million, figures.rows[1].sound
    (2, 1, 12, 333333, 0)
    """
    rows, totals = _Lent(c_uint32, 10 * len(logs)), (c_uint32 * 10)()
    _call("rime_sheet", _octets(b"".join(logs)), _Lent(c_uint64, [len(log) for log in logs]), rows, totals)
    return Sheet([Figures(*rows.array[at:at + 10]) for at in range(0, len(rows.array), 10)], Figures(*totals))


class Reader(Protocol):
    """What a log in pieces is read from, as a file opened "rb": some octets at a time, none at the end."""

    def read(self, most: int, /) -> bytes:
        ...


def _pieces(reader: Reader) -> Iterator[bytes]:
    while piece := reader.read(65536):
        yield piece


def _room(first: int, each: int, piece: bytes) -> _Lent:
    """A run that is long enough for what a piece makes, as include/rimesatchel.h has it."""
    return _Lent(c_uint8, first + each * (len(piece) // 49 + 1))


def _begun(name: str, numbers: int) -> tuple[Any, Any]:
    """The state of a log in pieces before its first octet, and the octets that are held of it."""
    state, held = (c_uint64 * numbers)(), (c_uint8 * 49)()
    _call(f"rime_{name}_start", state, held)
    return state, held


def lines(reader: Reader) -> Iterator[str]:
    """The list of a log, line by line, as it comes from a reader. A log that can't be read has a list that says so.

    >>> import io
    >>> list(lines(io.BytesIO(bytes([0x56, 2, 0]) + bytes(50))))
    ['format 86 2 0', '0 refused 8', '1 broken 12', 'end 0 sound 0 missing 1 refused']
    """
    state, held = _begun("list", 15)
    written = c_uint64()
    for piece in _pieces(reader):
        text = _room(216, 76, piece)
        _call("rime_list_take", state, held, _octets(piece), text, written)
        yield from bytes(text.array[:written.value]).decode().splitlines()
    text = _Lent(c_uint8, 216)
    _call("rime_list_end", state, held, text, written)
    yield from bytes(text.array[:written.value]).decode().splitlines()


def salvage_from(reader: Reader, out: IO[bytes], notes: IO[bytes]) -> None:
    """Salvages a log as it comes from a reader: the new log goes to `out`, and a line for each record left out and the counts, or
    the header's refusal, to `notes`.

    >>> import io
    >>> out, notes = io.BytesIO(), io.BytesIO()
    >>> salvage_from(io.BytesIO(bytes([0x56, 2, 0]) + bytes(50)), out, notes)
    >>> out.getvalue() == bytes([0x56, 2, 0]), notes.getvalue().decode().splitlines()
    (True, ['0 refused 8', 'end 0 kept 1 left out 1 cut'])
    """
    state, held = _begun("salvage", 16)
    both, last = (c_uint64 * 2)(), c_uint64()
    for piece in _pieces(reader):
        saved, said = _room(3, 49, piece), _room(216, 50, piece)
        _call("rime_salvage_take", state, held, _octets(piece), saved, said, both)
        out.write(bytes(saved.array[:both[0]]))
        notes.write(bytes(said.array[:both[1]]))
    said = _Lent(c_uint8, 216)
    _call("rime_salvage_end", state, held, said, last)
    notes.write(bytes(said.array[:last.value]))


def anything_from(reader: Reader) -> Anything:
    """Is there anything on a log at all? No more is read of it than the answer needs. Refused 11, 1, 2 or 3.

    >>> import io
    >>> anything_from(io.BytesIO(bytes([0x56, 2, 0]) + bytes(98)))
    Anything(found=False, records=2)
    """
    state, held = _begun("anything", 14)
    more, answer = c_uint64(), (c_uint64 * 2)()
    for piece in _pieces(reader):
        _call("rime_anything_take", state, held, _octets(piece), more)
        if more.value == 0:
            break
    _call("rime_anything_end", state, held, answer)
    return Anything(answer[0] == 1, answer[1])


def figures_from(reader: Reader) -> Figures:
    """The figures of a log as it comes from a reader, as a sheet has them. Refused 19.

    >>> import io
    >>> figures_from(io.BytesIO(bytes([0x56, 2, 0]) + bytes(98))).refused_8
    2
    """
    state, held = _begun("figures", 20)
    row = (c_uint32 * 10)()
    for piece in _pieces(reader):
        _call("rime_figures_take", state, held, _octets(piece))
    _call("rime_figures_end", state, row)
    return Figures(*row)


class Frame(NamedTuple):
    """A frame of an AES3 cable: its preambles' letters, as "XY" or "ZY", and its two halves; slot k is the bit worth 2^k."""

    preambles: str
    subframes: tuple[int, int]


class Pair(NamedTuple):
    """Two entries of 56 hex: a frame's first half and its second."""

    samples: tuple[int, int]
    ancillary: tuple[int, int]


def import_frame(frame: Frame) -> Pair:
    """Takes a frame off the cable. Refused 16 or 17.

    >>> pair = Pair((1000, 2000), (8, 8))
    >>> export_frame(pair).preambles, import_frame(export_frame(pair)) == pair
    ('ZY', True)
    """
    letters, halves = _two(c_uint8, frame.preambles.encode("latin-1")), _two(c_uint32, frame.subframes)
    samples, ancillary = (c_uint64 * 2)(), (c_uint8 * 2)()
    _call("rime_aes3_import", letters, halves, samples, ancillary)
    return Pair((samples[0], samples[1]), (ancillary[0], ancillary[1]))


def export_frame(pair: Pair) -> Frame:
    """Makes a frame for the cable. Refused 6 or 29."""
    letters, halves = (c_uint8 * 2)(), (c_uint32 * 2)()
    _call("rime_aes3_export", _two(c_uint64, pair.samples), _two(c_uint8, pair.ancillary), letters, halves)
    return Frame(bytes(letters).decode(), (halves[0], halves[1]))


def _two(kind: Any, numbers: Sequence[int]) -> Any:
    first, second = _fitting(kind, numbers)
    return (kind * 2)(first, second)


class Units(NamedTuple):
    """Data units end to end, all of them full but perhaps the last."""

    octets: bytes
    full: int

    def parts(self) -> list[bytes]:
        """The units, one after the other."""
        return [self.octets[at:at + self.full] for at in range(0, len(self.octets), self.full or 1)]


def export_units(form: int, channels: int, size: int, samples: Sequence[int], ancillary: Sequence[int] | None = None) -> Units:
    """Entries as data units of at most `size` octets. Marks don't travel: a gap leaves as silence that looks like sound.
    Refused 1, 2, 5, 6, 26 or 27.

    >>> units = export_units(0x06, 2, 12, [1, 2, 3, 4, 5, 6])
    >>> [len(unit) for unit in units.parts()], read_unit(0x06, 2, units.parts()[1])
    ([12, 6], [(5, 0), (6, 0)])
    """
    beside = [0] * len(samples) if ancillary is None else ancillary
    out, told = _Lent(c_uint8, Format.of(form).octets * len(samples)), (c_uint64 * 3)()
    lent = _Lent(c_uint64, samples), _Lent(c_uint8, beside)
    _call("rime_units_export", _setting(form), _setting(channels), size, *lent, out, told)
    return Units(bytes(out.array[:told[0]]), told[1])


def read_unit(form: int, channels: int, unit: bytes) -> list[tuple[int, int]]:
    """The samples and ancillary numbers of one data unit. Refused 1, 2, 5 or 26."""
    samples, ancillary, entries = _Lent(c_uint64, len(unit)), _Lent(c_uint8, len(unit)), c_uint64()
    _call("rime_unit_read", _setting(form), _setting(channels), _octets(unit), samples, ancillary, entries)
    return list(zip(samples.array, ancillary.array))[:entries.value]


class Verdict(NamedTuple):
    """What the checker says of a plan: "yes", or its first fault: "share" or "allowance" with the circuit from 0, or "sum"."""

    answer: str
    circuit: int | None = None


def plan(form: int, channels: int, circuits: int) -> list[int]:
    """Fills so many circuits in their order as far as a cell's slots allow. Refused 1, 22 or 30.

    >>> plan(0x56, 20, 2)
    [12, 8]
    >>> check_plan(0x56, 20, 48_000, [12, 8], [48_000, 40_000])
    Verdict(answer='allowance', circuit=1)
    """
    shares = _Lent(c_uint32, circuits)
    _call("rime_circuits_plan", _setting(form), _setting(channels), shares)
    return list(shares.array)


def check_plan(form: int, channels: int, frequency: int, shares: Sequence[int], allowances: Sequence[int]) -> Verdict:
    """Judges a plan, anyone's: the channels of each circuit, and the cells a second that each may carry. Refused 1, 5, 22, 23."""
    answer = (c_uint32 * 2)()
    numbers = map(_setting, (form, channels, frequency))
    _call("rime_circuits_check", *numbers, _Lent(c_uint32, shares), _Lent(c_uint32, allowances), answer)
    said = ["", "yes", "share", "allowance", "sum"][answer[0]]
    return Verdict(said, answer[1] if said in ("share", "allowance") else None)


class Deed(NamedTuple):
    """What equipment does with a management message: the ports behind it, the answer that is written, and what the network is to
    be sent: 0 nothing, 1 SETUP, 2 ADD PARTY, 3 RELEASE, 4 DROP PARTY; for which port, and with which endpoint reference (0 is the
    first party, and so in a SETUP)."""

    ports: bytes
    answer: bytes
    network: int
    port: int
    reference: int


def _port() -> ctypes.CDLL:
    if not _management:
        _management.append(_load("rime_management"))
    return _management[0]


def equipment(ports: bytes, message: bytes, room: int = 64) -> Deed:
    """A management message at the equipment; `ports` is 28 octets a port. Refused 24 or 25. docs/MANAGEMENT.md has the rules.

    >>> equipment(bytes(28), b"")
    Traceback (most recent call last):
    rimesatchel.Refused: refused 24, the message has no octets
    """
    lent, answer, report = _copied(ports), _Lent(c_uint8, room), (c_uint64 * 4)()
    _call("rime_equipment", lent, _octets(message), answer, report, library=_port())
    return Deed(bytes(lent.array), bytes(answer.array[:report[0]]), *report[1:])


def controller(ports: bytes, message: bytes) -> bytes:
    """A management message at the controlling entity: the ports behind it. Refused 24. docs/MANAGEMENT.md says what a status of 81
    to 87 hex in them means."""
    lent = _copied(ports)
    _call("rime_controller", lent, _octets(message), library=_port())
    return bytes(lent.array)


def port_settings(port: bytes) -> Setup:
    """What the box of a port is opened with, by its record of 28 octets. Refused 1, 2 or 3.

    >>> port_settings(bytes([0, 4, 0xE0, 0x56, 0x42]) + bytes(23))
    Setup(format=86, channels=2, order=1)
    >>> port_settings(bytes([0, 4, 0xE0, 0x56, 0x82]) + bytes(23))
    Traceback (most recent call last):
    rimesatchel.Refused: refused 3, the order is above 1
    """
    if len(port) != 28:
        raise ValueError("a port's record has 28 octets")
    settings = (c_uint32 * 3)()
    _call("rime_port_settings", _state(28, port), settings, library=_port())
    return Setup(*settings)


def port_packing(setup: Setup) -> int:
    """The packing octet of a record in these settings: order × 64 + C, but C alone for one channel and for S of them. Refused 1, 2
    or 3.

    >>> [hex(port_packing(Setup(0x56, channels, 1))) for channels in (1, 2, 12)]
    ['0x1', '0x42', '0xc']
    """
    packing = c_uint8()
    _call("rime_port_packing", *map(_setting, setup), packing, library=_port())
    return packing.value
