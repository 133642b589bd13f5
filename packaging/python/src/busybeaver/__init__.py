"""The judge of bb: a record, or a ledger's whole text, judged by proved code.

    >>> import busybeaver
    >>> busybeaver.check("1RB1LB_1LA--- H 6 4")
    Answer(outcome=<Outcome.HALTS: 0>, steps=6, ones=4, code=None, table_code=None, place=None, kind='H', says_ones=True)
    >>> busybeaver.check("1RB1LB_1LA--- H 7").meaning
    "it doesn't hold for the table"

`check` judges one record, `check_file` each line of a file, `report` a ledger, by its text, its path or its file, and a
`Reader` one that comes in pieces. They take text or bytes, any of them, and give what `bb.h` promises; text is taken as UTF-8.
Where memory is refused they raise `MemoryError`. They let other threads run meanwhile, and threads may call side by side.
"""

import ctypes
import enum
import os
from typing import BinaryIO, Iterator, NamedTuple, Optional, Tuple, Union

__all__ = ["Answer", "Outcome", "Reader", "Report", "Status", "Why", "check", "check_file", "meaning", "report"]

#: The number of the program whose judge this is.
__version__ = "0.2.0"

# The interface that is declared here: BB_VERSION of bb.h.
_VERSION = 2
_REFUSED = 3
_NO_MEMORY = 4
# BB_READER_BYTES of bb.h.
_READER_BYTES = 1024
# How many bytes of a file are read at once.
_PIECE_BYTES = 1 << 20


class Outcome(enum.IntEnum):
    """What is said of a record."""

    HALTS = 0
    NEVER = 1
    UNDECIDED = 2
    REFUSED = 3


class Status(enum.IntEnum):
    """How the tree of a ledger stands."""

    COMPLETE = 0
    HOLDOUTS = 1
    WORKING = 2
    REFUSED = 3


class Why(enum.IntEnum):
    """Why a line of a ledger wasn't kept."""

    TORN = 1
    UNREAD = 2
    UNFIT = 3
    REPEATED = 4


class Answer(NamedTuple):
    """What is said of a record. What its outcome doesn't speak of is None."""

    outcome: Outcome
    #: In how many steps the table halts.
    steps: Optional[int]
    #: The ones on its tape then, whether the record says them or not.
    ones: Optional[int]
    #: The number of a refusal, 201 to 204 or 301 to 305.
    code: Optional[int]
    #: The number of the fault of the table's text, 101 to 105, where the code is 301.
    table_code: Optional[int]
    #: How many bytes stand before that fault, where it has a place.
    place: Optional[int]
    #: The letter of the record's kind, where the text is a record.
    kind: Optional[str]
    #: Whether the record says the ones itself.
    says_ones: bool

    @property
    def meaning(self) -> Optional[str]:
        """What the number of a refusal means, in words; of a table's text what its fault means."""
        number = self.table_code or self.code
        return None if number is None else meaning(number)


class Report(NamedTuple):
    """What is said of a ledger. What its status doesn't speak of is None or 0.

    Where the status is COMPLETE and `is_whole` is true, `best` is S(states) and `ones` is Σ(states).
    """

    status: Status
    #: The number of states of the root.
    states: int
    #: Whether the root is the empty table, with which the tree of all machines of its states begins.
    is_whole: bool
    nodes: int
    halting: int
    never: int
    holdouts: int
    open: int
    #: The greatest number of steps, and the greatest score, of a table that is recorded as halting.
    best: Optional[int]
    ones: Optional[int]
    #: The number of the first line that wasn't kept, why, and the number of its refusal.
    left_line: Optional[int]
    left_why: Optional[Why]
    left_code: Optional[int]
    #: The number of a refusal, 404 or 405.
    code: Optional[int]

    @property
    def meaning(self) -> Optional[str]:
        """What the number of a refusal means, in words: of the ledger, or of the line that wasn't kept."""
        number = self.code or self.left_code
        return None if number is None else meaning(number)


class _Answer(ctypes.Structure):
    _fields_ = [(name, ctypes.c_uint64) for name in ("steps", "ones", "place")] + [
        (name, ctypes.c_uint32) for name in ("outcome", "code", "table_code", "has_place", "has_ones", "kind")
    ]


class _Tree(ctypes.Structure):
    _fields_ = [
        (name, ctypes.c_uint64)
        for name in ("nodes", "halting", "never", "holdouts", "open", "best", "ones", "left_line")
    ] + [
        (name, ctypes.c_uint32)
        for name in ("outcome", "code", "states", "is_whole", "has_best", "has_ones", "left_why", "left_code")
    ]


class _Room(ctypes.Structure):
    _fields_ = [("room", ctypes.c_uint64 * (_READER_BYTES // 8))]


def _load() -> ctypes.CDLL:
    """The library beside this file, or the one that BUSYBEAVER_LIBRARY names."""
    beside = os.path.join(os.path.dirname(os.path.abspath(__file__)), "libbb.so")
    path = os.environ.get("BUSYBEAVER_LIBRARY", beside)
    try:
        library = ctypes.CDLL(path)
    except OSError as fault:
        raise ImportError(f"busybeaver: {path} can't be loaded: packaging/python/make builds it ({fault})") from fault
    library.bb_version.restype = ctypes.c_uint32
    if library.bb_version() != _VERSION:
        raise ImportError(f"busybeaver: {path} is of another version of the interface")
    for name, told in (("bb_check", _Answer), ("bb_report", _Tree)):
        call = getattr(library, name)
        call.argtypes = [ctypes.c_char_p, ctypes.c_size_t, ctypes.POINTER(told)]
        call.restype = None
    library.bb_report_begin.argtypes = [ctypes.POINTER(_Room)]
    library.bb_report_begin.restype = None
    library.bb_report_feed.argtypes = [ctypes.POINTER(_Room), ctypes.c_char_p, ctypes.c_size_t]
    library.bb_report_feed.restype = None
    library.bb_report_end.argtypes = [ctypes.POINTER(_Room)]
    library.bb_report_end.restype = _Tree
    library.bb_strerror.argtypes = [ctypes.c_uint32]
    library.bb_strerror.restype = ctypes.c_char_p
    return library


_library = _load()
_check = _library.bb_check
_report = _library.bb_report
_byref = ctypes.byref
_OUTCOMES = tuple(Outcome)

_Bytes = Union[bytes, bytearray, memoryview]


def meaning(code: int) -> str:
    """What a refusal's number means, in words."""
    words: bytes = _library.bb_strerror(code)
    return words.decode("ascii")


def _given(text: Union[str, _Bytes]) -> bytes:
    """The bytes of a text, which nobody changes while they are read. A number is none, of whatever `bytes` would make of it."""
    if isinstance(text, str):
        return text.encode("utf-8", "surrogateescape")
    if isinstance(text, (bytes, bytearray, memoryview)):
        return bytes(text)
    raise TypeError(f"text or bytes are wanted, not {type(text).__name__}")


def check(text: Union[str, _Bytes]) -> Answer:
    """Judges one record, a text without a newline."""
    given = _given(text)
    told = _Answer()
    _check(given, len(given), _byref(told))
    outcome = told.outcome
    if outcome == 0:
        return Answer(
            _OUTCOMES[0], told.steps, told.ones, None, None, None, chr(told.kind), told.has_ones == 1
        )
    if outcome < _REFUSED:
        return Answer(_OUTCOMES[outcome], None, None, None, None, None, chr(told.kind), False)
    if outcome == _NO_MEMORY:
        raise MemoryError
    return Answer(
        Outcome.REFUSED,
        None,
        None,
        told.code,
        told.table_code or None,
        told.place if told.has_place else None,
        chr(told.kind) if told.kind else None,
        False,
    )


def check_file(path: Union[str, "os.PathLike[str]"]) -> Iterator[Tuple[bytes, Answer]]:
    """Judges each line of a file of records: gives the line, without its newline, and its answer."""
    with open(path, "rb") as file:
        for line in file:
            record = line[:-1] if line.endswith(b"\n") else line
            yield record, check(record)


def report(ledger: Union[str, _Bytes, "os.PathLike[str]", BinaryIO]) -> Report:
    """Reports a ledger: every record of it is judged.

    A text or bytes are the ledger itself; a path, such as a `pathlib.Path`, names its file, and a file that is open for
    bytes is read to its end. Of a file one piece is in memory at a time.
    """
    if isinstance(ledger, os.PathLike):
        with open(ledger, "rb") as file:
            return _report_file(file)
    if hasattr(ledger, "read"):
        return _report_file(ledger)
    given = _given(ledger)
    told = _Tree()
    _report(given, len(given), _byref(told))
    return _as_report(told)


def _report_file(file: BinaryIO) -> Report:
    with Reader() as reader:
        while piece := file.read(_PIECE_BYTES):
            reader.feed(piece)
        return reader.end()


class Reader:
    """A ledger whose text comes in pieces, wherever it is cut: fed in their order, and ended once.

    What the end answers is what `report` says of all that was fed. A reader that isn't ended gives its memory back when it
    is closed or let go. One thread at a time may use it.
    """

    def __init__(self) -> None:
        self._room: Optional[_Room] = _Room()
        _library.bb_report_begin(_byref(self._room))

    def feed(self, piece: Union[str, _Bytes]) -> None:
        """Takes one more piece of the text."""
        if self._room is None:
            raise ValueError("the reader has ended")
        given = _given(piece)
        _library.bb_report_feed(_byref(self._room), given, len(given))

    def end(self) -> Report:
        """Reports the text, which ends here."""
        if self._room is None:
            raise ValueError("the reader has ended")
        room, self._room = self._room, None
        return _as_report(_library.bb_report_end(_byref(room)))

    def close(self) -> None:
        """Gives the memory back, where the reader hasn't ended."""
        if self._room is not None:
            room, self._room = self._room, None
            _library.bb_report_end(_byref(room))

    def __enter__(self) -> "Reader":
        return self

    def __exit__(self, *exception: object) -> None:
        self.close()

    def __del__(self) -> None:
        if getattr(self, "_room", None) is not None:
            self.close()


def _as_report(told: _Tree) -> Report:
    if told.outcome == _NO_MEMORY:
        raise MemoryError
    return Report(
        Status(told.outcome),
        told.states,
        told.is_whole == 1,
        told.nodes,
        told.halting,
        told.never,
        told.holdouts,
        told.open,
        told.best if told.has_best else None,
        told.ones if told.has_ones else None,
        told.left_line or None,
        Why(told.left_why) if told.left_why else None,
        told.left_code or None,
        told.code or None,
    )
