"""The audio transport layer of HD Radio (1017s Rev. H), for testers of reception.

A writer packs encoded audio packets and program service data (PSD) into protocol data units (PDUs); a receiver corrects the headers of PDUs, joins their
pieces to packets, and logs packets, PSD and notes. No audio is decoded.

>>> import barzhilup
>>> writer = barzhilup.Writer(mode=0, stream=barzhilup.CORE)
>>> pdu, ended = writer.write([b"audio"], length=96, psd=b"PSD")
>>> damaged = bytearray(pdu)
>>> damaged[3] ^= 0x40                      # noise in the header, which the receiver corrects
>>> receiver = barzhilup.Receiver(mode=0, stream=barzhilup.CORE)
>>> for entry in receiver.receive(damaged):
...     print(entry)
Psd(data=b'PSD')
Packet(number=0, data=b'audio')

A recording, as a demodulator or ``barzhilup channel`` writes it, is logged in a loop::

    receiver = barzhilup.Receiver(0, barzhilup.CORE, crc_start=barzhilup.CRC_START_OFF_AIR)
    for logged in receiver.log(barzhilup.read_records("recording")):
        for packet in logged.log.packets():
            ...
    print(receiver.delivered, receiver.missing)

A call that cannot be done raises :class:`Refusal`, with a number and words, and changes nothing. So does :class:`TypeError` for what is of another type than
is meant, and :class:`ValueError` for a number that C's type cannot hold: arguments are looked at before the call.

The module needs the shared library, libbarzhilup.so, and nothing else; Python is 3.8 or later. It is looked for in the directory that the environment
variable BARZHILUP_LIB names; without it in the project's target/staticlib (``bash scripts/libraries`` makes it), or, where the module was installed by
``scripts/install``, beside it; and then where the system looks for libraries.
"""

import copy
import ctypes
import operator
import os
import sys
from array import array
from contextlib import contextmanager
from enum import IntEnum
from io import BytesIO
from itertools import islice
from typing import (IO, Any, Dict, Iterable, Iterator, List, NamedTuple, Optional, Sequence, Tuple, Union)

__version__ = "0.1.0"

__all__ = [
    "Batch", "Cause", "ControlWord", "Correction", "Csv", "Entry", "Expansion", "Joined", "JoinedPacket", "LatencyTrial", "Line", "Log", "Logged",
    "MalformedFile", "MalformedLog", "Note", "Packet", "Piece", "ProgramType", "Psd", "Reading", "Receiver", "Refusal", "RefusalNumber", "Services",
    "Settings", "Writer", "Written", "CARRY_BYTES", "CORE", "CORRECTED_MAX", "COUNTS_MAX", "COUNT_MAX", "CRC_START", "CRC_START_OFF_AIR", "ENHANCED",
    "HEADER_BYTES", "JOINED_ENHANCED", "LATENCY_MAX", "LOG_WORDS", "MARKS_MAX", "PACKET_MAX", "PARITY_BYTES", "PDU_MAX", "PDU_MAX_12_BITS", "PDU_MIN",
    "PIECES_MAX", "PROGRAM_MAX", "READING_PIECES", "SERVICES_MAX", "SNAPSHOT_WORDS", "add_parity_share", "choose", "correct_header", "crc8", "join",
    "library_version", "list_pieces", "note_text", "parity", "read", "read_csv", "read_records", "read_words", "refusal_text", "smallest_latency",
    "syndromes", "try_latency", "waiting_packets", "write_parity", "write_records",
]

#: Bytes that a call reads: bytes, a bytearray, a memoryview, a numpy array of bytes. A number, a text or a list of numbers is a :class:`TypeError`.
Buffer = Union[bytes, bytearray, memoryview, Any]
#: A file by its name, or one that is open.
Source = Union[str, "os.PathLike[str]", IO[Any]]

# ---- Sizes, as the C header has them ------------------------------------------------------------------------------------------------------------

#: The first 96 bytes of a PDU are its header; 8 of these are parity.
HEADER_BYTES = 96
PARITY_BYTES = 8
#: The most header bytes that are corrected without marks, and the most marks.
CORRECTED_MAX = 4
MARKS_MAX = 8
#: The shortest and the longest PDU, and the longest that is written with locators of 12 bits.
PDU_MIN = 96
PDU_MAX = 20480
PDU_MAX_12_BITS = 4096
#: The longest packet.
PACKET_MAX = 4096
#: The bytes of a carry buffer, and the words that suffice for the log of a call and for a saved receiver.
CARRY_BYTES = 4096
LOG_WORDS = 8400
SNAPSHOT_WORDS = 1376
#: The most pieces of a PDU.
PIECES_MAX = 63
READING_PIECES = 64
#: The most counts of the bench for latencies, the largest count, and the largest latency.
COUNTS_MAX = 4096
COUNT_MAX = 63
LATENCY_MAX = 7
#: The largest program number, and the largest value of the applied services.
PROGRAM_MAX = 7
SERVICES_MAX = 7
#: The value that the register of CRCs starts with where none is given, and the one with which recordings off the air check.
CRC_START = 0
CRC_START_OFF_AIR = 255
#: The bit that tells an enhanced packet in the result of :func:`join`.
JOINED_ENHANCED = 0x20000000
#: The two streams of a mode. Modes 0 and 13 have the core stream alone; 1, 2, 3 and 10 have both.
CORE = 0
ENHANCED = 1

# ---- Refusals and notes in words ----------------------------------------------------------------------------------------------------------------


class RefusalNumber(IntEnum):
    """The causes of refusals by their numbers. LIST_LENGTH is LOG_LENGTH where a list of pieces is too short, and PLACE is VALUE for the place of a parity share."""

    STATE = 1
    CARRY_LENGTH = 2
    PDU_LENGTH = 3
    UNCORRECTABLE = 4
    MODE = 5
    OTHER_MODE = 6
    SEQUENCE = 7
    PIECES = 8
    LA = 9
    EXPANSION = 10
    LOCATOR = 11
    DISPLACEMENT = 12
    LOG_LENGTH = 13
    LIST_LENGTH = 13
    VALUE = 14
    PLACE = 14
    PACKETS = 15
    PSD = 16
    ROOM = 17
    LENGTHS = 18
    MARKS = 19
    PAIR = 20
    COUNTS = 21
    PROGRAMS = 22
    LOG_WORDS = 23
    NUMBERS = 24
    WORDS = 25
    WORD_BUFFER = 26
    COUNT_LIMIT = 27


class Cause(IntEnum):
    """The causes of notes by their numbers."""

    #: The PDU sequence is not the one after the last. What was held is dropped.
    SEQUENCE = 1
    #: The piece's CRC is wrong.
    CRC = 2
    #: The piece continues a packet of which nothing is held.
    NOTHING_HELD = 3
    #: What was held is not continued by this PDU, and dropped.
    NOT_CONTINUED = 4
    #: With the piece, the packet is over 4,096 bytes.
    TOO_LONG = 5
    #: The PDU was marked lost. What was held is dropped.
    LOST = 6
    #: The piece has a right CRC in both copies of a pair, and other bytes in one than in the other.
    COPIES_DIFFER = 7
    #: The PDU is withheld: the receiver is not entitled to its program.
    WITHHELD = 8

    @property
    def text(self) -> str:
        """The cause in the words of ``barzhilup log``."""
        return _NOTES[self]


#: Words for refusals by their numbers, those of the C header.
_REFUSALS: Dict[int, str] = {
    1: "wrong receiver state; or writer state",
    2: "carry buffer too short",
    3: "length not 96 to 20480; or over 4096 for a writer with locators of 12 bits",
    4: "header beyond correction",
    5: "mode and stream not in the table",
    6: "mode and stream not those asked for",
    7: "sequence outside its range",
    8: "Pfirst or Plast with no piece",
    9: "La out of place",
    10: "wrong expansion; or expansion fields that do not go together",
    11: "locator out of place",
    12: "displacement out of place",
    13: "log too short; or list of pieces, or result of a join",
    14: "a value that may not be sent: blend 3, blend with a program, gain 7 to 23, or past its width; or a place outside 8 to 95",
    15: "packet length 0 or over 4,096; or lengths that do not sum to the bytes, or bytes sent of a packet that is not offered",
    16: "PSD and expansion past the mode's limit, or PSD where there is none",
    17: "no room in the PDU for a piece of one byte",
    18: "lengths of the PDUs do not sum to the buffer",
    19: "over eight marks or one over 95 or repeated",
    20: "copies differ in length or bytes 8 to La",
    21: "no counts or over 4096 or one over 63",
    22: "program number over 7 or repeated",
    23: "words that are no log",
    24: "packet numbers that do not rise within a log",
    25: "words not of a saved receiver or a field outside its range",
    26: "buffer too short for the words of the receiver",
    27: "delivered or missing over 4294967295",
}

_NOTES: Dict[int, str] = {
    1: "sequence",
    2: "wrong CRC",
    3: "nothing held",
    4: "not continued",
    5: "too long",
    6: "lost",
    7: "copies differ",
    8: "withheld",
}


def refusal_text(number: int) -> str:
    """The cause of a refusal in words: "accepted" for 0, "unknown" for a number that there is none of."""
    number = _whole("number", number)
    return _REFUSALS.get(number, "accepted" if number == 0 else "unknown")


def note_text(cause: int) -> str:
    """The cause of a note in words; "unknown" for a number that there is none of."""
    return _NOTES.get(_whole("cause", cause), "unknown")


class Refusal(Exception):
    """Why a call was refused. A refused call has changed nothing.

    If several causes applied, this is the one with the lowest number, except that 19 comes directly after 3, 18 directly after 2, 20 directly after 12, and
    27 directly after 13.
    """

    #: The number, 1 to 27.
    number: RefusalNumber
    #: The cause in words.
    text: str
    #: With number 11 the k of the first wrong locator, from 0; otherwise None.
    locator: Optional[int]

    def __init__(self, number: int, locator: Optional[int] = None) -> None:
        self.number = RefusalNumber(number)
        self.text = refusal_text(number)
        self.locator = locator if number == RefusalNumber.LOCATOR else None
        k = "" if self.locator is None else " (k {})".format(self.locator)
        super().__init__("refused with {}: {}{}".format(int(number), self.text, k))

    def __reduce__(self) -> Tuple[Any, ...]:
        return (Refusal, (int(self.number), self.locator))


class MalformedLog(ValueError):
    """Words that are not a log, or not two logs joined."""

    #: The place, from 0, of the first word of the entry that does not fit.
    place: int

    def __init__(self, place: int, what: str = "a log") -> None:
        self.place, self._what = place, what
        super().__init__("not {}: the entry at word {} does not fit".format(what, place))

    def __reduce__(self) -> Tuple[Any, ...]:
        return (MalformedLog, (self.place, self._what))


class MalformedFile(ValueError):
    """A file that is cut, or of another form than the one asked for."""


# ---- The C side ---------------------------------------------------------------------------------------------------------------------------------

_u8, _u16, _u32, _size, _bool = ctypes.c_uint8, ctypes.c_uint16, ctypes.c_uint32, ctypes.c_size_t, ctypes.c_bool


class _Values(ctypes.Structure):
    _fields_ = [("values", _u8 * PARITY_BYTES)]


class _Share(ctypes.Structure):
    _fields_ = [("refusal", _u32), ("parity", _Values)]


class _Correction(ctypes.Structure):
    _fields_ = [("refusal", _u32), ("corrected", _u32)]


class _ControlWord(ctypes.Structure):
    _fields_ = [(name, _u8) for name in ("mode", "stream", "sequence", "blend", "gain", "common_delay", "latency", "pfirst", "plast", "start", "nop",
                                         "expansion", "la")]


class _Expansion(ctypes.Structure):
    _fields_ = [("class_code", _u8), ("program", _u8), ("displacement", _u16), ("access", _u8), ("type_code", _u8), ("services", _u8),
                ("marker", _u32)]


class _Reading(ctypes.Structure):
    _fields_ = [("refusal", _u32), ("wrong_locator", _u32), ("control", _ControlWord), ("expansion", _Expansion), ("psd_start", _u32),
                ("psd_length", _u32), ("starts", _u16 * READING_PIECES), ("lengths", _u16 * READING_PIECES)]


class _Writer(ctypes.Structure):
    _fields_ = [("mode", _u8), ("stream", _u8), ("crc_start", _u8), ("sequence", _u8), ("number", _u8), ("sent", _u16)]


class _WriterOpened(ctypes.Structure):
    _fields_ = [("refusal", _u32), ("writer", _Writer)]


class _Settings(ctypes.Structure):
    _fields_ = [("blend", _u8), ("gain", _u8), ("common_delay", _u8), ("latency", _u8), ("classed", _bool), ("class_code", _u8), ("programmed", _bool),
                ("program", _u8), ("displaced", _bool), ("typed", _bool), ("access", _u8), ("type_code", _u8), ("serviced", _bool), ("services", _u8),
                ("marker", _u32)]


class _Written(ctypes.Structure):
    _fields_ = [("refusal", _u32), ("ended", _u32), ("writer", _Writer)]


class _Receiver(ctypes.Structure):
    _fields_ = [("mode", _u8), ("stream", _u8), ("crc_start", _u8), ("entitled", _u8), ("known", _bool), ("sequence", _u8), ("held", _u16),
                ("number", _u8), ("serviced", _bool), ("services", _u8), ("delivered", _u32), ("missing", _u32), ("last", _u8)]


class _ReceiverOpened(ctypes.Structure):
    _fields_ = [("refusal", _u32), ("receiver", _Receiver)]


class _Saved(ctypes.Structure):
    _fields_ = [("refusal", _u32), ("words", _u32)]


class _Received(ctypes.Structure):
    _fields_ = [("refusal", _u32), ("wrong_locator", _u32), ("words", _u32), ("receiver", _Receiver)]


class _Batch(ctypes.Structure):
    _fields_ = [("refusal", _u32), ("wrong_locator", _u32), ("taken", _size), ("words", _size), ("receiver", _Receiver)]


class _Joined(ctypes.Structure):
    _fields_ = [("refusal", _u32), ("words", _size)]


class _LatencyAnswer(ctypes.Structure):
    _fields_ = [("refusal", _u32), ("latency", _u32), ("found", _bool)]


class _LatencyTrial(ctypes.Structure):
    _fields_ = [("refusal", _u32), ("ticks", _u32), ("dry", _u32), ("first_dry", _u32), ("most_waiting", _u32)]


class _Waiting(ctypes.Structure):
    _fields_ = [("refusal", _u32), ("count", _u32)]


class _Piece(ctypes.Structure):
    _fields_ = [("start", _u16), ("length", _u16), ("right", _bool)]


#: The structs by their names in C, for whoever compares them.
_STRUCTS = {
    "barzhilup_syndromes_answer": _Values,
    "barzhilup_parity_answer": _Values,
    "barzhilup_share_answer": _Share,
    "barzhilup_correction_answer": _Correction,
    "barzhilup_control_word": _ControlWord,
    "barzhilup_expansion": _Expansion,
    "barzhilup_reading": _Reading,
    "barzhilup_writer": _Writer,
    "barzhilup_writer_opened": _WriterOpened,
    "barzhilup_settings": _Settings,
    "barzhilup_written": _Written,
    "barzhilup_receiver": _Receiver,
    "barzhilup_receiver_opened": _ReceiverOpened,
    "barzhilup_saved": _Saved,
    "barzhilup_received": _Received,
    "barzhilup_batch": _Batch,
    "barzhilup_joined": _Joined,
    "barzhilup_latency_answer": _LatencyAnswer,
    "barzhilup_latency_trial": _LatencyTrial,
    "barzhilup_waiting_answer": _Waiting,
    "barzhilup_piece": _Piece,
}

_bytes, _shorts, _words, _sizes = (ctypes.POINTER(kind) for kind in (_u8, _u16, _u32, _size))

#: The functions: what each returns, and what it takes.
_FUNCTIONS: Dict[str, Tuple[Any, List[Any]]] = {
    "barzhilup_version": (_u32, []),
    "barzhilup_syndromes": (_Values, [_bytes]),
    "barzhilup_parity": (_Values, [_bytes]),
    "barzhilup_write_parity": (_u32, [_bytes, _size]),
    "barzhilup_add_parity_share": (_Share, [_Values, _size, _u8]),
    "barzhilup_correct_header_marked": (_Correction, [_bytes, _size, _bytes, _size]),
    "barzhilup_crc8_from": (_u8, [_u8, _bytes, _size]),
    "barzhilup_read": (_Reading, [_bytes, _size]),
    "barzhilup_list_pieces": (_Reading, [_bytes, _size, _u8, ctypes.POINTER(_Piece), _size]),
    "barzhilup_open_writer_with": (_WriterOpened, [_u8, _u8, _u8]),
    "barzhilup_write": (_Written, [_Writer, _Settings, _bytes, _size, _shorts, _size, _bytes, _size, _bytes, _size]),
    "barzhilup_open_receiver_with": (_ReceiverOpened, [_u8, _u8, _u8]),
    "barzhilup_open_receiver_entitled": (_ReceiverOpened, [_u8, _u8, _u8, _bytes, _size]),
    "barzhilup_receive_marked": (_Received, [_Receiver, _bytes, _size, _bytes, _size, _bytes, _size, _words, _size]),
    "barzhilup_receive_batch": (_Batch, [_Receiver, _bytes, _size, _bytes, _size, _sizes, _size, _words, _size]),
    "barzhilup_receive_pair": (_Received, [_Receiver, _bytes, _size, _bytes, _size, _bytes, _size, _words, _size]),
    "barzhilup_choose": (_u32, [_bytes, _size, _bytes, _size]),
    "barzhilup_mark_lost": (_Received, [_Receiver, _words, _size]),
    "barzhilup_save_receiver": (_Saved, [_Receiver, _bytes, _size, _words, _size]),
    "barzhilup_load_receiver": (_ReceiverOpened, [_words, _size, _bytes, _size]),
    "barzhilup_join": (_Joined, [_words, _size, _words, _size, _words, _size]),
    "barzhilup_smallest_latency": (_LatencyAnswer, [_u8, _u8, _words, _size]),
    "barzhilup_try_latency": (_LatencyTrial, [_u8, _u8, _words, _size, _u8]),
    "barzhilup_waiting_packets": (_Waiting, [_u8, _u8, _words, _size, _u8, _size, _words, _size]),
}


def _places() -> Iterator[str]:
    """Where the shared library may stand, in the order of search."""
    name = "libbarzhilup.so." + __version__.split(".")[0]
    named = os.environ.get("BARZHILUP_LIB")
    if named:
        yield os.path.join(named, name)
        return
    here = os.path.dirname(os.path.abspath(__file__))
    for directory in ("../../target/staticlib", "../../../lib"):
        place = os.path.normpath(os.path.join(here, directory, name))
        if os.path.exists(place):
            yield place
    yield name


def _load() -> ctypes.CDLL:
    """The shared library, with the types of its functions."""
    faults = []
    for place in _places():
        try:
            library = ctypes.CDLL(place)
            break
        except OSError as fault:
            faults.append(str(fault))
    else:
        raise ImportError("barzhilup: no shared library: {}; make it with `bash scripts/libraries`, or name its directory in BARZHILUP_LIB".format(
            "; ".join(faults)))
    for name, (returns, takes) in _FUNCTIONS.items():
        try:
            function = getattr(library, name)
        except AttributeError:
            raise ImportError("barzhilup: {} has no {}: it is of another version than {}".format(library._name, name, __version__)) from None
        function.restype, function.argtypes = returns, takes
    wanted = tuple(int(part) for part in __version__.split("."))
    number = library.barzhilup_version()
    found = (number >> 16, number >> 8 & 255, number & 255)
    if found[0] != wanted[0] or found < wanted:
        raise ImportError("barzhilup: {} is version {}.{}.{}, and {} or later is needed".format(library._name, *found, __version__))
    return library


_c = _load()


def library_version() -> str:
    """The version of the shared library."""
    number = _c.barzhilup_version()
    return "{}.{}.{}".format(number >> 16, number >> 8 & 255, number & 255)


def _check(number: int, locator: Optional[int] = None) -> None:
    """Raises the refusal of an answer, if it has one."""
    if number:
        raise Refusal(number, locator)


def _whole(name: str, value: int) -> int:
    """A whole number. Neither a fraction, which would be cut, nor a text is one."""
    try:
        return operator.index(value)
    except TypeError:
        raise TypeError("{}: a whole number is needed, and not {}".format(name, type(value).__name__)) from None


def _number(name: str, value: int, most: int) -> int:
    """A number that C's type can hold; others would be cut to another one."""
    value = _whole(name, value)
    if not 0 <= value <= most:
        raise ValueError("{}: {} is not 0 to {}".format(name, value, most))
    return value


def _byte(name: str, value: int) -> int:
    return _number(name, value, 255)


def _lent(kind: Any, count: int) -> Any:
    """A C array for so many elements, of one at least, so that it has a place."""
    return (kind * max(count, 1))()


def _view(data: Any) -> Optional[memoryview]:
    """The bytes of a buffer where they are, or None where this is no buffer of bytes."""
    try:
        view = memoryview(data)
    except TypeError:
        return None
    return view if view.ndim and view.format.lstrip("@=<>!") in ("B", "b", "c") else None


def _plain(name: str, data: Buffer) -> bytes:
    """A copy of these bytes. Of a number Python would make so many zeros."""
    view = _view(data)
    if view is None:
        raise TypeError("{}: bytes are needed, and not {}".format(name, type(data).__name__))
    return view.tobytes()


def _several(name: str, items: Iterable[Any]) -> Iterator[Any]:
    """What comes of a list of packets or PDUs. One of them alone is no list: Python would make numbers of it."""
    view = _view(items)
    if isinstance(items, str) or (view is not None and view.ndim == 1):
        raise TypeError("{}: a list is needed, and not {}; one alone is a list of one".format(name, type(items).__name__))
    return iter(items)


def _copied(name: str, data: Buffer) -> Tuple[Any, int]:
    """A C array with a copy of these bytes, and their count."""
    plain = _plain(name, data)
    return (_u8 * max(len(plain), 1)).from_buffer_copy(plain or b"\0"), len(plain)


def _listed(name: str, values: Iterable[int], kind: Any, most: int) -> Tuple[Any, int]:
    """A C array of these numbers, and their count."""
    numbers = [_number(name, value, most) for value in values]
    lent = _lent(kind, len(numbers))
    lent[:len(numbers)] = numbers
    return lent, len(numbers)


def _words_of(name: str, words: Iterable[int]) -> "array[int]":
    """Words of 32 bits. Bytes are none: :func:`read_words` makes words of them."""
    if isinstance(words, array) and words.typecode == "I":
        return words[:]
    if isinstance(words, str) or _view(words) is not None:
        raise TypeError("{}: words are needed, and not {}; read_words makes words of bytes".format(name, type(words).__name__))
    return array("I", [_number(name, word, 2**32 - 1) for word in words])


def _lent_words(name: str, words: Iterable[int]) -> Tuple[Any, int]:
    """A C array of these words, and their count."""
    plain = _words_of(name, words)
    lent = _lent(_u32, len(plain))
    lent[:len(plain)] = plain
    return lent, len(plain)


def _place(data: Buffer) -> Union[bytearray, memoryview, None]:
    """Where a PDU is written back that a call corrects: a bytearray, or a memoryview that can be written. None for others, which stay as they are."""
    if isinstance(data, bytearray):
        return data
    if not isinstance(data, memoryview) or data.readonly:
        return None
    return data if (data.format, data.ndim) == ("B", 1) else data.cast("B")


def _give_back(place: Union[bytearray, memoryview, None], corrected: bytes) -> None:
    """Writes a corrected PDU to its place, if it has one."""
    if place is not None:
        place[:] = corrected


# ---- The packet log -----------------------------------------------------------------------------------------------------------------------------


class Packet(NamedTuple):
    """A packet that arrived whole."""

    #: Its number, 0 to 63.
    number: int
    #: Its bytes, 1 to 4,096.
    data: bytes


class Psd(NamedTuple):
    """The PSD of a PDU."""

    data: bytes


class Note(NamedTuple):
    """Something that was missing or wrong."""

    cause: Cause
    #: The piece of the PDU that it is about, from 0; None where it is about none.
    piece: Optional[int]


Entry = Union[Packet, Psd, Note]

_ABOUT_NO_PIECE = (Cause.SEQUENCE, Cause.NOT_CONTINUED, Cause.LOST, Cause.WITHHELD)


def _data(words: "array[int]", place: int, length: int) -> Optional[Tuple[bytes, int]]:
    """The bytes of the data words from a place on, and the place after them; None where they are not as a log has them, by threes and with unused ones 0."""
    end = place + (length + 2) // 3
    part = words[place:end]
    left = length
    for word in part:
        count = min(left, 3)
        unused = (1 << (24 - 8 * count)) - 1
        if word >> 24 != 0x40 + count or word & unused:
            return None
        left -= count
    if left:
        return None
    if sys.byteorder == "little":
        part.byteswap()
    data = bytearray(part.tobytes())
    del data[0::4]
    return bytes(data[:length]), end


def _packet(words: "array[int]", place: int, head: int) -> Optional[Tuple[Packet, int]]:
    """The packet at a place, by its first word, and the place after it; None where it does not fit."""
    if head >> 22 or not 1 <= head & 0xFFFF <= PACKET_MAX:
        return None
    found = _data(words, place + 1, head & 0xFFFF)
    return None if found is None else (Packet(head >> 16, found[0]), found[1])


def _psd(words: "array[int]", place: int, head: int) -> Optional[Tuple[Psd, int]]:
    """The PSD at a place, likewise."""
    if head >> 16 != 0x8000 or not head & 0xFFFF:
        return None
    found = _data(words, place + 1, head & 0xFFFF)
    return None if found is None else (Psd(found[0]), found[1])


def _note(words: "array[int]", place: int, head: int) -> Optional[Tuple[Note, int]]:
    """The note at a place, likewise."""
    number, piece = head >> 16 & 0x3FFF, head & 0xFFFF
    if number not in _NOTES or (piece and number in _ABOUT_NO_PIECE):
        return None
    return Note(Cause(number), None if number in _ABOUT_NO_PIECE else piece), place + 1


def _no_entry(words: "array[int]", place: int, head: int) -> None:
    """A data word begins no entry."""


#: The readers of entries, by the kind of the first word.
_ENTRIES = (_packet, _no_entry, _psd, _note)


class Log:
    """The log of a call, or of several: its entries, in their order, when it is iterated.

    >>> list(Log([0x00050004, 0x43112233, 0x41440000, 0xC0020001]))
    [Packet(number=5, data=b'\\x11"3D'), Note(cause=<Cause.CRC: 2>, piece=1)]

    Words that were kept, in a file of ``barzhilup log --format words`` or ``records``, are a log too. The words are looked at when they are read: others raise
    :class:`MalformedLog` at the first entry that does not fit, after those before it. These are the words that :func:`join` refuses with 23, that is data
    words that are missing, left over, wrongly counted or not filled by threes up to the last, a bit that has no meaning, a length of 0 or a packet's over
    4,096; and notes that no receiver logs, with another cause than 1 to 8, or with a piece where they are about none.

    ``len`` counts the entries, an empty log is false, and ``+`` puts the entries of another log after these.
    """

    __slots__ = ("words",)

    #: The words of 32 bits, as the C header lays them out.
    words: "array[int]"

    def __init__(self, words: Iterable[int] = ()) -> None:
        self.words = _words_of("words", words)

    def __iter__(self) -> Iterator[Entry]:
        place = 0
        while place < len(self.words):
            entry, place = self._entry(place)
            yield entry

    def _entry(self, place: int) -> Tuple[Entry, int]:
        """The entry at a place, and the place after it."""
        word = self.words[place]
        found = _ENTRIES[word >> 30](self.words, place, word)
        if found is None:
            raise MalformedLog(place)
        return found

    def packets(self) -> List[Packet]:
        """The packets alone."""
        return [entry for entry in self if isinstance(entry, Packet)]

    def notes(self) -> List[Note]:
        """The notes alone."""
        return [entry for entry in self if isinstance(entry, Note)]

    def psd(self) -> List[bytes]:
        """The PSD entries' bytes alone."""
        return [entry.data for entry in self if isinstance(entry, Psd)]

    def __len__(self) -> int:
        return sum(1 for _ in self)

    def __bool__(self) -> bool:
        return bool(self.words)

    def __add__(self, other: "Log") -> "Log":
        return Log(self.words + other.words) if isinstance(other, Log) else NotImplemented

    def __eq__(self, other: object) -> bool:
        return isinstance(other, Log) and self.words == other.words

    def __repr__(self) -> str:
        return "Log([{}])".format(", ".join("0x{:08x}".format(word) for word in self.words))


# ---- Header code, CRC ---------------------------------------------------------------------------------------------------------------------------


def _header(header: Buffer) -> Any:
    lent, length = _copied("header", header)
    if length != HEADER_BYTES:
        raise ValueError("a header has {} bytes, and not {}".format(HEADER_BYTES, length))
    return lent


def syndromes(header: Buffer) -> bytes:
    """The eight syndromes of a header of 96 bytes: all zero if it is a code word."""
    return bytes(_c.barzhilup_syndromes(_header(header)).values)


def parity(header: Buffer) -> bytes:
    """The eight bytes of parity of a header of 96 bytes; what its own first eight bytes are makes no difference."""
    return bytes(_c.barzhilup_parity(_header(header)).values)


def write_parity(pdu: Buffer) -> bytes:
    """The PDU with the parity of its header in bytes 0 to 7; a bytearray is changed itself too. Refused with 3."""
    lent, length = _copied("pdu", pdu)
    place = _place(pdu)
    _check(_c.barzhilup_write_parity(lent, length))
    written = bytes(lent)[:length]
    _give_back(place, written)
    return written


def add_parity_share(parity: Buffer, place: int, byte: int) -> bytes:
    """Eight bytes of parity with the share of the byte at a place, 8 to 95, added. Begin with ``bytes(8)``. Refused with 14."""
    values = _plain("parity", parity)
    if len(values) != PARITY_BYTES:
        raise ValueError("a parity has {} bytes, and not {}".format(PARITY_BYTES, len(values)))
    answer = _c.barzhilup_add_parity_share(_Values.from_buffer_copy(values), _number("place", place, 2**32), _byte("byte", byte))
    _check(answer.refusal)
    return bytes(answer.parity.values)


class Correction(NamedTuple):
    """A corrected header."""

    #: The PDU with its header corrected.
    pdu: bytes
    #: How many bytes were wrong.
    corrected: int


def correct_header(pdu: Buffer, marks: Iterable[int] = ()) -> Correction:
    """Corrects the header of a PDU: up to four wrong bytes, anywhere among the first 96.

    ``marks`` has the places of bytes that the demodulator guessed, at most eight: with s of them, these may hold anything and (8 - s) // 2 others may be
    wrong. A bytearray is corrected itself too. Refused with 3, 19 or 4.
    """
    lent, length = _copied("pdu", pdu)
    place = _place(pdu)
    places, count = _listed("marks", marks, _u8, 255)
    answer = _c.barzhilup_correct_header_marked(lent, length, places, count)
    _check(answer.refusal)
    corrected = bytes(lent)[:length]
    _give_back(place, corrected)
    return Correction(corrected, answer.corrected)


def crc8(data: Buffer, start: int = CRC_START) -> int:
    """The CRC-8 of a piece, with a register that starts at this value.

    >>> hex(crc8(b"\\x01")), hex(crc8(b"\\x01", CRC_START_OFF_AIR))
    ('0x31', '0x9d')
    """
    lent, length = _copied("data", data)
    return int(_c.barzhilup_crc8_from(_byte("start", start), lent, length))


# ---- Reading without a receiver -----------------------------------------------------------------------------------------------------------------


class ControlWord(NamedTuple):
    """What the control word of a PDU says."""

    mode: int
    stream: int
    sequence: int
    blend: int
    #: Gain (core) or stream delay (enhanced), 0 to 31.
    gain: int
    common_delay: int
    latency: int
    #: Whether the first piece continues a packet begun before, and whether the last is continued.
    pfirst: bool
    plast: bool
    #: The number of the first packet that is not continued, 0 to 63.
    start: int
    #: The count of pieces.
    nop: int
    #: Whether there are expansion bytes.
    expansion: bool
    #: The place of the last byte before the first piece.
    la: int


class Expansion(NamedTuple):
    """The expansion fields; 0 where not sent or not interpreted."""

    class_code: int
    program: int
    displacement: int
    access: int
    type_code: int
    services: int
    marker: int


class Piece(NamedTuple):
    """A piece of a PDU."""

    #: Its place in the PDU.
    start: int
    #: Its bytes, without its CRC byte.
    data: bytes
    #: Whether its CRC is right; None where the CRCs were not looked at.
    right: Optional[bool]


class Reading(NamedTuple):
    """What a PDU holds."""

    control: ControlWord
    expansion: Expansion
    psd: bytes
    pieces: List[Piece]
    #: The PDU with its header corrected.
    pdu: bytes


def _reading(answer: Any, pdu: bytes, verdicts: Sequence[Optional[bool]]) -> Reading:
    """A reading from the answer of C."""
    fields = [getattr(answer.control, name) for name, _ in _ControlWord._fields_]
    control = ControlWord(*fields)._replace(pfirst=bool(answer.control.pfirst), plast=bool(answer.control.plast),
                                            expansion=bool(answer.control.expansion))
    expansion = Expansion(*(getattr(answer.expansion, name) for name, _ in _Expansion._fields_))
    psd = pdu[answer.psd_start:answer.psd_start + answer.psd_length]
    pieces = []
    for k in range(control.nop):
        start, length = answer.starts[k], answer.lengths[k]
        pieces.append(Piece(start, pdu[start:start + length], verdicts[k]))
    return Reading(control, expansion, psd, pieces, pdu)


def read(pdu: Buffer) -> Reading:
    """Reads a PDU without a receiver: corrects its header, and says what it holds. No CRC is looked at. A bytearray is corrected itself too.

    Refused with 3 to 5 or 7 to 12.
    """
    lent, length = _copied("pdu", pdu)
    place = _place(pdu)
    answer = _c.barzhilup_read(lent, length)
    _check(answer.refusal, answer.wrong_locator)
    corrected = bytes(lent)[:length]
    _give_back(place, corrected)
    return _reading(answer, corrected, [None] * PIECES_MAX)


def list_pieces(pdu: Buffer, crc_start: int = CRC_START) -> Reading:
    """As :func:`read`, with the verdict on each piece's CRC, whose register starts at this value. A wrong CRC is no refusal."""
    lent, length = _copied("pdu", pdu)
    place = _place(pdu)
    pieces = (_Piece * PIECES_MAX)()
    answer = _c.barzhilup_list_pieces(lent, length, _byte("crc_start", crc_start), pieces, PIECES_MAX)
    _check(answer.refusal, answer.wrong_locator)
    corrected = bytes(lent)[:length]
    _give_back(place, corrected)
    return _reading(answer, corrected, [bool(piece.right) for piece in pieces])


def choose(first: Buffer, second: Buffer) -> Optional[Buffer]:
    """Of two copies of a PDU, the one in whose header fewer bytes have to be corrected, the first if equal; None where neither can be corrected."""
    (one, one_length), (two, two_length) = _copied("first", first), _copied("second", second)
    return (None, first, second)[_c.barzhilup_choose(one, one_length, two, two_length)]


# ---- Writer -------------------------------------------------------------------------------------------------------------------------------------


class ProgramType(NamedTuple):
    """Access, 0 or 1, and program type, 0 to 255."""

    access: int
    type_code: int


class Services(NamedTuple):
    """Applied services, 0 or (with class 1) 1, and marker, 0 to 2,097,151."""

    applied: int
    marker: int


class Settings(NamedTuple):
    """A PDU's settings. Expansion fields are sent where they are not None."""

    #: 0 to 2; with a nonzero program 0.
    blend: int = 0
    #: Gain (core: 0 to 6, 24 to 31) or stream delay (enhanced: 0 to 31).
    gain: int = 0
    #: 0 to 63.
    common_delay: int = 0
    #: 0 to 7.
    latency: int = 0
    #: Only 1, and then with a nonzero program and access 1.
    class_code: Optional[int] = None
    #: 0 to 7.
    program: Optional[int] = None
    #: Whether the place of the PDU's last byte is sent.
    displacement: bool = False
    program_type: Optional[ProgramType] = None
    services: Optional[Services] = None

    def _to_c(self) -> _Settings:
        access, type_code = (0, 0) if self.program_type is None else self.program_type
        applied, marker = (0, 0) if self.services is None else self.services
        class_code, program = (0 if value is None else value for value in (self.class_code, self.program))
        return _Settings(_byte("blend", self.blend), _byte("gain", self.gain), _byte("common_delay", self.common_delay), _byte("latency", self.latency),
                         self.class_code is not None, _byte("class_code", class_code), self.program is not None, _byte("program", program),
                         bool(_number("displacement", self.displacement, 1)), self.program_type is not None, _byte("access", access),
                         _byte("type_code", type_code), self.services is not None, _byte("applied", applied), _number("marker", marker, 2**32 - 1))


def _settings(settings: Settings) -> _Settings:
    """These settings as C has them."""
    if not isinstance(settings, Settings):
        raise TypeError("settings: Settings are needed, and not {}".format(type(settings).__name__))
    return settings._to_c()


class Written(NamedTuple):
    """A PDU, and how many of the packets offered ended in it."""

    pdu: bytes
    ended: int


class Writer:
    """Packs packets and PSD into PDUs of a mode and stream.

    ``crc_start`` is the value that the register of the CRCs starts with, any byte; recordings off the air check with :data:`CRC_START_OFF_AIR`. Refused
    with 5 for a mode and stream that there are none of.
    """

    def __init__(self, mode: int, stream: int = CORE, crc_start: int = CRC_START) -> None:
        answer = _c.barzhilup_open_writer_with(_byte("mode", mode), _byte("stream", stream), _byte("crc_start", crc_start))
        _check(answer.refusal)
        self._state = answer.writer

    @property
    def mode(self) -> int:
        return int(self._state.mode)

    @property
    def stream(self) -> int:
        return int(self._state.stream)

    @property
    def crc_start(self) -> int:
        return int(self._state.crc_start)

    @property
    def sequence(self) -> int:
        """The next PDU's sequence."""
        return int(self._state.sequence)

    @property
    def number(self) -> int:
        """The number, 0 to 63, of the first unfinished packet."""
        return int(self._state.number)

    @property
    def sent(self) -> int:
        """How many bytes of it are sent."""
        return int(self._state.sent)

    def write(self, packets: Sequence[Buffer], length: int, psd: Buffer = b"", settings: Settings = Settings()) -> Written:
        """Writes a PDU of this length: as many of the packets, 1 to 4,096 bytes each, as fit, and then a part of the next.

        The first packet is the unfinished one, whole, if there is one: offer again from the first that did not end.

        Refused with 3, 10 or 14 to 17.
        """
        plain = [_plain("packet", packet) for packet in _several("packets", packets)]
        # A length that two bytes cannot hold is refused with 15 like any other over 4,096.
        lengths, count = _listed("length", (min(len(packet), 65535) for packet in plain), _u16, 65535)
        data, data_length = _copied("packets", b"".join(plain))
        lent_psd, psd_length = _copied("psd", psd)
        length = _number("length", length, 2**32)
        pdu = _lent(_u8, min(length, PDU_MAX + 1))
        answer = _c.barzhilup_write(self._state, _settings(settings), lent_psd, psd_length, lengths, count, data, data_length, pdu,
                                    min(length, PDU_MAX + 1))
        _check(answer.refusal)
        self._state = answer.writer
        return Written(bytes(pdu)[:length], int(answer.ended))

    def write_all(self, packets: Iterable[Buffer], length: int, psd: Buffer = b"", settings: Settings = Settings()) -> Iterator[bytes]:
        """Writes all packets in PDUs of this length, each with this PSD and these settings.

        >>> len(list(Writer(0).write_all([bytes(100)] * 10, length=256)))
        5
        """
        _settings(settings)
        return self._all(_several("packets", packets), _number("length", length, 2**32), _plain("psd", psd), settings)

    def _all(self, packets: Iterator[Buffer], length: int, psd: bytes, settings: Settings) -> Iterator[bytes]:
        """The PDUs of :meth:`write_all`. A packet is looked at before the PDU is written that it could stand in."""
        waiting: List[bytes] = []
        while True:
            waiting.extend(_plain("packet", packet) for packet in islice(packets, PIECES_MAX + 1 - len(waiting)))
            if not waiting:
                return
            pdu, ended = self.write(waiting, length, psd, settings)
            del waiting[:ended]
            yield pdu


# ---- Receiver -----------------------------------------------------------------------------------------------------------------------------------


class Batch(NamedTuple):
    """What came of receiving several PDUs in one call."""

    #: How many PDUs were received, from the first on: all, or those before the first that was refused.
    taken: int
    #: Their logs, one after another.
    log: Log
    #: Why the PDU after them was refused, if one was.
    refusal: Optional[Refusal]


#: The most PDUs that :meth:`Receiver.receive_batch` hands over in one call.
_FRAME = 64


class Logged(NamedTuple):
    """What came of a PDU of a recording."""

    #: Its place in the recording, from 0.
    place: int
    #: "received", "lost" or "refused"; a refused one is marked lost.
    kind: str
    #: Why it was refused, if it was.
    refusal: Optional[Refusal]
    log: Log


class Receiver:
    """Joins the pieces of PDUs to packets, and logs packets, PSD and notes.

    ``crc_start`` is the value that the register of the CRCs starts with: the one that the PDUs were written with, for recordings off the air
    :data:`CRC_START_OFF_AIR`. ``entitled`` has the numbers of the programs that it is entitled to, each 0 to 7 and none twice; without it these are all
    eight, and no PDU is withheld. Refused with 5, and then with 22.

    One receiver is for one thread at a time; several can run at once.
    """

    def __init__(self, mode: int, stream: int = CORE, crc_start: int = CRC_START, entitled: Optional[Iterable[int]] = None) -> None:
        asked = (_byte("mode", mode), _byte("stream", stream), _byte("crc_start", crc_start))
        if entitled is None:
            answer = _c.barzhilup_open_receiver_with(*asked)
        else:
            programs, count = _listed("entitled", entitled, _u8, 255)
            answer = _c.barzhilup_open_receiver_entitled(*asked, programs, count)
        _check(answer.refusal)
        self._start(answer.receiver, _lent(_u8, CARRY_BYTES))

    def _start(self, state: Any, carry: Any) -> None:
        self._state = state
        self._carry = carry
        self._log = _lent(_u32, LOG_WORDS)

    @property
    def mode(self) -> int:
        return int(self._state.mode)

    @property
    def stream(self) -> int:
        return int(self._state.stream)

    @property
    def crc_start(self) -> int:
        return int(self._state.crc_start)

    @property
    def entitled(self) -> List[int]:
        """The programs that it is entitled to."""
        return [program for program in range(PROGRAM_MAX + 1) if self._state.entitled >> program & 1]

    @property
    def sequence(self) -> Optional[int]:
        """The last PDU's sequence, if it is known."""
        return int(self._state.sequence) if self._state.known else None

    @property
    def services(self) -> Optional[int]:
        """The applied services in force, if they are known: only the core streams of modes 1, 2, 3 and 13 keep them."""
        return int(self._state.services) if self._state.serviced else None

    @property
    def held(self) -> bytes:
        """The bytes that are held: the beginning of an unfinished packet."""
        return bytes(self._carry[:self._state.held])

    @property
    def held_number(self) -> Optional[int]:
        """The number of the packet that is held, if one is."""
        return int(self._state.number) if self._state.held else None

    @property
    def delivered(self) -> int:
        """How many packets were delivered since the opening: all that the logs have."""
        return int(self._state.delivered)

    @property
    def missing(self) -> int:
        """How many packets are missing between those delivered, by their numbers, which run from 0 to 63 and from 0 again.

        It is exact where PDUs come once and in turn, and fewer than 64 packets are missing between two delivered. What is missing before the first packet
        delivered, or after the last, is not counted.
        """
        return int(self._state.missing)

    @property
    def last_number(self) -> Optional[int]:
        """The number of the last packet delivered, if one was."""
        return int(self._state.last) if self._state.delivered else None

    def _step(self, answer: Any) -> Log:
        """Takes over the state of an accepted answer, and hands out its log."""
        _check(answer.refusal, answer.wrong_locator)
        self._state = answer.receiver
        return Log(array("I", self._log[:answer.words]))

    def receive(self, pdu: Buffer, marks: Iterable[int] = ()) -> Log:
        """Receives a PDU: corrects its header, joins its pieces to packets, and hands out the log of this call.

        ``marks`` has the places of header bytes that the demodulator guessed, each 0 to 95, at most eight and none twice. A bytearray, or a memoryview that can
        be written, is left with its header corrected; other bytes stay as they are.

        Refused with 3 to 12 or 27, and with 19 for marks.
        """
        lent, length = _copied("pdu", pdu)
        place = _place(pdu)
        places, count = _listed("marks", marks, _u8, 255)
        log = self._step(_c.barzhilup_receive_marked(self._state, self._carry, CARRY_BYTES, lent, length, places, count, self._log, LOG_WORDS))
        _give_back(place, bytes(lent)[:length])
        return log

    def receive_batch(self, pdus: Sequence[Buffer]) -> Batch:
        """Receives several PDUs in one call, up to the first that is refused: that one and those after it are left.

        Bytearrays that are received are left with their headers corrected, as by :meth:`receive`.
        """
        given = list(_several("pdus", pdus))
        plain, places = [_plain("pdu", pdu) for pdu in given], [_place(pdu) for pdu in given]
        taken, words = 0, array("I")
        room = LOG_WORDS * min(len(plain), _FRAME)
        log = _lent(_u32, room)
        # A long list goes in parts, so that its log does not take 33 KB for each PDU.
        for at in range(0, len(plain), _FRAME):
            data, length = _copied("pdus", b"".join(plain[at:at + _FRAME]))
            lengths, count = _listed("length", map(len, plain[at:at + _FRAME]), _size, 2**32)
            answer = _c.barzhilup_receive_batch(self._state, self._carry, CARRY_BYTES, data, length, lengths, count, log, room)
            self._state = answer.receiver
            taken += int(answer.taken)
            words.extend(log[:answer.words])
            corrected = BytesIO(bytes(data)[:length])
            for place, pdu in zip(places[at:taken], plain[at:taken]):
                _give_back(place, corrected.read(len(pdu)))
            if answer.refusal:
                return Batch(taken, Log(words), Refusal(answer.refusal, answer.wrong_locator))
        return Batch(taken, Log(words), None)

    def receive_pair(self, first: Buffer, second: Buffer) -> Log:
        """Receives two copies of a PDU as one: each piece from a copy in which its CRC is right. A copy that did not come is given as ``b""``.

        Refused with 4 to 12, 20 or 27.
        """
        (one, one_length), (two, two_length) = _copied("first", first), _copied("second", second)
        places = _place(first), _place(second)
        log = self._step(_c.barzhilup_receive_pair(self._state, self._carry, CARRY_BYTES, one, one_length, two, two_length, self._log, LOG_WORDS))
        _give_back(places[0], bytes(one)[:one_length])
        _give_back(places[1], bytes(two)[:two_length])
        return log

    def mark_lost(self) -> Log:
        """Marks a PDU lost, in its place in the row: what is held is dropped, the sequence and the applied services are forgotten. The counts stay."""
        return self._step(_c.barzhilup_mark_lost(self._state, self._log, LOG_WORDS))

    def log(self, pdus: Iterable[Buffer]) -> Iterator[Logged]:
        """Receives a recording as ``barzhilup log`` does: an empty record is a lost PDU, and a refused PDU is marked lost."""
        return self._logged(_several("pdus", pdus))

    def _logged(self, pdus: Iterator[Buffer]) -> Iterator[Logged]:
        """What :meth:`log` hands out."""
        for place, pdu in enumerate(pdus):
            if not _plain("pdu", pdu):
                yield Logged(place, "lost", None, self.mark_lost())
                continue
            try:
                logged = Logged(place, "received", None, self.receive(pdu))
            except Refusal as refusal:
                logged = Logged(place, "refused", refusal, self.mark_lost())
            yield logged

    def save(self) -> List[int]:
        """The receiver as words of 32 bits, for a program that goes on later: what :meth:`load` makes of them logs as this one would have."""
        words = _lent(_u32, SNAPSHOT_WORDS)
        answer = _c.barzhilup_save_receiver(self._state, self._carry, CARRY_BYTES, words, SNAPSHOT_WORDS)
        _check(answer.refusal)
        return list(words[:answer.words])

    @classmethod
    def load(cls, words: Iterable[int]) -> "Receiver":
        """The receiver that was saved as these words. PDUs that passed meanwhile are marked lost, one by one. Refused with 25.

        Words without kind 6 load a receiver whose counts begin at 0: so one goes on after 27. Older words without kind 4 load one that is entitled to nothing;
        the word 0x400000FF in its place entitles it to all programs.
        """
        lent, count = _lent_words("words", words)
        carry = _lent(_u8, CARRY_BYTES)
        answer = _c.barzhilup_load_receiver(lent, count, carry, CARRY_BYTES)
        _check(answer.refusal)
        receiver = cls.__new__(cls)
        receiver._start(answer.receiver, carry)
        return receiver

    def copy(self) -> "Receiver":
        """Another receiver that goes on from here; ``copy.copy`` and ``copy.deepcopy`` make one too, and so does ``pickle``."""
        return copy.copy(self)

    def __reduce__(self) -> Tuple[Any, ...]:
        rest = {name: value for name, value in self.__dict__.items() if name not in ("_state", "_carry", "_log")}
        return (type(self).load, (self.save(),), rest or None)


# ---- Core and enhanced side by side -------------------------------------------------------------------------------------------------------------


class JoinedPacket(NamedTuple):
    """A core packet, with the enhanced one of its number if there is one."""

    number: int
    core: bytes
    enhanced: Optional[bytes]


class Joined:
    """Two logs joined: its packets, in the core's order, when it is iterated.

    Words that were kept, in a file of ``barzhilup join --format words``, are such too. The words are looked at when they are read: others raise
    :class:`MalformedLog` at the first packet that does not fit. Each packet has to be as one of a log, and an enhanced one to follow a core packet of its
    number. That numbers rise is not looked at.
    """

    __slots__ = ("words",)

    #: The words, as C has them: :data:`JOINED_ENHANCED` is set in the first of an enhanced packet.
    words: "array[int]"

    def __init__(self, words: Iterable[int]) -> None:
        self.words = _words_of("words", words)

    def __iter__(self) -> Iterator[JoinedPacket]:
        place = 0
        core: Optional[Packet] = None
        while place < len(self.words):
            word = self.words[place]
            found = _packet(self.words, place, word & ~JOINED_ENHANCED)
            enhanced = bool(word & JOINED_ENHANCED)
            if found is None or (enhanced and (core is None or core.number != found[0].number)):
                raise MalformedLog(place, "two logs joined")
            packet, place = found
            if enhanced and core is not None:
                yield JoinedPacket(core.number, core.data, packet.data)
                core = None
                continue
            if core is not None:
                yield JoinedPacket(core.number, core.data, None)
            core = packet
        if core is not None:
            yield JoinedPacket(core.number, core.data, None)


def join(core: Union[Log, Iterable[int]], enhanced: Union[Log, Iterable[int]]) -> Joined:
    """Joins two logs of one frame, core and enhanced, by packet number. Refused with 23 or 24."""
    lent_core, core_count = _lent_words("core", getattr(core, "words", core))
    lent_enhanced, enhanced_count = _lent_words("enhanced", getattr(enhanced, "words", enhanced))
    room = core_count + enhanced_count
    result = _lent(_u32, room)
    answer = _c.barzhilup_join(lent_core, core_count, lent_enhanced, enhanced_count, result, room)
    _check(answer.refusal)
    return Joined(array("I", result[:answer.words]))


# ---- Latencies ----------------------------------------------------------------------------------------------------------------------------------


class LatencyTrial(NamedTuple):
    """What came of trying a latency."""

    ticks: int
    #: How many of them are dry, and the first, if any is.
    dry: int
    first_dry: Optional[int]
    #: The most packets that wait at a tick.
    most_waiting: int


def smallest_latency(mode: int, stream: int, counts: Iterable[int]) -> Optional[int]:
    """The smallest latency from 0 to 7 without a dry tick, on the counts of packets that end in each PDU; None if all have one. Refused with 5 or 21.

    >>> smallest_latency(1, CORE, [3, 5])
    1
    """
    lent, count = _listed("counts", counts, _u32, 2**32 - 1)
    answer = _c.barzhilup_smallest_latency(_byte("mode", mode), _byte("stream", stream), lent, count)
    _check(answer.refusal)
    return int(answer.latency) if answer.found else None


def try_latency(mode: int, stream: int, counts: Iterable[int], latency: int) -> LatencyTrial:
    """Tries one latency on the counts of packets that end in each PDU. Refused with 5 or 21."""
    lent, count = _listed("counts", counts, _u32, 2**32 - 1)
    answer = _c.barzhilup_try_latency(_byte("mode", mode), _byte("stream", stream), lent, count, _byte("latency", latency))
    _check(answer.refusal)
    return LatencyTrial(int(answer.ticks), int(answer.dry), int(answer.first_dry) if answer.dry else None, int(answer.most_waiting))


def waiting_packets(mode: int, stream: int, counts: Iterable[int], latency: int) -> List[int]:
    """The packets that wait at each tick, after any adding and before one is taken. Refused with 5 or 21."""
    lent, count = _listed("counts", counts, _u32, 2**32 - 1)
    room = 32 * count
    waiting = _lent(_u32, room)
    answer = _c.barzhilup_waiting_packets(_byte("mode", mode), _byte("stream", stream), lent, count, _byte("latency", latency), 0, waiting, room)
    _check(answer.refusal)
    return list(waiting[:answer.count])


# ---- Files --------------------------------------------------------------------------------------------------------------------------------------


@contextmanager
def _opened(source: Source, mode: str) -> Iterator[IO[Any]]:
    """A file that is opened here by its name, and closed, or one that came open."""
    if hasattr(source, "read") or hasattr(source, "write"):
        yield source  # type: ignore[misc]
        return
    with open(source, mode) as file:  # type: ignore[arg-type]
        yield file


def _read(file: IO[Any], count: int) -> bytes:
    """So many bytes of a file, or all that are left. A read of a pipe may hand out fewer than are asked for, and more by the next."""
    data = b""
    while len(data) < count:
        part = file.read(count - len(data))
        if part is None:
            raise BlockingIOError("a file that does not wait for its bytes cannot be read")
        if not part:
            break
        data += _plain("what the file reads", part)
    return data


def _write(file: IO[Any], data: bytes) -> None:
    """Writes these bytes. A write to a pipe may take fewer than all."""
    while data:
        taken = file.write(data)
        data = b"" if taken is None else data[taken:]


def read_records(source: Source) -> Iterator[bytes]:
    """The records of a file of packets or PDUs, as the program reads and writes them: a length in two bytes, low byte first, and then so many bytes.

    An empty record of a file of PDUs is a PDU marked lost. A file that ends inside a record raises :class:`MalformedFile` there.
    """
    with _opened(source, "rb") as file:
        place = 0
        while True:
            head = _read(file, 2)
            if not head:
                return
            length = int.from_bytes(head, "little")
            record = _read(file, length) if len(head) == 2 else b""
            if len(head) < 2 or len(record) < length:
                raise MalformedFile("the file ends inside record {}".format(place))
            yield record
            place += 1


def _record(record: Buffer) -> bytes:
    """A record as it stands in a file."""
    plain = _plain("record", record)
    return _number("the length of a record", len(plain), 65535).to_bytes(2, "little") + plain


def write_records(target: Source, records: Iterable[Buffer]) -> int:
    """Writes a file of packets or PDUs; answers how many records. A file of this name that is there is not overwritten: :class:`FileExistsError`.

    A record has at most 65,535 bytes, others are a :class:`ValueError`. The records of a list or a tuple are looked at before the file is made; of records
    that are made as they are written, those before one that cannot be written stay in the file.
    """
    coming = _several("records", records)
    if isinstance(records, (list, tuple)):
        for record in records:
            _record(record)
    count = 0
    with _opened(target, "xb") as file:
        for record in coming:
            _write(file, _record(record))
            count += 1
    return count


def read_words(source: Source) -> "array[int]":
    """The words of a file of ``barzhilup log --format words``, or of a record of ``--format records``: each in four bytes, low byte first."""
    if isinstance(source, (bytes, bytearray, memoryview)):
        data = bytes(source)
    else:
        with _opened(source, "rb") as file:
            data = file.read()
    if len(data) % 4:
        raise MalformedFile("the words end inside one")
    words = array("I")
    words.frombytes(data)
    if sys.byteorder == "big":
        words.byteswap()
    return words


class Line(NamedTuple):
    """A line of the CSV that ``barzhilup log --format csv`` writes; None for an empty column."""

    #: The PDU, from 0.
    pdu: int
    #: "received", "lost", "refused", "packet", "psd" or "note".
    kind: str
    #: Of a received PDU that came as two copies, where its pieces are from: "first", "second", "both" or "either".
    copy: Optional[str] = None
    #: Header bytes corrected, of a received PDU.
    corrected: Optional[int] = None
    #: The number of a refusal.
    refusal: Optional[int] = None
    #: The number of a packet, 0 to 63.
    packet: Optional[int] = None
    #: Bytes of the PDU, the packet or the PSD.
    length: Optional[int] = None
    #: The piece of a note that is on one.
    piece: Optional[int] = None
    #: The number of a note, 1 to 8.
    note: Optional[int] = None
    #: The cause of a refusal or a note, in words.
    cause: Optional[str] = None
    #: The counts of the receiver, on the lines of PDUs.
    delivered: Optional[int] = None
    missing: Optional[int] = None
    #: The CRC-32 of a packet's or PSD's bytes, in 8 hexadecimal digits.
    crc32: Optional[str] = None
    #: What of PSD is text.
    text: Optional[str] = None


class Csv(NamedTuple):
    """The CSV of a packet log. ``pandas.DataFrame(read_csv("log.csv").lines)`` is a table of it."""

    lines: List[Line]
    #: Whether the last line is there: every PDU of the input was logged.
    whole: bool


_CSV_COLUMNS = "pdu,kind,copy,corrected,refusal,packet,length,piece,note,cause,delivered,missing,crc32,text,pdus".split(",")
#: The columns of older logs; the last two are the loss column, which yet older ones lack.
_CSV_OLDER = "pdu,kind,number,length,cause,delivered,missing".split(",")
_CSV_PDUS = ("received", "lost", "refused")
_CSV_KINDS = _CSV_PDUS + ("packet", "psd", "note")
#: What the column ``number`` of older logs is, by the line's kind.
_CSV_NUMBERS = {"received": "corrected", "refused": "refusal", "packet": "packet", "note": "piece"}
#: The notes that are on a piece.
_CSV_ON_PIECE = (2, 3, 5, 7)
#: The longest line, in bytes, without its end.
_CSV_LINE_MAX = 600


def _csv_number(text: str) -> int:
    """A decimal number of 32 bits: digits and nothing else."""
    if not (text.isascii() and text.isdigit()) or int(text) > 2**32 - 1:
        raise MalformedFile("{!r} is no number of 32 bits".format(text))
    return int(text)


def _csv_optional(text: str) -> Optional[int]:
    return _csv_number(text) if text else None


def _csv_parts(line: str) -> List[str]:
    """What of a line stands between commas, semicolons or tabs, whichever comes first. Between two quotes they are characters as any other."""
    separator, quoted, parts = None, False, [""]
    for letter in line:
        quoted ^= letter == '"'
        if separator is None and not quoted and letter in ",;\t":
            separator = letter
        if letter == separator and not quoted:
            parts.append("")
        else:
            parts[-1] += letter
    return parts


def _csv_fields(line: str) -> List[str]:
    """The fields of a line, without empty ones at its end."""
    if '"' in line or ";" in line or "\t" in line:
        fields = _csv_parts(line)
    else:
        fields = line.split(",")
    while fields and fields[-1] in ("", '""'):
        fields.pop()
    return [field[1:-1].replace('""', '"') if len(field) > 1 and field[0] == field[-1] == '"' else field for field in fields]


def _csv_older(fields: List[str], kind: str) -> Dict[str, Any]:
    """The columns of a line of an older log, by their names."""
    columns: Dict[str, Any] = {"length": _csv_optional(fields[3])}
    number, cause = _csv_optional(fields[2]), fields[4]
    if kind in _CSV_NUMBERS:
        columns[_CSV_NUMBERS[kind]] = number
    if kind == "received":
        words = cause.split(" ")
        columns["copy"] = words[0] if len(words) == 2 and words[1] in ("copy", "copies") else None
    else:
        columns["cause"] = cause or None
    if kind == "note":
        columns["note"] = next((note for note in range(1, 9) if note_text(note) == cause), None)
        if columns["note"] not in _CSV_ON_PIECE:
            columns["piece"] = None
    return columns


def _csv_full(fields: List[str], kind: str) -> Dict[str, Any]:
    """The columns of a line, by their names; those of other kinds are left out."""
    columns: Dict[str, Any] = {name: fields[_CSV_COLUMNS.index(name)] or None for name in ("copy", "cause", "crc32", "text")}
    for name in {"length", _CSV_NUMBERS.get(kind, "length")}:
        columns[name] = _csv_optional(fields[_CSV_COLUMNS.index(name)])
    if kind == "note":
        columns["note"] = _csv_number(fields[_CSV_COLUMNS.index("note")])
    return columns


def _csv_line(fields: List[str], counted: bool) -> Line:
    """A line of a PDU, or of an entry of its log, from its fields. One of an older log has nothing after the seventh, and every other has something there."""
    if not 2 <= len(fields) <= len(_CSV_COLUMNS):
        raise MalformedFile("{} columns".format(len(fields)))
    older = not counted or len(fields) <= len(_CSV_OLDER)
    if not counted:
        fields = fields[:4] + [",".join(fields[4:])]
    fields = fields + [""] * (len(_CSV_COLUMNS) - len(fields))
    kind = fields[1]
    if kind not in _CSV_KINDS:
        raise MalformedFile("no kind {!r}".format(kind))
    columns = (_csv_older if older else _csv_full)(fields, kind)
    if kind in ("received", "packet") and columns[_CSV_NUMBERS[kind]] is None:
        raise MalformedFile("no number")
    if kind == "packet" and columns["packet"] > 63:
        raise MalformedFile("a packet's number is over 63")
    counts = fields[5:7] if older else fields[10:12]
    if kind not in _CSV_PDUS and any(counts):
        raise MalformedFile("counts that are not on the line of a PDU")
    delivered, missing = [_csv_number(count) for count in counts] if counted and kind in _CSV_PDUS else [None, None]
    columns.update(pdu=_csv_number(fields[0]), kind=kind, delivered=delivered, missing=missing)
    return Line(**columns)


class _Drive:
    """The CSV of a log, line by line."""

    def __init__(self, first: str) -> None:
        columns = _csv_fields(first[1:] if first.startswith("\ufeff") else first)
        if columns not in (_CSV_COLUMNS, _CSV_OLDER, _CSV_OLDER[:5]):
            raise MalformedFile("the first line is not {}".format(",".join(_CSV_COLUMNS)))
        self.counted = len(columns) > 5
        self.lines: List[Line] = []
        self.whole = False
        self.pdus, self.delivered, self.missing = 0, 0, 0

    def take(self, text: str, ended: bool) -> None:
        """Takes a line. One that lacks its end, with which the file is cut, is left out if it may say less than it did."""
        try:
            fields = _csv_fields(text)
            pdus = self._last(fields)
            line = _csv_line(fields, self.counted) if pdus is None else None
        except MalformedFile:
            if ended or self.whole:
                raise
            return
        if not ended and not self.whole and (pdus < self.pdus if pdus is not None else self.counted and line is not None and line.kind in _CSV_PDUS):
            return
        if self.whole:
            raise MalformedFile("there is more after the last line")
        if line is not None:
            self._take(line)
        elif pdus != self.pdus:
            raise MalformedFile("the last line has another count of PDUs")
        else:
            self.whole = True

    def _last(self, fields: List[str]) -> Optional[int]:
        """How many PDUs the last line tells; None of other lines."""
        if fields[:2] != ["", "end"]:
            return None
        older = not self.counted or len(fields) <= len(_CSV_OLDER)
        length, count, cause = (5, 2, 4) if older else (15, 14, 9)
        if len(fields) != length or fields[cause] != "whole":
            raise MalformedFile("not as the last line is")
        return _csv_number(fields[count])

    def _take(self, line: Line) -> None:
        """Takes the line of the next PDU, or one of an entry of the last PDU's log."""
        if line.kind not in _CSV_PDUS:
            if line.pdu != self.pdus - 1:
                raise MalformedFile("not of the PDU before it")
        elif line.pdu != self.pdus:
            raise MalformedFile("PDU {} is not the next".format(line.pdu))
        else:
            self.pdus += 1
        if line.delivered is not None and line.missing is not None:
            if line.delivered < self.delivered or line.missing < self.missing:
                raise MalformedFile("a count falls")
            self.delivered, self.missing = line.delivered, line.missing
        self.lines.append(line)


def read_csv(source: Source) -> Csv:
    """Reads the CSV that ``barzhilup log --format csv`` writes.

    A log that was cut, by a kill or a full disk, is read as far as it goes, and is not whole; the line that it ends in, if that is cut, is left out. Anything
    else that ``barzhilup coverage`` does not take raises :class:`MalformedFile`: another first line; a line of over 600 bytes, of a kind that there is none
    of, or with more columns than there are; a number that is not decimal or does not fit 32 bits, or is missing on a line of a received PDU, a packet or a
    note; a packet's number over 63; PDUs that do not count from 0, or entries of another than the last; counts that are missing on the line of a PDU, stand on
    others, or fall; a last line with another count of PDUs, and anything after it. Lengths and causes are not held to anything else.

    A log that a spreadsheet saved is taken too: with a mark of UTF-8, semicolons or tabs, fields in quotes, and empty fields at a line's end or without them.
    Lines of older logs, with the column ``number``, are told by the columns that the others have; logs without ``delivered`` and ``missing`` have None there.
    """
    with _opened(source, "rb") as file:
        data = file.read()
    rows = (data.encode("utf-8", "surrogateescape") if isinstance(data, str) else bytes(data)).split(b"\n")
    drive = None
    for number, row in enumerate(rows, start=1):
        ended = number < len(rows)
        if not ended and not row:
            break
        try:
            if len(row) > _CSV_LINE_MAX:
                raise MalformedFile("over {} bytes".format(_CSV_LINE_MAX))
            text = (row[:-1] if row.endswith(b"\r") else row).decode("utf-8", "surrogateescape")
            if drive is None:
                drive = _Drive(text)
            else:
                drive.take(text, ended)
        except MalformedFile as fault:
            raise MalformedFile("line {}: {}".format(number, fault)) from None
    if drive is None:
        raise MalformedFile("the file is empty")
    return Csv(drive.lines, drive.whole)
