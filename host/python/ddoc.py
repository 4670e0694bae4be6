"""The library's C interface (include/ddoc.h) for Python, by ctypes.

The shared library is found by the environment variable DDOC_SO, else as target/host/libddoc.so of this repository.
A function named call_.. is the plain call, which lends memory and shows all of it afterwards; the others raise Refused.
"""

import ctypes
import os
import pathlib
from ctypes import c_bool, c_char_p, c_size_t, c_uint8, c_uint16, c_uint32, c_void_p

ROOT = pathlib.Path(__file__).resolve().parents[2]
# A lent text has 1,000 bytes or more, a lent list 64 records or more.
TEXT_ROOM = 1000
LIST_ROOM = 64
# A lent day file has 32,768 bytes or more.
FILE_ROOM = 32768
# Data and check words of the largest symbol with a single block.
LONGEST_LIST = 242


class Answer(ctypes.Structure):
    """What comes back: number 0 is acceptance, any other a refusal of document 01 or 02."""

    _fields_ = [(name, c_size_t) for name in ("number", "place", "length", "used")]


class Field(ctypes.Structure):
    """A field's row, whether it is cut, and where its data stand in a slice."""

    _fields_ = [("row", c_uint16), ("cut", c_bool), ("start", c_uint32), ("length", c_uint32)]


class Header(ctypes.Structure):
    """The header's parts, in the order of the text. Those that the version lacks are zero after reading."""

    _fields_ = [
        ("version", c_uint8 * 2),
        ("authority", c_uint8 * 4),
        ("certificate", c_uint8 * 4),
        ("issue_day", c_uint16),
        ("signing_day", c_uint16),
        ("type", c_uint8 * 2),
        ("perimeter", c_uint8 * 2),
        ("country", c_uint8 * 2),
    ]


class Message(ctypes.Structure):
    """What comes back from reading a text; the records are in the lent list."""

    _fields_ = [(name, c_size_t) for name in ("number", "place", "fields", "signature_length", "signed_length")]
    _fields_ += [("header", Header), ("signature", c_uint8 * 132)]


class Part(ctypes.Structure):
    """A part of a lent slice; refused: start and length 0."""

    _fields_ = [(name, c_size_t) for name in ("number", "place", "which", "start", "length")]


class Tally(ctypes.Structure):
    """Texts counted: by the types 00, 01, 02, B0, B1, all other types, and refusals by number."""

    _fields_ = [("types", c_uint32 * 5), ("other", c_uint32), ("refused", c_uint32 * 256)]

    def lines(self):
        """What the program `week` prints of it."""
        named = [(f"type {name}", count) for name, count in zip(("00", "01", "02", "B0", "B1"), self.types)]
        named += [("other", self.other)] + [(f"refused {number}", count) for number, count in enumerate(self.refused)]
        return [f"{name} {count}" for name, count in named if count > 0]


class Refused(Exception):
    """A refusal of document 01 or 02: its number and its place."""

    def __init__(self, number, place):
        super().__init__(f"refused {number} at {place}")
        self.number = number
        self.place = place


class LibraryMissing(Exception):
    """The shared library cannot be loaded, or lacks a function; the message says how to build it."""


# Each function's result and arguments.
FUNCTIONS = {
    "ddoc_read_symbol": (Answer, [c_char_p, c_size_t, c_void_p, c_size_t]),
    "ddoc_write_symbol": (Answer, [c_char_p, c_size_t, c_size_t, c_void_p, c_size_t, c_void_p, c_size_t]),
    "ddoc_check_words": (Answer, [c_char_p, c_size_t, c_void_p, c_size_t]),
    "ddoc_read_text": (Message, [c_char_p, c_size_t, c_void_p, c_size_t]),
    "ddoc_write_text": (
        Answer,
        [Header, c_void_p, c_size_t, c_char_p, c_size_t, c_char_p, c_size_t, c_void_p, c_size_t],
    ),
    "ddoc_conformity": (Answer, [c_uint8, c_uint8, c_void_p, c_size_t]),
    "ddoc_day_add": (Answer, [c_void_p, c_size_t, c_size_t, c_char_p, c_size_t]),
    "ddoc_day_withdraw": (Answer, [c_void_p, c_size_t, c_size_t, c_size_t]),
    "ddoc_day_fetch": (Part, [c_void_p, c_size_t, c_size_t, c_size_t]),
    "ddoc_day_squeeze": (Answer, [c_void_p, c_size_t, c_size_t, c_void_p, c_size_t, c_void_p, c_size_t]),
    "ddoc_tally_add": (Answer, [c_void_p, c_char_p, c_size_t]),
}

_library = None


def function(name):
    """The library's function of that name, loaded at its first use."""
    global _library
    path = pathlib.Path(os.environ.get("DDOC_SO") or ROOT / "target" / "host" / "libddoc.so")
    try:
        _library = _library or ctypes.CDLL(str(path.resolve()))
        found = getattr(_library, name)
    except (OSError, AttributeError) as fault:
        raise LibraryMissing(f"the library cannot be loaded: {fault}\nBuild it with host/build, or name another in DDOC_SO.") from None
    found.restype, found.argtypes = FUNCTIONS[name]
    return found


def accepted(answer):
    if answer.number != 0:
        raise Refused(answer.number, answer.place)


def lend(lent, room):
    """A copy of the bytes `lent`, of which the first `room` are to be lent."""
    if room > len(lent):
        raise ValueError("the room is larger than what is lent")
    return ctypes.create_string_buffer(bytes(lent), max(len(lent), 1))


def call(codewords, lent, room):
    """Reads a symbol into the first `room` bytes of a copy of `lent`: the answer and the whole copy afterwards."""
    text = lend(lent, room)
    answer = function("ddoc_read_symbol")(bytes(codewords), len(codewords), text, room)
    return answer, text.raw[: len(lent)]


def read_symbol(codewords, room=TEXT_ROOM):
    """The text as bytes, and the count of codewords before the first pad. Raises Refused."""
    answer, text = call(codewords, bytes(room), room)
    accepted(answer)
    return text[: answer.length], answer.used


def call_write_symbol(text, largest, work, work_room, lent, room):
    """Writes a symbol, with the first `work_room` sixteen-bit numbers of a copy of the bytes `work` and the first `room` bytes of a
    copy of `lent`: the answer and both whole copies afterwards."""
    numbers, symbol = lend(work, 2 * work_room), lend(lent, room)
    answer = function("ddoc_write_symbol")(bytes(text), len(text), largest, numbers, work_room, symbol, room)
    return answer, numbers.raw[: len(work)], symbol.raw[: len(lent)]


def write_symbol(text, largest=1558):
    """The codewords of the smallest symbol as bytes, padding included, and their count before the first pad. Raises Refused."""
    answer, _, symbol = call_write_symbol(text, largest, bytes(2 * 8192), 8192, bytes(1558), 1558)
    accepted(answer)
    return symbol[: answer.length], answer.used


def call_check_words(data, lent, room):
    """Puts data and check words into the first `room` bytes of a copy of `lent`: the answer and the whole copy afterwards."""
    words = lend(lent, room)
    answer = function("ddoc_check_words")(bytes(data), len(data), words, room)
    return answer, words.raw[: len(lent)]


def check_words(data):
    """The data codewords and behind them their check words, as bytes. Raises Refused."""
    answer, words = call_check_words(data, bytes(LONGEST_LIST), LONGEST_LIST)
    accepted(answer)
    return words[: answer.length]


def call_read_text(text, lent, room):
    """Reads a text; `lent` are the bytes of records, of which `room` records are lent: the message, the bytes afterwards."""
    size = ctypes.sizeof(Field)
    fields = lend(lent, size * room)
    message = function("ddoc_read_text")(bytes(text), len(text), fields, room)
    return message, fields.raw[: len(lent)]


def read_text(text, room=LIST_ROOM):
    """The message and its fields, which point into the text. Raises Refused."""
    message, after = call_read_text(text, bytes(ctypes.sizeof(Field) * room), room)
    accepted(message)
    return message, fields_in(after, message.fields)


def fields_in(lent, count):
    return list((Field * count).from_buffer_copy(lent))


def call_write_text(header, fields, data, signature, lent, room):
    """Writes a message whose fields point into `data` into the first `room` bytes of a copy of `lent`."""
    out = lend(lent, room)
    answer = function("ddoc_write_text")(
        header, (Field * len(fields))(*fields), len(fields), bytes(data), len(data), bytes(signature), len(signature), out, room
    )
    return answer, out.raw[: len(lent)]


def write_text(header, fields, data, signature, room=TEXT_ROOM):
    """The text as bytes. Raises Refused."""
    answer, text = call_write_text(header, fields, data, signature, bytes(room), room)
    accepted(answer)
    return text[: answer.length]


def call_conformity(kind, fields):
    """Holds fields against a type of two bytes: the answer and the list's bytes afterwards."""
    first, second = kind
    lent = (Field * len(fields))(*fields)
    answer = function("ddoc_conformity")(first, second, lent, len(fields))
    return answer, bytes(lent)


def conformity(kind, fields):
    """Nothing if the fields conform to the table of the type, given as two bytes. Raises Refused."""
    accepted(call_conformity(kind, fields)[0])


class DayFile:
    """A day file in a slice of `room` bytes: `file` at its front, and behind it the byte `behind`."""

    def __init__(self, file=bytes(8), room=FILE_ROOM, behind=0):
        self.slice = ctypes.create_string_buffer(bytes(file).ljust(room, bytes([behind])), max(len(file), room, 1))
        self.room = room
        self.length = len(file)

    def call_add(self, text):
        return function("ddoc_day_add")(self.slice, self.room, self.length, bytes(text), len(text))

    def call_withdraw(self, number):
        return function("ddoc_day_withdraw")(self.slice, self.room, self.length, number)

    def call_fetch(self, number):
        return function("ddoc_day_fetch")(self.slice, self.room, self.length, number)

    def call_squeeze(self, olds, old_room, news, new_room):
        """With the first so many entries of two ctypes arrays of thirty-two-bit numbers."""
        return function("ddoc_day_squeeze")(self.slice, self.room, self.length, olds, old_room, news, new_room)

    def add(self, text):
        """The number of the new record. Raises Refused."""
        answer = self.call_add(text)
        accepted(answer)
        self.length = answer.length
        return answer.used

    def withdraw(self, number):
        """Raises Refused."""
        accepted(self.call_withdraw(number))

    def fetch(self, number):
        """The text as bytes. Raises Refused."""
        part = self.call_fetch(number)
        accepted(part)
        return self.slice.raw[part.start : part.start + part.length]

    def squeeze(self):
        """The old numbers of the live records; their new ones count from 0. Raises Refused."""
        most = FILE_ROOM // 7
        olds, news = (c_uint32 * most)(), (c_uint32 * most)()
        answer = self.call_squeeze(olds, most, news, most)
        accepted(answer)
        self.length = answer.length
        return list(olds[: answer.used])


def tally_add(tally, file):
    """Counts the live texts of a day file. Raises Refused, and then the tally is as it was."""
    accepted(function("ddoc_tally_add")(ctypes.byref(tally), bytes(file), len(file)))
