"""Runs stored cases through the library: `vectors.py [FILE..]`, by default the files of host/data. A file is one test.

A file named .jsonl holds a case a line, {"op", "in", "out"}; any other holds arrays by kind, of cases of reading, {"codewords", ..},
and of writing a symbol, {"text_hex", ..}, with what has to come back beside it.
"op" is "read_symbol", with {"codewords", "lent"} in and {"text_hex"} with or without "before_pad" out; "write_symbol", with
{"text_hex", "max_capacity", "work_len", "out_len"} in and {"symbol", "before_pad", "work"} out; "check_words", with {"data", "out_len"}
in and {"list"} out; "read_text", with
{"text_hex", "fields_len"} in and {"header", "records", "signed", "signature_hex"} out, a record being [row, start, length, cut];
"write_text", with {"header", "records", "slice_hex", "signature_hex", "out_len"} in and {"text_hex"} out; "conformity", with
{"type", "records"} in and {"conforms"} out; or "day_file", with a file ("start_hex") in a slice of "slice_len" bytes, "behind" it one byte
again and again, and "steps", calls in turn, each with what comes "out" and the "sha256" of the whole slice afterwards; a step "poke"
changes bytes from outside. A refusal is {"refused", "place"}.
"""

import ctypes
import hashlib
import json
import pathlib
import random
import sys

import ddoc

DATA = pathlib.Path(__file__).resolve().parents[1] / "data"
STORED = [
    "read_symbol.jsonl",
    "write_symbol.jsonl",
    "tricky.json",
    "check_words.jsonl",
    "read_text.jsonl",
    "write_text.jsonl",
    "conformity.jsonl",
    "day_file.jsonl",
]
# Bytes behind what is lent that nobody may touch: five records.
GUARD = 60
RECORD = ctypes.sizeof(ddoc.Field)


class BadFile(Exception):
    """A file that cannot be used as cases: no test result, but a message and exit status 2."""


def parse(words, where):
    try:
        return json.loads(words)
    except ValueError as fault:
        raise BadFile(f"{where}: not JSON: {fault}") from None


def refusal(out):
    """What has to come back for a refusal."""
    return {"number": out["refused"], "place": out["place"], "length": 0, "used": 0}


def differences(answer, right):
    """Which numbers of the answer are wrong, in words."""
    return [
        f"{name} is {getattr(answer, name)}, should be {right[name]}"
        for name in right
        if getattr(answer, name) != right[name]
    ]


def text_differences(text, after, lent):
    """The text has to stand at the beginning of the lent bytes, and what was lent behind it."""
    found = []
    if after[: len(text)] != text:
        found.append(f"text is {after[:len(text)].hex()}, should be {text.hex()}")
    if after[len(text) :] != lent[len(text) :]:
        found.append("the lent bytes behind the text were touched" if text else "the lent bytes were touched")
    return found


def fields_of(records):
    return [ddoc.Field(row, cut, start, length) for row, start, length, cut in records]


def header_of(parts):
    """The header with these parts; those that are not given are zero."""
    header = ddoc.Header(issue_day=parts["issue"], signing_day=parts["signing"])
    for name in ("version", "authority", "certificate", "type", "perimeter", "country"):
        value = parts.get(name, "").encode("latin-1")
        getattr(header, name)[: len(value)] = list(value)
    return header


class Reading:
    """A case of reading codewords into a lent text."""

    def __init__(self, given, out):
        self.codewords = bytes(list(given["codewords"]))
        self.room = int(given.get("lent", 1000))
        if "refused" in out:
            self.text = b""
            self.right = refusal(out)
            return
        self.text = bytes.fromhex(out["text_hex"])
        self.right = {"number": 0, "place": 0, "length": len(self.text)}
        if "before_pad" in out:
            self.right["used"] = out["before_pad"]

    def __str__(self):
        return f"codewords {list(self.codewords)}, room {self.room}"

    def faults(self, dice):
        """What is wrong with the library's answer, in words; none if it is right."""
        lent = dice.randbytes(self.room + GUARD)
        answer, after = ddoc.call(self.codewords, lent, self.room)
        return differences(answer, self.right) + text_differences(self.text, after, lent)


class Writing:
    """A case of writing a text into a symbol."""

    def __init__(self, given, out):
        self.text = bytes.fromhex(given["text_hex"])
        self.largest = int(given.get("max_capacity", 1558))
        self.work_room = int(given.get("work_len", 8192))
        self.room = int(given.get("out_len", 1558))
        self.zeroed = {"zeroed": 8192, "untouched": 0}[out.get("work", "zeroed")]
        if "refused" in out:
            self.symbol, self.right = b"", refusal(out)
            return
        self.symbol = bytes(list(out["symbol"]))
        self.right = {"number": 0, "place": 0, "length": len(self.symbol), "used": out["before_pad"]}

    def __str__(self):
        return f"text {self.text}, largest {self.largest}, work slice {self.work_room}, room {self.room}"

    def faults(self, dice):
        """What is wrong with the library's answer, in words; none if it is right."""
        lent, work = dice.randbytes(self.room + GUARD), dice.randbytes(2 * (self.work_room + GUARD))
        answer, work_after, after = ddoc.call_write_symbol(self.text, self.largest, work, self.work_room, lent, self.room)
        found = differences(answer, self.right) + text_differences(self.symbol, after, lent)
        if any(work_after[: 2 * self.zeroed]):
            found.append("the work slice's first 8,192 entries are not zero")
        if work_after[2 * self.zeroed :] != work[2 * self.zeroed :]:
            found.append("entries of the work slice were touched")
        return found


class CheckWords:
    """A case of printing data codewords with their check words into a lent list."""

    def __init__(self, given, out):
        self.data = bytes(list(given["data"]))
        self.room = int(given["out_len"])
        if "refused" in out:
            self.list, self.right = b"", refusal(out)
            return
        self.list = bytes(list(out["list"]))
        self.right = {"number": 0, "place": 0, "length": len(self.list), "used": 0}

    def __str__(self):
        return f"data {list(self.data)}, room {self.room}"

    def faults(self, dice):
        """What is wrong with the library's answer, in words; none if it is right."""
        lent = dice.randbytes(self.room + GUARD)
        answer, after = ddoc.call_check_words(self.data, lent, self.room)
        return differences(answer, self.right) + text_differences(self.list, after, lent)


class TextReading:
    """A case of reading a text into a message and a lent list of records."""

    def __init__(self, given, out):
        self.text = bytes.fromhex(given["text_hex"])
        self.room = int(given["fields_len"])
        if "refused" in out:
            self.fields, self.header, self.signature = [], ddoc.Header(), b""
            self.right = {"number": out["refused"], "place": out["place"], "signed_length": 0}
        else:
            self.fields, self.header = fields_of(out["records"]), header_of(out["header"])
            self.signature = bytes.fromhex(out["signature_hex"])
            self.right = {"number": 0, "place": 0, "signed_length": out["signed"]}
        self.right |= {"fields": len(self.fields), "signature_length": len(self.signature)}

    def __str__(self):
        return f"text {self.text}, room {self.room}"

    def faults(self, dice):
        """What is wrong with the library's answer, in words; none if it is right."""
        lent = bytearray(dice.randbytes(RECORD * self.room + GUARD))
        # A cut mark is 0 or 1.
        lent[2::RECORD] = [mark & 1 for mark in lent[2::RECORD]]
        message, after = ddoc.call_read_text(self.text, lent, self.room)
        found = differences(message, self.right)
        if bytes(message.header) != bytes(self.header):
            found.append(f"header is {bytes(message.header).hex()}, should be {bytes(self.header).hex()}")
        if bytes(message.signature) != self.signature.ljust(len(message.signature), b"\0"):
            found.append(f"signature is {bytes(message.signature).hex()}, should be {self.signature.hex()} and zeros")
        for at, (field, right) in enumerate(zip(ddoc.fields_in(after, len(self.fields)), self.fields)):
            parts = {name: getattr(right, name) for name, _ in right._fields_}
            found += [f"record {at}: {fault}" for fault in differences(field, parts)]
        behind = RECORD * len(self.fields)
        if after[behind:] != lent[behind:]:
            found.append("the lent list was touched behind the last record")
        return found


class TextWriting:
    """A case of writing a message into a lent output."""

    def __init__(self, given, out):
        self.header, self.fields = header_of(given["header"]), fields_of(given["records"])
        self.data, self.signature = bytes.fromhex(given["slice_hex"]), bytes.fromhex(given["signature_hex"])
        self.room = int(given["out_len"])
        if "refused" in out:
            self.text, self.right = b"", refusal(out)
        else:
            self.text = bytes.fromhex(out["text_hex"])
            self.right = {"number": 0, "place": 0, "length": len(self.text), "used": 0}

    def __str__(self):
        records = [(field.row, field.start, field.length, field.cut) for field in self.fields]
        return f"header {bytes(self.header)}, records {records}, data {self.data}, signature {self.signature.hex()}, room {self.room}"

    def faults(self, dice):
        """What is wrong with the library's answer, in words; none if it is right."""
        lent = dice.randbytes(self.room + GUARD)
        answer, after = ddoc.call_write_text(self.header, self.fields, self.data, self.signature, lent, self.room)
        return differences(answer, self.right) + text_differences(self.text, after, lent)


class Conformity:
    """A case of holding a message's fields against the table of its type."""

    def __init__(self, given, out):
        self.kind = given["type"].encode("ascii")
        if len(self.kind) != 2:
            raise ValueError("a type has two characters")
        self.fields = fields_of(given["records"])
        if "refused" in out:
            self.right = refusal(out)
            return
        if out["conforms"] is not True:
            raise ValueError("neither refused nor conforming")
        self.right = {"number": 0, "place": 0, "length": 0, "used": 0}

    def __str__(self):
        return f"type {self.kind.decode()}, rows {[field.row for field in self.fields]}"

    def faults(self, dice):
        """What is wrong with the library's answer, in words; none if it is right."""
        answer, after = ddoc.call_conformity(self.kind, self.fields)
        found = differences(answer, self.right)
        if after != b"".join(bytes(field) for field in self.fields):
            found.append("the list was touched")
        return found


class Steps:
    """A case of calls in turn on one day file."""

    def __init__(self, given, out):
        self.start, self.room, self.behind = bytes.fromhex(given["start_hex"]), given["slice_len"], given["behind"]
        self.steps = [(step["call"], step, step["out"], step["sha256"]) for step in given["steps"]]
        if not self.steps:
            raise ValueError("no steps")

    def __str__(self):
        return f"file {self.start.hex()}, room {self.room}, {len(self.steps)} steps"

    def faults(self, dice):
        """What is wrong with the library's answers, in words; none if they are right."""
        file = ddoc.DayFile(self.start, self.room, self.behind)
        found = []
        for at, (call, step, out, sha256) in enumerate(self.steps):
            faults = getattr(self, call)(file, step, out)
            if hashlib.sha256(file.slice.raw).hexdigest() != sha256:
                faults.append("the slice is not what it should be")
            found += [f"step {at}, {call}: {fault}" for fault in faults]
        return found

    def poke(self, file, step, out):
        values = bytes.fromhex(step["values_hex"]) if "values_hex" in step else bytes([step["value"]])
        file.slice[step["at"] : step["at"] + len(values)] = values
        file.length = step.get("set_length", file.length)
        return []

    def add(self, file, step, out):
        answer = file.call_add(bytes.fromhex(step["text_hex"]))
        if "refused" in out:
            return differences(answer, refusal(out))
        file.length = answer.length
        return differences(answer, {"number": 0, "place": 0, "length": out["length"], "used": out["number"]})

    def withdraw(self, file, step, out):
        right = refusal(out) if "refused" in out else {"number": 0, "place": 0, "length": file.length, "used": 0}
        return differences(file.call_withdraw(step["number"]), right)

    def fetch(self, file, step, out):
        start, length = (out["start"], out["length"]) if "start" in out else (0, 0)
        right = {"number": out.get("refused", 0), "place": out.get("place", 0), "which": 0, "start": start, "length": length}
        return differences(file.call_fetch(step["number"]), right)

    def squeeze(self, file, step, out):
        rooms = (step["olds_len"], step["news_len"])
        lent = [[0xA5A5A5A5] * (room + GUARD) for room in rooms]
        lists = [(ctypes.c_uint32 * len(numbers))(*numbers) for numbers in lent]
        answer = file.call_squeeze(lists[0], rooms[0], lists[1], rooms[1])
        if "refused" in out:
            right, kept = refusal(out), ([], [])
        else:
            right, kept = {"number": 0, "place": 0, "length": out["length"], "used": len(out["olds"])}, (out["olds"], out["news"])
            file.length = answer.length
        found = differences(answer, right)
        for name, numbers, before, after in zip(("old", "new"), kept, lent, lists):
            if list(after) != numbers + before[len(numbers) :]:
                found.append(f"the list of {name} numbers is {list(after)[: len(numbers) + 3]} .., should be {numbers} and then what was lent")
        return found


OPERATIONS = {
    "read_symbol": Reading,
    "write_symbol": Writing,
    "check_words": CheckWords,
    "read_text": TextReading,
    "write_text": TextWriting,
    "conformity": Conformity,
    "day_file": Steps,
}


def case_of(entry, where):
    try:
        if "in" not in entry:
            return (Reading if "codewords" in entry else Writing)(entry, entry)
        return OPERATIONS[entry["op"]](entry["in"], entry.get("out", {}))
    except (KeyError, TypeError, ValueError, AttributeError) as fault:
        raise BadFile(f"{where}: not a case: {type(fault).__name__} {fault}") from None


def cases(path):
    try:
        words = path.read_text(encoding="utf-8")
    except (OSError, UnicodeDecodeError) as fault:
        raise BadFile(f"{path}: cannot be read: {fault}") from None
    if path.suffix == ".jsonl":
        lines = [(f"{path}, line {at}", line) for at, line in enumerate(words.splitlines(), 1) if line.strip()]
        entries = [(where, parse(line, where)) for where, line in lines]
    else:
        kinds = parse(words, path) if words.strip() else {}
        if not isinstance(kinds, dict) or not all(isinstance(array, list) for array in kinds.values()):
            raise BadFile(f"{path}: not arrays of cases by kind")
        entries = [(f"{path}, {kind}, case {at}", entry) for kind, array in kinds.items() for at, entry in enumerate(array, 1)]
    if not entries:
        raise BadFile(f"{path}: no cases in it")
    return [(where, case_of(entry, where)) for where, entry in entries]


def run(path):
    """True if every case of the file comes out right."""
    entries = cases(path)
    dice = random.Random(1)
    wrong = 0
    for where, case in entries:
        found = case.faults(dice)
        if found:
            wrong += 1
            print(f"{where}: {'; '.join(found)}")
            print(f"  {case}")
    print(f"FAILED {path.name}: {wrong} of {len(entries)} cases" if wrong else f"ok {path.name}: {len(entries)} cases")
    return not wrong


def main():
    paths = [pathlib.Path(word) for word in sys.argv[1:]]
    try:
        results = [run(path) for path in paths or [DATA / name for name in STORED]]
    except (BadFile, ddoc.LibraryMissing) as fault:
        print(f"vectors: {fault}", file=sys.stderr)
        return 2
    print(f"{results.count(True)} passed, {results.count(False)} failed")
    return 0 if all(results) else 1


if __name__ == "__main__":
    sys.exit(main())
