"""Runs the program `week` (target/bin/week) over stored weeks and over inputs at their edges: `week.py [PROGRAM]`. Each group is one test.

A stored week is a line {"in": {"input_hex"}, "out": {"output"}} of host/data/week.jsonl; its files are also counted through the library's
ddoc_tally_add. The command in the environment variable RUN, if any, runs the program.
"""

import json
import os
import pathlib
import resource
import subprocess
import sys

import ddoc

DATA = pathlib.Path(__file__).resolve().parents[1] / "data" / "week.jsonl"
PROGRAM = ddoc.ROOT / "target" / "bin" / "week"
# "A length above 32,768 .. ends the run"
MOST = 32768


def command(program):
    return os.environ.get("RUN", "").split() + [str(program)]


def printed(program, data):
    return subprocess.run(command(program), input=data, stdout=subprocess.PIPE, check=True).stdout.decode("ascii")


def printed_slowly(program, data):
    """The same, the input written a byte at a time."""
    with subprocess.Popen(command(program), stdin=subprocess.PIPE, stdout=subprocess.PIPE, bufsize=0) as child:
        for at in range(len(data)):
            child.stdin.write(data[at : at + 1])
        child.stdin.close()
        return child.stdout.read().decode("ascii")


def counted(data):
    """The lines of an input through the library's tally."""
    tally, lines, place = ddoc.Tally(), [], 0
    while data:
        length = int.from_bytes(data[:2], "big")
        if len(data) < 2 or length > MOST or len(data) < 2 + length:
            return lines + tally.lines() + ["input cut"]
        file, data, place = data[2 : 2 + length], data[2 + length :], place + 1
        try:
            ddoc.tally_add(tally, file)
        except ddoc.Refused as refused:
            lines.append(f"file {place} refused {refused.number}")
    return lines + tally.lines()


def stored():
    with open(DATA, encoding="utf-8") as lines:
        cases = [json.loads(line) for line in lines]
    return [(bytes.fromhex(case["in"]["input_hex"]), case["out"]["output"]) for case in cases]


def edges(cases):
    """Inputs of a few bytes, and what has to be printed."""
    empty = bytes(8)
    one = (8).to_bytes(2, "big") + empty
    bad = (8).to_bytes(2, "big") + bytes(7) + b"\1"
    return [
        (b"", ""),
        (one, ""),
        (one[:1], "input cut\n"),
        (one[:-1], "input cut\n"),
        (one + one[:2], "input cut\n"),
        (bad, "file 1 refused 35\n"),
        (one + bad + one + bytes(2), "file 2 refused 35\nfile 4 refused 35\n"),
        ((MOST + 1).to_bytes(2, "big") + bytes(MOST + 1), "input cut\n"),
        (MOST.to_bytes(2, "big") + bytes(MOST), "file 1 refused 35\n"),
    ]


def full():
    """A day file with as many accepted texts as it takes, behind its length, and the lines of a week of it alone."""
    with open(DATA.parent / "read_text.jsonl", encoding="utf-8") as lines:
        cases = [json.loads(line) for line in lines]
    texts = [bytes.fromhex(case["in"]["text_hex"]) for case in cases if "refused" not in case["out"]]
    file, at = ddoc.DayFile(), 0
    try:
        while True:
            file.add(texts[at % len(texts)])
            at += 1
    except ddoc.Refused:
        pass
    data = file.length.to_bytes(2, "big") + file.slice.raw[: file.length]
    return data, "".join(line + "\n" for line in counted(data))


def repeated(data, output, times):
    """A whole week again and again, and what has to be printed."""
    lines = [line.split(" ") for line in output.splitlines()]
    places = [int(line[1]) for line in lines if line[0] == "file"]
    files, rest = 0, data
    while rest:
        files, rest = files + 1, rest[2 + int.from_bytes(rest[:2], "big") :]
    right = [f"file {turn * files + place} refused 35" for turn in range(times) for place in places]
    right += [" ".join(line[:-1] + [str(times * int(line[-1]))]) for line in lines if line[0] != "file"]
    return data * times, "\n".join(right) + "\n", times * files


def main():
    program = pathlib.Path(sys.argv[1]) if len(sys.argv) > 1 else PROGRAM
    cases = stored()
    results = []

    def test(name, wrong):
        results.append(not wrong)
        print(f"FAILED {name}: {wrong[0]}" if wrong else f"ok {name}")

    differ = lambda run, inputs: [(data[:40].hex(), is_, right) for data, right in inputs for is_ in [run(data)] if is_ != right]
    try:
        test(f"{len(cases)} stored weeks through the program", differ(lambda data: printed(program, data), cases))
        lines = lambda data: "".join(line + "\n" for line in counted(data))
        test(f"{len(cases)} stored weeks through ddoc_tally_add", differ(lines, cases))
        test("empty, one file, cut, refused", differ(lambda data: printed(program, data), edges(cases)))
        short = sorted(cases, key=lambda case: len(case[0]))[:5] + edges(cases)[:7]
        test("a byte at a time", differ(lambda data: printed_slowly(program, data), short))
        whole = max((case for case in cases if "input cut" not in case[1] and "refused 38" not in case[1]), key=lambda case: len(case[0]))
        for name, week, times in (("files", whole, 500), ("full files", full(), 1000)):
            data, right, files = repeated(*week, times)
            before = resource.getrusage(resource.RUSAGE_CHILDREN)
            wrong = differ(lambda data: printed(program, data), [(data, right)])
            after = resource.getrusage(resource.RUSAGE_CHILDREN)
            seconds = after.ru_utime + after.ru_stime - before.ru_utime - before.ru_stime
            test(f"{files} {name} in one run, {seconds:.2f} seconds of the processor's time", wrong)
    except (OSError, subprocess.CalledProcessError, ddoc.LibraryMissing) as fault:
        print(f"week: {fault}", file=sys.stderr)
        return 2
    print(f"{results.count(True)} passed, {results.count(False)} failed")
    return 0 if all(results) else 1


if __name__ == "__main__":
    sys.exit(main())
