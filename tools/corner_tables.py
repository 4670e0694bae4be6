#!/usr/bin/env python3
"""Writes crates/codeword/specs/Corners.antt: tables of readings that the checker computes over the definition.

usage: tools/corner_tables.py > crates/codeword/specs/Corners.antt

The cases are corners, with room for few characters only; their answers come from a plain loop below that shares nothing with the definition.
"""

def reading(codewords, room):
    """Document 01, "From codewords to text", as a loop over places: (text, used) or (number, place)."""
    text, place, shift, c40 = [], 0, 0, False

    def char(c):
        if len(text) == room:
            raise ValueError(5)
        text.append(c)

    def value(shift, v):
        if shift == 0 and v < 3:
            return v + 1
        spans = {0: [(3, 3, 32), (4, 13, 48), (14, 39, 65)], 1: [(0, 31, 0)], 2: [(0, 14, 33), (15, 21, 58), (22, 26, 91)], 3: [(0, 31, 96)]}
        for first, last, c in spans[shift]:
            if first <= v <= last:
                char(c + v - first)
                return 0
        raise ValueError(4)

    try:
        while place < len(codewords):
            w, left = codewords[place], len(codewords) - place
            if c40 and (w == 254 or left == 1):
                if shift > 1:
                    raise ValueError(4)
                if w != 254 and not 1 <= w <= 128:
                    raise ValueError(2)
                if w != 254:
                    char(w - 1)
                c40, shift, place = False, 0, place + 1
            elif c40:
                v = 256 * w + codewords[place + 1] - 1
                if not 0 <= v <= 63999:
                    raise ValueError(3)
                for x in (v // 1600, v // 40 % 40, v % 40):
                    shift = value(shift, x)
                place += 2
            elif w == 129:
                return text, place
            elif w == 230:
                c40, place = True, place + 1
            elif 1 <= w <= 128:
                char(w - 1)
                place += 1
            elif 130 <= w <= 229:
                char(48 + (w - 130) // 10)
                char(48 + (w - 130) % 10)
                place += 1
            else:
                raise ValueError(2)
        if c40 and shift > 1:
            raise ValueError(4)
        return text, place
    except ValueError as refusal:
        return refusal.args[0], place


def listed(numbers):
    return "(" + " ∷ ".join([str(n) for n in numbers] + ["[]"]) + ")"


def answer(codewords, out):
    if isinstance(out[0], list):
        return "good %s %d %s" % (listed(out[0]), out[1], "true" if out[1] < len(codewords) else "false")
    return "refused %d %d" % out


def table(name, note, reader, cases):
    lines = ["", "-- " + note, "%s : map (λ (x : Case). %s)" % (name, reader)]
    lines += ["    %s(%s, %d)" % ("(" if i == 0 else "∷ ", listed(c), n) for i, (c, n, out) in enumerate(cases)] + ["    ∷ [])"]
    lines += ["    %s%s" % ("≡ " if i == 0 else "∷ ", answer(c, out)) for i, (c, n, out) in enumerate(cases)] + ["    ∷ []"]
    return lines + ["unfolding read value unfinished ascii lone pair", "%s = refl" % name]


def corner_cases():
    """Every kind of codeword in every kind of place, with room for no more than a few characters."""
    pair = lambda x, y, z: [(1600 * x + 40 * y + z + 1) // 256, (1600 * x + 40 * y + z + 1) % 256]
    lists = [[w] for w in (0, 1, 128, 129, 130, 229, 230, 231, 253, 254, 255)]
    lists += [[230, w] for w in (0, 1, 2, 128, 129, 130, 229, 230, 231, 253, 254, 255)]
    lists += [[230, a, b] for a, b in ((0, 0), (0, 1), (249, 255), (250, 0), (250, 1), (253, 255), (254, 66), (254, 254), (255, 0), (230, 254))]
    lists += [[230] + pair(*v) for v in ((0, 0, 0), (0, 31, 14), (0, 32, 14), (1, 14, 3), (1, 15, 4), (1, 21, 13), (1, 22, 14), (1, 26, 39), (1, 27, 14), (1, 30, 14), (2, 0, 14), (2, 31, 14), (2, 32, 14), (39, 39, 39))]
    for last in (0, 1, 2):
        for behind in ([], [66], [0], [129], [230], [254], [254, 66], pair(31, 14, 14), pair(32, 14, 14), pair(27, 3, 3), pair(0, 0, 0), [250, 1]):
            lists.append([230] + pair(14, 15, last) + behind)
    lists += [[66, 142, 67], [142, 142, 142], [66, 129, 0, 255], [230, 254, 142], [230, 254, 230, 254, 66]]
    return [(codewords, room, reading(codewords, room)) for codewords in lists for room in (7, 1)]


def main():
    print("\n".join([
        "-- Readings that the checker computes over the definition. Written by tools/corner_tables.py.",
        "use Rattle.std.specs.Prelude.{ℕ, true, false, List, [], ◌∷◌, map, ◌≡◌, refl}",
        "use Rattle.codeword.specs.Meanings.{ascii, lone, pair, value, unfinished}",
        "use Rattle.codeword.specs.Reading.{good, refused, in_ascii, read}",
        "",
        "-- codewords, and the room for characters",
        "abbrev Case : Type 0",
        "Case = List ℕ × ℕ"]
        + table("corners", "corners, with room for seven characters and for one", "read x.0 in_ascii x.1", corner_cases())))


main()
