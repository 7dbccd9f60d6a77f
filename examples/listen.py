#!/usr/bin/env python3
"""A member's reader of the desk's messages, written from docs/BROADCAST.md alone.

    python3 examples/listen.py [--whole] <MESSAGES

prints a line for each message of standard input, as the program `listen` does. With --whole, status 1 says that they
are not one whole stream. Only Python's own library is used.
"""
import struct
import sys
import zlib

ID, DAY, DAYS = (1, 10**9), (0, 10**6), (0, 30)
PARTS, REPO, FLAG = (0, 10**4), (-9999, 9999), (0, 1)    # parts are ten-thousandths, and so are basis points
SECONDS, LIMIT = (1, 3600), (0, 2 * 10**12 + 2 * 10**10)

# A kind: its word; its fields in order as `struct` spells them, i and I four bytes, q eight, b one; and their ranges.
KINDS = {
    1: ("statics", "21i2bibib", [
        ID, (1, 100), (1, 1000), (100, 1000), PARTS, PARTS, (1, 250),    # ID LOT H Q A_UP A_DOWN WAIT
        (1, 5), (1, 30), (1, 30), (0, 500), PARTS, PARTS, PARTS, PARTS,  # RH1 RH2 RH3 LIQ MIN1 MIN2 MIN3 SMAX
        (50, 1000), (1, 100), PARTS, PARTS, (0, 5000), SECONDS,          # XPR SHIFT PCHMAX PCLMAX W U
        FLAG, FLAG, SECONDS, FLAG, (0, 10), FLAG]),                      # MONITORING .. USEEXTERNAL
    2: ("rates", "2i2q5i6q", [ID, DAY, (1, 10**10), (0, 10**6), (0, 100999), (0, 250)] + [PARTS] * 3 + [LIMIT] * 6),
    3: ("bands", "2i3i2q3i2q3i2q", [ID, DAY] + [DAYS, REPO, REPO, LIMIT, LIMIT] * 3),
    4: ("move", "3i6q", [ID, FLAG, (0, 50)] + [LIMIT] * 6),
    5: ("reasons", "2i7b", [ID, DAY] + [(0, most) for most in (4, 3, 2, 4, 3, 3, 3)]),
    6: ("begin", "i", [(1, 1)]),
    7: ("end", "qI", [(0, 2**63 - 1), (0, 2**32 - 1)]),
    8: ("session", "2i", [ID, DAY]),
}


def fits(kind, fields):
    """Whether every field is in its range; kind 1 has orders and multiples too."""
    is_in_range = all(low <= field <= high for field, (low, high) in zip(fields, KINDS[kind][2]))
    if kind != 1 or not is_in_range:
        return is_in_range
    horizons, rates, step = fields[7:10], fields[11:15], fields[2]
    return sorted(horizons) == horizons and sorted(rates) == rates and all(rate % step == 0 for rate in rates)


def message(rest, stream):
    """The message that bytes begin with, as the word and the numbers of its line, in the stream that is open."""
    length, kind = int.from_bytes(rest[:4], "little"), int.from_bytes(rest[4:6], "little")
    word, widths, _ = KINDS.get(kind, ("unknown", None, None))
    if len(rest) < 4 or 2 <= length <= 4096 and len(rest) < 4 + length:
        return "refused", [21]
    if not 2 <= length <= 4096 or widths and length != 2 + struct.calcsize("<" + widths):
        return "refused", [22]
    fields = list(struct.unpack_from("<" + widths, rest, 6)) if widths else [kind, length]
    if widths and not fits(kind, fields):
        return "refused", [23]
    return (word, fields) if word != "end" or fields == stream else ("refused", [25])


def listen(data, output):
    """Writes a line for each message, until the end or a refused one, and gives whether they are one whole stream."""
    offset, words, stream = 0, [], None    # the stream that is open: how many messages, and the sum of their bytes
    while offset < len(data):
        word, numbers = message(data[offset:], stream)
        if word == "begin" and stream:
            print("unended", stream[0], file=output)
        print(word, *numbers, *[offset] * (word == "refused"), file=output)
        words.append(word)
        after = offset + 4 + int.from_bytes(data[offset:offset + 4], "little") if word != "refused" else len(data)
        stream = [0, 0] if word == "begin" else stream if word not in ("end", "refused") else None
        if stream:
            stream = [stream[0] + 1, zlib.crc32(data[offset:after], stream[1])]
        offset = after
    if stream:
        print("unended", stream[0], file=output)
    return words[:1] + words[-1:] == ["begin", "end"] and words.count("begin") == words.count("end") == 1


if __name__ == "__main__":
    whole = listen(memoryview(sys.stdin.buffer.read()), sys.stdout)
    sys.exit("listen: not one whole stream" if "--whole" in sys.argv[1:] and not whole else 0)
