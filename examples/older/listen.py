#!/usr/bin/env python3
"""A member's reader of the desk's messages that was written when there were kinds 1 to 4 alone. It is kept as it was
but for this text: the gate sees that it reads today's streams with the same fields, and skips the other kinds.

    python3 examples/older/listen.py <MESSAGES
"""
import struct
import sys

ID, DAY, DAYS = (1, 10**9), (0, 10**6), (0, 30)
PARTS, REPO, FLAG = (0, 10**4), (-9999, 9999), (0, 1)    # parts are ten-thousandths, and so are basis points
SECONDS, LIMIT = (1, 3600), (0, 2 * 10**12 + 2 * 10**10)

# A kind: its word; its fields in order as `struct` spells them, i four bytes, q eight, b one; and their ranges.
KINDS = {
    1: ("statics", "21i2bibib", [
        ID, (1, 100), (1, 1000), (100, 1000), PARTS, PARTS, (1, 250),    # ID LOT H Q A_UP A_DOWN WAIT
        (1, 5), (1, 30), (1, 30), (0, 500), PARTS, PARTS, PARTS, PARTS,  # RH1 RH2 RH3 LIQ MIN1 MIN2 MIN3 SMAX
        (50, 1000), (1, 100), PARTS, PARTS, (0, 5000), SECONDS,          # XPR SHIFT PCHMAX PCLMAX W U
        FLAG, FLAG, SECONDS, FLAG, (0, 10), FLAG]),                      # MONITORING .. USEEXTERNAL
    2: ("rates", "2i2q5i6q", [ID, DAY, (1, 10**10), (0, 10**6), (0, 100999), (0, 250)] + [PARTS] * 3 + [LIMIT] * 6),
    3: ("bands", "2i3i2q3i2q3i2q", [ID, DAY] + [DAYS, REPO, REPO, LIMIT, LIMIT] * 3),
    4: ("move", "3i6q", [ID, FLAG, (0, 50)] + [LIMIT] * 6),
}


class Refused(Exception):
    """A message that is not taken, with its number: 21, 22 or 23."""


def fits(kind, fields):
    """Whether every field is in its range; kind 1 has orders and multiples too."""
    if not all(low <= field <= high for field, (low, high) in zip(fields, KINDS[kind][2])):
        return False
    if kind != 1:
        return True
    horizons, rates, step = fields[7:10], fields[11:15], fields[2]
    return sorted(horizons) == horizons and sorted(rates) == rates and all(rate % step == 0 for rate in rates)


def message(stream, head):
    """Reads the rest of a message that begins with the bytes of `head`, and gives its length and its line."""
    if len(head) < 4:
        raise Refused(21)
    length, = struct.unpack("<I", head)
    if not 2 <= length <= 4096:
        raise Refused(22)
    rest = stream.read(length)
    if len(rest) < length:
        raise Refused(21)
    kind, = struct.unpack_from("<H", rest)
    if kind not in KINDS:
        return length, "unknown %d %d" % (kind, length)
    word, widths, _ = KINDS[kind]
    if length != 2 + struct.calcsize("<" + widths):
        raise Refused(22)
    fields = list(struct.unpack_from("<" + widths, rest, 2))
    if not fits(kind, fields):
        raise Refused(23)
    return length, " ".join([word] + [str(field) for field in fields])


def listen(stream, output):
    """Writes a line for each message of a stream of bytes, until its end or a refused message."""
    offset = 0
    while head := stream.read(4):
        try:
            length, line = message(stream, head)
        except Refused as refused:
            print("refused", refused, offset, file=output)
            return
        print(line, file=output)
        offset += 4 + length


if __name__ == "__main__":
    listen(sys.stdin.buffer, sys.stdout)
