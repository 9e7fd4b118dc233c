#!/usr/bin/env python3
"""What the rules says the rows program writes for a capture, written down from its rules alone and one read at a time.

    expected.py < CAPTURE > OUTPUT

The outputs beside this file were made with it. It is no part of the program, and the gate does not run it.
"""
import sys

ENTRIES_MOST = 1048576
INPUT_MOST = 65536


class Refused(Exception):
    def __init__(self, number, place):
        self.number, self.place = number, place


def number_at(data, at):
    """The number that begins at byte `at`, and the place after it. Byte i has bits 7 i to 7 i + 6 of it, and is above 127 if another follows."""
    value = 0
    for i in range(3):
        if at + i >= len(data):
            raise Refused(6, at)
        byte = data[at + i]
        if i > 0 and byte == 0:
            raise Refused(7, at)
        if i == 2 and byte > 127:
            raise Refused(7, at)
        value += (byte & 127) << (7 * i)
        if byte < 128:
            return value, at + i + 1


def parsed(data):
    """k, n, Q and the reads of a capture, judged from the left."""
    at, header, places = 0, [], []
    for least, most in ((1, 511), (1, 1024), (2, 8191), (0, 1)):
        value, after = number_at(data, at)
        if not least <= value <= most:
            raise Refused(8, at)
        header.append(value)
        places.append(at)
        at = after
    k, n, q, level = header
    if at == len(data) and level == 0:
        raise Refused(8, places[3])
    reads = []
    while at < len(data):
        run, after = number_at(data, at)
        if run == 0 or len(reads) + run > ENTRIES_MOST:
            raise Refused(8, at)
        reads.extend([level] * run)
        level, at = 1 - level, after
    return k, n, q, reads


def events(k, n, q, reads):
    """The row receiver: for each read its place and what it brought, if anything."""
    mode, run, run_level, left, level, bits = "hunting", 0, 1, 0, 1, []
    for place, read in enumerate(reads):
        run = min(run + 1, q) if read == run_level else 1
        run_level = read
        if run == q:
            if mode in ("counting", "waiting"):
                yield place, "broken", str(len(bits))
            mode, level, bits = "ready", run_level, []
        elif mode in ("ready", "waiting"):
            if read != level:
                mode, level, left = "counting", read, k
        elif mode == "counting":
            left -= 1
            if left == 0:
                bits.append(1 if read != level else 0)
                mode, level = "waiting", read
                if len(bits) == n:
                    yield place, "row", "".join(map(str, bits))
                    mode, level, bits = "hunting", 1, []


def output(data):
    try:
        if len(data) > INPUT_MOST:
            raise Refused(3, 0)
        k, n, q, reads = parsed(data)
    except Refused as why:
        return "refused %d at %d\n" % (why.number, why.place)
    lines, rows = ["read event bits"], 0
    for place, word, rest in events(k, n, q, reads):
        lines.append("%d %s %s" % (place, word, rest))
        rows += word == "row"
    lines.append("end %d rows %d" % (len(reads), rows))
    return "".join(line + "\n" for line in lines)


if __name__ == "__main__":
    sys.stdout.write(output(sys.stdin.buffer.read()))
