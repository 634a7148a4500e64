"""The calls that a program made of its disk, as disk_calls.c notes them, and what a crash between two of them may leave of its file.

Between two syncs each written range may hold any bytes after a crash, and the length is between the old and the new one; other bytes stay.
After a sync that succeeded a crash leaves what a read gives.
"""
import struct
from pathlib import Path

HEAD = struct.Struct("=4q")
FILLS = 0xFF, 0x01


class Call:
    """A call: its kind, `w` pwrite, `s` fdatasync, `f` fsync, `r` a write to standard output; where it began, its bytes, and its result."""

    def __init__(self, kind, at, result, data):
        self.kind, self.at, self.result, self.data = kind, at, result, data


def calls_in(path):
    text, at, calls = Path(path).read_bytes(), 0, []
    while at < len(text):
        kind, where, _, result = HEAD.unpack_from(text, at)
        at += HEAD.size
        size = max(result, 0) if kind in b"wr" else 0
        calls.append(Call(chr(kind), where, result, text[at : at + size]))
        at += size
    return calls


class File:
    """A file after calls: what a read gives, what is on the disk for sure, and the places that may hold any bytes after a crash."""

    def __init__(self, durable=b""):
        self.now = self.durable = durable
        self.open_places = []

    def make(self, call):
        if call.kind == "w" and call.result > 0:
            end = call.at + len(call.data)
            self.now = self.now.ljust(call.at, b"\0")[: call.at] + call.data + self.now[end:]
            first = min(call.at, len(self.durable)) if end > len(self.durable) else call.at
            self.open_places = sorted({*self.open_places, *range(first, end)})
        elif call.kind in "sf" and call.result == 0:
            self.durable, self.open_places = self.now, []

    def image(self, cut, front, back):
        """The file whose open places have the bytes of `front` up to that number of them, and then those of `back`."""
        made = bytearray(self.now)
        for number, place in enumerate(self.open_places):
            made[place] = (front if number < cut else back)[number]
        return bytes(made)

    def images(self, chance=None, most=0):
        """What a crash now may leave, each once: up to each open place the bytes are new, and from there on old, ff or 01, or the other way
        round; or the file ends at each length. With `chance` at most that many of them."""
        places = self.open_places
        new = [self.now[it] for it in places]
        old = [self.durable[it] if it < len(self.durable) else 0 for it in places]
        others = [old, *([it] * len(places) for it in FILLS)]
        pairs = [(new, it) for it in others] + [(it, new) for it in others]
        rows = [(cut, *pair) for pair in pairs for cut in range(len(places) + 1)]
        rows += [(length,) for length in range(len(self.durable), len(self.now))]
        if chance and len(rows) > most:
            rows = chance.sample(rows, most)
        return sorted({self.now[: row[0]] if len(row) == 1 else self.image(*row) for row in rows})


def moments(calls, before=b""):
    """Each call with the file after it; at first None, and the file before them."""
    file = File(before)
    yield None, file
    for call in calls:
        file.make(call)
        yield call, file
