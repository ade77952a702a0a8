#!/usr/bin/env python3
"""Writes crates/number_cases/stdin, the cases of the number reader and writer, and
crates/number_cases/stdout, what each of them has to give.

Both are worked out from these sentences of document 01; the reader and the writer in this file share
nothing with the crate that they are held against.

"Schedule bytes and listing":
  [N] "Numbers go in groups of seven bits, low group first, top bit set when another follows;
      below 2^32; at most five bytes."
  [11] "Refusal 11: a last group of zero after another group, or a fifth byte above 15."
      The fifth byte is the raw byte: with its top bit set it is above 15, whatever follows.
  [W] "answers the count of bytes written"; "The writer changes only the bytes it writes, from the
      start of the lent part; those after them stay."
"Refusal numbers":
  [10] "the bytes end inside a number, the set-up (empty input too) or an entry"
  [13] "the writer's buffer is too short"; "only the number is returned, and .. buffers stay
      unchanged."
  [F] "In reading, the first offending place decides".
"Cases beside each edge":
  [4] "127 is 7f; 128 is 80 01; 80 00 is refused 11; 80 alone 10."
  [5] "five bytes ff ff ff ff 0f read as 2^32 - 1; with 10 last, refused 11."

A line of stdin is a comment that begins with '#', or a case: bytes in hex, a blank between two, and
in front of them '@', a place and a blank where the reading starts elsewhere than at 0. An empty line
is the case of no bytes. A line of stdout is what a case gave: the reading, and where that is a number
what writing it leaves in seven bytes that held ee, in as many as it needs, and in one fewer.

    tools/number_cases.py
"""

from pathlib import Path

CRATE = Path(__file__).resolve().parent.parent / "crates" / "number_cases"
FILLED = 0xEE
ROOM = 7

# 01's own cases, [4] and [5], with its own words on each
OWN = (
    ("7f", "number 127 "),
    ("80 01", "number 128 "),
    ("80 00", "refused 11"),
    ("80", "refused 10"),
    ("ff ff ff ff 0f", f"number {2**32 - 1} "),
    ("ff ff ff ff 10", "refused 11"),
)


class Refused(Exception):
    """A refusal of 01, by its number."""


def read(data, place):
    """The number at a place and the place after it, or the refusal of the first byte at fault, [F]."""
    value = 0
    for index, byte in enumerate(data[place : place + 5]):
        if index == 4 and byte > 15:
            raise Refused(11)  # [11], a fifth byte above 15
        value += (byte & 0x7F) << (7 * index)  # [N], low group first
        if byte & 0x80:
            continue  # [N], another follows
        if byte == 0 and index > 0:
            raise Refused(11)  # [11], a last group of zero after another
        return value, place + index + 1
    raise Refused(10)  # [10]


def groups(value):
    """The bytes of a number, [N]: as few groups as hold it, so that the last is not a needless zero."""
    assert 0 <= value < 2**32
    count = next(k for k in (1, 2, 3, 4, 5) if value < 2 ** (7 * k))
    parts = [(value >> (7 * i)) & 0x7F for i in range(count)]
    return bytes([part | 0x80 for part in parts[:-1]] + parts[-1:])


def write(room, value):
    """The count of bytes written and what the lent part holds after it."""
    number = groups(value)
    if len(room) < len(number):
        raise Refused(13)  # [13]
    return len(number), number + room[len(number) :]  # [W]


def row(data):
    return "".join(f" {byte:02x}" for byte in data)


def written(value, size):
    room = bytes([FILLED]) * size
    try:
        count, after = write(room, value)
        return f"wrote {count}:{row(after)}"
    except Refused as refusal:
        return f"refused {refusal}:{row(room)}"


def outcome(data, place):
    """What stands in stdout for a case."""
    head = f"at {place} of{row(data)}: "
    try:
        value, after = read(data, place)
    except Refused as refusal:
        return f"{head}refused {refusal}"
    size = len(groups(value))
    shown = [written(value, room) for room in (ROOM, size, size - 1)]
    return f"{head}number {value} next {after} | " + " | ".join(shown)


class Corpus:
    """The cases in order, under the comments that say what they show; each once under a comment."""

    def __init__(self):
        self.lines = []
        self.cases = []
        self.seen = set()

    def group(self, comment):
        self.lines.append(f"# {comment}")
        self.seen = set()

    def case(self, data, place=0):
        data = bytes(data)
        if (data, place) in self.seen:
            return
        self.seen.add((data, place))
        self.cases.append((data, place))
        text = row(data)[1:]
        if place:
            text = f"@{place} {text}".rstrip()
        self.lines.append(text)


class Numbers:
    """Pseudo-random numbers of a fixed seed, the same on every machine and every Python."""

    def __init__(self, seed):
        self.state = seed

    def below(self, bound):
        self.state = (self.state * 6364136223846793005 + 1442695040888963407) % 2**64
        return (self.state >> 33) % bound

    def of_length(self, count):
        low = 0 if count == 1 else 2 ** (7 * (count - 1))
        high = min(2 ** (7 * count), 2**32)
        return low + (self.below(2**16) * 2**16 + self.below(2**16)) % (high - low)


def edges(corpus):
    corpus.group("01, cases 4 and 5 beside the edges")
    for data, said in OWN:
        assert f"of {data}: {said}" in outcome(bytes.fromhex(data), 0)
        corpus.case(bytes.fromhex(data))
    corpus.group("no bytes at all")
    corpus.case([])
    corpus.group("a single 00 is the number 0")
    corpus.case([0])
    for count in range(1, 6):
        low = 0 if count == 1 else 2 ** (7 * (count - 1))
        high = min(2 ** (7 * count), 2**32) - 1
        corpus.group(f"smallest and largest number of length {count}, and their neighbours")
        for value in (low - 1, low, low + 1, low + 2, high - 2, high - 1, high, high + 1):
            if 0 <= value < 2**32:
                corpus.case(groups(value))
    corpus.group("powers of two and their neighbours, below 2^32")
    for power in range(33):
        for value in (2**power - 1, 2**power, 2**power + 1):
            if value < 2**32:
                corpus.case(groups(value))


def refusals(corpus):
    corpus.group("cut short: the bytes end after one to four with the top bit set")
    for byte in (0x80, 0x81, 0xAA, 0xC0, 0xFE, 0xFF):
        for count in range(1, 5):
            corpus.case([byte] * count)
    for data in ("80 ff", "ff 80", "ff 80 80", "80 80 ff", "80 ff 80 ff", "ff ff ff 80", "81 82 83 84"):
        corpus.case(bytes.fromhex(data))
    corpus.group("a last group of zero at the second to fifth place")
    for byte in (0x80, 0x81, 0xAA, 0xFF):
        for count in range(1, 5):
            corpus.case([byte] * count + [0])
    corpus.group("a zero group that is not the last is no fault")
    for data in ("80 80 01", "81 80 01", "80 80 80 01", "ff 80 80 01", "80 80 80 80 01", "81 80 80 80 01"):
        corpus.case(bytes.fromhex(data))
    corpus.group("the fifth byte, alone at the end and with a sixth, which is not read")
    for first in ("80 80 80 80", "ff ff ff ff", "81 92 a3 b4"):
        for fifth in (0, 1, 2, 8, 14, 15, 16, 17, 64, 127, 128, 129, 143, 144, 255):
            corpus.case(bytes.fromhex(first) + bytes([fifth]))
        for fifth in (0, 15, 16, 128, 143, 255):
            for sixth in (0x00, 0x01, 0x80):
                corpus.case(bytes.fromhex(first) + bytes([fifth, sixth]))
    corpus.group("runs of 80 and of ff, and what may end them")
    for byte in (0x80, 0xFF):
        for count in range(1, 5):
            for last in (0x01, 0x02, 0x0F, 0x10, 0x3F, 0x40, 0x7F):
                corpus.case([byte] * count + [last])
        for count in range(5, 10):
            corpus.case([byte] * count)
            corpus.case([byte] * count + [0x01])
    corpus.group("a small number in more bytes than it needs")
    for value in (0, 1, 5, 63, 64, 127, 128, 129, 300, 16383, 16384, 2097151):
        number = groups(value)
        for count in range(len(number) + 1, 7):
            longer = [byte | 0x80 for byte in number] + [0x80] * (count - len(number) - 1) + [0]
            corpus.case(longer)


def followed(corpus):
    corpus.group("bytes that follow a number do not matter")
    for value in (0, 1, 127, 128, 300, 16383, 16384, 2097151, 2097152, 268435455, 268435456, 2**32 - 1):
        for after in ("00", "7f", "80", "ff ff ff ff ff ff"):
            corpus.case(groups(value) + bytes.fromhex(after))
    corpus.group("bytes that follow a refused number do not matter")
    for data in ("80 00", "ff 00", "80 80 00", "ff ff ff 00", "80 80 80 80 00", "ff ff ff ff 10"):
        for after in ("01", "80", "ff"):
            corpus.case(bytes.fromhex(data + after))


def places(corpus):
    several = bytes.fromhex("7f 80 01 ff ff ff ff 0f 80 00 00 80 80 80 80 10 80 80 80")
    corpus.group("reading at each place of some bytes, at their end and past it")
    for place in range(len(several) + 3):
        corpus.case(several, place)
    for place in (255, 65535, 65536, 2**32 - 1, 2**32, 2**63 - 1, 2**63, 2**64 - 2, 2**64 - 1):
        corpus.case(several, place)
    corpus.group("reading past the end of no bytes and of one")
    for place in (1, 2, 2**64 - 1):
        corpus.case([], place)
        corpus.case([0x05], place)


def at_random(corpus):
    numbers = Numbers(2017)
    corpus.group("pseudo-random numbers of each length")
    for count in range(1, 6):
        for _ in range(12):
            corpus.case(groups(numbers.of_length(count)))
    corpus.group("pseudo-random numbers, with pseudo-random bytes before and behind")
    for count in range(1, 6):
        for _ in range(6):
            before = [numbers.below(256) for _ in range(1 + numbers.below(4))]
            behind = [numbers.below(256) for _ in range(1 + numbers.below(4))]
            corpus.case(bytes(before) + groups(numbers.of_length(count)) + bytes(behind), len(before))
    corpus.group("pseudo-random numbers cut short")
    for count in range(2, 6):
        for _ in range(5):
            corpus.case(groups(numbers.of_length(count))[: 1 + numbers.below(count - 1)])
    corpus.group("pseudo-random numbers whose last byte has the top bit set, alone and with one more byte")
    for count in range(1, 6):
        for _ in range(4):
            number = groups(numbers.of_length(count))
            marked = number[:-1] + bytes([number[-1] | 0x80])
            corpus.case(marked)
            corpus.case(marked + bytes([numbers.below(256)]))
    corpus.group("pseudo-random numbers whose last group is made zero")
    for count in range(2, 6):
        for _ in range(4):
            corpus.case(groups(numbers.of_length(count))[:-1] + bytes([0]))
    corpus.group("pseudo-random numbers whose fifth byte is raised above 15")
    for _ in range(12):
        corpus.case(groups(numbers.of_length(5))[:-1] + bytes([16 + numbers.below(240)]))
    corpus.group("pseudo-random bytes, read at a pseudo-random place")
    for _ in range(40):
        data = bytes(numbers.below(256) for _ in range(numbers.below(10)))
        corpus.case(data, numbers.below(len(data) + 2))


def made():
    corpus = Corpus()
    for part in (edges, refusals, followed, places, at_random):
        part(corpus)
    stdin = "".join(line + "\n" for line in corpus.lines)
    stdout = "".join(outcome(data, place) + "\n" for data, place in corpus.cases)
    assert len(stdin) < 60000
    return stdin, stdout


def main():
    stdin, stdout = made()
    (CRATE / "stdin").write_text(stdin)
    (CRATE / "stdout").write_text(stdout)
    print(f"{stdout.count(chr(10))} cases, {len(stdin)} bytes of stdin, {len(stdout)} of stdout")


if __name__ == "__main__":
    main()
