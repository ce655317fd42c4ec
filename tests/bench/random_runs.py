#!/usr/bin/env python3
"""Random runs for the program `bench`, to compare it with the model.

    python3 tests/bench/random_runs.py SEED [LINES] > run.in

The same seed gives the same run. Lines are drawn with an eye on the state that
the model is in, so that most frames are good and deep states come up: commands
half done, worn pages, a part that is locked, opened again or locked for good.
Two thousand runs beside the program, from the repository's root:

    mkdir -p target/tests && run=target/tests/random
    for seed in $(seq 2000); do
        python3 tests/bench/random_runs.py $seed > $run.in
        python3 tests/bench/model.py < $run.in > $run.out
        target/bin/bench < $run.in | cmp -s - $run.out || echo "seed $seed differs"
    done
"""

import random
import sys

import model
from model import ALL, BLOCKS, OPTION_START, PAGE_BYTES, PAGES, USER_START
from model import ERASE, GET, MEMORY_CRC, PROTECT, READ, UNPROTECT, WRITE

BAD_LINES = [
    b"", b" ", b"()", b"hello", b"(off)", b"\xff\x00",
    b"(in)", b"(in )", b"(in 5a)", b"(in 5)", b"(in  5A)", b"(in 5A) ", b"(in 5A XX)", b"(in 5A)\r",
    b"(in 85 01 00 01 02 D3 6A", b"(work)", b"(work 0)", b"(work 01)", b"(work 10000)", b"(work -1)",
    b"(reset )", b"(reset 1)", b"(fault )", b"(FAULT)",
]


def frame(command, data=b"", check=None):
    head = bytes([model.COMMAND_HEAD, command]) + model.two_bytes(len(data)) + data
    if not data:
        return head
    return head + model.two_bytes(model.checksum(data) if check is None else check)


class Draw:
    """Draws lines, and lets the model follow them."""

    def __init__(self, seed):
        self.random = random.Random(seed)
        self.bench = model.Bench()
        self.rest = b""  # of a frame that was cut in pieces
        # Habits of this run: the page that it uses most, and how often it locks.
        self.home = self.random.choice([0, 0, 1, 7, 8, 15])
        self.locks = self.random.choice([0.01, 0.03, 0.10])

    def chance(self, probability):
        return self.random.random() < probability

    def pick(self, *pairs):
        """One of (weight, value) pairs."""
        weights, values = zip(*pairs)
        return self.random.choices(values, weights)[0]

    def some_bytes(self, count):
        telling = [0x00, 0x5A, 0x85, 0xAA, 0xFF]
        return bytes(
            self.random.choice(telling + [self.random.randrange(256)]) for _ in range(count)
        )

    # The numbers of a command.

    def page(self):
        return self.pick((6, self.home), (2, self.random.randrange(16)), (1, 15))

    def address(self):
        any_word = self.random.randrange(128)
        word = self.pick((3, 0), (3, any_word % 4), (2, any_word), (1, 127))
        user = USER_START + PAGE_BYTES * self.page() + 4 * word
        option = OPTION_START + 4 * self.random.randrange(4)
        end = USER_START + 16 * PAGE_BYTES
        anywhere = self.random.randrange(1 << 32)
        edges = [USER_START - 4, end - 4, end, OPTION_START - 4, OPTION_START + 16]
        wrong = [0, 0xFFFFFFFC, 0xFFFFFFFF, anywhere, user + self.random.randrange(1, 4), option + 1]
        return self.pick((16, user), (2, option), (1, self.random.choice(edges + wrong)))

    def get(self):
        information = self.pick((8, self.random.randrange(5)), (1, self.random.randrange(256)))
        return frame(GET, bytes([information]))

    def read(self):
        wrong = self.random.choice([0, 1, 2, 6, 513, 514, 516, 0xFFFC])
        count = self.pick((6, 4 * self.random.randrange(1, 9)), (1, 512), (1, wrong))
        return frame(READ, self.address().to_bytes(4, "big") + model.two_bytes(count))

    def write(self):
        address = self.address()
        many = self.random.randrange(1, 129)
        words = self.pick((6, 1), (6, self.random.randrange(1, 5)), (1, many))
        left = (PAGE_BYTES - address % PAGE_BYTES) // 4
        if self.chance(0.9):
            words = max(1, min(words, left))
        data = b"".join(self.pick((3, self.some_bytes(4)), (1, b"\xff" * 4)) for _ in range(words))
        if self.chance(0.03):
            data = data[: self.random.randrange(len(data))]
        return frame(WRITE, address.to_bytes(4, "big") + data)

    def option_write(self):
        words = self.random.randrange(1, 5)
        first = self.random.randrange(0, 5 - words)
        data = self.some_bytes(4 * words)
        if first == 0 and self.chance(0.7):
            data = b"\xaa" + data[1:]
        return frame(WRITE, (OPTION_START + 4 * first).to_bytes(4, "big") + data)

    def memory_crc(self):
        address = self.address()
        few, many = 4 * self.random.randrange(1, 9), 4 * self.random.randrange(1, 600)
        special = self.random.choice([0, 2, 0x2000, 0x2004, 0xF8000000, 0xFFFFFFFC])
        count = self.pick((6, few), (4, many), (1, special))
        value = self.random.randrange(1 << 16)
        if model.in_user_flash(address, count, 16) and self.chance(0.8):
            value = model.checksum(self.bench.part.stored(address - address % 4, count))
        area = address.to_bytes(4, "big") + count.to_bytes(4, "big")
        return frame(MEMORY_CRC, area + model.two_bytes(value))

    def erase(self):
        mode = self.pick((10, PAGES), (2, BLOCKS), (1, ALL), (1, self.random.randrange(256)))
        index = self.page()
        count = self.pick((6, 1), (3, self.random.randrange(1, 4)), (1, 0))
        if mode == BLOCKS:
            index, count = self.random.randrange(2), self.random.randrange(1, 3)
        if mode == ALL:
            index, count = 0, 0
        if self.chance(0.06):
            index = self.random.choice([index, 15, 16, 0x20000000, 0xFFFFFFFF])
            count = self.random.choice([count, 2, 17, 0x20000000, 0xFFFFFFFF])
        return frame(ERASE, bytes([mode]) + index.to_bytes(4, "big") + count.to_bytes(4, "big"))

    # Frames, bytes and lines.

    def good_frame(self):
        locked = self.bench.part.level == 1
        return self.pick(
            (3, self.get),
            (6, self.read),
            (8, self.write),
            (5, self.memory_crc),
            (7, self.erase),
            (100 * self.locks, self.option_write),
            (60 * self.locks, lambda: frame(PROTECT)),
            (12 if locked else 0.5, lambda: frame(UNPROTECT)),
        )()

    def some_frame(self):
        drawn = self.good_frame()
        damages = ["bit", "crc", "command", "length", "long", "short"]
        kind = self.pick((5, "none"), (1, self.random.choice(damages)))
        if kind == "bit":
            at = self.random.randrange(len(drawn))
            drawn = drawn[:at] + bytes([drawn[at] ^ 1 << self.random.randrange(8)]) + drawn[at + 1 :]
        elif kind == "crc" and len(drawn) > 4:
            drawn = drawn[:-2] + drawn[:-3:-1]
        elif kind == "command":
            drawn = drawn[:1] + self.some_bytes(1) + drawn[2:]
        elif kind == "length":
            length = self.random.choice([0, 1, 3, 5, 6, 7, 9, 10, 11])
            drawn = frame(drawn[1], self.some_bytes(length))
        elif kind == "long":
            length = self.random.choice([517, 518, 0x8000, 0xFFFF])
            drawn = drawn[:2] + model.two_bytes(length) + drawn[4:]
        elif kind == "short":
            drawn = drawn[: self.random.randrange(1, len(drawn))]
        return drawn

    def missing(self):
        """How many bytes the open frame still lacks, as far as that is known."""
        opened = self.bench.part.frame
        if len(opened) < 4:
            return 4 - len(opened)
        return 6 + model.number(opened[2:4]) - len(opened)

    def given(self):
        """Bytes for one line."""
        part = self.bench.part
        if self.rest:
            whole, self.rest = self.rest, b""
        elif part.frame and self.chance(0.8):
            whole = self.some_bytes(self.missing())
        elif not part.connected:
            drawn = self.some_frame()
            whole = self.pick((9, b"\x5a"), (1, drawn), (2, b"\x5a" + drawn))
        else:
            drawn = self.some_frame()
            whole = self.pick(
                (20, drawn),
                (1, b"\x5a"),
                (1, self.some_bytes(self.random.randrange(1, 9))),
                (1, drawn + self.some_frame()),
                (1, self.get() + b"\x5a" + drawn),
            )
        if len(whole) > 522 or self.chance(0.1) and len(whole) > 1:
            at = self.random.randrange(1, min(len(whole), 522))
            whole, self.rest = whole[:at], whole[at:]
        return whole

    def works(self):
        left = len(self.bench.part.portions)
        to_the_end, nearly = max(1, left), max(1, left - 1)
        some = self.random.randrange(1, 20)
        return self.pick((3, 1), (2, to_the_end), (1, nearly), (2, some), (1, 9999))

    def line(self):
        part = self.bench.part
        if part.ticket:
            kinds = (6, "reset"), (1, "work"), (2, "in"), (1, "fault"), (0.3, "bad")
        elif part.hand is not None:
            kinds = (12, "work"), (2, "in"), (0.5, "reset"), (0.5, "fault"), (0.3, "bad")
        else:
            kinds = (20, "in"), (1, "work"), (0.5, "reset"), (2, "fault"), (0.5, "bad")
        kind = self.pick(*kinds)
        if kind == "in":
            return b"(in " + self.given().hex(" ").upper().encode() + b")"
        if kind == "work":
            return b"(work %d)" % self.works()
        return self.random.choice(BAD_LINES) if kind == "bad" else b"(%s)" % kind.encode()


def run(seed, lines):
    """The lines of one run."""
    draw = Draw(seed)
    for _ in range(lines):
        line = draw.line()
        draw.bench.replies(line)
        yield line


def main():
    if len(sys.argv) not in (2, 3) or not all(word.isdigit() for word in sys.argv[1:]):
        sys.exit("use: random_runs.py SEED [LINES]")
    lines = int(sys.argv[2]) if len(sys.argv) == 3 else 150
    for line in run(int(sys.argv[1]), lines):
        sys.stdout.buffer.write(line + b"\n")


if __name__ == "__main__":
    main()
