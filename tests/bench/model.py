#!/usr/bin/env python3
"""A plain model of the part that the program `bench` holds.

It reads forms from standard input, one a line, and prints what `bench` must
print for them:

    python3 tests/bench/model.py < run.in > run.out

The model is written from the description of the part alone and shares no text
with the program. It is made to be read: every rule stands once, in the order in
which the part applies it, and nothing is done for speed.
"""

import re
import sys
from typing import NamedTuple

PAGE_WORDS, PAGE_BYTES, ERASED = 128, 512, 0xFFFFFFFF
USER_START, OPTION_START, OPTION_BYTES = 0x08000000, 0x1FFFF800, 16

CONNECT, COMMAND_HEAD, ANSWER_HEAD = 0x5A, 0x85, 0xB3
LONGEST_DATA = 516  # of a command frame
BUFFER = 518  # bytes that an answer may need

GET, READ, WRITE, MEMORY_CRC, ERASE = 0x01, 0xF1, 0xF2, 0xF3, 0xF4
PROTECT, UNPROTECT = 0xA0, 0xA1
COMMANDS = (GET, READ, WRITE, MEMORY_CRC, ERASE, PROTECT, UNPROTECT)
COMMAND_STRING = bytes.fromhex("5A 01 F1 F2 F3 F4 A0 A1 00 00")
PAGES, BLOCKS, ALL = 0xAA, 0x55, 0x3C  # modes of an Erase

DONE, NOT_ALLOWED, FLASH_REFUSED = 0x90, 0x63, 0x65
WRONG_LENGTH, WRONG_CHECKSUM, NOT_ALIGNED = 0x67, 0x68, 0x69
OUT_OF_RANGE, WRONG_PARAMETER, UNKNOWN_COMMAND = 0x6A, 0x6B, 0x6D

# What a call answers where it answers no bytes.
QUIET, TAKEN, IDLE, GOING, LOCAL_1 = "quiet", "taken", "idle", "going", "local 1"


# Numbers and checksum.


def number(field):
    """A field of a frame: high byte first."""
    return int.from_bytes(field, "big")


def two_bytes(value):
    return value.to_bytes(2, "big")


def in_flash_order(words):
    """The bytes of flash words: low byte of each first."""
    return b"".join(word.to_bytes(4, "little") for word in words)


def checksum(data):
    """Polynomial 0x1021, start 0xFFFF, bits lowest first, result inverted.

    The register is shifted as the polynomial is written, highest power first,
    so the result has to be read from its other end.
    """
    register = 0xFFFF
    for byte in data:
        for place in range(8):
            leaving = (register >> 15) ^ ((byte >> place) & 1)
            register = (register << 1) & 0xFFFF
            if leaving:
                register ^= 0x1021
    mirrored = int(format(register, "016b")[::-1], 2)
    return mirrored ^ 0xFFFF


def answer(code, data=b""):
    """An answer frame."""
    frame = bytes([ANSWER_HEAD, code]) + two_bytes(len(data)) + data
    return frame + two_bytes(checksum(data)) if data else frame


# Flash.


class Refusal(Exception):
    """The flash refused. Its arguments: cause, page or word number, address."""


class WordFlash:
    """P pages of 128 words, four option words, and how often both can be written."""

    def __init__(self, pages, erases_left, option_writes_left, options):
        self.pages = pages
        self.words = [ERASED] * (PAGE_WORDS * pages)
        self.options = list(options)
        self.erases_left = [erases_left] * pages
        self.option_writes_left = option_writes_left

    def program(self, word, value):
        address = USER_START + 4 * word
        if word >= len(self.words):
            raise Refusal("range", word, address)
        if self.words[word] != ERASED:
            raise Refusal("not-erased", word, address)
        self.words[word] = value

    def erase(self, page):
        address = USER_START + PAGE_BYTES * page
        if page >= self.pages:
            raise Refusal("range", page, address)
        if self.erases_left[page] == 0:
            raise Refusal("worn", page, address)
        self.words[PAGE_WORDS * page : PAGE_WORDS * (page + 1)] = [ERASED] * PAGE_WORDS
        self.erases_left[page] -= 1

    def write_options(self, options):
        if self.option_writes_left == 0:
            raise Refusal("worn", 0, OPTION_START)
        self.options = list(options)
        self.option_writes_left -= 1


# Where a frame is stopped.


def in_user_flash(address, count, pages):
    return USER_START <= address and address + count <= USER_START + PAGE_BYTES * pages


def in_options(address, count):
    return OPTION_START <= address and address + count <= OPTION_START + OPTION_BYTES


def length_fits(command, length):
    if command == WRITE:
        return 4 <= length - 4 <= PAGE_BYTES and (length - 4) % 4 == 0
    fixed = {GET: 1, READ: 6, MEMORY_CRC: 10, ERASE: 9, PROTECT: 0, UNPROTECT: 0}
    return length == fixed[command]


def parameter_fits(command, data):
    if command == GET:
        return data[0] <= 4
    if command == READ:
        count = number(data[4:6])
        return 0 < count <= PAGE_BYTES and count % 4 == 0
    if command == WRITE:
        first = number(data[0:4])
        last = first + len(data) - 4 - 1
        return first // PAGE_BYTES == last // PAGE_BYTES
    if command == MEMORY_CRC:
        count = number(data[4:8])
        return count > 0 and count % 4 == 0
    if command == ERASE:
        mode, index, count = data[0], number(data[1:5]), number(data[5:9])
        if mode == ALL:
            return index == 0 and count == 0
        return mode in (PAGES, BLOCKS) and count > 0
    return True


def range_fits(command, data, pages):
    if command in (READ, WRITE):
        address = number(data[0:4])
        count = number(data[4:6]) if command == READ else len(data) - 4
        return in_user_flash(address, count, pages) or in_options(address, count)
    if command == MEMORY_CRC:
        return in_user_flash(number(data[0:4]), number(data[4:8]), pages)
    if command == ERASE and data[0] != ALL:
        limit = pages if data[0] == PAGES else pages // 8
        return number(data[1:5]) + number(data[5:9]) <= limit
    return True


def stopped(command, data, level, pages):
    """The code of the first place that stops a frame with a good checksum, or None."""
    if command not in COMMANDS:
        return UNKNOWN_COMMAND
    if command == UNPROTECT if level == 0 else command not in (GET, UNPROTECT):
        return NOT_ALLOWED
    if not length_fits(command, len(data)):
        return WRONG_LENGTH
    if command in (READ, WRITE, MEMORY_CRC) and number(data[0:4]) % 4 != 0:
        return NOT_ALIGNED
    if not parameter_fits(command, data):
        return WRONG_PARAMETER
    if not range_fits(command, data, pages):
        return OUT_OF_RANGE
    return None


# The part.


class Identity(NamedTuple):
    uid: bytes = bytes(12)
    version: int = 0
    kind: int = 0
    package: int = 0
    sram: int = 0


def portions_of(command, data, pages):
    """What a command does, one entry for each work call.

    ("program", word, value), ("erase", page), ("options", {number: value}), or
    ("look",): up to 128 words of a Memory CRC, which alters nothing.
    """
    if command == WRITE:
        address = number(data[0:4])
        values = [int.from_bytes(data[i : i + 4], "little") for i in range(4, len(data), 4)]
        if in_options(address, 4 * len(values)):
            first = (address - OPTION_START) // 4
            return [("options", dict(enumerate(values, first)))]
        first = (address - USER_START) // 4
        return [("program", word, value) for word, value in enumerate(values, first)]
    if command == MEMORY_CRC:
        return [("look",)] * -(-number(data[4:8]) // PAGE_BYTES)  # rounded up
    if command == ERASE:
        mode, index, count = data[0], number(data[1:5]), number(data[5:9])
        if mode == ALL:
            index, count = 0, pages
        elif mode == BLOCKS:
            index, count = 8 * index, 8 * count
        return [("erase", page) for page in range(index, index + count)]
    if command == PROTECT:
        return [("options", {0: 0})]
    return [("erase", page) for page in range(pages)] + [("options", {0: 0xAA})]


class Part:
    """A loader with its flash."""

    def __init__(self, flash, identity=Identity()):
        self.flash = flash
        self.identity = identity
        self.start()

    def start(self):
        self.connected = False
        self.frame = b""  # bytes of the open frame
        self.hand = None  # command in hand, with its data
        self.portions = []  # what is left to do of it
        self.ticket = False  # out or not
        self.fault = None  # cause, number, address, command
        self.level = 0 if self.flash.options[0] % 256 == 0xAA else 1

    def reset(self):
        """Spend the ticket that is out. Without one nothing happens."""
        had_ticket = self.ticket
        if had_ticket:
            self.start()
        return had_ticket

    def receive(self, byte, buffer=BUFFER):
        if buffer < BUFFER:
            return LOCAL_1
        if self.hand is not None or self.ticket:
            return QUIET
        if self.frame:
            self.frame += bytes([byte])
            return self.frame_grown()
        if byte == CONNECT:
            self.connected = True
            return bytes([ANSWER_HEAD])
        if byte == COMMAND_HEAD and self.connected:
            self.frame = bytes([byte])
        return QUIET

    def frame_grown(self):
        if len(self.frame) < 4:
            return QUIET
        length = number(self.frame[2:4])
        if length > LONGEST_DATA:
            self.frame = b""
            return answer(WRONG_LENGTH)
        if len(self.frame) < 4 + length + (2 if length else 0):
            return QUIET
        command, data, check = self.frame[1], self.frame[4:][:length], self.frame[4:][length:]
        self.frame = b""
        if length > 0 and number(check) != checksum(data):
            return answer(WRONG_CHECKSUM)
        code = stopped(command, data, self.level, self.flash.pages)
        if code is not None:
            return answer(code)
        if command == GET:
            return answer(DONE, self.information(data[0]))
        if command == READ:
            return answer(DONE, self.stored(number(data[0:4]), number(data[4:6])))
        self.hand = command, data
        self.portions = portions_of(command, data, self.flash.pages)
        return TAKEN

    def information(self, which):
        of = self.identity
        return [
            COMMAND_STRING,
            of.uid,
            bytes([self.level]),
            two_bytes(of.version) + bytes(2),
            bytes([of.kind, of.package]) + two_bytes(self.flash.pages // 2) + two_bytes(of.sram),
        ][which]

    def stored(self, address, count):
        if in_options(address, count):
            first, words = (address - OPTION_START) // 4, self.flash.options
        else:
            first, words = (address - USER_START) // 4, self.flash.words
        return in_flash_order(words[first : first + count // 4])

    def work(self, buffer=BUFFER):
        if buffer < BUFFER:
            return LOCAL_1
        if self.hand is None:
            return IDLE
        command, data = self.hand
        kind = None
        if self.portions:
            kind, *numbers = self.portions.pop(0)
            try:
                self.do(kind, *numbers)
            except Refusal as refusal:
                self.hand, self.portions = None, []
                self.fault = (*refusal.args, command)
                return answer(FLASH_REFUSED)
        if self.portions:
            return GOING
        self.hand = None
        if command == MEMORY_CRC:
            summed = checksum(self.stored(number(data[0:4]), number(data[4:8])))
            return answer(DONE if summed == number(data[8:10]) else WRONG_PARAMETER)
        self.ticket = kind == "options"
        return answer(DONE)

    def do(self, kind, *numbers):
        if kind == "program":
            self.flash.program(*numbers)
        elif kind == "erase":
            self.flash.erase(*numbers)
        elif kind == "options":
            named, kept = numbers[0], self.flash.options
            self.flash.write_options([named.get(i, kept[i]) for i in range(4)])


# Forms.

IN = re.compile(rb"\(in((?: [0-9A-F]{2}){1,522})\)")  # the longest frame has 522 bytes
WORK = re.compile(rb"\(work ([1-9][0-9]{0,3})\)")


class Bench:
    """The part of the program `bench`, and the forms that drive it."""

    def __init__(self):
        self.part = Part(WordFlash(16, 3, 3, [0xAA, 0, 0, 0]))

    def replies(self, line):
        """The lines that one line of input prints. `line` is bytes without its end."""
        if form := IN.fullmatch(line):
            given = bytes.fromhex(form[1].decode())
            answers = [self.part.receive(byte) for byte in given]
            return [self.shown(reply) for reply in answers if reply != QUIET]
        if form := WORK.fullmatch(line):
            for _ in range(int(form[1])):
                reply = self.part.work()
                if isinstance(reply, bytes):
                    break
            return [self.shown(reply)]
        if line == b"(reset)":
            return ["(reset)" if self.part.reset() else "(no ticket)"]
        if line == b"(fault)":
            return [self.shown_fault()]
        return ["(bad line)"]

    def shown(self, reply):
        if isinstance(reply, bytes):
            return "(out " + " ".join(format(byte, "02X") for byte in reply) + ")"
        return f"({reply})"

    def shown_fault(self):
        if self.part.fault is None:
            return "(fault none)"
        cause, which, address, command = self.part.fault
        return f"(fault {cause} {which} {address:08X} {command:02X})"


def lines_of(text):
    """Lines end at the byte 0A alone; a last line without its end counts."""
    lines = text.split(b"\n")
    return lines if lines[-1] else lines[:-1]


def main():
    bench = Bench()
    for line in lines_of(sys.stdin.buffer.read()):
        for reply in bench.replies(line):
            print(reply)


if __name__ == "__main__":
    main()
