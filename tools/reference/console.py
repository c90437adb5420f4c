#!/usr/bin/env python3
"""The console of the reference bench: makes the calls of a bench by a script and shows what becomes of them.

It reads standard input, one command a line, and prints what docs/console.md says.

With --calls the input has many scripts, one after the other, each from its own `bench` line on. The commands are those
of the console, but for `settle NUMBER [SIZE]`, which settles by a ticket of any number, and without `entries` and
`commits`. For each script it prints `script N`, one line for each call but none for the frames, `frames N crc XXXX`
(the count of all frames that both ends sent, and the check value over the last 256 of them, each as its identifier, low
byte first, and its eight bytes), and then the dictionary's entries and the commits. Nothing is settled at a script's
end.
"""

import sys

sys.dont_write_bytecode = True

import argparse
from collections import deque, namedtuple

import bench as benches

LONGEST_REPEAT = 1000
LARGEST_NUMBER = 65535
WHOLE_BUFFER = 1024
FRAMES_CHECKED = 256

DIGITS = b"0123456789"
HEX_DIGITS = b"0123456789abcdefABCDEF"

LINES = {b"memory": benches.memory_line, b"mailbox": benches.mailbox_line}
DICTIONARIES = {b"sample": benches.sample, b"drive": benches.drive}
WAYS = {b"expedited": benches.EXPEDITED, b"segmented": benches.SEGMENTED, b"block": benches.BLOCK}

# ---------------------------------------------------------------------------------------------------------------------
# What a line says

Make = namedtuple("Make", "node block_size line dictionary")
Write = namedtuple("Write", "multiplexor value way")
Read = namedtuple("Read", "multiplexor")
Repeat = namedtuple("Repeat", "call times")
# The number is None where the ticket that is held is meant.
Settle = namedtuple("Settle", "number size")
Entries = namedtuple("Entries", "")
Commits = namedtuple("Commits", "")


class NotUnderstood(Exception):
    pass


def require(condition):
    if not condition:
        raise NotUnderstood


def split_words(line):
    """The words of a line, or none where it is passed over. Only blanks and tabs part words."""
    if line.endswith(b"\r"):
        line = line[:-1]
    if line.startswith(b"#"):
        return []
    return [word for word in line.replace(b"\t", b" ").split(b" ") if word]


def read_decimal(word, lowest, highest):
    require(word and all(byte in DIGITS for byte in word))
    digits = word.lstrip(b"0") or b"0"
    require(len(digits) <= len(str(highest)))
    number = int(digits)
    require(lowest <= number <= highest)
    return number


def read_hex(word, digits):
    require(len(word) == digits and all(byte in HEX_DIGITS for byte in word))
    return int(word, 16)


def read_multiplexor(word):
    require(len(word) == 7 and word[4:5] == b":")
    return benches.Multiplexor(read_hex(word[:4], 4), read_hex(word[5:], 2))


def read_choice(word, choices):
    require(word in choices)
    return choices[word]


def read_line_word(word):
    """Answers what makes the line."""
    name, plus, pattern = word.partition(b"+drop:")
    make_line = read_choice(name, LINES)
    if not plus:
        return make_line
    bits = read_hex(pattern, 16)
    return lambda: benches.DropLayer(make_line(), bits)


def read_make(words):
    require(len(words) == 4)
    node, block_size, line, dictionary = words
    return Make(read_decimal(node, 0, 255), read_decimal(block_size, 0, 255), read_line_word(line),
                read_choice(dictionary, DICTIONARIES))


def read_write(words):
    require(len(words) >= 2)
    value = bytes(read_hex(word, 2) for word in words[2:])
    return Write(read_multiplexor(words[1]), value, read_choice(words[0], WAYS))


def read_read(words):
    require(len(words) == 1)
    return Read(read_multiplexor(words[0]))


def read_repeat(call, words):
    require(len(words) <= 1)
    return Repeat(call, read_decimal(words[0], 1, LONGEST_REPEAT) if words else 1)


def read_size(words):
    require(len(words) <= 1)
    return read_decimal(words[0], 0, LARGEST_NUMBER) if words else WHOLE_BUFFER


def read_settle(words):
    return Settle(None, read_size(words))


def read_numbered_settle(words):
    require(words)
    return Settle(read_decimal(words[0], 0, LARGEST_NUMBER), read_size(words[1:]))


def read_alone(command, words):
    require(not words)
    return command


COMMON_COMMANDS = {
    b"bench": read_make,
    b"write": read_write,
    b"read": read_read,
    b"serve": lambda words: read_repeat("serve", words),
    b"hear": lambda words: read_repeat("hear", words),
    b"tick": lambda words: read_repeat("tick", words),
}

CONSOLE_COMMANDS = COMMON_COMMANDS | {
    b"settle": read_settle,
    b"entries": lambda words: read_alone(Entries(), words),
    b"commits": lambda words: read_alone(Commits(), words),
}

CALLS_COMMANDS = COMMON_COMMANDS | {b"settle": read_numbered_settle}


def read_command(words, commands):
    return read_choice(words[0], commands)(words[1:])


# ---------------------------------------------------------------------------------------------------------------------
# What is printed


def show_bytes(data):
    return " ".join(f"{byte:02X}" for byte in data)


def show_code(code):
    return f"{code >> 16:04X} {code & 0xFFFF:04X}"


def show_begin(ticket):
    if isinstance(ticket, benches.Refusal):
        return f"begin: refused {ticket.number}"
    return f"begin: ticket {ticket}"


def show_report(report, buffer):
    if isinstance(report, benches.Refusal):
        return f"settle: refused {report.number}"
    if isinstance(report, benches.Written):
        return "settle: Written"
    if isinstance(report, benches.Read):
        return f"settle: Read {report.length}: {show_bytes(buffer[:report.length])}"
    failure = report.failure
    return (f"settle: {type(report).__name__} {failure.multiplexor} {show_code(failure.code)}"
            f" segment {failure.segment} layer {failure.layer}")


def show_entry(multiplexor, entry):
    return (f"entry {multiplexor} access {entry.access} length {entry.shortest} to {entry.longest}"
            f" value {show_bytes(entry.value)}")


def show_entries(bench):
    return [show_entry(multiplexor, entry) for multiplexor, entry in bench.dictionary.entries.items()]


def show_commits(bench):
    return f"commits {bench.commits}"


# ---------------------------------------------------------------------------------------------------------------------
# A session

CALLS = {
    "serve": lambda bench: f"serve: {bench.serve()}",
    "hear": lambda bench: f"hear: {bench.hear()}",
    "tick": lambda bench: "tick: ended" if bench.tick() else "tick: not ended",
}


class Session:
    """Takes the lines of an input one by one, and hands each line that it prints to `emit`."""

    commands = CONSOLE_COMMANDS

    def __init__(self, emit):
        self.emit = emit
        self.bench = None
        self.lines = 0

    def take_line(self, line):
        self.lines += 1
        words = split_words(line)
        if not words:
            return
        try:
            self.do(read_command(words, self.commands))
        except NotUnderstood:
            self.emit(f"line {self.lines}: not understood")

    def end(self):
        if self.bench and self.bench.ticket_out:
            self.settle(Settle(None, WHOLE_BUFFER))

    def do(self, command):
        if isinstance(command, Make):
            self.make(command)
            return
        require(self.bench)
        if isinstance(command, Write):
            self.tell(show_begin(self.bench.begin_write(command.multiplexor, command.value, command.way)))
        elif isinstance(command, Read):
            self.tell(show_begin(self.bench.begin_read(command.multiplexor)))
        elif isinstance(command, Repeat):
            for _ in range(command.times):
                self.tell(CALLS[command.call](self.bench))
        elif isinstance(command, Settle):
            self.settle(command)
        elif isinstance(command, Entries):
            self.emit_entries()
        else:
            self.emit(show_commits(self.bench))

    def make(self, command):
        require(not self.bench)
        self.bench = benches.Bench(command.node, command.block_size, command.line(), command.dictionary())

    def settle(self, command):
        number = self.bench.ticket_out if command.number is None else command.number
        if number is None:
            self.emit("settle: no ticket")
            return
        buffer = bytearray(command.size)
        self.tell(show_report(self.bench.settle(number, buffer), buffer))

    def tell(self, line):
        """Prints the line of a call, and behind it the frames that were sent in it."""
        self.emit(line)
        for frame in self.bench.take_sent():
            self.emit(f"  {frame}")

    def emit_entries(self):
        for line in show_entries(self.bench):
            self.emit(line)


class CallsSession(Session):
    """A session of many scripts (--calls)."""

    commands = CALLS_COMMANDS

    def __init__(self, emit):
        super().__init__(emit)
        self.scripts = 0
        self.frames = 0
        self.last_frames = deque(maxlen=FRAMES_CHECKED)

    def make(self, command):
        self.end()
        self.scripts += 1
        self.frames = 0
        self.last_frames.clear()
        self.bench = None
        super().make(command)
        self.emit(f"script {self.scripts}")

    def tell(self, line):
        self.emit(line)
        for frame in self.bench.take_sent():
            self.frames += 1
            self.last_frames.append(frame)

    def end(self):
        if not self.bench:
            return
        data = b"".join(frame.identifier.to_bytes(2, "little") + frame.data for frame in self.last_frames)
        self.emit(f"frames {self.frames} crc {benches.check_value(data):04X}")
        self.emit_entries()
        self.emit(show_commits(self.bench))


def run(text, calls):
    """What the console prints for an input, as bytes."""
    printed = []
    session = (CallsSession if calls else Session)(printed.append)
    for line in text.split(b"\n"):
        session.take_line(line)
    session.end()
    return "".join(line + "\n" for line in printed).encode()


def main():
    parser = argparse.ArgumentParser(description=__doc__, formatter_class=argparse.RawDescriptionHelpFormatter)
    parser.add_argument("--calls", action="store_true", help="many scripts, and calls without their frames")
    arguments = parser.parse_args()
    session = (CallsSession if arguments.calls else Session)(print)
    for line in sys.stdin.buffer:
        session.take_line(line.removesuffix(b"\n"))
    session.end()


if __name__ == "__main__":
    main()
