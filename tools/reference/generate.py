#!/usr/bin/env python3
"""Prints random scripts for the console of the bench, made so that every rule of the bench is met sooner or later.

    generate.py SEED COUNT            the script that stands at place COUNT of those that SEED gives
    generate.py SEED COUNT --calls    the first COUNT scripts of SEED, one after the other, for `console.py --calls`
    generate.py SEED 1 --all-numbers  one long script that begins all 65,535 transfers, and then some more

One SEED, place and mode always give the same script. While a script is made, the reference bench takes each of its
lines, so that most transfers can be carried through, and turns be taken where something waits.
"""

import sys

sys.dont_write_bytecode = True

import argparse
import random

import console

# ---------------------------------------------------------------------------------------------------------------------
# What is chosen from

EDGE_NUMBERS = [0, 1, 2, 3, 126, 127, 128, 255]
SHORT_LENGTHS = [1, 2, 3, 4, 5, 6, 7, 8, 13, 14, 15]
MEDIUM_LENGTHS = [15, 20, 21, 22, 28, 35, 49, 55, 56, 57, 63, 64, 70]
LONG_LENGTHS = [127, 128, 440, 882, *range(888, 898), *range(1014, 1025)]
ODD_LENGTHS = [0, 0, 1, 1, 2, 2, 3, 3, 4, 4, 5, 5, 7, 8, 14, 17, 1025, 1025, 1026, 2000]

WRITABLE = {"sample": ["2000:01", "2001:00"], "drive": ["6060:00", "6083:00"]}
READABLE = {"sample": ["1000:00", "1008:00", "2000:01", "2001:00"], "drive": ["6060:00", "6083:00"]}
# Entries that are missing in one of the dictionaries or in both, or may not be written.
OTHERS = ["0000:00", "FFFF:FF", "1000:00", "1000:01", "1008:00", "1008:FF", "0FFF:00", "1007:00", "2000:00", "2000:02",
          "2001:01", "2001:80", "2002:00", "6060:00", "6060:01", "6083:00", "6083:01", "6083:FF", "6061:00", "8360:00"]
WAYS = ["expedited", "segmented", "block"]

MODES = [2, 255, 255, 0, 1, 3, 4, 5, 6, 7, 127, 128, 129]
ACCELERATIONS = [
    0, 0, 0, 1, 1, 1_000_000, 1_000_000, 1_000_001, 1_000_001, 1_000_001, 2, 255, 256, 65535, 65536, 999_999,
    16_777_215, 16_777_216, 0x40420F00, 0x7FFFFFFF, 0x80000000, 0xFFFFFFFF,
]

NOT_UNDERSTOOD = [
    "Serve", "SERVE", "hear 0", "hear 1001", "tick 0", "tick -1", "tick +5", "serve 0x10", "serve 1 1", "serve 1.0",
    "tick 1e2", "read", "read 1008", "read 1008:0", "read 108:00", "read 1008:000", "read 01008:00", "read 1008-00",
    "read 1008:00 00", "read 1008 :00", "read 100G:00", "read :", "read 1008:", "Read 1008:00", "write 2000:01 00 00",
    "write", "write block", "write Block 2001:00 31", "write blocks 2001:00 31", "write expedited 2000:01 0A0",
    "write expedited 2000:01 A", "write expedited 2000:01 0A00", "write expedited 2000:01 0x0A",
    "write expedited 2000:01 0G", "write block 31", "write expedited 2000:01 +1 00", "write block 2001:00 31 # text",
    "serve # text", " # text", "\t#", "x", "quit", "help", "serve\v", "hear\f1", "serve\0", "serve\r\r", "\udcff",
    "tick 1,000", "tick 99999999999999999999", "serve 18446744073709551617", "tick 4294967297", "settle 65536",
    "settle -1", "settle x", "settle 1024 1 1", "settle 99999999999999999999", "settle 4294968320", "bench",
    "bench 5 127 memory", "bench 256 1 memory sample", "bench 1 256 memory sample", "bench 1 1 memory samples",
    "bench 1 1 Memory sample", "bench 1 1 memory+drop sample", "bench 1 1 memory+drop: sample",
    "bench 1 1 memory+drop:0 sample", "bench 1 1 memory+drop:00000000000000001 sample",
    "bench 1 1 memory+drop:0x00000000000000 sample", "bench 1 1 memory+drop:000000000000000g sample",
    "bench 1 1 drop:0000000000000000 sample", "bench 1 1 memory sample x",
    "bench 1 1 mailbox+Drop:0000000000000000 sample", "bench -1 1 memory sample", "bench 1 1 sample memory",
    "bench 1 1 memory+drop:0000000000000000+drop:0000000000000000 sample", "entries 1", "commits 1", "entry",
    "Entries", "é",
]
PASSED_OVER = ["", " ", "\t", " \t ", "\r", " \r", "# text", "#", "#serve", "# read 1008:00\r"]


def spell_bytes(value):
    return "".join(f" {byte:02X}" for byte in value)


# ---------------------------------------------------------------------------------------------------------------------
# A script in the making


class Script:
    """The lines so far, and a session that has taken them all."""

    def __init__(self, chance, calls):
        self.chance = chance
        self.calls = calls
        self.lines = []
        self.session = (console.CallsSession if calls else console.Session)(lambda line: None)

    @property
    def bench(self):
        return self.session.bench

    @property
    def is_open(self):
        return self.bench.master.is_open

    @property
    def ticket(self):
        return self.bench.ticket_out

    @property
    def waits_for_node(self):
        return len(self.bench.line.for_node)

    @property
    def waits_for_master(self):
        return len(self.bench.line.for_master)

    def happens(self, share):
        return self.chance.random() < share

    def add(self, line):
        """A line as it stands; it may not be understood."""
        line = line.encode(errors="surrogateescape")
        self.lines.append(line)
        self.session.take_line(line)

    def command(self, text):
        """A command, now and then spelt in another way, and now and then behind a line that is not understood."""
        if self.happens(0.03):
            self.add(self.chance.choice(PASSED_OVER if self.happens(0.4) else NOT_UNDERSTOOD))
        self.add(self.spelt(text) if self.happens(0.06) else text)

    def spelt(self, text):
        words = text.split(" ")
        if self.happens(0.4):
            words = [word.lower() if ":" in word and "drop" not in word else word for word in words]
            words = [word.lower() if len(word) == 2 else word for word in words]
        if self.happens(0.3):
            words = [self.with_zeros(word) if len(word) != 2 and word.isdigit() else word for word in words]
        if self.happens(0.5):
            gaps = [" ", "  ", "\t", " \t "]
            text = "".join(word + self.chance.choice(gaps) for word in words)
            return self.chance.choice(["", " ", "\t"]) + text + self.chance.choice(["", "\r"])
        return " ".join(words) + ("\r" if self.happens(0.4) else "")

    def with_zeros(self, word):
        return "0" * self.chance.randint(1, 30) + word

    def times(self, call, number):
        """So many calls, in one line, in one line each, or parted."""
        if number < 1:
            return
        if number == 1:
            self.command(call if self.happens(0.9) else f"{call} 1")
        elif number <= 3 and self.happens(0.3):
            for _ in range(number):
                self.command(call)
        elif self.happens(0.15):
            first = self.chance.randint(1, number - 1)
            self.command(f"{call} {first}")
            self.command(f"{call} {number - first}")
        else:
            self.command(f"{call} {number}")

    def settle(self, size=None):
        behind = "" if size is None else f" {size}"
        if self.calls:
            self.command(f"settle {self.ticket or self.bench.master.begun}{behind}")
        else:
            self.command(f"settle{behind}")


# ---------------------------------------------------------------------------------------------------------------------
# Values and orders


def some_value(script, length):
    chance = script.chance
    kind = chance.random()
    if kind < 0.15:
        return bytes([chance.choice([0x00, 0xFF, 0x80, 0x7F])]) * length
    if kind < 0.3:
        return bytes((place + 1) % 256 for place in range(length))
    return chance.randbytes(length)


def some_length(script):
    lengths = SHORT_LENGTHS
    if script.happens(0.25):
        lengths = MEDIUM_LENGTHS
    if script.long_values and script.happens(0.6):
        lengths = LONG_LENGTHS
    return script.chance.choice(lengths)


def fitting_value(script, entry):
    chance = script.chance
    if entry == "2000:01":
        return some_value(script, 2)
    if entry == "6060:00":
        return bytes([chance.choice(MODES if script.happens(0.4) else [1, 3, 6])])
    if entry == "6083:00":
        number = chance.choice(ACCELERATIONS) if script.happens(0.6) else chance.randint(1, 1_000_000)
        return number.to_bytes(4, "little")
    return some_value(script, some_length(script))


def some_write(script):
    """A write that goes through on a line that loses nothing, but for a number that a drive does not admit."""
    entry = script.chance.choice(WRITABLE[script.dictionary])
    value = fitting_value(script, entry)
    ways = WAYS if len(value) <= 4 else WAYS[1:]
    # Long values go by block, so that the script does not become too long.
    way = "block" if len(value) > 80 and not script.many_lines else script.chance.choice(ways)
    return f"write {way} {entry}{spell_bytes(value)}"


def some_read(script):
    return f"read {script.chance.choice(READABLE[script.dictionary])}"


def some_odd_order(script):
    """Anything: entries that are missing or may not be written, lengths that do not fit."""
    chance = script.chance
    entry = chance.choice(OTHERS + WRITABLE[script.dictionary] * 8)
    if script.happens(0.25):
        return f"read {entry}"
    length = chance.choice(ODD_LENGTHS)
    if length > 1024 and not script.long_values:
        length = chance.choice([0, 1, 4, 5])
    # Expedited writes of more than four bytes are refused at once.
    way = chance.choice(WAYS if length <= 4 else ["expedited", "segmented", "segmented", "block", "block"])
    return f"write {way} {entry}{spell_bytes(some_value(script, length))}"


def some_order(script):
    kind = script.chance.random()
    if kind < 0.5:
        return some_write(script)
    if kind < 0.72:
        return some_read(script)
    return some_odd_order(script)


# ---------------------------------------------------------------------------------------------------------------------
# Parts of a script


def carry_on(script, turns=1000):
    """Serve and hear in turns while the transfer is open and something waits, at most so often."""
    while script.is_open and turns > 0 and len(script.lines) < script.limit:
        turns -= 1
        if script.waits_for_node:
            number = script.waits_for_node
            if script.happens(0.15):
                number = script.chance.randint(1, number + 2)
            script.times("serve", number)
        elif script.waits_for_master:
            script.command("hear" if script.happens(0.95) else "hear 2")
        else:
            return
        if script.happens(0.03):
            script.times("tick", script.chance.randint(1, 9))


def wait_for_end(script):
    """Ticks until the transfer is over: to the tenth, past it, or with looks at the line in between."""
    chance = script.chance
    while script.is_open and len(script.lines) < script.limit + 20:
        left = 10 - script.bench.master.wait
        script.times("tick", chance.choice([left, left, left, left + 1, max(1, left - 1), 1, chance.randint(1, 12)]))
        if script.happens(0.2):
            script.command(chance.choice(["serve", "hear", "serve 2", "hear 2"]))


def settle_up(script):
    """Settles, at times not at once: with a short buffer, a wrong ticket or a begin that is refused before it."""
    chance = script.chance
    if script.happens(0.12):
        script.settle(chance.choice([0, 1, 100, 1023, 1023]))
    if script.calls and script.happens(0.15):
        wrong_ticket(script)
    if script.happens(0.07):
        script.command(some_order(script))
    if script.happens(0.06):
        script.times(chance.choice(["serve", "hear", "tick"]), chance.choice([1, 2, 29, 30]))
    script.settle(chance.choice([None] * 12 + [1024, 1024, 1025, 65535]))
    if script.happens(0.05):
        script.settle()


def wrong_ticket(script):
    chance = script.chance
    begun = script.bench.master.begun
    number = chance.choice([0, 1, begun - 1, begun, begun + 1, begun + 256, 65535, chance.randint(0, 65535)])
    number = max(0, min(65535, number))
    script.command(f"settle {number}{chance.choice(['', '', ' 0', ' 1023', ' 1024', ' 65535'])}")


def look_at_the_last_ticks_of_the_node(script):
    """Where the node is still busy: whether its abort comes in the 25th tick since it took a frame, and not before."""
    wait, rest_left = script.bench.node.wait, script.bench.master.rest
    if script.bench.node.is_idle or not 24 - wait < rest_left - 1:
        return
    if script.happens(0.4):
        script.command("hear")
    script.times("tick", 24 - wait)
    script.command("serve" if script.happens(0.3) else "hear")
    script.command("tick")
    script.command("hear")


def rest(script):
    """Ticks until the master can begin again, at times with a begin before it can, or a look at the line."""
    chance = script.chance
    if script.happens(0.4):
        look_at_the_last_ticks_of_the_node(script)
    while script.bench.master.rest and len(script.lines) < script.limit + 20:
        left = script.bench.master.rest
        kind = chance.random()
        if kind < 0.45:
            script.times("tick", left)
        elif kind < 0.6 and left > 1:
            script.times("tick", left - 1)
            if script.happens(0.5):
                script.command(some_order(script))
        elif kind < 0.7:
            script.command(some_order(script))
        elif kind < 0.85:
            script.times(chance.choice(["serve", "hear"]), chance.choice([1, 1, 2, 3]))
        else:
            script.times("tick", chance.choice([1, 2, 14, 15, 16, 23, 24, 25, 26, 31, 35]))


def whole_transfer(script, order=None):
    script.command(order or some_order(script))
    if not script.is_open:
        return
    carry_on(script)
    if script.is_open:
        wait_for_end(script)
    settle_up(script)
    rest(script)


def read_back(script):
    """A write and a read of the same entry."""
    order = some_write(script)
    whole_transfer(script, order)
    entry = order.split(" ")[2]
    if len(script.bench.dictionary.value(console.read_multiplexor(entry.encode()))) <= 80 or script.many_lines:
        whole_transfer(script, f"read {entry}")


def given_up(script):
    """A transfer that is settled while it is open."""
    script.command(some_order(script))
    carry_on(script, script.chance.randint(0, 6))
    if script.happens(0.3):
        script.times("tick", script.chance.randint(1, 9))
    settle_up(script)
    rest(script)


def slow_turns(script):
    """Ticks at the edges of the two waits between the turns of a transfer."""
    chance = script.chance
    script.command(some_order(script))
    for _ in range(chance.randint(2, 6)):
        if script.is_open:
            script.times("tick", chance.choice([1, 5, 8, 9, 9, 9, 10]))
            carry_on(script, chance.randint(1, 2))
    if script.happens(0.4):
        carry_on(script)
    wait_for_end(script)
    if script.happens(0.5):
        script.times("serve", chance.randint(1, 3))
    if script.happens(0.7):
        script.times("tick", chance.choice([14, 15, 16, 24, 25, 26, 29]))
        script.times("hear", chance.randint(1, 2))
    settle_up(script)
    rest(script)


def left_alone(script):
    """A transfer that nobody goes on with, long enough for both ends to run out of time."""
    chance = script.chance
    script.command(some_write(script) if script.happens(0.7) else some_read(script))
    carry_on(script, chance.randint(1, 7))
    if script.happens(0.5):
        settle_up(script)
    for _ in range(chance.randint(1, 4)):
        script.times("tick", chance.choice([1, 5, 9, 10, 11, 14, 15, 16, 24, 25, 26, 30, 40]))
        if script.happens(0.4):
            script.times(chance.choice(["serve", "hear"]), chance.randint(1, 3))
    settle_up(script)
    rest(script)


def anything(script):
    """Calls in no order at all."""
    chance = script.chance
    for _ in range(chance.randint(3, 12)):
        kind = chance.random()
        if kind < 0.2:
            script.command(some_order(script))
        elif kind < 0.75:
            call = chance.choice(["serve", "serve", "hear", "hear", "tick"])
            script.times(call, chance.choice([1, 1, 1, 2, 3, 5, 10]))
        elif kind < 0.85:
            script.settle(chance.choice([None, None, None, 0, 1023, 1024]))
        elif script.calls:
            wrong_ticket(script)
        else:
            script.command(chance.choice(["entries", "commits"]))


PARTS = [(whole_transfer, 9), (read_back, 6), (given_up, 2), (slow_turns, 2), (left_alone, 2), (anything, 2)]


# ---------------------------------------------------------------------------------------------------------------------
# Whole scripts


def some_pattern(chance):
    """A drop layer's pattern: one frame, some, a run of them, every second or so, or many."""
    kind = chance.random()
    if kind < 0.35:
        return 1 << chance.randint(0, chance.choice([7, 15, 31, 63]))
    if kind < 0.55:
        return sum(1 << place for place in chance.sample(range(64), chance.randint(2, 6)))
    if kind < 0.7:
        first, run = chance.randint(0, 24), chance.randint(2, 8)
        return ((1 << run) - 1 << first) % (1 << 64)
    if kind < 0.8:
        return chance.choice([0, 0xAAAAAAAAAAAAAAAA, 0x5555555555555555, (1 << 64) - 1, 1 << 63, 1 << 63 | 1])
    if kind < 0.9:
        return chance.getrandbits(64) & chance.getrandbits(64)
    return chance.getrandbits(64)


def some_number(chance):
    kind = chance.random()
    if kind < 0.6:
        return chance.choice(EDGE_NUMBERS)
    return chance.randint(1, 12) if kind < 0.85 else chance.randint(0, 255)


def some_line(chance):
    line = chance.choice(["memory", "memory", "memory", "mailbox"])
    if chance.random() < 0.45:
        return line
    return f"{line}+drop:{spell_pattern(chance, some_pattern(chance))}"


def spell_pattern(chance, pattern):
    return f"{pattern:016x}" if chance.random() < 0.2 else f"{pattern:016X}"


def open_script(script, line, block_size=None):
    chance = script.chance
    script.dictionary = chance.choice(["sample", "sample", "drive"])
    if block_size is not None:
        script.dictionary = "sample"
    block_size = some_number(chance) if block_size is None else block_size
    if not script.calls and script.happens(0.05):
        script.add(chance.choice(["serve", "read 1008:00", "settle", "entries", "commits", "tick 3", *NOT_UNDERSTOOD]))
    script.command(f"bench {some_number(chance)} {block_size} {line} {script.dictionary}")


def mixed(script):
    open_script(script, some_line(script.chance))
    parts, weights = zip(*PARTS)
    end = script.limit * 2 // 3
    while len(script.lines) < end:
        script.chance.choices(parts, weights)[0](script)
        if script.happens(0.1):
            break


def short_acknowledgements(script):
    """A block write whose sub-blocks lose a segment again and again; the ninth time ends it."""
    chance = script.chance
    block_size = chance.choice([2, 2, 2, 2, 3, 3, 4, 5, 6, 10, 31])
    times = chance.choice([1, 2, 7, 8, 8, 8, 9, 9, 9, 9, 10, 12, 20])
    # How often a sub-block that loses nothing comes in between, and one that loses its last segment, which ends it all.
    whole, ending = chance.choice([0, 0, 0.2, 0.5, 1]), chance.choice([0, 0, 0, 0.1])
    pattern, place = 0, 2
    for _ in range(times):
        lost = block_size - 1 if script.happens(ending) else chance.randint(0, block_size - 2)
        pattern |= 1 << (place + lost) % 64
        # The frames of a round: those of the sub-block, and its acknowledgement.
        place += (block_size + 1) * (2 if script.happens(whole) else 1)
    open_script(script, f"memory+drop:{spell_pattern(chance, pattern)}", block_size)
    length = chance.choice([7 * block_size, 7 * block_size - 1, 7 * block_size + 1, 57, 128, 250, 350, 441])
    value = some_value(script, min(1024, length))
    whole_transfer(script, f"write block 2001:00{spell_bytes(value)}")
    while len(script.lines) < script.limit // 2:
        whole_transfer(script)


def long_blocks(script):
    """Block writes of long values, with few frames lost."""
    chance = script.chance
    line = "memory"
    if script.happens(0.6):
        line += f"+drop:{spell_pattern(chance, 1 << chance.randint(0, 63))}"
    open_script(script, line, chance.choice([0, 63, 64, 73, 74, 125, 126, 127, 128, 146, 147, 255, 20, 49]))
    for _ in range(chance.randint(1, 3)):
        value = some_value(script, chance.choice(LONG_LENGTHS))
        whole_transfer(script, f"write block 2001:00{spell_bytes(value)}")


def mailbox_blocks(script):
    """Block writes on a mailbox line, which go through only with one segment at a time."""
    chance = script.chance
    open_script(script, "mailbox", chance.choice([0, 1, 1, 1, 2, 2, 3, 127]))
    while len(script.lines) < script.limit // 2:
        value = some_value(script, chance.choice([1, 6, 7, 8, 13, 14, 15, 21, 22, 56, 57]))
        whole_transfer(script, f"write block 2001:00{spell_bytes(value)}")
        if len(value) < 25 and script.happens(0.5):
            whole_transfer(script, "read 2001:00")


KINDS = [(mixed, 75), (short_acknowledgements, 12), (long_blocks, 5), (mailbox_blocks, 8)]


def close_script(script):
    """What the end of an input can be: a ticket that is held or none, the last line with or without its end."""
    if not script.calls and script.happens(0.8):
        script.command("entries")
        script.command("commits")
    if script.happens(0.1):
        script.command(some_order(script))
        carry_on(script, script.chance.randint(0, 4))
    if script.happens(0.01):
        script.command(f"{script.chance.choice(['serve', 'hear', 'tick'])} {script.chance.choice([999, 1000])}")
    ending = b"\n" if script.calls or script.happens(0.95) else script.chance.choice([b"", b"\r"])
    return b"\n".join(script.lines) + ending


def make_script(seed, place, calls):
    """The script at a place of those that the seed gives, from 1 on, as bytes."""
    chance = random.Random(f"{seed} {place} {calls}")
    script = Script(chance, calls)
    script.long_values = chance.random() < 0.12
    script.many_lines = chance.random() < 0.03
    script.limit = chance.randint(250, 900) if script.many_lines else chance.randint(15, 52)
    kinds, weights = zip(*KINDS)
    chance.choices(kinds, weights)[0](script)
    return close_script(script)


def make_all_numbers(seed, calls):
    """All 65,535 transfers are begun, and some more that are refused by 3."""
    chance = random.Random(f"{seed} all {calls}")
    script = Script(chance, calls)
    script.add("bench 5 127 memory sample")
    while script.bench.master.begun < 65535:
        if script.happens(0.2):
            script.add("read 2000:01")
        else:
            script.add(f"write expedited 2000:01{spell_bytes(chance.randbytes(2))}")
        script.add("serve")
        script.add("hear")
        script.add(f"settle {script.ticket}" if calls else "settle")
    for order in ("read 2000:01", "write expedited 2000:01", "write block 2001:00 00"):
        script.add(order)
    script.add("settle 65535" if calls else "settle")
    return b"\n".join(script.lines) + b"\n"


def main():
    parser = argparse.ArgumentParser(description=__doc__, formatter_class=argparse.RawDescriptionHelpFormatter)
    parser.add_argument("seed", metavar="SEED")
    parser.add_argument("count", metavar="COUNT", type=int)
    parser.add_argument("--calls", action="store_true", help="COUNT scripts one after the other")
    parser.add_argument("--all-numbers", action="store_true", help="the script of all ticket numbers")
    arguments = parser.parse_args()
    if arguments.all_numbers:
        scripts = [make_all_numbers(arguments.seed, arguments.calls)]
    elif arguments.calls:
        scripts = (make_script(arguments.seed, place, True) for place in range(1, arguments.count + 1))
    else:
        scripts = [make_script(arguments.seed, arguments.count, False)]
    for script in scripts:
        sys.stdout.buffer.write(script)


if __name__ == "__main__":
    main()
