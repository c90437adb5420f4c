"""A bench for CANopen SDO transfers: one master, one node, the line that joins them, and the node's dictionary.

It was written from the pages in docs/ alone (bench.md and what it points to) and shares nothing with the code of the
project, so that the two can be compared: see console.py, generate.py and compare in this folder. Numbers in brackets
in comments are the rows of the tables in docs/node.md and docs/master.md.
"""

from binascii import crc_hqx
from collections import deque, namedtuple
from dataclasses import dataclass, field

# ---------------------------------------------------------------------------------------------------------------------
# Numbers

LONGEST_VALUE = 1024
SEGMENT_BYTES = 7
# A node keeps 147 segments of a block write: a value of 1,024 bytes and what fills up its last segment.
SEGMENTS_KEPT = 147
MASTER_TICKS = 10
REST_TICKS = 30
NODE_TICKS = 25
SHORT_ACKNOWLEDGEMENTS = 8
LAST_NUMBER = 65535

TO_NODE = 0x600
TO_MASTER = 0x580

TOGGLE_NOT_ALTERNATED = 0x05030000
TIMED_OUT = 0x05040000
UNKNOWN_COMMAND = 0x05040001
INVALID_BLOCK_SIZE = 0x05040002
INVALID_SEQUENCE_NUMBER = 0x05040003
CRC_ERROR = 0x05040004
OUT_OF_MEMORY = 0x05040005
WRITE_ONLY = 0x06010001
READ_ONLY = 0x06010002
NO_OBJECT = 0x06020000
LENGTH_MISMATCH = 0x06070010
LENGTH_TOO_HIGH = 0x06070012
LENGTH_TOO_LOW = 0x06070013
NO_SUBINDEX = 0x06090011
INVALID_VALUE = 0x06090030
GENERAL_ERROR = 0x08000000

# What a dictionary says against a read or a write; a code heard that is none of these is told by the protocol.
VERDICTS = {WRITE_ONLY, READ_ONLY, NO_OBJECT, LENGTH_TOO_HIGH, LENGTH_TOO_LOW, NO_SUBINDEX, INVALID_VALUE}


def layer(code, heard):
    """Where a transfer failed: 1 found by the master, 2 told by the protocol, 3 told by the dictionary."""
    if not heard:
        return 1
    return 3 if code in VERDICTS else 2


def check_value(data):
    """The CRC of a block transfer: generator 0x1021, start 0, from the highest bit, nothing at the end."""
    return crc_hqx(data, 0)


def nearest(number, lowest, highest):
    return max(lowest, min(highest, number))


# ---------------------------------------------------------------------------------------------------------------------
# Frames and the line


class Multiplexor(namedtuple("Multiplexor", "index subindex")):
    """The address of a value; ordered by index, then by subindex."""

    def __str__(self):
        return f"{self.index:04X}:{self.subindex:02X}"


NO_MULTIPLEXOR = Multiplexor(0, 0)


class Frame(namedtuple("Frame", "identifier data")):
    """An identifier of 11 bits and eight bytes."""

    def __str__(self):
        return f"{self.identifier:03X}#{self.data.hex().upper()}"


class BoundedLine:
    """A line with room for so many frames each way; one more is lost."""

    def __init__(self, room):
        self.room = room
        self.for_node = deque()
        self.for_master = deque()

    def send_to_node(self, frame):
        self._send(self.for_node, frame)

    def send_to_master(self, frame):
        self._send(self.for_master, frame)

    def take_for_node(self):
        return self.for_node.popleft() if self.for_node else None

    def take_for_master(self):
        return self.for_master.popleft() if self.for_master else None

    def quiet(self):
        self.for_node.clear()
        self.for_master.clear()

    def _send(self, waiting, frame):
        if len(waiting) < self.room:
            waiting.append(frame)


def memory_line():
    return BoundedLine(130)


def mailbox_line():
    return BoundedLine(1)


class DropLayer:
    """A layer on a line that loses the frames its pattern says, one bit for each send in either direction."""

    def __init__(self, line, pattern):
        self.line = line
        self.pattern = pattern

    @property
    def for_node(self):
        return self.line.for_node

    @property
    def for_master(self):
        return self.line.for_master

    def send_to_node(self, frame):
        if not self._loses():
            self.line.send_to_node(frame)

    def send_to_master(self, frame):
        if not self._loses():
            self.line.send_to_master(frame)

    def take_for_node(self):
        return self.line.take_for_node()

    def take_for_master(self):
        return self.line.take_for_master()

    def quiet(self):
        self.line.quiet()

    def _loses(self):
        """Whether the lowest bit is 1; then the pattern is turned right, so that this bit becomes the highest."""
        lowest = self.pattern & 1
        self.pattern = self.pattern >> 1 | lowest << 63
        return lowest == 1


# ---------------------------------------------------------------------------------------------------------------------
# The dictionary

READ, WRITE, READ_WRITE = 1, 2, 3


@dataclass
class Entry:
    access: int
    shortest: int
    longest: int
    value: bytes
    admits: object = field(default=lambda value: True)


class Dictionary:
    """Entries by their multiplexors. A verdict is an abort code, or None where there is nothing against it."""

    def __init__(self, entries):
        self.entries = dict(sorted(entries.items()))

    def read_verdict(self, multiplexor):
        missing = self._missing(multiplexor)
        if missing:
            return missing
        return None if self.entries[multiplexor].access & READ else WRITE_ONLY

    def start_verdict(self, multiplexor, size):
        """Against the start of a write whose value comes later; the size is None where none was announced."""
        missing = self._missing(multiplexor)
        if missing:
            return missing
        entry = self.entries[multiplexor]
        if not entry.access & WRITE:
            return READ_ONLY
        if size is not None and size < entry.shortest:
            return LENGTH_TOO_LOW
        if size is not None and size > entry.longest:
            return LENGTH_TOO_HIGH
        return None

    def write_verdict(self, multiplexor, value):
        verdict = self.start_verdict(multiplexor, len(value))
        if verdict:
            return verdict
        return None if self.entries[multiplexor].admits(value) else INVALID_VALUE

    def value(self, multiplexor):
        return self.entries[multiplexor].value

    def commit(self, multiplexor, value):
        """Sets the value where there is no verdict; answers the verdict."""
        verdict = self.write_verdict(multiplexor, value)
        if not verdict:
            self.entries[multiplexor].value = bytes(value)
        return verdict

    def _missing(self, multiplexor):
        if multiplexor in self.entries:
            return None
        if any(entry.index == multiplexor.index for entry in self.entries):
            return NO_SUBINDEX
        return NO_OBJECT


def sample():
    return Dictionary({
        Multiplexor(0x1000, 0): Entry(READ, 4, 4, bytes.fromhex("92010200")),
        Multiplexor(0x1008, 0): Entry(READ, 1, 16, b"loader"),
        Multiplexor(0x2000, 1): Entry(READ_WRITE, 2, 2, bytes.fromhex("0A00")),
        Multiplexor(0x2001, 0): Entry(READ_WRITE, 1, 1024, bytes.fromhex("00")),
    })


def drive():
    return Dictionary({
        Multiplexor(0x6060, 0): Entry(READ_WRITE, 1, 1, (1).to_bytes(1, "little"), is_mode),
        Multiplexor(0x6083, 0): Entry(READ_WRITE, 4, 4, (1000).to_bytes(4, "little"), is_acceleration),
    })


def is_mode(value):
    """1 is profile position, 3 profile velocity, 6 homing."""
    return int.from_bytes(value, "little", signed=True) in (1, 3, 6)


def is_acceleration(value):
    return 1 <= int.from_bytes(value, "little") <= 1_000_000


# ---------------------------------------------------------------------------------------------------------------------
# Messages: what the eight bytes of a frame say (docs/messages.md)

# From a master. A value is None where it comes later, a size is None where it is unknown.
StartWrite = namedtuple("StartWrite", "multiplexor value size")
StartRead = namedtuple("StartRead", "multiplexor")
StartBlock = namedtuple("StartBlock", "multiplexor crc_offered size")
AskSegment = namedtuple("AskSegment", "toggle")
EndBlock = namedtuple("EndBlock", "unused crc")
BlockSegment = namedtuple("BlockSegment", "last number part")

# From a node.
WriteStarted = namedtuple("WriteStarted", "multiplexor")
SegmentTaken = namedtuple("SegmentTaken", "toggle")
ReadStarted = namedtuple("ReadStarted", "multiplexor value size")
BlockStarted = namedtuple("BlockStarted", "multiplexor crc_offered block_size")
Acknowledged = namedtuple("Acknowledged", "last_kept block_size")
BlockClosed = namedtuple("BlockClosed", "")

# From either: a segment written or a segment given, and an abort.
Segment = namedtuple("Segment", "toggle part last")
Abort = namedtuple("Abort", "multiplexor code")

STARTS = (StartWrite, StartRead, StartBlock)


def message(command, *fields):
    return (bytes([command]) + b"".join(fields)).ljust(8, b"\0")


def multiplexor_bytes(multiplexor):
    return multiplexor.index.to_bytes(2, "little") + bytes([multiplexor.subindex])


def number_bytes(number):
    return number.to_bytes(4, "little")


def abort(multiplexor, code):
    return message(0x80, multiplexor_bytes(multiplexor), number_bytes(code))


def segment(toggle, part, last):
    return message(16 * toggle + 2 * (SEGMENT_BYTES - len(part)) + last, part)


def start_expedited(multiplexor, value):
    return message(0x23 + 4 * (4 - len(value)), multiplexor_bytes(multiplexor), value)


def start_segmented(multiplexor, size):
    return message(0x21, multiplexor_bytes(multiplexor), number_bytes(size))


def start_read(multiplexor):
    return message(0x40, multiplexor_bytes(multiplexor))


def start_block(multiplexor, size):
    return message(0xC6, multiplexor_bytes(multiplexor), number_bytes(size))


def ask_segment(toggle):
    return message(0x60 + 16 * toggle)


def block_segment(number, part, last):
    return message(128 * last + number, part)


def end_block(unused, crc):
    return message(0xC1 + 4 * unused, crc.to_bytes(2, "little"))


def write_started(multiplexor):
    return message(0x60, multiplexor_bytes(multiplexor))


def segment_taken(toggle):
    return message(0x20 + 16 * toggle)


def value_given(multiplexor, value):
    return message(0x43 + 4 * (4 - len(value)), multiplexor_bytes(multiplexor), value)


def size_given(multiplexor, size):
    return message(0x41, multiplexor_bytes(multiplexor), number_bytes(size))


def block_started(multiplexor, block_size):
    return message(0xA4, multiplexor_bytes(multiplexor), bytes([block_size]))


def acknowledged(last_kept, block_size):
    return message(0xA2, bytes([last_kept, block_size]))


def block_closed():
    return message(0xA1)


def read_multiplexor(data):
    return Multiplexor(int.from_bytes(data[1:3], "little"), data[3])


def read_number(data):
    return int.from_bytes(data[4:8], "little")


def read_abort(data):
    return Abort(read_multiplexor(data), read_number(data))


def read_segment(data):
    unused = data[0] >> 1 & 7
    return Segment(data[0] >> 4 & 1, data[1:8 - unused], data[0] & 1)


def read_value_or_size(data):
    """How a value comes across: at once, or later with a size or without one."""
    at_once, size_stands = data[0] & 2, data[0] & 1
    if at_once:
        unused = data[0] >> 2 & 3 if size_stands else 0
        return data[4:8 - unused], None
    return None, read_number(data) if size_stands else None


def read_request(data):
    """What a node that receives no block segments is told, or None."""
    command = data[0]
    kind = command >> 5
    if kind == 0:
        return read_segment(data)
    if kind == 1:
        return StartWrite(read_multiplexor(data), *read_value_or_size(data))
    if kind == 2:
        return StartRead(read_multiplexor(data))
    if kind == 3:
        return AskSegment(command >> 4 & 1)
    if kind == 4:
        return read_abort(data)
    if kind == 6 and command & 1:
        return EndBlock(command >> 2 & 7, int.from_bytes(data[1:3], "little"))
    if kind == 6:
        return StartBlock(read_multiplexor(data), bool(command & 4), read_number(data) if command & 2 else None)
    return None


def read_block_request(data):
    """What a node in block reception is told: there only 0x80 itself is an abort, all else is a segment."""
    if data[0] == 0x80:
        return read_abort(data)
    return BlockSegment(data[0] >> 7, data[0] & 127, data[1:])


def read_answer(data):
    """What a master is told, or None."""
    command = data[0]
    kind = command >> 5
    if kind == 0:
        return read_segment(data)
    if kind == 1:
        return SegmentTaken(command >> 4 & 1)
    if kind == 2:
        return ReadStarted(read_multiplexor(data), *read_value_or_size(data))
    if kind == 3:
        return WriteStarted(read_multiplexor(data))
    if kind == 4:
        return read_abort(data)
    if kind == 5:
        return read_block_answer(data)
    return None


def read_block_answer(data):
    which = data[0] & 3
    if which == 0:
        return BlockStarted(read_multiplexor(data), bool(data[0] & 4), data[4])
    if which == 1:
        return BlockClosed()
    if which == 2:
        return Acknowledged(data[1], data[2])
    return None


# ---------------------------------------------------------------------------------------------------------------------
# What became of a frame

NOTHING_WAITED = "nothing waited"
DROPPED = "dropped"
COMMITTED = "committed"
ABORTED = "aborted"
ANSWERED = "answered"
KEPT = "kept"
OVER = "over"
SENT = "sent"

# ---------------------------------------------------------------------------------------------------------------------
# The node


@dataclass
class Idle:
    multiplexor = NO_MULTIPLEXOR


@dataclass
class Download:
    """A write in segments."""
    multiplexor: Multiplexor
    size: int
    toggle: int = 0
    received: bytes = b""


@dataclass
class Upload:
    """A read in segments; left are the bytes still to be given."""
    multiplexor: Multiplexor
    left: bytes
    toggle: int = 0


@dataclass
class BlockDownload:
    """Block reception; number is that of the next segment in its sub-block."""
    multiplexor: Multiplexor
    size: int
    crc_offered: bool
    number: int = 1
    too_many: bool = False
    received: bytes = b""


@dataclass
class BlockEnd:
    """All segments of a block write are there, and its end is awaited."""
    multiplexor: Multiplexor
    size: int
    crc_offered: bool
    received: bytes


class Refused(Exception):
    """The node refuses a frame and ends its transfer with an abort of this code."""

    def __init__(self, code):
        super().__init__(code)
        self.code = code


def require_no_verdict(verdict):
    if verdict:
        raise Refused(verdict)


class Node:
    """The SDO server. It is handed what was taken from the line, and answers what became of it and its message."""

    def __init__(self, number, block_size):
        self.number = number
        self.block_size = block_size
        self.state = Idle()
        self.wait = 0
        self.commits = 0

    @property
    def is_idle(self):
        return isinstance(self.state, Idle)

    def serve(self, frame, dictionary):
        if frame is None:
            return NOTHING_WAITED, None
        self.wait = 0
        if frame.identifier != TO_NODE + self.number:
            return DROPPED, None
        if isinstance(self.state, BlockDownload):
            request = read_block_request(frame.data)
        else:
            request = read_request(frame.data)
        if isinstance(request, Abort):
            return self._hear_abort()
        # A start ends what was open without a word (20); if it is refused, the abort names the start's multiplexor.
        if isinstance(request, STARTS):
            self.state = Idle()
            multiplexor = request.multiplexor
        else:
            multiplexor = self.state.multiplexor
        try:
            return self._turn(request, dictionary)
        except Refused as refused:
            self.state = Idle()
            return ABORTED, abort(multiplexor, refused.code)

    def tick(self):
        """A tick; answers the abort of a node whose time ran out (23), or None."""
        if self.is_idle:
            return None
        self.wait += 1
        if self.wait < NODE_TICKS:
            return None
        multiplexor = self.state.multiplexor
        self.state = Idle()
        return abort(multiplexor, TIMED_OUT)

    def _hear_abort(self):
        if self.is_idle:
            return DROPPED, None
        self.state = Idle()
        return ABORTED, None

    def _turn(self, request, dictionary):
        if isinstance(request, StartWrite):
            return self._start_write(request, dictionary)
        if isinstance(request, StartRead):
            return self._start_read(request, dictionary)
        if isinstance(request, StartBlock):
            return self._start_block(request, dictionary)
        if isinstance(request, BlockSegment):
            return self._block_segment(request)
        if isinstance(request, Segment) and isinstance(self.state, Download):
            return self._segment(request, dictionary)
        if isinstance(request, AskSegment) and isinstance(self.state, Upload):
            return self._asked(request)
        if isinstance(request, EndBlock) and isinstance(self.state, BlockEnd):
            return self._block_end(request, dictionary)
        raise Refused(UNKNOWN_COMMAND)

    def _commit(self, multiplexor, value, dictionary):
        require_no_verdict(dictionary.commit(multiplexor, value))
        self.commits = (self.commits + 1) % 65536
        self.state = Idle()

    def _start_write(self, request, dictionary):
        if request.value is not None:
            self._commit(request.multiplexor, request.value, dictionary)
            return COMMITTED, write_started(request.multiplexor)
        require_no_verdict(dictionary.start_verdict(request.multiplexor, request.size))
        self.state = Download(request.multiplexor, request.size)
        return ANSWERED, write_started(request.multiplexor)

    def _start_read(self, request, dictionary):
        require_no_verdict(dictionary.read_verdict(request.multiplexor))
        value = dictionary.value(request.multiplexor)
        if len(value) <= 4:
            return ANSWERED, value_given(request.multiplexor, value)
        self.state = Upload(request.multiplexor, value)
        return ANSWERED, size_given(request.multiplexor, len(value))

    def _start_block(self, request, dictionary):
        require_no_verdict(dictionary.start_verdict(request.multiplexor, request.size))
        self.state = BlockDownload(request.multiplexor, request.size, request.crc_offered)
        return ANSWERED, block_started(request.multiplexor, self.block_size)

    def _segment(self, request, dictionary):
        """A segment of a write (4, 5, 6)."""
        state = self.state
        if request.toggle != state.toggle:
            raise Refused(TOGGLE_NOT_ALTERNATED)
        received = state.received + request.part
        if len(received) > LONGEST_VALUE:
            raise Refused(LENGTH_TOO_HIGH)
        if not request.last:
            self.state = Download(state.multiplexor, state.size, 1 - state.toggle, received)
            return ANSWERED, segment_taken(request.toggle)
        if state.size not in (None, len(received)):
            raise Refused(LENGTH_MISMATCH)
        self._commit(state.multiplexor, received, dictionary)
        return COMMITTED, segment_taken(request.toggle)

    def _asked(self, request):
        """A segment of a read is asked for (8, 9, 10)."""
        state = self.state
        if request.toggle != state.toggle:
            raise Refused(TOGGLE_NOT_ALTERNATED)
        part, left = state.left[:SEGMENT_BYTES], state.left[SEGMENT_BYTES:]
        self.state = Upload(state.multiplexor, left, 1 - state.toggle) if left else Idle()
        return ANSWERED, segment(request.toggle, part, last=not left)

    def _block_segment(self, request):
        """A segment in block reception (12 to 17). Only one that ends its sub-block is answered, kept or not."""
        state = self.state
        ends_sub_block = request.last or request.number == self.block_size
        awaited = not state.too_many and request.number == state.number
        if awaited and len(state.received) == SEGMENTS_KEPT * SEGMENT_BYTES:
            state.too_many = True
        if state.too_many:
            if ends_sub_block:
                raise Refused(LENGTH_TOO_HIGH)
            return DROPPED, None
        if awaited:
            return self._keep(request, ends_sub_block)
        if not ends_sub_block:
            return DROPPED, None
        last_kept = state.number - 1
        state.number = 1
        return ANSWERED, acknowledged(last_kept, self.block_size)

    def _keep(self, request, ends_sub_block):
        state = self.state
        state.received += request.part
        state.number += 1
        if not ends_sub_block:
            return KEPT, None
        if request.last:
            self.state = BlockEnd(state.multiplexor, state.size, state.crc_offered, state.received)
        else:
            state.number = 1
        return ANSWERED, acknowledged(request.number, self.block_size)

    def _block_end(self, request, dictionary):
        """The end of a block write (18, 19); it tells how many bytes of the last segment are no part of the value."""
        state = self.state
        value = state.received[:len(state.received) - request.unused]
        if state.crc_offered and request.crc != check_value(value):
            raise Refused(CRC_ERROR)
        if state.size not in (None, len(value)):
            raise Refused(LENGTH_MISMATCH)
        self._commit(state.multiplexor, value, dictionary)
        return COMMITTED, block_closed()


# ---------------------------------------------------------------------------------------------------------------------
# The master

EXPEDITED = "expedited"
SEGMENTED = "segmented"
BLOCK = "block"


@dataclass
class NoTransfer:
    pass


@dataclass
class AwaitsReadStarted:
    pass


@dataclass
class AwaitsExpeditedTaken:
    pass


@dataclass
class AwaitsWriteStarted:
    pass


@dataclass
class AwaitsBlockStarted:
    pass


@dataclass
class AwaitsSegmentGiven:
    toggle: int
    size: int


@dataclass
class AwaitsSegmentTaken:
    toggle: int
    number: int


@dataclass
class AwaitsAcknowledgement:
    """A sub-block was sent: of so many segments, behind so many that were acknowledged before."""
    crc_offered: bool
    before: int
    segments: int
    short_acknowledgements: int


@dataclass
class AwaitsBlockClosed:
    pass


@dataclass
class Done:
    pass


@dataclass
class Failed:
    failure: object
    in_doubt: bool


Failure = namedtuple("Failure", "multiplexor code segment layer")
Refusal = namedtuple("Refusal", "number")


class Finding(Exception):
    """The master finds something wrong in an answer and ends the transfer with an abort of this code."""

    def __init__(self, code):
        super().__init__(code)
        self.code = code


@dataclass
class OnLine:
    """What a master wants done: the line quieted or not, and then these messages sent to the node."""
    quiet: bool = False
    messages: list = field(default_factory=list)


def require_block_size(block_size):
    if not 1 <= block_size <= 127:
        raise Finding(INVALID_BLOCK_SIZE)


class Master:
    """The SDO client: one transfer at a time."""

    def __init__(self, node_number):
        self.node_number = node_number
        self.begun = 0
        self.state = NoTransfer()
        self.multiplexor = NO_MULTIPLEXOR
        self.is_write = False
        self.value = b""
        self.highest_segment = 0
        self.in_doubt = False
        self.wait = 0
        self.rest = 0

    @property
    def is_over(self):
        return isinstance(self.state, (Done, Failed))

    @property
    def is_open(self):
        return not self.is_over and not isinstance(self.state, NoTransfer)

    def begin_read(self, multiplexor):
        refusal = self._begin_refusal()
        if refusal:
            return refusal, OnLine()
        self._open(multiplexor, False, b"", AwaitsReadStarted())
        return self.begun, OnLine(True, [start_read(multiplexor)])

    def begin_write(self, multiplexor, value, way):
        refusal = self._begin_refusal() or self._value_refusal(value, way)
        if refusal:
            return refusal, OnLine()
        if way == EXPEDITED:
            state, start = AwaitsExpeditedTaken(), start_expedited(multiplexor, value)
        elif way == SEGMENTED:
            state, start = AwaitsWriteStarted(), start_segmented(multiplexor, len(value))
        else:
            state, start = AwaitsBlockStarted(), start_block(multiplexor, len(value))
        self._open(multiplexor, True, bytes(value), state)
        self.in_doubt = way == EXPEDITED
        return self.begun, OnLine(True, [start])

    def hear(self, frame):
        if frame is None:
            return NOTHING_WAITED, OnLine()
        if not self.is_open or frame.identifier != TO_MASTER + self.node_number:
            return DROPPED, OnLine()
        answer = read_answer(frame.data)
        if isinstance(answer, Abort):
            self._fail(answer.code, heard=True)
            return OVER, OnLine(quiet=True)
        try:
            messages = self._turn(answer)
        except Finding as finding:
            return OVER, self._end(finding.code)
        if self.is_over:
            return OVER, OnLine()
        self.wait = 0
        return SENT, OnLine(messages=messages)

    def tick(self):
        """A tick; answers whether it ended the transfer, and what is to be done on the line."""
        if self.is_open:
            self.wait += 1
            if self.wait == MASTER_TICKS:
                return True, self._end(TIMED_OUT)
        elif self.rest > 0:
            self.rest -= 1
            return False, OnLine(quiet=self.rest == 0)
        return False, OnLine()

    def give_up(self):
        return self._end(GENERAL_ERROR) if self.is_open else OnLine()

    def clear(self):
        if self.is_over:
            self.state = NoTransfer()

    def _begin_refusal(self):
        if not isinstance(self.state, NoTransfer):
            return Refusal(1)
        if self.rest > 0:
            return Refusal(2)
        if self.begun == LAST_NUMBER:
            return Refusal(3)
        return None

    @staticmethod
    def _value_refusal(value, way):
        if not 1 <= len(value) <= LONGEST_VALUE:
            return Refusal(4)
        if way == EXPEDITED and len(value) > 4:
            return Refusal(5)
        return None

    def _open(self, multiplexor, is_write, value, state):
        self.begun += 1
        self.state = state
        self.multiplexor = multiplexor
        self.is_write = is_write
        self.value = value
        self.highest_segment = 0
        self.in_doubt = False
        self.wait = 0

    def _end(self, code):
        """The master ends the transfer: by its own finding (17), by time (19) or by giving up (20)."""
        self._fail(code, heard=False)
        return OnLine(True, [abort(self.multiplexor, code)])

    def _fail(self, code, heard):
        failure = Failure(self.multiplexor, code, self.highest_segment, layer(code, heard))
        # A node that sends an abort has set nothing.
        self.state = Failed(failure, self.in_doubt and not heard)
        self.rest = REST_TICKS

    def _turn(self, answer):
        """Goes on by an answer; answers the messages to send, and none where the transfer is done."""
        awaited, go_on = self.TURNS[type(self.state)]
        if not isinstance(answer, awaited):
            raise Finding(UNKNOWN_COMMAND)
        if getattr(answer, "multiplexor", self.multiplexor) != self.multiplexor:
            raise Finding(UNKNOWN_COMMAND)
        return go_on(self, answer)

    def _done(self, _answer):
        self.state = Done()
        return []

    # Reads

    def _read_started(self, answer):
        if answer.value is not None:
            self.value = answer.value
            return self._done(answer)
        if answer.size is not None and not 1 <= answer.size <= LONGEST_VALUE:
            raise Finding(OUT_OF_MEMORY)
        return self._ask(0, answer.size)

    def _segment_given(self, answer):
        state = self.state
        if answer.toggle != state.toggle:
            raise Finding(TOGGLE_NOT_ALTERNATED)
        value = self.value + answer.part
        if len(value) > LONGEST_VALUE or answer.last and not value:
            raise Finding(OUT_OF_MEMORY)
        if answer.last and state.size not in (None, len(value)):
            raise Finding(LENGTH_MISMATCH)
        self.value = value
        if answer.last:
            return self._done(answer)
        return self._ask(1 - state.toggle, state.size)

    def _ask(self, toggle, size):
        self.state = AwaitsSegmentGiven(toggle, size)
        self.highest_segment = min(self.highest_segment + 1, LAST_NUMBER)
        return [ask_segment(toggle)]

    # Writes in segments

    def _segments(self):
        """How many segments the value has."""
        return -(-len(self.value) // SEGMENT_BYTES)

    def _part(self, number):
        return self.value[SEGMENT_BYTES * (number - 1):SEGMENT_BYTES * number]

    def _write_started(self, _answer):
        return self._send_segment(0, 1)

    def _segment_taken(self, answer):
        state = self.state
        if answer.toggle != state.toggle:
            raise Finding(TOGGLE_NOT_ALTERNATED)
        if state.number == self._segments():
            return self._done(answer)
        return self._send_segment(1 - state.toggle, state.number + 1)

    def _send_segment(self, toggle, number):
        last = number == self._segments()
        self.state = AwaitsSegmentTaken(toggle, number)
        self.highest_segment = number
        self.in_doubt = last
        return [segment(toggle, self._part(number), last)]

    # Block writes

    def _block_started(self, answer):
        require_block_size(answer.block_size)
        return self._send_sub_block(answer.crc_offered, 0, answer.block_size, 0)

    def _acknowledged(self, answer):
        state = self.state
        require_block_size(answer.block_size)
        if answer.last_kept > state.segments:
            raise Finding(INVALID_SEQUENCE_NUMBER)
        short = state.short_acknowledgements + (answer.last_kept < state.segments)
        if short > SHORT_ACKNOWLEDGEMENTS:
            raise Finding(INVALID_SEQUENCE_NUMBER)
        kept = state.before + answer.last_kept
        if kept < self._segments():
            return self._send_sub_block(state.crc_offered, kept, answer.block_size, short)
        return self._send_end(state.crc_offered)

    def _send_sub_block(self, crc_offered, before, block_size, short):
        """The next sub-block, from the first segment that was not acknowledged."""
        in_all = self._segments()
        count = min(block_size, in_all - before)
        self.state = AwaitsAcknowledgement(crc_offered, before, count, short)
        self.highest_segment = max(self.highest_segment, before + count)
        return [block_segment(number, self._part(before + number), before + number == in_all)
                for number in range(1, count + 1)]

    def _send_end(self, crc_offered):
        self.state = AwaitsBlockClosed()
        self.in_doubt = True
        unused = self._segments() * SEGMENT_BYTES - len(self.value)
        return [end_block(unused, check_value(self.value) if crc_offered else 0)]

    # By what is awaited: the one answer that goes on, and how.
    TURNS = {
        AwaitsReadStarted: (ReadStarted, _read_started),
        AwaitsSegmentGiven: (Segment, _segment_given),
        AwaitsExpeditedTaken: (WriteStarted, _done),
        AwaitsWriteStarted: (WriteStarted, _write_started),
        AwaitsSegmentTaken: (SegmentTaken, _segment_taken),
        AwaitsBlockStarted: (BlockStarted, _block_started),
        AwaitsAcknowledgement: (Acknowledged, _acknowledged),
        AwaitsBlockClosed: (BlockClosed, _done),
    }


# ---------------------------------------------------------------------------------------------------------------------
# The bench

# Reports
Written = namedtuple("Written", "")
Read = namedtuple("Read", "length")
Unwritten = namedtuple("Unwritten", "failure")
Undecided = namedtuple("Undecided", "failure")
Unread = namedtuple("Unread", "failure")


class Bench:
    """One master, one node, the line that joins them, and the node's dictionary.

    Begin answers a ticket, which is a number, or a Refusal; settle answers a report or a Refusal. Every frame that an
    end hands to the line, lost or not, is kept until take_sent.
    """

    def __init__(self, node_number, block_size, line, dictionary):
        number = nearest(node_number, 1, 127)
        self.master = Master(number)
        self.node = Node(number, nearest(block_size, 1, 127))
        self.line = line
        self.dictionary = dictionary
        self._sent = []
        line.quiet()

    @property
    def commits(self):
        return self.node.commits

    @property
    def ticket_out(self):
        """The number of the ticket that is out, or None."""
        return self.master.begun if self.master.is_open or self.master.is_over else None

    def take_sent(self):
        """The frames that both ends handed to the line since the last time, in their order."""
        sent, self._sent = self._sent, []
        return sent

    def begin_read(self, multiplexor):
        return self._begun(self.master.begin_read(multiplexor))

    def begin_write(self, multiplexor, value, way):
        return self._begun(self.master.begin_write(multiplexor, value, way))

    def serve(self):
        answer, sent = self.node.serve(self.line.take_for_node(), self.dictionary)
        self._node_sends(sent)
        return answer

    def hear(self):
        answer, on_line = self.master.hear(self.line.take_for_master())
        self._do(on_line)
        return answer

    def tick(self):
        ended, on_line = self.master.tick()
        self._do(on_line)
        self._node_sends(self.node.tick())
        return ended

    def settle(self, ticket, buffer):
        if self.ticket_out is None or ticket != self.ticket_out:
            return Refusal(6)
        if len(buffer) < LONGEST_VALUE:
            return Refusal(7)
        self._do(self.master.give_up())
        report = self._report()
        if isinstance(report, Read):
            buffer[:report.length] = self.master.value
        self.master.clear()
        return report

    def _begun(self, begin):
        ticket, on_line = begin
        self._do(on_line)
        return ticket

    def _report(self):
        master = self.master
        if isinstance(master.state, Done):
            return Written() if master.is_write else Read(len(master.value))
        failure = master.state.failure
        if not master.is_write:
            return Unread(failure)
        return Undecided(failure) if master.state.in_doubt else Unwritten(failure)

    def _do(self, on_line):
        if on_line.quiet:
            self.line.quiet()
        for data in on_line.messages:
            frame = Frame(TO_NODE + self.node.number, data)
            self._sent.append(frame)
            self.line.send_to_node(frame)

    def _node_sends(self, data):
        if data is not None:
            frame = Frame(TO_MASTER + self.node.number, data)
            self._sent.append(frame)
            self.line.send_to_master(frame)
