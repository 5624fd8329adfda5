"""Judging and storing an image as it comes: document 02, change requests 1 to 3.

"We want a judging pass, then a storing pass, each told the full length of image
and partition, then fed the image however the radio cuts it."

A pass is a state between calls.  It takes its bytes in stretches, each up to where
the next of 01's tests has what it reads, and keeps of them the known fields of the
file header, those of the chunk being read, and the 4 bytes of a fill chunk.
"""

from dataclasses import dataclass
from typing import Callable, List, NamedTuple, Optional, Tuple, Union

import crc
import fields
import sparse
from sparse import Accepted, Chunk, Header, Refusal

MORE_THAN_ANNOUNCED = Refusal(14, 0)
FINISHED_WITH_FEWER = Refusal(15, 0)
OTHER_PARTITION = Refusal(16, 0)

# What a pass waits for.
FILE_HEADER = "the fields of the file header, test by test"
FIRST_CHUNK = "the end of the file header"
CHUNK_HEADER = "the known fields of a chunk header"
CHUNK_END = "the end of a chunk"
FINISH = "nothing but its finishing"


@dataclass(frozen=True)
class GoingOn:
    """A piece was taken and nothing is refused: "only finishing accepts"."""


Answer = Union[GoingOn, Accepted, Refusal]


NO_HEADER = sparse.read_header(b"")
NO_CHUNK = Chunk(sparse.DONT_CARE, 0, 0, 0, 0)


class Due(NamedTuple):
    """Bytes that came due: the position of the first, and the bytes, so many times."""

    at: int
    data: bytes
    times: int


class State(NamedTuple):
    """What a pass knows between two calls: the lengths it was told, how many bytes have
    come, what it waits for and the refusal it gave; of the file header its tests that
    passed, its bytes and its fields; the offset after the file header and the chunks
    before, their number, their blocks, and the checksum's state; the three counts of
    all chunks that passed their tests; of the chunk being read its fields, and the
    bytes kept of its header or its fill."""

    length: int
    room: int
    come: int = 0
    waits_for: str = FILE_HEADER
    refusal: Optional[Refusal] = None
    tests_passed: int = 0
    head: bytes = b""
    header: Header = NO_HEADER
    offset: int = 0
    chunks: int = 0
    blocks: int = 0
    checksum_state: int = crc.ALL_ONES
    written: int = 0
    dont_care: int = 0
    unknown: int = 0
    chunk: Chunk = NO_CHUNK
    part: bytes = b""


def begin(length: int, room: int) -> State:
    """A pass told the full length of image and partition: "Telling refuses nothing"."""
    return State(length, room)


# 01's tests 1 to 6.

def is_long_enough(head: bytes, length: int, room: int) -> bool:
    """1: "sparse input under 28 bytes"; "the announced length counts as the input's"."""
    return length >= sparse.HEADER_LENGTH


def is_magic_right(head: bytes, length: int, room: int) -> bool:
    """2: "wrong magic"."""
    return fields.read(head, 0, 4) == sparse.MAGIC


def is_major_right(head: bytes, length: int, room: int) -> bool:
    """3: "major not 1"."""
    return fields.read(head, 4, 2) == 1


def are_header_sizes_right(head: bytes, length: int, room: int) -> bool:
    """4: "a header size breaks its rule, or file header size exceeds the input"."""
    file_size, chunk_size = fields.read(head, 8, 2), fields.read(head, 10, 2)
    if not sparse.is_header_size(file_size, sparse.HEADER_LENGTH):
        return False
    if not sparse.is_header_size(chunk_size, sparse.CHUNK_HEADER_LENGTH):
        return False
    return file_size <= length


def is_block_size_right(head: bytes, length: int, room: int) -> bool:
    """5: "block size"."""
    return sparse.is_block_size(fields.read(head, 12, 4))


def is_room_enough(head: bytes, length: int, room: int) -> bool:
    """6: "total blocks × block size exceeds the partition"."""
    return fields.read(head, 16, 4) * fields.read(head, 12, 4) <= room


class HeaderTest(NamedTuple):
    """A test of the file header: its number, the end of what it reads, its rule."""

    number: int
    end: int
    holds: Callable[[bytes, int, int], bool]


HEADER_TESTS = (
    HeaderTest(1, 0, is_long_enough),
    HeaderTest(2, 4, is_magic_right),
    HeaderTest(3, 6, is_major_right),
    HeaderTest(4, 12, are_header_sizes_right),
    HeaderTest(5, 16, is_block_size_right),
    HeaderTest(6, 20, is_room_enough),
)


# How a pass goes on: "each of 01's tests runs, in order, as soon as the bytes it
# reads, and the file header and chunks before it, have come".

def refused(state: State, refusal: Refusal) -> State:
    """The state after a refusal, which every later call gives again."""
    return state._replace(refusal=refusal)


def needed(state: State) -> int:
    """How many bytes must have come for the pass to go on."""
    if state.waits_for == FILE_HEADER:
        return HEADER_TESTS[state.tests_passed].end
    if state.waits_for == FIRST_CHUNK:
        return fields.read(state.head, 8, 2)
    if state.waits_for == CHUNK_HEADER:
        return state.offset + sparse.CHUNK_HEADER_LENGTH
    if state.waits_for == CHUNK_END:
        return state.chunk.end
    return state.length


def after_header_test(state: State) -> State:
    """The next of the tests 1 to 6; their place is 0."""
    test = HEADER_TESTS[state.tests_passed]
    if not test.holds(state.head, state.length, state.room):
        return refused(state, Refusal(test.number, 0))
    passed = state.tests_passed + 1
    waits_for = FILE_HEADER if passed < len(HEADER_TESTS) else FIRST_CHUNK
    return state._replace(tests_passed=passed, waits_for=waits_for)


def after_file_header(state: State) -> State:
    """The file header has come whole; the first chunk follows it."""
    header = sparse.read_header(state.head)
    return at_chunk(state._replace(header=header, offset=header.file_header_size))


def at_chunk(state: State) -> State:
    """All bytes before a chunk have come: 7, "fewer bytes left than a chunk header"."""
    if state.chunks == state.header.total_chunks:
        return at_end(state)
    if state.length - state.offset < state.header.chunk_header_size:
        return refused(state, Refusal(7, state.offset))
    return state._replace(waits_for=CHUNK_HEADER, chunk=NO_CHUNK, part=b"")


def after_chunk_header(state: State) -> State:
    """The known fields of a chunk have come: 8, 7 ("after 8"), 9 ("after 7")."""
    chunk_type = fields.read(state.part, 0, 2)
    blocks = fields.read(state.part, 4, 4)
    total_size = fields.read(state.part, 8, 4)
    if not sparse.is_total_size(state.header, chunk_type, blocks, total_size):
        return refused(state, Refusal(8, state.offset))
    end = state.offset + total_size
    if end > state.length:
        return refused(state, Refusal(7, state.offset))
    if state.blocks + blocks > state.header.total_blocks:
        return refused(state, Refusal(9, state.offset))
    data_at = state.offset + state.header.chunk_header_size
    chunk = Chunk(sparse.chunk_kind(chunk_type), state.blocks, blocks, data_at, end)
    return counted(state._replace(waits_for=CHUNK_END, chunk=chunk, part=b""))


def counted(state: State) -> State:
    """The state with the chunk that passed its tests in one of the three counts."""
    blocks = state.chunk.blocks
    if state.chunk.kind == sparse.DONT_CARE:
        return state._replace(dont_care=state.dont_care + blocks)
    if state.chunk.kind == sparse.UNKNOWN:
        return state._replace(unknown=state.unknown + blocks)
    return state._replace(written=state.written + blocks)


def summed(state: State, step: Callable[..., int], *given: Union[bytes, int]) -> State:
    """The state after a step of the checksum's; where none is stated there are no steps."""
    if not sparse.is_checksum_stated(state.header):
        return state
    return state._replace(checksum_state=step(state.checksum_state, *given))


def is_checksum_wrong(state: State) -> bool:
    """11: "checksum differs", where one is stated."""
    checksum = state.checksum_state ^ crc.ALL_ONES
    return sparse.is_checksum_stated(state.header) and checksum != state.header.checksum


def after_chunk(state: State) -> State:
    """A chunk has come whole; a skipped one counts as zeros in the checksum."""
    chunk = state.chunk
    if not sparse.is_written(chunk):
        state = summed(state, crc.after_zeros, chunk.blocks * state.header.block_size)
    blocks = state.blocks + chunk.blocks
    return at_chunk(state._replace(offset=chunk.end, chunks=state.chunks + 1, blocks=blocks))


def at_end(state: State) -> State:
    """The last chunk has come: 9, "the sum falls short at the end", 10 and 11.  What
    10 lets pass ends where the image does, so 11 runs with the last byte."""
    if state.blocks < state.header.total_blocks:
        return refused(state, Refusal(9, state.offset))
    if state.offset < state.length:
        return refused(state, Refusal(10, state.offset))
    if is_checksum_wrong(state):
        return refused(state, Refusal(11, sparse.CHECKSUM_AT))
    return state._replace(waits_for=FINISH)


STEPS = {
    FILE_HEADER: after_header_test,
    FIRST_CHUNK: after_file_header,
    CHUNK_HEADER: after_chunk_header,
    CHUNK_END: after_chunk,
}


def gone_on(state: State) -> State:
    """The state after every test for which enough has come, up to the first refusal."""
    while state.refusal is None and state.waits_for != FINISH and needed(state) <= state.come:
        state = STEPS[state.waits_for](state)
    return state


# What the bytes bring.

def with_raw(state: State, data: bytes) -> Tuple[State, List[Due]]:
    """Raw data, of which nothing is kept: "a raw block as far as it came"."""
    chunk = state.chunk
    first = chunk.first_block * state.header.block_size
    at = first + max(0, state.come - chunk.data_at)
    return summed(state, crc.after_bytes, data), [Due(at, data, 1)]


def with_fill(state: State, data: bytes) -> Tuple[State, List[Due]]:
    """Data of a fill chunk; "fill chunks whole", when their 4 bytes have come."""
    chunk = state.chunk
    word = state.part + data
    state = state._replace(part=word)
    if len(word) < 4:
        return state, []
    words = chunk.blocks * state.header.block_size // 4
    due = Due(chunk.first_block * state.header.block_size, word, words)
    return summed(state, crc.after_words, int.from_bytes(word, "little"), words), [due]


def with_body(state: State, stretch: bytes) -> Tuple[State, List[Due]]:
    """A stretch of a chunk past its known fields: the rest of its header is passed
    over, and so are the data of a skipped chunk."""
    data = stretch[max(0, state.chunk.data_at - state.come):]
    if state.chunk.kind == sparse.RAW:
        return with_raw(state, data)
    if state.chunk.kind == sparse.FILL:
        return with_fill(state, data)
    return state, []


def with_stretch(state: State, stretch: bytes) -> Tuple[State, List[Due]]:
    """The state that keeps what it must of a stretch, and what came due by it."""
    due: List[Due] = []
    if state.waits_for in (FILE_HEADER, FIRST_CHUNK):
        head = (state.head + stretch)[:sparse.HEADER_LENGTH]
        state = state._replace(head=head)
    elif state.waits_for == CHUNK_HEADER:
        state = state._replace(part=state.part + stretch)
    elif state.waits_for == CHUNK_END:
        state, due = with_body(state, stretch)
    return state._replace(come=state.come + len(stretch)), due


def with_piece(state: State, piece: bytes) -> Tuple[State, List[Due]]:
    """The state after a piece of no more bytes than announced, and "exactly the bytes
    that have come due"; what follows a refusal is not looked at."""
    due: List[Due] = []
    taken = 0
    state = gone_on(state)
    while state.refusal is None and taken < len(piece):
        stretch = piece[taken:taken + needed(state) - state.come]
        state, more = with_stretch(state, stretch)
        due += more
        taken += len(stretch)
        state = gone_on(state)
    return state, due


def stored(partition: bytes, due: List[Due]) -> bytes:
    """The partition after the bytes that came due; it "touches no other"."""
    after = bytearray(partition)
    for at, data, times in due:
        after[at:at + len(data) * times] = data * times
    return bytes(after)


# The calls.  The judging pass is lent no partition.

def early_refusal(
    state: State, count: int, finishing: bool, lent: Optional[int]
) -> Optional[Refusal]:
    """One given before, or "tested 16, 14, 15, before any of 01's"."""
    if state.refusal is not None:
        return state.refusal
    if lent is not None and lent != state.room:
        return OTHER_PARTITION
    if state.come + count > state.length:
        return MORE_THAN_ANNOUNCED
    if finishing and state.come < state.length:
        return FINISHED_WITH_FEWER
    return None


def fed(state: State, piece: bytes, lent: Optional[int]) -> Tuple[State, Answer, List[Due]]:
    """A piece given to a pass: its answer, and what came due before a refusal."""
    refusal = early_refusal(state, len(piece), False, lent)
    if refusal is not None:
        return refused(state, refusal), refusal, []
    state, due = with_piece(state, piece)
    return state, state.refusal or GoingOn(), due


def finished(state: State, lent: Optional[int]) -> Tuple[State, Answer]:
    """A pass is finished: a refusal, or the three counts.  Nothing comes due by it;
    where it is the first call, 01's tests begin with it."""
    refusal = early_refusal(state, 0, True, lent)
    if refusal is not None:
        return refused(state, refusal), refusal
    state = gone_on(state)
    if state.refusal is not None:
        return state, state.refusal
    return state, Accepted(state.written, state.dont_care, state.unknown)


def judge_piece(state: State, piece: bytes) -> Tuple[State, Answer]:
    """The judging pass is fed a piece, which may be empty."""
    state, answer, _ = fed(state, piece, None)
    return state, answer


def judge_finish(state: State) -> Tuple[State, Answer]:
    """The judging pass is finished."""
    return finished(state, None)


def store_piece(state: State, piece: bytes, partition: bytes) -> Tuple[State, Answer, bytes]:
    """The storing pass is fed a piece, which may be empty, and stores what it makes due."""
    state, answer, due = fed(state, piece, len(partition))
    return state, answer, stored(partition, due)


def store_finish(state: State, partition: bytes) -> Tuple[State, Answer, bytes]:
    """The storing pass is finished, lent the partition once more."""
    state, answer = finished(state, len(partition))
    return state, answer, partition


def called(
    state: State, piece: Optional[bytes], partition: Optional[bytes]
) -> Tuple[State, Answer, Optional[bytes]]:
    """Any of the calls: of the judging pass where no partition is lent, a finishing
    where there is no piece."""
    if partition is None:
        if piece is None:
            return judge_finish(state) + (None,)
        return judge_piece(state, piece) + (None,)
    if piece is None:
        return store_finish(state, partition)
    return store_piece(state, piece, partition)
