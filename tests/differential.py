"""Holds a shared object against the reference on random and damaged inputs.

    python3 tests/differential.py LIBRARY [--seconds 60] [--seed N] [--start N] [--kinds a,b]

Makes a case of each of KINDS in turn: one call of a function, or the calls of a
pass, one after the other.  All choices of a case come from the seed and the case's
number, so `--start N` with the same kinds goes straight to case N.  Each buffer has
guard bytes before and after it, which must stay as they are; a buffer that is only
read must stay too; the pointer to no bytes may be null.  Prints one line,
`differential: N calls agree`; at the first difference it shows that call instead
and ends with 1, also when a call crashes or does not end.

A function of the library takes its arguments in order, then a pointer to the
numbers it answers with, whose count is fixed; one that answers none takes no such
pointer.  Bytes are a pointer and a length; a space for numbers of 32 bits is a
pointer and how many it has; a slot record is a pointer to its 22 bytes, the state of
a pass to its 112, and a report to its 16 numbers of 64 bits.  It returns 0 or the
number of its refusal; beginning a pass returns nothing.  include/tarpaulark.h has the
declarations.
"""

import argparse
import ctypes
import multiprocessing
import os
import random
import sys
import time
from functools import lru_cache
from typing import (
    Any, Callable, Dict, Generator, List, NamedTuple, Optional, Sequence, Tuple, Union
)

HERE = os.path.dirname(os.path.abspath(__file__))
sys.path.insert(0, os.path.join(HERE, "reference"))

import boot
import build
import cases_boot
import cases_compare
import cases_join
import cases_launch
import cases_passes
import cases_report
import cases_slots
import cases_sparse
import cases_start
import cases_store
import cases_write
import compare
import fields
import join
import launch
import passes
import sparse
import starter
import store
import writer
from cases_common import below, pick, some_bytes, u32, u64
from slots import PLACES, Record, Slot, counted, is_valid

PREFIX = "tarpaulark_"
SEED = 20240903
GUARD = 64
GUARD_BYTES = bytes((0xC3 ^ 37 * i) % 256 for i in range(GUARD))
OUT_BYTE = b"\x6B"
LONGEST_WAIT = 120
EDGES = (0, 1, 2, 3, 4, 7, 8, 11, 12, 13, 16, 28, 255, 256, 65532, 65535, 65536, 65540)
EDGES += tuple(2**k + d for k in (30, 31, 32) for d in (-4, -1, 0, 1) if 2**k + d < 2**32)
ROOM = 2**64 - 1
SLOT_LENGTH, SLOT_FLAGS = 5, 4
RECORD_LENGTH = PLACES * SLOT_LENGTH + 2
STATE_LENGTH = 112
COME_AT, SUM_AT, COUNTS_AT, HEAD_AT = 28, 36, 56, 68
LARGEST_LENT = 40000
MOST_NUMBERS = 3000
REFUSED = 3
CHUNK_KINDS = {sparse.RAW: 0, sparse.FILL: 1, sparse.DONT_CARE: 2, sparse.UNKNOWN: 3}
# What is lent, and how many bytes each number in it takes; and which of it with a count of these.
WIDTHS: Dict[Union[str, int], int] = {
    "bytes": 1, "numbers": 4, "record": 1, "state": 1, "report": 8
}
COUNTED = ("bytes", "numbers")

Argument = Union[bytes, int]
Expected = Union[bytes, Dict[int, bytes]]


class Call(NamedTuple):
    """A call: the arguments, and what the reference makes of them: the number
    returned, the numbers answered, and each bytes argument after the call, whole or
    the stretches at some positions.  Nothing is expected where there is None."""

    arguments: Tuple[Argument, ...]
    number: Optional[int]
    out: Optional[Tuple[int, ...]]
    after: Tuple[Expected, ...]


class Outcome(NamedTuple):
    """What the library makes of a call, and whether the guards stand."""

    number: Optional[int]
    out: Tuple[int, ...]
    after: Tuple[bytes, ...]
    is_guarded: bool


class Function(NamedTuple):
    """A function of the library: its arguments' types (`bytes`, `numbers`, `record`,
    `state`, `report` or a number's width in bits), how many numbers it answers, whether
    it returns one."""

    name: str
    types: Tuple[Union[str, int], ...]
    answers: int
    returns: bool = True


Calls = Generator[Tuple[Function, Call], Outcome, None]


class Kind(NamedTuple):
    """A kind of cases: its name, the functions that they call, and their maker, which
    is sent the outcome of each call before it makes the next."""

    name: str
    functions: Tuple[Function, ...]
    make: Callable[[random.Random], Calls]


# Buffers.

class Guarded:
    """A buffer lent to the library, between two guards, at any alignment that it may have."""

    def __init__(self, data: bytes, shift: int) -> None:
        self.length = len(data)
        self.before = GUARD + shift
        whole = GUARD_BYTES + bytes(shift) + data + GUARD_BYTES
        self.memory = (ctypes.c_uint8 * len(whole)).from_buffer_copy(whole)

    def address(self) -> int:
        """Where the data begin."""
        return ctypes.addressof(self.memory) + self.before

    def data(self) -> bytes:
        """What the buffer holds now."""
        return bytes(self.memory)[self.before:self.before + self.length]

    def is_guarded(self) -> bool:
        """Whether nothing around the data has changed."""
        whole = bytes(self.memory)
        front = GUARD_BYTES + bytes(self.before - GUARD)
        return whole[:self.before] == front and whole[self.before + self.length:] == GUARD_BYTES


NUMBER_TYPES = {32: ctypes.c_uint32, 64: ctypes.c_uint64}


def signature(function: Function) -> List[Any]:
    """The C types of a function's arguments."""
    types: List[Any] = []
    for kind in function.types:
        if kind in COUNTED:
            types += [ctypes.c_void_p, ctypes.c_size_t]
        elif isinstance(kind, str):
            types.append(ctypes.c_void_p)
        else:
            types.append(NUMBER_TYPES[kind])
    return types + ([ctypes.c_void_p] if function.answers else [])


def as_number_array(data: bytes) -> Tuple[int, ...]:
    """The 64-bit numbers that some bytes hold."""
    return tuple(int.from_bytes(data[at:at + 8], sys.byteorder) for at in range(0, len(data), 8))


def as_bytes(kind: str, numbers: Sequence[int]) -> bytes:
    """The bytes of what is lent with these numbers in it."""
    return b"".join(number.to_bytes(WIDTHS[kind], sys.byteorder) for number in numbers)


def lent_buffer(kind: Union[str, int], data: bytes, rng: random.Random) -> Guarded:
    """A buffer for an argument: at any byte, or where a number may stand."""
    step = WIDTHS[kind]
    return Guarded(data, step * below(rng, 8 // step))


def outcome_of(
    foreign: Any, function: Function, arguments: Sequence[Argument], rng: random.Random
) -> Outcome:
    """Calls the library."""
    lent = [
        lent_buffer(kind, item, rng) for kind, item in zip(function.types, arguments)
        if isinstance(item, bytes)
    ]
    out = Guarded(OUT_BYTE * (8 * function.answers), 0)
    values: List[int] = []
    buffers = iter(lent)
    for kind, item in zip(function.types, arguments):
        if isinstance(item, bytes):
            address = next(buffers).address()
            values.append(address if item or below(rng, 2) == 0 else 0)
            values += [len(item) // WIDTHS[kind]] if kind in COUNTED else []
        else:
            values.append(item)
    number = foreign(*values, *([out.address()] if function.answers else []))
    is_guarded = all(buffer.is_guarded() for buffer in lent + [out])
    after = tuple(buffer.data() for buffer in lent)
    return Outcome(number, as_number_array(out.data()), after, is_guarded)


def fault_of(outcome: Outcome, call: Call) -> Optional[str]:
    """What differs from the reference, or None."""
    if call.number is not None and outcome.number != call.number:
        return f"number {outcome.number}, expected {call.number}"
    if call.out is not None and outcome.out != call.out:
        return f"answer {outcome.out}, expected {call.out}"
    for i, (found, expected) in enumerate(zip(outcome.after, call.after)):
        stretches = {0: expected} if isinstance(expected, bytes) else expected
        for at, stretch in stretches.items():
            if found[at:at + len(stretch)] != stretch:
                return f"bytes argument {i} after the call: {first_difference(found, at, stretch)}"
    return None if outcome.is_guarded else "bytes outside a buffer were changed"


def first_difference(found: bytes, start: int, expected: bytes) -> str:
    """Where a buffer parts from a stretch that is expected in it."""
    i = next(i for i in range(len(expected)) if found[start + i] != expected[i])
    return f"at {start + i} of {len(found)}: {found[start + i]}, expected {expected[i]}"


# Inputs.

def damaged(rng: random.Random, data: bytes, fields: int) -> bytes:
    """Bits flipped, bytes cut off or added, numbers among the first bytes replaced."""
    for _ in range(1 + below(rng, 3)):
        kind = below(rng, 5)
        if kind == 0 and data:
            at = below(rng, len(data))
            data = build.with_bytes(data, at, bytes([data[at] ^ 1 << below(rng, 8)]))
        elif kind == 1:
            data = data[:below(rng, len(data) + 1)]
        elif kind == 2:
            data += some_bytes(rng, below(rng, 14))
        elif len(data) >= 4:
            at = below(rng, min(max(4, fields), len(data)) // 4) * 4
            width = pick(rng, (2, 4))
            edge = pick(rng, EDGES) % 2 ** (8 * width)
            data = build.with_bytes(data, at, edge.to_bytes(width, "little"))[:len(data)]
    return data


def with_its_checksum(image: bytes) -> bytes:
    """The image with the checksum that it should have, if its chunks pass."""
    header = sparse.read_header(image)
    if sparse.header_number(image, header, ROOM) != 0:
        return image
    chunks = sparse.walk(image, header)
    if isinstance(chunks, sparse.Refusal):
        return image
    return build.stating(image, sparse.image_checksum(image, header, chunks))


def wide_image(rng: random.Random) -> bytes:
    """An image that names many blocks."""
    size = 4 * (1 + below(rng, 16384))
    plans = []
    for _ in range(below(rng, 5)):
        blocks = rng.getrandbits(below(rng, 31))
        plans.append(pick(rng, (
            build.fill(some_bytes(rng, 4), blocks),
            build.skip(blocks),
            build.unknown(cases_sparse.other_type(rng), blocks, some_bytes(rng, 8)),
            build.raw(some_bytes(rng, 2 * size) if size < 600 else b"", size),
        )))
    return build.sparse_image(size, plans)


def zero_sum_image(rng: random.Random) -> bytes:
    """An image whose true checksum is 0 by a word of one of its chunks."""
    size = pick(rng, (4, 8, 12))
    plans = [cases_store.random_plan(rng, size) for _ in range(below(rng, 4))]
    at, count, data = below(rng, len(plans) + 1), 1 + below(rng, 3), some_bytes(rng, size - 4)
    is_raw = below(rng, 2) == 0

    def plans_of(word: bytes) -> List[build.ChunkPlan]:
        chunk = build.raw(word + data, size) if is_raw else build.fill(word, count)
        return plans[:at] + [chunk] + plans[at:]
    return cases_sparse.zero_sum_image(size, plans_of)


def restated(rng: random.Random, image: bytes) -> bytes:
    """The image as it is, or with no checksum stated, or 1, or one of a single byte."""
    single_byte = 1 + below(rng, 255) << 8 * below(rng, 4)
    checksum = pick(rng, (None,) * 8 + (0, 0, 1, single_byte))
    return image if checksum is None else build.stating(image, checksum)


def sparse_input(rng: random.Random, narrow: bool) -> bytes:
    """A sparse image, whole or damaged, or bytes that are none."""
    makers = [cases_sparse.random_image] * 2 + [cases_store.random_image] * 5 + [zero_sum_image]
    makers += [cases_store.unknown_image] * 3
    image = pick(rng, makers if narrow else makers + [wide_image] * 2)(rng)
    kind = below(rng, 8)
    if kind == 0:
        return some_bytes(rng, below(rng, 90))
    if kind <= 2:
        return damaged(rng, restated(rng, image), 28)
    if kind <= 4:
        image = with_its_checksum(damaged(rng, image, len(image)))
    return restated(rng, image)


def partition_length(rng: random.Random, image: bytes) -> int:
    """Just enough room for an image, one byte less, or some more."""
    return max(0, cases_store.total_length(image) + pick(rng, (-1, 0, 0, 0, 1, 40)))


def partition_for(rng: random.Random, image: bytes) -> bytes:
    """A partition of such a length, but of few bytes."""
    return some_bytes(rng, min(partition_length(rng, image), 3000 + below(rng, 40)))


def near_pair(rng: random.Random) -> cases_compare.Images:
    """Two images that name many blocks, or of few blocks that are nearly the same."""
    kind = below(rng, 8)
    if kind <= 1:
        return cases_compare.wide_pair(rng)
    sizes, most = ((256, 1024, 4096), 6) if kind == 2 else ((4, 8, 12, 16, 20, 60, 64), 24)
    return cases_compare.images_of(rng, cases_compare.random_pair(rng, sizes, most))


def hostile(rng: random.Random, image: bytes) -> bytes:
    """The image damaged, with the right checksum or not; or any other input."""
    other = damaged(rng, image, pick(rng, (28, len(image))))
    return pick(rng, (other, with_its_checksum(other), sparse_input(rng, False)))


def pair_input(rng: random.Random) -> cases_compare.Images:
    """Two images to compare, mostly such that can be; or one of them, or both, hostile, or
    the second of another pair, or with other checksums."""
    first, second = near_pair(rng)
    kind = below(rng, 16)
    if kind == 0:
        return first, hostile(rng, pick(rng, (first, second)))
    if kind == 1:
        return hostile(rng, first), second
    if kind == 2:
        return hostile(rng, first), hostile(rng, second)
    if kind == 3:
        return first, near_pair(rng)[1]
    if kind == 4:
        return restated(rng, first), restated(rng, second)
    return first, second


def numbers_lent(rng: random.Random, first: bytes, second: bytes) -> int:
    """As many numbers as the runs take, or some less or more; three for each block, or
    nearly so; none; or any."""
    answer = compare.compare(first, second, ROOM)
    runs = len(answer.runs) if isinstance(answer, compare.Listed) else 0
    blocks = min(sparse.read_header(first).total_blocks, MOST_NUMBERS // compare.RUN_NUMBERS)
    near = compare.RUN_NUMBERS * runs + pick(rng, (-3, -2, -1, 0, 0, 0, 0, 1, 2, 9))
    all_single = compare.RUN_NUMBERS * blocks + pick(rng, (-2, -1, 0, 0, 1))
    return max(0, pick(rng, (near, near, near, near, all_single, all_single, 0, below(rng, 99))))


@lru_cache(maxsize=None)
def compared_pairs() -> List[cases_compare.Images]:
    """The pairs that the vectors compare."""
    return cases_compare.listed_pairs()


def compared_pair(rng: random.Random) -> cases_compare.Images:
    """One of these, in either order."""
    pair = pick(rng, compared_pairs())
    return pair if below(rng, 2) == 0 else pair[::-1]


def edge_image(rng: random.Random, size: int, total: int) -> bytes:
    """A row of blocks of any kinds, at times with a minor version and reserved fields that are
    not 0."""
    row = "".join(pick(rng, cases_join.LETTERS) for _ in range(total))
    plans = cases_join.row_plans(row, size, 1 + below(rng, 255), 1 + below(rng, total))
    minor, reserved = (pick(rng, (0, 0, 1, 256, 65535)) for _ in range(2))
    return cases_join.header_image(plans, size, minor, reserved)


def edge_pair(rng: random.Random) -> cases_compare.Images:
    """Two such rows, in chunks that end at other blocks in each image."""
    size, total = pick(rng, (4, 8, 12, 16, 64)), 1 + below(rng, 12)
    return edge_image(rng, size, total), edge_image(rng, size, total)


def limit_pair(rng: random.Random) -> cases_compare.Images:
    """Two images of as many bytes as a joined one may have, or about so many."""
    total, size = pick(rng, cases_join.PRODUCTS[:12])
    first, second = (
        build.sparse_image(size, cases_join.wide_plans(total, below(rng, 20))) for _ in range(2)
    )
    return first, second


def joined_twice(rng: random.Random) -> cases_compare.Images:
    """A joined image, and another of its blocks or one that was joined."""
    first, second = edge_pair(rng)
    joined = join.image_of(first, second)
    pair = (joined, pick(rng, (first, second, joined)))
    return pair if below(rng, 2) == 0 else pair[::-1]


def zero_sum_pair(rng: random.Random) -> cases_compare.Images:
    """Two images whose joined image has the checksum 0."""
    total = 1 + below(rng, 5)
    first = "".join(pick(rng, cases_join.LETTERS) for _ in range(total))
    second = "".join(pick(rng, cases_join.LETTERS) for _ in range(total - 1))
    return cases_join.zero_sum_pair(pick(rng, (4, 8, 12)), first, second, below(rng, 2) == 0)


def join_input(rng: random.Random) -> cases_compare.Images:
    """Two images as for a comparison, or such as are made for joining."""
    makers = (edge_pair,) * 5 + (limit_pair, joined_twice, zero_sum_pair) + (compared_pair,) * 3
    return pick(rng, (pair_input,) * 8 + makers)(rng)


def output_length(rng: random.Random, first: bytes, second: bytes) -> int:
    """As many bytes as the joined image has, or some less or more; the bound of any such
    joining, where it is short; none; or any."""
    needed = cases_join.needed_room((first, second))
    near = needed + pick(rng, (-29, -12, -4, -1, -1, 0, 0, 0, 0, 1, 7, 60))
    header = sparse.read_header(first)
    bound = sparse.HEADER_LENGTH + header.total_blocks * (header.block_size + 12)
    return max(0, pick(rng, (near,) * 12 + (min(bound, LARGEST_LENT), 0, below(rng, 400))))


def boot_input(rng: random.Random, **given: int) -> bytes:
    """A boot image with the fields that are given, whole or damaged, or with another number where
    versions 0 to 2 have the size of the second section; or bytes that are none."""
    image = cases_boot.random_image(rng, **given)
    kind = below(rng, 9)
    if kind == 0:
        return some_bytes(rng, below(rng, 90))
    if kind == 1:
        return build.with_bytes(image, 24, u32(rng.getrandbits(pick(rng, (1, 13, 32)))))
    if kind <= 4:
        return damaged(rng, image, pick(rng, (48, 1664)))
    return image


def any_record(rng: random.Random) -> Record:
    """A record, mostly one that is valid or nearly so; some with another count than that of
    their flags."""
    if below(rng, 4) != 0:
        return cases_slots.random_record(rng)
    flags = [[below(rng, 2) == 1 for _ in range(SLOT_FLAGS)] for _ in range(PLACES)]
    places = [Slot(*some, below(rng, 10)) for some in flags]
    record = counted(places, pick(rng, (0, 1, 2, 3, 4, 255)))
    near = cases_slots.near_count(rng, record.startable)
    return record._replace(startable=pick(rng, (record.startable,) * 3 + (near,)))


# The functions.

def judge_call(rng: random.Random) -> Call:
    """`judge`: place, written, don't care, unknown."""
    image = sparse_input(rng, False)
    length = pick(rng, (partition_length(rng, image), ROOM, rng.getrandbits(64)))
    number, *out = cases_sparse.verdict_values(sparse.judge(image, length))
    return Call((image, length), number, tuple(out), (image,))


def store_call(rng: random.Random) -> Call:
    """`store`: as `judge`."""
    image = sparse_input(rng, True)
    partition = partition_for(rng, image)
    verdict, after = store.store(image, partition)
    number, *out = cases_sparse.verdict_values(verdict)
    return Call((image, partition), number, tuple(out), (image, after))


def store_limited_call(rng: random.Random) -> Call:
    """`store_limited`: place, blocks stored."""
    image = sparse_input(rng, True)
    partition = partition_for(rng, image)
    limit = pick(rng, (below(rng, 12), below(rng, 12), rng.getrandbits(33), rng.getrandbits(64)))
    stored = store.store_limited(image, partition, limit)
    number, place, *_ = cases_sparse.verdict_values(stored.verdict)
    return Call((image, partition, limit), number, (place, stored.count), (image, stored.partition))


def write_call(rng: random.Random) -> Call:
    """`write`: place, which is 0, and the image's length."""
    size = pick(rng, (4, 8, 12, 16, 20, 64, 400))
    flat = cases_write.random_flat(rng, size)
    if below(rng, 6) == 0:
        words = pick(rng, (1, size // 4))
        flat = cases_write.zero_sum_flat(flat, words, bytes(size - 4 * words))
    room = len(writer.image_of(flat, size)) + pick(rng, (-1 - below(rng, 40), 0, 0, 0, 30))
    flat = damaged(rng, flat, len(flat)) if below(rng, 4) == 0 else flat
    block_size = pick(rng, EDGES + (size,) * 60)
    output = some_bytes(rng, max(0, room))
    number, length, after = writer.write(flat, block_size, output)
    return Call((flat, block_size, output), number, (0, length), (flat, after))


def header_call(rng: random.Random) -> Call:
    """`header`: block size, total blocks, total chunks, checksum, file and chunk header size."""
    image = sparse_input(rng, False)
    length = pick(rng, (partition_length(rng, image), ROOM, rng.getrandbits(64)))
    header = sparse.read_header(image)
    number = sparse.header_number(image, header, length)
    out = (
        header.block_size, header.total_blocks, header.total_chunks, header.checksum,
        header.file_header_size, header.chunk_header_size,
    )
    return Call((image, length), number, (0,) * 6 if number else out, (image,))


def chunk_cursor(rng: random.Random, image: bytes, header: sparse.Header) -> Tuple[int, int]:
    """A cursor that a walk over the image comes to, or near one, or any."""
    come_to = [(header.file_header_size, 0)]
    while len(come_to) < min(12, header.total_chunks):
        chunk = sparse.read_chunk(image, header, *come_to[-1])
        if isinstance(chunk, sparse.Refusal):
            break
        come_to.append((chunk.end, chunk.first_block + chunk.blocks))
    at, first = pick(rng, come_to)
    at += pick(rng, (0, 0, 0, 0, -4, 4, 1))
    first += pick(rng, (0, 0, 0, 0, 1, -1))
    if below(rng, 6) == 0:
        at = pick(rng, (len(image), len(image) + 1, ROOM, ROOM - 11, rng.getrandbits(64), rng.getrandbits(7)))
    if below(rng, 6) == 0:
        first = pick(rng, (header.total_blocks, header.total_blocks + 1, 2**32 - 1, rng.getrandbits(32)))
    return max(0, at), min(max(0, first), 2**32 - 1)


def chunk_call(rng: random.Random) -> Call:
    """`chunk`: place, kind, blocks, offset of its data, next offset, next first block."""
    image = sparse_input(rng, False)
    header = sparse.read_header(image)
    at, first = chunk_cursor(rng, image, header)
    chunk = sparse.read_chunk(image, header, at, first)
    if isinstance(chunk, sparse.Refusal):
        return Call((image, at, first), chunk.number, (chunk.place, 0, 0, 0, 0, 0), (image,))
    kind = CHUNK_KINDS[chunk.kind]
    out = (0, kind, chunk.blocks, chunk.data_at, chunk.end, first + chunk.blocks)
    return Call((image, at, first), 0, out, (image,))


def compare_call(rng: random.Random) -> Call:
    """`compare`: place, image, how many runs; the runs stand in the space."""
    first, second = pair_input(rng)
    space = [rng.getrandbits(32) for _ in range(numbers_lent(rng, first, second))]
    answer = compare.compare(first, second, len(space))
    number, *out = cases_compare.answer_values(answer)
    after = as_bytes("numbers", compare.space_after(answer, space))
    lent = as_bytes("numbers", space)
    return Call((first, second, lent), number, tuple(out), (first, second, after))


def join_call(rng: random.Random) -> Call:
    """`join`: place, image, the joined image's length; the image stands in the output."""
    first, second = join_input(rng)
    output = many_bytes(rng, output_length(rng, first, second))
    number, *out, after = join.join(first, second, output)
    return Call((first, second, output), number, tuple(out), (first, second, after))


def located(answer: Union[boot.Located, boot.Refusal], image: bytes, *numbers: int) -> Call:
    """A call that locates an image's sections, by the image and some numbers."""
    number, *out = cases_boot.answer_values(answer)
    return Call((image, *numbers), number, tuple(out), (image,))


def locate_call(rng: random.Random) -> Call:
    """`locate`: version, then present, position and size of the five sections, then whether a
    retired one is present."""
    image = boot_input(rng)
    return located(boot.locate(image), image)


def locate_for_call(rng: random.Random) -> Call:
    """`locate_for`: as `locate`.  At times the texts hold bytes, which stand in versions 3 and 4
    where older ones have the os version."""
    os_version = cases_launch.random_os_version(rng)
    image = boot_input(rng, os_version=os_version, filler=pick(rng, (0, 0, 1, 255)))
    release, kernel = cases_launch.random_pair(rng, image)
    return located(launch.locate_for(image, release, kernel), image, release, kernel)


def no_record(rng: random.Random, given: bytes) -> bytes:
    """A record's bytes with a flag, or several, that is neither 0 nor 1."""
    for _ in range(1 + below(rng, 3)):
        flag_at = SLOT_LENGTH * below(rng, PLACES) + below(rng, SLOT_FLAGS)
        flag = pick(rng, (2, 3, 128, 255, 2 + below(rng, 254)))
        given = build.with_bytes(given, flag_at, bytes([flag]))
    return given


def small_or_any(rng: random.Random) -> int:
    """A number of 32 bits: mostly small, or large with low bits that are, or any."""
    small = below(rng, 6)
    large = small + pick(rng, (2**8, 2**16, 2**24, 2**31, 2**32 - 2**8, 2**32 - 2**16))
    return pick(rng, (small,) * 6 + (large, large, 255, 2**32 - 1, rng.getrandbits(32)))


def fresh_call(rng: random.Random) -> Call:
    """`slots_fresh`: kind and started slot; the record is made, whatever stood there, and stays where none is."""
    count = small_or_any(rng)
    given = some_bytes(rng, RECORD_LENGTH)
    number, kind, started, *after = cases_slots.values(
        cases_slots.Case(cases_slots.FRESH, count, any_record(rng))
    )
    return Call((count, given), number, (kind, started), (given if number else bytes(after),))


def valid_call(rng: random.Random) -> Call:
    """`slots_valid`: 0 or 31 for any bytes in the place of a record."""
    record = any_record(rng)
    given = bytes(cases_slots.record_values(record))
    number = 0 if is_valid(record) else 31
    if below(rng, 4) == 0:
        given, number = no_record(rng, given), 31
    return Call((given,), number, (), (given,))


def startable_call(rng: random.Random) -> Call:
    """`slots_startable`: the count, 0 when refused, for any bytes in the place of a record."""
    record = any_record(rng)
    given = bytes(cases_slots.record_values(record))
    number, _, count = cases_slots.lamp_values(record)
    if below(rng, 4) == 0:
        given, number, count = no_record(rng, given), 31, 0
    return Call((given,), number, (count,), (given,))


def slots_call(operation: int, takes_slot: bool) -> Callable[[random.Random], Call]:
    """A slot operation: kind (0 done, 1 starts, 2 recovery, 3 refused) and the
    started slot; the record's bytes are updated.  Bytes that are no record give
    31 and stay."""
    def make(rng: random.Random) -> Call:
        record = any_record(rng)
        slot = small_or_any(rng) if takes_slot else 0
        given = bytes(cases_slots.record_values(record))
        number, kind, started, *after = cases_slots.values(
            cases_slots.Case(operation, slot, record)
        )
        if below(rng, 4) == 0:
            given = no_record(rng, given)
            number, kind, started, after = 31, REFUSED, 0, list(given)
        arguments: Tuple[Argument, ...] = (given, slot) if takes_slot else (given,)
        return Call(arguments, number, (kind, started), (bytes(after),))
    return make


# The starter.

def image_with_sections(rng: random.Random) -> bytes:
    """A boot image with any sections, whole or cut, and texts in its header."""
    image = cases_boot.random_image(rng)
    for text in boot.TABLE[fields.read(image, boot.VERSION_AT, 4)].cmdlines:
        image = build.with_bytes(image, text.at, cases_start.random_text(rng, text.length))
    return image


def starter_image(rng: random.Random) -> bytes:
    """An image for a place: mostly a header with texts, or one with sections; damaged; with one of
    the boot refusals; or few bytes, or none."""
    kind = below(rng, 16)
    if kind == 0:
        return some_bytes(rng, pick(rng, (0, below(rng, 90))))
    if kind <= 3:
        return pick(rng, cases_start.refused_images())
    if kind == 4:
        return image_with_sections(rng)
    image = cases_start.random_image(rng)
    return damaged(rng, image, pick(rng, (48, 1664))) if kind == 5 else image


def starter_record(rng: random.Random) -> bytes:
    """The bytes of a record that mostly starts a slot, or of any, or such that are none."""
    record = pick(rng, (cases_start.random_record(rng),) * 5 + (any_record(rng),))
    given = cases_start.record_bytes(record)
    return no_record(rng, given) if below(rng, 16) == 0 else given


def loader_line(rng: random.Random, rest: int) -> bytes:
    """A short line, or one with which all has as many bytes as a line may have, or nearly so; or
    one that is longer alone."""
    near = max(0, starter.LONGEST_LINE - rest + pick(rng, (-1, 0, 0, 0, 1, 1, 2)))
    short = below(rng, 90)
    longer = starter.LONGEST_LINE + below(rng, 300)
    return many_bytes(rng, pick(rng, (0, 1) + (short,) * 9 + (near,) * 4 + (longer,)))


def start_call(rng: random.Random) -> Call:
    """`start`: kind, started slot, the line's length, then as `locate`; the line stands in the
    space.  The record's bytes are as Start leaves them, also with a refusal after it."""
    images = tuple(starter_image(rng) for _ in range(PLACES))
    case = cases_start.Case(starter_record(rng), images, cases_start.random_misc(rng), b"", 0)
    line = loader_line(rng, cases_start.needed_room(case))
    case = cases_start.fitted(case._replace(line=line), cases_start.random_spare(rng))
    space = many_bytes(rng, case.room)
    number, answer, record, after = cases_start.result_of(case, space)
    read = (*images, case.misc, line)
    return Call((case.record, *read, space), number, answer, (record, *read, after))


# Reports.

COUNT = Function("report_count", ("report", "bytes", 64), 0)
ADD = Function("report_add", ("report", "report"), 0)


def as_report(numbers: Sequence[int]) -> bytes:
    """The bytes of a report as it is lent."""
    return as_bytes("report", numbers)


def counted_image(rng: random.Random) -> Tuple[bytes, int]:
    """An image to count, and the length of the partition that it is judged for."""
    image = sparse_input(rng, False)
    return image, pick(rng, (partition_length(rng, image),) * 6 + (ROOM, rng.getrandbits(64)))


def report_call(case: cases_report.Case) -> Call:
    """A call that counts an image or adds a report, as the reference has it: 61 or 0, and the
    report after; what is counted or added stays."""
    number, after = cases_report.answer_of(case)
    left = as_report(cases_report.numbers_of(after))
    numbers = as_report(case.numbers)
    if isinstance(case, cases_report.Adding):
        other = as_report(case.other)
        return Call((numbers, other), number, (), (left, other))
    return Call((numbers, case.image, case.partition_length), number, (), (left, case.image))


@lru_cache(maxsize=None)
def vector_reports() -> List[cases_report.Case]:
    """The cases that the vectors have."""
    return cases_report.all_cases(random.Random(SEED))


def edge_case(rng: random.Random, kind: type) -> cases_report.Case:
    """One of these that counts or adds, with one number replaced, or as it is."""
    case = pick(rng, [case for case in vector_reports() if isinstance(case, kind)])
    at, number = below(rng, cases_report.NUMBERS), cases_report.near_edge(rng, below(rng, 3))
    other = cases_report.with_number(case.numbers, at, number)
    return case._replace(numbers=pick(rng, (case.numbers, other)))


def report_count_call(rng: random.Random) -> Call:
    """`report_count`: the report is updated, or stays with 61."""
    if below(rng, 8) == 0:
        return report_call(edge_case(rng, cases_report.Counting))
    return report_call(cases_report.random_counting(rng, *counted_image(rng)))


def report_add_call(rng: random.Random) -> Call:
    """`report_add`: the first report is updated, or stays with 61; the second stays."""
    if below(rng, 4) == 0:
        return report_call(edge_case(rng, cases_report.Adding))
    return report_call(cases_report.random_adding(rng))


def few_numbers(rng: random.Random) -> cases_report.Numbers:
    """A report such that no total of eight of them, and of some images, passes 64 bits."""
    return tuple(rng.getrandbits(below(rng, 61)) for _ in range(cases_report.NUMBERS))


def list_sums(reports: Sequence[cases_report.Numbers]) -> List[int]:
    """The sums over a list, but the greatest in the place of the largest."""
    return [
        max(column) if at == cases_report.LARGEST_AT else sum(column)
        for at, column in enumerate(zip(*reports))
    ]


def taken_out(rng: random.Random, items: List[bytes]) -> bytes:
    """One of the items, which is no longer among them."""
    return items.pop(below(rng, len(items)))


def report_calls(rng: random.Random) -> Calls:
    """Some reports, which images are counted into, and which are added in any order and grouping
    until one is left: all totals fit, so that holds their sums and those over the images."""
    starts = [cases_report.ZEROS, *(few_numbers(rng) for _ in range(1 + below(rng, 7)))]
    images = [counted_image(rng) for _ in range(below(rng, 12))]
    shares = [cases_report.alone(*image) for image in images]
    reports = [as_report(numbers) for numbers in starts]
    while images or len(reports) > 1:
        numbers = as_number_array(taken_out(rng, reports))
        if images and (not reports or below(rng, 2) == 0):
            case: cases_report.Case = cases_report.Counting(numbers, *images.pop())
            outcome = yield COUNT, report_call(case)
        else:
            case = cases_report.Adding(numbers, as_number_array(taken_out(rng, reports)))
            outcome = yield ADD, report_call(case)
        reports.append(outcome.after[0])
    whole, nothing = as_report(list_sums(starts + shares)), as_report(cases_report.ZEROS)
    yield ADD, Call((reports[0], nothing), 0, (), (whole, nothing))


# Passes.

BEGIN = Function("pass_begin", (64, 64, "state"), 0, returns=False)
JUDGE_PIECE = Function("pass_judge_piece", ("state", "bytes"), 1)
JUDGE_FINISH = Function("pass_judge_finish", ("state",), 4)
STORE_PIECE = Function("pass_store_piece", ("state", "bytes", "bytes"), 1)
STORE_FINISH = Function("pass_store_finish", ("state", "bytes"), 4)
PASS_FUNCTIONS = (BEGIN, JUDGE_PIECE, JUDGE_FINISH, STORE_PIECE, STORE_FINISH)


class Lent(NamedTuple):
    """What a call of a pass is lent beside its state: a piece, or None to finish; a
    partition, or None for the judging pass."""

    piece: Optional[bytes]
    partition: Optional[bytes]

    def function(self) -> Function:
        """The function that is called."""
        if self.partition is None:
            return JUDGE_FINISH if self.piece is None else JUDGE_PIECE
        return STORE_FINISH if self.piece is None else STORE_PIECE

    def buffers(self) -> Tuple[bytes, ...]:
        """The bytes arguments after the state."""
        return tuple(item for item in self if item is not None)


def begin_call(rng: random.Random, length: int, room: int) -> Tuple[Function, Call]:
    """`pass_begin`: the state as the header lays it out, whatever stood there."""
    state = u64(length) + u64(room) + bytes(20) + u32(2**32 - 1)
    after = state + bytes(STATE_LENGTH - len(state))
    return BEGIN, Call((length, room, some_bytes(rng, STATE_LENGTH)), None, None, (after,))


def is_refused_in_piece(state: passes.State) -> bool:
    """Whether a refusal of 01's was given, which may come before the end of a piece."""
    return state.refusal is not None and state.refusal.number not in cases_passes.NEW_REFUSALS


def is_sum_known(state: passes.State) -> bool:
    """Whether the checksum's state is known: at all times where none is stated.  Elsewhere
    it is open when the zeros of a skipped chunk go in."""
    if not sparse.is_checksum_stated(state.header):
        return True
    in_skipped = state.waits_for == passes.CHUNK_END and not sparse.is_written(state.chunk)
    return not in_skipped and not is_refused_in_piece(state)


def state_fields(state: passes.State) -> Dict[int, bytes]:
    """What the header says of a state: the lengths told, the refusal and its place, the
    three counts, the file header as far as it came, how many bytes came, and the
    checksum's state.  The last two are left open for a refusal of 01's, save for the
    state where no checksum is stated."""
    refusal = state.refusal or sparse.Refusal(0, 0)
    given = u32(refusal.number) + u64(refusal.place)
    known = {0: u64(state.length) + u64(state.room) + given, HEAD_AT: state.head}
    known[COUNTS_AT] = u32(state.written) + u32(state.dont_care) + u32(state.unknown)
    if not is_refused_in_piece(state):
        known[COME_AT] = u64(state.come)
    if is_sum_known(state):
        known[SUM_AT] = u32(state.checksum_state)
    return known


def many_bytes(rng: random.Random, count: int) -> bytes:
    """So many bytes of any value, made at once."""
    return rng.getrandbits(8 * count).to_bytes(count, "little")


def long_image(rng: random.Random) -> bytes:
    """An image with some thousand bytes of data, raw or unknown, and headers of any length."""
    size = pick(rng, (256, 1024, 4096))
    plans = []
    for _ in range(1 + below(rng, 3)):
        raw = build.raw(many_bytes(rng, size * (1 + below(rng, 3))), size)
        data = many_bytes(rng, 4 * below(rng, size))
        unknown = build.unknown(cases_sparse.other_type(rng), 1 + below(rng, 3), data)
        fill = build.fill(some_bytes(rng, 4), 1)
        plans.append(pick(rng, (raw, raw, fill, build.skip(1), unknown)))
    return build.sparse_image(
        size,
        plans,
        file_header_size=pick(rng, (28, 28, 32, 1000, 65532)),
        chunk_header_size=pick(rng, (12, 12, 16, 1000, 65532)),
    )


def pass_input(rng: random.Random) -> bytes:
    """An image, long ones among them, whole or damaged, or bytes that are none."""
    if below(rng, 8) != 0:
        return sparse_input(rng, below(rng, 4) != 0)
    image = restated(rng, long_image(rng))
    return damaged(rng, image, 28) if below(rng, 4) == 0 else image


def cut(rng: random.Random, image: bytes) -> Sequence[bytes]:
    """The image byte by byte, in one piece, in two, or in several."""
    kind = below(rng, 6)
    if kind == 0 and 0 < len(image) < 200:
        return cases_passes.by_bytes(image)
    return [image] if kind == 1 else cases_passes.at_random(rng, image, pick(rng, (3, 8, 8)))


def announced(rng: random.Random, image: bytes) -> int:
    """Mostly the image's length, or one near it, or any."""
    near = max(0, len(image) + pick(rng, (-12, -1, 1, 4, 12, 40)))
    return pick(rng, (len(image),) * 12 + (near, near, ROOM, rng.getrandbits(64)))


def pass_calls(rng: random.Random) -> Calls:
    """A whole pass, or both over one state, each call as the reference has it; the
    partition as the last call left it, or with other contents each time."""
    image = pass_input(rng)
    length, room = announced(rng, image), partition_length(rng, image)
    if below(rng, 8) == 0:
        room = pick(rng, (ROOM, rng.getrandbits(64), below(rng, 200)))
    partition = many_bytes(rng, min(room, LARGEST_LENT) + 40)
    takes = cases_passes.passes_taken(rng, room) if room <= LARGEST_LENT else (None, None, 40)
    keeps = below(rng, 4) != 0
    state = passes.begin(length, room)
    outcome = yield begin_call(rng, length, room)
    for piece, count in cases_passes.random_calls(rng, cut(rng, image), takes):
        lent = Lent(piece, None if count is None else partition[:count])
        state, answer, left = passes.called(state, *lent)
        number, *out = cases_passes.answer_values(answer, piece is None)
        after = (state_fields(state),) + Lent(piece, left).buffers()
        arguments = (outcome.after[0],) + lent.buffers()
        outcome = yield lent.function(), Call(arguments, number, tuple(out), after)
        kept = (left or b"") + partition[len(left or b""):]
        partition = kept if keeps else many_bytes(rng, len(partition))


def forged(rng: random.Random, state: bytes, room: int) -> bytes:
    """A state that no pass made: some numbers of a true one replaced, or any bytes, of
    which the refusal and the lengths are mostly such that the call goes on."""
    if below(rng, 2) == 0:
        for _ in range(1 + below(rng, 4)):
            number = u32(pick(rng, EDGES + (rng.getrandbits(32),)))[:pick(rng, (1, 2, 4))]
            state = build.with_bytes(state, 4 * below(rng, STATE_LENGTH // 4), number)
        return state
    state = some_bytes(rng, STATE_LENGTH)
    come = rng.getrandbits(below(rng, 60))
    for at, field in ((0, u64(ROOM)), (8, u64(room)), (16, bytes(4)), (COME_AT, u64(come))):
        state = build.with_bytes(state, at, field) if below(rng, 8) != 0 else state
    if below(rng, 2) == 0:
        state = build.with_bytes(state, HEAD_AT + sparse.CHECKSUM_AT, bytes(4))
    return state


def kept_sum(state: bytes) -> Dict[int, bytes]:
    """The checksum's state, where no call changes it: the known fields of the file header
    have come, and none is stated there."""
    head = state[HEAD_AT:HEAD_AT + sparse.HEADER_LENGTH]
    if fields.read(state, COME_AT, 8) < sparse.HEADER_LENGTH:
        return {}
    if sparse.is_checksum_stated(sparse.read_header(head)):
        return {}
    return {SUM_AT: state[SUM_AT:SUM_AT + 4]}


def forged_calls(rng: random.Random) -> Calls:
    """Calls on a state that no pass made.  No more is known than that a finishing stores
    nothing, that nothing is summed where no checksum is stated, and that a refusal in
    the state, or one given since, is given again and stores nothing."""
    image = pass_input(rng)
    room = min(partition_length(rng, image), LARGEST_LENT)
    outcome = yield begin_call(rng, len(image), room)
    first = image[:below(rng, len(image) + 1)]
    outcome = yield JUDGE_PIECE, Call((outcome.after[0], first), None, None, ({}, first))
    state = forged(rng, outcome.after[0], room)
    number, place = fields.read(state, 16, 4), fields.read(state, 20, 8)
    rest = cut(rng, image[len(first):])
    for piece, count in cases_passes.random_calls(rng, rest, cases_passes.passes_taken(rng, room)):
        lent = Lent(piece, None if count is None else many_bytes(rng, count))
        kept = lent if number != 0 or piece is None else Lent(piece, None)
        known = kept_sum(state)
        call = Call((state,) + lent.buffers(), None, None, (known,) + kept.buffers())
        if number != 0:
            out = (place, 0, 0, 0)[:lent.function().answers]
            known[16] = u32(number) + u64(place)
            call = call._replace(number=number, out=out)
        outcome = yield lent.function(), call
        state, number, place = outcome.after[0], outcome.number or 0, outcome.out[0]


def single(
    name: str,
    types: Tuple[Union[str, int], ...],
    answers: int,
    make: Callable[[random.Random], Call],
) -> Kind:
    """Cases of one call of a function."""
    function = Function(name, types, answers)

    def calls(rng: random.Random) -> Calls:
        yield function, make(rng)
    return Kind(name, (function,), calls)


KINDS = (
    single("judge", ("bytes", 64), 4, judge_call),
    single("store", ("bytes", "bytes"), 4, store_call),
    single("store_limited", ("bytes", "bytes", 64), 2, store_limited_call),
    single("write", ("bytes", 32, "bytes"), 2, write_call),
    single("header", ("bytes", 64), 6, header_call),
    single("chunk", ("bytes", 64, 32), 6, chunk_call),
    single("compare", ("bytes", "bytes", "numbers"), 3, compare_call),
    single("join", ("bytes", "bytes", "bytes"), 3, join_call),
    single("locate", ("bytes",), 17, locate_call),
    single("locate_for", ("bytes", 32, 32), 17, locate_for_call),
    single("slots_valid", ("record",), 0, valid_call),
    single("slots_startable", ("record",), 1, startable_call),
    single("slots_fresh", (32, "record"), 2, fresh_call),
    single("slots_start", ("record",), 2, slots_call(cases_slots.START, False)),
    single("slots_set_active", ("record", 32), 2, slots_call(cases_slots.SET_ACTIVE, True)),
    single("slots_modified", ("record", 32), 2, slots_call(cases_slots.MODIFIED, True)),
    single("slots_corrupted", ("record", 32), 2, slots_call(cases_slots.CORRUPTED, True)),
    single("slots_confirm", ("record",), 2, slots_call(cases_slots.CONFIRM, False)),
    single("start", ("record",) + ("bytes",) * 7, 20, start_call),
    single(COUNT.name, COUNT.types, COUNT.answers, report_count_call),
    single(ADD.name, ADD.types, ADD.answers, report_add_call),
    Kind("reports", (COUNT, ADD), report_calls),
    Kind("pass", PASS_FUNCTIONS, pass_calls),
    Kind("forged_pass", PASS_FUNCTIONS, forged_calls),
)


# The run.

def described(function: Function, call: Call, fault: str) -> str:
    """A difference with the call that shows it."""
    shown = [item.hex() if isinstance(item, bytes) else str(item) for item in call.arguments]
    head = f"{PREFIX}{function.name}: {fault}"
    return "\n".join([head] + [f"  argument {i}: {text}" for i, text in enumerate(shown)])


def entries(library: str, kinds: Sequence[Kind]) -> Dict[str, Any]:
    """The library's functions, ready to be called."""
    loaded = ctypes.CDLL(library)
    found = {}
    for function in [function for kind in kinds for function in kind.functions]:
        if not hasattr(loaded, PREFIX + function.name):
            print(f"differential: no function {PREFIX}{function.name}", flush=True)
            sys.exit(1)
        entry = getattr(loaded, PREFIX + function.name)
        entry.argtypes = signature(function)
        entry.restype = ctypes.c_uint32 if function.returns else None
        found[function.name] = entry
    return found


def called(foreign: Dict[str, Any], calls: Calls, number: int, rng: random.Random) -> int:
    """Makes the calls of a case, and says how many; leaves with 1 at a difference."""
    count = 0
    try:
        function, call = next(calls)
        while True:
            outcome = outcome_of(foreign[function.name], function, call.arguments, rng)
            fault = fault_of(outcome, call)
            if fault is not None:
                shown = described(function, call, fault)
                print(f"differential: case {number}, call {count}, {shown}", flush=True)
                sys.exit(1)
            count += 1
            function, call = calls.send(outcome)
    except StopIteration:
        return count


def run(
    library: str, kinds: Sequence[Kind], seed: int, start: int, end: float, reached: Any
) -> None:
    """Makes case after case until the time is over, and says how many calls they took."""
    foreign = entries(library, kinds)
    number, count = start, 0
    while time.monotonic() < end:
        reached.value = number
        rng = random.Random(f"{seed} {number}")
        count += called(foreign, kinds[number % len(kinds)].make(rng), number, rng)
        number += 1
    print(f"differential: {count} calls agree", flush=True)


def kinds_named(text: str) -> List[Kind]:
    """The kinds in a list with commas; each must be in the table."""
    known = {kind.name: kind for kind in KINDS}
    for name in text.split(","):
        if name not in known:
            raise argparse.ArgumentTypeError(f"no kind {name}; there are {', '.join(known)}")
    return [known[name] for name in text.split(",")]


def main() -> int:
    """Runs in a process of its own, so that a crash or a loop can be reported."""
    parser = argparse.ArgumentParser(description="Compares a library with the reference.")
    parser.add_argument("library")
    parser.add_argument("--seconds", type=float, default=60)
    parser.add_argument("--seed", type=int, default=SEED)
    parser.add_argument("--start", type=int, default=0)
    parser.add_argument("--kinds", type=kinds_named, default=list(KINDS))
    options = parser.parse_args()
    forked = multiprocessing.get_context("fork")
    reached = forked.Value("Q", options.start, lock=False)
    end = time.monotonic() + options.seconds
    library = os.path.abspath(options.library)
    child = forked.Process(
        target=run, args=(library, options.kinds, options.seed, options.start, end, reached)
    )
    child.start()
    child.join(options.seconds + LONGEST_WAIT)
    if child.is_alive():
        child.kill()
        print(f"differential: case {reached.value} does not end")
        return 1
    if child.exitcode not in (0, 1):
        print(f"differential: case {reached.value} ended the process: {child.exitcode}")
    return 1 if child.exitcode else 0


if __name__ == "__main__":
    sys.exit(main())
