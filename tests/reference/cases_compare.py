"""Group `compare`: what changed between two images."""

import itertools
import random
from typing import Iterable, List, NamedTuple, Optional, Sequence, Tuple

import build
import cases_sparse
import cases_store
import compare
import crc
import sparse
import writer
from build import ChunkPlan
from cases_common import Group, below, pick, some_bytes, u32
from cases_sparse import MOST

LONGEST_IMAGE = 4096
MOST_NUMBERS = 96
LINE_CASES = 16
RANDOM_CASES = 200
SIZES = (4, 8, 12, 4, 16, 8, 64)
KINDS = (sparse.RAW, sparse.FILL, sparse.DONT_CARE, sparse.UNKNOWN)
WORD, OTHER = b"\x01\x02\x03\x04", b"\x01\x02\x03\x84"
WORDS = (WORD, OTHER, bytes(4), b"\xFF" * 4)

Images = Tuple[bytes, bytes]


class Case(NamedTuple):
    """Two images, and how many numbers the lent space has."""

    first: bytes
    second: bytes
    numbers: int


# The file and its lines.

def encoded(case: Tuple[bytes, bytes, int], most: int) -> bytes:
    """The case as it stands in the file: two images, and how many numbers or bytes are lent,
    of which there may be so many."""
    first, second, lent = case
    assert max(len(first), len(second)) <= LONGEST_IMAGE
    assert 0 <= lent <= most
    return u32(len(first)) + u32(len(second)) + u32(lent) + first + second


def first_space(numbers: int) -> Tuple[int, ...]:
    """What the space holds at first."""
    return tuple(11 + 5 * i for i in range(numbers))


def answer_values(answer: compare.Answer) -> Tuple[int, int, int, int]:
    """Number, place, image, and how many runs."""
    if isinstance(answer, compare.Refusal):
        return answer.number, answer.place, answer.image, 0
    return 0, 0, 0, len(answer.runs)


def values(case: Case) -> Tuple[int, ...]:
    """The answer's four values, and every number of the space after."""
    answer = compare.compare(*case)
    return answer_values(answer) + compare.space_after(answer, first_space(case.numbers))


def line_checksum(cases: Sequence[Case]) -> int:
    """The checksum of the values, 4 bytes each, of each case."""
    return crc.checksum(b"".join(u32(value) for case in cases for value in values(case)))


def fitted(images: Images, spare: Iterable[int] = (0,)) -> List[Case]:
    """The space so many numbers longer than the list: short, exact, long."""
    needed = compare.RUN_NUMBERS * len(compare.runs_of(*images))
    return [Case(*images, max(0, needed + more)) for more in spare]


def both_ways(images: Images) -> List[Case]:
    """Two images in this order, the space exact, and in the other, the space longer."""
    first, second = images
    return fitted(images) + fitted((second, first), (2,))


# Chunks over one another.

def marked_block(size: int, block: int, marks: int) -> bytes:
    """A block of one word, as a fill chunk gives it, but for those that are marked."""
    data = WORD * (size // 4)
    if marks == 1 and block % 2 == 1:
        return data[:-1] + b"\x5A"
    if marks == 2 and block % 3 == 0:
        return b"\x5A" + data[1:]
    return data


def kind_plan(kind: str, size: int, first: int, blocks: int, marks: int) -> ChunkPlan:
    """A chunk of a kind that begins at a block; where raw it is marked."""
    if kind == sparse.RAW:
        given = range(first, first + blocks)
        return build.raw(b"".join(marked_block(size, block, marks) for block in given), size)
    if kind == sparse.FILL:
        return build.fill(WORD, blocks)
    if kind == sparse.DONT_CARE:
        return build.skip(blocks)
    return build.unknown(0xCAC4 + first, blocks, WORD * (first % 3))


def kinds_image(
    size: int, kinds: Sequence[str], counts: Sequence[int], marks: int, **given: int
) -> bytes:
    """An image with chunks of these kinds and so many blocks each."""
    plans = []
    first = 0
    for kind, blocks in zip(kinds, counts):
        plans.append(kind_plan(kind, size, first, blocks, marks))
        first += blocks
    return build.sparse_image(size, plans, **given)


# Of each image the blocks before, of and after the chunk that meets the other's.
LAYOUTS = (
    ((1, 3, 1), (1, 3, 1)),
    ((0, 5, 2), (2, 2, 3)),
    ((2, 1, 4), (0, 5, 2)),
    ((0, 3, 3), (1, 5, 0)),
    ((2, 4, 0), (1, 3, 2)),
    ((1, 2, 2), (3, 1, 1)),
    ((3, 2, 1), (1, 2, 3)),
    ((0, 1, 0), (0, 1, 0)),
)


def layout_cases() -> List[Case]:
    """A chunk of each kind over one of each kind, in part, inside it or just beside it;
    other chunks, or empty ones, before and after."""
    cases = []
    for i, (a, b) in enumerate(itertools.product(range(4), repeat=2)):
        of_first = [KINDS[(a + k) % 4] for k in (1, 0, 2)]
        of_second = [KINDS[(b + k) % 4] for k in (2, 0, 3)]
        for k, (first, second) in enumerate(LAYOUTS):
            size = SIZES[(i + k) % len(SIZES)]
            images = (
                kinds_image(size, of_first, first, (i + k) % 2),
                kinds_image(size, of_second, second, k % 3),
            )
            cases += fitted(images, ((0, 1, 4)[(i + k) % 3],))
    return cases


def two_chunk_cases() -> List[Case]:
    """Two chunks of any kinds over two of any kinds, parted elsewhere; runs that go on
    over the end of a chunk."""
    cases = []
    for i, kinds in enumerate(itertools.product(KINDS, repeat=4)):
        images = (
            kinds_image(4, kinds[:2], (2, 3), i // 2 % 3),
            kinds_image(4, kinds[2:], (3, 2), i // 3 % 3),
        )
        cases += fitted(images, ((0, 0, 2)[i % 3],))
    return cases


EMPTY_PLANS = (
    build.raw(b"", 4),
    build.fill(b"none", 0),
    build.skip(0),
    build.unknown(0xCAC9, 0, b"any data"),
)


def with_empties(plans: List[ChunkPlan], empties: List[ChunkPlan]) -> List[bytes]:
    """Images of some chunks, with empty ones at each place before, between and after."""
    return [
        build.sparse_image(4, plans[:at] + empties + plans[at:]) for at in range(len(plans) + 1)
    ]


def empty_chunk_cases() -> List[Case]:
    """Empty chunks of each kind, and of all, in either image or both; runs go on over
    them."""
    plans = [build.raw(WORD * 2, 4), build.fill(WORD, 2), build.skip(1)]
    others = [build.fill(WORD, 3), build.raw(WORD + OTHER, 4)]
    plain, plain_other = build.sparse_image(4, plans), build.sparse_image(4, others)
    cases = []
    for empties in [[plan] for plan in EMPTY_PLANS] + [list(EMPTY_PLANS)]:
        firsts, seconds = with_empties(plans, empties), with_empties(others, empties)
        pairs = [(first, plain_other) for first in firsts]
        pairs += [(plain, second) for second in seconds] + list(zip(firsts, seconds))
        cases += [case for pair in pairs for case in fitted(pair)]
    return cases


# Bytes that are equal or nearly so.

def row_images(size: int, blocks: Sequence[bytes], cut: int) -> List[Images]:
    """A row of raw blocks against a fill, and against raw ones that the fill would give,
    which are parted at a block."""
    row = build.sparse_image(size, [build.raw(b"".join(blocks), size)])
    plain = WORD * (size // 4)
    parts = [build.raw(plain * count, size) for count in (cut, len(blocks) - cut)]
    fill = build.sparse_image(size, [build.fill(WORD, len(blocks))])
    return [(row, fill), (row, build.sparse_image(size, parts))]


def pattern_cases() -> List[Case]:
    """Four blocks, each equal or different: against fill, against raw, and the other way."""
    cases = []
    plain, marked = WORD * 2, WORD + OTHER
    for i, blocks in enumerate(itertools.product((plain, marked), repeat=4)):
        for images in row_images(8, blocks, i % 4):
            cases += both_ways(images)
    return cases


def one_byte_cases() -> List[Case]:
    """Single blocks that differ in one byte, each byte in turn."""
    cases = []
    for size in (4, 8, 16):
        for at in range(size):
            block = bytearray(WORD * (size // 4))
            block[at] ^= (0x01, 0x80)[at % 2]
            for images in row_images(size, [bytes(block)], 0):
                cases += fitted(images)
    return cases


def one_word_cases() -> List[Case]:
    """Rows of longer blocks, the first and the last equal and each of the others different
    in a single byte of one of its words."""
    cases = []
    for size in (20, 28, 36, 60):
        plain = WORD * (size // 4)
        blocks = [
            build.with_bytes(plain, 4 * word + word % 4, b"\x5A") for word in range(size // 4)
        ]
        for images in row_images(size, [plain] + blocks + [plain], 3):
            cases += fitted(images)
    return cases


def near_blocks(size: int) -> List[bytes]:
    """Blocks that begin, end or go on as the fill's do, but are others: the words shifted
    by some bytes or reversed, all but one word others, all but one word the same."""
    words = size // 4
    plain = WORD * words
    found = [plain[shift:] + plain[:shift] for shift in (1, 2, 3)] + [plain[::-1]]
    for at in sorted({0, words // 2, words - 1}):
        found.append(OTHER * at + WORD + OTHER * (words - 1 - at))
        found.append(WORD * at + OTHER + WORD * (words - 1 - at))
    return [block for block in dict.fromkeys(found) if block != plain]


def near_cases() -> List[Case]:
    """Such blocks, with equal ones between them."""
    cases = []
    for size in (4, 8, 12, 16, 24, 64):
        plain = WORD * (size // 4)
        blocks = [block for near in near_blocks(size) for block in (near, plain)]
        against_fill, against_raw = row_images(size, blocks, 1)
        cases += both_ways(against_fill) + (fitted(against_raw) if size < 64 else [])
    return cases


def fill_cases() -> List[Case]:
    """Fill against fill, of words that are equal, or differ in a single byte, or are
    shifted; parted where the other is not; and equal words in neighbouring chunks."""
    cases = []
    words = [WORD, OTHER, WORD[1:] + WORD[:1], WORD[2:] + WORD[:2], WORD[::-1]]
    words += [build.with_bytes(WORD, at, b"\x5A") for at in range(4)]
    for i, word in enumerate(words):
        size = SIZES[i % len(SIZES)]
        whole = build.sparse_image(size, [build.fill(WORD, 6)])
        filled = ((WORD, 2), (word, 1), (word, 2), (WORD, 1))
        parted = [build.fill(one, blocks) for one, blocks in filled]
        cases += both_ways((whole, build.sparse_image(size, parted)))
        cases += fitted((whole, build.sparse_image(size, [build.fill(word, 6)])), (0, 1))
    return cases


def recut_cases() -> List[Case]:
    """The same bytes from raw chunks that are parted anywhere, and from other chunks."""
    size = 12
    flat = bytes(range(100, 100 + 2 * size)) + WORD * 9 + bytes(range(50, 50 + size))
    blocks = len(flat) // size
    whole = build.sparse_image(size, [build.raw(flat, size)])
    cases = fitted((whole, whole)) + both_ways((whole, writer.image_of(flat, size)))
    marked = build.sparse_image(size, [build.raw(flat[:-1] + b"!", size)])
    others = (whole, writer.image_of(flat, size), marked)
    for i, cuts in enumerate(itertools.combinations(range(1, blocks), 2)):
        ends = (0,) + cuts + (blocks,)
        parts = [flat[size * a:size * b] for a, b in zip(ends, ends[1:])]
        recut = build.sparse_image(size, [build.raw(part, size) for part in parts])
        cases += both_ways((recut, others[i % 3]))
    return cases


def long_block_cases() -> List[Case]:
    """Longer blocks, of up to some thousand bytes, that are equal, or but for the last byte."""
    cases = []
    for size, places in ((512, (None, 511)), (1024, (1023,)), (4032, (4031,))):
        plain = WORD * (size // 4)
        for at in places:
            block = plain if at is None else build.with_bytes(plain, at, b"\x5A")
            against_fill, against_raw = row_images(size, [block], 0)
            cases += fitted(against_fill) + (fitted(against_raw) if size < 4032 else [])
    return cases


# Blocks that are skipped, and no blocks.

def zero_cases() -> List[Case]:
    """Zeros against blocks that are skipped, which the checksum counts as zeros; zeros
    against zeros."""
    cases = []
    for size in (4, 8):
        zeros = [build.raw(bytes(2 * size), size), build.fill(bytes(4), 2)]
        skips = [build.skip(2), build.unknown(0xCAC0, 2, bytes(2 * size)), build.unknown(0, 2)]
        images = [build.sparse_image(size, [plan]) for plan in zeros + skips]
        cases += [case for pair in itertools.product(images, images) for case in fitted(pair)]
        mixed = [build.sparse_image(size, [plan, build.fill(WORD, 1)]) for plan in zeros + skips]
        cases += [case for pair in zip(mixed, mixed[1:]) for case in fitted(pair, (0, 1))]
    return cases


def no_block_cases() -> List[Case]:
    """Images of no blocks, without chunks and with empty ones, in no space and in some."""
    images = [build.sparse_image(4, []), build.sparse_image(4, EMPTY_PLANS)]
    images.append(build.sparse_image(4, EMPTY_PLANS[1:], file_header_size=40))
    return [
        Case(first, second, numbers)
        for first, second in itertools.product(images, images) for numbers in (0, 1, 8)
    ]


def header_size_cases() -> List[Case]:
    """Headers longer than they need be, of one image or of both."""
    cases = []
    for i, ((file_size, chunk_size), (other_file, other_chunk)) in enumerate(itertools.product(
        ((28, 12), (32, 16), (36, 20), (60, 12), (28, 40)), repeat=2
    )):
        size = SIZES[i % 4]
        kinds = [KINDS[(i + k) % 4] for k in range(4)]
        first = kinds_image(
            size, kinds, (1, 2, 1, 2), 1, file_header_size=file_size, chunk_header_size=chunk_size
        )
        second = kinds_image(
            size, kinds[1:] + kinds[:1], (2, 2, 1, 1), i % 3,
            file_header_size=other_file, chunk_header_size=other_chunk,
        )
        cases += fitted((first, second), (i % 3,))
    return cases


# Images that name many blocks.

def wide_plan(i: int, blocks: int) -> ChunkPlan:
    """A chunk of many blocks: one of two fills, skipped, or unknown, in turn."""
    return (
        build.fill(WORD, blocks),
        build.skip(blocks),
        build.fill(OTHER, blocks),
        build.unknown(0xCAC4, blocks, b"data"),
    )[i % 4]


WIDE_CUTS: Tuple[Tuple[int, ...], ...] = (
    (MOST,),
    (1, MOST - 1),
    (MOST - 1, 1),
    (2**31, 2**31 - 1),
    (2**16, MOST - 2**16),
    (1, MOST - 2, 1),
)


def wide_images(size: int) -> List[bytes]:
    """Images of 2^32 - 1 blocks: of one chunk of each kind, and of several, parted at
    several blocks."""
    images = [build.sparse_image(size, [wide_plan(i, MOST)]) for i in range(4)]
    for i, counts in enumerate(WIDE_CUTS[1:]):
        plans = [wide_plan(i + k, blocks) for k, blocks in enumerate(counts)]
        images.append(build.sparse_image(size, plans))
        same = [build.fill(WORD, blocks) for blocks in counts]
        images.append(build.sparse_image(size, same, checksum=0))
    return images


def wide_cases() -> List[Case]:
    """These against one another; one raw block between many; and totals whose list of
    single blocks would take few numbers, were they counted in 32 bits."""
    cases = []
    images, large = wide_images(4), wide_images(65536)
    for i, pair in enumerate(itertools.product(range(len(images)), repeat=2)):
        first, second = ((images, large)[i % 2][k] for k in pair)
        if max(pair) < 4 or sum(pair) % 3 == 0:
            cases += fitted((first, second), ((0, 0, 1, -1)[i % 4],))
    for first_part in (0, 1, 2**31 - 1, 2**31, 2**32 - 2):
        around = [first_part, MOST - 1 - first_part]
        raw = [build.fill(WORD, around[0]), build.raw(WORD, 4), build.fill(WORD, around[1])]
        mixed = [build.skip(around[0]), build.raw(OTHER, 4), build.fill(WORD, around[1])]
        cases += both_ways((build.sparse_image(4, raw), images[0]))
        cases += both_ways((build.sparse_image(4, mixed), images[0]))
        cases += fitted((build.sparse_image(4, raw), build.sparse_image(4, mixed)), (0, -1))
    for total, numbers in itertools.product((0x55555556, 0xAAAAAAAB, 2**31), range(7)):
        parted = build.sparse_image(8, [build.fill(WORD, 1), build.skip(total - 1)])
        cases.append(Case(build.sparse_image(8, [build.fill(WORD, total)]), parted, numbers))
    return cases


# The space.

def space_cases() -> List[Case]:
    """Every space up to more than all single blocks could take, for lists of as many runs
    as blocks, of fewer, and of one; the longest list, and the longest of more blocks."""
    cases = []
    plain, other = WORD, OTHER
    for blocks in (
        (plain, other, plain, other, plain),
        (plain, plain, plain, other, other),
        (other, other, other, other),
        (plain, other, plain),
        (plain,),
    ):
        images = row_images(4, blocks, 1)[len(blocks) % 2]
        cases += [Case(*images, numbers) for numbers in range(3 * len(blocks) + 3)]
    for blocks in ((plain, other) * 16, (other,) + (plain, other) * 15 + (plain,) * 9):
        cases += fitted(row_images(4, blocks, 7)[0], (0, -1, -2, -3, -96))
    return cases


# Refusals.

def refused_images() -> List[bytes]:
    """An image for each test but that of the room, which cannot come: the one that has too
    little elsewhere is left out."""
    found = zip(cases_store.REFUSALS, cases_store.refused_images(41))
    return [image for number, image in found if number != 6]


def refusal_cases() -> List[Case]:
    """Each refusal of the first image, of the second and of both, also where geometry
    differs and the space is short."""
    good = build.sparse_image(4, [build.raw(b"GOOD", 4), build.fill(WORD, 3)])
    others = (
        build.sparse_image(4, [build.fill(WORD, 5)]),
        build.sparse_image(8, [build.fill(WORD, 4)]),
        build.sparse_image(8, []),
    )
    images = refused_images()
    cases = []
    for i, bad in enumerate(images):
        cases += [Case(bad, good, 12), Case(good, bad, 12), Case(bad, bad, 3)]
        cases += [Case(bad, good, 0), Case(good, bad, 0)]
        cases += [Case(bad, others[i % 3], i % 2), Case(others[i % 3], bad, 9)]
        for step in (1, 4, 9):
            cases.append(Case(bad, images[(i + step) % len(images)], 6))
    return cases


def damaged_cases() -> List[Case]:
    """One byte of an image damaged, or some cut off: the first, or the second, against the
    whole one; and checksums of 0 and 1."""
    base = cases_sparse.base_image()
    damaged = [case.image for case in cases_sparse.damaged_cases()[::23]]
    short = build.two_chunks()
    cut = [short[:n] for n in (0, 1, 4, 12, 27, 28, 29, 39, 40, 43, 44, 45, 55)]
    cases = []
    for i, image in enumerate(damaged):
        cases.append(Case(*((image, base), (base, image))[i % 2], 12 + i % 3))
    cases += [Case(image, short, 6) for image in cut] + [Case(short, image, 6) for image in cut]
    for checksums in itertools.product((None, 0, 1, MOST), repeat=2):
        stated = [base if one is None else build.stating(base, one) for one in checksums]
        cases.append(Case(stated[0], stated[1], 12))
    return cases


GEOMETRIES = (
    (4, 4), (8, 4), (4, 8), (8, 2), (16, 1), (4, 0), (8, 0), (4, 5), (65536, 4), (4, 65540)
)


def geometry_cases() -> List[Case]:
    """Block sizes and totals that are equal or not, the product at times equal; space for
    all runs, or none."""
    images = [build.sparse_image(size, [build.fill(WORD, total)]) for size, total in GEOMETRIES]
    return [
        Case(first, second, (12, 0, 3)[(i + k) % 3])
        for (i, first), (k, second) in itertools.product(enumerate(images), repeat=2)
    ]


# Random pairs.

Block = Optional[bytes]


class Pair(NamedTuple):
    """What two images are to give to each block; None where they skip it."""

    size: int
    first: List[Block]
    second: List[Block]


def random_block(rng: random.Random, size: int) -> Block:
    """A block that is skipped, or of one of few words, at times with one byte changed."""
    if below(rng, 4) == 0:
        return None
    block = pick(rng, WORDS) * (size // 4)
    if below(rng, 3) == 0:
        return build.with_bytes(block, below(rng, size), pick(rng, (b"\0", b"\x84")))
    return block


def random_blocks(rng: random.Random, size: int, count: int) -> List[Block]:
    """So many blocks, of which neighbours are often alike."""
    blocks: List[Block] = []
    while len(blocks) < count:
        blocks += [random_block(rng, size)] * (1 + below(rng, 4))
    return blocks[:count]


def changed(rng: random.Random, size: int, blocks: Sequence[Block]) -> List[Block]:
    """The blocks after small changes: a few others, skipped ones, or a single bit."""
    after = list(blocks)
    for _ in range(below(rng, 5) if blocks else 0):
        at = below(rng, len(after))
        block, kind = after[at], below(rng, 3)
        if kind == 0 and block is not None:
            place = pick(rng, (0, size - 1, below(rng, size)))
            bit = bytes([block[place] ^ 1 << below(rng, 8)])
            after[at] = build.with_bytes(block, place, bit)
        else:
            other = None if kind == 1 else random_block(rng, size)
            count = min(1 + below(rng, 3), len(after) - at)
            after[at:at + count] = [other] * count
    return after


def random_pair(rng: random.Random, sizes: Sequence[int], most: int) -> Pair:
    """Some blocks, and the same after small changes, in either order; or any two rows."""
    size = pick(rng, sizes)
    first = random_blocks(rng, size, below(rng, most + 1))
    if below(rng, 6) == 0:
        return Pair(size, first, random_blocks(rng, size, len(first)))
    second = changed(rng, size, first)
    return Pair(size, second, first) if below(rng, 2) == 0 else Pair(size, first, second)


def alike(blocks: Sequence[Block], at: int, is_alike: bool) -> int:
    """How many blocks from one on are as it is: skipped or written, or the same bytes."""
    def matches(block: Block) -> bool:
        return block == blocks[at] if is_alike else (block is None) == (blocks[at] is None)
    return len(list(itertools.takewhile(matches, blocks[at:])))


def plan_at(rng: random.Random, size: int, blocks: Sequence[Block], at: int) -> ChunkPlan:
    """A chunk of any kind that gives some of the blocks from one on."""
    block = blocks[at]
    is_fill = block is not None and writer.common_word(block) is not None and below(rng, 3) != 0
    longest = alike(blocks, at, is_fill)
    count = pick(rng, (longest, 1 + below(rng, longest)))
    if block is None:
        data = some_bytes(rng, 4 * below(rng, 3))
        unknown = build.unknown(cases_sparse.other_type(rng), count, data)
        return pick(rng, (build.skip(count), build.skip(count), unknown))
    if is_fill:
        return build.fill(block[:4], count)
    return build.raw(b"".join(given or b"" for given in blocks[at:at + count]), size)


def image_of(rng: random.Random, size: int, blocks: Sequence[Block]) -> bytes:
    """An image that gives these blocks, in chunks parted anywhere, empty ones among them,
    with headers of any length, and often with no checksum stated."""
    plans: List[ChunkPlan] = []
    at = 0
    while at < len(blocks):
        plans += [pick(rng, EMPTY_PLANS)] if below(rng, 8) == 0 else []
        plans.append(plan_at(rng, size, blocks, at))
        at += plans[-1].blocks
    file_size, chunk_size = pick(rng, ((28, 12),) * 6 + ((32, 12), (28, 16), (40, 20)))
    image = build.sparse_image(
        size, plans, file_header_size=file_size, chunk_header_size=chunk_size
    )
    return build.stating(image, 0) if below(rng, 4) == 0 else image


def images_of(rng: random.Random, pair: Pair) -> Images:
    """Images that give the blocks of a pair."""
    return image_of(rng, pair.size, pair.first), image_of(rng, pair.size, pair.second)


def wide_pair(rng: random.Random) -> Images:
    """Images that name many blocks, in few chunks that are parted at blocks of which most
    are the same or neighbours."""
    total = pick(rng, (MOST, MOST, rng.getrandbits(32), 1 + rng.getrandbits(20)))
    size = pick(rng, (4, 8, 4096, 65536))
    places = [rng.getrandbits(32) % (total + 1) for _ in range(3)]
    near = [min(total, place + pick(rng, (0, 1, 2))) for place in places]
    images = []
    for _ in range(2):
        cuts = sorted(place for place in places + near if below(rng, 3) != 0)
        plans = [wide_choice(rng, size, b - a) for a, b in zip([0] + cuts, cuts + [total])]
        image = build.sparse_image(size, plans)
        images.append(build.stating(image, 0) if below(rng, 3) == 0 else image)
    return images[0], images[1]


def wide_choice(rng: random.Random, size: int, blocks: int) -> ChunkPlan:
    """A chunk of one of the fills, skipped or unknown; raw where it is short."""
    if blocks * size <= 64 and below(rng, 2) == 0:
        return build.raw(pick(rng, WORDS[:2]) * (blocks * size // 4), size)
    return wide_plan(pick(rng, (0, 0, 0, 1, 2, 3)), blocks)


def random_cases(rng: random.Random) -> List[Case]:
    """Random pairs, most of few blocks, the space short, exact or long."""
    cases = []
    for i in range(RANDOM_CASES):
        if i % 10 == 0:
            images = wide_pair(rng)
        else:
            images = images_of(rng, random_pair(rng, (4, 4, 8, 8, 12, 16), 10))
        spare = pick(rng, (0, 0, 0, 0, 1, 2, 3, 6, -1, -2))
        cases += fitted(images, (spare,))
    return cases


def listed_cases() -> List[Case]:
    """All cases that are not random."""
    cases = layout_cases() + two_chunk_cases() + empty_chunk_cases() + pattern_cases()
    cases += one_byte_cases() + one_word_cases() + near_cases() + fill_cases() + recut_cases()
    cases += long_block_cases() + zero_cases() + no_block_cases() + header_size_cases()
    cases += wide_cases() + space_cases() + refusal_cases() + damaged_cases()
    return cases + geometry_cases()


def listed_pairs() -> List[Images]:
    """The images of these, each pair once."""
    return list(dict.fromkeys((case.first, case.second) for case in listed_cases()))


def group(rng: random.Random) -> Group:
    """All cases of the group."""
    cases = listed_cases() + random_cases(rng)
    lines = [cases[at:at + LINE_CASES] for at in range(0, len(cases), LINE_CASES)]
    data = b"".join(encoded(case, MOST_NUMBERS) for case in cases)
    return Group(data, [(line_checksum(line),) for line in lines])
