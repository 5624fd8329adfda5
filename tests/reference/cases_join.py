"""Group `join`: two images made one."""

import itertools
import random
from typing import Dict, Iterable, List, NamedTuple, Sequence

import build
import cases_compare
import cases_write
import crc
import join
import sparse
from build import ChunkPlan
from cases_common import Group, u32
from cases_compare import EMPTY_PLANS, OTHER, WORD, Images
from cases_sparse import MOST

LONGEST_OUTPUT = 8192
LINE_CASES = 32
RANDOM_PAIRS = 86
# How much longer the output is than the image, in turn; a pair that is refused has one about
# an image of some length.
SPARES = (0, 1, 9, 0, 3, -1, 0, 40, 0, -12, 0, 2, 100, -4, 0, -28)
REFUSED_ROOM = 56
# Of the pairs that are compared, those of at most so many bytes are all joined, if they can be,
# and one in so many of the others.
SHORT_PAIR = 172
OTHERS_STEP = 12


class Case(NamedTuple):
    """Two images, and how many bytes the output has."""

    first: bytes
    second: bytes
    room: int


# The file and its lines.

def first_output(length: int) -> bytes:
    """What the output holds at first."""
    return bytes((7 + 3 * i) % 256 for i in range(length))


def joined_bytes(joined: join.Joined) -> bytes:
    """The answer's four numbers, and every byte of the output after."""
    return b"".join(map(u32, joined[:4])) + joined.output


def values(case: Case) -> bytes:
    """What the case's output gives; and where it is accepted, what one gives that has a byte
    less than the image."""
    joined = join.join(case.first, case.second, first_output(case.room))
    if joined.length == 0:
        return joined_bytes(joined)
    short = join.join(case.first, case.second, first_output(joined.length - 1))
    return joined_bytes(joined) + joined_bytes(short)


def line_checksum(cases: Sequence[Case]) -> int:
    """The checksum of the values of each case."""
    return crc.checksum(b"".join(map(values, cases)))


def needed_room(images: Images) -> int:
    """The joined image's length, or that of some image where there is none."""
    if join.refusal_of(*images) is not None:
        return REFUSED_ROOM
    return len(join.image_of(*images))


def fitted(images: Images, spare: Iterable[int] = (0,)) -> List[Case]:
    """The output so many bytes longer than the image: short, exact, long."""
    return [Case(*images, max(0, needed_room(images) + more)) for more in spare]


def spared(pairs: Sequence[Images]) -> List[Case]:
    """A case for each pair, the outputs short, exact and long in turn."""
    return [
        case for i, pair in enumerate(pairs) for case in fitted(pair, (SPARES[i % len(SPARES)],))
    ]


# Pairs of the group `compare`.

def is_short(images: Images) -> bool:
    """Whether two images have few bytes together and are joined."""
    return sum(map(len, images)) <= SHORT_PAIR and join.refusal_of(*images) is None


def compared_pairs() -> List[Images]:
    """Pairs that are compared too: all that are short and joined, and some of the others."""
    pairs = cases_compare.listed_pairs()
    others = [pair for pair in pairs if not is_short(pair)]
    return list(filter(is_short, pairs)) + others[::OTHERS_STEP]


# Rows of blocks, a letter each: fill with one word or another (f, g), raw with all words that one
# or that other (F, G), any other raw (r), don't care (-), unknown (?).

LETTERS = "fgFGr-?"
RAW_LETTERS = "FGr"


def raw_block(letter: str, size: int, block: int, mark: int) -> bytes:
    """A raw block; where its words differ they tell which block of which image it is."""
    if letter == "r":
        return bytes([128 + block % 128]) + (WORD * (size // 4))[1:-1] + bytes([mark])
    return (WORD if letter == "F" else OTHER) * (size // 4)


def row_plan(letters: str, size: int, first: int, mark: int) -> ChunkPlan:
    """A chunk of blocks of one kind that begins at a block; the first letter says which kind."""
    blocks = len(letters)
    if letters[0] in RAW_LETTERS:
        given = enumerate(letters, first)
        return build.raw(b"".join(raw_block(one, size, at, mark) for at, one in given), size)
    plans: Dict[str, ChunkPlan] = {
        "f": build.fill(WORD, blocks),
        "g": build.fill(OTHER, blocks),
        "-": build.skip(blocks),
        "?": build.unknown(0xCAC4 + mark, blocks, WORD * (mark % 3)),
    }
    return plans[letters[0]]


def row_cuts(row: str, longest: int) -> List[str]:
    """A row cut into chunks of at most so many blocks, raw ones together."""
    cuts: List[str] = []
    for _, same in itertools.groupby(row, lambda letter: "r" if letter in RAW_LETTERS else letter):
        letters = "".join(same)
        cuts += [letters[at:at + longest] for at in range(0, len(letters), longest)]
    return cuts


def row_plans(row: str, size: int, mark: int, longest: int = 99) -> List[ChunkPlan]:
    """The chunks of a row."""
    plans: List[ChunkPlan] = []
    first = 0
    for letters in row_cuts(row, longest):
        plans.append(row_plan(letters, size, first, mark))
        first += len(letters)
    return plans


def row_image(row: str, size: int, mark: int, longest: int = 99) -> bytes:
    """The image of a row."""
    return build.sparse_image(size, row_plans(row, size, mark, longest))


def row_pair(first: str, second: str, size: int, longest: int = 99) -> Images:
    """The images of two rows; the second in chunks as long as they can be."""
    return row_image(first, size, 0x51, longest), row_image(second, size, 0xA2)


def letter_pairs() -> List[Images]:
    """One block: each letter over each, in several block sizes."""
    return [
        row_pair(first, second, size)
        for size in (4, 8, 20) for first, second in itertools.product(LETTERS, repeat=2)
    ]


def neighbour_pairs() -> List[Images]:
    """Two blocks: any letters over any, so that any two results are neighbours."""
    rows = ["".join(row) for row in itertools.product(LETTERS, repeat=2)]
    pairs = list(itertools.product(rows, rows))[::19]
    return [row_pair(*pair, (8, 12)[i % 2], 1 + i % 3) for i, pair in enumerate(pairs)]


ROWS = (
    ("fFf", "---"), ("???", "fFf"), ("fff", "-F-"), ("FFF", "-f-"), ("FfF", "?-?"),
    ("rfr", "-F-"), ("rrr", "-F-"), ("rFr", "-r-"), ("rGr", "-?-"), ("fgf", "-f-"),
    ("fgf", "-F-"), ("ggg", "-F-"), ("ffff", "-rr-"), ("rrrr", "-ff-"), ("rrrr", "ff--"),
    ("rrrr", "--gg"), ("ffff", "r--r"), ("rrFFrr", "--rr--"), ("rrrrrr", "--FG--"),
    ("FFFFFF", "GGGGGG"), ("FGFGFG", "g-g-g-"), ("FGFGFG", "-f-f-f"), ("FrFrFr", "f-f-f-"),
    ("-?-?-?", "?--??-"), ("-?f?-", "??-??"), ("-?f?-", "?-r-?"), ("f-?-f", "-?-?-"),
    ("f-?-f", "-fF--"), ("r--r", "-rr-"), ("r--r", "-r?-"), ("rr", "rr"), ("ffFF", "FFff"),
    ("ggFF", "FFgg"), ("------", "??????"), ("-ff-rr", "?-ff-r"), ("rrFfFrr", "-f---r-"),
)


def row_pairs() -> List[Images]:
    """Rows that become longer chunks, or are parted; in chunks of one block, two, or all."""
    return [
        row_pair(*pair, (8, 16, 12)[(i + k) % 3], longest)
        for i, pair in enumerate(ROWS) for k, longest in enumerate((99, 1, 2))
        if k == 0 or (i + k) % 2 == 0
    ]


def kept_pairs() -> List[Images]:
    """Blocks that neither image writes, in every order of don't care and unknown: one chunk;
    and with one written block at each place."""
    rows = ["".join(row) for row in itertools.product("-?", repeat=3)]
    pairs = [row_pair(*pair, 4) for pair in list(itertools.product(rows, rows))[::5]]
    for at in range(4):
        row = "-?-?"
        pairs.append(row_pair(row[:at] + "f" + row[at + 1:], "??--", 8))
        pairs.append(row_pair(row, "-??-"[:at] + "r" + "-??-"[at + 1:], 8))
    return pairs


def cut_pairs() -> List[Images]:
    """The same rows, each image in chunks of other lengths."""
    first, second = "rrrrffffFFFF--gg", "--rrr?fff--ffF--"
    return [
        (row_image(first, 8, 0x51, one), row_image(second, 8, 0xA2, other))
        for one, other in itertools.product((1, 2, 3, 99), repeat=2)
    ]


def flat_pairs() -> List[Images]:
    """Raw blocks of flat bytes, that one image alone writes: every row of three blocks, each of
    one of two words, or of both."""
    pairs = []
    for i, blocks in enumerate(itertools.product(cases_write.pattern_blocks(12), repeat=3)):
        row = build.sparse_image(12, [build.raw(b"".join(blocks), 12)])
        kept = row_image("-?-", 12, 0)
        pairs.append((row, kept) if i % 2 == 0 else (kept, row))
    return pairs


def one_byte_pairs() -> List[Images]:
    """Rows of raw blocks, each with one byte changed, each byte of a word in turn; blocks that
    nearly hold one word."""
    pairs = []
    for size in (8, 12, 28, 60):
        plain = WORD * (size // 4)
        step = 1 if size <= 12 else 5
        changed = [build.with_bytes(plain, at, b"\x5A") for at in range(0, size, step)]
        for blocks in (changed, cases_compare.near_blocks(size)):
            rows = [blocks, [block for one in blocks for block in (plain, one)]]
            for row in rows if size <= 12 else rows[:1]:
                image = build.sparse_image(size, [build.raw(b"".join(row), size)])
                over = build.sparse_image(size, [build.fill(WORD, len(row))])
                kept = build.sparse_image(size, [build.skip(len(row))])
                pairs += [(over, image), (image, kept)]
    return pairs


def changed_pair(size: int, at: int, is_first: bool) -> Images:
    """One raw block that holds one word but for a byte, in the first image or in the second,
    and one that is kept."""
    block = build.with_bytes(WORD * (size // 4), at, b"\x5A")
    raw = build.sparse_image(size, [build.raw(block, size)])
    kept = row_image("-", size, 0)
    return (raw, kept) if is_first else (kept, raw)


def long_pairs() -> List[Images]:
    """Longer blocks that hold one word, or but for a byte near the end; many chunks, and many
    blocks in one; outputs longer than either image."""
    pairs = [changed_pair(2048, 2047, False), changed_pair(2048, 2044, True)]
    pairs += [changed_pair(2052, 2050, False), row_pair("F", "-", 4032)]
    pairs += [row_pair("r-", "-F", 512), row_pair("F-", "-r", 1024)]
    pairs.append(row_pair("frF", "F-f", 512))
    pairs.append(row_pair("fg" * 40, "g-" * 40, 65536))
    pairs.append(row_pair("-?" * 40, "?-" * 40, 4))
    pairs.append(row_pair("r" * 300, "-f" * 20 + "-" * 260, 8))
    pairs.append(row_pair("r" * 300, "-" * 300, 8))
    pairs.append(row_pair("FG" * 60, "-" * 120, 8))
    pairs.append(row_pair("fg" * 64 + "-" * 129, "-" * 128 + "fg" * 64 + "f", 4))
    return pairs


def all_different(count: int) -> ChunkPlan:
    """A raw chunk of so many blocks of 4 bytes, no two of them the same."""
    return build.raw(b"".join(map(u32, range(count))), 4)


def longest_pairs() -> List[Images]:
    """Joined images that are long beside the two they are made of: a raw chunk of which each
    block becomes a fill chunk of its own, in either image; fill chunks parted by those of the
    other image."""
    long, short = (build.sparse_image(4, [all_different(count)]) for count in (500, 40))
    return [
        (long, row_image("-" * 500, 4, 0, 500)),
        (row_image("?" * 40, 4, 0), short),
        row_pair("f" * 40, "-g" * 20, 4),
        row_pair("f" * 40, "-r" * 20, 4),
    ]


# Fields that the joined image does not take over.

FIELD_VALUES = (1, 255, 256, 65535)


def header_image(plans: Sequence[ChunkPlan], size: int, minor: int, reserved: int) -> bytes:
    """The image of some chunks, with a minor version, and a reserved field in each chunk."""
    reserving = [plan._replace(reserved=reserved) for plan in plans]
    return build.sparse_image(size, reserving, minor=minor)


def header_pairs() -> List[Images]:
    """Minor versions and reserved fields that are not 0, in the first image, in the second, in
    both."""
    pairs = []
    for i, value in enumerate(FIELD_VALUES):
        other = FIELD_VALUES[i - 1]
        for k, (of_first, of_second) in enumerate(((1, 0), (0, 1), (1, 1))):
            rows = ROWS[3 * (3 * i + k)]
            first, second = (row_plans(row, 8, mark) for row, mark in zip(rows, (0x51, 0xA2)))
            pairs.append((
                header_image(first, 8, of_first * value, of_first * other),
                header_image(second, 8, of_second * other, of_second * value),
            ))
    return pairs


# No checksum stated, and a true one of 0.

def unstated_pairs() -> List[Images]:
    """No checksum stated in the first image, in the second, in both."""
    pairs = []
    for first, second in (("rf-?", "-rF-"), ("ff", "--"), ("?", "r"), ("Fg", "gF")):
        images = row_pair(first, second, 8)
        bare = [build.stating(image, 0) for image in images]
        pairs += [(bare[0], images[1]), (images[0], bare[1]), (bare[0], bare[1])]
    return pairs


def zero_sum_pair(size: int, first: str, second: str, is_raw: bool) -> Images:
    """Two rows of which the joined image has the checksum 0, by a block before the second's
    that is raw or fill."""
    def images_of(word: bytes) -> Images:
        block = build.raw(word + bytes(size - 4), size) if is_raw else build.fill(word, 1)
        after = row_plans(second, size, 0xA2)
        return row_image(first, size, 0x51), build.sparse_image(size, [block] + after)

    def checksum_of(word: bytes) -> int:
        return sparse.read_header(join.image_of(*images_of(word))).checksum
    return images_of(build.zero_word(checksum_of))


def zero_sum_pairs() -> List[Images]:
    """Joined images whose true checksum is 0, which then state none; each joined again."""
    pairs = []
    for size, is_raw in itertools.product((4, 8, 12), (True, False)):
        for first, second in (("f", ""), ("rf-", "-?"), ("-?r-", "f--")):
            pair = zero_sum_pair(size, first, second, is_raw)
            joined = join.image_of(*pair)
            assert sparse.read_header(joined).checksum == 0
            pairs += [pair, (joined, row_image("-" * len(first), size, 0))]
    return pairs


# Block sizes and totals.

def small_pairs() -> List[Images]:
    """No blocks, with empty chunks and without, of several block sizes; one block."""
    pairs = []
    for size, other in itertools.product((4, 8, 65536), repeat=2):
        pairs.append((build.sparse_image(size, []), build.sparse_image(other, [])))
    bare = build.sparse_image(4, [])
    longer = build.sparse_image(4, EMPTY_PLANS, file_header_size=40, chunk_header_size=16)
    pairs += [(bare, longer), (longer, bare), (longer, longer)]
    for empty, letter in itertools.product(EMPTY_PLANS, "f-?F"):
        plans = [empty] + row_plans(letter, 4, 1) + [empty]
        pairs.append((build.sparse_image(4, plans), row_image("-", 4, 0)))
    pairs += [row_pair("f", "-", 65536), row_pair("-", "-", 65536), row_pair("g", "f", 32768)]
    return pairs


# Total and block size, whose product is 2,147,483,648 or near it, or over 32 bits, or looks small
# in 32 bits.
PRODUCTS = (
    (2**29, 4), (2**29 + 1, 4), (2**29 - 1, 4), (32768, 65536), (32769, 65536), (32767, 65536),
    (178956970, 12), (178956971, 12), (2**28, 8), (2**28 + 1, 8), (524288, 4096), (524289, 4096),
    (2**30, 4), (2**30 + 1, 4), (65536, 65536), (65537, 65536), (MOST, 4), (MOST, 65536),
    (2**31, 65536), (2**31, 4), (2**30 - 1, 4), (65535, 65536), (32770, 65532), (32769, 65532),
)


def wide_plans(total: int, i: int) -> List[ChunkPlan]:
    """A few chunks of so many blocks, parted at one of several places."""
    at = (1, total // 2, total - 1, 16384)[i % 4]
    return [
        [build.skip(total)],
        [build.fill(WORD, at), build.skip(total - at)],
        [build.skip(at), build.fill(WORD, total - at)],
        [build.fill(OTHER, total)],
        [build.unknown(0xCAC5, at), build.fill(bytes(4), total - at)],
    ][i % 5]


def product_pairs() -> List[Images]:
    """Such totals and block sizes, by don't care chunks and by others; the same total with the
    block size of another."""
    pairs = []
    for i, (total, size) in enumerate(PRODUCTS):
        kept = build.sparse_image(size, [build.skip(total)])
        pairs.append((kept, kept))
        images = [build.sparse_image(size, wide_plans(total, i + k)) for k in range(5)]
        pairs += [(images[0], images[1]), (images[2], images[3]), (images[4], images[1])]
        pairs.append((kept, build.sparse_image(4 if size != 4 else 8, [build.skip(total)])))
        pairs.append((build.sparse_image(size, [build.skip(total - 1)]), kept))
    for total in (2**29, 2**29 + 1):
        raw = [build.fill(WORD, total // 2), build.raw(WORD, 4), build.skip((total - 1) // 2)]
        pairs.append((build.sparse_image(4, [build.skip(total)]), build.sparse_image(4, raw)))
        pairs.append((build.sparse_image(4, raw), build.sparse_image(4, [build.fill(WORD, total)])))
    return pairs


def geometry_pairs() -> List[Images]:
    """Block size differs alone, total alone, and both with the product equal; one that is refused
    itself beside one that is too large, and after it."""
    images = [row_image("f" * total, size, 0) for size, total in ((4, 4), (8, 4), (8, 2), (4, 8))]
    large = build.sparse_image(4, [build.skip(2**29 + 1)])
    wrong = build.stating(large, 1)
    pairs = list(itertools.permutations(images, 2))
    pairs += [(wrong, large), (large, wrong), (wrong, wrong), (wrong, images[0])]
    pairs += [(large, bad) for bad in cases_compare.refused_images()[1::4]]
    return pairs + [(images[0], wrong), (large, images[0]), (images[0], large)]


# Refusals of both images, rooms, and joins of joins.

def refused_pairs() -> List[Images]:
    """Each image that is refused: after one that is not, before it, and before the next such."""
    good = row_image("rf-?", 4, 1)
    images = cases_compare.refused_images()
    alone = [pair for bad in images for pair in ((good, bad), (bad, good))]
    return alone + list(zip(images, images[1:] + images[:1]))


def room_cases() -> List[Case]:
    """Every output up to more than the image takes: no blocks, one block kept, filled or raw; and
    every fourth for a longer one."""
    cases = [
        Case(*pair, room) for pair, most in (
            (row_pair("", "", 4), 31), (row_pair("-", "?", 8), 43),
            (row_pair("f", "-", 8), 46), (row_pair("-", "r", 8), 50),
        ) for room in range(24, most)
    ]
    longer = row_pair("rf-?", "-rF-", 8)
    cases += [Case(*longer, room) for room in range(0, needed_room(longer) + 9, 4)]
    cases += fitted(longer, (-3, -2, -1, 0, 1, 2, 3, 5000))
    cases += [Case(*row_pair("-", "-", 4), room) for room in (0, 1, 12, LONGEST_OUTPUT)]
    return cases + [Case(*row_pair("f", "g", 4), LONGEST_OUTPUT)]


THREES = (
    ("rf-?", "-rF-", "f--F"), ("ffff", "--rr", "?FF?"), ("----", "-f--", "--f-"),
    ("rrrr", "-ff-", "f--f"), ("FGFG", "G--G", "-FF-"), ("??--", "r???", "-r--"),
    ("ff", "gg", "rr"), ("r-", "-r", "F?"), ("", "", ""), ("f", "-", "?"),
)


def three_pairs() -> List[Images]:
    """Three images in both groupings, each joining of them; a joined image with itself."""
    pairs = []
    for i, rows in enumerate(THREES):
        a, b, c = (row_image(row, (8, 4, 12)[i % 3], mark) for row, mark in zip(rows, (81, 162, 7)))
        left, right = join.image_of(a, b), join.image_of(b, c)
        pairs += [(a, b), (left, c), (b, c), (a, right), (left, left)]
    return pairs


def random_pairs(rng: random.Random) -> List[Images]:
    """Random pairs of few blocks."""
    return [
        cases_compare.images_of(rng, cases_compare.random_pair(rng, (4, 8, 8, 12, 16), 10))
        for _ in range(RANDOM_PAIRS)
    ]


def group(rng: random.Random) -> Group:
    """All cases of the group: each pair once, and some with many rooms."""
    pairs = header_pairs() + unstated_pairs() + zero_sum_pairs() + small_pairs() + product_pairs()
    pairs += geometry_pairs() + refused_pairs() + three_pairs() + row_pairs() + kept_pairs()
    pairs += cut_pairs() + flat_pairs() + one_byte_pairs() + long_pairs() + longest_pairs()
    pairs += letter_pairs() + neighbour_pairs() + compared_pairs() + random_pairs(rng)
    cases = spared(list(dict.fromkeys(pairs))) + room_cases()
    lines = [cases[at:at + LINE_CASES] for at in range(0, len(cases), LINE_CASES)]
    data = b"".join(cases_compare.encoded(case, LONGEST_OUTPUT) for case in cases)
    return Group(data, [(line_checksum(line),) for line in lines])
