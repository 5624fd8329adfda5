"""Group `write`: images written from flat bytes."""

import itertools
import random
from typing import Iterable, List, NamedTuple, Sequence, Tuple

import build
import crc
import writer
from cases_common import Group, below, patched_image, pick, some_bytes, u32

LONGEST_FLAT = 65536
LONGEST_OUTPUT = 69632
WRONG_SIZES = (0, 1, 2, 3, 5, 6, 7, 65535, 65537, 65540, 131072, 2**31, 2**32 - 4, 2**32 - 1)
RIGHT_SIZES = (4, 8, 12, 16, 512, 4096, 65536)


class Case(NamedTuple):
    """A block size, the output's length, the flat bytes."""

    block_size: int
    output_length: int
    flat: bytes


def encoded(case: Case) -> bytes:
    """The case as it stands in the file."""
    assert len(case.flat) <= LONGEST_FLAT and case.output_length <= LONGEST_OUTPUT
    return u32(case.block_size) + u32(case.output_length) + patched_image(case.flat)


def first_output(length: int) -> bytes:
    """What the output holds at first."""
    return bytes((11 + 5 * i) % 256 for i in range(length))


def values(case: Case) -> Tuple[int, ...]:
    """Number, the image's length, the checksum of the whole output after."""
    written = writer.write(case.flat, case.block_size, first_output(case.output_length))
    return written.number, written.length, crc.checksum(written.output)


def fitted(flat: bytes, block_size: int, spare: Iterable[int] = (-1, 0, 1)) -> List[Case]:
    """The output so many bytes longer than the image: short, exact, long."""
    length = len(writer.image_of(flat, block_size))
    return [Case(block_size, length + more, flat) for more in spare]


def example_cases() -> List[Case]:
    """P1 and P9 of document 01, with outputs of every length about theirs."""
    cases = [Case(4096, length, b"") for length in (28, 0, 1, 27, 29, 100)]
    flat = b"\xFF" * 4 + bytes(12)
    return cases + [Case(8, length, flat) for length in (64, 63, 65, 0, 27, 28, 48, 49, 200)]


def raw_block(block_size: int, mark: int) -> bytes:
    """A block whose first and last words differ, but for blocks of one word."""
    return bytes([mark]) + bytes(block_size - 2) + bytes([mark])


def block_size_cases() -> List[Case]:
    """Each class of block sizes: lengths of 0, one block, more, and not whole blocks."""
    cases = []
    for size in WRONG_SIZES:
        cases += [Case(size, 100, bytes(length)) for length in (0, 1, 4, 12, 60)]
        cases.append(Case(size, 0, b""))
    for size in RIGHT_SIZES:
        cases += fitted(b"", size) + fitted(bytes(size), size) + fitted(raw_block(size, 3), size)
        cases += fitted(b"\xAB\xCD\xEF\x01" * (size // 4), size, (0,))
        lengths = {1, 2, 3, size - 4, size - 1, size + 1, size + 4, 2 * size - 1, 3 * size // 2}
        broken = [n for n in sorted(lengths) if 0 < n <= LONGEST_FLAT and n % size != 0]
        cases += [Case(size, LONGEST_OUTPUT, b"\x07" + bytes(n - 1)) for n in broken]
        if 2 * size <= LONGEST_FLAT:
            pairs = (bytes(size), raw_block(size, 5))
            cases += [Case(size, 9000, a + b) for a, b in itertools.product(pairs, pairs)]
    return cases


def pattern_blocks(block_size: int) -> Tuple[bytes, ...]:
    """Fill with either of two words, raw with both of them."""
    words = block_size // 4
    return (b"aaaa" * words, b"aaab" * words, b"aaaa" * (words - 1) + b"aaab")


def pattern_cases() -> List[Case]:
    """Every row of up to four blocks, each fill with one of two words, or raw."""
    cases = []
    for size, count in itertools.product((8, 12), range(1, 5)):
        for i, blocks in enumerate(itertools.product(pattern_blocks(size), repeat=count)):
            cases += fitted(b"".join(blocks), size, ((-1, 0), (0, 7))[i % 2])
    for count in range(1, 6):
        for words in itertools.product((b"aaaa", b"aaab"), repeat=count):
            cases += fitted(b"".join(words), 4, (-1, 0, 3))
    return cases


def one_byte_cases() -> List[Case]:
    """Equal words but for one byte: each byte of a small block, the last of any."""
    cases = []
    for size, at in [(16, at) for at in range(32)] + [(12, at) for at in range(12)]:
        flat = bytearray(b"\x81\x02\x03\x84" * (2 * size // 4))
        flat[at] ^= 0x40
        cases += fitted(bytes(flat), size, (0, 2))
    for size in RIGHT_SIZES:
        last = bytes(size - 1) + b"\x01"
        cases += fitted(last, size, (-1, 0, 40))
        if 2 * size <= LONGEST_FLAT:
            cases += fitted(last + bytes(size), size) + fitted(bytes(size) + last, size)
            cases += fitted(last + last, size)
    return cases


def neighbour_cases() -> List[Case]:
    """Words that go on over the edge of a block, and blocks that repeat otherwise."""
    a, b, c = b"\x01\x02\x03\x04", b"\x04\x03\x02\x01", b"\x01\x02\x03\x05"
    cases = []
    for words in (
        (a, b, b, b, b, b),
        (b, b, b, a, a, a),
        (a, a, a, b, b, a),
        (a, b, a, b, a, b, a, b),
        (b, a, a, a, a, b, b, b),
        (a, a, b, b, a, a, c, c),
        (a, c, c, c, c, a, a, a),
        (a, a, a, a, a, a, c, c, c, c, c, c),
        (a, b, c, a, b, c, a, b, c, a, b, c),
    ):
        flat = b"".join(words)
        sizes = [size for size in (4, 8, 12, 16) if len(flat) % size == 0]
        cases += [case for size in sizes for case in fitted(flat, size)]
    for period in (b"\xAA", b"\xAA\x55", b"\xAA\x55\x00", b"\x01\x02\x03\x04\x05\x06\x07\x08"):
        flat = period * (48 // len(period))
        cases += [case for size in (4, 8, 12, 24, 48) for case in fitted(flat, size)]
    return cases


def order_cases() -> List[Case]:
    """Every set of the faults of 5, 13 and 12."""
    cases = []
    for wrong, size in itertools.product((False, True), (4, 8, 512)):
        for broken, short in itertools.product((0, 1, 2), ((28, 39, 0), (9000,))):
            flat = raw_block(2 * size + broken, 9)
            block_size = size + 2 if wrong else size
            cases += [Case(block_size, length, flat) for length in short]
    return cases


def long_cases() -> List[Case]:
    """The longest flat bytes: fill alone, one block of another kind, many chunks."""
    cases = []
    for size in (4, 16, 512, 4096, 65536):
        cases += fitted(bytes(LONGEST_FLAT), size, (-1, 0, 1000))
        cases += fitted(b"\x01" + bytes(LONGEST_FLAT - 1), size, (0, 99))
        cases += fitted(bytes(LONGEST_FLAT - 1) + b"\x01", size, (-1, 0))
    sparse_marks = bytearray(LONGEST_FLAT)
    sparse_marks[::5000] = b"\x11" * len(sparse_marks[::5000])
    cases += [case for size in (8, 4096) for case in fitted(bytes(sparse_marks), size)]
    return cases


def zero_sum_flat(before: bytes, times: int, after: bytes) -> bytes:
    """Flat bytes whose checksum is 0 by the word between two parts, so many times."""
    def flat_of(word: bytes) -> bytes:
        return before + word * times + after
    return flat_of(build.zero_word(lambda word: crc.checksum(flat_of(word))))


def zero_sum_cases() -> List[Case]:
    """Flat bytes whose true checksum is 0: one raw block, also after fill, and fill alone."""
    cases = []
    for size in RIGHT_SIZES:
        words = size // 4
        flats = [zero_sum_flat(b"", 1, bytes(size - 4)), zero_sum_flat(bytes(size - 4), 1, b"")]
        if 2 * size <= LONGEST_FLAT:
            flats.append(zero_sum_flat(bytes(size), 1, bytes(size - 4)))
        if size <= 16:
            flats.append(zero_sum_flat(b"", 3 * words, b""))
            flats.append(zero_sum_flat(b"tarp" * words, words, bytes(size)))
        cases += [case for flat in dict.fromkeys(flats) for case in fitted(flat, size)]
    return cases


def random_flat(rng: random.Random, block_size: int) -> bytes:
    """Blocks of few words, so that neighbours are often alike."""
    words: Sequence[bytes] = (bytes(4), b"\xFF" * 4, b"\0\0\0\x01", some_bytes(rng, 4))
    blocks = []
    for _ in range(below(rng, 10)):
        block = pick(rng, words) * (block_size // 4)
        if below(rng, 3) == 0:
            at = 4 * below(rng, block_size // 4)
            block = block[:at] + pick(rng, words) + block[at + 4:]
        blocks += [block] * (1 + below(rng, 3))
    return b"".join(blocks)


def random_cases(rng: random.Random) -> List[Case]:
    """Rows of blocks of many sizes, the output short, exact or long."""
    cases = []
    for _ in range(200):
        size = pick(rng, (4, 8, 12, 16, 20, 32, 64))
        spare = pick(rng, (-1 - below(rng, 28), 0, below(rng, 60)))
        cases += fitted(random_flat(rng, size), size, (spare,))
    return cases


def group(rng: random.Random) -> Group:
    """All cases of the group."""
    cases = example_cases() + block_size_cases() + pattern_cases() + one_byte_cases()
    cases += neighbour_cases() + order_cases() + long_cases() + zero_sum_cases()
    cases += random_cases(rng)
    return Group(b"".join(map(encoded, cases)), [values(case) for case in cases])
