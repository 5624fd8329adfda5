"""Group `crc`: states and checksums of CRC-32."""

import random
from typing import List, NamedTuple, Tuple

import crc
from cases_common import Group, some_bytes, u32, u64

BYTES, ZEROS, WORDS = 0, 1, 2
LENGTHS = (0, 1, 2, 3, 4, 5, 7, 8, 9, 15, 16, 17, 31, 64, 100, 255, 256, 257, 1000, 4096)
FIXED_WORDS = (0, 1, 0x80000000, crc.ALL_ONES, 0x04030201)


class Case(NamedTuple):
    """Bytes, or a count of zero bytes, or a count of words, from a start state."""

    kind: int
    start: int
    count: int = 0
    word: int = 0
    data: bytes = b""


def encoded(case: Case) -> bytes:
    """The case as it stands in the file."""
    head = u32(case.kind) + u32(case.start) + u64(case.count) + u32(case.word)
    return head + u32(len(case.data)) + case.data


def values(case: Case) -> Tuple[int, ...]:
    """The state after; for bytes also their checksum, whatever the start."""
    if case.kind == BYTES:
        return crc.after_bytes(case.start, case.data), crc.checksum(case.data)
    if case.kind == ZEROS:
        return (crc.after_zeros(case.start, case.count),)
    return (crc.after_words(case.start, case.word, case.count),)


def counts(most_bits: int) -> List[int]:
    """Numbers around each power of two up to the greatest count."""
    near = {2**k + d for k in range(most_bits + 1) for d in (-1, 0, 1)}
    return sorted(count for count in near if count <= 2**most_bits)


def byte_cases(rng: random.Random) -> List[Case]:
    """The check value, every single byte's high and low nibble, many lengths."""
    cases = [Case(BYTES, crc.ALL_ONES, data=b"123456789")]
    singles = sorted({i for i in range(16)} | {i << 4 for i in range(16)} | {255})
    cases += [Case(BYTES, crc.ALL_ONES, data=bytes([byte])) for byte in singles]
    for length in LENGTHS:
        cases.append(Case(BYTES, crc.ALL_ONES, data=some_bytes(rng, length)))
        cases.append(Case(BYTES, 0, data=some_bytes(rng, length)))
        cases.append(Case(BYTES, rng.getrandbits(32), data=some_bytes(rng, length)))
    return cases


def zero_cases(rng: random.Random) -> List[Case]:
    """Runs of zeros of up to 2^48 bytes."""
    cases = [Case(ZEROS, rng.getrandbits(32), count) for count in counts(48)]
    cases += [Case(ZEROS, crc.ALL_ONES, rng.getrandbits(48)) for _ in range(20)]
    return cases + [Case(ZEROS, 0, rng.getrandbits(48)) for _ in range(2)]


def word_cases(rng: random.Random) -> List[Case]:
    """Runs of a word of up to 2^48 bytes."""
    cases = [
        Case(WORDS, rng.getrandbits(32), count, rng.getrandbits(32)) for count in counts(46)
    ]
    for word in FIXED_WORDS:
        for start in (0, crc.ALL_ONES):
            cases.append(Case(WORDS, start, 1, word))
            cases.append(Case(WORDS, start, rng.getrandbits(46), word))
    return cases


def group(rng: random.Random) -> Group:
    """All cases of the group."""
    cases = byte_cases(rng) + zero_cases(rng) + word_cases(rng)
    return Group(b"".join(map(encoded, cases)), [values(case) for case in cases])
