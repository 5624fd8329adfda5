"""Group `fields`: reads and writes of 2, 4 and 8 bytes."""

import random
from typing import List, NamedTuple, Tuple

import crc
import fields
from cases_common import Group, some_bytes, u32, u64

WIDTHS = (2, 4, 8)
FAR = (2**31, 2**32 - 1, 2**32, 2**32 + 1, 2**63) + tuple(2**64 - i for i in range(1, 10))


class Case(NamedTuple):
    """A buffer, a position and a value to write there."""

    at: int
    value: int
    data: bytes


def encoded(case: Case) -> bytes:
    """The case as it stands in the file."""
    return u64(case.at) + u64(case.value) + u32(len(case.data)) + case.data


def values(case: Case) -> Tuple[int, ...]:
    """The reads of each width, then the checksums after the write of each."""
    reads = [fields.read(case.data, case.at, width) for width in WIDTHS]
    writes = [fields.written(case.data, case.at, width, case.value) for width in WIDTHS]
    return tuple(reads + [crc.checksum(data) for data in writes])


def group(rng: random.Random) -> Group:
    """Every position in and around short buffers, and positions far past one."""
    cases: List[Case] = []
    for length in range(14):
        for at in range(length + 3):
            cases.append(Case(at, rng.getrandbits(64), some_bytes(rng, length)))
    for at in FAR:
        for length in (0, 1, 9, 20):
            cases.append(Case(at, rng.getrandbits(64), some_bytes(rng, length)))
    for value in (0, 1, 2**64 - 1, 0x8000, 2**31, 2**63):
        cases.append(Case(3, value, some_bytes(rng, 12)))
        cases.append(Case(0, value, b"\xFF" * 8))
    return Group(b"".join(map(encoded, cases)), [values(case) for case in cases])
