"""Group `report`: images counted into a report, and reports added.

A report is its 16 numbers: images accepted, blocks and bytes written, blocks skipped, the largest,
then how many got each refusal number, from 1 to 11.  Any 16 numbers of 64 bits are a report.
"""

import itertools
import random
from typing import List, NamedTuple, Sequence, Tuple, Union

import build
import cases_sparse
import cases_store
import crc
import report
from cases_common import Group, below, patched_image, pick, u32, u64
from cases_sparse import BASE_LENGTH, ROOM
from report import Answer, Report

COUNT, ADD = 0, 1
NUMBERS = 16
LARGEST_AT = 4
REFUSED_AT = 5
TOTALS_AT = tuple(at for at in range(NUMBERS) if at != LARGEST_AT)
MOST = report.LARGEST_TOTAL
HALF = 2**63

Numbers = Tuple[int, ...]

# Reports of which no two numbers are alike; the second has the larger largest.
ZEROS: Numbers = (0,) * NUMBERS
FULL: Numbers = (MOST,) * NUMBERS
FIRST: Numbers = tuple(7 * 10**9 * (i + 1) + i for i in range(NUMBERS))
SECOND: Numbers = tuple(11 * 10**10 * (i + 2) + 3 * i for i in range(NUMBERS))


class Counting(NamedTuple):
    """An image that is judged for a partition of a length and counted into a report."""

    numbers: Numbers
    image: bytes
    partition_length: int


class Adding(NamedTuple):
    """Another report that is added to a report."""

    numbers: Numbers
    other: Numbers


Case = Union[Counting, Adding]


def report_of(numbers: Numbers) -> Report:
    """The report that the numbers are."""
    accepted, blocks, written, skipped, largest, *refused = numbers
    return Report(accepted, blocks, written, skipped, largest, tuple(refused))


def numbers_of(given: Report) -> Numbers:
    """The numbers that a report is."""
    *first, refused = given
    return *first, *refused


def numbers_bytes(numbers: Numbers) -> bytes:
    """The numbers of a report, 8 bytes each, low byte first."""
    return b"".join(map(u64, numbers))


def encoded(case: Case) -> bytes:
    """The case as it stands in the file."""
    if isinstance(case, Adding):
        return u32(ADD) + numbers_bytes(case.numbers) + numbers_bytes(case.other)
    head = u32(COUNT) + numbers_bytes(case.numbers) + u64(case.partition_length)
    return head + patched_image(case.image)


def answer_of(case: Case) -> Answer:
    """What the reference makes of a case."""
    given = report_of(case.numbers)
    if isinstance(case, Adding):
        return report.add(given, report_of(case.other))
    return report.count(given, case.image, case.partition_length)


def values(case: Case) -> Tuple[int, ...]:
    """Number, and the checksum of the report after."""
    number, after = answer_of(case)
    return number, crc.checksum(numbers_bytes(numbers_of(after)))


def alone(image: bytes, partition_length: int) -> Numbers:
    """The numbers of the report of an image alone."""
    return numbers_of(report.of_image(image, partition_length))


def with_number(numbers: Numbers, at: int, number: int) -> Numbers:
    """A report with one of its numbers replaced."""
    return numbers[:at] + (number,) + numbers[at + 1:]


# Images that are counted.

def small_images() -> List[bytes]:
    """No chunk, a chunk of each kind alone, all of them, and empty ones, in the smallest blocks
    and in the largest.  Raw blocks are as large as the longest image of a case has room for."""
    kinds = [build.fill(b"fill", 3), build.skip(2), build.unknown(0xCAC5, 5, b"data")]
    empties = [build.skip(0), build.fill(b"none", 0), build.unknown(7, 0), build.raw(b"", 4)]
    images = [
        build.sparse_image(size, plans)
        for size in (4, 65536) for plans in ([], *([kind] for kind in kinds), kinds)
    ]
    images += [build.sparse_image(4, empties), build.sparse_image(4, [build.raw(b"raw data", 4)])]
    size = 65536 - len(build.sparse_image(4, [build.raw(b"", 4)]))
    return images + [build.sparse_image(size, [build.raw(b"raw".ljust(size, b"\0"), size)])]


def wide_image(written: int, dont_care: int, unknown: int) -> bytes:
    """An image of so many of the largest blocks of each kind."""
    plans = [build.fill(b"wide", written), build.skip(dont_care), build.unknown(3, unknown)]
    return build.sparse_image(65536, plans)


def wide_images() -> List[bytes]:
    """Images of nearly 2^48 bytes: many blocks of every kind, or nearly all of one."""
    most = cases_sparse.MOST
    parts = [(2**31, 2**30, 2**30 - 1), (1, 2, most - 3), (2, most - 2, 0), (most, 0, 0)]
    return [wide_image(*blocks) for blocks in parts]


def refused_images() -> List[Tuple[int, bytes]]:
    """An image for each test of document 01, with the number of its refusal."""
    images = cases_store.refused_images(BASE_LENGTH)
    return list(zip(cases_store.REFUSALS, images))


# Cases of counting.

def example_cases() -> List[Case]:
    """P2 to P8 of document 01, and 02's "a checksum of 1 there"."""
    return [Counting(ZEROS, *example) for example in cases_sparse.example_cases()]


def accepted_cases() -> List[Case]:
    """Accepted images of all kinds, counted into a report of none, and into another."""
    images = [cases_sparse.base_image()] + small_images() + wide_images()
    pairs = itertools.product(images, (ZEROS, FIRST))
    return [Counting(numbers, image, ROOM) for image, numbers in pairs]


def refused_cases() -> List[Case]:
    """Each refusal, for each of its tests; and once for each number at the edge of its total, the
    last that fits and one past it, and where all other totals are full."""
    images = refused_images()
    cases: List[Case] = [Counting(FIRST, image, BASE_LENGTH) for _, image in images]
    for number, image in dict(images).items():
        at = REFUSED_AT + number - 1
        edges = [with_number(FIRST, at, total) for total in (MOST - 1, MOST)]
        for numbers in edges + [with_number(FULL, at, 0)]:
            cases.append(Counting(numbers, image, BASE_LENGTH))
    return cases


def accepted_edge_cases() -> List[Case]:
    """Images that add to every total of accepted ones, at the edge of each: to the last that fits,
    one past it, and to one that is full."""
    cases: List[Case] = []
    for image in (cases_sparse.base_image(), wide_images()[0]):
        for at, part in enumerate(alone(image, ROOM)[:LARGEST_AT]):
            for total in (MOST - part, MOST - part + 1, MOST):
                cases.append(Counting(with_number(FIRST, at, total), image, ROOM))
    return cases


def unmoved_cases() -> List[Case]:
    """Totals that are full where an image adds nothing to them: of images without blocks, without
    written ones and without skipped ones; and one where it does, the others being full."""
    empty, fill, skip, *_ = small_images()
    cases: List[Case] = [Counting(FULL, image, ROOM) for image in (empty, fill, b"")]
    for image in (empty, fill, skip, cases_sparse.base_image()):
        parts = alone(image, ROOM)
        full = tuple(MOST - part if at in TOTALS_AT else MOST for at, part in enumerate(parts))
        cases.append(Counting(full, image, ROOM))
    return cases


def largest_cases() -> List[Case]:
    """Images that have more, less and as many bytes as the largest; refused ones that have more."""
    cases: List[Case] = []
    for image in (cases_sparse.base_image(), wide_images()[0]):
        length = alone(image, ROOM)[LARGEST_AT]
        for largest in (length - 1, length, length + 1, 2**32 + length % 2**32 - 1, HALF, MOST):
            cases.append(Counting(with_number(SECOND, LARGEST_AT, largest), image, ROOM))
        cases.append(Counting(with_number(FIRST, LARGEST_AT, 1), image, length - 1))
        cases.append(Counting(ZEROS, cases_sparse.with_wrong_checksum(image, 0), ROOM))
    return cases


# Cases of adding.

def in_both_orders(pairs: Sequence[Tuple[Numbers, Numbers]]) -> List[Case]:
    """Each of two reports added to the other."""
    return [Adding(*order) for pair in pairs for order in (pair, pair[::-1])]


def total_cases() -> List[Case]:
    """Each total at its edge: the last sum that fits, one past it in both orders, and far past it,
    both parts being large."""
    cases: List[Case] = []
    for at in TOTALS_AT:
        rest = with_number(FIRST, at, MOST - SECOND[at])
        past = with_number(SECOND, at, SECOND[at] + 1)
        cases += [Adding(rest, SECOND), Adding(rest, past), Adding(past, rest)]
        far = (HALF + HALF // 2, MOST)[at % 2]
        cases.append(Adding(with_number(FIRST, at, far), with_number(SECOND, at, far)))
    return cases


def whole_cases() -> List[Case]:
    """All totals at once, in both orders: none, full, at their edge, and past it."""
    rest = tuple(MOST - number for number in SECOND)
    halves = (HALF,) * NUMBERS
    pairs = [(ZEROS, ZEROS), (ZEROS, FIRST), (ZEROS, FULL), (FIRST, SECOND), (rest, SECOND)]
    pairs += [(FULL, FULL), (FULL, FIRST), (halves, halves), (halves, (HALF - 1,) * NUMBERS)]
    return in_both_orders(pairs)


def largest_added_cases() -> List[Case]:
    """The larger largest, in both orders, with numbers that other widths or a sign would take for
    smaller; and sums of the two that would pass 64 bits."""
    largest = [(0, 1), (0, MOST), (MOST - 1, MOST), (MOST, MOST), (HALF, HALF), (HALF - 1, HALF)]
    largest += [(2**32 - 1, 2**32), (2**32 + 1, 2**33)]
    return in_both_orders([
        (with_number(FIRST, LARGEST_AT, one), with_number(SECOND, LARGEST_AT, other))
        for one, other in largest
    ])


# Random cases, of which the differential test makes more.

def random_numbers(rng: random.Random) -> Numbers:
    """A report such that no total of two of them passes 64 bits, with any largest."""
    numbers = tuple(rng.getrandbits(below(rng, 64)) for _ in range(NUMBERS))
    return with_number(numbers, LARGEST_AT, rng.getrandbits(1 + below(rng, 64)))


def near_edge(rng: random.Random, part: int) -> int:
    """What a part makes full, or one less or more, or some; or any number."""
    near = MOST - part + pick(rng, (-1, 0, 0, 1, 1, below(rng, 100)))
    return min(MOST, max(0, pick(rng, (near,) * 7 + (rng.getrandbits(64),))))


def at_an_edge(rng: random.Random, numbers: Numbers, parts: Numbers, at: int) -> Numbers:
    """A report of which one number is about what makes it full with a part."""
    return with_number(numbers, at, near_edge(rng, parts[at]))


def random_counting(rng: random.Random, image: bytes, partition_length: int) -> Counting:
    """The image counted into a report, of which mostly a total that it adds to is about full."""
    numbers, parts = random_numbers(rng), alone(image, partition_length)
    added_to = [at for at in TOTALS_AT if parts[at] != 0]
    if below(rng, 4) != 0:
        numbers = at_an_edge(rng, numbers, parts, pick(rng, (*added_to, pick(rng, TOTALS_AT))))
    return Counting(numbers, image, partition_length)


def random_adding(rng: random.Random) -> Adding:
    """Two reports, of which mostly one total is about full; at times with one largest."""
    numbers, other = random_numbers(rng), random_numbers(rng)
    if below(rng, 4) != 0:
        numbers = at_an_edge(rng, numbers, other, pick(rng, TOTALS_AT))
    if below(rng, 8) == 0:
        other = with_number(other, LARGEST_AT, numbers[LARGEST_AT])
    return Adding(numbers, other)


def random_cases(rng: random.Random) -> List[Case]:
    """Some of both; the images small ones with chunks of any kind, some of them to refuse."""
    makers = (cases_store.random_image, cases_store.unknown_image, cases_sparse.random_image)
    cases: List[Case] = []
    for _ in range(12):
        image = pick(rng, makers)(rng)
        length = max(0, cases_store.total_length(image) - pick(rng, (0, 0, 0, 1)))
        cases += [random_counting(rng, image, length), random_adding(rng)]
    return cases


def all_cases(rng: random.Random) -> List[Case]:
    """The cases of the group, each once."""
    cases = example_cases() + accepted_cases() + refused_cases() + accepted_edge_cases()
    cases += unmoved_cases() + largest_cases() + total_cases() + whole_cases()
    cases += largest_added_cases() + random_cases(rng)
    return list(dict.fromkeys(cases))


def group(rng: random.Random) -> Group:
    """All cases of the group."""
    cases = all_cases(rng)
    return Group(b"".join(map(encoded, cases)), [values(case) for case in cases])
