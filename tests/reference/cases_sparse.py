"""Group `sparse`: verdicts on sparse images."""

import itertools
import random
from typing import Callable, List, NamedTuple, Sequence, Tuple

import build
import sparse
from build import ChunkPlan
from cases_common import Group, below, patched_image, pick, some_bytes, u64

MOST = 2**32 - 1
ROOM = 2**64 - 1
KNOWN_TYPES = (0xCAC1, 0xCAC2, 0xCAC3)
OTHER_TYPES = (0, 1, 0xCAC0, 0xCAC4, 0xCAC5, 0xC1CA, 0x00C1, 0xCA00, 0xFFFF)
OTHER_TYPES += (0x4AC1, 0xCBC2, 0xC0C3)


class Case(NamedTuple):
    """An image and the length of the partition it is judged for."""

    image: bytes
    partition_length: int


def encoded(case: Case) -> bytes:
    """The case as it stands in the file."""
    return u64(case.partition_length) + patched_image(case.image)


def verdict_values(verdict: sparse.Verdict) -> Tuple[int, ...]:
    """Number, place, written, don't care, unknown."""
    if isinstance(verdict, sparse.Refusal):
        return verdict.number, verdict.place, 0, 0, 0
    return 0, 0, verdict.written, verdict.dont_care, verdict.unknown


def values(case: Case) -> Tuple[int, ...]:
    """The verdict's five values."""
    return verdict_values(sparse.judge(case.image, case.partition_length))


def example_cases() -> List[Case]:
    """P2 to P8 of document 01, and 02's "a checksum of 1 there"."""
    image = build.two_chunks()
    return [
        Case(image, 12),
        Case(image, 11),
        Case(build.with_bytes(image, 16, b"\x04"), 16),
        Case(build.with_bytes(image, 16, b"\x02"), 12),
        Case(image + b"\0", 12),
        Case(build.two_chunks(second_type=0xCAC5), 12),
        Case(build.two_chunks(checksum=0), 12),
        Case(build.two_chunks(checksum=1), 12),
    ]


BASE_PLANS = (
    build.raw(bytes(range(1, 17)), 8),
    build.fill(b"\x11\x22\x33\x44", 3),
    build.skip(2),
    build.unknown(0xCAC4, 1, b"\x99\x88\x77\x66\x55\x44\x33\x22"),
    build.raw(b"", 8),
    build.fill(b"\x01\x02\x03\x04", 0),
)
BASE_LENGTH = 64
BASE_CHUNKS_AT = (28, 56, 72, 84, 104, 116)


def base_image(**given: int) -> bytes:
    """An image with a chunk of every kind and empty ones."""
    return build.sparse_image(8, BASE_PLANS, **given)


def damaged_cases() -> List[Case]:
    """One byte damaged in the file header, a chunk header or the data."""
    image = base_image()
    cases = []
    for at in range(len(image)):
        old = image[at]
        for new in sorted({old ^ 0x01, old ^ 0x80, 0x00, 0xFF} - {old}):
            cases.append(Case(build.with_bytes(image, at, bytes([new])), BASE_LENGTH))
    return cases


def cut_cases() -> List[Case]:
    """Cut at each position; so is one whose headers are longer than they need be."""
    images = (base_image(), build.two_chunks(file_header_size=32, chunk_header_size=20))
    return [Case(image[:n], BASE_LENGTH) for image in images for n in range(len(image) + 1)]


def room_cases() -> List[Case]:
    """Partitions just long enough and one byte short."""
    cases = [Case(base_image(), length) for length in (0, 63, 64, 65, 2**32, ROOM)]
    for block_size in (4, 12, 4096, 65532, 65536):
        image = build.sparse_image(block_size, [build.skip(7)])
        cases += [Case(image, 7 * block_size + d) for d in (-1, 0, 1)]
    return cases


def sum_cases() -> List[Case]:
    """Sums of blocks just over and under the total."""
    cases = [Case(base_image(total_blocks=total), ROOM) for total in range(12)]
    for at, blocks in itertools.product(BASE_CHUNKS_AT[1:4], range(5)):
        image = build.with_bytes(base_image(), at + 4, bytes([blocks]))
        cases.append(Case(image, BASE_LENGTH))
    for first, second in ((3, MOST), (MOST, 1), (MOST, 6), (MOST, MOST), (2**31, 2**31)):
        plans = [build.skip(first), build.skip(second)]
        cases.append(Case(build.sparse_image(4, plans, total_blocks=5), ROOM))
        cases.append(Case(build.sparse_image(4, plans, total_blocks=MOST), ROOM))
    return cases


def end_cases() -> List[Case]:
    """Bytes after the last chunk, too few and too many chunks, empty images."""
    cases = [Case(base_image() + bytes(n), BASE_LENGTH) for n in (1, 3, 4, 12, 100)]
    cases += [Case(base_image() + b"\xC3\xCA" + bytes(n), BASE_LENGTH) for n in (2, 10)]
    cases += [Case(base_image(total_chunks=n), BASE_LENGTH) for n in (0, 1, 5, 7, 256, MOST)]
    for blocks, checksum in itertools.product((0, 1), (0, 1)):
        empty = build.sparse_image(4, [], total_blocks=blocks, checksum=checksum)
        cases += [Case(empty, 0), Case(empty, 4), Case(empty + b"\0", 4)]
    empties = [build.raw(b"", 4), build.skip(0), build.fill(b"abcd", 0), build.unknown(0, 0)]
    cases += [Case(build.sparse_image(4, empties[:n]), 0) for n in range(1, 5)]
    return cases


def header_size_cases() -> List[Case]:
    """Header sizes right and wrong, up to the greatest that fit the image."""
    cases = []
    for size in (0, 24, 26, 27, 28, 29, 30, 31, 32, 36, 100, 1000, 65480, 65484):
        cases.append(Case(build.two_chunks(file_header_size=size), 12))
    for size in (0, 8, 10, 11, 12, 13, 14, 15, 16, 20, 100, 1000, 32752):
        cases.append(Case(build.two_chunks(chunk_header_size=size), 12))
    for size in (65500, 65504, 65508):
        image = build.sparse_image(8, [build.skip(2)], chunk_header_size=size)
        cases += [Case(image, 16), Case(image[:-1], 16)]
    for size in (65528, 65532):
        image = build.sparse_image(8, [], file_header_size=size)
        cases += [Case(image, 0), Case(image[:-1], 0), Case(image + b"\0", 0)]
    for size in (65508, 65512, 65532, 65534, 65535):
        field = size.to_bytes(2, "little")
        cases.append(Case(build.with_bytes(base_image(), 8, field), BASE_LENGTH))
        cases.append(Case(build.with_bytes(base_image(), 10, field), BASE_LENGTH))
    return cases


def ignored_cases() -> List[Case]:
    """Minor versions and reserved fields of any value; majors but 1 refused."""
    cases = [Case(base_image(minor=minor), BASE_LENGTH) for minor in (1, 2, 255, 256, 65535)]
    cases += [Case(base_image(major=major), BASE_LENGTH) for major in (0, 2, 256, 257, 65535)]
    for reserved in (1, 0xCAC1, 65535):
        plans = [plan._replace(reserved=reserved) for plan in BASE_PLANS]
        cases.append(Case(build.sparse_image(8, plans), BASE_LENGTH))
    return cases


def block_size_cases() -> List[Case]:
    """Block sizes in and out of the rule."""
    sizes = (0, 1, 2, 3, 4, 5, 6, 8, 12, 1022, 1024, 65532, 65534, 65535, 65536)
    sizes += (65537, 65540, 131072, 2**31, MOST - 3, MOST)
    cases = []
    for size in sizes:
        for checksum in (0, 1):
            image = build.sparse_image(size, [build.skip(1)], checksum=checksum)
            cases.append(Case(image, ROOM))
        if sparse.is_block_size(size):
            cases.append(Case(build.sparse_image(size, [build.fill(b"abcd", 2)]), 2 * size))
    for size in (1024, 4096, 65504):
        plans = [build.raw(b"tarp" * 2 + bytes(size - 8), size)]
        image = build.sparse_image(size, plans)[:65536]
        cases += [Case(image, size), Case(image, size - 1)]
    return cases


def type_cases() -> List[Case]:
    """Total sizes around the right one for every type, known or not."""
    cases = []
    known = tuple(zip(KNOWN_TYPES, (8, 4, 0)))
    for chunk_type, length in known + tuple((other, 8) for other in OTHER_TYPES):
        for total in (0, 4, 8, 11, 12, 13, 14, 16, 18, 20, 24, MOST - 3, MOST):
            plan = ChunkPlan(chunk_type, 1, bytes(range(1, length + 1)), total)
            cases.append(Case(build.sparse_image(8, [plan, build.skip(1)]), 16))
        plan = ChunkPlan(chunk_type, 1, bytes(range(1, length + 1)))
        cases.append(Case(build.sparse_image(8, [plan, build.skip(1)]), 16))
    for chunk_type, total in itertools.product((0xCAC1, 0xCAC2, 0xCAC3, 0xCAC5), (8, 12, 16, 20)):
        plans = [ChunkPlan(chunk_type, 0, b"", total), build.skip(1)]
        image = build.sparse_image(8, plans, chunk_header_size=16, checksum=0)
        cases += [Case(image, 8), Case(build.stating(image, 1), 8), Case(image[:28 + 15], 8)]
    for length in (4, 40, 4000, 65000):
        plans = [build.unknown(0xCAC5, 3, bytes(length)), build.fill(b"wxyz", 1)]
        cases.append(Case(build.sparse_image(8, plans), 32))
    return cases


def raw_product_cases() -> List[Case]:
    """Raw chunks whose length passes 32 bits, or is longer than any image."""
    cases = []
    for size, blocks in (
        (4, 2**30),
        (4, 2**30 + 1),
        (4, 2**30 - 1),
        (4, 2**30 - 3),
        (4, 2**30 - 4),
        (4, MOST),
        (4096, 2**20),
        (4096, 2**20 + 1),
        (65536, 65535),
        (65536, 65536),
        (65536, 65537),
        (65536, MOST),
        (65532, 65537),
    ):
        for total in sorted({(12 + blocks * size) % 2**32, 12, 16}):
            plan = ChunkPlan(0xCAC1, blocks, b"abcd", total)
            image = build.sparse_image(size, [plan], total_blocks=MOST, checksum=0)
            cases += [Case(image, ROOM), Case(image[:40], ROOM), Case(image, 2**32)]
    return cases


def long_run_cases(rng: random.Random) -> List[Case]:
    """Fills and skips that name up to 2^48 bytes."""
    cases = []
    for size, blocks in ((65536, MOST), (65532, MOST), (4, MOST), (4096, 2**20), (4, 2**30)):
        for plan in (build.fill(b"\xFF" * 4, blocks), build.skip(blocks), build.unknown(3, blocks)):
            image = build.sparse_image(size, [plan])
            cases += [Case(image, blocks * size), Case(image, blocks * size - 1)]
            cases.append(Case(image, (blocks * size) % 2**32))
            cases.append(Case(build.with_bytes(image, 27, bytes([image[27] ^ 1])), ROOM))
    for _ in range(30):
        size = 4 * (1 + below(rng, 16384))
        plans = [
            build.fill(some_bytes(rng, 4), rng.getrandbits(30)),
            build.skip(rng.getrandbits(30)),
            build.raw(some_bytes(rng, size), size) if size <= 64 else build.skip(1),
            build.fill(some_bytes(rng, 4), rng.getrandbits(29)),
            build.unknown(pick(rng, OTHER_TYPES), rng.getrandbits(30), some_bytes(rng, 4)),
        ]
        cases.append(Case(build.sparse_image(size, plans), ROOM))
    return cases


def header_order_cases() -> List[Case]:
    """Every set of header faults, with enough bytes and without."""
    cases = []
    for length, *faults in itertools.product((27, 28, 56), *[(False, True)] * 6):
        magic, major, file_size, chunk_size, block_size, room = faults
        image = build.two_chunks(
            magic=0 if magic else 0xED26FF3A,
            major=2 if major else 1,
            chunk_header_size=10 if chunk_size else 12,
        )
        image = build.with_bytes(image, 8, b"\x3C") if file_size else image
        image = build.with_bytes(image, 12, b"\x06") if block_size else image
        cases.append(Case(image[:length], 11 if room else 12))
    return cases


def chunk_order_cases() -> List[Case]:
    """Every set of faults in the second chunk and after it."""
    cases = []
    for size, length, total, checksum in itertools.product(
        (8, 12, 14, 16, 64), (43, 44, 55, 56, 57, 60, 61), (2, 3, 4), (0, 1, MOST)
    ):
        image = build.two_chunks(second_type=0xCAC5, total_blocks=total, checksum=checksum)
        image = build.with_bytes(image, 52, bytes([size])) + bytes(5)
        cases.append(Case(image[:length], 16))
    return cases


KIND_PLANS = BASE_PLANS + (build.skip(0), build.unknown(7, 0, b"data"))


def none_stated_images(file_header_size: int, chunk_header_size: int) -> List[bytes]:
    """Images that state no checksum: a chunk of each kind alone, then all of them."""
    return [
        build.sparse_image(
            8,
            plans,
            file_header_size=file_header_size,
            chunk_header_size=chunk_header_size,
            checksum=0,
        )
        for plans in [(plan,) for plan in KIND_PLANS] + [KIND_PLANS]
    ]


PlansOf = Callable[[bytes], Sequence[ChunkPlan]]

ZERO_SUMS: Tuple[Tuple[int, PlansOf], ...] = (
    (4, lambda word: [build.raw(word, 4)]),
    (4, lambda word: [build.fill(word, 1)]),
    (4, lambda word: [build.skip(3), build.fill(word, 2), build.unknown(0xCAC4, 1, b"any.")]),
    (8, lambda word: [build.raw(b"more data, " + word + b"!", 8)]),
    (12, lambda word: [build.fill(word, 3), build.raw(b"", 12)]),
    (8, lambda word: BASE_PLANS[1:] + (build.raw(word + b"last", 8), build.skip(1))),
)


def zero_sum_image(block_size: int, plans_of: PlansOf) -> bytes:
    """An image of some chunks, one word of which makes its true checksum 0."""
    word = build.zero_word(lambda word: build.planned_checksum(plans_of(word), block_size))
    return build.sparse_image(block_size, plans_of(word))


def zero_sum_images() -> List[bytes]:
    """Images whose true checksum is 0: those of no data at all, and others."""
    empties = [build.raw(b"", 4), build.fill(b"abcd", 0), build.skip(0)]
    images = [build.sparse_image(4, []), build.sparse_image(4, empties)]
    images += [zero_sum_image(size, plans_of) for size, plans_of in ZERO_SUMS]
    assert all(sparse.read_header(image).checksum == 0 for image in images)
    return images


def wide_zero_images() -> List[bytes]:
    """Images of nearly 2^48 bytes that state 0; of the last it is the true checksum."""
    plans = (build.fill(b"\xFF" * 4, MOST), build.skip(MOST), build.unknown(3, MOST))
    images = [build.sparse_image(65536, [plan], checksum=0) for plan in plans]
    last = zero_sum_image(65536, lambda word: [build.skip(MOST - 9), build.fill(word, 9)])
    return images + [last]


WRONG_CHECKSUMS = (1, 2**8, 2**16, 2**31, MOST)


def with_wrong_checksum(image: bytes, i: int) -> bytes:
    """An image that would be accepted, with one of the wrong checksums, in turn."""
    wrong = build.stating(image, WRONG_CHECKSUMS[i % len(WRONG_CHECKSUMS)])
    assert sparse.judge(wrong, ROOM) == sparse.Refusal(11, sparse.CHECKSUM_AT)
    return wrong


def checksum_cases() -> List[Case]:
    """02, CR 2: 0 stated, true or not, and 1 in its place; any data where 0 is stated;
    other wrong checksums."""
    images = none_stated_images(28, 12) + none_stated_images(36, 20)
    images += zero_sum_images() + wide_zero_images()
    cases = [Case(build.stating(image, stated), ROOM) for image in images for stated in (0, 1)]
    for at in (40, 55, 68, 71, 96, 103, 131):
        cases.append(Case(build.with_bytes(base_image(checksum=0), at, b"\x5A"), BASE_LENGTH))
    for i in range(len(WRONG_CHECKSUMS)):
        cases.append(Case(with_wrong_checksum(base_image(), i), BASE_LENGTH))
    return cases


def ordered_plans() -> List[List[ChunkPlan]]:
    """A chunk of each kind, in every order: 5 blocks written, 4 don't care, and 7 unknown
    of one type or another.  An empty unknown chunk stands between them."""
    found = []
    for i, order in enumerate(itertools.permutations(range(4))):
        other = OTHER_TYPES[i % len(OTHER_TYPES)]
        plans = (
            build.raw(b"raw data", 4),
            build.fill(b"fill", 3),
            build.skip(4),
            build.unknown(other, 7, b"data" * (i % 3)),
        )
        ordered = [plans[k] for k in order]
        found.append(ordered[:2] + [build.unknown(other, 0, b"none")] + ordered[2:])
    return found


def ordered_images() -> List[bytes]:
    """Images of these chunks, every other one with headers longer than they need be."""
    images = []
    for i, plans in enumerate(ordered_plans()):
        file_size, chunk_size = ((28, 12), (36, 20))[i % 2]
        images.append(build.sparse_image(
            4, plans, file_header_size=file_size, chunk_header_size=chunk_size
        ))
    return images


def near_types(known: int) -> List[int]:
    """The unknown types that differ from a known one in a single bit."""
    near = [known ^ 1 << bit for bit in range(16)]
    return [chunk_type for chunk_type in near if chunk_type not in KNOWN_TYPES]


def near_images() -> List[bytes]:
    """Chunks of all types near a known one, each as long as if it were of that one, and no
    checksum stated, so that only the counts tell the types apart."""
    images = []
    for known in KNOWN_TYPES:
        plans = [build.fill(b"fill", 1), build.skip(2)]
        for blocks, chunk_type in enumerate(near_types(known), 1):
            length = {0xCAC1: 4 * blocks, 0xCAC2: 4, 0xCAC3: 0}[known]
            plans.append(build.unknown(chunk_type, blocks, b"\x5A" * length))
        images.append(build.sparse_image(4, plans, checksum=0))
    return images


def retyped_images() -> List[bytes]:
    """The base image with no checksum stated and one of its types replaced."""
    return [
        build.with_bytes(base_image(checksum=0), at, chunk_type.to_bytes(2, "little"))
        for at, chunk_type in itertools.product(BASE_CHUNKS_AT, KNOWN_TYPES + (0xCAC0, 0xFFFF))
    ]


def wide_count_images() -> List[bytes]:
    """The greatest number of blocks, parted in three: many and few of each count."""
    images = []
    for parts in ((1, 2, MOST - 3), (2**31, 2**30, 2**30 - 1), (2**16, 0, MOST - 2**16)):
        for written, dont_care, unknown in itertools.permutations(parts):
            plans = [
                build.unknown(0xCAC4, unknown),
                build.fill(b"\xFF" * 4, written),
                build.skip(dont_care),
            ]
            images.append(build.sparse_image(65536, plans))
    return images


def count_cases() -> List[Case]:
    """02, CR 3: "three counts whose sum is the total: written, don't care, unknown"."""
    images = ordered_images() + near_images() + retyped_images() + wide_count_images()
    others = [build.unknown(t, i % 3, b"data" * (i % 4)) for i, t in enumerate(OTHER_TYPES)]
    images += [build.sparse_image(8, others), build.sparse_image(8, others + list(KIND_PLANS))]
    return [Case(image, ROOM) for image in images]


def other_type(rng: random.Random) -> int:
    """A type that is not known: one of a few, one near a known one, or any."""
    near = pick(rng, near_types(pick(rng, KNOWN_TYPES)))
    found = pick(rng, (pick(rng, OTHER_TYPES), near, rng.getrandbits(16)))
    return 0 if found in KNOWN_TYPES else found


def random_plan(rng: random.Random, block_size: int) -> ChunkPlan:
    """A chunk of any kind, sometimes empty."""
    blocks = below(rng, 5)
    kind = below(rng, 4)
    if kind == 0:
        return build.raw(some_bytes(rng, blocks * block_size), block_size)
    if kind == 1:
        return build.fill(some_bytes(rng, 4), blocks * (1 + below(rng, 100)))
    if kind == 2:
        return build.skip(blocks * (1 + below(rng, 100)))
    return build.unknown(other_type(rng), blocks, some_bytes(rng, 4 * below(rng, 6)))


def random_image(rng: random.Random) -> bytes:
    """An image of up to six chunks with headers of several sizes, often with no
    checksum stated."""
    block_size = pick(rng, (4, 8, 12, 20))
    plans = [random_plan(rng, block_size) for _ in range(below(rng, 7))]
    image = build.sparse_image(
        block_size,
        plans,
        file_header_size=28 + 4 * pick(rng, (0, 0, 1, 5)),
        chunk_header_size=12 + 4 * pick(rng, (0, 0, 1, 3)),
    )
    return build.stating(image, 0) if below(rng, 4) == 0 else image


def random_cases(rng: random.Random) -> List[Case]:
    """Random images, whole and with one or two bytes damaged."""
    cases = []
    for _ in range(150):
        image = random_image(rng)
        cases.append(Case(image, 65536))
        damaged = bytearray(image)
        for _ in range(1 + below(rng, 2)):
            damaged[below(rng, len(damaged))] ^= 1 << below(rng, 8)
        cases.append(Case(bytes(damaged), 65536))
    return cases


def group(rng: random.Random) -> Group:
    """All cases of the group."""
    cases = example_cases() + damaged_cases() + cut_cases() + room_cases() + sum_cases()
    cases += end_cases() + header_size_cases() + ignored_cases() + block_size_cases()
    cases += type_cases() + raw_product_cases() + long_run_cases(rng)
    cases += header_order_cases() + chunk_order_cases() + checksum_cases()
    cases += count_cases() + random_cases(rng)
    return Group(b"".join(map(encoded, cases)), [values(case) for case in cases])
