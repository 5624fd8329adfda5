"""Group `store`: lists of images stored on a partition, cut short and started over."""

import itertools
import random
from typing import Iterator, List, NamedTuple, Optional, Sequence, Tuple

import build
import cases_sparse
import crc
import sparse
import store
from build import ChunkPlan
from cases_common import Group, below, patched_image, pick, some_bytes, u32, u64

LONGEST_PARTITION = 4096
LONGEST_IMAGE = 8192
MOST_IMAGES = 4
MOST_RUNS = 32
MOST_LIMIT = 2**64 - 1
WIDE_LIMITS = (2**31, 2**32 - 1, 2**32, 2**32 + 1, 2**33 + 2, 2**63, MOST_LIMIT)


class Run(NamedTuple):
    """A cut run: images stored in full, the limit for the next one, and the bytes
    that the cut leaves in the next block to be stored."""

    cut: int
    limit: int = 0
    torn_at: int = 0
    torn: bytes = b""


class Case(NamedTuple):
    """A partition, a list of images, the cut runs before the full one."""

    length: int
    seed: int
    images: Tuple[bytes, ...]
    runs: Tuple[Run, ...]


class Step(NamedTuple):
    """An image stored: in full where there is no limit; then some bytes torn."""

    image: bytes
    limit: Optional[int] = None
    torn_at: int = 0
    torn: bytes = b""


def steps(case: Case) -> Iterator[Step]:
    """What the runs of a case do, one image after the other; the last run is full."""
    for run in case.runs:
        yield from map(Step, case.images[:run.cut])
        if run.cut == len(case.images):
            assert run == Run(run.cut)
        else:
            yield Step(case.images[run.cut], run.limit, run.torn_at, run.torn)
    yield from map(Step, case.images)


def encoded_step(step: Step, image_at: int) -> bytes:
    """The step as it stands in the file, its image at an offset in the case."""
    form, limit = (0, 0) if step.limit is None else (1, step.limit)
    head = u32(form) + u32(image_at) + u64(limit) + u32(step.torn_at)
    return head + u32(len(step.torn)) + step.torn


def encoded(case: Case) -> bytes:
    """The case as it stands in the file."""
    assert case.length <= LONGEST_PARTITION
    assert len(case.images) <= MOST_IMAGES and len(case.runs) <= MOST_RUNS
    assert all(len(image) <= LONGEST_IMAGE for image in case.images)
    forms = {image: patched_image(image) for image in case.images}
    taken = list(steps(case))
    at = 16 + sum(len(encoded_step(step, 0)) for step in taken)
    starts = {}
    for image, form in forms.items():
        starts[image] = at
        at += len(form)
    head = u32(at) + u32(case.length) + u32(case.seed) + u32(len(taken))
    body = b"".join(encoded_step(step, starts[step.image]) for step in taken)
    return head + body + b"".join(forms.values())


def first_contents(length: int, seed: int) -> bytes:
    """What the partition holds at first."""
    return bytes((seed + 7 * i) % 256 for i in range(length))


def is_in_next_block(step: Step, length: int) -> bool:
    """Whether the torn bytes lie inside the next block to be stored."""
    if step.limit is None or not step.torn:
        return not step.torn
    block = store.torn_block(step.image, bytes(length), step.limit)
    assert block is not None
    return block.at <= step.torn_at and step.torn_at + len(step.torn) <= block.at + len(block.data)


def after_step(step: Step, partition: bytes) -> Tuple[Tuple[int, ...], bytes]:
    """The values that the store answers, and what the step leaves."""
    assert is_in_next_block(step, len(partition))
    if step.limit is None:
        verdict, partition = store.store(step.image, partition)
        return cases_sparse.verdict_values(verdict), partition
    stored = store.store_limited(step.image, partition, step.limit)
    number, place = cases_sparse.verdict_values(stored.verdict)[:2]
    left = store.with_block(stored.partition, store.Block(step.torn_at, step.torn))
    return (number, place, stored.count), left


def assert_demand_3(case: Case, moments: Sequence[bytes]) -> None:
    """Demand 3: the full run leaves and answers what one on the original contents
    would, "Each byte is then the one that the last accepted image to store it
    gives it", and bytes that none stores are the original ones at each moment."""
    original = first_contents(case.length, case.seed)
    last = moments[-1] if moments else original
    verdicts, left = store.full_run(case.images, original)
    assert store.full_run(case.images, last) == (verdicts, left)
    assert store.last_given(case.images, original) == left
    given = [store.bytes_given(image, case.length) for image in case.images]
    kept = [at for at in range(case.length) if all(image[at] is None for image in given)]
    for moment in list(moments) + [left]:
        assert len(moment) == case.length
        assert all(moment[at] == original[at] for at in kept)


def values(case: Case) -> Tuple[int, ...]:
    """Of each step the store's answer and the checksum of the partition after it."""
    partition = first_contents(case.length, case.seed)
    found: List[int] = []
    moments = []
    taken = list(steps(case))
    for step in taken:
        answer, partition = after_step(step, partition)
        found += answer + (crc.checksum(partition),)
        moments.append(partition)
    cut = len(taken) - len(case.images)
    assert_demand_3(case, moments[:cut])
    return tuple(found)


def shapes(size: int) -> Tuple[Tuple[int, int], ...]:
    """The parts of a block to tear: none, all, its start, its end, its middle."""
    ends = ((0, 0), (0, size), (0, 1), (0, size - 1), (size - 1, size), (1, size))
    return ends + ((1, size - 1), (0, size // 2), (size // 2, size))


SHAPES = len(shapes(4))


def torn_bytes(rng: random.Random, new: bytes) -> bytes:
    """What a part holds after the cut: its new bytes, their opposite, or others."""
    opposite = bytes(byte ^ 0xFF for byte in new)
    any_bytes = some_bytes(rng, len(new))
    return pick(rng, (new, opposite, any_bytes, any_bytes, bytes(len(new)), b"\xFF" * len(new)))


def cut_run(
    rng: random.Random, images: Sequence[bytes], length: int, cut: int, limit: int, shape: int
) -> Run:
    """A run cut at a limit, a part of the next block torn if there is one."""
    block = store.torn_block(images[cut], bytes(length), limit)
    if block is None:
        return Run(cut, limit)
    start, end = shapes(len(block.data))[shape]
    if start == end:
        return Run(cut, limit)
    return Run(cut, limit, block.at + start, torn_bytes(rng, block.data[start:end]))


def written(image: bytes, length: int) -> int:
    """The number of blocks that an image stores, 0 when it is refused."""
    verdict = sparse.judge(image, length)
    return verdict.written if isinstance(verdict, sparse.Accepted) else 0


def all_cuts(images: Sequence[bytes], length: int, more: int) -> Iterator[Tuple[int, int]]:
    """Every image with every limit up to so many more than it stores."""
    for cut, image in enumerate(images):
        for limit in range(written(image, length) + 1 + more):
            yield cut, limit


def total_length(image: bytes) -> int:
    """The bytes that an image covers."""
    header = sparse.read_header(image)
    return header.total_blocks * header.block_size


MIXED_PLANS = (
    build.raw(bytes(range(200, 224)), 12),
    build.skip(1),
    build.fill(b"\x11\x22\x33\x44", 2),
    build.raw(b"", 12),
    build.unknown(0xCAC4, 4, b"\x99\x88\x77\x66\x55\x44\x33\x22"),
    build.fill(b"none", 0),
    build.skip(0),
    build.raw(b"twelve bytes", 12),
    build.skip(1),
)
SMALL_IMAGES = (
    build.two_chunks(),
    build.two_chunks(second_type=0xCAC5),
    build.sparse_image(4, [build.raw(b"abcdefghijkl", 4)]),
    build.sparse_image(8, [build.skip(1), build.fill(b"wxyz", 3)]),
    build.sparse_image(12, MIXED_PLANS),
    build.sparse_image(12, MIXED_PLANS[2:], file_header_size=36, chunk_header_size=20),
)


def example_cases() -> List[Case]:
    """P2 to P8 of document 01 and P2 with checksum 1, each cut after 0 and after 1 block."""
    image = build.two_chunks()
    kept = (Run(0), Run(0, 1), Run(1))
    torn = (Run(0, 0, 0, b"????"), Run(0, 1))
    cases = [Case(12, 100, (image,), runs) for runs in (kept, torn)]
    for other, length in (
        (image, 11),
        (build.two_chunks(total_blocks=4), 16),
        (build.two_chunks(total_blocks=2), 12),
        (image + b"\0", 12),
        (build.two_chunks(checksum=0), 12),
        (build.two_chunks(checksum=1), 12),
    ):
        cases.append(Case(length, 100, (other,), kept))
    for other in (build.two_chunks(second_type=0xCAC5), build.two_chunks(checksum=0)):
        cases.append(Case(12, 100, (other,), torn))
    return cases


def single_cases(rng: random.Random) -> List[Case]:
    """One image, one cut on the original contents: every limit, every torn shape; on a
    longer partition every limit, with one of the shapes."""
    cases = []
    for image in SMALL_IMAGES:
        length = total_length(image)
        for cut, limit in all_cuts([image], length, 2):
            torn_shapes = range(SHAPES) if limit < written(image, length) else range(1)
            taken = [(length, shape) for shape in torn_shapes]
            for room, shape in taken + [(length + 5, 1 + limit % (SHAPES - 1))]:
                run = cut_run(rng, [image], room, cut, limit, shape)
                cases.append(Case(room, below(rng, 256), (image,), (run,)))
    for image, limit in itertools.product(SMALL_IMAGES, WIDE_LIMITS):
        cases.append(Case(total_length(image), 9, (image,), (Run(0, limit),)))
    return cases


def repeated_cases(rng: random.Random) -> List[Case]:
    """One image cut many times: limits that rise, that fall, in any order."""
    cases = []
    for image in SMALL_IMAGES:
        length = total_length(image) + 3
        rising = list(all_cuts([image], length, 1))
        mixed = [pick(rng, rising) for _ in range(MOST_RUNS)]
        for order in (rising, rising[::-1], rising * 2, mixed):
            runs = [cut_run(rng, [image], length, *cut, below(rng, SHAPES)) for cut in order]
            cases.append(Case(length, below(rng, 256), (image,), tuple(runs)))
    return cases


REFUSALS = (1, 2, 3, 4, 4, 4, 5, 6, 7, 7, 8, 9, 9, 10, 11)


def refused_images(length: int) -> List[bytes]:
    """An image for each test of REFUSALS, that would store if the test were left out."""
    plans = [build.raw(b"REFUSED!", 4), build.fill(b"none", 2)]
    image = build.sparse_image(4, plans)
    images = [
        image[:27],
        build.sparse_image(4, plans, magic=0xED26FF3B),
        build.sparse_image(4, plans, major=2),
        build.sparse_image(4, plans, file_header_size=30),
        build.sparse_image(4, plans, chunk_header_size=14),
        build.with_bytes(image, 8, bytes([len(image) + 4])),
        build.with_bytes(image, 12, b"\x06"),
        build.sparse_image(4, plans + [build.skip(length // 4)]),
        image[:59],
        image[:63],
        build.with_bytes(image, 56, b"\x14"),
        build.sparse_image(4, plans, total_blocks=3),
        build.sparse_image(4, plans, total_blocks=5),
        image + b"\0",
        build.with_bytes(image, 27, bytes([image[27] ^ 0x80])),
    ]
    verdicts = [sparse.judge(image, length) for image in images]
    assert [cases_sparse.verdict_values(verdict)[0] for verdict in verdicts] == list(REFUSALS)
    return images


def refused_cases(rng: random.Random) -> List[Case]:
    """Each refusal alone, before, between and after accepted images."""
    cases = []
    length = 41
    first = build.sparse_image(8, [build.fill(b"1st.", 2), build.skip(1), build.fill(b"ONE!", 2)])
    second = build.sparse_image(12, [build.skip(1), build.raw(b"twelve bytes", 12)])
    for refused in refused_images(length):
        cases.append(Case(length, 1, (refused,), (Run(0, 0), Run(0, 1), Run(0, MOST_LIMIT))))
        before, between = (refused, first, second), (first, refused, second)
        for images in (before, between, (second, first, refused)):
            cuts = [pick(rng, list(all_cuts(images, length, 1))) for _ in range(2)]
            cuts.append((images.index(refused), 1 + below(rng, 9)))
            runs = [cut_run(rng, images, length, *cut, below(rng, SHAPES)) for cut in cuts]
            cases.append(Case(length, below(rng, 256), images, tuple(runs) + (Run(3),)))
    return cases


def room_cases(rng: random.Random) -> List[Case]:
    """No partition, one byte short, an exact fit, one byte and many more; blocks as
    long as the partition, and blocks longer than it in images that store none."""
    empties = [build.raw(b"", 4), build.skip(0), build.fill(b"abcd", 0), build.unknown(0, 0)]
    nothing = (build.sparse_image(65536, []), build.sparse_image(65536, empties))
    cases = [Case(0, 5, (), ()), Case(9, 5, (), (Run(0),)), Case(0, 5, (), (Run(0), Run(0)))]
    for length, image in itertools.product((0, 1, 50), nothing + (build.two_chunks(), b"")):
        runs = (Run(0, 0), Run(0, 1), Run(0, MOST_LIMIT), Run(1))
        cases.append(Case(length, 5, (image,), runs))
        cases.append(Case(length, 5, nothing + (image, nothing[0]), (Run(2, 1), Run(4))))
    raw_512 = build.raw(b"tarp" + bytes(505) + b"end", 512)
    for size, plans in (
        (4096, [build.fill(b"wxyz", 1)]),
        (4096, [build.raw(b"\x01" + bytes(4094) + b"\x02", 4096)]),
        (2048, [build.fill(b"page", 1), build.skip(1)]),
        (512, [raw_512, build.fill(b"next", 3), build.unknown(7, 1, bytes(900)), raw_512]),
        (1000, [build.skip(2), build.fill(b"\0\0\0\x01", 1)]),
    ):
        image = build.sparse_image(size, plans)
        total = size * sum(plan.blocks for plan in plans)
        for length in (total - 1, total, total + 1, LONGEST_PARTITION):
            if length <= LONGEST_PARTITION:
                cuts = all_cuts([image], length, 1)
                runs = [cut_run(rng, [image], length, *cut, below(rng, 2)) for cut in cuts]
                cases.append(Case(length, below(rng, 256), (image,), tuple(runs)))
    return cases


def kept_count_case() -> Case:
    """Updates that all skip the same two blocks, which keep what they hold."""
    plans = [build.fill(b"new.", 3), build.skip(2), build.fill(b"data", 3)]
    other = [build.raw(b"0123456789ab", 4), build.unknown(0xCAC5, 2, b"\xEE" * 8), build.skip(3)]
    images = (build.sparse_image(4, plans), build.sparse_image(4, other))
    runs = (Run(0, 2, 8, b"xx"), Run(0, 3, 20, b"?"), Run(1, 1, 4, b"torn"), Run(1, 9), Run(2))
    return Case(32, 77, images, runs)


def overlapping_lists() -> List[Tuple[bytes, ...]]:
    """Lists whose images store the same bytes with blocks of different sizes."""
    wide = build.sparse_image(12, [build.raw(bytes(range(1, 25)), 12), build.skip(1)])
    words = build.sparse_image(4, [build.skip(2), build.fill(b"WORD", 3), build.skip(4)])
    long = build.sparse_image(20, [build.skip(1), build.raw(bytes(range(50, 70)), 20)])
    mixed = build.sparse_image(8, [build.fill(b"same", 1), build.unknown(9, 1, b"skip")])
    damaged = build.with_bytes(wide, 60, b"\xFF")
    return [
        (wide, words),
        (words, wide),
        (wide, wide),
        (wide, words, long),
        (long, damaged, words, wide),
        (mixed, words, damaged, mixed),
    ]


def list_cases(rng: random.Random) -> List[Case]:
    """Every single cut of a list, then all cuts one after the other, and any two."""
    cases = [kept_count_case()]
    for images in overlapping_lists():
        length = 40 + below(rng, 3)
        cuts = list(all_cuts(images, length, 1))
        runs = [cut_run(rng, images, length, *cut, 1 + i % 8) for i, cut in enumerate(cuts)]
        runs += [Run(cut) for cut in range(len(images) + 1)]
        cases += [Case(length, below(rng, 256), images, (run,)) for run in runs]
        cases.append(Case(length, below(rng, 256), images, tuple(runs)))
        cases.append(Case(length, below(rng, 256), images, tuple(runs[::-1])))
        for _ in range(8):
            pair = (pick(rng, runs), pick(rng, runs))
            cases.append(Case(length, below(rng, 256), images, pair))
    return cases


def checksum_cases(rng: random.Random) -> List[Case]:
    """02, CR 2: images that state 0, true or not, cut after each block; before each the
    same with a wrong checksum, which stores nothing."""
    images = [build.stating(image, 0) for image in SMALL_IMAGES[2:]]
    images += cases_sparse.none_stated_images(36, 20)[:4] + cases_sparse.zero_sum_images()
    cases = []
    for i, image in enumerate(images):
        listed = (cases_sparse.with_wrong_checksum(image, i), image)
        length = total_length(image) + below(rng, 2)
        cuts = list(all_cuts(listed, length, 1))
        runs = [cut_run(rng, listed, length, *cut, below(rng, SHAPES)) for cut in cuts]
        cases.append(Case(length, below(rng, 256), listed, tuple(runs)))
    return cases


def count_cases(rng: random.Random) -> List[Case]:
    """02, CR 3: a chunk of each kind in several orders, cut after each block; before each
    the same with its don't-care chunk of an unknown type, which stores the same."""
    cases = []
    for plans in cases_sparse.ordered_plans()[::5]:
        strange = [
            plan._replace(type=0xCAC5) if plan.type == 0xCAC3 else plan for plan in plans
        ]
        listed = (build.sparse_image(4, strange), build.sparse_image(4, plans))
        length = total_length(listed[0]) + below(rng, 2)
        cuts = list(all_cuts(listed, length, 1))
        runs = [cut_run(rng, listed, length, *cut, below(rng, SHAPES)) for cut in cuts]
        cases.append(Case(length, below(rng, 256), listed, tuple(runs)))
    return cases


def random_plan(rng: random.Random, block_size: int) -> ChunkPlan:
    """A small chunk of any kind, sometimes empty."""
    blocks = below(rng, 4)
    kind = below(rng, 5)
    if kind <= 1:
        return build.raw(some_bytes(rng, blocks * block_size), block_size)
    if kind == 2:
        return build.fill(some_bytes(rng, 4), blocks)
    if kind == 3:
        return build.skip(blocks)
    return build.unknown(cases_sparse.other_type(rng), blocks, some_bytes(rng, 4 * blocks))


def random_image(rng: random.Random) -> bytes:
    """A small image, often with no checksum stated, now and then one to refuse."""
    block_size = pick(rng, (4, 8, 12, 16, 28))
    plans = [random_plan(rng, block_size) for _ in range(below(rng, 5))]
    image = build.sparse_image(block_size, plans, chunk_header_size=pick(rng, (12, 12, 12, 16)))
    if below(rng, 8) == 0:
        return image[:below(rng, len(image))] + b"\0"
    if below(rng, 8) == 0:
        return build.with_bytes(image, 24, some_bytes(rng, 4))
    return build.stating(image, 0) if below(rng, 4) == 0 else image


def unknown_image(rng: random.Random) -> bytes:
    """An image of which every other chunk is of an unknown type."""
    block_size = pick(rng, (4, 8, 12))
    plans = []
    for _ in range(1 + below(rng, 9)):
        data = some_bytes(rng, 4 * below(rng, 4))
        plans.append(build.unknown(cases_sparse.other_type(rng), below(rng, 4), data))
        plans.append(random_plan(rng, block_size))
    return build.sparse_image(block_size, plans, chunk_header_size=pick(rng, (12, 12, 16)))


def random_cases(rng: random.Random) -> List[Case]:
    """Lists of images on partitions with room for most of them."""
    cases = []
    for _ in range(110):
        images = tuple(random_image(rng) for _ in range(1 + below(rng, MOST_IMAGES)))
        length = max(map(total_length, images)) % 200 + pick(rng, (0, 0, 1, 30))
        cuts = list(all_cuts(images, length, 2))
        chosen = [pick(rng, cuts) for _ in range(below(rng, 7))]
        runs = [cut_run(rng, images, length, *cut, below(rng, SHAPES)) for cut in chosen]
        cases.append(Case(length, below(rng, 256), images, tuple(runs)))
    return cases


def group(rng: random.Random) -> Group:
    """All cases of the group."""
    cases = example_cases() + single_cases(rng) + repeated_cases(rng) + refused_cases(rng)
    cases += room_cases(rng) + list_cases(rng) + checksum_cases(rng) + count_cases(rng)
    cases += random_cases(rng)
    return Group(b"".join(map(encoded, cases)), [values(case) for case in cases])
