"""Holds the joining of change request 7 against document 02 and a slow formulation.

Run by `python3 tests/reference/test_join.py`.
"""

import itertools
import random
import unittest
import unittest.mock
from functools import lru_cache
from typing import Any, Callable, Dict, Iterable, Iterator, List, Optional, Sequence, Set, Tuple

import build
import cases_compare
import cases_join
import cases_sparse
import cases_store
import compare
import crc
import join
import sparse
import store
import test_compare
import writer
from build import ChunkPlan
from cases_common import some_bytes
from cases_compare import OTHER, WORD, Block, Images
from cases_join import Case
from compare import Meeting, Refusal
from join import Joined
from test_compare import P2, P7, RAW, ROOM, block_at, blocks_given, cases_in, pick_second, total_of

MOST_SLOW_BYTES = 30_000
# P9 of document 01: `FF FF FF FF` and twelve zero bytes, block size 8.
P9 = bytes.fromhex(
    "3AFF26ED 0100 0000 1C00 0C00 08000000 02000000 02000000 FFFFFFFF"
    "C1CA 0000 01000000 14000000 FFFFFFFF 00000000"
    "C2CA 0000 01000000 10000000 00000000"
)
# Block size 4, total 3: fill 1 block, fill 1 with another word, don't care 1.
P2_RAW = bytes.fromhex(
    "3AFF26ED 0100 0000 1C00 0C00 04000000 03000000 03000000 FFFFFFFF"
    "C2CA 0000 01000000 10000000 FFFFFFFF"
    "C2CA 0000 01000000 10000000 00000000"
    "C3CA 0000 01000000 0C000000"
)


# A second, slow formulation: each block after both images, then its chunks.

def block_after(one: Block, other: Block) -> Block:
    """"the effect of the first followed by the second"."""
    return one if other is None else other


def blocks_after(first: Sequence[Block], second: Sequence[Block]) -> List[Block]:
    """The same of all blocks."""
    return [block_after(one, other) for one, other in zip(first, second)]


def chunk_of(block: Block) -> Tuple[int, bytes]:
    """The type of the chunk that a block goes into, and the word where it is fill."""
    if block is None:
        return 0xCAC3, b""
    if block == block[:4] * (len(block) // 4):
        return 0xCAC2, block[:4]
    return 0xCAC1, b""


def plans_of(blocks: Iterable[Tuple[int, Block]]) -> List[ChunkPlan]:
    """The chunks of a row of blocks, each of which comes so many times."""
    plans = []
    for (chunk_type, word), same in itertools.groupby(blocks, lambda given: chunk_of(given[1])):
        run = list(same)
        data = b"".join(block or b"" for _, block in run) if chunk_type == 0xCAC1 else word
        plans.append(ChunkPlan(chunk_type, sum(count for count, _ in run), data))
    return plans


def slow_image(size: int, blocks: Sequence[Block]) -> bytes:
    """The compact image of a row of blocks."""
    checksum = crc.checksum(b"".join(block or bytes(size) for block in blocks))
    return build.sparse_image(size, plans_of((1, block) for block in blocks), checksum=checksum)


def starts_in(image: bytes) -> Set[int]:
    """The blocks that may differ from the one before, which are the first of each chunk and all
    of a raw one; and the total."""
    starts = {total_of(image)}
    for kind, first, blocks, _, _ in sparse.chunks_of(image):
        starts |= set(range(first, first + blocks)) if kind == "raw" else {first}
    return starts


def long_image(first: bytes, second: bytes) -> bytes:
    """The joined image of two that may have many blocks, from such blocks alone."""
    starts = sorted(starts_in(first) | starts_in(second))
    blocks = [
        (end - at, block_after(block_at(first, at), block_at(second, at)))
        for at, end in zip(starts, starts[1:])
    ]
    return build.sparse_image(sparse.read_header(first).block_size, plans_of(blocks))


def has_few_bytes(image: bytes) -> bool:
    """Whether each byte of its blocks can be looked at."""
    return cases_store.total_length(image) <= MOST_SLOW_BYTES


def slow_pair_image(first: bytes, second: bytes) -> bytes:
    """The joined image of two accepted ones of equal geometry."""
    if not has_few_bytes(first):
        return long_image(first, second)
    blocks = blocks_after(blocks_given(first), blocks_given(second))
    return slow_image(sparse.read_header(first).block_size, blocks)


def slow_join(first: bytes, second: bytes, output: bytes) -> Joined:
    """The answer, each image judged for the longest partition."""
    for which, image in enumerate((first, second), 1):
        verdict = sparse.judge(image, ROOM)
        if isinstance(verdict, sparse.Refusal):
            return Joined(verdict.number, verdict.place, which, 0, output)
    if first[12:20] != second[12:20] or cases_store.total_length(first) > 2_147_483_648:
        return Joined(17, 0, 0, 0, output)
    image = slow_pair_image(first, second)
    if len(output) < len(image):
        return Joined(18, 0, 0, 0, output)
    return Joined(0, 0, 0, len(image), image + output[len(image):])


def wrong_ends(first: bytes, second: bytes, image: bytes) -> List[int]:
    """The blocks at either end of a chunk, of two images or of their joined one, which that one
    does not give as "the first followed by the second"."""
    chunks = [chunk for each in (first, second, image) for chunk in sparse.chunks_of(each)]
    ends = {end for _, at, blocks, _, _ in chunks if blocks > 0 for end in (at, at + blocks - 1)}
    return [
        block for block in sorted(ends)
        if block_at(image, block) != block_after(block_at(first, block), block_at(second, block))
    ]


@lru_cache(maxsize=None)
def cases_of_vectors() -> List[Case]:
    """The cases that the vectors have, with other random ones."""
    return [Case(*case) for case in cases_in(cases_join.group(random.Random(73)).data)]


@lru_cache(maxsize=None)
def compared_pairs() -> List[Images]:
    """Every pair that is compared in the vectors, in both orders."""
    pairs = [(case.first, case.second) for case in test_compare.cases_of_vectors()]
    return list(dict.fromkeys(pairs + [(second, first) for first, second in pairs]))


def accepted(pairs: Iterable[Images]) -> List[Images]:
    """The pairs that are joined, given room."""
    return [pair for pair in pairs if join.refusal_of(*pair) is None]


@lru_cache(maxsize=None)
def accepted_pairs() -> List[Images]:
    """The pairs of the vectors that are joined."""
    return accepted((first, second) for first, second, _ in cases_of_vectors())


def random_images(rng: random.Random, count: int, most: int) -> List[bytes]:
    """So many images of one geometry, cut anywhere."""
    size = rng.choice((4, 8, 12))
    total = rng.randrange(most + 1)
    rows = [cases_compare.random_blocks(rng, size, total) for _ in range(count)]
    return [cases_compare.image_of(rng, size, row) for row in rows]


class TestExamples(unittest.TestCase):
    """Images typed by hand."""

    def check(self, first: bytes, second: bytes, image: bytes) -> None:
        joined = join.join(first, second, b"x" * (len(image) + 5))
        self.assertEqual(joined, Joined(0, 0, 0, len(image), image + b"xxxxx"))

    def test_typed_images(self) -> None:
        for first, second in itertools.product((P2, P7, build.stating(P2, 0)), repeat=2):
            self.check(first, second, P2)
        self.check(P2, RAW, P2_RAW)
        self.check(RAW, P2, P2_RAW)
        self.check(RAW, P7, P2_RAW)
        self.check(P2_RAW, P2_RAW, P2_RAW)

    def test_written_image_in_two_parts(self) -> None:
        raw = build.sparse_image(8, [build.raw(b"\xFF" * 4 + bytes(4), 8), build.skip(1)])
        fill = build.sparse_image(8, [build.unknown(5, 1), build.raw(bytes(8), 8)])
        self.check(raw, fill, P9)
        self.check(fill, raw, P9)
        self.check(raw, P9, P9)
        self.check(P9, fill, P9)

    def test_second_over_first(self) -> None:
        for size in (4, 8, 64, 65536):
            first, second = (build.sparse_image(size, [build.fill(w, 3)]) for w in (WORD, OTHER))
            self.check(first, second, second)
            self.check(second, first, first)
            raw = build.sparse_image(size, [build.raw(OTHER * (3 * size // 4), size)])
            self.check(first, raw, second)
            self.check(raw, first, first)

    def test_no_blocks(self) -> None:
        for size in (4, 8, 65536):
            for first, second in itertools.product(([], cases_compare.EMPTY_PLANS), repeat=2):
                pair = build.sparse_image(size, first), build.sparse_image(size, second)
                self.check(*pair, build.sparse_image(size, []))

    def test_kept_blocks_are_one_chunk(self) -> None:
        skips = [build.skip(1), build.unknown(5, 2, b"data"), build.skip(0), build.skip(2)]
        others = [build.unknown(6, 2), build.unknown(7, 2), build.skip(1)]
        images = build.sparse_image(4, skips), build.sparse_image(4, others)
        self.check(*images, build.sparse_image(4, [build.skip(5)]))

    def test_rows(self) -> None:
        """By letters, as the vectors have them."""
        for first, second, whole in (
            ("fFf", "---", "fff"), ("rrr", "-F-", "rfr"), ("rFr", "-r-", "rrr"),
            ("fgf", "-F-", "fff"), ("-?-", "?F?", "-f-"), ("rr--", "--ff", "rrff"),
            ("FFFF", "g--g", "gffg"), ("rF-?", "-?-f", "rf-f"),
        ):
            pair = (cases_join.row_image(row, 8, 9, 1) for row in (first, second))
            self.check(*pair, cases_join.row_image(whole, 8, 9))

    def test_greatest_totals(self) -> None:
        kept = build.sparse_image(4, [build.skip(2**29)])
        self.check(kept, kept, kept)
        ends = build.sparse_image(4, [build.skip(2**29 - 1), build.raw(WORD, 4)])
        fill = build.sparse_image(4, [build.fill(WORD, 2**29 - 1), build.unknown(9, 1)])
        self.check(ends, fill, build.sparse_image(4, [build.fill(WORD, 2**29)]))


class TestSlow(unittest.TestCase):
    """The same as block by block."""

    def check(self, first: bytes, second: bytes, output: bytes) -> Joined:
        joined = join.join(first, second, output)
        self.assertEqual(joined, slow_join(first, second, output))
        return joined

    def test_random_pairs(self) -> None:
        rng = random.Random(71)
        for _ in range(2000):
            pair = cases_compare.random_pair(rng, (4, 8, 12, 16, 64), 16)
            first, second = cases_compare.images_of(rng, pair)
            image = slow_image(pair.size, blocks_after(pair.first, pair.second))
            joined = self.check(first, second, some_bytes(rng, len(image) + rng.randrange(3)))
            self.assertEqual(joined.output[:joined.length], image)
            self.assertEqual(long_image(first, second), image)

    def test_any_two_images(self) -> None:
        """Mostly of other geometry, or refused; and each with itself."""
        rng = random.Random(72)
        found = set()
        for _ in range(1500):
            first, second = (cases_store.random_image(rng) for _ in range(2))
            second = pick_second(rng, first, second)
            joined = self.check(first, second, some_bytes(rng, rng.randrange(300)))
            found.add((joined.number, joined.image))
        self.assertLessEqual({(0, 0), (17, 0), (18, 0), (11, 1), (11, 2), (7, 1), (7, 2)}, found)

    def test_the_cases_of_the_vectors(self) -> None:
        for first, second, room in cases_of_vectors():
            self.check(first, second, cases_join.first_output(room))
        few = [first for first, _ in accepted_pairs() if has_few_bytes(first)]
        self.assertGreater(len(few), 900)

    def test_the_pairs_of_the_comparison(self) -> None:
        """In both orders, and the random ones too."""
        output = cases_join.first_output(cases_join.LONGEST_OUTPUT)
        for first, second in compared_pairs():
            self.assertNotEqual(self.check(first, second, output).number, 18)


class TestStatements(unittest.TestCase):
    """What the paper says of every joined image."""

    def test_effect(self) -> None:
        """"the effect of the first followed by the second, on every partition with room"."""
        rng = random.Random(74)
        for _ in range(600):
            pair = cases_compare.random_pair(rng, (4, 8, 12), 10)
            first, second = cases_compare.images_of(rng, pair)
            old = some_bytes(rng, pair.size * len(pair.first) + rng.choice((0, 1, 9)))
            verdict, after = store.store(join.image_of(first, second), old)
            self.assertEqual(after, store.full_run([first, second], old)[1])
            assert isinstance(verdict, sparse.Accepted)
            kept = blocks_after(pair.first, pair.second).count(None)
            self.assertEqual((verdict.dont_care, verdict.unknown), (kept, 0))

    def check_compact(self, image: bytes, size: int, total: int) -> None:
        """"written blocks become fill where all words agree and raw elsewhere, other blocks
        don't care, chunks as long as they can be, none empty, the header as our writer's
        with the true checksum"."""
        header, chunks = sparse.read_header(image), sparse.chunks_of(image)
        checksum = sparse.image_checksum(image, header, chunks)
        head = (0xED26FF3A, 1, 0, 28, 12, size, total, len(chunks), checksum)
        self.assertEqual(tuple(header), head)
        self.assertIsInstance(sparse.judge(image, total * size), sparse.Accepted)
        self.assertLessEqual(len(image), 28 + total * (size + 12))
        shared = []
        for chunk in chunks:
            self.assertGreater(chunk.blocks, 0)
            self.assertIn(chunk.kind, (sparse.RAW, sparse.FILL, sparse.DONT_CARE))
            self.assertEqual(image[chunk.data_at - 10:chunk.data_at - 8], bytes(2))
            if chunk.kind == sparse.RAW:
                for at in range(chunk.data_at, chunk.end, size):
                    words = {image[word:word + 4] for word in range(at, at + size, 4)}
                    self.assertGreater(len(words), 1)
            is_fill = chunk.kind == sparse.FILL
            shared.append((chunk.kind, image[chunk.data_at:chunk.end] if is_fill else b""))
        for one, other in zip(shared, shared[1:]):
            self.assertNotEqual(one, other)

    def test_compact(self) -> None:
        rng = random.Random(75)
        pairs = [cases_compare.images_of(rng, cases_compare.random_pair(rng, (4, 8, 12, 64), 14))
                 for _ in range(500)]
        for first, second in pairs + accepted_pairs():
            self.check_compact(join.image_of(first, second), *compare.geometry(first))

    def test_equal_effect_exactly_when_bytes_are_equal(self) -> None:
        """On two partitions that agree nowhere, since what is kept differs there."""
        rng = random.Random(76)
        for size, total in ((4, 3), (8, 2), (8, 3), (4, 0)):
            old = some_bytes(rng, size * total)
            others = bytes(byte ^ 0xFF for byte in old)
            found: Dict[Tuple[bytes, bytes], Set[bytes]] = {}
            for _ in range(600):
                rows = [cases_compare.random_blocks(rng, size, total) for _ in range(2)]
                pair = [cases_compare.image_of(rng, size, row) for row in rows]
                image = join.image_of(*pair)
                effect = store.store(image, old)[1], store.store(image, others)[1]
                found.setdefault(effect, set()).add(image)
            images = set().union(*found.values())
            self.assertEqual(len(images), len(found))
            self.assertEqual({len(same) for same in found.values()}, {1})
            self.assertGreater(len(images), 100 if total else 0)

    def test_grouping_of_three(self) -> None:
        rng = random.Random(77)
        for _ in range(400):
            a, b, c = random_images(rng, 3, 10)
            left = join.image_of(join.image_of(a, b), c)
            self.assertEqual(left, join.image_of(a, join.image_of(b, c)))
            old = some_bytes(rng, cases_store.total_length(a))
            self.assertEqual(store.store(left, old)[1], store.full_run([a, b, c], old)[1])

    def test_joined_with_itself_and_with_kept_blocks(self) -> None:
        rng = random.Random(78)
        for _ in range(300):
            (image,) = random_images(rng, 1, 10)
            size, total = compare.geometry(image)
            kept = build.sparse_image(size, [build.skip(total)])
            joined = join.image_of(image, image)
            for first, second in ((image, kept), (kept, image), (joined, image), (image, joined)):
                self.assertEqual(join.image_of(first, second), joined)

    def test_written_images(self) -> None:
        """Images that write all are as our writer's."""
        rng = random.Random(79)
        for _ in range(200):
            words = [rng.choice([WORD, OTHER, bytes(4)]) for _ in range(2 * rng.randrange(9))]
            flat = b"".join(words)
            image = writer.image_of(flat, 8)
            raw = build.sparse_image(8, [build.raw(flat, 8)])
            other = build.sparse_image(8, [build.fill(WORD, len(flat) // 8)])
            for first in (raw, image, other):
                self.assertEqual(join.image_of(first, raw), image)

    def test_bound(self) -> None:
        """28 + total × (block size + 12), as `check_compact` has it, is taken by a raw block
        alone; kept blocks between raw ones take 12 bytes each."""
        for size in (8, 12, 4096):
            image = cases_join.row_image("r", size, 9)
            self.assertEqual(len(join.image_of(image, image)), 28 + size + 12)
            row = cases_join.row_image("r-r-r", size, 9)
            self.assertEqual(len(join.image_of(row, row)), 28 + 5 * 12 + 3 * size)

    def test_many_blocks(self) -> None:
        """As `compact` says, and the same at each end of each chunk."""
        rng = random.Random(80)
        joined = 0
        for _ in range(600):
            first, second = cases_compare.wide_pair(rng)
            if join.refusal_of(first, second) is not None:
                continue
            joined += 1
            image = join.image_of(first, second)
            self.check_compact(image, *compare.geometry(first))
            self.assertEqual(wrong_ends(first, second, image), [])
            self.assertEqual(image, long_image(first, second))
        self.assertGreater(joined, 100)

    def test_four_times_both_images(self) -> None:
        """No joined image is longer than that, in bytes."""
        rng = random.Random(83)
        pairs = [cases_compare.images_of(rng, cases_compare.random_pair(rng, (4, 4, 8, 12), 40))
                 for _ in range(500)]
        for first, second in pairs + accepted_pairs() + accepted(compared_pairs()):
            self.assertLessEqual(len(join.image_of(first, second)), 4 * len(first + second))

    def test_nearly_four_times_both_images(self) -> None:
        """Blocks of 4 bytes, all different, are raw in one chunk, and then a fill chunk of 16
        bytes each: but for headers, of 80 bytes and of 28, it is that."""
        for count in (1, 2, 500, 4000):
            raw = build.sparse_image(4, [cases_join.all_different(count)])
            kept = build.sparse_image(4, [build.skip(count)])
            for first, second in ((raw, kept), (kept, raw)):
                joined = join.image_of(first, second)
                self.assertEqual(len(joined), 28 + 16 * count)
                self.assertEqual(len(joined), 4 * (len(first + second) - 80) + 28)


class TestOutput(unittest.TestCase):
    """"the answer and the output past the image are as our writer's too"; "18 exactly when
    the output is too short, untouched then"."""

    def test_every_length(self) -> None:
        rng = random.Random(81)
        for _ in range(40):
            pair = cases_compare.random_pair(rng, (4, 8), 8)
            first, second = cases_compare.images_of(rng, pair)
            image = slow_image(pair.size, blocks_after(pair.first, pair.second))
            for room in range(len(image) + 8):
                output = some_bytes(rng, room)
                joined = join.join(first, second, output)
                if room < len(image):
                    self.assertEqual(joined, Joined(18, 0, 0, 0, output))
                else:
                    after = image + output[len(image):]
                    self.assertEqual(joined, Joined(0, 0, 0, len(image), after))

    def test_as_the_writer(self) -> None:
        rng = random.Random(82)
        for room in (64, 65, 100, 300):
            output = some_bytes(rng, room)
            flat = b"\xFF" * 4 + bytes(12)
            written = writer.write(flat, 8, output)
            joined = join.join(P9, P9, output)
            self.assertEqual((joined.length, joined.output), (written.length, written.output))


class TestRefusals(unittest.TestCase):
    """"Refusals: the images' own as in CR 5, 17 geometry differs or total × block size over
    2,147,483,648, 18"."""

    good = build.sparse_image(4, [build.raw(b"GOOD", 4), build.fill(WORD, 3)])
    other_size = build.sparse_image(8, [build.fill(WORD, 4)])
    other_total = build.sparse_image(4, [build.fill(WORD, 5)])
    large = build.sparse_image(4, [build.skip(2**29 + 1)])

    def check(self, first: bytes, second: bytes, room: int, refusal: Refusal) -> None:
        output = cases_join.first_output(room)
        expected = Joined(refusal.number, refusal.place, refusal.image, 0, output)
        self.assertEqual(join.join(first, second, output), expected)

    def test_order(self) -> None:
        others = [self.good, self.other_size, self.other_total, self.large]
        images = cases_compare.refused_images()
        numbers = []
        for bad in images:
            verdict = sparse.judge(bad, ROOM)
            assert isinstance(verdict, sparse.Refusal)
            numbers.append(verdict.number)
            for room in (0, 28, 200):
                for second in others + [b""] + images:
                    self.check(bad, second, room, Refusal(verdict.number, verdict.place, 1))
                for first in others:
                    self.check(first, bad, room, Refusal(verdict.number, verdict.place, 2))
        self.assertEqual(sorted(set(numbers)), [1, 2, 3, 4, 5, 7, 8, 9, 10, 11])

    def test_geometry(self) -> None:
        images = [self.good, self.other_size, self.other_total, self.large]
        images += [build.sparse_image(8, [build.fill(WORD, 2)]), build.sparse_image(4, [])]
        images += [build.sparse_image(8, []), build.sparse_image(4, [build.skip(65540)])]
        for first, second in itertools.permutations(images, 2):
            for room in (0, 300):
                self.check(first, second, room, Refusal(17, 0, 0))

    def test_largest(self) -> None:
        """Exactly 2,147,483,648 bytes are joined, more are not, in whatever chunks."""
        for total, size in cases_join.PRODUCTS:
            for i, k in itertools.product(range(5), range(5)):
                pair = [build.sparse_image(size, cases_join.wide_plans(total, n)) for n in (i, k)]
                if total * size > 2_147_483_648:
                    for room in (0, 300):
                        self.check(*pair, room, Refusal(17, 0, 0))
                else:
                    joined = join.join(*pair, bytes(300))
                    self.assertEqual(joined, slow_join(*pair, bytes(300)))
                    self.assertEqual(joined.number, 0)
                    self.assertEqual(wrong_ends(*pair, joined.output[:joined.length]), [])
                    self.check(*pair, 27, Refusal(18, 0, 0))

    def test_room_is_never_too_little(self) -> None:
        """6 never comes: 17 does where total × block size is too much for any joining."""
        for size, total in ((65536, 2**32 - 1), (4, 2**32 - 1), (65536, 65536), (4, 2**30)):
            image = build.sparse_image(size, [build.skip(total)])
            self.check(image, image, 300, Refusal(17, 0, 0))

    def test_checksums(self) -> None:
        """02, CR 2: 0 states none; the joined image states the true one."""
        base = cases_sparse.base_image()
        none, wrong = build.stating(base, 0), build.stating(base, 1)
        images = {join.image_of(*pair) for pair in itertools.product((base, none), repeat=2)}
        self.assertEqual(len(images), 1)
        self.assertEqual(sparse.read_header(*images).checksum, sparse.read_header(base).checksum)
        for good in (base, none):
            self.check(wrong, good, 300, Refusal(11, 24, 1))
            self.check(good, wrong, 300, Refusal(11, 24, 2))
        self.check(wrong, wrong, 300, Refusal(11, 24, 1))

    def test_damaged_images(self) -> None:
        base = cases_sparse.base_image()
        for image, _ in cases_sparse.damaged_cases() + cases_sparse.cut_cases():
            verdict = sparse.judge(image, ROOM)
            if isinstance(verdict, sparse.Refusal):
                self.check(image, base, 120, Refusal(verdict.number, verdict.place, 1))
                self.check(base, image, 120, Refusal(verdict.number, verdict.place, 2))


# Wrong rules, each in the place of a function of the reference.

right_last_written = join.last_written
right_parts_of = join.parts_of
right_image_of = join.image_of
right_own_refusal = compare.own_refusal
right_longest = writer.longest
right_header_bytes = writer.header_bytes


def first_over_second(first: bytes, second: bytes, meeting: Meeting) -> Any:
    """The second followed by the first."""
    if sparse.is_written(meeting.of_first):
        return first, meeting.of_first
    return right_last_written(first, second, meeting)


def second_alone(first: bytes, second: bytes, meeting: Meeting) -> Any:
    """What the first writes and the second does not, kept."""
    found = right_last_written(first, second, meeting)
    return found if sparse.is_written(meeting.of_second) else None


def raw_as_raw(first: bytes, second: bytes, meeting: Meeting) -> Iterator[writer.Part]:
    """Blocks of raw chunks that stay raw, whatever their words."""
    found = right_last_written(first, second, meeting)
    if found is None or found[1].kind == sparse.FILL:
        yield from right_parts_of(first, second, meeting)
        return
    for block in range(meeting.first, meeting.first + meeting.blocks):
        yield writer.Part(sparse.RAW, 1, compare.block_of(*found, block))


def raw_from_chunk_start(first: bytes, second: bytes, meeting: Meeting) -> Iterator[writer.Part]:
    """Raw data from the chunk's first block on, where the meeting begins later."""
    def moved(chunk: sparse.Chunk) -> sparse.Chunk:
        if chunk.kind != sparse.RAW:
            return chunk
        return chunk._replace(first_block=meeting.first)
    of_first, of_second = moved(meeting.of_first), moved(meeting.of_second)
    return right_parts_of(first, second, Meeting(*meeting[:2], of_first, of_second))


def kept_as_zeros(first: bytes, second: bytes, meeting: Meeting) -> Iterator[writer.Part]:
    """Zeros in the blocks that neither image writes."""
    if right_last_written(first, second, meeting) is None:
        yield writer.Part(sparse.FILL, meeting.blocks, bytes(4))
    else:
        yield from right_parts_of(first, second, meeting)


def zeros_as_kept(first: bytes, second: bytes, meeting: Meeting) -> Iterator[writer.Part]:
    """Blocks of zeros kept, which the checksum does not tell."""
    for part in right_parts_of(first, second, meeting):
        is_zeros = part.kind == sparse.FILL and part.data == bytes(4)
        yield writer.Part(sparse.DONT_CARE, part.blocks, b"") if is_zeros else part


def unmerged(*kinds: str) -> Callable[[Any], List[writer.Part]]:
    """Chunks of some kinds that end wherever a part does."""
    def longest(parts: Any) -> List[writer.Part]:
        found: List[writer.Part] = []
        for part in parts:
            is_open = found and found[-1].kind not in kinds
            found[-1:] = right_longest(found[-1:] + [part]) if is_open else found[-1:] + [part]
        return [part for part in found if part.blocks]
    return longest


def fills_of_any_word(parts: Any) -> List[writer.Part]:
    """One chunk of neighbouring fill blocks of other words."""
    found: List[writer.Part] = []
    for part in right_longest(parts):
        if found and part.kind == found[-1].kind:
            found[-1] = found[-1]._replace(blocks=found[-1].blocks + part.blocks)
        else:
            found.append(part)
    return found


def with_empty_chunk(parts: Any) -> List[writer.Part]:
    """An empty chunk where no block is."""
    return right_longest(parts) or [writer.Part(sparse.DONT_CARE, 0, b"")]


def raw_in_parts(parts: Any) -> List[writer.Part]:
    """Raw chunks of at most 255 blocks."""
    found: List[writer.Part] = []
    for part in right_longest(parts):
        if part.kind != sparse.RAW:
            found.append(part)
            continue
        size = len(part.data) // part.blocks
        for at in range(0, len(part.data), 255 * size):
            data = part.data[at:at + 255 * size]
            found.append(writer.Part(sparse.RAW, len(data) // size, data))
    return found


def field_of(which: int, at: int, length: int) -> Callable[[bytes, bytes], bytes]:
    """Joined images that have a field of the file header from one of the two."""
    def image_of(*images: bytes) -> bytes:
        field = images[which][at:at + length]
        return build.with_bytes(right_image_of(*images), at, field)
    return image_of


def reserved_at(image: bytes, block: int) -> bytes:
    """The reserved field of the chunk that has a block."""
    size = sparse.read_header(image).chunk_header_size
    (at,) = (
        chunk.data_at - size for chunk in sparse.chunks_of(image)
        if chunk.first_block <= block < compare.chunk_end(chunk)
    )
    return image[at + 2:at + 4]


def reserved_of(which: int) -> Callable[[bytes, bytes], bytes]:
    """Joined images whose chunks have the reserved field from one of the two."""
    def image_of(*images: bytes) -> bytes:
        image = right_image_of(*images)
        for chunk in sparse.chunks_of(image):
            field = reserved_at(images[which], chunk.first_block)
            image = build.with_bytes(image, chunk.data_at - 10, field)
        return image
    return image_of


def chunks_in_8_bits(first: bytes, second: bytes) -> bytes:
    """The count of chunks cut to 8 bits."""
    return build.with_bytes(right_image_of(first, second), 21, bytes(3))


def raw_blocks_in_8_bits(first: bytes, second: bytes) -> bytes:
    """The count of blocks of each raw chunk cut to 8 bits."""
    image = right_image_of(first, second)
    for chunk in sparse.chunks_of(image):
        if chunk.kind == sparse.RAW:
            image = build.with_bytes(image, chunk.data_at - 7, bytes(3))
    return image


def word_of(part: slice) -> Callable[[bytes], Optional[bytes]]:
    """Blocks of which only a part is looked at."""
    def common_word(block: bytes) -> Optional[bytes]:
        whole = block[:4] * (len(block) // 4)
        return block[:4] if block[part] == whole[part] else None
    return common_word


def with_checksum(change: Callable[[int], int]) -> Callable[..., bytes]:
    """Headers that state another checksum."""
    def header_bytes(parts: List[writer.Part], block_size: int, checksum: int) -> bytes:
        return right_header_bytes(parts, block_size, change(checksum))
    return header_bytes


def limited_at(is_over: Callable[[int], bool]) -> Callable[[bytes], bool]:
    """Another rule for total × block size."""
    return lambda image: is_over(cases_store.total_length(image))


def own_of_larger(first: bytes, second: bytes) -> Optional[Refusal]:
    """17 for too many bytes before the second image's own."""
    own = right_own_refusal(first, 1)
    if own is None and join.is_too_large(first):
        return Refusal(17, 0, 0)
    return own or compare.pair_refusal(first, second)


def matched_by(measure: Callable[[bytes], Any]) -> Callable[[bytes, bytes], Optional[Refusal]]:
    """17 only where one thing differs."""
    def pair_refusal(first: bytes, second: bytes) -> Optional[Refusal]:
        own = right_own_refusal(first, 1) or right_own_refusal(second, 2)
        if own is None and measure(first) != measure(second):
            return Refusal(17, 0, 0)
        return own
    return pair_refusal


def refused_with_zeros(refusal: Refusal, output: bytes) -> Joined:
    """A refusal that clears the output."""
    return Joined(refusal.number, refusal.place, refusal.image, 0, bytes(len(output)))


def bound_of(image: bytes) -> int:
    """The most bytes that a joining of such images takes."""
    size, total = compare.geometry(image)
    return 28 + total * (size + 12)


WRONG_RULES: Tuple[Tuple[Any, str, Callable[..., Any]], ...] = (
    (join, "last_written", first_over_second),
    (join, "last_written", second_alone),
    (join, "parts_of", raw_as_raw),
    (join, "parts_of", raw_from_chunk_start),
    (join, "parts_of", kept_as_zeros),
    (join, "parts_of", zeros_as_kept),
    (writer, "longest", unmerged(sparse.RAW)),
    (writer, "longest", unmerged(sparse.FILL)),
    (writer, "longest", unmerged(sparse.DONT_CARE)),
    (writer, "longest", fills_of_any_word),
    (writer, "longest", with_empty_chunk),
    (writer, "longest", raw_in_parts),
    (join, "image_of", field_of(0, 6, 2)),
    (join, "image_of", field_of(1, 6, 2)),
    (join, "image_of", field_of(0, 8, 4)),
    (join, "image_of", field_of(1, 8, 4)),
    (join, "image_of", reserved_of(0)),
    (join, "image_of", reserved_of(1)),
    (join, "image_of", chunks_in_8_bits),
    (join, "image_of", raw_blocks_in_8_bits),
    (writer, "common_word", lambda block: None),
    (writer, "common_word", word_of(slice(0, 8))),
    (writer, "common_word", word_of(slice(0, -4))),
    (writer, "common_word", word_of(slice(0, -1))),
    (writer, "common_word", word_of(slice(-4, None))),
    (writer, "common_word", word_of(slice(0, 2044))),
    (writer, "header_bytes", with_checksum(lambda checksum: 0)),
    (writer, "header_bytes", with_checksum(lambda checksum: checksum or 1)),
    (join, "is_too_large", limited_at(lambda length: length >= 2**31)),
    (join, "is_too_large", limited_at(lambda length: length > 2**31 + 4)),
    (join, "is_too_large", limited_at(lambda length: length % 2**32 > 2**31)),
    (join, "is_too_large", limited_at(lambda length: length >= 2**32)),
    (join, "is_too_large", lambda image: False),
    (join, "refusal_of", own_of_larger),
    (compare, "own_refusal", lambda image, which: right_own_refusal(image, 1)),
    (compare, "pair_refusal", matched_by(lambda image: image[12:16])),
    (compare, "pair_refusal", matched_by(lambda image: image[16:20])),
    (compare, "pair_refusal", matched_by(cases_store.total_length)),
    (join, "is_too_short", lambda image, room: len(image) >= room),
    (join, "is_too_short", lambda image, room: len(image) > room + 1),
    (join, "is_too_short", lambda image, room: bound_of(image) > room),
    (join, "refused", refused_with_zeros),
    (writer, "output_after", lambda image, output: image + bytes(len(output) - len(image))),
    (writer, "output_after", lambda image, output: (image + b"\0" + output)[:len(output)]),
)


class TestCases(unittest.TestCase):
    """What the vectors try."""

    def test_every_kind_over_every_kind(self) -> None:
        """Either chunk ends first, or both at once."""
        found = set()
        for first, second in accepted_pairs():
            met = compare.meetings(sparse.chunks_of(first), sparse.chunks_of(second))
            for _, _, one, other in met:
                ends = compare.chunk_end(one) - compare.chunk_end(other)
                found.add((one.kind, other.kind, (ends > 0) - (ends < 0)))
        kinds = cases_compare.KINDS
        self.assertEqual(found, set(itertools.product(kinds, kinds, (-1, 0, 1))))

    def test_every_chunk_beside_every_other(self) -> None:
        """Two raw or two kept chunks are never neighbours, fill chunks are."""
        found = set()
        for first, second in accepted_pairs():
            kinds = [chunk.kind for chunk in sparse.chunks_of(join.image_of(first, second))]
            found |= set(zip(kinds, kinds[1:]))
        kinds = [sparse.RAW, sparse.FILL, sparse.DONT_CARE]
        self.assertEqual(found, set(itertools.permutations(kinds, 2)) | {(sparse.FILL,) * 2})

    def test_every_refusal(self) -> None:
        found = set()
        for first, second, room in cases_of_vectors():
            joined = join.join(first, second, bytes(room))
            found.add((joined.number, joined.image))
        own = set(itertools.product((1, 2, 3, 4, 5, 7, 8, 9, 10, 11), (1, 2)))
        self.assertEqual(found, own | {(0, 0), (17, 0), (18, 0)})

    def test_pairs_of_the_comparison(self) -> None:
        """More than half of those that are not random."""
        compared = cases_compare.listed_pairs()
        joined = {(first, second) for first, second, _ in cases_of_vectors()}
        self.assertGreater(2 * len(joined.intersection(compared)), len(compared))

    def test_rooms(self) -> None:
        """Outputs that are short by a few bytes or by many, exact, and longer."""
        found = set()
        for first, second, room in cases_of_vectors():
            if join.refusal_of(first, second) is None:
                found.add(room - len(join.image_of(first, second)))
        self.assertLessEqual(set(range(-16, 5)) | {-28, 9, 40, 100}, found)

    def test_checksums_of_0(self) -> None:
        """Joined images whose true checksum is 0."""
        checksums = [sparse.read_header(join.image_of(*pair)).checksum for pair in accepted_pairs()
                     if sparse.read_header(pair[0]).total_blocks > 0]
        self.assertGreater(checksums.count(0), 30)

    def test_wrong_rules_are_seen(self) -> None:
        right = {case: cases_join.values(case) for case in cases_of_vectors()}
        for i, (module, name, wrong) in enumerate(WRONG_RULES):
            with self.subTest(i), unittest.mock.patch.object(module, name, wrong):
                seen = (cases_join.values(case) != found for case, found in right.items())
                self.assertTrue(any(seen))


if __name__ == "__main__":
    unittest.main()
