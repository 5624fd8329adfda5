"""Holds the reference program against document 01, and 02's change requests 2 to 4 and 6.

Run by `python3 tests/reference/test_reference.py`.
"""

import itertools
import random
import unittest
import unittest.mock
from typing import Callable, Dict, Iterator, List, Optional, Sequence, Set, Tuple

import boot
import build
import cases_sparse
import cases_write
import crc
import fields
import lister
import slots
import sparse
import store
import writer
from cases_common import some_bytes
from slots import Record, Slot
from sparse import Accepted, Refusal

# P2, typed from document 01: block size 4, total 3, fill 1 block, don't care 2.
P2 = bytes.fromhex(
    "3AFF26ED 0100 0000 1C00 0C00 04000000 03000000 02000000 FFFFFFFF"
    "C2CA 0000 01000000 10000000 FFFFFFFF"
    "C3CA 0000 02000000 0C000000"
)
P1 = bytes.fromhex("3AFF26ED01000000 1C000C0000100000") + bytes(12)
P7 = build.with_bytes(P2, 44, b"\xC5\xCA")
P8 = build.with_bytes(P2, 24, bytes(4))
ZERO_SUM_WORD = bytes.fromhex("9D0AD96D")
OLD = bytes(range(100, 112))


def random_plan(rng: random.Random, block_size: int) -> build.ChunkPlan:
    """A small chunk of any kind, sometimes empty."""
    blocks = rng.randrange(4)
    kind = rng.randrange(4)
    if kind == 0:
        return build.raw(some_bytes(rng, blocks * block_size), block_size)
    if kind == 1:
        return build.fill(some_bytes(rng, 4), blocks)
    if kind == 2:
        return build.skip(blocks)
    other = rng.choice(cases_sparse.OTHER_TYPES)
    return build.unknown(other, blocks, some_bytes(rng, 4 * rng.randrange(4)))


def random_image(rng: random.Random) -> bytes:
    """A small image, often with no checksum stated, now and then one to refuse."""
    block_size = rng.choice([4, 8, 12])
    plans = [random_plan(rng, block_size) for _ in range(rng.randrange(5))]
    image = build.sparse_image(block_size, plans)
    if rng.randrange(5) == 0:
        return image + b"\0"
    if rng.randrange(5) == 0:
        return build.sparse_image(block_size, plans, checksum=rng.getrandbits(32))
    return build.stating(image, 0) if rng.randrange(4) == 0 else image


class TestCrc(unittest.TestCase):
    def test_check_value(self) -> None:
        self.assertEqual(crc.checksum_by_bits(b"123456789"), 0xCBF43926)
        self.assertEqual(crc.checksum(b"123456789"), 0xCBF43926)

    def test_bytes_as_by_bits(self) -> None:
        rng = random.Random(1)
        for length in list(range(70)) + [255, 256, 1000]:
            data = some_bytes(rng, length)
            state = rng.getrandbits(32)
            self.assertEqual(crc.after_bytes(state, data), crc.after_bytes_by_bits(state, data))
            self.assertEqual(crc.checksum(data), crc.checksum_by_bits(data))

    def test_zeros_as_by_bits(self) -> None:
        rng = random.Random(2)
        for count in list(range(140)) + [1000, 4095, 4096, 4097]:
            state = rng.getrandbits(32)
            self.assertEqual(
                crc.after_zeros(state, count), crc.after_bytes_by_bits(state, bytes(count))
            )

    def test_words_as_by_bits(self) -> None:
        rng = random.Random(3)
        for count in list(range(70)) + [255, 256, 1023, 1025]:
            state, word = rng.getrandbits(32), rng.getrandbits(32)
            data = word.to_bytes(4, "little") * count
            self.assertEqual(
                crc.after_words(state, word, count), crc.after_bytes_by_bits(state, data)
            )

    def test_long_runs_add_up(self) -> None:
        rng = random.Random(4)
        for _ in range(100):
            state, word = rng.getrandbits(32), rng.getrandbits(32)
            a, b = rng.getrandbits(46), rng.getrandbits(46)
            zeros = crc.after_zeros(crc.after_zeros(state, a), b)
            self.assertEqual(crc.after_zeros(state, a + b), zeros)
            words = crc.after_words(crc.after_words(state, word, a), word, b)
            self.assertEqual(crc.after_words(state, word, a + b), words)
            self.assertEqual(crc.after_words(state, 0, a), crc.after_zeros(state, 4 * a))

    def test_a_long_run_as_bytes(self) -> None:
        data = b"\x01\x02\x03\x04" * 500_000
        self.assertEqual(crc.after_words(7, 0x04030201, 500_000), crc.after_bytes(7, data))
        self.assertEqual(crc.after_zeros(7, 2_000_001), crc.after_bytes(7, bytes(2_000_001)))


class TestFields(unittest.TestCase):
    def test_read(self) -> None:
        data = b"\x01\x02\x03\x04\x05"
        self.assertEqual(fields.read(data, 0, 2), 0x0201)
        self.assertEqual(fields.read(data, 1, 4), 0x05040302)
        self.assertEqual(fields.read(data, 3, 4), 0x0504)
        self.assertEqual(fields.read(data, 2**64 - 1, 8), 0)

    def test_write(self) -> None:
        data = bytes(5)
        self.assertEqual(fields.written(data, 1, 2, 0x30201), b"\0\x01\x02\0\0")
        self.assertEqual(fields.written(data, 2, 4, 1), data)
        self.assertEqual(fields.written(data, 2**64 - 1, 2, 1), data)


class TestSparseExamples(unittest.TestCase):
    def test_p2(self) -> None:
        self.assertEqual(len(P2), 56)
        self.assertEqual(build.two_chunks(), P2)
        self.assertEqual(sparse.judge(P2, 12), Accepted(1, 2, 0))
        self.assertEqual(store.store(P2, OLD), (Accepted(1, 2, 0), b"\xFF" * 4 + OLD[4:]))

    def test_p3(self) -> None:
        self.assertEqual(sparse.judge(P2, 11), Refusal(6, 0))

    def test_p4_p5(self) -> None:
        self.assertEqual(sparse.judge(build.with_bytes(P2, 16, b"\x04"), 16), Refusal(9, 56))
        self.assertEqual(sparse.judge(build.with_bytes(P2, 16, b"\x02"), 12), Refusal(9, 44))

    def test_p6(self) -> None:
        self.assertEqual(sparse.judge(P2 + b"\0", 12), Refusal(10, 56))

    def test_p7(self) -> None:
        """02, CR 3: "But for these counts P7 stays as P2"."""
        self.assertEqual(build.two_chunks(second_type=0xCAC5), P7)
        for length in (12, 13, 2**64 - 1):
            self.assertEqual(sparse.judge(P7, length), Accepted(1, 0, 2))
        for length in (0, 11):
            self.assertEqual(sparse.judge(P7, length), sparse.judge(P2, length))
        self.assertEqual(store.store(P7, OLD), (Accepted(1, 0, 2), b"\xFF" * 4 + OLD[4:]))
        for limit in (0, 1, 2, 2**64 - 1):
            stored = store.store_limited(P7, OLD, limit)
            expected = store.store_limited(P2, OLD, limit)
            self.assertEqual(stored, expected._replace(verdict=Accepted(1, 0, 2)))
        self.assertEqual(store.cut_state(P7, OLD, 0, b"??"), b"??" + OLD[2:])

    def test_p8(self) -> None:
        """02, CR 2: "P8 becomes an acceptance equal to P2"."""
        self.assertEqual(build.two_chunks(checksum=0), P8)
        for length in (11, 12, 13, 2**64 - 1):
            self.assertEqual(sparse.judge(P8, length), sparse.judge(P2, length))
        self.assertEqual(store.store(P8, OLD), (Accepted(1, 2, 0), b"\xFF" * 4 + OLD[4:]))
        for limit in (0, 1, 2, 2**64 - 1):
            stored = store.store_limited(P8, OLD, limit)
            self.assertEqual(stored, store.store_limited(P2, OLD, limit))
        self.assertEqual(store.cut_state(P8, OLD, 0, b"??"), b"??" + OLD[2:])


class TestSparseRefusals(unittest.TestCase):
    """Each number with its place, and the order of the tests."""

    def check(self, image: bytes, number: int, place: int, length: int = 12) -> None:
        verdict = Refusal(number, place)
        self.assertEqual(sparse.judge(image, length), verdict)
        partition = bytes(range(length))
        self.assertEqual(store.store(image, partition), (verdict, partition))
        limited = store.store_limited(image, partition, 1)
        self.assertEqual(limited, store.Stored(verdict, 0, partition))

    def test_header(self) -> None:
        self.check(b"", 1, 0)
        self.check(P2[:27], 1, 0)
        self.check(build.two_chunks(magic=0xED26FF3B), 2, 0)
        for major in (0, 2, 0x101):
            self.check(build.two_chunks(major=major), 3, 0)
        for size in (0, 24, 27, 29, 30, 60, 65532, 65535):
            self.check(build.with_bytes(P2, 8, size.to_bytes(2, "little")), 4, 0)
        for size in (0, 8, 11, 13, 14):
            self.check(build.two_chunks(chunk_header_size=size), 4, 0)
        for size in (0, 2, 5, 6, 65540, 65537, 2**32 - 4):
            self.check(build.with_bytes(P2, 12, size.to_bytes(4, "little")), 5, 0)

    def test_header_is_passed_over(self) -> None:
        for file_size, chunk_size in ((32, 12), (28, 16), (400, 40), (65532, 12)):
            image = build.two_chunks(file_header_size=file_size, chunk_header_size=chunk_size)
            self.assertEqual(sparse.judge(image, 12), Accepted(1, 2, 0))
            self.assertEqual(store.store(image, OLD)[1], b"\xFF" * 4 + OLD[4:])
        self.assertEqual(sparse.judge(build.two_chunks(minor=65535), 12), Accepted(1, 2, 0))

    def test_bytes_left(self) -> None:
        for length in range(28, 40):
            self.check(P2[:length], 7, 28)
        for length in range(40, 44):
            self.check(P2[:length], 7, 28)
        for length in range(44, 56):
            self.check(P2[:length], 7, 44)
        self.check(build.two_chunks(total_chunks=3), 7, 56)
        wide = build.two_chunks(chunk_header_size=16)
        self.check(wide[:28 + 15], 7, 28)
        self.check(wide[:48 + 15], 7, 48)
        self.check(build.with_bytes(wide, 56, b"\x0C")[:48 + 15], 7, 48)

    def test_total_size(self) -> None:
        for size in (0, 12, 15, 17, 20):
            self.check(build.with_bytes(P2, 36, bytes([size])), 8, 28)
        for size in (0, 8, 11, 13, 16):
            self.check(build.with_bytes(P2, 52, bytes([size])), 8, 44)
        other = build.two_chunks(second_type=0xCAC5)
        for size in (0, 8, 11, 13, 14):
            self.check(build.with_bytes(other, 52, bytes([size])), 8, 44)
        self.check(build.with_bytes(other, 52, bytes([16])), 7, 44)
        wide = build.two_chunks(second_type=0xCAC5, chunk_header_size=16)
        self.check(build.with_bytes(wide, 56, b"\x0C"), 8, 48)
        raw = build.sparse_image(4, [build.raw(b"abcdefgh", 4)])
        for size in (12, 16, 19, 21, 24):
            self.check(build.with_bytes(raw, 36, bytes([size])), 8, 28)

    def test_sum(self) -> None:
        self.check(build.two_chunks(total_blocks=2), 9, 44)
        self.check(build.two_chunks(total_blocks=0), 9, 28)
        self.check(build.two_chunks(total_blocks=4), 9, 56, 16)
        self.check(build.sparse_image(4, [], total_blocks=1), 9, 28)

    def test_end(self) -> None:
        self.check(P2 + b"\0", 10, 56)
        self.check(build.two_chunks(total_chunks=0, total_blocks=0), 10, 28)
        for checksum in (1, 0x100, 0x10000, 0x80000000, 0xFFFFFFFE):
            self.check(build.two_chunks(checksum=checksum), 11, 24)

    def test_order_of_header_tests(self) -> None:
        image = bytearray(P2)
        image[12] = 5
        self.check(bytes(image), 5, 0, 0)
        image[10] = 13
        self.check(bytes(image), 4, 0, 0)
        image[4] = 2
        self.check(bytes(image), 3, 0, 0)
        image[0] = 0
        self.check(bytes(image), 2, 0, 0)
        self.check(bytes(image[:27]), 1, 0, 0)
        self.check(build.with_bytes(P2, 28, b"\xC1"), 6, 0, 11)

    def test_order_of_chunk_tests(self) -> None:
        short_and_wrong = build.with_bytes(P2, 52, b"\x10")
        self.check(short_and_wrong[:55], 7, 44)
        self.check(short_and_wrong, 8, 44)
        far = build.two_chunks(second_type=0xCAC5, total_blocks=2)
        self.check(build.with_bytes(far, 52, b"\x10"), 7, 44)
        self.check(build.with_bytes(far, 52, b"\x0E"), 8, 44)
        self.check(build.two_chunks(total_blocks=0, total_chunks=3), 9, 28)
        self.check(build.with_bytes(far, 36, b"\x0C"), 8, 28)

    def test_order_at_the_end(self) -> None:
        for checksum in (0, 1):
            short = build.two_chunks(total_blocks=4, checksum=checksum)
            self.check(short + b"\0", 9, 56, 16)
            self.check(build.two_chunks(checksum=checksum) + b"\0", 10, 56)

    def test_empty(self) -> None:
        self.assertEqual(sparse.judge(build.sparse_image(4, []), 0), Accepted(0, 0, 0))
        self.check(build.sparse_image(4, [], checksum=1), 11, 24)
        plans = [build.raw(b"", 4), build.fill(b"abcd", 0), build.skip(0), build.unknown(7, 0)]
        self.assertEqual(sparse.judge(build.sparse_image(4, plans), 0), Accepted(0, 0, 0))


class TestNoneStated(unittest.TestCase):
    """02, CR 2: "in all forms, 0 means that none is stated"."""

    def true_one(self, image: bytes) -> int:
        """The checksum of what an image stores on zeros: skipped blocks count as zeros."""
        header = sparse.read_header(image)
        length = header.total_blocks * header.block_size
        return crc.checksum_by_bits(store.last_given([image], bytes(length)))

    def check(self, image: bytes) -> None:
        """An image that states 0 is as the same with the true checksum; 1 is refused."""
        header = sparse.read_header(image)
        self.assertEqual(header.checksum, 0)
        room = header.total_blocks * header.block_size
        old = bytes((37 + 11 * i) % 256 for i in range(room + 5))
        right = build.stating(image, self.true_one(image))
        for limit in range(room + 1):
            stored = store.store_limited(image, old, limit)
            self.assertEqual(stored, store.store_limited(right, old, limit))
            self.assertIsInstance(stored.verdict, Accepted)
        for length in (room, max(0, room - 1)):
            self.assertEqual(sparse.judge(image, length), sparse.judge(right, length))
        self.assertEqual(store.store(image, old), store.store(right, old))
        self.assertEqual(lister.listing(image), lister.listing(right))
        wrong = build.stating(image, 1)
        self.assertEqual(store.store(wrong, old), (Refusal(11, 24), old))
        self.assertEqual(lister.listing(wrong), "refused 11 at 24\n")

    def test_every_kind_of_chunk(self) -> None:
        for sizes in ((28, 12), (28, 16), (32, 12), (100, 40)):
            for image in cases_sparse.none_stated_images(*sizes):
                self.check(image)

    def test_a_true_one_that_is_0(self) -> None:
        self.assertEqual(crc.checksum_by_bits(ZERO_SUM_WORD), 0)
        self.assertEqual(crc.checksum_by_bits(b""), 0)
        for image in cases_sparse.zero_sum_images():
            self.assertEqual(self.true_one(image), 0)
            self.check(image)
        for plan in (build.raw(ZERO_SUM_WORD, 4), build.fill(ZERO_SUM_WORD, 1)):
            image = build.sparse_image(4, [plan])
            stored = store.store(image, OLD)
            self.assertEqual(stored, (Accepted(1, 0, 0), ZERO_SUM_WORD + OLD[4:]))
            self.check(image)

    def test_any_data(self) -> None:
        image = build.sparse_image(4, [build.raw(b"abcd", 4), build.fill(b"wxyz", 1)], checksum=0)
        for at in (40, 41, 42, 43, 56, 57, 58, 59):
            self.check(build.with_bytes(image, at, b"!"))

    def test_long_runs(self) -> None:
        for image in cases_sparse.wide_zero_images():
            verdict = sparse.judge(image, 2**48)
            self.assertIsInstance(verdict, Accepted)
            self.assertEqual(sparse.judge(build.stating(image, 1), 2**48), Refusal(11, 24))

    def test_earlier_refusals(self) -> None:
        image = build.two_chunks(checksum=0)
        for damaged in (image[:27], image[:55], image + b"\0", build.with_bytes(image, 52, b"\x10")):
            verdict = sparse.judge(damaged, 12)
            self.assertIsInstance(verdict, Refusal)
            self.assertEqual(sparse.judge(build.stating(damaged, 0xFFFFFFFF), 12), verdict)

    def test_no_checksum_is_worked_out(self) -> None:
        with unittest.mock.patch("sparse.image_checksum", side_effect=AssertionError):
            self.assertEqual(sparse.judge(P8, 12), Accepted(1, 2, 0))
            self.assertRaises(AssertionError, sparse.judge, P2, 12)


WORDS = {0xCAC1: "raw", 0xCAC2: "fill", 0xCAC3: "skip"}


class TestCounts(unittest.TestCase):
    """02, CR 3: "three counts whose sum is the total: written, don't care, unknown"."""

    def listing(self, block_size: int, plans: Sequence[build.ChunkPlan]) -> str:
        """What the lister prints for some chunks."""
        first = 0
        text = ""
        for plan in plans:
            text += f"{first} {WORDS.get(plan.type, 'unknown')} {plan.blocks}\n"
            first += plan.blocks
        written, dont_care, unknown = build.planned_counts(plans)
        head = f"block {block_size} total {first} chunks {len(plans)}\n"
        return head + text + f"ok written {written} skipped {dont_care} unknown {unknown}\n"

    def check(self, block_size: int, plans: Sequence[build.ChunkPlan], **given: int) -> Accepted:
        """Each count is what the chunks of its kinds hold, in every form."""
        image = build.sparse_image(block_size, plans, **given)
        counts = Accepted(*build.planned_counts(plans))
        total = sparse.read_header(image).total_blocks
        self.assertEqual(counts.written + counts.dont_care + counts.unknown, total)
        self.assertEqual(sparse.judge(image, total * block_size), counts)
        old = bytes((37 + 11 * i) % 256 for i in range(total * block_size + 5))
        self.assertEqual(store.store(image, old)[0], counts)
        for limit in (0, 1, counts.written, counts.written + 1):
            stored = store.store_limited(image, old, limit)
            self.assertEqual(stored.verdict, counts)
            self.assertEqual(stored.count, min(limit, counts.written))
        self.assertEqual(lister.listing(image), self.listing(block_size, plans))
        return counts

    def test_random_images(self) -> None:
        rng = random.Random(8)
        for _ in range(300):
            block_size = rng.choice([4, 8, 12])
            plans = [random_plan(rng, block_size) for _ in range(rng.randrange(9))]
            self.check(block_size, plans, chunk_header_size=rng.choice([12, 16]))

    def test_all_kinds_in_every_order(self) -> None:
        for plans in cases_sparse.ordered_plans():
            self.assertEqual(self.check(4, plans), Accepted(5, 4, 7))
        for image in cases_sparse.ordered_images():
            self.assertEqual(sparse.judge(image, 64), Accepted(5, 4, 7))

    def test_every_type(self) -> None:
        kinds = {0xCAC1: sparse.RAW, 0xCAC2: sparse.FILL, 0xCAC3: sparse.DONT_CARE}
        for chunk_type in range(65536):
            kind = kinds.get(chunk_type, sparse.UNKNOWN)
            self.assertEqual(sparse.chunk_kind(chunk_type), kind)

    def test_types_near_the_known_ones(self) -> None:
        counts = [sparse.judge(image, 1000) for image in cases_sparse.near_images()]
        self.assertEqual(counts, [Accepted(1, 2, 120), Accepted(1, 2, 120), Accepted(1, 2, 105)])

    def test_a_chunk_says_whether_its_type_is_known(self) -> None:
        image = build.sparse_image(8, cases_sparse.KIND_PLANS)
        kinds = ["raw", "fill", "don't care", "unknown", "raw", "fill", "don't care", "unknown"]
        self.assertEqual([chunk.kind for chunk in sparse.chunks_of(image)], kinds)
        for other in cases_sparse.OTHER_TYPES + (0x4AC3, 0xCAC9):
            chunks = sparse.chunks_of(build.two_chunks(second_type=other))
            self.assertEqual([chunk.kind for chunk in chunks], ["fill", "unknown"])

    def test_data_and_empty_ones(self) -> None:
        data = b"data" * 9
        for other in cases_sparse.OTHER_TYPES:
            for length in (0, 4, 8, 36):
                unknown = build.unknown(other, 3, data[:length])
                empty = build.unknown(other, 0, data[:length])
                self.assertEqual(self.check(4, [unknown]), Accepted(0, 0, 3))
                self.assertEqual(self.check(4, [empty]), Accepted(0, 0, 0))
                plans = [empty, build.skip(2), unknown, build.raw(b"abcd", 4), empty, unknown]
                self.assertEqual(self.check(4, plans), Accepted(1, 2, 6))

    def test_only_the_type_differs(self) -> None:
        """Any unknown type is as don't care, but for the counts."""
        for other in cases_sparse.OTHER_TYPES:
            image = build.two_chunks(second_type=other)
            self.assertEqual(store.store(image, OLD), store.store(P7, OLD))
            self.assertEqual(lister.listing(image), lister.listing(P7))
            for damaged, length in ((image + b"\0", 12), (image[:55], 12), (image, 11)):
                known = build.with_bytes(damaged, 44, b"\xC3\xCA")
                self.assertEqual(sparse.judge(damaged, length), sparse.judge(known, length))

    def test_many_blocks(self) -> None:
        found = []
        for image in cases_sparse.wide_count_images():
            verdict = sparse.judge(image, 2**48)
            assert isinstance(verdict, Accepted)
            found.append((verdict.written, verdict.dont_care, verdict.unknown))
            self.assertEqual(sum(found[-1]), 2**32 - 1)
        self.assertEqual(len(set(found)), 18)
        for counts in ((1, 2, 2**32 - 4), (2**31, 2**30, 2**30 - 1), (0, 2**16, 2**32 - 65537)):
            self.assertLessEqual(set(itertools.permutations(counts)), set(found))


class TestWideNumbers(unittest.TestCase):
    """The mistake "Multiplying blocks by block size in 32 bits": none of these may wrap."""

    def test_partition_too_short(self) -> None:
        for blocks, size in ((0x40000000, 4), (0x10000, 65536), (0x40000001, 4)):
            image = build.sparse_image(size, [build.skip(blocks)])
            self.assertEqual(sparse.judge(image, 4096), Refusal(6, 0))
            self.assertEqual(sparse.judge(image, blocks * size - 1), Refusal(6, 0))
            self.assertEqual(sparse.judge(image, blocks * size), Accepted(0, blocks, 0))

    def test_raw_product(self) -> None:
        for blocks, size, stated in (
            (0x40000000, 4, 12),
            (0x40000001, 4, 16),
            (0x10000, 65536, 12),
            (0x3FFFFFFF, 4, 8),
        ):
            plan = build.ChunkPlan(0xCAC1, blocks, b"abcd", stated)
            image = build.sparse_image(size, [plan], total_blocks=0xFFFFFFFF, checksum=0)
            self.assertEqual(sparse.judge(image, 2**64 - 1), Refusal(8, 28))

    def test_raw_longer_than_the_image(self) -> None:
        plan = build.ChunkPlan(0xCAC1, 0x3FFFFFFC, b"abcd", 0xFFFFFFFC)
        image = build.sparse_image(4, [plan], checksum=0)
        self.assertEqual(sparse.judge(image, 2**64 - 1), Refusal(7, 28))

    def test_sum_of_blocks(self) -> None:
        plans = [build.skip(3), build.skip(0xFFFFFFFF)]
        image = build.sparse_image(4, plans, total_blocks=5, checksum=0)
        self.assertEqual(sparse.judge(image, 20), Refusal(9, 40))

    def test_largest(self) -> None:
        image = build.sparse_image(65536, [build.fill(b"wxyz", 0xFFFFFFFF)])
        self.assertEqual(sparse.judge(image, 2**48), Accepted(0xFFFFFFFF, 0, 0))


class TestMistakes(unittest.TestCase):
    """The section "Mistakes we have met", but for the multiplication above."""

    def test_skipped_blocks_keep_their_bytes(self) -> None:
        plans = [build.skip(1), build.raw(b"abcd", 4), build.unknown(9, 1, b"zzzz")]
        image = build.sparse_image(4, plans)
        after = OLD[:4] + b"abcd" + OLD[8:]
        self.assertEqual(store.store(image, OLD), (Accepted(1, 1, 1), after))

    def test_wrong_checksum_stores_nothing(self) -> None:
        image = build.two_chunks(checksum=1)
        self.assertEqual(store.store(image, OLD), (Refusal(11, 24), OLD))

    def test_fault_in_a_later_chunk_stores_nothing(self) -> None:
        for image in (P2[:50], P2 + b"\0", build.two_chunks(total_blocks=2)):
            self.assertEqual(store.store(image, OLD)[1], OLD)

    def test_modified_keeps_unbootable(self) -> None:
        a, b = Slot(True, False, True, False, 3), Slot(True, True, False, False, 0)
        record = record_of((a, b, UNUSED, UNUSED), 0)
        answer, after = slots.modified(record, 1)
        self.assertEqual(answer, slots.Done())
        self.assertEqual(after.slots[1], Slot(True, True, False, False, 3))
        active = slots.set_active(record, 1)[1]
        self.assertEqual(active.slots[1], Slot(True, False, False, False, 3))

    def test_successful_slot_keeps_its_tries(self) -> None:
        for tries in range(8):
            record = record_of((Slot(True, False, True, False, tries),) + (UNUSED,) * 3, 0)
            self.assertEqual(slots.start(record), (slots.Boots(0), record))
        a, b = Slot(True, False, False, False, 0), Slot(True, False, True, False, 2)
        answer, after = slots.start(record_of((a, b, UNUSED, UNUSED), 0))
        self.assertEqual((answer, after.slots[1].tries), (slots.Boots(1), 2))


class TestStore(unittest.TestCase):
    def test_limits(self) -> None:
        plans = [build.fill(b"wxyz", 2), build.skip(1), build.raw(b"abcdefgh", 4)]
        image = build.sparse_image(4, plans)
        old = bytes(range(24))
        new = [b"wxyz", b"wxyz", old[8:12], b"abcd", b"efgh", old[20:]]
        for limit, last in enumerate((0, 1, 2, 4, 5)):
            stored = store.store_limited(image, old, limit)
            expected = b"".join(new[:last]) + old[4 * last:]
            self.assertEqual(stored, store.Stored(Accepted(4, 1, 0), limit, expected))
        for limit in (4, 5, 2**64):
            stored = store.store_limited(image, old, limit)
            self.assertEqual(stored, store.Stored(Accepted(4, 1, 0), 4, b"".join(new)))
        torn = store.cut_state(image, old, 2, b"????")
        self.assertEqual(torn, b"wxyzwxyz" + old[8:12] + b"????" + old[16:])
        self.assertEqual(store.cut_state(image, old, 4, b"????"), b"".join(new))

    def test_store_gives_each_byte(self) -> None:
        rng = random.Random(5)
        for _ in range(200):
            image = random_image(rng)
            partition = some_bytes(rng, rng.randrange(100))
            verdict, after = store.store(image, partition)
            self.assertEqual(verdict, sparse.judge(image, len(partition)))
            self.assertEqual(after, store.last_given([image], partition))


class TestDemand3(unittest.TestCase):
    """A list, any cuts, then a full run: as one full run on the original."""

    def random_cuts(self, rng: random.Random, images: Sequence[bytes]) -> List[store.Cut]:
        cuts = []
        for _ in range(rng.randrange(6)):
            torn = some_bytes(rng, rng.choice([0, 5, 12]))
            cuts.append(store.Cut(rng.randrange(len(images) + 1), rng.randrange(10), torn))
        return cuts

    def check_moment(self, images: Sequence[bytes], original: bytes, moment: bytes) -> None:
        """Demand 3: "bytes that no accepted image in the list stores are the original ones"."""
        given = [store.bytes_given(image, len(original)) for image in images]
        for at, byte in enumerate(original):
            if all(image_bytes[at] is None for image_bytes in given):
                self.assertEqual(moment[at], byte)

    def test_random_lists(self) -> None:
        rng = random.Random(6)
        for _ in range(150):
            images = [random_image(rng) for _ in range(rng.randrange(5))]
            original = some_bytes(rng, rng.randrange(90))
            cuts = self.random_cuts(rng, images)
            moments = store.cut_runs(images, original, cuts)
            verdicts, left = store.full_run(images, original)
            last = moments[-1] if moments else original
            self.assertEqual(store.full_run(images, last), (verdicts, left))
            self.assertEqual(left, store.last_given(images, original))
            for moment in moments + [left]:
                self.check_moment(images, original, moment)

    def test_every_moment_of_one_list(self) -> None:
        first = build.sparse_image(4, [build.fill(b"wxyz", 2), build.skip(1)])
        second = build.sparse_image(4, [build.skip(1), build.raw(b"abcd", 4)])
        images = [first, P2 + b"\0", second]
        original = bytes(range(20, 36))
        full = store.full_run(images, original)
        self.assertEqual(full[1], b"wxyzabcd" + original[8:])
        torn = (b"", b"??", b"????")
        cuts = [store.Cut(i, n, t) for i in range(4) for n in range(3) for t in torn]
        for one in cuts:
            for other in cuts:
                last = store.cut_runs(images, original, [one, other])[-1]
                self.check_moment(images, original, last)
                self.assertEqual(store.full_run(images, last), full)


class TestWriter(unittest.TestCase):
    def test_p1(self) -> None:
        self.assertEqual(writer.write(b"", 4096, bytes(28)), writer.Written(0, 28, P1))
        self.assertEqual(len(P1), 28)

    def test_p9(self) -> None:
        flat = b"\xFF" * 4 + bytes(12)
        image = bytes.fromhex(
            "3AFF26ED 0100 0000 1C00 0C00 08000000 02000000 02000000 FFFFFFFF"
            "C1CA 0000 01000000 14000000 FFFFFFFF 00000000"
            "C2CA 0000 01000000 10000000 00000000"
        )
        self.assertEqual(len(image), 64)
        self.assertEqual(writer.write(flat, 8, bytes(64)), writer.Written(0, 64, image))
        longer = writer.write(flat, 8, bytes(64) + b"kept")
        self.assertEqual(longer, writer.Written(0, 64, image + b"kept"))
        short = b"\x07" * 63
        self.assertEqual(writer.write(flat, 8, short), writer.Written(12, 0, short))

    def test_refusals(self) -> None:
        for block_size in (0, 2, 5, 65540):
            self.assertEqual(writer.write(b"abc", block_size, b""), writer.Written(5, 0, b""))
        self.assertEqual(writer.write(b"abc", 4, b"x"), writer.Written(13, 0, b"x"))
        self.assertEqual(writer.write(b"abcd", 8, b"x"), writer.Written(13, 0, b"x"))
        self.assertEqual(writer.write(b"abcd", 4, b"x"), writer.Written(12, 0, b"x"))
        self.assertEqual(writer.flat_number(2_147_483_648, 4), 0)
        self.assertEqual(writer.flat_number(2_147_483_652, 4), 13)

    def test_runs(self) -> None:
        flat = b"aaaaaaaa" * 2 + b"bbbbbbbb" + b"abcdefgh" * 2 + b"bbbbbbbb"
        kinds = [(chunk.kind, chunk.blocks) for chunk in sparse.chunks_of(writer.image_of(flat, 8))]
        self.assertEqual(
            kinds, [("fill", 2), ("fill", 1), ("raw", 2), ("fill", 1)]
        )
        one_word = writer.image_of(b"abcdefghefgh", 4)
        kinds = [(chunk.kind, chunk.blocks) for chunk in sparse.chunks_of(one_word)]
        self.assertEqual(kinds, [("fill", 1), ("fill", 2)])

    def test_round_trip(self) -> None:
        rng = random.Random(7)
        for _ in range(200):
            block_size = rng.choice([4, 8, 16])
            flat = b"".join(
                rng.choice([bytes(block_size), b"\x05" * block_size, some_bytes(rng, block_size)])
                for _ in range(rng.randrange(12))
            )
            written = writer.write(flat, block_size, bytes(600))
            image = written.output[:written.length]
            partition = some_bytes(rng, len(flat) + rng.randrange(9))
            verdict, after = store.store(image, partition)
            self.assertEqual(verdict, Accepted(len(flat) // block_size, 0, 0))
            self.assertEqual(after, flat + partition[len(flat):])

    def test_a_true_checksum_of_0(self) -> None:
        """02, CR 2: "Our writer goes on stating the true one"."""
        for block_size, _, flat in cases_write.zero_sum_cases() + [cases_write.Case(4, 0, b"")]:
            self.assertEqual(crc.checksum(flat), 0)
            image = writer.image_of(flat, block_size)
            self.assertEqual(sparse.read_header(image).checksum, 0)
            old = b"\x5C" * (len(flat) + 3)
            verdict = Accepted(len(flat) // block_size, 0, 0)
            self.assertEqual(store.store(image, old), (verdict, flat + old[len(flat):]))
            self.assertEqual(store.store(build.stating(image, 1), old), (Refusal(11, 24), old))


class TestBoot(unittest.TestCase):
    def check(self, image: bytes, number: int) -> None:
        self.assertEqual(boot.locate(image), boot.Refusal(number))

    def located(self, image: bytes) -> boot.Located:
        located = boot.locate(image)
        assert isinstance(located, boot.Located)
        return located

    def positions(self, image: bytes) -> List[int]:
        return [section.position for section in self.located(image).sections]

    def test_p10(self) -> None:
        image = build.boot_image(3, 12289, kernel=4097, ramdisk=1)
        sections = [boot.Section("kernel", 4096, 4097), boot.Section("ramdisk", 12288, 1)]
        self.assertEqual(boot.locate(image), boot.Located(3, sections, False))
        self.check(image[:12288], 26)

    def check_p11(self, second: int, after: int) -> None:
        """P11, or with a second section of a size: what comes after it stands at a position, and
        all that is said of it is whether it is present."""
        image = build.boot_image(2, after + 1, kernel=2048, ramdisk=1, second=second, dtb=1)
        sections = [
            boot.Section("kernel", 2048, 2048),
            boot.Section("ramdisk", 4096, 1),
            boot.Section("recovery", after, 0),
            boot.Section("dtb", after, 1),
        ]
        self.assertEqual(boot.locate(image), boot.Located(2, sections, second != 0))
        self.check(image[:after], 26)

    def test_p11(self) -> None:
        self.check_p11(0, 6144)

    def test_retired_section(self) -> None:
        self.check_p11(1, 8192)
        self.check_p11(2048, 8192)
        self.check_p11(2049, 10240)

    def test_retired_section_takes_its_room(self) -> None:
        for version, second in itertools.product((1, 2), (0, 1, 2047, 2048, 2049, 9000)):
            room = -(-second // 2048) * 2048
            sizes = dict(kernel=2048, ramdisk=1, second=second, recovery=3)
            right = build.boot_image(version, 6147 + room, recovery_offset=6144 + room, **sizes)
            located = self.located(right)
            self.assertEqual(located.retired, second != 0)
            self.assertEqual(located.sections[2], boot.Section("recovery", 6144 + room, 3))
            if second != 0:
                self.check(build.with_bytes(right, 1636, (6144).to_bytes(8, "little")), 27)

    def test_retired_section_past_the_input(self) -> None:
        for version in range(3):
            image = build.boot_image(version, 6146, kernel=2048, ramdisk=1, second=2)
            self.assertTrue(self.located(image).retired)
            self.check(image[:6145], 26)
            self.check(build.with_bytes(image, 24, b"\xFF" * 4), 26)
            self.assertFalse(self.located(build.with_bytes(image[:4097], 24, bytes(4))).retired)

    def test_no_retired_section_in_new_versions(self) -> None:
        """Where older versions have the size of the second section, versions 3 and 4 have a
        reserved field."""
        for version, field in itertools.product((3, 4), (1, 4096, 2**31, 2**32 - 1)):
            image = build.boot_image(version, 8197, kernel=9, ramdisk=5, filler=0xEE)
            other = build.with_bytes(image, 24, field.to_bytes(4, "little"))
            self.assertFalse(self.located(other).retired)
            self.assertEqual(self.located(other), self.located(image))
            self.check(other[:8196], 26)

    def test_offered_sections(self) -> None:
        """Those of 01's table in every version, but for the second, whether that is empty or not."""
        names = (
            ["kernel", "ramdisk"],
            ["kernel", "ramdisk", "recovery"],
            ["kernel", "ramdisk", "recovery", "dtb"],
            ["kernel", "ramdisk"],
            ["kernel", "ramdisk", "signature"],
        )
        for version, second in itertools.product(range(5), (0, 1)):
            located = self.located(build.boot_image(version, 9000, second=second))
            self.assertEqual([section.name for section in located.sections], names[version])

    def test_lengths(self) -> None:
        for version, length in enumerate((1632, 1648, 1660, 1580, 1584)):
            image = build.boot_image(version, length, filler=0xEE)
            self.assertEqual(len(build.boot_header(build.BootPlan(version))), length)
            self.assertIsInstance(boot.locate(image), boot.Located)
            self.check(image[:length - 1], 21)
            self.check(image[:44], 21)
            self.check(image[:43], 21)
        self.check(b"", 21)

    def test_magic_and_version(self) -> None:
        for at in range(8):
            self.check(build.with_bytes(build.boot_image(0, 1632), at, b"\xFF"), 22)
        for version in (5, 0x100, 0x10000, 0xFFFFFFFF):
            image = build.with_bytes(build.boot_image(0, 1632), 40, version.to_bytes(4, "little"))
            self.check(image, 23)

    def test_header_size(self) -> None:
        for version in range(1, 5):
            for size in (0, 1632, 1661, 0x10000 + build.HEADER_LENGTHS[version]):
                self.check(build.boot_image(version, 2000, header_size=size), 24)

    def test_page_size(self) -> None:
        for version in range(3):
            for page in (0, 1, 1024, 3072, 6144, 32768, 2**31, 2**32 - 1):
                self.check(build.boot_image(version, 2000, page=page), 25)
            for page in (2048, 4096, 8192, 16384):
                image = build.boot_image(version, 2000, page=page)
                self.assertEqual(self.positions(image), [page] * (version + 2))

    def test_recovery_offset(self) -> None:
        image = build.boot_image(1, 10000, kernel=5, recovery=7, recovery_offset=4096)
        self.assertEqual(self.positions(image), [2048, 4096, 4096])
        for at in range(1636, 1644):
            self.check(build.with_bytes(image, at, bytes([image[at] ^ 1])), 27)
        unread = build.boot_image(1, 10000, kernel=5, recovery_offset=9)
        self.assertIsInstance(boot.locate(unread), boot.Located)

    def test_wide_positions(self) -> None:
        sizes = dict(kernel=2**32 - 1, ramdisk=2**32 - 1, second=2**32 - 1)
        at = 2048 + 3 * 2**32
        self.check(build.boot_image(2, 9000, recovery=1, recovery_offset=at, **sizes), 26)
        low = at % 2**32
        self.check(build.boot_image(2, 9000, recovery=1, recovery_offset=low, **sizes), 27)
        self.check(build.boot_image(3, 9000, kernel=2**32 - 4096), 26)

    def farthest(self, pages: Sequence[int], sizes: Sequence[int]) -> int:
        """The farthest position in any version, with any of the pages and every section of
        one of the sizes."""
        return max(
            section.position
            for row, page, size in itertools.product(boot.TABLE, pages, sizes)
            for section in boot.layout(page, [(name, size) for name, _ in row.size_at])
        )

    def test_positions_in_36_bits(self) -> None:
        """02, CR 9: no header puts a position past 64 bits. 35 are enough where the page keeps
        its rule; where it breaks it, whatever the fields hold, 36 are, and 35 are not."""
        most = 2**32 - 1
        sizes = (0, 1, most - 1, most)
        kept = self.farthest((2048, 4096, 8192, 16384), sizes)
        broken = self.farthest((1, 3, 2**31 + 1, most - 1, most), sizes)
        self.assertEqual((kept, broken), (4 * 2**32 + 16384, 9 * (most - 1)))
        self.assertTrue(kept < 2**35 < broken < 2**36)

    def test_order(self) -> None:
        self.check(build.boot_image(4, 43, magic=b"android!"), 21)
        wrong_version = build.with_bytes(build.boot_image(4, 44), 40, b"\x05")
        self.check(build.with_bytes(wrong_version, 0, b"a"), 22)
        self.check(wrong_version, 23)
        self.check(build.boot_image(1, 1647, header_size=0), 21)
        self.check(build.boot_image(1, 1648, header_size=0, page=0), 24)
        self.check(build.boot_image(1, 1648, page=0, recovery=1), 25)
        self.check(build.boot_image(1, 1648, kernel=1, recovery=1, recovery_offset=1), 27)
        self.check(build.boot_image(1, 1648, kernel=1), 26)


UNUSED = Slot(False, False, False, False, 0)
SlotOperation = Callable[..., Tuple[slots.Answer, Record]]
ON_SLOT: Tuple[SlotOperation, ...] = (slots.set_active, slots.modified, slots.corrupted)
# Used, unbootable, successful, corrupted: the slots that are counted.
COUNTED_FLAGS = ((True, False, False, False), (True, False, True, False))


def record_of(places: Sequence[Slot], current: int) -> Record:
    """A record with the right count."""
    a, b, c, d = places
    return Record((a, b, c, d), current, sum(slot[:4] in COUNTED_FLAGS for slot in places))


def replaced(record: Record, index: int, slot: Slot) -> Record:
    """The record with one place replaced, and the right count."""
    places = record.slots[:index] + (slot,) + record.slots[index + 1:]
    return record_of(places, record.current)


class TestSlots(unittest.TestCase):
    def two(self, a: Slot, b: Slot, current: int = 0) -> Record:
        return record_of((a, b, UNUSED, UNUSED), current)

    def test_p12_p13(self) -> None:
        a, b = Slot(True, False, False, False, 0), Slot(True, False, True, False, 3)
        marked = a._replace(unbootable=True)
        self.assertEqual(
            slots.start(self.two(a, b)), (slots.Boots(1), self.two(marked, b, 1))
        )
        weak = b._replace(successful=False)
        self.assertEqual(
            slots.start(self.two(a, weak)), (slots.Recovery(), self.two(marked, weak))
        )

    def test_p14(self) -> None:
        a = Slot(True, False, False, False, 1)
        spent = a._replace(tries=0)
        self.assertEqual(
            slots.start(self.two(a, UNUSED)), (slots.Boots(0), self.two(spent, UNUSED))
        )

    def test_fresh(self) -> None:
        for number in range(1, 5):
            answer, record = slots.fresh(number)
            self.assertEqual(answer, slots.Done())
            self.assertEqual([slot.used for slot in record.slots], [i < number for i in range(4)])
            self.assertTrue(all(slot[1:] == (False, False, False, 3) for slot in record.slots))
            self.assertEqual(record.current, 0)
            self.assertTrue(slots.is_valid(record))
        for number in (0, 5, 255):
            self.assertEqual(slots.fresh(number), (slots.Refusal(31), Record((UNUSED,) * 4, 0, 0)))

    def test_invalid(self) -> None:
        good = Slot(True, False, False, False, 3)
        for record in (
            self.two(good, good, 2),
            self.two(good, good, 4),
            self.two(good, good, 255),
            self.two(good._replace(tries=8), good),
            self.two(good, good._replace(tries=8)),
            self.two(good, Slot(True, True, True, False, 3)),
        ):
            refused = (slots.Refusal(31), record)
            self.assertEqual(slots.start(record), refused)
            self.assertEqual(slots.confirm(record), refused)
            for slot in (0, 1, 2, 4):
                for operation in ON_SLOT:
                    self.assertEqual(operation(record, slot), refused)

    def test_unused_places_are_ignored_and_kept(self) -> None:
        good, odd = Slot(True, False, False, False, 3), Slot(False, True, True, True, 200)
        record = record_of((odd, good, odd, odd), 1)
        answer, after = slots.start(record)
        self.assertEqual(answer, slots.Boots(1))
        self.assertEqual(after, record_of((odd, good._replace(tries=2), odd, odd), 1))
        strong = Slot(False, False, True, False, 3)
        empty = record_of((strong, good._replace(tries=0), strong, strong), 1)
        self.assertEqual(slots.start(empty)[0], slots.Recovery())

    def test_unbootable_slot_never_starts(self) -> None:
        broken, strong = Slot(True, True, False, False, 3), Slot(True, False, True, False, 0)
        self.assertEqual(
            slots.start(self.two(broken, UNUSED)), (slots.Recovery(), self.two(broken, UNUSED))
        )
        self.assertEqual(
            slots.start(self.two(broken, strong)), (slots.Boots(1), self.two(broken, strong, 1))
        )

    def test_search_is_in_letter_order(self) -> None:
        tired, strong = Slot(True, False, False, False, 0), Slot(True, False, True, False, 0)
        record = record_of((strong, strong, tired, strong), 2)
        self.assertEqual(slots.start(record)[0], slots.Boots(0))
        record = record_of((tired, strong, tired, strong), 2)
        self.assertEqual(slots.start(record)[0], slots.Boots(1))
        record = record_of((tired, tired, tired, strong), 2)
        self.assertEqual(slots.start(record)[0], slots.Boots(3))

    def test_slot_refusals(self) -> None:
        good = Slot(True, False, False, False, 3)
        record = self.two(good, good)
        for slot in (2, 3, 4, 255):
            for operation in ON_SLOT:
                self.assertEqual(operation(record, slot), (slots.Refusal(32), record))

    def test_confirm(self) -> None:
        a, b = Slot(True, False, False, False, 2), Slot(True, True, False, False, 2)
        sure = a._replace(successful=True)
        self.assertEqual(slots.confirm(self.two(a, b)), (slots.Done(), self.two(sure, b)))
        bad = self.two(a, b, 1)
        self.assertEqual(slots.confirm(bad), (slots.Refusal(33), bad))


GOOD = Slot(True, False, False, False, 3)
SURE = GOOD._replace(successful=True)
TIRED = GOOD._replace(tries=0)
DEAD = GOOD._replace(unbootable=True)
CORRUPTED = GOOD._replace(corrupted=True)
CORRUPTED_SURE = SURE._replace(corrupted=True)
CORRUPTED_DEAD = DEAD._replace(corrupted=True)


class TestCorruptedSlots(unittest.TestCase):
    """02, CR 4, sentence by sentence."""

    def test_each_slot_has_the_flag(self) -> None:
        """Whatever else a slot is; it makes no record invalid."""
        for slot in (CORRUPTED, CORRUPTED_SURE, CORRUPTED_DEAD):
            for i in range(4):
                record = replaced(record_of((GOOD,) * 4, 0), i, slot)
                self.assertTrue(slots.is_valid(record))
        self.assertTrue(slots.is_valid(record_of((CORRUPTED_SURE,) * 4, 3)))

    def test_unbootable_and_successful_stays_invalid(self) -> None:
        both = CORRUPTED_SURE._replace(unbootable=True)
        record = record_of((GOOD, both, UNUSED, UNUSED), 0)
        for answer in (slots.start(record), slots.confirm(record), slots.corrupted(record, 0)):
            self.assertEqual(answer, (slots.Refusal(31), record))
        unused = record_of((GOOD, both._replace(used=False), UNUSED, UNUSED), 0)
        self.assertTrue(slots.is_valid(unused))

    def test_successful_current_slot_does_not_start(self) -> None:
        """It is marked, its successful flag clears, corrupted and tries stay."""
        record = record_of((CORRUPTED_SURE, SURE, UNUSED, UNUSED), 0)
        after = record_of((CORRUPTED_DEAD, SURE, UNUSED, UNUSED), 1)
        self.assertEqual(slots.start(record), (slots.Boots(1), after))

    def test_current_slot_with_tries_does_not_start(self) -> None:
        """It loses no try."""
        for tries in range(8):
            slot = CORRUPTED._replace(tries=tries)
            record = record_of((SURE, UNUSED, slot, UNUSED), 2)
            after = record_of((SURE, UNUSED, slot._replace(unbootable=True), UNUSED), 0)
            self.assertEqual(slots.start(record), (slots.Boots(0), after))

    def test_recovery_keeps_the_marks(self) -> None:
        """Without a candidate; started again, the answer is the same and nothing changes."""
        for slot in (CORRUPTED, CORRUPTED_SURE, CORRUPTED_DEAD):
            record = record_of((GOOD, slot, DEAD, UNUSED), 1)
            after = record_of((GOOD, CORRUPTED_DEAD, DEAD, UNUSED), 1)
            self.assertEqual(slots.start(record), (slots.Recovery(), after))
            self.assertEqual(slots.start(after), (slots.Recovery(), after))

    def test_no_candidate_at_each_place(self) -> None:
        """A corrupted successful slot is passed over, and keeps its flags."""
        for current, corrupted in itertools.permutations(range(4), 2):
            places = [SURE] * 4
            places[current], places[corrupted] = TIRED, CORRUPTED_SURE
            answer, after = slots.start(record_of(tuple(places), current))
            places[current] = TIRED._replace(unbootable=True)
            first = next(i for i in range(4) if places[i] == SURE)
            self.assertEqual((answer, after), (slots.Boots(first), record_of(tuple(places), first)))
        record = record_of((CORRUPTED_SURE,) * 3 + (TIRED,), 3)
        self.assertEqual(slots.start(record)[0], slots.Recovery())

    def test_not_current_keeps_its_flags(self) -> None:
        record = record_of((SURE, CORRUPTED_SURE, CORRUPTED, CORRUPTED_DEAD), 0)
        self.assertEqual(slots.start(record), (slots.Boots(0), record))
        self.assertEqual(slots.confirm(record), (slots.Done(), record))

    def test_operation_sets_the_flag_alone(self) -> None:
        """On any slot in use, current or not; where it is set already, it is done again."""
        for slot in (GOOD, SURE, TIRED, DEAD, CORRUPTED, CORRUPTED_SURE, CORRUPTED_DEAD):
            for i, current in itertools.product(range(4), range(4)):
                record = replaced(record_of((GOOD,) * 4, current), i, slot)
                after = replaced(record, i, slot._replace(corrupted=True))
                self.assertEqual(slots.corrupted(record, i), (slots.Done(), after))
                self.assertEqual(slots.corrupted(after, i), (slots.Done(), after))

    def test_set_active_clears_it(self) -> None:
        for slot in (CORRUPTED._replace(tries=0), CORRUPTED_SURE, CORRUPTED_DEAD):
            record = record_of((CORRUPTED_SURE, slot, UNUSED, UNUSED), 0)
            after = record_of((CORRUPTED_SURE, GOOD, UNUSED, UNUSED), 1)
            self.assertEqual(slots.set_active(record, 1), (slots.Done(), after))

    def test_modified_clears_it(self) -> None:
        """But not unbootable."""
        tired = CORRUPTED._replace(tries=0)
        for slot, changed in ((tired, GOOD), (CORRUPTED_SURE, GOOD), (CORRUPTED_DEAD, DEAD)):
            record = record_of((CORRUPTED_SURE, slot, UNUSED, UNUSED), 0)
            after = record_of((CORRUPTED_SURE, changed, UNUSED, UNUSED), 0)
            self.assertEqual(slots.modified(record, 1), (slots.Done(), after))

    def test_confirming_gives_33(self) -> None:
        for slot in (CORRUPTED, CORRUPTED_SURE, CORRUPTED_DEAD):
            record = record_of((GOOD, slot, UNUSED, UNUSED), 1)
            self.assertEqual(slots.confirm(record), (slots.Refusal(33), record))
            broken = record._replace(slots=(GOOD._replace(tries=8),) + record.slots[1:])
            self.assertEqual(slots.confirm(broken), (slots.Refusal(31), broken))

    def test_fresh_record_has_it_clear(self) -> None:
        """In all four places, also beside the refusal."""
        for number in range(7):
            _, record = slots.fresh(number)
            self.assertEqual([slot.corrupted for slot in record.slots], [False] * 4)

    def test_31_then_32(self) -> None:
        valid = record_of((GOOD, UNUSED, CORRUPTED, UNUSED), 2)
        invalid = valid._replace(current=1)
        for slot in (1, 3, 4, 255, 256, 2**32 - 1):
            self.assertEqual(slots.corrupted(valid, slot), (slots.Refusal(32), valid))
        for slot in (0, 1, 2, 3, 4, 255, 256, 2**32 - 1):
            self.assertEqual(slots.corrupted(invalid, slot), (slots.Refusal(31), invalid))

    def test_unused_places_are_ignored_and_kept(self) -> None:
        odd, dead = Slot(False, True, True, True, 200), TIRED._replace(unbootable=True)
        record = record_of((odd, SURE, odd, TIRED), 3)
        after = record_of((odd, SURE, odd, dead), 1)
        self.assertEqual(slots.start(record), (slots.Boots(1), after))
        after = record_of((odd, CORRUPTED_SURE, odd, TIRED), 3)
        self.assertEqual(slots.corrupted(record, 1), (slots.Done(), after))

    def test_a_slot_is_repaired(self) -> None:
        """Corrupted while it runs, given up, written anew, made active, confirmed."""
        _, record = slots.corrupted(record_of((SURE, SURE, UNUSED, UNUSED), 0), 0)
        answer, record = slots.start(record)
        self.assertEqual((answer, record.slots[0]), (slots.Boots(1), CORRUPTED_DEAD))
        _, record = slots.modified(record, 0)
        self.assertEqual((record.slots[0], record.current), (DEAD, 1))
        _, record = slots.set_active(record, 0)
        self.assertEqual(slots.start(record)[0], slots.Boots(0))
        answer, record = slots.confirm(record)
        self.assertEqual((answer, record.slots[:2]), (slots.Done(), (SURE, SURE)))


class TestSlotStatements(unittest.TestCase):
    """02, CR 4: "all slot statements hold over the new record": what each operation may
    change, over records with all flags."""

    def check(self, record: Record, slot: Optional[int], of: SlotOperation) -> None:
        """The laws of one operation, on a slot or on the current one."""
        answer, after = of(record) if slot is None else of(record, slot)
        if isinstance(answer, slots.Refusal):
            self.assertEqual(after, record)
            return
        self.assertTrue(slots.is_valid(record) and slots.is_valid(after))
        self.assertEqual(after, record_of(after.slots, after.current))
        if of not in (slots.start, slots.set_active):
            self.assertEqual(after.current, record.current)
        if isinstance(answer, slots.Boots):
            first = after.slots[answer.slot]
            self.assertEqual(after.current, answer.slot)
            self.assertTrue(first.used and not first.unbootable and not first.corrupted)
        for i, (old, new) in enumerate(zip(record.slots, after.slots)):
            self.assertTrue(old == new or i == (record.current if slot is None else slot))
            self.check_flags(old, new, of)

    def check_flags(self, old: Slot, new: Slot, of: SlotOperation) -> None:
        """Which operation may set or clear which flag, and change tries."""
        def allowed(happens: bool, *operations: SlotOperation) -> None:
            self.assertTrue(not happens or (old.used and of in operations))
        self.assertEqual(old.used, new.used)
        allowed(new.unbootable and not old.unbootable, slots.start)
        allowed(old.unbootable and not new.unbootable, slots.set_active)
        allowed(new.successful and not old.successful, slots.confirm)
        allowed(new.corrupted and not old.corrupted, slots.corrupted)
        allowed(old.corrupted and not new.corrupted, slots.set_active, slots.modified)
        is_given_up = old.successful and old.corrupted and new.unbootable
        clearing = (slots.set_active, slots.modified) + ((slots.start,) if is_given_up else ())
        allowed(old.successful and not new.successful, *clearing)
        is_tried = new.tries == old.tries - 1 and not old.successful
        spending = (slots.start,) if is_tried else (slots.set_active, slots.modified)
        allowed(new.tries != old.tries, *spending)

    def test_all_flags(self) -> None:
        flags = itertools.product((False, True), repeat=3)
        places = [Slot(True, *state, tries) for state in flags for tries in (0, 1, 3, 7, 8)]
        odd = Slot(False, False, True, True, 9)
        for a, b, current in itertools.product(places, places, (0, 2)):
            record = record_of((a, odd, b, UNUSED), current)
            self.check(record, None, slots.start)
            self.check(record, None, slots.confirm)
            for slot, operation in itertools.product((0, 1, 2, 4), ON_SLOT):
                self.check(record, slot, operation)


def every_operation(record: Record, slot: int) -> Iterator[Tuple[slots.Answer, Record]]:
    """Each operation on a record, those on a slot with this one."""
    for operation in (slots.start, slots.confirm):
        yield operation(record)
    for operation in ON_SLOT:
        yield operation(record, slot)


class TestStartableCount(unittest.TestCase):
    """02, CR 6, sentence by sentence."""

    def check_step(self, step: int, answered: Tuple[slots.Answer, Record], before: Record) -> None:
        """A record with the right count, so much above the one before; the lamp reads it."""
        answer, after = answered
        self.assertNotIsInstance(answer, slots.Refusal)
        self.assertEqual(after, record_of(after.slots, after.current))
        self.assertEqual(after.startable, before.startable + step)
        self.assertEqual(slots.startable(after), after.startable)

    def test_in_use_and_neither_unbootable_nor_corrupted(self) -> None:
        """At each place, with any tries, successful or not."""
        for flags in itertools.product((False, True), repeat=4):
            used, unbootable, successful, corrupted = flags
            is_faulty = used and unbootable and successful
            count = 1 + (used and not unbootable and not corrupted)
            for i, tries in itertools.product(range(1, 4), (0, 3, 7)):
                places = [GOOD, UNUSED, UNUSED, UNUSED]
                places[i] = Slot(*flags, tries)
                found = slots.startable(Record(tuple(places), 0, count))
                self.assertEqual(found, slots.Refusal(31) if is_faulty else count)

    def test_tired_slot_counts(self) -> None:
        """One that may not start now, as long as it is not marked."""
        self.assertEqual(slots.startable(Record((TIRED, TIRED, UNUSED, UNUSED), 0, 2)), 2)

    def test_lamp(self) -> None:
        for places, count in (
            ((GOOD, SURE, TIRED, GOOD), 4),
            ((GOOD, SURE, DEAD, TIRED), 3),
            ((CORRUPTED, SURE, DEAD, TIRED), 2),
            ((CORRUPTED, SURE, DEAD, UNUSED), 1),
            ((CORRUPTED_SURE, CORRUPTED_DEAD, DEAD, CORRUPTED), 0),
        ):
            for kept in range(256):
                expected = count if kept == count else slots.Refusal(31)
                self.assertEqual(slots.startable(Record(places, 0, kept)), expected)

    def test_lamp_refuses_other_faults(self) -> None:
        """Also where the count is that of the flags."""
        for record in (
            Record((GOOD, GOOD, UNUSED, UNUSED), 2, 2),
            Record((GOOD, GOOD._replace(tries=8), UNUSED, UNUSED), 0, 2),
            Record((GOOD, SURE._replace(unbootable=True), UNUSED, UNUSED), 0, 1),
            Record((UNUSED,) * 4, 0, 0),
        ):
            self.assertEqual(slots.startable(record), slots.Refusal(31))

    def check_refused(self, record: Record) -> None:
        """31 from every operation, whatever slot it is for; the record stays."""
        self.assertFalse(slots.is_valid(record))
        self.assertEqual(slots.startable(record), slots.Refusal(31))
        for slot in (0, 1, 2, 3, 4, 255):
            for answered in every_operation(record, slot):
                self.assertEqual(answered, (slots.Refusal(31), record))

    def test_wrong_count_is_refused_and_stays(self) -> None:
        """Too high, too low, or far off, in each operation, before 32 and 33."""
        for places, current in (
            ((GOOD, SURE, TIRED, GOOD), 2),
            ((GOOD, CORRUPTED, UNUSED, UNUSED), 1),
            ((DEAD, CORRUPTED_SURE, UNUSED, CORRUPTED_DEAD), 0),
            ((Slot(False, False, True, False, 3), GOOD, SURE, UNUSED), 1),
        ):
            right = record_of(places, current)
            near = (right.startable + 1, max(right.startable - 1, 0))
            for count in {*near, 0, 4, 5, 255} - {right.startable}:
                self.check_refused(right._replace(startable=count))

    def test_unused_places_do_not_count(self) -> None:
        """Whatever their flags and tries; they are kept by every operation."""
        for flags in itertools.product((False, True), repeat=3):
            place = Slot(False, *flags, 9)
            record = Record((place, SURE, place, TIRED), 3, 2)
            self.assertEqual(slots.startable(record), 2)
            self.check_refused(record._replace(startable=3))
            self.check_refused(record._replace(startable=4))
            for (_, after), count in zip(every_operation(record, 1), (1, 2, 2, 2, 1)):
                self.assertEqual((after.startable, after.slots[::2]), (count, (place, place)))

    def test_fresh(self) -> None:
        for number in range(1, 5):
            answer, record = slots.fresh(number)
            self.assertEqual((answer, record.startable), (slots.Done(), number))
            self.assertEqual(slots.startable(record), number)
        for number in (0, 5, 6, 255, 256, 2**32 - 1):
            answer, record = slots.fresh(number)
            self.assertEqual((answer, record.startable), (slots.Refusal(31), 0))
            self.assertEqual(slots.startable(record), slots.Refusal(31))

    def test_mark_steps_down(self) -> None:
        """Whether another slot starts or none; not where the slot did not count before."""
        for other in (SURE, GOOD, CORRUPTED, UNUSED):
            record = record_of((TIRED, other, UNUSED, UNUSED), 0)
            self.check_step(-1, slots.start(record), record)
            for slot in (CORRUPTED, CORRUPTED_SURE, CORRUPTED_DEAD, DEAD):
                record = record_of((slot, other, UNUSED, UNUSED), 0)
                self.check_step(0, slots.start(record), record)

    def test_mark_steps_once(self) -> None:
        """Started again, the slot is marked already."""
        _, record = slots.start(record_of((TIRED, GOOD, UNUSED, UNUSED), 0))
        self.assertEqual(slots.start(record), (slots.Recovery(), record))
        self.assertEqual(record.startable, 1)

    def test_set_active_steps_up(self) -> None:
        """Where the slot was unbootable, corrupted or both; in the current slot too."""
        for i, current in itertools.product(range(4), range(4)):
            first = record_of((GOOD,) * 4, current)
            for slot in (DEAD, CORRUPTED, CORRUPTED_SURE, CORRUPTED_DEAD):
                record = replaced(first, i, slot)
                self.check_step(1, slots.set_active(record, i), record)
            for slot in (GOOD, SURE, TIRED):
                record = replaced(first, i, slot)
                self.check_step(0, slots.set_active(record, i), record)

    def test_modified_steps_up(self) -> None:
        """Where the slot was corrupted alone: unbootable stays."""
        for i, current in itertools.product(range(4), range(4)):
            first = record_of((GOOD,) * 4, current)
            for slot in (CORRUPTED, CORRUPTED_SURE):
                record = replaced(first, i, slot)
                self.check_step(1, slots.modified(record, i), record)
            for slot in (GOOD, SURE, TIRED, DEAD, CORRUPTED_DEAD):
                record = replaced(first, i, slot)
                self.check_step(0, slots.modified(record, i), record)

    def test_corrupted_steps_down_once(self) -> None:
        """Where the slot was startable; not where it was corrupted already, or unbootable."""
        for i, current in itertools.product(range(4), range(4)):
            first = record_of((SURE,) * 4, current)
            for slot in (GOOD, SURE, TIRED):
                record = replaced(first, i, slot)
                self.check_step(-1, slots.corrupted(record, i), record)
                _, after = slots.corrupted(record, i)
                self.assertEqual(slots.corrupted(after, i), (slots.Done(), after))
            for slot in (DEAD, CORRUPTED, CORRUPTED_SURE, CORRUPTED_DEAD):
                record = replaced(first, i, slot)
                self.check_step(0, slots.corrupted(record, i), record)

    def test_confirm_and_spent_tries_do_not_step(self) -> None:
        """Down to no tries, and a successful slot that starts or takes over."""
        for tries in range(1, 8):
            record = record_of((GOOD._replace(tries=tries), DEAD, CORRUPTED, GOOD), 0)
            self.check_step(0, slots.start(record), record)
        for slot in (GOOD, SURE, TIRED):
            record = record_of((DEAD, slot, CORRUPTED, UNUSED), 1)
            self.check_step(0, slots.confirm(record), record)
        record = record_of((DEAD, SURE, CORRUPTED, UNUSED), 0)
        self.check_step(0, slots.start(record), record)

    def test_sequences(self) -> None:
        """Over any operations from a fresh record the count is that of the flags, goes by one
        at most, down by start and corrupted alone, up by set active and modified alone."""
        rng = random.Random(18)
        steps: Dict[str, Set[int]] = {}
        for _ in range(1500):
            _, record = slots.fresh(rng.randrange(1, 5))
            for _ in range(20):
                operation = rng.choice((slots.start, slots.start, slots.confirm) + ON_SLOT)
                arguments = (rng.randrange(5),) if operation in ON_SLOT else ()
                answer, after = operation(record, *arguments)
                self.assertEqual(after, record_of(after.slots, after.current))
                self.assertEqual(slots.startable(after), after.startable)
                self.assertTrue(after == record or not isinstance(answer, slots.Refusal))
                steps.setdefault(operation.__name__, set()).add(after.startable - record.startable)
                record = after
        down, up = {0, -1}, {0, 1}
        self.assertEqual(
            steps,
            {"start": down, "corrupted": down, "set_active": up, "modified": up, "confirm": {0}},
        )


class TestLister(unittest.TestCase):
    def test_p2(self) -> None:
        self.assertEqual(
            lister.listing(P2),
            "block 4 total 3 chunks 2\n0 fill 1\n1 skip 2\nok written 1 skipped 2 unknown 0\n",
        )

    def test_p7(self) -> None:
        self.assertEqual(
            lister.listing(P7),
            "block 4 total 3 chunks 2\n0 fill 1\n1 unknown 2\nok written 1 skipped 0 unknown 2\n",
        )

    def test_checksums(self) -> None:
        self.assertEqual(lister.listing(P8), lister.listing(P2))
        self.assertEqual(lister.listing(build.two_chunks(checksum=1)), "refused 11 at 24\n")

    def test_others(self) -> None:
        self.assertEqual(lister.listing(P2 + b"\0"), "refused 10 at 56\n")
        self.assertEqual(lister.listing(bytes(65536)), "refused 2 at 0\n")
        self.assertEqual(lister.listing(bytes(65537)), "too long\n")
        big = build.sparse_image(65536, [build.skip(17)])
        self.assertEqual(lister.listing(big), "refused 6 at 0\n")
        plans = [build.raw(b"", 4), build.raw(b"abcdefgh", 4), build.unknown(1, 3)]
        self.assertEqual(
            lister.listing(build.sparse_image(4, plans)),
            "block 4 total 5 chunks 3\n0 raw 0\n0 raw 2\n2 unknown 3\n"
            "ok written 2 skipped 0 unknown 3\n",
        )


if __name__ == "__main__":
    unittest.main()
