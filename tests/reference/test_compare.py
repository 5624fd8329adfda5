"""Holds the comparison of change request 5 against document 02 and a slow formulation.

Run by `python3 tests/reference/test_compare.py`.
"""

import itertools
import random
import struct
import unittest
import unittest.mock
from functools import lru_cache
from typing import Any, Callable, Iterator, List, Optional, Sequence, Tuple

import build
import cases_compare
import cases_sparse
import cases_store
import compare
import sparse
import store
import writer
from cases_compare import EMPTY_PLANS, OTHER, WORD, Block, Case, Pair
from compare import DIFFERENT, EQUAL, NEITHER, ONLY_FIRST, ONLY_SECOND
from compare import Listed, Meeting, Refusal, Run

# P2, typed from document 01: block size 4, total 3, fill 1 block, don't care 2.
P2 = bytes.fromhex(
    "3AFF26ED 0100 0000 1C00 0C00 04000000 03000000 02000000 FFFFFFFF"
    "C2CA 0000 01000000 10000000 FFFFFFFF"
    "C3CA 0000 02000000 0C000000"
)
P7 = build.with_bytes(P2, 44, b"\xC5\xCA")
# Block size 4, total 3, no checksum stated: raw 2 blocks, unknown 1 with 4 bytes of data.
RAW = bytes.fromhex(
    "3AFF26ED 0100 0000 1C00 0C00 04000000 03000000 02000000 00000000"
    "C1CA 0000 02000000 14000000 FFFFFFFF 00000000"
    "99CA 0000 01000000 10000000 FFFFFFFF"
)
ROOM = 2**64 - 1
MOST = 2**32 - 1
MOST_SLOW = 200


# A second, slow formulation: each block of each image, then each block's kind.

def blocks_given(image: bytes) -> List[Block]:
    """Each block as an accepted image gives it, from its single bytes; None where it
    stores nothing."""
    header = sparse.read_header(image)
    size = header.block_size
    given = store.bytes_given(image, header.total_blocks * size)
    blocks = [given[at:at + size] for at in range(0, len(given), size)]
    return [None if block[0] is None else bytes(byte or 0 for byte in block) for block in blocks]


def kind_of(one: Block, other: Block) -> int:
    """"neither image writes, only the first, only the second, both and equal, both and
    different", "0 to 4 in this order"."""
    if one is None:
        return 0 if other is None else 2
    if other is None:
        return 1
    return 3 if one == other else 4


def slow_runs(first: Sequence[Block], second: Sequence[Block]) -> Tuple[Run, ...]:
    """The runs of two rows of blocks."""
    kinds = [kind_of(one, other) for one, other in zip(first, second)]
    runs: List[Run] = []
    at = 0
    for kind, same in itertools.groupby(kinds):
        runs.append(Run(at, len(list(same)), kind))
        at += runs[-1].blocks
    return tuple(runs)


def slow_answer(first: bytes, second: bytes, room: int) -> compare.Answer:
    """The answer for images of few blocks, each judged for the longest partition."""
    for which, image in enumerate((first, second), 1):
        verdict = sparse.judge(image, ROOM)
        if isinstance(verdict, sparse.Refusal):
            return Refusal(verdict.number, verdict.place, which)
    if first[12:20] != second[12:20]:
        return Refusal(17, 0, 0)
    runs = slow_runs(blocks_given(first), blocks_given(second))
    return Refusal(18, 0, 0) if sum(map(len, runs)) > room else Listed(runs)


def block_at(image: bytes, block: int) -> Block:
    """One block of an accepted image that may have many."""
    size = sparse.read_header(image).block_size
    for kind, first, blocks, data_at, _ in sparse.chunks_of(image):
        if first <= block < first + blocks:
            if kind == "raw":
                start = data_at + (block - first) * size
                return image[start:start + size]
            return image[data_at:data_at + 4] * (size // 4) if kind == "fill" else None
    raise AssertionError(block)


def total_of(image: bytes) -> int:
    """The total of an image's header."""
    return sparse.read_header(image).total_blocks


def has_few_blocks(case: Case) -> bool:
    """Whether the slow formulation can take both images, damaged ones too."""
    return max(total_of(case.first), total_of(case.second)) <= MOST_SLOW


def cases_in(data: bytes) -> List[Tuple[bytes, bytes, int]]:
    """The cases of a group of pairs, as its file has them: two images, and how many numbers or
    bytes are lent."""
    cases = []
    at = 0
    while at < len(data):
        first_length, second_length, lent = struct.unpack_from("<III", data, at)
        middle = at + 12 + first_length
        end = middle + second_length
        cases.append((data[at + 12:middle], data[middle:end], lent))
        at = end
    return cases


@lru_cache(maxsize=None)
def cases_of_vectors() -> List[Case]:
    """The cases that the vectors have, with other random ones."""
    return [Case(*case) for case in cases_in(cases_compare.group(random.Random(53)).data)]


class TestExamples(unittest.TestCase):
    """Runs typed by hand."""

    def check(self, first: bytes, second: bytes, *runs: Tuple[int, int, int]) -> None:
        listed = tuple(Run(*run) for run in runs)
        self.assertEqual(compare.compare(first, second, 3 * len(runs)), Listed(listed))
        swapped = {1: 2, 2: 1}
        other = tuple(run._replace(kind=swapped.get(run.kind, run.kind)) for run in listed)
        self.assertEqual(compare.compare(second, first, 3 * len(runs)), Listed(other))

    def test_typed_images(self) -> None:
        self.check(P2, P2, (0, 1, 3), (1, 2, 0))
        self.check(P2, P7, (0, 1, 3), (1, 2, 0))
        self.check(P2, RAW, (0, 1, 3), (1, 1, 2), (2, 1, 0))
        self.check(RAW, P7, (0, 1, 3), (1, 1, 1), (2, 1, 0))
        self.check(RAW, build.with_bytes(RAW, 43, b"\0"), (0, 1, 4), (1, 1, 3), (2, 1, 0))

    def test_all_five_kinds(self) -> None:
        first = build.sparse_image(8, [
            build.skip(2), build.fill(WORD, 3), build.unknown(7, 1), build.raw(WORD * 6, 8),
        ])
        second = build.sparse_image(8, [
            build.unknown(9, 3, b"data"), build.skip(1), build.fill(OTHER, 2),
            build.raw(WORD * 3 + OTHER + WORD * 2, 8),
        ])
        self.check(
            first, second,
            (0, 2, 0), (2, 2, 1), (4, 1, 4), (5, 1, 2), (6, 1, 3), (7, 1, 4), (8, 1, 3),
        )

    def test_raw_and_fill_that_give_the_same_bytes(self) -> None:
        for size in (4, 8, 12, 64, 65536):
            fill = build.sparse_image(size, [build.fill(WORD, 3)])
            raw = build.sparse_image(size, [build.raw(WORD * (3 * size // 4), size)])
            self.check(fill, raw, (0, 3, 3))
            last = build.sparse_image(size, [build.raw(WORD * (3 * size // 4 - 1) + OTHER, size)])
            self.check(fill, last, (0, 2, 3), (2, 1, 4))
            self.check(raw, last, (0, 2, 3), (2, 1, 4))

    def test_skipped_blocks_are_not_zeros(self) -> None:
        skips = (build.skip(2), build.unknown(0xCAC4, 2), build.unknown(1, 2, bytes(16)))
        for zeros in (build.raw(bytes(16), 8), build.fill(bytes(4), 2)):
            image = build.sparse_image(8, [zeros])
            for skipped in skips:
                self.check(image, build.sparse_image(8, [skipped]), (0, 2, 1))

    def test_no_blocks(self) -> None:
        for first, second in itertools.product(([], EMPTY_PLANS), repeat=2):
            self.check(build.sparse_image(4, first), build.sparse_image(4, second))

    def test_runs_go_on_over_the_ends_of_chunks(self) -> None:
        first = [build.fill(WORD, 1), build.skip(0), build.fill(WORD, 2), build.raw(WORD * 2, 4)]
        second = [build.raw(WORD * 2, 4), build.fill(WORD, 1), *EMPTY_PLANS, build.fill(WORD, 2)]
        self.check(build.sparse_image(4, first), build.sparse_image(4, second), (0, 5, 3))
        skips = [build.skip(1), build.unknown(5, 2, b"data"), build.skip(2)]
        others = [build.unknown(6, 2), build.unknown(7, 2), build.skip(1)]
        self.check(build.sparse_image(4, skips), build.sparse_image(4, others), (0, 5, 0))
        self.check(build.sparse_image(4, first), build.sparse_image(4, others), (0, 5, 1))
        words = [build.fill(OTHER, 2), build.fill(bytes(4), 2), build.raw(OTHER, 4)]
        self.check(build.sparse_image(4, first), build.sparse_image(4, words), (0, 5, 4))

    def test_kinds(self) -> None:
        kinds = (NEITHER, ONLY_FIRST, ONLY_SECOND, EQUAL, DIFFERENT)
        self.assertEqual(kinds, (0, 1, 2, 3, 4))


class TestSlow(unittest.TestCase):
    """The same as block by block."""

    def check(self, case: Case) -> compare.Answer:
        answer = compare.compare(*case)
        self.assertEqual(answer, slow_answer(*case))
        return answer

    def test_random_pairs(self) -> None:
        rng = random.Random(51)
        lengths = [0] * 5
        for _ in range(3000):
            pair = cases_compare.random_pair(rng, (4, 8, 12, 16, 64), 16)
            first, second = cases_compare.images_of(rng, pair)
            self.assertEqual(blocks_given(first), pair.first)
            self.assertEqual(blocks_given(second), pair.second)
            runs = slow_runs(pair.first, pair.second)
            self.assertEqual(self.check(Case(first, second, 3 * len(runs))), Listed(runs))
            for run in runs:
                lengths[run.kind] += run.blocks
        self.assertGreater(min(lengths), 500, lengths)

    def test_any_two_images(self) -> None:
        """Mostly of other geometry, or refused; and each with itself."""
        rng = random.Random(52)
        found = set()
        for _ in range(1500):
            first, second = (cases_store.random_image(rng) for _ in range(2))
            second = pick_second(rng, first, second)
            answer = self.check(Case(first, second, rng.randrange(24)))
            number, _, image, _ = cases_compare.answer_values(answer)
            found.add((number, image))
        self.assertLessEqual({(0, 0), (17, 0), (18, 0), (11, 1), (11, 2), (7, 1), (7, 2)}, found)

    def test_the_cases_of_the_vectors(self) -> None:
        few = 0
        for case in filter(has_few_blocks, cases_of_vectors()):
            self.check(case)
            few += 1
        self.assertGreater(few, 1000)


def pick_second(rng: random.Random, first: bytes, second: bytes) -> bytes:
    """Another image, the same, or the same damaged."""
    kind = rng.randrange(4)
    if kind == 0:
        return first
    if kind == 1 and first:
        at = rng.randrange(len(first))
        return build.with_bytes(first, at, bytes([first[at] ^ 1 << rng.randrange(8)]))
    return second


class TestStatements(unittest.TestCase):
    """What the paper says of every list."""

    def check_list(self, first: bytes, second: bytes) -> Tuple[Run, ...]:
        """"The runs cover every block once, in order, and neighbours differ in kind"; none
        is empty; and the kind at the ends of each run is that of its two blocks."""
        runs = compare.runs_of(first, second)
        at = 0
        for run in runs:
            self.assertEqual(run.first, at)
            self.assertGreater(run.blocks, 0)
            at += run.blocks
            for block in (run.first, run.first + run.blocks // 2, at - 1):
                self.assertEqual(kind_of(block_at(first, block), block_at(second, block)), run.kind)
        self.assertEqual(at, total_of(first))
        for one, other in zip(runs, runs[1:]):
            self.assertNotEqual(one.kind, other.kind)
        return runs

    def test_many_blocks(self) -> None:
        rng = random.Random(54)
        found = set()
        for _ in range(400):
            runs = self.check_list(*cases_compare.wide_pair(rng))
            found |= {(run.kind, run.blocks.bit_length()) for run in runs}
        for kind in compare.KINDS:
            self.assertLessEqual({(kind, 1), (kind, 31)}, found)

    def test_cases_of_the_vectors(self) -> None:
        for case in cases_of_vectors():
            if compare.pair_refusal(case.first, case.second) is None:
                self.check_list(case.first, case.second)

    def test_greatest_numbers(self) -> None:
        """In one step where both are fill or skipped: images of 40 to 56 bytes."""
        fill, other = (build.sparse_image(65536, [build.fill(w, MOST)]) for w in (WORD, OTHER))
        skip = build.sparse_image(65536, [build.skip(MOST)])
        parted = build.sparse_image(65536, [build.fill(WORD, MOST - 1), build.skip(1)])
        for first, second, runs in (
            (fill, fill, [(0, MOST, 3)]),
            (fill, other, [(0, MOST, 4)]),
            (fill, skip, [(0, MOST, 1)]),
            (skip, other, [(0, MOST, 2)]),
            (skip, skip, [(0, MOST, 0)]),
            (parted, fill, [(0, MOST - 1, 3), (MOST - 1, 1, 2)]),
            (other, parted, [(0, MOST - 1, 4), (MOST - 1, 1, 1)]),
            (parted, skip, [(0, MOST - 1, 1), (MOST - 1, 1, 0)]),
        ):
            listed = Listed(tuple(Run(*run) for run in runs))
            self.assertEqual(compare.compare(first, second, 3 * len(runs)), listed)
            self.assertEqual(self.check_list(first, second), listed.runs)

    def test_what_the_kinds_say_of_storing(self) -> None:
        """After either image was stored on one partition, blocks of kinds 0 and 3 hold the
        same, those of 1 and 2 what the other left, those of 4 not the same."""
        rng = random.Random(55)
        for _ in range(400):
            pair = cases_compare.random_pair(rng, (4, 8, 12), 10)
            first, second = cases_compare.images_of(rng, pair)
            old = bytes(rng.getrandbits(8) for _ in range(pair.size * len(pair.first)))
            left, other = store.store(first, old)[1], store.store(second, old)[1]
            for run in compare.runs_of(first, second):
                for at in range(run.first, run.first + run.blocks):
                    part = slice(at * pair.size, (at + 1) * pair.size)
                    if run.kind in (NEITHER, EQUAL):
                        self.assertEqual(left[part], other[part])
                    if run.kind in (NEITHER, ONLY_SECOND):
                        self.assertEqual(left[part], old[part])
                    if run.kind in (NEITHER, ONLY_FIRST):
                        self.assertEqual(other[part], old[part])
                    if run.kind == DIFFERENT:
                        self.assertNotEqual(left[part], other[part])

    def test_how_an_image_is_cut_makes_no_difference(self) -> None:
        rng = random.Random(56)
        for _ in range(300):
            pair = cases_compare.random_pair(rng, (4, 8, 12), 12)
            lists = {compare.runs_of(*cases_compare.images_of(rng, pair)) for _ in range(4)}
            self.assertEqual(len(lists), 1)
            same = Pair(pair.size, pair.first, pair.first)
            kinds = {run.kind for run in compare.runs_of(*cases_compare.images_of(rng, same))}
            self.assertLessEqual(kinds, {NEITHER, EQUAL})

    def test_written_images(self) -> None:
        """What the writer makes of flat bytes is compared as they are."""
        rng = random.Random(57)
        for _ in range(200):
            words = [rng.choice([WORD, OTHER, bytes(4)]) for _ in range(2 * rng.randrange(9))]
            other = [rng.choice([word, word, OTHER]) for word in words]
            flats = b"".join(words), b"".join(other)
            blocks = [[flat[at:at + 8] for at in range(0, len(flat), 8)] for flat in flats]
            images = [writer.image_of(flat, 8) for flat in flats]
            self.assertEqual(compare.runs_of(*images), slow_runs(*blocks))


class TestSpace(unittest.TestCase):
    """"They go into lent space, three numbers a run ... and nothing past them is touched";
    "18 exactly when the list needs more than the space"."""

    def test_every_length(self) -> None:
        rng = random.Random(58)
        for _ in range(60):
            pair = cases_compare.random_pair(rng, (4, 8), 8)
            first, second = cases_compare.images_of(rng, pair)
            numbers = [number for run in slow_runs(pair.first, pair.second) for number in run]
            for room in range(len(numbers) + 8):
                space = [rng.getrandbits(32) for _ in range(room)]
                answer = compare.compare(first, second, room)
                after = compare.space_after(answer, space)
                self.assertEqual(len(after), room)
                if room < len(numbers):
                    self.assertEqual(answer, Refusal(18, 0, 0))
                    self.assertEqual(after, tuple(space))
                else:
                    self.assertIsInstance(answer, Listed)
                    self.assertEqual(after, tuple(numbers + space[len(numbers):]))

    def test_room_for_all_single_blocks(self) -> None:
        """With three numbers a block 18 cannot come, and with fewer it can."""
        for count in range(1, 9):
            blocks: List[Optional[bytes]] = [(WORD, OTHER)[i % 2] for i in range(count)]
            row = build.sparse_image(4, [build.raw(b"".join(block or b"" for block in blocks), 4)])
            fill = build.sparse_image(4, [build.fill(WORD, count)])
            self.assertEqual(compare.compare(row, fill, 3 * count - 1), Refusal(18, 0, 0))
            answer = compare.compare(row, fill, 3 * count)
            self.assertEqual(cases_compare.answer_values(answer), (0, 0, 0, count))

    def test_no_blocks_need_no_space(self) -> None:
        image = build.sparse_image(4, [])
        self.assertEqual(compare.compare(image, image, 0), Listed(()))
        self.assertEqual(compare.space_after(Listed(()), (5, 6, 7)), (5, 6, 7))


class TestRefusals(unittest.TestCase):
    """"Refusals: the first image's own, the second's own (each judged as if the partition
    had room), 17 geometry differs, 18"."""

    good = build.sparse_image(4, [build.raw(b"GOOD", 4), build.fill(WORD, 3)])
    other_size = build.sparse_image(8, [build.fill(WORD, 4)])
    other_total = build.sparse_image(4, [build.fill(WORD, 5)])

    def check(self, first: bytes, second: bytes, room: int, refusal: Refusal) -> None:
        answer = compare.compare(first, second, room)
        self.assertEqual(answer, refusal)
        space = tuple(range(room))
        self.assertEqual(compare.space_after(answer, space), space)

    def test_order(self) -> None:
        images = cases_compare.refused_images()
        verdicts = [sparse.judge(image, ROOM) for image in images]
        numbers = []
        for bad, verdict in zip(images, verdicts):
            assert isinstance(verdict, sparse.Refusal)
            numbers.append(verdict.number)
            number, place = verdict.number, verdict.place
            for room in (0, 5, 100):
                for second in [self.good, self.other_size, self.other_total, b""] + images:
                    self.check(bad, second, room, Refusal(number, place, 1))
                for first in (self.good, self.other_size, self.other_total):
                    self.check(first, bad, room, Refusal(number, place, 2))
        self.assertEqual(sorted(set(numbers)), [1, 2, 3, 4, 5, 7, 8, 9, 10, 11])

    def test_geometry(self) -> None:
        images = [self.good, self.other_size, self.other_total]
        images += [build.sparse_image(8, [build.fill(WORD, 2)]), build.sparse_image(4, [])]
        images += [build.sparse_image(8, []), build.sparse_image(4, [build.skip(65540)])]
        for first, second in itertools.permutations(images, 2):
            for room in (0, 100):
                self.check(first, second, room, Refusal(17, 0, 0))

    def test_room_is_never_too_little(self) -> None:
        for size, total in ((65536, MOST), (4, MOST), (65536, 65536), (4, 2**30)):
            image = build.sparse_image(size, [build.skip(total)])
            self.assertEqual(compare.compare(image, image, 3), Listed((Run(0, total, 0),)))

    def test_checksums(self) -> None:
        """02, CR 2: 0 states none, in this form too."""
        base = cases_sparse.base_image()
        none, wrong = build.stating(base, 0), build.stating(base, 1)
        kinds = [(0, 5, 3), (5, 3, 0)]
        for first, second in itertools.product((base, none), repeat=2):
            listed = Listed(tuple(Run(*run) for run in kinds))
            self.assertEqual(compare.compare(first, second, 6), listed)
        for good in (base, none):
            self.check(wrong, good, 6, Refusal(11, 24, 1))
            self.check(good, wrong, 6, Refusal(11, 24, 2))
        self.check(wrong, wrong, 6, Refusal(11, 24, 1))

    def test_damaged_images(self) -> None:
        base = cases_sparse.base_image()
        for image, _ in cases_sparse.damaged_cases() + cases_sparse.cut_cases():
            verdict = sparse.judge(image, ROOM)
            if isinstance(verdict, sparse.Refusal):
                self.check(image, base, 12, Refusal(verdict.number, verdict.place, 1))
                self.check(base, image, 12, Refusal(verdict.number, verdict.place, 2))


# Wrong rules, each in the place of a function of the reference.

right_block_kind = compare.block_kind
right_longest = compare.longest
right_own_refusal = compare.own_refusal
right_stretches = compare.stretches


def raw_never_as_fill(first: bytes, second: bytes, meeting: Meeting, block: int) -> int:
    """Raw and fill that are never equal."""
    if meeting.of_first.kind != meeting.of_second.kind:
        return DIFFERENT
    return right_block_kind(first, second, meeting, block)


def compared_in(part: slice) -> Callable[[bytes, bytes, Meeting, int], int]:
    """Blocks of which only a part is compared."""
    def block_kind(first: bytes, second: bytes, meeting: Meeting, block: int) -> int:
        one = compare.block_of(first, meeting.of_first, block)
        other = compare.block_of(second, meeting.of_second, block)
        return EQUAL if one[part] == other[part] else DIFFERENT
    return block_kind


def skipped_as_zeros(first: bytes, second: bytes, meeting: Meeting) -> Iterator[Run]:
    """Zeros that one image alone writes, equal to blocks that the other skips."""
    writers = {ONLY_FIRST: (first, meeting.of_first), ONLY_SECOND: (second, meeting.of_second)}
    for part in right_stretches(first, second, meeting):
        is_zeros = part.kind in writers and not any(
            compare.block_of(*writers[part.kind], part.first)
        )
        yield part._replace(kind=EQUAL) if is_zeros else part


def swapped_kinds(meeting: Meeting) -> int:
    """Kinds 1 and 2 the wrong way round."""
    if sparse.is_written(meeting.of_first):
        return ONLY_SECOND
    return ONLY_FIRST if sparse.is_written(meeting.of_second) else NEITHER


def split_run(parts: Iterator[Run]) -> Tuple[Run, ...]:
    """The last run without its last block, and that as a run of its own."""
    runs = right_longest(parts)
    if not runs or runs[-1].blocks == 1:
        return runs
    first, blocks, kind = runs[-1]
    return runs[:-1] + (Run(first, blocks - 1, kind), Run(first + blocks - 1, 1, kind))


def runs_of_meetings(first: bytes, second: bytes) -> Tuple[Run, ...]:
    """Runs that end wherever a chunk does."""
    met = compare.meetings(sparse.chunks_of(first), sparse.chunks_of(second))
    lists = [right_longest(right_stretches(first, second, meeting)) for meeting in met]
    return tuple(run for runs in lists for run in runs)


def geometry_before_second(first: bytes, second: bytes) -> Optional[Refusal]:
    """17 before the second image's own."""
    own = right_own_refusal(first, 1)
    if own is None and compare.geometry(first) != compare.geometry(second):
        return Refusal(17, 0, 0)
    return own or right_own_refusal(second, 2)


def second_before_first(first: bytes, second: bytes) -> Optional[Refusal]:
    """The second image's own before the first's."""
    return right_own_refusal(second, 2) or geometry_before_second(first, second)


def judged_for(length: int) -> Callable[[bytes, int], Optional[Refusal]]:
    """Images judged for a partition of some length."""
    def own_refusal(image: bytes, which: int) -> Optional[Refusal]:
        verdict = sparse.judge(image, length)
        if isinstance(verdict, sparse.Accepted):
            return None
        return Refusal(verdict.number, verdict.place, which)
    return own_refusal


def number_past_the_list(answer: compare.Answer, space: Sequence[int]) -> Tuple[int, ...]:
    """A number past the list written, where there is one."""
    if isinstance(answer, Refusal):
        return tuple(space)
    numbers = [number for run in answer.runs for number in run]
    return tuple(numbers + [0] + list(space[len(numbers) + 1:]))[:len(space)]


WRONG_RULES: Tuple[Tuple[str, Callable[..., Any]], ...] = (
    ("block_kind", raw_never_as_fill),
    ("block_kind", compared_in(slice(0, 4))),
    ("block_kind", compared_in(slice(-4, None))),
    ("block_kind", compared_in(slice(0, -4))),
    ("block_kind", compared_in(slice(0, -1))),
    ("block_kind", compared_in(slice(1, None))),
    ("block_kind", compared_in(slice(0, 2048))),
    ("stretches", skipped_as_zeros),
    ("skipped_kind", swapped_kinds),
    ("longest", tuple),
    ("longest", split_run),
    ("runs_of", runs_of_meetings),
    ("pair_refusal", geometry_before_second),
    ("pair_refusal", second_before_first),
    ("own_refusal", lambda image, which: right_own_refusal(image, 1)),
    ("own_refusal", judged_for(2**48 - 2**17)),
    ("geometry", lambda image: image[12:16]),
    ("geometry", lambda image: image[16:20]),
    ("geometry", cases_store.total_length),
    ("is_too_long", lambda runs, room: 3 * len(runs) >= room),
    ("is_too_long", lambda runs, room: 3 * len(runs) > room + 1),
    ("is_too_long", lambda runs, room: len(runs) > room),
    ("space_after", number_past_the_list),
)


class TestCases(unittest.TestCase):
    """What the vectors try."""

    def meetings(self) -> Iterator[Meeting]:
        """All meetings of the accepted pairs."""
        for first, second, _ in cases_of_vectors():
            if compare.pair_refusal(first, second) is None:
                yield from compare.meetings(sparse.chunks_of(first), sparse.chunks_of(second))

    def test_every_kind_over_every_kind(self) -> None:
        """Either chunk begins first, or both at once; and ends first, or both at once."""
        found = set()
        for _, _, one, other in self.meetings():
            begins = one.first_block - other.first_block
            ends = compare.chunk_end(one) - compare.chunk_end(other)
            found.add((one.kind, other.kind, (begins > 0) - (begins < 0), (ends > 0) - (ends < 0)))
        signs = (-1, 0, 1)
        kinds = cases_compare.KINDS
        self.assertEqual(found, set(itertools.product(kinds, kinds, signs, signs)))

    def test_every_kind_of_run_beside_every_other(self) -> None:
        found = set()
        for case in cases_of_vectors():
            answer = compare.compare(*case)
            kinds = [run.kind for run in answer.runs] if isinstance(answer, Listed) else []
            found |= set(zip(kinds, kinds[1:]))
        self.assertEqual(found, set(itertools.permutations(compare.KINDS, 2)))

    def test_every_refusal(self) -> None:
        found = set()
        for case in cases_of_vectors():
            number, _, image, _ = cases_compare.answer_values(compare.compare(*case))
            found.add((number, image))
        own = set(itertools.product((1, 2, 3, 4, 5, 7, 8, 9, 10, 11), (1, 2)))
        self.assertEqual(found, own | {(0, 0), (17, 0), (18, 0)})

    def test_spaces(self) -> None:
        """Short by one, two and three numbers, exact, longer; and as long as single blocks
        would take, or all but one or two of these."""
        of_list, of_blocks = set(), set()
        for first, second, numbers in cases_of_vectors():
            if compare.pair_refusal(first, second) is None:
                of_list.add(numbers - 3 * len(compare.runs_of(first, second)))
                of_blocks.add(numbers - 3 * total_of(first))
        self.assertLessEqual(set(range(-9, 9)), of_list)
        self.assertLessEqual(set(range(-9, 5)), of_blocks)

    def test_wrong_rules_are_seen(self) -> None:
        right = {case: cases_compare.values(case) for case in cases_of_vectors()}
        for i, (name, wrong) in enumerate(WRONG_RULES):
            with self.subTest(i), unittest.mock.patch.object(compare, name, wrong):
                seen = (cases_compare.values(case) != found for case, found in right.items())
                self.assertTrue(any(seen))


if __name__ == "__main__":
    unittest.main()
