"""Holds the passes of change requests 1 to 3 against document 02 and the whole forms.

Run by `python3 tests/reference/test_passes.py`.
"""

import itertools
import random
import unittest
from typing import Dict, List, NamedTuple, Optional, Tuple

import build
import cases_passes
import cases_sparse
import cases_store
import crc
import passes
import sparse
import store
from cases_common import some_bytes
from cases_passes import P2, RAW, Pieces, at_random, by_bytes, in_two
from cases_sparse import Case
from passes import Answer, GoingOn, State
from sparse import Accepted, Refusal

P7 = build.two_chunks(second_type=0xCAC5)
GOING_ON = GoingOn()
OLD = bytes(range(100, 112))
LARGEST_LENT = 4096


# A second, slow formulation: all of a prefix is read anew, up to the first byte that
# has not come.

class NotYet(Exception):
    """A byte was asked for that has not come."""


class Arrived(NamedTuple):
    """The bytes that have come."""

    prefix: bytes

    def wait(self, end: int) -> None:
        """Goes on only if all bytes before the end have come."""
        if len(self.prefix) < end:
            raise NotYet

    def read(self, at: int, width: int) -> int:
        """A field that has come."""
        self.wait(at + width)
        return int.from_bytes(self.prefix[at:at + width], "little")


class Look(NamedTuple):
    """What a prefix shows: the refusal that is known by it, the bytes due, and the three
    counts of the chunks that passed their tests."""

    refusal: Optional[Refusal]
    due: Dict[int, int]
    counts: Accepted


def header_refusal(arrived: Arrived, length: int, room: int) -> Optional[Refusal]:
    """Tests 1 to 6, then a wait for the whole file header."""
    if length < 28:
        return Refusal(1, 0)
    if arrived.read(0, 4) != 0xED26FF3A:
        return Refusal(2, 0)
    if arrived.read(4, 2) != 1:
        return Refusal(3, 0)
    file_size, chunk_size = arrived.read(8, 2), arrived.read(10, 2)
    if file_size < 28 or chunk_size < 12 or file_size % 4 + chunk_size % 4 > 0:
        return Refusal(4, 0)
    if file_size > length:
        return Refusal(4, 0)
    block_size = arrived.read(12, 4)
    if block_size not in range(4, 65537, 4):
        return Refusal(5, 0)
    if arrived.read(16, 4) * block_size > room:
        return Refusal(6, 0)
    arrived.wait(file_size)
    return None


def chunk_refusal(
    arrived: Arrived,
    length: int,
    room: int,
    due: Optional[Dict[int, int]],
    passed: List[build.ChunkPlan],
) -> Optional[Refusal]:
    """Tests 7 to 11, the chunks that pass, and what is due of each."""
    at, chunk_size = arrived.read(8, 2), arrived.read(10, 2)
    block_size, total = arrived.read(12, 4), arrived.read(16, 4)
    blocks = 0
    for _ in range(arrived.read(20, 4)):
        arrived.wait(at)
        if length - at < chunk_size:
            return Refusal(7, at)
        kind, count = arrived.read(at, 2), arrived.read(at + 4, 4)
        size = arrived.read(at + 8, 4)
        data_size = size - chunk_size
        known = {0xCAC1: count * block_size, 0xCAC2: 4, 0xCAC3: 0}
        if data_size < 0 or data_size % 4 > 0 or data_size != known.get(kind, data_size):
            return Refusal(8, at)
        if length - at < size:
            return Refusal(7, at)
        if blocks + count > total:
            return Refusal(9, at)
        passed.append(build.ChunkPlan(kind, count))
        data = arrived.prefix[at + chunk_size:at + size]
        first = blocks * block_size
        if due is not None and kind == 0xCAC1:
            due.update(enumerate(data, first))
        if due is not None and kind == 0xCAC2 and len(data) == 4:
            due.update(enumerate(data * (count * block_size // 4), first))
        at += size
        blocks += count
    arrived.wait(at)
    if blocks < total:
        return Refusal(9, at)
    if at < length:
        return Refusal(10, at)
    verdict = sparse.judge(arrived.prefix, room)
    return verdict if verdict == Refusal(11, 24) else None


def look(prefix: bytes, length: int, room: int) -> Look:
    """What is known when a prefix of an image of the announced length has come."""
    due: Dict[int, int] = {}
    passed: List[build.ChunkPlan] = []
    arrived = Arrived(prefix)
    try:
        refusal = header_refusal(arrived, length, room)
        if refusal is None:
            kept = due if room <= LARGEST_LENT else None
            refusal = chunk_refusal(arrived, length, room, kept, passed)
    except NotYet:
        refusal = None
    return Look(refusal, due, Accepted(*build.planned_counts(passed)))


def with_due(partition: bytes, due: Dict[int, int]) -> bytes:
    """The partition after the bytes due were stored, each by itself."""
    after = bytearray(partition)
    for at, byte in due.items():
        after[at] = byte
    return bytes(after)


# Passes fed with pieces and then finished.

def judged(pieces: Pieces, length: int, room: int) -> List[Answer]:
    """The answers of a judging pass, the last one to its finishing."""
    state = passes.begin(length, room)
    answers: List[Answer] = []
    for piece in pieces:
        state, answer = passes.judge_piece(state, piece)
        answers.append(answer)
    state, answer = passes.judge_finish(state)
    return answers + [answer]


class Moment(NamedTuple):
    """What a call of the storing pass answers and leaves."""

    answer: Answer
    partition: bytes


def stored(pieces: Pieces, length: int, partition: bytes) -> List[Moment]:
    """The calls of a storing pass, each "lent the partition as the last left it"."""
    state = passes.begin(length, len(partition))
    moments = []
    for piece in pieces:
        state, answer, partition = passes.store_piece(state, piece, partition)
        moments.append(Moment(answer, partition))
    state, answer, partition = passes.store_finish(state, partition)
    return moments + [Moment(answer, partition)]


def boot_cases() -> List[Case]:
    """The boot images of P10 and P11, which are no sparse ones."""
    p10 = build.boot_image(3, 12289, kernel=4097, ramdisk=1)
    p11 = build.boot_image(2, 6145, kernel=2048, ramdisk=1, dtb=1)
    return [Case(p10, 12), Case(p11, 12)]


def all_cases() -> List[Case]:
    """Every case that the vectors judge, and boot images."""
    rng = random.Random(11)
    cases = boot_cases() + cases_sparse.damaged_cases() + cases_sparse.cut_cases()
    cases += cases_sparse.room_cases()
    cases += cases_sparse.sum_cases() + cases_sparse.end_cases()
    cases += cases_sparse.header_size_cases() + cases_sparse.ignored_cases()
    cases += cases_sparse.block_size_cases() + cases_sparse.type_cases()
    cases += cases_sparse.raw_product_cases() + cases_sparse.long_run_cases(rng)
    cases += cases_sparse.header_order_cases() + cases_sparse.chunk_order_cases()
    cases += cases_sparse.checksum_cases() + cases_sparse.count_cases()
    return cases + cases_sparse.random_cases(rng)


def accepted_cases() -> List[Case]:
    """Accepted images on partitions of just their length, and longer ones."""
    rng = random.Random(12)
    images = list(cases_store.SMALL_IMAGES)
    images += [cases_sparse.base_image(), build.two_chunks(chunk_header_size=20)]
    images += cases_sparse.none_stated_images(36, 20) + cases_sparse.zero_sum_images()
    images += [cases_store.random_image(rng) for _ in range(60)]
    cases = []
    for i, image in enumerate(images):
        room = cases_store.total_length(image) + 3 * (i % 2)
        if room <= LARGEST_LENT and isinstance(sparse.judge(image, room), Accepted):
            cases.append(Case(image, room))
    return cases


class TestWholeForm(unittest.TestCase):
    """Exact lengths: every call as the slow formulation has it, and at the end
    "verdict, place and counts equal the whole form's"."""

    def check(self, case: Case, looks: List[Look], pieces: Pieces, old: bytes) -> None:
        come = 0
        answers = judged(pieces, len(case.image), case.partition_length)
        moments = stored(pieces, len(case.image), old)
        self.assertEqual([moment.answer for moment in moments], answers)
        for piece, (answer, partition) in zip(pieces, moments):
            come += len(piece)
            self.assertEqual(answer, looks[come].refusal or GOING_ON)
            self.assertEqual(partition, with_due(old, looks[come].due))
        self.assertEqual(moments[-1].partition, with_due(old, looks[come].due))
        verdict, left = store.store(case.image, old)
        self.assertEqual(answers[-1], verdict)
        if isinstance(verdict, Accepted):
            self.assertEqual(moments[-1].partition, left)

    def test_small_images_in_every_way(self) -> None:
        rng = random.Random(13)
        for case in cases_passes.small_images():
            old = some_bytes(rng, case.partition_length)
            looks = [
                look(case.image[:come], len(case.image), case.partition_length)
                for come in range(len(case.image) + 1)
            ]
            self.check(case, looks, by_bytes(case.image), old)
            self.check(case, looks, [case.image], old)
            for pieces in in_two(case.image):
                self.check(case, looks, pieces, old)
            for _ in range(10):
                self.check(case, looks, at_random(rng, case.image, 9), old)

    def test_no_piece_at_all(self) -> None:
        self.assertEqual(judged([], 0, 12), [Refusal(1, 0)])
        self.assertEqual(stored([], 0, OLD), [Moment(Refusal(1, 0), OLD)])

    def test_every_verdict(self) -> None:
        rng = random.Random(14)
        for image, room in all_cases():
            verdict = sparse.judge(image, room)
            for most in (1, 4, 8):
                pieces = at_random(rng, image, most)
                answers = judged(pieces, len(image), room)
                self.assertEqual(answers[-1], verdict)
                for answer in answers[:-1]:
                    self.assertIn(answer, (GOING_ON, verdict))
                    self.assertNotIsInstance(answer, Accepted)

    def test_every_storing(self) -> None:
        rng = random.Random(15)
        for image, room in all_cases():
            verdict = sparse.judge(image, min(room, 65536))
            if isinstance(verdict, Accepted):
                old = some_bytes(rng, 1) * min(room, 65536)
                pieces = at_random(rng, image, 8)
                moments = stored(pieces, len(image), old)
                self.assertEqual(moments[-1], Moment(*store.store(image, old)))


class TestMoments(unittest.TestCase):
    """"each of 01's tests runs, in order, as soon as the bytes it reads, and the file
    header and chunks before it, have come"."""

    def moment(self, image: bytes, length: int, room: int) -> Tuple[Optional[Refusal], int]:
        """The refusal of a judging pass fed byte by byte, and how many it had by then."""
        state, answer = passes.judge_piece(passes.begin(length, room), b"")
        come = 0
        while answer == GOING_ON and come < len(image):
            state, answer = passes.judge_piece(state, image[come:come + 1])
            come += 1
        return (answer if isinstance(answer, Refusal) else None), come

    def test_typed_by_hand(self) -> None:
        wide = build.two_chunks(chunk_header_size=20, file_header_size=36)
        empty = build.sparse_image(4, [], file_header_size=32, total_blocks=1)
        for image, length, room, refusal, come in (
            (P2[:27], 27, 12, Refusal(1, 0), 0),
            (build.two_chunks(magic=0), 56, 12, Refusal(2, 0), 4),
            (build.two_chunks(major=2), 56, 12, Refusal(3, 0), 6),
            (build.two_chunks(chunk_header_size=8), 56, 12, Refusal(4, 0), 12),
            (build.with_bytes(P2, 8, b"\x1A"), 56, 12, Refusal(4, 0), 12),
            (build.with_bytes(P2, 8, b"\x3C"), 56, 12, Refusal(4, 0), 12),
            (build.with_bytes(P2, 12, b"\x05"), 56, 12, Refusal(5, 0), 16),
            (P2, 56, 11, Refusal(6, 0), 20),
            (P2[:39], 39, 12, Refusal(7, 28), 28),
            (P2[:43], 43, 12, Refusal(7, 28), 40),
            (P2[:55], 55, 12, Refusal(7, 44), 44),
            (wide[:55], 55, 12, Refusal(7, 36), 36),
            (wide[:56], 56, 12, Refusal(7, 36), 48),
            (build.with_bytes(P2, 36, b"\x0C"), 56, 12, Refusal(8, 28), 40),
            (build.with_bytes(wide, 44, b"\x14"), 80, 12, Refusal(8, 36), 48),
            (build.two_chunks(total_blocks=2), 56, 12, Refusal(9, 44), 56),
            (build.two_chunks(total_blocks=0), 56, 12, Refusal(9, 28), 40),
            (build.two_chunks(total_blocks=4), 56, 16, Refusal(9, 56), 56),
            (build.sparse_image(4, [], total_blocks=1), 28, 4, Refusal(9, 28), 28),
            (empty, 32, 4, Refusal(9, 32), 32),
            (P2 + b"\0", 57, 12, Refusal(10, 56), 56),
            (P2, 1000, 12, Refusal(10, 56), 56),
            (build.two_chunks(total_chunks=3), 56, 12, Refusal(7, 56), 56),
            (build.two_chunks(checksum=1), 56, 12, Refusal(11, 24), 56),
            (build.two_chunks(second_type=0xCAC5, checksum=1), 56, 12, Refusal(11, 24), 56),
            (build.sparse_image(4, [], checksum=1), 28, 12, Refusal(11, 24), 28),
            (build.two_chunks(checksum=0), 56, 12, None, 56),
            (build.two_chunks(second_type=0xCAC5, checksum=0), 56, 12, None, 56),
            (build.two_chunks(checksum=0) + b"\0", 57, 12, Refusal(10, 56), 56),
        ):
            self.assertEqual(self.moment(image, length, room), (refusal, come))

    def test_as_soon_as_it_is_known(self) -> None:
        for image, room in all_cases():
            if len(image) > 300:
                continue
            refusal, come = self.moment(image, len(image), room)
            self.assertEqual(look(image[:come], len(image), room).refusal, refusal)
            if come > 0:
                self.assertIsNone(look(image[:come - 1], len(image), room).refusal)
            verdict = sparse.judge(image, room)
            self.assertEqual(refusal, verdict if isinstance(verdict, Refusal) else None)

    def test_other_announced_lengths(self) -> None:
        images = cases_passes.small_images()
        for (image, room), more in itertools.product(images, (-20, -13, -1, 1, 4, 12, 500)):
            length = max(0, len(image) + more)
            refusal, come = self.moment(image[:length], length, room)
            self.assertEqual(look(image[:come], length, room).refusal, refusal)
            if come > 0:
                self.assertIsNone(look(image[:come - 1], length, room).refusal)

    def test_known_whatever_follows(self) -> None:
        rng = random.Random(16)
        for image, room in all_cases():
            if len(image) > 300:
                continue
            refusal, come = self.moment(image, len(image), room)
            if refusal is not None:
                left = len(image) - come
                for rest in (bytes(left), b"\xFF" * left, some_bytes(rng, left)):
                    self.assertEqual(sparse.judge(image[:come] + rest, room), refusal)


class TestCutStates(unittest.TestCase):
    """"fed an accepted image, each call lent the partition as the last left it, the
    partition is after every call in a cut state of 01"."""

    def opposite(self, case: Case) -> bytes:
        """Contents of which every byte that the image stores differs."""
        new = store.store(case.image, bytes(case.partition_length))[1]
        return bytes(byte ^ 0xFF for byte in new)

    def cut_states(self, image: bytes, old: bytes) -> List[bytes]:
        """The cut states, in order of storing, whose torn block is new up to a byte."""
        blocks = store.stored_blocks(image)
        states = [old]
        for n, block in enumerate(blocks):
            for torn in range(1, len(block.data) + 1):
                states.append(store.cut_state(image, old, n, block.data[:torn]))
            self.assertEqual(states[-1], store.store_limited(image, old, n + 1).partition)
        return states

    def check(self, states: List[bytes], image: bytes, pieces: Pieces, old: bytes) -> None:
        order = {state: i for i, state in enumerate(states)}
        self.assertEqual(len(order), len(states))
        moments = stored(pieces, len(image), old)
        for moment in moments:
            self.assertIn(moment.partition, order)
        places = [order[moment.partition] for moment in moments]
        self.assertEqual(places, sorted(places))
        self.assertEqual(places[-1], len(states) - 1)
        self.assertTrue(all(moment.answer == GOING_ON for moment in moments[:-1]))

    def test_every_call_leaves_a_cut_state(self) -> None:
        rng = random.Random(17)
        cases = accepted_cases()
        self.assertGreater(len(cases), 40)
        for case in cases:
            old = self.opposite(case)
            states = self.cut_states(case.image, old)
            self.check(states, case.image, by_bytes(case.image), old)
            for most in (2, 3, 9):
                self.check(states, case.image, at_random(rng, case.image, most), old)

    def test_started_over(self) -> None:
        rng = random.Random(18)
        for image, room in accepted_cases():
            old = some_bytes(rng, room)
            full = store.store(image, old)
            for moment in stored(by_bytes(image), len(image), old)[::7]:
                again = stored([image], len(image), moment.partition)
                self.assertEqual(again[-1], Moment(*full))
                self.assertEqual(store.store(image, moment.partition), full)

    def test_by_hand(self) -> None:
        new = b"abcdefgh"
        for come, moment in enumerate(stored(by_bytes(RAW), len(RAW), OLD)[:-1], 1):
            count = min(8, max(0, come - 40))
            self.assertEqual(moment, Moment(GOING_ON, new[:count] + OLD[count:]))
        for come, moment in enumerate(stored(by_bytes(P2), 56, OLD)[:-1], 1):
            left = OLD if come < 44 else b"\xFF" * 4 + OLD[4:]
            self.assertEqual(moment, Moment(GOING_ON, left))
        moments = stored([RAW], len(RAW), OLD)
        self.assertEqual(moments[-1], Moment(Accepted(2, 1, 0), new + OLD[8:]))


class TestLateRefusals(unittest.TestCase):
    """"then exactly the bytes due before the refusal are stored"."""

    def check(self, image: bytes, refusal: Refusal, left: bytes) -> None:
        """All in one call, byte by byte, and in two."""
        length = len(image)
        cuttings = list(in_two(image)) + [[image], by_bytes(image)]
        for pieces in cuttings:
            moments = stored(pieces, length, OLD)
            self.assertEqual(moments[-2:], [Moment(refusal, left)] * 2)
        self.assertEqual(store.store(image, OLD), (refusal, OLD))

    def test_after_a_fill(self) -> None:
        left = b"\xFF" * 4 + OLD[4:]
        self.check(build.two_chunks(checksum=1), Refusal(11, 24), left)
        self.check(P2 + b"\0", Refusal(10, 56), left)
        self.check(build.two_chunks(checksum=0) + b"\0", Refusal(10, 56), left)
        self.check(build.two_chunks(total_blocks=2), Refusal(9, 44), left)
        self.check(build.with_bytes(P2, 52, b"\x10"), Refusal(8, 44), left)
        self.check(build.with_bytes(build.two_chunks(0xCAC5), 52, b"\x10"), Refusal(7, 44), left)
        self.check(P2[:55], Refusal(7, 44), left)

    def test_nothing_of_the_refused_chunk(self) -> None:
        plans = [build.fill(b"none", 1), build.raw(b"abcdefgh", 4)]
        left = b"none" + OLD[4:]
        self.check(build.sparse_image(4, plans, total_blocks=2), Refusal(9, 44), left)
        image = build.sparse_image(4, plans)
        self.check(image[:-1], Refusal(7, 44), left)
        self.check(build.with_bytes(image, 52, b"\x18"), Refusal(8, 44), left)
        self.check(build.with_bytes(image, 36, b"\x0C"), Refusal(8, 28), OLD)
        self.check(build.stating(image, 1), Refusal(11, 24), b"noneabcdefgh")

    def test_other_bytes_than_were_judged(self) -> None:
        image = build.with_bytes(RAW, 44, b"!")
        self.check(image, Refusal(11, 24), b"abcd!fgh" + OLD[8:])


class TestNoneStated(unittest.TestCase):
    """CR 2: "in all forms, 0 means that none is stated"."""

    def images(self) -> List[bytes]:
        """Images that state 0, with every kind of chunk; of some it is the true one."""
        images = cases_sparse.none_stated_images(28, 12) + cases_sparse.zero_sum_images()
        return images + cases_sparse.none_stated_images(36, 20)

    def test_p8(self) -> None:
        """"P8 becomes an acceptance equal to P2"."""
        p8 = build.two_chunks(checksum=0)
        cuttings = list(in_two(p8)) + [by_bytes(p8)]
        for pieces, others in zip(cuttings, list(in_two(P2)) + [by_bytes(P2)]):
            self.assertEqual(judged(pieces, 56, 12), judged(others, 56, 12))
            self.assertEqual(stored(pieces, 56, OLD), stored(others, 56, OLD))
        left = b"\xFF" * 4 + OLD[4:]
        self.assertEqual(stored([p8], 56, OLD)[-1], Moment(Accepted(1, 2, 0), left))

    def test_p2_with_checksum_1(self) -> None:
        """"a checksum of 1 there still gives 11"."""
        image = build.two_chunks(checksum=1)
        for pieces in in_two(image):
            self.assertEqual(judged(pieces, 56, 12)[1:], [Refusal(11, 24)] * 2)

    def test_as_the_whole_form(self) -> None:
        rng = random.Random(20)
        for image in self.images():
            room = cases_store.total_length(image)
            old = some_bytes(rng, room)
            for pieces in ([image], by_bytes(image), at_random(rng, image, 7)):
                moments = stored(pieces, len(image), old)
                self.assertEqual(moments[-1], Moment(*store.store(image, old)))
                self.assertIsInstance(moments[-1].answer, Accepted)
                self.assertEqual(judged(pieces, len(image), room)[-1], moments[-1].answer)
            wrong = build.stating(image, 1)
            self.assertEqual(judged([wrong], len(image), room), [Refusal(11, 24)] * 2)

    def sums(self, image: bytes) -> List[int]:
        """The checksum's states of a pass that is fed byte by byte."""
        state = passes.begin(len(image), cases_store.total_length(image))
        found = []
        for byte in by_bytes(image):
            state = passes.judge_piece(state, byte)[0]
            found.append(state.checksum_state)
        return found

    def test_nothing_is_summed(self) -> None:
        for image in self.images():
            self.assertEqual(self.sums(image), [crc.ALL_ONES] * len(image))

    def test_all_is_summed_where_one_is_stated(self) -> None:
        for image in cases_store.SMALL_IMAGES + (cases_sparse.base_image(),):
            header = sparse.read_header(image)
            sums = self.sums(image)
            start = [crc.ALL_ONES] * header.file_header_size
            self.assertEqual(sums[:header.file_header_size], start)
            self.assertEqual(sums[-1], header.checksum ^ crc.ALL_ONES)
            self.assertEqual(self.sums(build.stating(image, 1)), sums)


class TestCounts(unittest.TestCase):
    """CR 3: "an accepted answer gives three counts whose sum is the total"."""

    def images(self) -> List[bytes]:
        """Accepted images with chunks of every kind, and P2 and P7."""
        images = [P2, P7, cases_sparse.base_image(), build.two_chunks(0xCAC5, checksum=0)]
        images += list(cases_store.SMALL_IMAGES) + cases_sparse.none_stated_images(36, 20)
        return images + cases_sparse.ordered_images() + cases_sparse.near_images()

    def test_p7(self) -> None:
        """"But for these counts P7 stays as P2"."""
        cuttings = list(in_two(P7)) + [by_bytes(P7), [P7]]
        for pieces, others in zip(cuttings, list(in_two(P2)) + [by_bytes(P2), [P2]]):
            self.assertEqual(judged(pieces, 56, 12)[-1], Accepted(1, 0, 2))
            self.assertEqual(judged(others, 56, 12)[-1], Accepted(1, 2, 0))
            moments, expected = stored(pieces, 56, OLD), stored(others, 56, OLD)
            self.assertEqual(moments[:-1], expected[:-1])
            self.assertEqual(moments[-1], Moment(Accepted(1, 0, 2), expected[-1].partition))

    def test_after_every_byte(self) -> None:
        for image in self.images():
            room = cases_store.total_length(image)
            state = passes.begin(len(image), room)
            for come, byte in enumerate(by_bytes(image), 1):
                state = passes.judge_piece(state, byte)[0]
                counts = Accepted(state.written, state.dont_care, state.unknown)
                self.assertEqual(counts, look(image[:come], len(image), room).counts)
            total = sparse.read_header(image).total_blocks
            self.assertEqual(state.written + state.dont_care + state.unknown, total)
            self.assertEqual(passes.judge_finish(state)[1], counts)

    def test_cut_at_every_byte(self) -> None:
        for image in cases_sparse.ordered_images()[::5]:
            old = bytes(64)
            for pieces in in_two(image):
                self.assertEqual(judged(pieces, len(image), 64)[-1], Accepted(5, 4, 7))
                self.assertEqual(stored(pieces, len(image), old)[-1].answer, Accepted(5, 4, 7))

    def test_many_blocks(self) -> None:
        rng = random.Random(21)
        for image in cases_sparse.wide_count_images():
            answers = judged(at_random(rng, image, 7), len(image), 2**48)
            self.assertEqual(answers[-1], sparse.judge(image, 2**48))
            self.assertIsInstance(answers[-1], Accepted)


class TestNewRefusals(unittest.TestCase):
    """14, 15 and 16."""

    def given_again(self, state: State, refusal: Refusal) -> None:
        """"A refusal already given is given again to every later call, before any test."."""
        for partition in (OLD, OLD[1:], b""):
            for piece in (b"", b"x", RAW, bytes(1000)):
                found = passes.store_piece(state, piece, partition)
                self.assertEqual(found, (state, refusal, partition))
                self.assertEqual(passes.judge_piece(state, piece), (state, refusal))
            self.assertEqual(passes.store_finish(state, partition), (state, refusal, partition))
        self.assertEqual(passes.judge_finish(state), (state, refusal))

    def check_piece(self, state: State, piece: bytes, partition: bytes, number: int) -> None:
        refusal = Refusal(number, 0)
        after, answer, left = passes.store_piece(state, piece, partition)
        self.assertEqual((answer, left), (refusal, partition))
        self.given_again(after, refusal)
        if number != 16:
            after, answer = passes.judge_piece(state, piece)
            self.assertEqual(answer, refusal)
            self.given_again(after, refusal)

    def check_finish(self, state: State, partition: bytes, number: int) -> None:
        refusal = Refusal(number, 0)
        after, answer, left = passes.store_finish(state, partition)
        self.assertEqual((answer, left), (refusal, partition))
        self.given_again(after, refusal)
        if number != 16:
            after, answer = passes.judge_finish(state)
            self.assertEqual(answer, refusal)
            self.given_again(after, refusal)

    def after(self, image: bytes, come: int, length: int) -> State:
        """A pass that has taken so many bytes."""
        return passes.judge_piece(passes.begin(length, 12), image[:come])[0]

    def test_more_than_announced(self) -> None:
        for come in range(len(RAW) + 1):
            state = self.after(RAW, come, len(RAW))
            self.check_piece(state, RAW[come:] + b"x", OLD, 14)
        self.check_piece(passes.begin(0, 12), b"x", OLD, 14)
        for length in range(1, 28):
            self.check_piece(passes.begin(length, 12), RAW[:length + 1], OLD, 14)

    def test_finished_with_fewer(self) -> None:
        for come in range(len(RAW)):
            self.check_finish(self.after(RAW, come, len(RAW)), OLD, 15)
        for length in range(1, 100):
            self.check_finish(passes.begin(length, 12), OLD, 15)

    def test_another_partition(self) -> None:
        for come in range(len(RAW) + 1):
            state = self.after(RAW, come, len(RAW))
            for partition in (b"", OLD[1:], OLD + b"x"):
                self.check_piece(state, RAW[come:], partition, 16)
                self.check_piece(state, b"", partition, 16)
                self.check_finish(state, partition, 16)

    def test_order(self) -> None:
        wrong = build.two_chunks(magic=0)
        for come in (0, 1, 3):
            state = self.after(wrong, come, 56)
            self.check_piece(state, wrong[come:] + b"x", OLD[1:], 16)
            self.check_piece(state, wrong[come:], OLD[1:], 16)
            self.check_piece(state, wrong[come:] + b"x", OLD, 14)
            self.check_piece(state, wrong[come:], OLD, 2)
            self.check_finish(state, OLD[1:], 16)
            self.check_finish(state, OLD, 15)
        for length in (0, 1, 27):
            state = passes.begin(length, 12)
            self.check_piece(state, bytes(length), OLD, 1)
            self.check_piece(state, b"", OLD, 1)
            self.check_piece(state, bytes(length + 1), OLD, 14)
            self.check_piece(state, bytes(length), b"", 16)
            self.check_finish(state, OLD, 15 if length > 0 else 1)
            self.check_finish(state, b"", 16)

    def test_telling_refuses_nothing(self) -> None:
        for length, room in itertools.product((0, 1, 28, 2**64 - 1), repeat=2):
            self.assertIsNone(passes.begin(length, room).refusal)

    def test_too_short_an_announcement(self) -> None:
        for length in range(len(RAW)):
            answers = judged([RAW[:length], RAW[length:]], length, 12)
            verdict = sparse.judge(RAW[:length], 12)
            self.assertEqual(answers, [verdict] * 3)
            self.assertEqual(judged([RAW], length, 12), [Refusal(14, 0)] * 2)

    def test_too_long_an_announcement(self) -> None:
        for length in range(len(RAW) + 1, len(RAW) + 40):
            self.assertEqual(judged([RAW], length, 12), [Refusal(10, len(RAW))] * 2)
            short = judged([RAW[:-1]], length, 12)
            self.assertEqual(short, [GOING_ON, Refusal(15, 0)])

    def test_after_acceptance(self) -> None:
        accepted = Accepted(2, 1, 0)
        state = self.after(RAW, len(RAW), len(RAW))
        for _ in range(3):
            state, answer = passes.judge_finish(state)
            self.assertEqual(answer, accepted)
            state, answer, left = passes.store_finish(state, OLD)
            self.assertEqual((answer, left), (accepted, OLD))
            state, answer = passes.judge_piece(state, b"")
            self.assertEqual(answer, GOING_ON)
            state, answer, left = passes.store_piece(state, b"", OLD)
            self.assertEqual((answer, left), (GOING_ON, OLD))
        self.check_piece(state, b"x", OLD, 14)
        self.check_piece(state, b"x", OLD[1:], 16)
        self.check_finish(state, OLD[1:], 16)


class TestMixedCalls(unittest.TestCase):
    """One state serves both passes, and a storing call stores what it makes due."""

    def test_a_fill_begun_by_the_judging_pass(self) -> None:
        for come in range(44):
            state, _ = passes.judge_piece(passes.begin(56, 12), P2[:come])
            state, answer, left = passes.store_piece(state, P2[come:44], OLD)
            self.assertEqual((answer, left), (GOING_ON, b"\xFF" * 4 + OLD[4:]))
            self.assertEqual(passes.store_piece(state, P2[44:], OLD)[2], OLD)

    def test_raw_data_begun_by_the_judging_pass(self) -> None:
        for come in range(len(RAW)):
            state, _ = passes.judge_piece(passes.begin(len(RAW), 12), RAW[:come])
            state, answer, left = passes.store_piece(state, RAW[come:], OLD)
            kept = min(8, max(0, come - 40))
            self.assertEqual(answer, GOING_ON)
            self.assertEqual(left, OLD[:kept] + b"abcdefgh"[kept:] + OLD[8:])
            self.assertEqual(passes.judge_finish(state)[1], Accepted(2, 1, 0))


class History:
    """The slow formulation of any calls: the bytes taken and the refusal given."""

    def __init__(self, length: int, room: int) -> None:
        self.length, self.room = length, room
        self.taken = b""
        self.given: Optional[Refusal] = None

    def early(self, piece: Optional[bytes], partition: Optional[bytes]) -> Optional[Refusal]:
        """"tested 16, 14, 15, before any of 01's"."""
        if partition is not None and len(partition) != self.room:
            return Refusal(16, 0)
        if piece is not None and len(self.taken + piece) > self.length:
            return Refusal(14, 0)
        if piece is None and len(self.taken) < self.length:
            return Refusal(15, 0)
        return None

    def answer(
        self, piece: Optional[bytes], partition: Optional[bytes]
    ) -> Tuple[Answer, Optional[bytes]]:
        """What a call answers and leaves: a finishing where there is no piece, one of the
        judging pass where no partition is lent."""
        self.given = self.given or self.early(piece, partition)
        if self.given is not None:
            return self.given, partition
        before = look(self.taken, self.length, self.room)
        self.taken += piece or b""
        now = look(self.taken, self.length, self.room)
        self.given = now.refusal
        if partition is not None:
            new = {at: byte for at, byte in now.due.items() if at not in before.due}
            partition = with_due(partition, new)
        if self.given is not None:
            return self.given, partition
        if piece is not None:
            return GOING_ON, partition
        return now.counts, partition


class TestAnyCalls(unittest.TestCase):
    """Calls of both passes in any order, with any lengths."""

    def follow(self, rng: random.Random, image: bytes, length: int, room: int) -> str:
        """Follows a pass to its end, and says how it ended."""
        state, history = passes.begin(length, room), History(length, room)
        partition = some_bytes(rng, room + 40)
        answer: Answer = GOING_ON
        taken = cases_passes.passes_taken(rng, room)
        for piece, lent in cases_passes.random_calls(rng, at_random(rng, image, 7), taken):
            given = None if lent is None else partition[:lent]
            state, answer, left = passes.called(state, piece, given)
            self.assertEqual((answer, left), history.answer(piece, given))
            partition = (left or b"") + partition[len(left or b""):]
            if rng.randrange(13) == 0:
                partition = some_bytes(rng, len(partition))
        return str(answer.number) if isinstance(answer, Refusal) else type(answer).__name__

    def test_random_calls(self) -> None:
        rng = random.Random(19)
        ends = set()
        for _ in range(900):
            image = cases_store.random_image(rng)
            if rng.randrange(4) == 0:
                image = cases_passes.with_a_bit_flipped(rng, image)
            total = cases_store.total_length(image)
            room = total % 300 + rng.choice([0, 0, 0, 5])
            length = len(image) + rng.choice([0] * 12 + [-1, 1, 4, 16, -9])
            ends.add(self.follow(rng, image, max(0, length), room))
        numbers = {str(number) for number in range(1, 17) if number not in (12, 13)}
        self.assertLessEqual(numbers | {"Accepted"}, ends)


if __name__ == "__main__":
    unittest.main()
