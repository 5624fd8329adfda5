"""Holds the reports of change request 13 against document 02.

Run by `python3 tests/reference/test_report.py`.
"""

import itertools
import os
import random
import struct
import subprocess
import sys
import tempfile
import unittest
import unittest.mock
from functools import lru_cache
from typing import Any, Callable, Dict, Iterator, List, Sequence, Set, Tuple

import build
import cases_common
import cases_report
import cases_sparse
import cases_store
import crc
import report
import sparse
import store
import vectors
from cases_report import Adding, Case, Counting, Numbers
from report import Answer, Report

HERE = os.path.dirname(os.path.abspath(__file__))
MOST = 2**64 - 1
LARGEST = 4
TOTALS = (0, 1, 2, 3, 5, 6, 7, 8, 9, 10, 11, 12, 13, 14, 15)
NONE = (0,) * 11
NOTHING = (0,) * 16
LONGEST = 65536
ROOM = 1048576

# P2 of document 01, typed byte for byte.
P2 = bytes.fromhex(
    "3AFF26ED" "0100" "0000" "1C00" "0C00" "04000000" "03000000" "02000000" "FFFFFFFF"
    "C2CA" "0000" "01000000" "10000000" "FFFFFFFF" "C3CA" "0000" "02000000" "0C000000"
)
P7 = P2[:44] + b"\xC5\xCA" + P2[46:]


def refused(*numbers: int) -> Tuple[int, ...]:
    """How many got each number."""
    return tuple(numbers.count(number) for number in range(1, 12))


# A second formulation, over the 16 numbers of a report.

def chunk_headers(image: bytes) -> Iterator[Tuple[int, int]]:
    """Type and blocks of each chunk of an accepted image, header after header."""
    at, count = struct.unpack_from("<H", image, 8)[0], struct.unpack_from("<I", image, 20)[0]
    for _ in range(count):
        chunk_type, _, blocks, size = struct.unpack_from("<HHII", image, at)
        yield chunk_type, blocks
        at += size


def slow_share(image: bytes, partition_length: int) -> Numbers:
    """What an image brings to each number; to the largest, what that is compared with."""
    verdict = sparse.judge(image, partition_length)
    if isinstance(verdict, sparse.Refusal):
        return tuple(int(at == 4 + verdict.number) for at in range(16))
    size, total = struct.unpack_from("<II", image, 12)
    written = sum(blocks for kind, blocks in chunk_headers(image) if kind in (0xCAC1, 0xCAC2))
    return 1, written, written * size, total - written, total * size, *NONE


def slow_answer(numbers: Numbers, share: Numbers) -> Tuple[int, Numbers]:
    """61 where a sum but that of the largest has a carry out of 64 bits."""
    pairs = list(zip(numbers, share))
    if any((one + other) >> 64 for at, (one, other) in enumerate(pairs) if at != LARGEST):
        return 61, numbers
    return 0, tuple(max(pair) if at == LARGEST else sum(pair) for at, pair in enumerate(pairs))


def share_of(case: Case) -> Numbers:
    """What a case brings to each number."""
    if isinstance(case, Adding):
        return case.other
    return slow_share(case.image, case.partition_length)


def slow_values(case: Case) -> Tuple[int, ...]:
    """The values of a case of `report`, by that formulation."""
    number, after = slow_answer(case.numbers, share_of(case))
    return number, crc.checksum(struct.pack("<16Q", *after))


def cases_in(data: bytes) -> Iterator[Case]:
    """The cases of `report`, as its file has them."""
    at = 0
    while at < len(data):
        kind, *numbers = struct.unpack_from("<I16Q", data, at)
        at += 132
        if kind == 1:
            yield Adding(tuple(numbers), struct.unpack_from("<16Q", data, at))
            at += 128
        else:
            assert kind == 0
            (length,) = struct.unpack_from("<Q", data, at)
            image, at = cases_common.image_from_patches(data, at + 8)
            yield Counting(tuple(numbers), image, length)


@lru_cache(maxsize=None)
def cases_of_vectors() -> List[Case]:
    """The cases that the vectors have."""
    return list(cases_in(cases_report.group(random.Random(vectors.SEED)).data))


def slow_text(files: Sequence[bytes]) -> str:
    """The program's lines, each number by a sum over the images that are judged."""
    judged = list(itertools.takewhile(lambda image: len(image) <= LONGEST, files))
    shares = [slow_share(image, ROOM) for image in judged]
    columns = list(zip(NOTHING, *shares))
    lines = []
    for at, word in enumerate(("accepted", "blocks", "bytes", "skipped", "largest")):
        lines.append(f"{word} {max(columns[at]) if at == LARGEST else sum(columns[at])}")
    for number in range(1, 12):
        if any(columns[4 + number]):
            lines.append(f"refused {number} {sum(columns[4 + number])}")
    return "\n".join(lines) + "\n"


# Lists of images.

def random_list(rng: random.Random, count: int) -> List[Tuple[bytes, int]]:
    """Images of all kinds, refused ones among them, each with a partition's length."""
    makers = (cases_store.random_image, cases_store.unknown_image, cases_sparse.random_image)
    found = []
    for _ in range(count):
        image = makers[rng.getrandbits(8) % 3](rng)
        if rng.getrandbits(2) == 0:
            image = cases_store.refused_images(64)[rng.getrandbits(8) % 15]
        found.append((image, max(0, cases_store.total_length(image) - (rng.getrandbits(3) == 0))))
    return found


def counted(images: Sequence[Tuple[bytes, int]]) -> Report:
    """The report of a list, one image after the other."""
    made = report.EMPTY
    for image, length in images:
        number, made = report.count(made, image, length)
        assert number == 0
    return made


def added(rng: random.Random, parts: Sequence[Report]) -> Iterator[Answer]:
    """Reports added in any order and grouping, until one is left: each answer."""
    left = list(parts)
    while len(left) > 1:
        first = left.pop(rng.getrandbits(16) % len(left))
        second = left.pop(rng.getrandbits(16) % len(left))
        answer = report.add(first, second)
        yield answer
        left.append(answer.report)


def random_split(rng: random.Random, whole: int, parts: int) -> List[int]:
    """So many numbers whose sum is the whole."""
    cuts = sorted(rng.getrandbits(80) % (whole + 1) for _ in range(parts - 1))
    return [end - start for start, end in zip([0] + cuts, cuts + [whole])]


def reports_of_sums(rng: random.Random, wholes: Sequence[int], parts: int) -> List[Report]:
    """So many reports whose numbers have these sums."""
    columns = [random_split(rng, whole, parts) for whole in wholes]
    return [cases_report.report_of(numbers) for numbers in zip(*columns)]


class TestExamples(unittest.TestCase):
    """Reports worked out by hand from document 01's examples."""

    def check(self, image: bytes, length: int, expected: Report) -> None:
        self.assertEqual(report.of_image(image, length), expected)
        self.assertEqual(report.count(report.EMPTY, image, length), Answer(0, expected))

    def test_empty(self) -> None:
        self.assertEqual(report.EMPTY, Report(0, 0, 0, 0, 0, NONE))

    def test_p2_and_p7(self) -> None:
        """Don't care and unknown blocks are skipped alike."""
        self.assertEqual((P2, P7), (build.two_chunks(), build.two_chunks(second_type=0xCAC5)))
        for image, length in itertools.product((P2, P7), (12, 13, ROOM, MOST)):
            self.check(image, length, Report(1, 1, 4, 2, 12, NONE))

    def test_p3_to_p6(self) -> None:
        refusals = (
            (P2, 11, 6),
            (P2[:16] + b"\x04" + P2[17:], 16, 9),
            (P2[:16] + b"\x02" + P2[17:], 12, 9),
            (P2 + b"\0", 12, 10),
        )
        for image, length, number in refusals:
            self.check(image, length, Report(0, 0, 0, 0, 0, refused(number)))

    def test_p8(self) -> None:
        """02, CR 2: it is accepted; with a checksum of 1 it is not."""
        self.check(P2[:24] + bytes(4) + P2[28:], 12, Report(1, 1, 4, 2, 12, NONE))
        self.check(P2[:24] + b"\1\0\0\0" + P2[28:], 12, Report(0, 0, 0, 0, 0, refused(11)))

    def test_p1_and_p9(self) -> None:
        """An image of 0 blocks, and one of two blocks, both written."""
        self.check(build.sparse_image(4096, []), 0, Report(1, 0, 0, 0, 0, NONE))
        p9 = [build.raw(b"\xFF" * 4 + bytes(4), 8), build.fill(bytes(4), 1)]
        self.check(build.sparse_image(8, p9), 16, Report(1, 2, 16, 0, 16, NONE))

    def test_a_list(self) -> None:
        """P2, P3, P7 on 12 and 11 bytes, nothing, and P9's blocks; then the same once more."""
        p9 = build.sparse_image(8, [build.raw(b"raw data", 8), build.fill(bytes(4), 1)])
        images = [(P2, 12), (P2, 11), (P7, 12), (b"", 12), (p9, 16), (P7, 11)]
        expected = Report(3, 4, 24, 4, 16, refused(6, 1, 6))
        self.assertEqual(counted(images), expected)
        twice = Report(6, 8, 48, 8, 16, refused(6, 1, 6, 6, 1, 6))
        self.assertEqual(report.add(expected, expected), Answer(0, twice))
        self.assertEqual(counted(images * 2), twice)

    def test_wide(self) -> None:
        """01: "Multiplying blocks by block size in 32 bits" is a mistake."""
        most = 2**32 - 1
        plans = [build.fill(b"wide", most - 3), build.skip(1), build.unknown(9, 2)]
        image = build.sparse_image(65536, plans)
        length = most * 65536
        expected = Report(1, most - 3, (most - 3) * 65536, 3, length, NONE)
        self.check(image, length, expected)
        self.check(image, length - 1, Report(0, 0, 0, 0, 0, refused(6)))


class TestImages(unittest.TestCase):
    def test_bytes_that_are_stored(self) -> None:
        """Bytes written are those that the store gives a new value."""
        rng = random.Random(1)
        for image, length in random_list(rng, 400):
            given = store.bytes_given(image, length)
            stored = sum(byte is not None for byte in given)
            found = report.of_image(image, length)
            self.assertEqual(found.bytes_written, stored)
            size = sparse.read_header(image).block_size
            self.assertEqual(found.blocks_written, stored // size if found.accepted else 0)

    def test_blocks_of_an_accepted_image(self) -> None:
        """Written and skipped ones are the total, and the largest is all of them."""
        for image, length in random_list(random.Random(2), 400):
            found = report.of_image(image, length)
            if found.accepted:
                header = sparse.read_header(image)
                blocks = found.blocks_written + found.blocks_skipped
                self.assertEqual(blocks, header.total_blocks)
                self.assertEqual(found.largest, blocks * header.block_size)
                self.assertLessEqual(found.bytes_written, found.largest)

    def test_each_refusal(self) -> None:
        """An image is accepted or has one refusal, and then nothing else of it is counted."""
        numbers = set()
        for image in cases_store.refused_images(64):
            verdict = sparse.judge(image, 64)
            assert isinstance(verdict, sparse.Refusal)
            expected = Report(0, 0, 0, 0, 0, refused(verdict.number))
            self.assertEqual(report.of_image(image, 64), expected)
            numbers.add(verdict.number)
        self.assertEqual(numbers, set(range(1, 12)))

    def test_slow_shares(self) -> None:
        for image, length in random_list(random.Random(3), 400):
            found = report.of_image(image, length)
            self.assertEqual(cases_report.numbers_of(found), slow_share(image, length))


class TestLists(unittest.TestCase):
    def test_sums(self) -> None:
        """02: "Totals equal the sums over the list."."""
        rng = random.Random(4)
        for count in range(40):
            images = random_list(rng, count)
            columns = list(zip(NOTHING, *(slow_share(*pair) for pair in images)))
            found = cases_report.numbers_of(counted(images))
            self.assertEqual([found[at] for at in TOTALS], [sum(columns[at]) for at in TOTALS])
            self.assertEqual(found[LARGEST], max(columns[LARGEST]))
            self.assertEqual(found[0] + sum(found[5:]), count)

    def test_order(self) -> None:
        """All orders of few images, some of many."""
        rng = random.Random(5)
        images = random_list(rng, 5)
        for order in itertools.permutations(images):
            self.assertEqual(counted(order), counted(images))
        images = random_list(rng, 30)
        for _ in range(20):
            order = sorted(images, key=lambda _: rng.getrandbits(64))
            self.assertEqual(counted(order), counted(images))

    def test_grouping(self) -> None:
        """A list parted anyhow, each part counted, and the parts added in any grouping."""
        rng = random.Random(6)
        for _ in range(60):
            images = random_list(rng, rng.getrandbits(5))
            groups: List[List[Tuple[bytes, int]]] = [[] for _ in range(2 + rng.getrandbits(3))]
            for pair in images:
                groups[rng.getrandbits(8) % len(groups)].append(pair)
            *_, last = added(rng, [counted(group) for group in groups])
            self.assertEqual(last, Answer(0, counted(images)))

    def test_going_on(self) -> None:
        """Counting goes on from a report that was added, as over one list."""
        rng = random.Random(7)
        for _ in range(40):
            first, second, third = (random_list(rng, rng.getrandbits(3)) for _ in range(3))
            number, both = report.add(counted(first), counted(second))
            for pair in third:
                number, both = report.count(both, *pair)
            self.assertEqual((number, both), (0, counted(first + second + third)))

    def test_empty_adds_nothing(self) -> None:
        rng = random.Random(8)
        for _ in range(100):
            some = cases_report.report_of(cases_report.random_numbers(rng))
            self.assertEqual(report.add(some, report.EMPTY), Answer(0, some))
            self.assertEqual(report.add(report.EMPTY, some), Answer(0, some))


class TestEdges(unittest.TestCase):
    """61, and where it is not given."""

    def check(self, numbers: Numbers, other: Numbers, number: int) -> None:
        """The number in both orders; the report stays where it is 61."""
        for one, two in ((numbers, other), (other, numbers)):
            first, second = cases_report.report_of(one), cases_report.report_of(two)
            expected = slow_answer(one, two)
            self.assertEqual(expected[0], number)
            answer = report.add(first, second)
            self.assertEqual((answer.number, cases_report.numbers_of(answer.report)), expected)
            if number == 61:
                self.assertEqual(answer.report, first)

    def test_each_total(self) -> None:
        """Every total alone: the last sum that fits, and those past it."""
        for at in TOTALS:
            for part in (1, 2, 2**31, 2**32, 2**63 - 1, 2**63, MOST - 1, MOST):
                for past in (0, 1, 2, 2**32):
                    if MOST - part + past in range(MOST + 1):
                        numbers = cases_report.with_number(NOTHING, at, MOST - part + past)
                        other = cases_report.with_number((5,) * 16, at, part)
                        self.check(numbers, other, 61 if past else 0)

    def test_two_totals(self) -> None:
        """One that passes is enough, wherever it stands."""
        for at, other_at in itertools.permutations(TOTALS, 2):
            numbers = cases_report.with_number((1,) * 16, at, MOST)
            other = cases_report.with_number(NOTHING, other_at, MOST)
            self.check(numbers, cases_report.with_number(other, at, 1), 61)
            self.check(numbers, cases_report.with_number(other, other_at, MOST - 1), 0)

    def test_largest(self) -> None:
        """It is no total, so two of any size fit; and a larger one is not taken with 61."""
        sizes = (0, 1, 2**32 - 1, 2**32, 2**63 - 1, 2**63, MOST - 1, MOST)
        for one, other in itertools.product(sizes, sizes):
            first = report.EMPTY._replace(largest=one, accepted=MOST)
            second = report.EMPTY._replace(largest=other)
            expected = first._replace(largest=max(one, other))
            self.assertEqual(report.add(first, second), Answer(0, expected))
            self.assertEqual(report.add(second, first), Answer(0, expected))
            self.assertEqual(report.add(first, second._replace(accepted=1)), Answer(61, first))

    def test_counting(self) -> None:
        """Each total that an image adds to, at its edge; those it adds nothing to may be full."""
        images = [(P2, 12), (P7, 12), (cases_sparse.base_image(), 64), (b"", 0)]
        images += [(image, 64) for image in cases_store.refused_images(64)]
        for image, length in images:
            share = slow_share(image, length)
            full = tuple(MOST - part for part in share)
            full = cases_report.with_number(full, LARGEST, 7)
            answer = report.count(cases_report.report_of(full), image, length)
            expected = cases_report.with_number((MOST,) * 16, LARGEST, max(7, share[LARGEST]))
            self.assertEqual(answer, Answer(0, cases_report.report_of(expected)))
            for at in TOTALS:
                past = cases_report.with_number(NOTHING, at, min(MOST, MOST - share[at] + 1))
                given = cases_report.report_of(past)
                answer = report.count(given, image, length)
                self.assertEqual(answer.number, 61 if share[at] else 0)
                if share[at]:
                    self.assertEqual(answer.report, given)

    def test_grouping_where_all_fit(self) -> None:
        """Reports whose sums are as large as they may be, in any order and grouping."""
        rng = random.Random(9)
        for _ in range(200):
            parts = reports_of_sums(rng, (MOST,) * 16, 2 + rng.getrandbits(3))
            answers = list(added(rng, parts))
            self.assertEqual({answer.number for answer in answers}, {0})
            largest = max(part.largest for part in parts)
            full = Report(MOST, MOST, MOST, MOST, largest, (MOST,) * 11)
            self.assertEqual(answers[-1].report, full)

    def test_grouping_where_one_does_not_fit(self) -> None:
        """With a total one past 64 bits, some adding gives 61, whatever the grouping."""
        rng = random.Random(10)
        for at in TOTALS * 10:
            wholes = cases_report.with_number((MOST,) * 16, at, MOST + 1)
            parts = reports_of_sums(rng, wholes, 2 + rng.getrandbits(3))
            if max(cases_report.numbers_of(part)[at] for part in parts) <= MOST:
                self.assertIn(61, [answer.number for answer in added(rng, parts)])

    def test_after_61(self) -> None:
        """The report is good for more: an image that fits is counted as ever."""
        full = report.EMPTY._replace(bytes_written=MOST - 3)
        self.assertEqual(report.count(full, P2, 12), Answer(61, full))
        self.assertEqual(report.count(full, P2, 11).report, full._replace(refused=refused(6)))
        less = full._replace(bytes_written=MOST - 4)
        after = Report(1, 1, MOST, 2, 12, NONE)
        self.assertEqual(report.count(less, P2, 12), Answer(0, after))


class TestText(unittest.TestCase):
    def test_none(self) -> None:
        expected = "accepted 0\nblocks 0\nbytes 0\nskipped 0\nlargest 0\n"
        self.assertEqual(report.text(report.EMPTY), expected)
        self.assertEqual(report.folder_text([]), expected)

    def test_p2(self) -> None:
        expected = "accepted 1\nblocks 1\nbytes 4\nskipped 2\nlargest 12\n"
        self.assertEqual(report.folder_text([P2]), expected)
        self.assertEqual(report.folder_text([P7]), expected)

    def test_refused(self) -> None:
        """By number, and none that no image got."""
        files = [P2, P2 + b"\0", b"", P2, P2[:27], b"\0" * 28, P7]
        expected = (
            "accepted 3\nblocks 3\nbytes 12\nskipped 6\nlargest 12\n"
            "refused 1 2\nrefused 2 1\nrefused 10 1\n"
        )
        self.assertEqual(report.folder_text(files), expected)

    def test_large_numbers(self) -> None:
        full = Report(MOST, MOST - 1, MOST - 2, 10**19, MOST, (0,) * 5 + (MOST,) * 6)
        lines = [
            "accepted 18446744073709551615", "blocks 18446744073709551614",
            "bytes 18446744073709551613", "skipped 10000000000000000000",
            "largest 18446744073709551615",
        ]
        lines += [f"refused {number} 18446744073709551615" for number in range(6, 12)]
        self.assertEqual(report.text(full).splitlines(), lines)

    def test_partition(self) -> None:
        """Judged for 1,048,576 bytes, no more and no less."""
        for blocks, line in ((262144, "largest 1048576"), (262145, "refused 6 1")):
            image = build.sparse_image(4, [build.skip(blocks)])
            self.assertEqual(report.folder_text([image]).splitlines()[-1], line)

    def test_long_files(self) -> None:
        """65,536 bytes are judged; one more ends the list, whatever stands after it."""
        size = LONGEST - 40
        image = build.sparse_image(size, [build.raw(bytes(size), size)])
        self.assertEqual(len(image), LONGEST)
        for files in ([image], [P2, image, P2], [image, image]):
            self.assertEqual(report.folder_text(files), slow_text(files))
            self.assertNotIn("refused", report.folder_text(files))
        for before, after in itertools.product(([], [P2], [b"", image]), ([], [P2, b""])):
            for long_file in (image + b"\0", bytes(LONGEST + 1), bytes(3 * LONGEST)):
                found = report.folder_text(before + [long_file] + after)
                self.assertEqual(found, report.folder_text(before))

    def test_random_lists(self) -> None:
        rng = random.Random(11)
        for count in range(60):
            files = [image for image, _ in random_list(rng, count)]
            self.assertEqual(report.folder_text(files), slow_text(files))

    def test_as_a_program(self) -> None:
        """In folders with none, some, one missing, more than nine, and one that is too long."""
        lists: List[Dict[str, bytes]] = [
            {},
            {"1.img": P2, "2.img": b"", "4.img": P2, "03.img": P2, "3.IMG": P2},
            {"2.img": P2, "0.img": P2, "01.img": P2},
            {f"{number}.img": P2 for number in range(1, 13)},
            {"1.img": P7, "2.img": P2.ljust(LONGEST + 1, b"\0"), "3.img": P2},
        ]
        counts = (0, 2, 0, 12, 1)
        for files, count in zip(lists, counts):
            with tempfile.TemporaryDirectory() as folder:
                for name, data in files.items():
                    with open(os.path.join(folder, name), "wb") as file:
                        file.write(data)
                program = [sys.executable, os.path.join(HERE, "report.py")]
                done = subprocess.run(program, cwd=folder, stdout=subprocess.PIPE, check=True)
            expected = slow_text([files[f"{number}.img"] for number in range(1, count + 1)])
            self.assertEqual(done.stdout, expected.encode("ascii"))


# Wrong rules, each in the place of a function of the reference.

right_of_image = report.of_image
right_sums = report.sums
right_add = report.add
right_count = report.count
right_passing = report.is_passing


def image_rule(**of: Callable[[Any, sparse.Accepted, sparse.Header], int]) -> Any:
    """Other numbers of an accepted image."""
    def wrong(image: bytes, length: int) -> Report:
        verdict, header = sparse.judge(image, length), sparse.read_header(image)
        found = right_of_image(image, length)
        if isinstance(verdict, sparse.Refusal):
            return found
        return found._replace(**{name: rule(found, verdict, header) for name, rule in of.items()})
    return wrong


def refused_rule(of: Callable[[Report, sparse.Header, int], Report]) -> Any:
    """Another report of a refused image."""
    def wrong(image: bytes, length: int) -> Report:
        verdict, found = sparse.judge(image, length), right_of_image(image, length)
        if isinstance(verdict, sparse.Accepted):
            return found
        return of(found, sparse.read_header(image), verdict.number)
    return wrong


WRONG_IMAGES: Tuple[Any, ...] = (
    image_rule(accepted=lambda found, verdict, header: 0),
    image_rule(accepted=lambda found, verdict, header: int(header.total_blocks != 0)),
    image_rule(blocks_written=lambda found, verdict, header: header.total_blocks),
    image_rule(blocks_written=lambda found, verdict, header: header.total_chunks),
    image_rule(blocks_written=lambda found, verdict, header: verdict.dont_care),
    image_rule(bytes_written=lambda found, verdict, header: found.largest),
    image_rule(bytes_written=lambda found, verdict, header: found.bytes_written % 2**32),
    image_rule(bytes_written=lambda found, verdict, header: 4 * verdict.written),
    image_rule(bytes_written=lambda found, verdict, header: 4096 * verdict.written),
    image_rule(blocks_skipped=lambda found, verdict, header: verdict.dont_care),
    image_rule(blocks_skipped=lambda found, verdict, header: verdict.unknown),
    image_rule(blocks_skipped=lambda found, verdict, header: header.total_blocks),
    image_rule(blocks_skipped=lambda found, verdict, header: found.largest - found.bytes_written),
    image_rule(largest=lambda found, verdict, header: found.bytes_written),
    image_rule(largest=lambda found, verdict, header: header.total_blocks),
    image_rule(largest=lambda found, verdict, header: found.largest % 2**32),
    image_rule(largest=lambda found, verdict, header: 0),
    image_rule(largest=lambda found, verdict, header: header.block_size * verdict.dont_care),
    refused_rule(lambda found, header, number: found._replace(accepted=1)),
    refused_rule(lambda found, header, number: report.EMPTY),
    refused_rule(lambda found, header, number: found._replace(refused=refused(number % 11 + 1))),
    refused_rule(lambda found, header, number: found._replace(refused=refused(12 - number))),
    refused_rule(lambda found, header, number: found._replace(refused=refused(number, number))),
    refused_rule(lambda found, header, number: found._replace(
        largest=header.total_blocks * header.block_size)),
    refused_rule(lambda found, header, number: found._replace(blocks_skipped=1)),
    *(
        refused_rule(lambda found, header, number, left_out=left_out: (
            report.EMPTY if number == left_out else found))
        for left_out in range(1, 12)
    ),
    lambda image, length: right_of_image(image, length + 1),
    lambda image, length: right_of_image(image, length - 1),
    lambda image, length: right_of_image(image, ROOM),
    lambda image, length: right_of_image(image, MOST),
    lambda image, length: right_of_image(image, length % 2**32),
)


def merged(of: Callable[[int, int, int], int], *places: int) -> Any:
    """Other sums at some places, by the place and the two numbers."""
    def wrong(one: Report, other: Report) -> Report:
        pairs = list(zip(cases_report.numbers_of(one), cases_report.numbers_of(other)))
        found = list(cases_report.numbers_of(right_sums(one, other)))
        for at in places:
            found[at] = of(at, *pairs[at])
        return cases_report.report_of(tuple(found))
    return wrong


WRONG_SUMS: Tuple[Any, ...] = (
    *(merged(lambda at, one, other: max(one, other), at) for at in TOTALS),
    *(merged(lambda at, one, other: (one + other) % 2**64, at) for at in TOTALS),
    *(merged(lambda at, one, other: min(one + other, MOST), at) for at in TOTALS),
    *(merged(lambda at, one, other: one, at) for at in range(16)),
    *(merged(lambda at, one, other: other, at) for at in range(16)),
    merged(lambda at, one, other: min(one, other), LARGEST),
    merged(lambda at, one, other: (one + other) % 2**64, LARGEST),
    merged(lambda at, one, other: min(one + other, MOST), LARGEST),
    merged(lambda at, one, other: one | other, LARGEST),
    merged(lambda at, one, other: max(one, other, key=lambda n: n % 2**32), LARGEST),
    merged(lambda at, one, other: max(one, other, key=lambda n: n ^ 2**63), LARGEST),
    merged(lambda at, one, other: one + other, LARGEST),
)

WRONG_PASSING: Tuple[Callable[[Report], bool], ...] = (
    lambda found: any(total >= MOST for total in report.totals(found)),
    lambda found: any(total > MOST + 1 for total in report.totals(found)),
    lambda found: any(total > 2**63 - 1 for total in report.totals(found)),
    lambda found: all(total > MOST for total in report.totals(found)),
    lambda found: right_passing(found) or found.largest == MOST,
    lambda found: right_passing(found) or found.largest >= 2**63,
    lambda found: right_passing(found) or sum(report.totals(found)) > MOST,
    lambda found: right_passing(found) or found.accepted + sum(found.refused) > MOST,
    lambda found: right_passing(found) or found.blocks_written + found.blocks_skipped > MOST,
)


def after_61(of: Callable[[Report, Report], Report]) -> Any:
    """Something else left with 61, of the report and the sums."""
    def wrong(one: Report, other: Report) -> Answer:
        answer = right_add(one, other)
        return Answer(61, of(one, right_sums(one, other))) if answer.number == 61 else answer
    return wrong


def wrapped(found: Report) -> Report:
    """The sums without their carries."""
    numbers = cases_report.numbers_of(found)
    return cases_report.report_of(tuple(number % 2**64 for number in numbers))


def with_sum(at: int) -> Callable[[Report, Report], Report]:
    """The report with the sum at one place, where that fits."""
    def wrong(one: Report, both: Report) -> Report:
        number = cases_report.numbers_of(both)[at]
        numbers = cases_report.numbers_of(one)
        fitting = number if number <= MOST else numbers[at]
        return cases_report.report_of(cases_report.with_number(numbers, at, fitting))
    return wrong


WRONG_ADDS: Tuple[Any, ...] = (
    after_61(lambda one, both: wrapped(both)),
    after_61(lambda one, both: report.EMPTY),
    *(after_61(with_sum(at)) for at in range(16)),
    lambda one, other: Answer(0, right_add(one, other).report),
    lambda one, other: Answer(right_add(one, other).number, one),
    lambda one, other: Answer(right_add(one, other).number, other),
)


def number_of(image: bytes, length: int) -> int:
    """The number of an image's refusal, or 0."""
    verdict = sparse.judge(image, length)
    return verdict.number if isinstance(verdict, sparse.Refusal) else 0


WRONG_COUNTS: Tuple[Any, ...] = (
    lambda one, *of: Answer(number_of(*of) or right_count(one, *of)[0], right_count(one, *of)[1]),
    lambda one, *of: Answer(0, one) if number_of(*of) else right_count(one, *of),
    lambda one, *of: right_add(right_of_image(*of), one),
    lambda one, *of: Answer(0, right_of_image(*of)),
    lambda one, *of: Answer(right_count(one, *of)[0] * (number_of(*of) == 0),
                            right_count(one, *of)[1]),
)

WRONG_RULES: Tuple[Tuple[str, Any], ...] = (
    *(("of_image", wrong) for wrong in WRONG_IMAGES),
    *(("sums", wrong) for wrong in WRONG_SUMS),
    *(("is_passing", wrong) for wrong in WRONG_PASSING),
    *(("add", wrong) for wrong in WRONG_ADDS),
    *(("count", wrong) for wrong in WRONG_COUNTS),
)


class TestGroup(unittest.TestCase):
    """What the vectors' cases show."""

    def answers(self) -> List[Tuple[Case, Numbers, int]]:
        """The cases with what they bring, and their numbers."""
        return [(case, share_of(case), cases_report.values(case)[0]) for case in cases_of_vectors()]

    def test_each_once(self) -> None:
        self.assertEqual(len(set(cases_of_vectors())), len(cases_of_vectors()))

    def test_values(self) -> None:
        for case in cases_of_vectors():
            self.assertEqual(cases_report.values(case), slow_values(case))

    def test_refusals(self) -> None:
        """Each number counted, to the last that fits, and past it."""
        found: Set[Tuple[int, int]] = set()
        for case, share, number in self.answers():
            if isinstance(case, Counting) and any(share[5:]):
                at = share.index(1, 5)
                found.add((at - 4, MOST - case.numbers[at] if number == 0 else -1))
        for number in range(1, 12):
            self.assertLessEqual({(number, 1), (number, MOST), (number, -1)}, found)

    def test_each_total_at_its_edge(self) -> None:
        """Each total made exactly full, and alone one past it and far past it, by counting and by
        adding; in adding also in the other order."""
        full: Set[Tuple[str, int]] = set()
        past: Set[Tuple[str, int, int]] = set()
        far: Set[Tuple[str, int]] = set()
        for case, share, number in self.answers():
            kind = type(case).__name__
            passes = [at for at in TOTALS if case.numbers[at] + share[at] > MOST]
            self.assertEqual(number, 61 if passes else 0)
            full |= {(kind, at) for at in TOTALS if not passes and share[at]
                     and case.numbers[at] + share[at] == MOST}
            if len(passes) == 1:
                over = case.numbers[passes[0]] + share[passes[0]] - MOST
                order = int(case.numbers[passes[0]] > share[passes[0]])
                past |= {(kind, passes[0], order)} if over == 1 else set()
                far |= {(kind, passes[0])} if over > 1 else set()
        both = set(itertools.product(("Counting", "Adding"), TOTALS))
        self.assertEqual(full, both)
        self.assertLessEqual(set(itertools.product(("Adding",), TOTALS, (0, 1))), past)
        self.assertLessEqual(set(itertools.product(("Counting",), TOTALS, (1,))), past)
        adding = {("Adding", at) for at in TOTALS}
        self.assertLessEqual(adding | {("Counting", at) for at in (1, 2, 3)}, far)

    def test_all_others_change_without_61(self) -> None:
        """Where one total passes, every other number would have become another."""
        found = set()
        for case, share, number in self.answers():
            passes = [at for at in TOTALS if case.numbers[at] + share[at] > MOST]
            if isinstance(case, Adding) and len(passes) == 1:
                same = [at for at in TOTALS if share[at] == 0]
                if not same and share[LARGEST] > case.numbers[LARGEST]:
                    found.add(passes[0])
        self.assertEqual(found, set(TOTALS))

    def test_largest(self) -> None:
        """Larger, smaller and equal ones, of any width, counted and added; the largest that there
        is with no 61; none of a refused image."""
        found: Set[Tuple[str, int, int]] = set()
        most = set()
        for case, share, number in self.answers():
            if number == 0 and (isinstance(case, Adding) or share[0]):
                kind, mine, other = type(case).__name__, case.numbers[LARGEST], share[LARGEST]
                found.add((kind, (mine > other) - (mine < other), max(mine, other) >> 32 != 0))
                if mine == MOST:
                    most.add((kind, other == MOST))
        self.assertEqual(found, set(itertools.product(("Counting", "Adding"), (-1, 0, 1), (0, 1))))
        self.assertEqual(most, {("Counting", False), ("Adding", False), ("Adding", True)})

    def test_commuted(self) -> None:
        """Pairs that stand in both orders, with 61 and without."""
        pairs = {case: number for case, _, number in self.answers() if isinstance(case, Adding)}
        both = [number for case, number in pairs.items() if Adding(*case[::-1]) in pairs]
        self.assertGreater(both.count(61), 30)
        self.assertGreater(both.count(0), 20)

    def test_accepted(self) -> None:
        """Chunks of each kind alone, all, and none, in blocks of 4 and 65,536 bytes; written and
        skipped blocks, and bytes, past 32 bits."""
        found: Set[Tuple[int, bool, bool, bool]] = set()
        shares = []
        for case, share, _ in self.answers():
            if isinstance(case, Counting) and share[0]:
                verdict = sparse.judge(case.image, case.partition_length)
                assert isinstance(verdict, sparse.Accepted)
                counts = verdict.written, verdict.dont_care, verdict.unknown
                size = sparse.read_header(case.image).block_size
                found.add((size, *(blocks != 0 for blocks in counts)))
                shares.append(share)
        kinds = [(True, False, False), (False, True, False), (False, False, True)]
        kinds += [(True, True, True), (False, False, False)]
        self.assertLessEqual({(size, *kind) for size in (4, 65536) for kind in kinds}, found)
        self.assertGreater(max(share[2] for share in shares), 2**47)
        self.assertEqual(max(share[1] for share in shares), 2**32 - 1)

    def test_wrong_rules_are_seen(self) -> None:
        """Each changes a line."""
        cases = cases_of_vectors()
        lines = [cases_report.values(case) for case in cases]
        for i, (name, wrong) in enumerate(WRONG_RULES):
            with self.subTest(i=i, name=name), unittest.mock.patch.object(report, name, wrong):
                self.assertNotEqual(list(map(tried, cases)), lines)


def tried(case: Case) -> Tuple[int, ...]:
    """The values of a case under a wrong rule, or none where it leaves numbers of 64 bits."""
    try:
        return cases_report.values(case)
    except (struct.error, ValueError):
        return ()


if __name__ == "__main__":
    unittest.main()
