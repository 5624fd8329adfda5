"""Holds the starter of change request 12 against document 02.

Run by `python3 tests/reference/test_starter.py`.
"""

import dataclasses
import itertools
import random
import struct
import unittest
import unittest.mock
from functools import lru_cache
from typing import Any, Callable, Iterator, List, Optional, Sequence, Set, Tuple

import boot
import build
import cases_boot
import cases_slots
import cases_start
import crc
import slots
import starter
import vectors
from cases_start import Case, Result
from slots import Record, Slot
from starter import Outcome

BOOTS, RECOVERY, REFUSED = 1, 2, 3
HEAD = struct.Struct("<22s7I")
LONGEST = 4096
QUIET = bytes(32)
ASKED = b"boot-recovery" + bytes(19)
BOOT_NUMBERS = (21, 22, 23, 24, 25, 26, 27)

# Images typed from document 01: headers alone, all sections empty.
OLD = (
    b"ANDROID!" + struct.pack("<10I", 0, 0, 0, 0, 0, 0, 0, 2048, 0, 0) + b"name".ljust(16)
    + b"quiet\0none".ljust(512, b"-") + b"id".ljust(32) + b" splash\0none".ljust(1024, b"-")
)
NEW = (
    b"ANDROID!" + struct.pack("<4I", 0, 0, 0, 1580) + b"reserved" * 2 + struct.pack("<I", 3)
    + b"root=/dev/sda1\0none".ljust(1536, b"-")
)

# P12 to P14 of document 01, and what Start leaves of them.
TIRED = Slot(True, False, False, False, 0)
MARKED = Slot(True, True, False, False, 0)
STRONG = Slot(True, False, True, False, 2)
WEAK = Slot(True, False, False, False, 2)
LAST = Slot(True, False, False, False, 1)
UNUSED = Slot(False, False, False, False, 0)
P12, P12_AFTER = (
    Record((TIRED, STRONG, UNUSED, UNUSED), 0, 2), Record((MARKED, STRONG, UNUSED, UNUSED), 1, 1)
)
P13, P13_AFTER = (
    Record((TIRED, WEAK, UNUSED, UNUSED), 0, 2), Record((MARKED, WEAK, UNUSED, UNUSED), 0, 1)
)
P14, P14_AFTER = (
    Record((LAST, UNUSED, UNUSED, UNUSED), 0, 1), Record((TIRED, UNUSED, UNUSED, UNUSED), 0, 1)
)


# A second formulation, from the bytes of a case.

def version_of(image: bytes) -> int:
    """The number that stands where the version does."""
    return int.from_bytes(image[40:44], "little")


def record_in(data: bytes) -> Optional[Record]:
    """The record that stands in some bytes; none where a flag is neither 0 nor 1."""
    flags = [data[at] for at in range(20) if at % 5 != 4]
    if not set(flags) <= {0, 1}:
        return None
    a, b, c, d = (Slot(*map(bool, data[at:at + 4]), data[at + 4]) for at in (0, 5, 10, 15))
    return Record((a, b, c, d), data[20], data[21])


def slow_line(case: Case, slot: int) -> bytes:
    """The line of a slot's image, byte after byte."""
    image = case.images[slot]
    line = [*case.line, 0x20]
    for first, end in ((64, 576), (608, 1632)) if version_of(image) < 3 else ((44, 1580),):
        line += itertools.takewhile(lambda byte: byte != 0, image[first:end])
    line += [*b" androidboot.slot_suffix=_", 0x61 + slot]
    if list(case.misc[:14]) != [98, 111, 111, 116, 45, 114, 101, 99, 111, 118, 101, 114, 121, 0]:
        line += b" skip_initramfs"
    return bytes(line)


def slow_result(case: Case, space: bytes) -> Result:
    """The first refusal of 02's order, each looked for with no eye to the others, or the line."""
    nothing = (0,) * 19
    record = record_in(case.record)
    if record is None or isinstance(slots.start(record)[0], slots.Refusal):
        return Result(31, (REFUSED, *nothing), case.record, space)
    if len(case.misc) != 32:
        return Result(51, (REFUSED, *nothing), case.record, space)
    picked, left = slots.start(record)
    after = bytes(cases_slots.record_values(left))
    if isinstance(picked, slots.Recovery):
        return Result(0, (RECOVERY, *nothing), after, space)
    slot = next(k for k in range(4) if picked == slots.Boots(k))
    number, *layout = cases_boot.values(case.images[slot])
    line = slow_line(case, slot) if number == 0 else b""
    is_long = len(line) not in range(min(LONGEST, len(space)) + 1)
    found = [n for n in (number, 52 if is_long else 0) if n != 0]
    if found:
        return Result(found[0], (REFUSED, *nothing), after, space)
    written = line + space[len(line):]
    return Result(0, (BOOTS, slot, len(line), *layout), after, written)


def slow_values(case: Case) -> Tuple[int, ...]:
    """The values of a case of `start`, by that formulation."""
    space = bytes((11 + 5 * i) % 256 for i in range(case.room))
    number, (kind, slot, length, *layout), record, after = slow_result(case, space)
    return number, kind, slot, length, crc.checksum(struct.pack("<17Q", *layout) + record + after)


def cases_in(data: bytes) -> Iterator[Case]:
    """The cases of `start`, as its file has them."""
    at = 0
    while at < len(data):
        record, *lengths, room = HEAD.unpack_from(data, at)
        ends = list(itertools.accumulate(lengths, initial=at + HEAD.size))
        a, b, c, d, misc, line = (data[i:j] for i, j in zip(ends, ends[1:]))
        yield Case(record, (a, b, c, d), misc, line, room)
        at = ends[-1]
    assert at == len(data)


@lru_cache(maxsize=None)
def cases_of_vectors() -> List[Case]:
    """The cases that the vectors have."""
    return list(cases_in(cases_start.group(random.Random(vectors.SEED)).data))


def random_cases(count: int) -> Iterator[Case]:
    """Cases with good images or refused ones at every place."""
    rng = random.Random(12)
    for _ in range(count):
        case = cases_start.random_case(rng)
        images = [cases_start.random_image(rng) for _ in range(4)]
        bad = cases_start.refused_images()[rng.getrandbits(4) % 9]
        images = [bad if rng.getrandbits(3) == 0 else image for image in images]
        case = case._replace(images=tuple(images))
        yield cases_start.fitted(case, cases_start.random_spare(rng))


def space_of(length: int) -> bytes:
    """A space that holds bytes of its own."""
    return bytes((200 + 3 * i) % 256 for i in range(length))


class TestExamples(unittest.TestCase):
    """Lines that are typed from document 02."""

    def check(
        self, record: Record, after: Record, images: Sequence[bytes], misc: bytes, loader: bytes,
        slot: int, line: bytes,
    ) -> None:
        """A line, in a space that is longer and in one that is just so long; 52 in one less."""
        images = [*images, b"", b"", b""][:4]
        expected = starter.Starts(slot, boot.Located(*self.located(images[slot])), len(line))
        for spare in (0, 1, 70):
            space = space_of(len(line) + spare)
            outcome = starter.start(record, images, misc, loader, space)
            self.assertEqual(outcome, Outcome(expected, after, line + space[len(line):]))
        space = space_of(len(line) - 1)
        outcome = starter.start(record, images, misc, loader, space)
        self.assertEqual(outcome, Outcome(boot.Refusal(52), after, space))

    def located(self, image: bytes) -> Tuple[int, List[boot.Section], bool]:
        """What the boot part answers for an image without sections."""
        page = 2048 if version_of(image) < 3 else 4096
        sections = [boot.Section(name, page, 0) for name in ("kernel", "ramdisk")]
        return version_of(image), sections, False

    def test_current_slot(self) -> None:
        line = b"console=ttyS0 root=/dev/sda1 androidboot.slot_suffix=_a skip_initramfs"
        self.assertEqual(len(line), 70)
        self.check(P14, P14_AFTER, [NEW], QUIET, b"console=ttyS0", 0, line)

    def test_taking_over(self) -> None:
        line = b"a=1 quiet splash androidboot.slot_suffix=_b"
        self.check(P12, P12_AFTER, [NEW, OLD], ASKED, b"a=1", 1, line)
        self.check(P12, P12_AFTER, [b"", OLD], QUIET, b"a=1", 1, line + b" skip_initramfs")

    def test_empty_lines(self) -> None:
        """An empty loader's line still has its space, and an empty image's line its place."""
        line = b" root=/dev/sda1 androidboot.slot_suffix=_a"
        self.check(P14, P14_AFTER, [NEW], ASKED, b"", 0, line)
        empty = build.with_bytes(NEW, 44, b"\0")
        line = b"x  androidboot.slot_suffix=_a skip_initramfs"
        self.check(P14, P14_AFTER, [empty], QUIET, b"x", 0, line)
        self.check(P14, P14_AFTER, [empty], ASKED, b"", 0, b"  androidboot.slot_suffix=_a")

    def test_extra_cmdline(self) -> None:
        """It follows where the cmdline ended early, was empty or full, in versions 0 to 2."""
        end = b" androidboot.slot_suffix=_a"
        for texts, line in (
            ((b"\0", b"\0"), b" "),
            ((b"\0", b"e\0"), b" e"),
            ((b"c\0", b"\0"), b" c"),
            ((b"c" * 512, b"e" * 1024), b" " + b"c" * 512 + b"e" * 1024),
            ((b"c" * 511 + b"\0", b"e" * 1023 + b"\0"), b" " + b"c" * 511 + b"e" * 1023),
        ):
            image = build.with_bytes(build.with_bytes(OLD, 64, texts[0]), 608, texts[1])
            self.check(P14, P14_AFTER, [image], ASKED, b"", 0, line + end)
        full = build.with_bytes(NEW, 44, b"c" * 1536) + b"past"
        self.check(P14, P14_AFTER, [full], ASKED, b"", 0, b" " + b"c" * 1536 + end)

    def test_loader_line_of_any_bytes(self) -> None:
        end = b" root=/dev/sda1 androidboot.slot_suffix=_a"
        for loader in (b"\0", b"a\0b", bytes(range(256)), b" \n", b"\xFF"):
            self.check(P14, P14_AFTER, [NEW], ASKED, loader, 0, loader + end)

    def test_letters(self) -> None:
        """Each place, current and successful: no try is taken."""
        for slot, letter in enumerate((b"a", b"b", b"c", b"d")):
            places = [UNUSED] * 4
            places[slot] = STRONG
            record = Record((places[0], places[1], places[2], places[3]), slot, 1)
            line = b"x root=/dev/sda1 androidboot.slot_suffix=_" + letter
            self.check(record, record, [NEW if k == slot else b"" for k in range(4)], ASKED, b"x",
                       slot, line)

    def test_asked(self) -> None:
        """What stands in misc after the zero byte does not matter; any bit before it does."""
        line = b"x root=/dev/sda1 androidboot.slot_suffix=_a"
        for misc in (ASKED, ASKED[:14] + b"\xFF" * 18, ASKED[:14] + b"recovery\n--wipe..."):
            self.check(P14, P14_AFTER, [NEW], misc, b"x", 0, line)
        line += b" skip_initramfs"
        for bit in range(8 * 14):
            other = bytes([ASKED[bit // 8] ^ 1 << bit % 8])
            misc = build.with_bytes(ASKED, bit // 8, other)
            self.check(P14, P14_AFTER, [NEW], misc, b"x", 0, line)

    def test_4096_bytes(self) -> None:
        """The line's own limit, whatever the space."""
        rest = len(b" root=/dev/sda1 androidboot.slot_suffix=_a skip_initramfs")
        images = [NEW, b"", b"", b""]
        for more, room in itertools.product((0, 1, 5), (4096, 4097, 9000)):
            space = space_of(room)
            loader = b"l" * (4096 - rest + more)
            answer, after, left = starter.start(P14, images, QUIET, loader, space)
            self.assertEqual(after, P14_AFTER)
            if more == 0:
                self.assertEqual(left[4096:], space[4096:])
                self.assertTrue(left[:4096].endswith(b"_a skip_initramfs"))
                self.assertEqual(answer.length if isinstance(answer, starter.Starts) else 0, 4096)
            else:
                self.assertEqual((answer, left), (boot.Refusal(52), space))


class TestTexts(unittest.TestCase):
    """The cmdlines' places, in every version."""

    def header(self, version: int, texts: Sequence[bytes]) -> bytes:
        """A header that is packed field after field, with these texts."""
        names = ("cmdline", "extra_cmdline")
        plan = build.BootPlan(version, filler=0xEE, **dict(zip(names, texts)))
        return build.boot_header(plan)

    def test_their_places(self) -> None:
        """The table's positions against such headers."""
        for version in range(5):
            lengths = (512, 1024) if version < 3 else (1536,)
            texts = [b"[" + bytes(length - 2) + b"]" for length in lengths]
            header = self.header(version, texts)
            self.assertEqual(boot.read_cmdlines(header, boot.TABLE[version]), texts)
            self.assertEqual(starter.image_line(header, version), b"[" * len(texts))

    def test_the_boot_part_does_not_look_at_them(self) -> None:
        for version in range(5):
            texts = [b"text"] * (2 if version < 3 else 1)
            expected = boot.locate(self.header(version, [b"\0"]))
            self.assertEqual(boot.locate(self.header(version, texts)), expected)
            self.assertIsInstance(expected, boot.Located)

    def test_no_other_byte(self) -> None:
        """No byte of an accepted header changes the line but those of the texts, up to the zero
        byte and with it."""
        for version, places in ((0, (64, 608)), (2, (64, 608)), (3, (44,)), (4, (44,))):
            header = self.header(version, [b"text\0"] * len(places))
            line = starter.image_line(header, version)
            shown = {at + i for at in places for i in range(5)}
            for at in range(len(header)):
                other = build.with_bytes(header, at, bytes([header[at] ^ 0x55]))
                self.assertEqual(starter.image_line(other, version) != line, at in shown)


class TestOrder(unittest.TestCase):
    """Refusals and Recovery, by examples."""

    def check(self, given: Tuple[Any, ...], space: bytes, answer: Any, after: Record) -> None:
        """The answer, the record after it, and the space as it was."""
        self.assertEqual(starter.start(*given, space), Outcome(answer, after, space))

    def test_31(self) -> None:
        """First of all, and the record stays."""
        for record in cases_slots.invalid_records() + cases_slots.wrong_counts():
            for misc, image in itertools.product((QUIET, ASKED, b"", QUIET[1:]), (NEW, b"")):
                self.check((record, [image] * 4, misc, b""), bytes(99), boot.Refusal(31), record)

    def test_51(self) -> None:
        """Before Start, so before Recovery, the image's refusals and 52; the record stays."""
        for length, record in itertools.product((*range(32), 33, 34, 64, 288), (P12, P13, P14)):
            misc = (ASKED * 9)[:length]
            for image, room in itertools.product((NEW, b""), (0, 99)):
                given = (record, [image] * 4, misc, b"")
                self.check(given, space_of(room), boot.Refusal(51), record)

    def test_recovery(self) -> None:
        """Start's own answer, with the mark that it made; no image is looked at, and no line is
        too long."""
        for misc, image, room in itertools.product((QUIET, ASKED), (NEW, b""), (0, 9, 99)):
            for loader in (b"", bytes(5000)):
                given = (P13, [image] * 4, misc, loader)
                self.check(given, space_of(room), slots.Recovery(), P13_AFTER)

    def test_image_refused(self) -> None:
        """The started slot's image alone: a try is spent, or the other slot stays current."""
        numbers = []
        for image, room in itertools.product(cases_start.refused_images(), (0, 99)):
            refusal = boot.locate(image)
            assert isinstance(refusal, boot.Refusal)
            numbers.append(refusal.number)
            given = (P14, [image, NEW, NEW, NEW], QUIET, b"")
            self.check(given, space_of(room), refusal, P14_AFTER)
            given = (P12, [NEW, image, NEW, NEW], QUIET, b"")
            self.check(given, space_of(room), refusal, P12_AFTER)
        self.assertEqual(numbers[::2], [21, 22, 23, 21, 24, 25, 27, 26, 26])

    def test_three_tries(self) -> None:
        """A bad image spends the tries of its slot; then another one takes over, or Recovery."""
        for other, last in ((STRONG, starter.Starts), (WEAK, slots.Recovery)):
            record = slots.counted((LAST._replace(tries=3), other, UNUSED, UNUSED), 0)
            images = [b"", NEW, b"", b""]
            answers: List[Any] = []
            for _ in range(4):
                answer, record, _ = starter.start(record, images, QUIET, b"", bytes(99))
                answers.append(answer)
            self.assertEqual(answers[:3], [boot.Refusal(21)] * 3)
            self.assertIsInstance(answers[3], last)
            self.assertTrue(record.slots[0].unbootable)


class TestProperties(unittest.TestCase):
    """What holds of every input."""

    def test_second_formulation(self) -> None:
        for case in random_cases(1500):
            space = space_of(case.room)
            self.assertEqual(cases_start.result_of(case, space), slow_result(case, space))

    def test_record_and_space(self) -> None:
        """The record is as before, for 31 and 51, or as Start alone leaves it; the space begins
        with a line that has its length, or is as before."""
        for case in random_cases(1500):
            space = space_of(case.room)
            number, (kind, slot, length, *_), record, after = cases_start.result_of(case, space)
            given = record_in(case.record)
            assert given is not None
            left = given if number in (31, 51) else slots.start(given)[1]
            self.assertEqual(record, bytes(cases_slots.record_values(left)))
            self.assertEqual(after[length:], space[length:])
            self.assertEqual((kind == BOOTS, kind == REFUSED), (length != 0, number != 0))
            if kind == BOOTS:
                self.assertTrue(after.startswith(case.line + b" "))
                self.assertIn(b" androidboot.slot_suffix=_%c" % (97 + slot), after[:length])

    def test_52_exactly_when(self) -> None:
        """By the length of the line that a space of any length would take."""
        count = 0
        for case in random_cases(700):
            needed = cases_start.needed_room(case)
            for line in (case.line, bytes(max(0, LONGEST - needed)) + case.line):
                needed = cases_start.needed_room(case._replace(line=line))
                if needed == 0 or len(case.misc) != 32:
                    continue
                count += 1
                for room in (0, needed - 1, needed, needed + 1, LONGEST, LONGEST + 1, 9000):
                    result = cases_start.result_of(case._replace(line=line), space_of(room))
                    is_long = needed > room or needed > LONGEST
                    self.assertEqual(result.number, 52 if is_long else 0)
        self.assertGreater(count, 400)

    def test_nothing_else_matters(self) -> None:
        """Other slots' images, the bytes of misc past its first 14 and those of the space."""
        for case in random_cases(700):
            result = cases_start.result_of(case, bytes(case.room))
            _, (kind, slot, length, *_), _, after = result
            if kind == BOOTS:
                images = cases_start.around(slot, case.images[slot])
                misc = case.misc[:14] + b"\x99" * 18
                other = case._replace(images=images, misc=misc)
                expected = result._replace(space=after[:length] + space_of(case.room)[length:])
                self.assertEqual(cases_start.result_of(other, space_of(case.room)), expected)

    def test_layout(self) -> None:
        """It is the boot part's answer for the started slot's image, with any sections."""
        rng = random.Random(13)
        for _ in range(300):
            image = cases_boot.random_image(rng, cmdline=b"x\0")
            answer, *_ = starter.start(P12, [NEW, image, NEW, NEW], QUIET, b"", bytes(99))
            located = boot.locate(image)
            found = answer.located if isinstance(answer, starter.Starts) else answer
            self.assertEqual(found, located)


# Wrong rules, each in the place of a part of the reference.

right_start = starter.start
right_line = starter.final_line
right_text = starter.image_line
right_asked = starter.is_recovery_asked

Start = Callable[[Record, Sequence[bytes], bytes, bytes, bytes], Outcome]


def with_image(of: Callable[[Sequence[bytes], int, int], bytes]) -> Start:
    """Another image in the place of the started slot's, by the images, that slot and the one that
    was current."""
    def wrong(record: Record, images: Sequence[bytes], *rest: bytes) -> Outcome:
        picked = slots.start(record)[0]
        slot = picked.slot if isinstance(picked, slots.Boots) else 0
        other = [*images]
        other[slot] = of(images, slot, record.current % 4)
        return right_start(record, other, *rest)
    return wrong


def first_good(images: Sequence[bytes], slot: int, _current: int) -> bytes:
    """The started slot's image, or the next that is good."""
    turned = [images[(slot + step) % 4] for step in range(4)]
    good = [image for image in turned if isinstance(boot.locate(image), boot.Located)]
    return good[0] if good else images[slot]


def with_outcome(of: Callable[[Outcome, Record, bytes], Outcome]) -> Start:
    """Another outcome, by the right one and the record and the space before."""
    def wrong(record: Record, images: Any, misc: bytes, line: bytes, space: bytes) -> Outcome:
        return of(right_start(record, images, misc, line, space), record, space)
    return wrong


def number_of(outcome: Outcome) -> int:
    """The number of a refusal, 0 for none."""
    return outcome.answer.number if isinstance(outcome.answer, boot.Refusal) else 0


def record_back(*numbers: int) -> Start:
    """The record as it was, with some refusals."""
    return with_outcome(lambda outcome, record, _: (
        outcome._replace(record=record) if number_of(outcome) in numbers else outcome))


def tries_back(outcome: Outcome, record: Record, _space: bytes) -> Outcome:
    """The try is given back with a refusal, and nothing else."""
    if number_of(outcome) == 0:
        return outcome
    pairs = zip(outcome.record.slots, record.slots)
    a, b, c, d = (slot._replace(tries=before.tries) for slot, before in pairs)
    return outcome._replace(record=outcome.record._replace(slots=(a, b, c, d)))


def answered(**of: Callable[[starter.Starts, Outcome, Record], Any]) -> Start:
    """Other values in an answer that a slot starts."""
    def wrong(outcome: Outcome, record: Record, _space: bytes) -> Outcome:
        answer = outcome.answer
        if not isinstance(answer, starter.Starts):
            return outcome
        changes = {name: make(answer, outcome, record) for name, make in of.items()}
        return outcome._replace(answer=dataclasses.replace(answer, **changes))
    return with_outcome(wrong)


def spaced(of: Callable[[bytes, int], bytes]) -> Start:
    """Another space beside a line, by the right one and the line's length."""
    def wrong(outcome: Outcome, _record: Record, space: bytes) -> Outcome:
        answer = outcome.answer
        length = answer.length if isinstance(answer, starter.Starts) else 0
        after = of(outcome.space, length)[:len(space)] if length else outcome.space
        return outcome._replace(space=after)
    return with_outcome(wrong)


def space_lost(kind: Any, *numbers: int) -> Start:
    """A space that does not stay as it was, with some answers."""
    def wrong(outcome: Outcome, _record: Record, space: bytes) -> Outcome:
        is_one = isinstance(outcome.answer, kind) and number_of(outcome) in (numbers or (0,))
        return outcome._replace(space=b" " + space[1:]) if is_one and space else outcome
    return with_outcome(wrong)


def misc_late(until: Tuple[int, ...], keeps_record: bool = False) -> Start:
    """51 only where there is none of these refusals, 0 being Recovery; after Start has left its
    record, or with that as it was."""
    def wrong(record: Record, images: Any, misc: bytes, line: bytes, space: bytes) -> Outcome:
        if len(misc) == 32 or not slots.is_valid(record):
            return right_start(record, images, misc, line, space)
        outcome = right_start(record, images, misc[:32].ljust(32, b"\0"), line, space)
        is_start = isinstance(outcome.answer, starter.Starts)
        if number_of(outcome) in until and not is_start:
            return outcome
        left = record if keeps_record else outcome.record
        return Outcome(boot.Refusal(51), left, space)
    return wrong


def long_before(is_one: Callable[[Outcome], bool]) -> Start:
    """52 in the place of some answers where the space has less than every line takes."""
    def wrong(record: Record, images: Any, misc: bytes, line: bytes, space: bytes) -> Outcome:
        outcome = right_start(record, images, misc, line, space)
        is_long = is_one(outcome) and len(space) < len(line) + 28
        return outcome._replace(answer=boot.Refusal(52)) if is_long else outcome
    return wrong


def asked_answers(record: Record, images: Any, misc: bytes, line: bytes, space: bytes) -> Outcome:
    """Recovery is answered where it is asked for."""
    outcome = right_start(record, images, misc, line, space)
    is_taken = isinstance(outcome.answer, starter.Starts) and right_asked(misc)
    return Outcome(slots.Recovery(), outcome.record, space) if is_taken else outcome


def started_twice(record: Record, *rest: Any) -> Outcome:
    """Start is run once more on what it left."""
    outcome = right_start(record, *rest)
    is_run = number_of(outcome) not in (31, 51)
    return outcome._replace(record=slots.start(outcome.record)[1]) if is_run else outcome


WRONG_STARTS: Tuple[Start, ...] = (
    with_image(lambda images, slot, current: images[current]),
    with_image(lambda images, slot, current: images[0]),
    with_image(lambda images, slot, current: images[3]),
    with_image(lambda images, slot, current: images[slot ^ 1]),
    with_image(lambda images, slot, current: images[slot - 1]),
    with_image(lambda images, slot, current: images[3 - slot]),
    with_image(lambda images, slot, current: b"".join(images)),
    with_image(first_good),
    *(record_back(number) for number in BOOT_NUMBERS + (52,)),
    with_outcome(tries_back),
    with_outcome(lambda outcome, record, _: outcome._replace(record=record)),
    with_outcome(lambda outcome, record, _: outcome._replace(
        record=outcome.record._replace(current=record.current))),
    started_twice,
    answered(slot=lambda answer, outcome, record: 0),
    answered(slot=lambda answer, outcome, record: record.current),
    answered(length=lambda answer, outcome, record: len(outcome.space)),
    answered(length=lambda answer, outcome, record: answer.length + 1),
    answered(located=lambda answer, outcome, record: dataclasses.replace(
        answer.located, retired=False)),
    answered(located=lambda answer, outcome, record: dataclasses.replace(
        answer.located, sections=answer.located.sections[:-1])),
    spaced(lambda space, length: space[:length] + b"\0" + space[length + 1:]),
    spaced(lambda space, length: space[:length].ljust(len(space), b"\0")),
    space_lost(slots.Recovery),
    *(space_lost(boot.Refusal, *numbers) for numbers in ((31,), (51,), (52,), BOOT_NUMBERS)),
    misc_late(()), misc_late((0,), True), misc_late((0, *BOOT_NUMBERS)),
    misc_late(BOOT_NUMBERS, True), misc_late((52,), True), misc_late((0, *BOOT_NUMBERS, 52)),
    long_before(lambda outcome: number_of(outcome) in BOOT_NUMBERS),
    long_before(lambda outcome: isinstance(outcome.answer, slots.Recovery)),
    asked_answers,
)


def joined(of: Callable[[bytes, bytes, bytes, bytes], Tuple[bytes, ...]]) -> Any:
    """Another line, of the loader's, the image's, the suffix with its letter and the ending."""
    def wrong(loader: bytes, from_image: bytes, slot: int, is_asked: bool) -> bytes:
        suffix = b" androidboot.slot_suffix=_" + b"abcd"[slot:slot + 1]
        return b"".join(of(loader, from_image, suffix, b"" if is_asked else b" skip_initramfs"))
    return wrong


def lettered(of: Callable[[int], int]) -> Any:
    """Another letter."""
    def wrong(loader: bytes, from_image: bytes, slot: int, is_asked: bool) -> bytes:
        line = right_line(loader, from_image, slot, is_asked)
        head = loader + b" " + from_image + b" androidboot.slot_suffix=_"
        return head + bytes([of(slot)]) + line[len(head) + 1:]
    return wrong


WRONG_LINES: Tuple[Any, ...] = (
    lettered(lambda slot: ord("b") + slot),
    lettered(lambda slot: ord("A") + slot),
    lettered(lambda slot: ord("0") + slot),
    lettered(lambda slot: ord("a")),
    lettered(lambda slot: ord("a") + slot % 2),
    lettered(lambda slot: ord("a") + min(slot, 2)),
    joined(lambda loader, text, suffix, end: (loader, text, suffix, end)),
    joined(lambda loader, text, suffix, end: (loader, b" " if loader else b"", text, suffix, end)),
    joined(lambda loader, text, suffix, end: (loader, b" " if text else b"", text, suffix, end)),
    joined(lambda loader, text, suffix, end: (text, b" ", loader, suffix, end)),
    joined(lambda loader, text, suffix, end: (loader, suffix, b" ", text, end)),
    joined(lambda loader, text, suffix, end: (loader, b" ", text, end, suffix)),
    joined(lambda loader, text, suffix, end: (loader, b" ", text, suffix, b" skip_initramfs")),
    joined(lambda loader, text, suffix, end: (loader, b" ", text, suffix)),
    joined(lambda loader, text, suffix, end: (
        loader, b" ", text, suffix, b"" if end else b" skip_initramfs")),
    joined(lambda loader, text, suffix, end: (loader, b" ", text, suffix[:-2], suffix[-1:], end)),
    joined(lambda loader, text, suffix, end: (loader, b" ", text, suffix, end, b"\0")),
    joined(lambda loader, text, suffix, end: (loader, b" ", text, suffix, end, b"\n")),
    joined(lambda loader, text, suffix, end: (loader.split(b"\0")[0], b" ", text, suffix, end)),
    joined(lambda loader, text, suffix, end: (loader.strip(b"\0"), b" ", text, suffix, end)),
    joined(lambda loader, text, suffix, end: (loader.rstrip(b"\n"), b" ", text, suffix, end)),
    joined(lambda loader, text, suffix, end: (loader.lstrip(b" "), b" ", text, suffix, end)),
    joined(lambda loader, text, suffix, end: (loader.rstrip(b" "), b" ", text, suffix, end)),
    joined(lambda loader, text, suffix, end: (loader, b" ", text.strip(b" "), suffix, end)),
    joined(lambda loader, text, suffix, end: (loader, b" ", text.rstrip(b"\n"), suffix, end)),
)


def texts_of(image: bytes, version: int) -> List[bytes]:
    """The cmdline, and the extra cmdline in versions 0 to 2, each up to its zero byte."""
    return [starter.up_to_zero(text) for text in boot.read_cmdlines(image, boot.TABLE[version])]


def extra_unless(is_left_out: Callable[[bytes, int], bool]) -> Callable[[bytes, int], bytes]:
    """No extra cmdline for some cmdlines or versions."""
    def wrong(image: bytes, version: int) -> bytes:
        first, *extra = texts_of(image, version)
        return first if is_left_out(first, version) else first + b"".join(extra)
    return wrong


def extra_in(*versions: int) -> Callable[[bytes, int], bytes]:
    """The extra cmdline's bytes in versions that have none, too."""
    return lambda image, version: right_text(image, version) + (
        starter.up_to_zero(image[608:1632]) if version in versions else b"")


WRONG_TEXTS: Tuple[Callable[[bytes, int], bytes], ...] = (
    extra_unless(lambda first, version: True),
    *(extra_unless(lambda first, version, n=n: version == n) for n in range(3)),
    extra_unless(lambda first, version: len(first) < 512),
    extra_unless(lambda first, version: len(first) < 511),
    extra_unless(lambda first, version: len(first) == 512),
    extra_unless(lambda first, version: first == b""),
    extra_in(3), extra_in(4), extra_in(3, 4),
    lambda image, version: b" ".join(texts_of(image, version)),
    lambda image, version: b"".join(texts_of(image, version)[::-1]),
    lambda image, version: starter.up_to_zero(b"".join(
        boot.read_cmdlines(image, boot.TABLE[version]))),
    lambda image, version: right_text(image, version)[:512],
    lambda image, version: right_text(image, version)[:1535],
)

WRONG_FIELDS: Tuple[Callable[[bytes], bytes], ...] = (
    lambda text: text,
    lambda text: text.rstrip(b"\0"),
    lambda text: text[:text.find(b"\0") + 1] if b"\0" in text else text,
    lambda text: text.split(b"\0")[0] if b"\0" in text else b"",
    lambda text: text[:-1].split(b"\0")[0],
    lambda text: text.split(b"\0")[0].split(b" ")[0],
    lambda text: text.split(b"\0")[0].split(b"\n")[0],
    lambda text: text.split(b"\0")[0].split(b"\xFF")[0],
    lambda text: text.split(b"\0")[0].strip(),
    lambda text: bytes(byte & 0x7F for byte in text.split(b"\0")[0]),
    lambda text: text[:text.rfind(b"\0")] if b"\0" in text else text,
)

WRONG_LENGTHS: Tuple[Callable[[bytes, bytes], bool], ...] = (
    lambda line, space: len(line) >= len(space) or len(line) > LONGEST,
    lambda line, space: len(line) > len(space) or len(line) >= LONGEST,
    lambda line, space: len(line) > len(space) or len(line) > LONGEST + 1,
    lambda line, space: len(line) > len(space),
    lambda line, space: len(line) > len(space) + 1 or len(line) > LONGEST,
    lambda line, space: len(line) > LONGEST,
    lambda line, space: len(line) > len(space) or len(space) > LONGEST,
    lambda line, space: len(line) > len(space) and len(line) > LONGEST,
    lambda line, space: len(line) > len(space) or len(line) > 2048,
)

WRONG_ASKING: Tuple[Callable[[bytes], bool], ...] = (
    lambda misc: False,
    lambda misc: True,
    lambda misc: any(misc),
    lambda misc: misc.startswith(b"boot-recovery"),
    lambda misc: misc.startswith(b"boot-recover"),
    lambda misc: misc.startswith(b"boot-"),
    lambda misc: misc[:12] == b"boot-recover" and misc[13] == 0,
    lambda misc: misc == ASKED,
    lambda misc: ASKED[:14] in misc,
    lambda misc: misc.lower().startswith(ASKED[:14]),
    lambda misc: misc.strip().startswith(ASKED[:14]),
    lambda misc: misc[1:14] == ASKED[1:14],
    lambda misc: misc[:5] == ASKED[:5] and misc[13] == 0,
    lambda misc: right_asked(misc) or misc.startswith(b"boot-fastboot\0"),
    lambda misc: right_asked(bytes(byte & 0x7F for byte in misc)),
    lambda misc: misc.rstrip(b" ") == b"boot-recovery" or right_asked(misc),
    lambda misc: right_asked(misc) and not any(misc[31:]),
)


def misc_wrong(is_wrong: Callable[[int], bool]) -> Callable[[Record, bytes], int]:
    """31, then 51 for other lengths of misc."""
    return lambda record, misc: (
        31 if not slots.is_valid(record) else 51 if is_wrong(len(misc)) else 0)


WRONG_FIRSTS: Tuple[Callable[[Record, bytes], int], ...] = (
    lambda record, misc: 51 if len(misc) != 32 else 31 if not slots.is_valid(record) else 0,
    misc_wrong(lambda length: False),
    misc_wrong(lambda length: length < 14),
    misc_wrong(lambda length: length < 31),
    misc_wrong(lambda length: length < 32),
    misc_wrong(lambda length: length > 32),
    misc_wrong(lambda length: length not in (32, 33)),
    misc_wrong(lambda length: length % 32 != 0),
)


def wrong_tables() -> Iterator[Tuple[boot.Row, ...]]:
    """Each text of each version a byte sooner or later, shorter or longer."""
    for version, row in enumerate(boot.TABLE):
        for i, text in enumerate(row.cmdlines):
            for at, length in ((-1, 0), (1, 0), (0, -1), (0, 1), (0, 4)):
                other = boot.Text(text.at + at, text.length + length)
                cmdlines = row.cmdlines[:i] + (other,) + row.cmdlines[i + 1:]
                changed = row._replace(cmdlines=cmdlines)
                yield boot.TABLE[:version] + (changed,) + boot.TABLE[version + 1:]


WRONG_RULES: Tuple[Tuple[Any, str, Any], ...] = (
    *((starter, "start", wrong) for wrong in WRONG_STARTS),
    *((starter, "final_line", wrong) for wrong in WRONG_LINES),
    *((starter, "image_line", wrong) for wrong in WRONG_TEXTS),
    *((starter, "up_to_zero", wrong) for wrong in WRONG_FIELDS),
    *((starter, "is_too_long", wrong) for wrong in WRONG_LENGTHS),
    *((starter, "is_recovery_asked", wrong) for wrong in WRONG_ASKING),
    *((starter, "first_number", wrong) for wrong in WRONG_FIRSTS),
    *((boot, "TABLE", table) for table in wrong_tables()),
)


class TestGroup(unittest.TestCase):
    """What the vectors' cases show."""

    def answers(self) -> List[Tuple[Case, Tuple[int, ...]]]:
        """The cases with their values."""
        return [(case, cases_start.values(case)) for case in cases_of_vectors()]

    def started(self) -> List[Tuple[Case, int, Record]]:
        """The cases with misc of 32 bytes that start a slot, with that and the record."""
        found = []
        for case in cases_of_vectors():
            record = record_in(case.record)
            picked = None if record is None else slots.start(record)[0]
            if record is not None and isinstance(picked, slots.Boots) and len(case.misc) == 32:
                found.append((case, picked.slot, record))
        return found

    def test_each_once(self) -> None:
        self.assertEqual(len(set(cases_of_vectors())), len(cases_of_vectors()))

    def test_values(self) -> None:
        for case, values in self.answers():
            self.assertEqual(values, slow_values(case))

    def test_images_differ(self) -> None:
        for case in cases_of_vectors():
            self.assertEqual(len(set(case.images)), 4)

    def test_kinds_and_numbers(self) -> None:
        found = {(number, kind) for _, (number, kind, *_) in self.answers()}
        refused = {(number, REFUSED) for number in (31, 51, 52) + BOOT_NUMBERS}
        self.assertEqual(found, refused | {(0, BOOTS), (0, RECOVERY)})

    def test_letters(self) -> None:
        """Each started as the current slot, with a try and without, and from each other one; with
        the ending and without."""
        current: Set[Tuple[int, bool]] = set()
        taken: Set[Tuple[int, int]] = set()
        endings: Set[Tuple[int, bool]] = set()
        for case, slot, record in self.started():
            if slot == record.current:
                current.add((slot, record.slots[slot].successful))
            else:
                taken.add((record.current, slot))
            endings.add((slot, case.misc.startswith(ASKED[:14])))
        both = set(itertools.product(range(4), (False, True)))
        self.assertEqual((current, endings), (both, both))
        self.assertEqual(taken, {(i, j) for i in range(4) for j in range(4) if i != j})

    def test_good_images_elsewhere(self) -> None:
        """Each letter with a good image at all other places; each boot refusal beside a good image
        of a slot in use, and of the slot that was current."""
        letters: Set[int] = set()
        refused: Set[Tuple[int, bool]] = set()
        for case, slot, record in self.started():
            good = [isinstance(boot.locate(image), boot.Located) for image in case.images]
            number = cases_start.values(case)[0]
            if all(good) and slot != record.current:
                letters.add(slot)
            if any(good) and number in BOOT_NUMBERS:
                refused.add((number, slot != record.current and good[record.current]))
        self.assertEqual(letters, set(range(4)))
        self.assertLessEqual({(number, False) for number in BOOT_NUMBERS}, refused)
        self.assertGreater(len([number for number, is_current in refused if is_current]), 2)

    def test_texts(self) -> None:
        """Empty, one byte, full and one less, of each field; with bytes after the zero byte."""
        found: Set[Tuple[bool, int, int]] = set()
        for case, (number, kind, slot, *_) in self.answers():
            if kind == BOOTS:
                image = case.images[slot]
                is_old = version_of(image) < 3
                for i, (at, n) in enumerate(((64, 512), (608, 1024)) if is_old else ((44, 1536),)):
                    found.add((is_old, i, len(image[at:at + n].split(b"\0")[0])))
        for is_old, i, full in ((True, 0, 512), (True, 1, 1024), (False, 0, 1536)):
            for length in (0, 1, full - 1, full):
                self.assertIn((is_old, i, length), found)

    def test_lengths(self) -> None:
        """Lines of 4,096 bytes and one more, in spaces that are exact, short and long; short ones
        in spaces that are exact, one byte short and one byte long, and none."""
        found: Set[Tuple[int, int]] = set()
        for case, slot, _ in self.started():
            if isinstance(boot.locate(case.images[slot]), boot.Located):
                length = len(slow_line(case, slot))
                found.add((min(length, 4098) if length > 4000 else 0, case.room - length))
                if case.room == 0:
                    found.add((-1, 0))
        wanted = {(4096, -1), (4096, 0), (4096, 4096), (4097, 0), (4097, 4095), (4098, 60)}
        self.assertLessEqual(wanted | {(0, -1), (0, 0), (0, 1), (-1, 0)}, found)

    def test_misc_lengths(self) -> None:
        """For records that start a slot, that answer Recovery and that are not valid."""
        found: Set[Tuple[str, int]] = set()
        for case in cases_of_vectors():
            record = record_in(case.record)
            picked = slots.Refusal(31) if record is None else slots.start(record)[0]
            found.add((type(picked).__name__, len(case.misc)))
        kinds = ("Boots", "Recovery", "Refusal")
        self.assertLessEqual(set(itertools.product(kinds, (0, 31, 32, 33))), found)

    def test_wrong_rules_are_seen(self) -> None:
        """Each changes a line."""
        cases = cases_of_vectors()
        lines = [cases_start.values(case) for case in cases]
        for i, (module, name, wrong) in enumerate(WRONG_RULES):
            with self.subTest(i=i, name=name), unittest.mock.patch.object(module, name, wrong):
                self.assertNotEqual([cases_start.values(case) for case in cases], lines)


if __name__ == "__main__":
    unittest.main()
