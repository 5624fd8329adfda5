"""Reads the vectors' files as their format says and works the lines out anew."""

import itertools
import os
import struct
import tempfile
import unittest
import unittest.mock
from typing import Any, Callable, Dict, Iterator, List, Sequence, Set, Tuple

import boot
import build
import cases_boot
import cases_common
import cases_join
import cases_slots
import compare
import crc
import fields
import slots
import sparse
import store
import vectors
import writer
from cases_compare import Case
from cases_report import Adding
from join import Joined
from passes import Answer, GoingOn
from slots import Record, Slot
from test_compare import cases_in, has_few_blocks, slow_answer
from test_join import slow_join
from test_launch import cases_in as launch_cases
from test_launch import slow_values as slow_launch_values
from test_passes import History
from test_report import cases_in as report_cases
from test_report import slow_values as slow_report_values
from test_starter import cases_in as start_cases
from test_starter import slow_values as slow_start_values

LARGEST_IMAGE = 65536
LARGEST_STORED_IMAGE = 8192
LARGEST_PARTITION = 4096
LARGEST_WRITTEN = 69632
LARGEST_COMPARED_IMAGE = 4096
LARGEST_ROOM = 8192
LARGEST_SPACE = 8192
MOST_STARTS = 160
MOST_NUMBERS = 96
LARGEST_OUTPUT = 500_000
RECORD = 22
RECORD_SLOT = 5
RECORD_CURRENT = 20
RECORD_STARTABLE = 21
SLOT_TRIES = 4

# Where versions 0 to 2 of a boot image have the size of the second section.
SECOND_AT = 24

# How an operation steps the count, by the flags unbootable and corrupted of the slot that
# it is about: the current one for start and confirm.
STEPS = {
    (cases_slots.START, False, False): {0, -1},
    (cases_slots.START, False, True): {0},
    (cases_slots.START, True, False): {0},
    (cases_slots.START, True, True): {0},
    (cases_slots.SET_ACTIVE, False, False): {0},
    (cases_slots.SET_ACTIVE, False, True): {1},
    (cases_slots.SET_ACTIVE, True, False): {1},
    (cases_slots.SET_ACTIVE, True, True): {1},
    (cases_slots.MODIFIED, False, False): {0},
    (cases_slots.MODIFIED, False, True): {1},
    (cases_slots.MODIFIED, True, False): {0},
    (cases_slots.MODIFIED, True, True): {0},
    (cases_slots.CORRUPTED, False, False): {-1},
    (cases_slots.CORRUPTED, False, True): {0},
    (cases_slots.CORRUPTED, True, False): {0},
    (cases_slots.CORRUPTED, True, True): {0},
    (cases_slots.CONFIRM, False, False): {0},
}

Lines = Iterator[Tuple[int, ...]]
Changed = Tuple[slots.Answer, Record]


def refusal_values(verdict: sparse.Verdict) -> Tuple[int, ...]:
    """Number and place."""
    return (verdict.number, verdict.place) if isinstance(verdict, sparse.Refusal) else (0, 0)


def verdict_values(verdict: sparse.Verdict) -> Tuple[int, ...]:
    """Number, place and the three counts."""
    if isinstance(verdict, sparse.Refusal):
        return refusal_values(verdict) + (0, 0, 0)
    return 0, 0, verdict.written, verdict.dont_care, verdict.unknown


def crc_lines(data: bytes) -> Lines:
    at = 0
    while at < len(data):
        kind, start, n, word, length = struct.unpack_from("<IIQII", data, at)
        part = data[at + 24:at + 24 + length]
        at += 24 + length
        if kind == 0:
            yield crc.after_bytes_by_bits(start, part), crc.checksum_by_bits(part)
        elif kind == 1:
            yield (crc.after_zeros(start, n),)
        else:
            yield (crc.after_words(start, word, n),)


def field_lines(data: bytes) -> Lines:
    at = 0
    while at < len(data):
        place, value, length = struct.unpack_from("<QQI", data, at)
        part = data[at + 20:at + 20 + length]
        at += 20 + length
        reads = tuple(fields.read(part, place, width) for width in (2, 4, 8))
        writes = tuple(fields.written(part, place, width, value) for width in (2, 4, 8))
        yield reads + tuple(crc.checksum_by_bits(after) for after in writes)


def slot_record(data: bytes) -> Record:
    """The record that stands in some bytes."""
    assert len(data) == RECORD
    starts = range(0, RECORD_CURRENT, RECORD_SLOT)
    assert all(flag <= 1 for at in starts for flag in data[at:at + SLOT_TRIES])
    a, b, c, d = (
        Slot(*(flag == 1 for flag in data[at:at + SLOT_TRIES]), data[at + SLOT_TRIES])
        for at in starts
    )
    return Record((a, b, c, d), data[RECORD_CURRENT], data[RECORD_STARTABLE])


def count_of_values(values: Sequence[int]) -> int:
    """How many slots are startable, by the values of a record: in use, unbootable and
    corrupted clear."""
    starts = range(0, RECORD_CURRENT, RECORD_SLOT)
    return sum((values[at], values[at + 1], values[at + 3]) == (1, 0, 0) for at in starts)


def slot_cases(data: bytes) -> Iterator[cases_slots.Case]:
    for at in range(0, len(data), 2 + RECORD):
        record = slot_record(data[at + 2:at + 2 + RECORD])
        yield cases_slots.Case(data[at], data[at + 1], record)


def slot_lines(data: bytes) -> Lines:
    for case in slot_cases(data):
        yield cases_slots.values(case)


def slot_sum_lines(data: bytes) -> Lines:
    for start in range(0, len(data), 64 * RECORD):
        state = crc.ALL_ONES
        for at in range(start, min(start + 64 * RECORD, len(data)), RECORD):
            record = slot_record(data[at:at + RECORD])
            for operation, argument in itertools.product(range(7), range(5)):
                case = cases_slots.Case(operation, argument, record)
                state = crc.after_bytes(state, bytes(cases_slots.values(case)))
        yield (state ^ crc.ALL_ONES,)


def boot_images(data: bytes) -> Iterator[bytes]:
    at = 0
    while at < len(data):
        image, at = cases_common.image_from_patches(data, at)
        assert len(image) <= LARGEST_IMAGE
        yield image


def boot_lines(data: bytes) -> Lines:
    for image in boot_images(data):
        yield cases_boot.values(image)


def launch_lines(data: bytes) -> Lines:
    for case in launch_cases(data):
        assert len(case.image) <= LARGEST_IMAGE
        yield slow_launch_values(case)


def start_lines(data: bytes) -> Lines:
    cases = list(start_cases(data))
    assert len(cases) <= MOST_STARTS
    for case in cases:
        assert case.room <= LARGEST_SPACE
        yield slow_start_values(case)


def sparse_cases(data: bytes) -> Iterator[Tuple[bytes, int]]:
    """Each image and the length of its partition."""
    at = 0
    while at < len(data):
        (partition_length,) = struct.unpack_from("<Q", data, at)
        image, at = cases_common.image_from_patches(data, at + 8)
        assert len(image) <= LARGEST_IMAGE
        yield image, partition_length


def sparse_lines(data: bytes) -> Lines:
    for image, partition_length in sparse_cases(data):
        yield verdict_values(sparse.judge(image, partition_length))


def store_step(
    case: bytes, at: int, partition: bytes
) -> Tuple[Tuple[int, ...], bytes, int]:
    """The step's values, the partition after it and the position after it."""
    form, image_at, limit, offset, count = struct.unpack_from("<IIQII", case, at)
    image, _ = cases_common.image_from_patches(case, image_at)
    assert len(image) <= LARGEST_STORED_IMAGE
    torn = case[at + 24:at + 24 + count]
    if form == 0:
        assert (limit, count) == (0, 0)
        verdict, after = store.store(image, partition)
        answer = verdict_values(verdict)
    else:
        stored = store.store_limited(image, partition, limit)
        answer = refusal_values(stored.verdict) + (stored.count,)
        after = stored.partition
        if count != 0:
            next_block = store.torn_block(image, partition, limit)
            assert next_block is not None and next_block.at <= offset
            assert offset + count <= next_block.at + len(next_block.data)
            after = after[:offset] + torn + after[offset + count:]
    return answer + (crc.checksum(after),), after, at + 24 + count


def write_lines(data: bytes) -> Lines:
    at = 0
    while at < len(data):
        block_size, length = struct.unpack_from("<II", data, at)
        assert length <= LARGEST_WRITTEN
        flat, at = cases_common.image_from_patches(data, at + 8)
        assert len(flat) <= LARGEST_IMAGE
        output = bytes((11 + 5 * i) % 256 for i in range(length))
        number, image_length, after = writer.write(flat, block_size, output)
        if number == 0:
            assert store.store(after[:image_length], bytes(len(flat)))[1] == flat
        yield number, image_length, crc.checksum(after)


def answer_values(answer: Answer, finishing: bool) -> Tuple[int, ...]:
    if isinstance(answer, GoingOn):
        return (0, 0)
    return verdict_values(answer) if finishing else refusal_values(answer)


def pass_call(
    case: bytes, at: int, history: History, partition: bytes
) -> Tuple[Tuple[int, ...], bytes]:
    """The values of a call of a pass, and the partition after it."""
    form, count, piece_at, size = struct.unpack_from("<HHHH", case, at)
    assert count <= len(partition) and piece_at + size <= len(case)
    assert form in (3, 5) or (form in (4, 6) and piece_at == size == 0)
    assert form in (5, 6) or count == 0
    piece = case[piece_at:piece_at + size] if form in (3, 5) else None
    lent = partition[:count] if form in (5, 6) else None
    answer, left = history.answer(piece, lent)
    values = answer_values(answer, piece is None) + (crc.checksum(left or b""),)
    return values, (left or b"") + partition[count:]


def pass_values(case: bytes, first: bytes, steps: int) -> Tuple[int, ...]:
    """The values of the calls of all passes of a case."""
    values: Tuple[int, ...] = ()
    at = 16
    for _ in range(steps):
        if case[at] == 2:
            history, partition = History(*struct.unpack_from("<QQ", case, at + 4)), first
            at += 20
        else:
            answer, partition = pass_call(case, at, history, partition)
            values += answer
            at += 8
    return values


def store_values(case: bytes, partition: bytes, steps: int) -> Tuple[int, ...]:
    """The values of the steps of a case."""
    values: Tuple[int, ...] = ()
    at = 16
    for _ in range(steps):
        answer, partition, at = store_step(case, at, partition)
        values += answer
    return values


Steps = Callable[[bytes, bytes, int], Tuple[int, ...]]


def lines_of_steps(read: Steps) -> Callable[[bytes], Lines]:
    """The reader of a group whose cases are steps on one partition."""
    def lines(data: bytes) -> Lines:
        start = 0
        while start < len(data):
            size, length, seed, steps = struct.unpack_from("<IIII", data, start)
            assert length <= LARGEST_PARTITION
            first = bytes((seed + 7 * i) % 256 for i in range(length))
            yield read(data[start:start + size], first, steps)
            start += size
    return lines


def compare_values(case: Case) -> Tuple[int, ...]:
    """The answer and the space after it, worked out block by block where they are few."""
    assert max(len(case.first), len(case.second)) <= LARGEST_COMPARED_IMAGE
    assert case.numbers <= MOST_NUMBERS
    answer = slow_answer(*case) if has_few_blocks(case) else compare.compare(*case)
    space = [11 + 5 * i for i in range(case.numbers)]
    if isinstance(answer, compare.Refusal):
        return answer.number, answer.place, answer.image, 0, *space
    numbers = [number for run in answer.runs for number in run]
    return 0, 0, 0, len(answer.runs), *numbers, *space[len(numbers):]


def compare_lines(data: bytes) -> Lines:
    cases = [Case(*case) for case in cases_in(data)]
    for at in range(0, len(cases), 16):
        found = [value for case in cases[at:at + 16] for value in compare_values(case)]
        yield (crc.checksum(struct.pack(f"<{len(found)}I", *found)),)


def joined(case: cases_join.Case, room: int) -> Joined:
    """The images of a case joined, by the slow formulation."""
    output = bytes((7 + 3 * i) % 256 for i in range(room))
    return slow_join(case.first, case.second, output)


def join_values(case: cases_join.Case) -> bytes:
    """The answer and the output after it, and those of an output that is a byte too short."""
    assert max(len(case.first), len(case.second)) <= LARGEST_COMPARED_IMAGE
    assert case.room <= LARGEST_ROOM
    answers = [joined(case, case.room)]
    if answers[0].number == 0:
        answers.append(joined(case, answers[0].length - 1))
        assert answers[1].number == 18
    return b"".join(struct.pack("<4I", *answer[:4]) + answer.output for answer in answers)


def join_lines(data: bytes) -> Lines:
    cases = [cases_join.Case(*case) for case in cases_in(data)]
    for at in range(0, len(cases), 32):
        yield (crc.checksum(b"".join(map(join_values, cases[at:at + 32]))),)


def report_lines(data: bytes) -> Lines:
    for case in report_cases(data):
        assert isinstance(case, Adding) or len(case.image) <= LARGEST_IMAGE
        yield slow_report_values(case)


READERS: Dict[str, Callable[[bytes], Lines]] = {
    "crc": crc_lines,
    "fields": field_lines,
    "slots": slot_lines,
    "slotsum": slot_sum_lines,
    "boot": boot_lines,
    "launch": launch_lines,
    "start": start_lines,
    "sparse": sparse_lines,
    "store": lines_of_steps(store_values),
    "passes": lines_of_steps(pass_values),
    "write": write_lines,
    "compare": compare_lines,
    "join": join_lines,
    "report": report_lines,
}


# Wrong rules, each in the place of a function of the reference.

right_fresh = slots.fresh
right_valid = slots.is_valid


def unused_before_invalid(record: Record, slot: int, **changes: Any) -> Changed:
    """32, then 31."""
    if not slots.is_used(record, slot):
        return slots.Refusal(32), record
    if not slots.is_valid(record):
        return slots.Refusal(31), record
    return slots.Done(), slots.with_slot(record, slot, record.slots[slot]._replace(**changes))


def any_place_corrupted(record: Record, slot: int) -> Changed:
    """Sets the flag of a place that is not in use too."""
    if not slots.is_valid(record) or slot >= slots.PLACES:
        return slots.on_slot(record, slot)
    return slots.Done(), slots.with_slot(record, slot, record.slots[slot]._replace(corrupted=True))


def flag_stays_active(record: Record, slot: int) -> Changed:
    """Set active that leaves the flag."""
    answer, after = slots.on_slot(record, slot, unbootable=False, successful=False, tries=3)
    return answer, after if isinstance(answer, slots.Refusal) else after._replace(current=slot)


def confirm_of_corrupted(record: Record) -> Changed:
    """Confirm that looks at unbootable alone."""
    if not slots.is_valid(record):
        return slots.Refusal(31), record
    current = record.slots[record.current]
    if current.unbootable:
        return slots.Refusal(33), record
    return slots.Done(), slots.with_slot(record, record.current, current._replace(successful=True))


def fresh_corrupted(number: int) -> Changed:
    """A fresh record with the flag set in its last place."""
    answer, record = right_fresh(number)
    return answer, slots.with_slot(record, 3, record.slots[3]._replace(corrupted=True))


def with_count(of: Callable[..., Changed], count: Callable[[Record, Record], int]) -> Any:
    """An operation that keeps another count, by the record before and after."""
    def wrong(record: Record, *slot: int) -> Changed:
        answer, after = of(record, *slot)
        if isinstance(answer, slots.Refusal):
            return answer, after
        return answer, after._replace(startable=count(record, after) % 256)
    return wrong


def current_has(record: Record, flag: str) -> bool:
    """Whether the current slot has a flag."""
    return getattr(record.slots[record.current], flag) is True


def not_from_unbootable(before: Record, after: Record) -> int:
    """Set active's count, which an unbootable slot does not step."""
    was_unbootable = before.slots[after.current].unbootable
    return before.startable if was_unbootable else after.startable


def fresh_counted_4(number: int) -> Changed:
    """A fresh record for 3 slots with the count 4."""
    answer, record = right_fresh(number)
    return answer, record._replace(startable=4) if number == 3 else record


def is_valid_but(is_right: Callable[[int, int], bool]) -> Callable[[Record], bool]:
    """Valid by another comparison of the kept count with that of the flags."""
    def wrong(record: Record) -> bool:
        count = slots.count_of(record.slots)
        return is_right(record.startable, count) and right_valid(record._replace(startable=count))
    return wrong


WRONG_COUNTS: Tuple[Tuple[str, Callable[..., Any]], ...] = (
    ("start", with_count(slots.start, lambda before, _: before.startable)),
    ("start", with_count(slots.start, lambda before, after: (
        after.startable - current_has(before, "unbootable")))),
    ("start", with_count(slots.start, lambda before, after: (
        after.startable - current_has(before, "corrupted")))),
    ("start", with_count(slots.start, lambda before, after: (
        after.startable - (before.slots != after.slots and before.current == after.current)))),
    ("set_active", with_count(slots.set_active, not_from_unbootable)),
    ("set_active", with_count(slots.set_active, lambda before, _: before.startable)),
    ("set_active", with_count(slots.set_active, lambda before, _: before.startable + 1)),
    ("modified", with_count(slots.modified, lambda before, _: before.startable)),
    ("modified", with_count(slots.modified, lambda before, after: before.startable + any(
        old.corrupted and not new.corrupted for old, new in zip(before.slots, after.slots)))),
    ("corrupted", with_count(slots.corrupted, lambda before, _: before.startable)),
    ("corrupted", with_count(slots.corrupted, lambda before, _: before.startable - 1)),
    ("corrupted", with_count(slots.corrupted, lambda before, after: (
        after.startable - (before.slots == after.slots)))),
    ("corrupted", with_count(slots.corrupted, lambda before, after: (
        before.startable - (before.slots != after.slots)))),
    ("confirm", with_count(slots.confirm, lambda before, _: before.startable + 1)),
    ("fresh", fresh_counted_4),
    ("count_of", lambda places: sum(
        not slot.unbootable and not slot.corrupted for slot in places)),
    ("is_startable", lambda slot: slot.used and not slot.unbootable),
    ("is_startable", lambda slot: slot.used and not slot.corrupted),
    ("is_startable", lambda slot: slot.used and slots.may_start(slot)),
    ("is_startable", slots.is_candidate),
    ("is_valid", is_valid_but(lambda kept, count: True)),
    ("is_valid", is_valid_but(lambda kept, count: kept <= count)),
    ("is_valid", is_valid_but(lambda kept, count: kept >= count)),
    ("is_valid", is_valid_but(lambda kept, count: kept % 4 == count % 4)),
    ("startable", lambda record: record.startable),
    ("startable", lambda record: slots.count_of(record.slots)),
    ("startable", lambda record: slots.count_of(record.slots) or slots.Refusal(31)),
)


WRONG_RULES: Tuple[Tuple[str, Callable[..., Any]], ...] = (
    ("may_start", lambda slot: not slot.unbootable and (slot.successful or slot.tries > 0)),
    ("may_start", lambda slot: slot.successful or (
        slot.tries > 0 and not slot.unbootable and not slot.corrupted)),
    ("is_candidate", lambda slot: slot.used and slot.successful and not slot.unbootable),
    ("marked", lambda slot: slot._replace(unbootable=True)),
    ("marked", lambda slot: slot._replace(unbootable=True, successful=False, corrupted=False)),
    ("corrupted", any_place_corrupted),
    ("corrupted", lambda *of: slots.on_slot(*of, corrupted=True, successful=False)),
    ("corrupted", lambda *of: slots.on_slot(*of, corrupted=True, tries=0)),
    ("modified", lambda *of: slots.on_slot(*of, successful=False, tries=3)),
    ("set_active", flag_stays_active),
    ("confirm", confirm_of_corrupted),
    ("fresh", fresh_corrupted),
    ("on_slot", unused_before_invalid),
)


right_layout = boot.layout
right_number = boot.section_number
right_sections = boot.read_sections


def without_room(page: int, sizes: List[Tuple[str, int]]) -> List[boot.Section]:
    """A layout in which the second section takes no room."""
    sections = right_layout(page, [(name, size * (name != "second")) for name, size in sizes])
    return [section._replace(size=size) for section, (_, size) in zip(sections, sizes)]


def in_every_version(image: bytes, row: boot.Row) -> List[boot.Section]:
    """A second section in versions 3 and 4 too, where their reserved field is not 0."""
    sections = right_sections(image, row)
    if row.page_size_at is not None:
        return sections
    return sections + [boot.Section("second", 0, min(1, fields.read(image, SECOND_AT, 4)))]


def second_size(sections: List[boot.Section]) -> int:
    """The size of the second section, 0 where there is none."""
    return sum(section.size for section in sections if section.name == "second")


WRONG_BOOT_RULES: Tuple[Tuple[str, Callable[..., Any]], ...] = (
    ("layout", without_room),
    ("read_sections", in_every_version),
    ("section_number", lambda sections, *rest: right_number(boot.offered(sections), *rest)),
    ("has_retired", lambda sections: False),
    ("has_retired", lambda sections: len(sections) != len(boot.offered(sections))),
    ("has_retired", lambda sections: sections[2:] != [] and sections[2].size != 0),
    ("has_retired", lambda sections: second_size(sections) > 1),
    ("has_retired", lambda sections: second_size(sections) % 256 != 0),
)


class TestVectors(unittest.TestCase):
    names: List[str]
    made: Dict[str, bytes]

    @classmethod
    def setUpClass(cls) -> None:
        cls.names = [name for name, _ in vectors.GROUPS]
        cls.made = vectors.files(cls.names)

    def test_output_follows_from_the_files(self) -> None:
        lines: List[str] = []
        for name in self.names:
            data = self.made[os.path.join("data", name + ".bin")]
            lines += [vectors.line(name, i, v) for i, v in enumerate(READERS[name](data))]
        self.assertEqual("".join(lines).encode("ascii"), self.made["stdout"])

    def test_sizes(self) -> None:
        self.assertLess(len(self.made["stdout"]), LARGEST_OUTPUT)
        for path, data in self.made.items():
            if path != "stdout":
                self.assertLessEqual(len(data), vectors.LARGEST_FILE)

    def test_checksums_of_0_and_1(self) -> None:
        """Images that are accepted with checksum 0 stand in the vectors with 1 too."""
        data = self.made[os.path.join("data", "sparse.bin")]
        verdicts = {image: sparse.judge(image, room) for image, room in sparse_cases(data)}
        refused = sparse.Refusal(11, sparse.CHECKSUM_AT)
        found = [
            image for image, verdict in verdicts.items()
            if build.stating(image, 0) == image and isinstance(verdict, sparse.Accepted)
            and verdicts.get(build.stating(image, 1)) == refused
        ]
        self.assertIn(build.two_chunks(checksum=0), found)
        self.assertGreater(len(found), 30)

    def test_three_counts(self) -> None:
        """Many answers have three counts that differ, none of them 0, so that no two can
        be swapped or put together unseen."""
        for name in ("sparse", "store", "passes"):
            data = self.made[os.path.join("data", name + ".bin")]
            with unittest.mock.patch(f"{__name__}.verdict_values", wraps=verdict_values) as asked:
                for _ in READERS[name](data):
                    pass
            verdicts = [call.args[0] for call in asked.call_args_list]
            found = [
                verdict for verdict in verdicts if isinstance(verdict, sparse.Accepted)
                and len({0, verdict.written, verdict.dont_care, verdict.unknown}) == 4
            ]
            self.assertGreater(len(found), 100, name)

    def test_retired_sections(self) -> None:
        """Each version from 0 to 2 with a second section of each size, accepted and refused; told
        where it is not empty, and never in versions 3 and 4, which have bytes there too."""
        data = self.made[os.path.join("data", "boot.bin")]
        found: Set[Tuple[int, int, int, int]] = set()
        for image, (number, *_, retired) in zip(boot_images(data), boot_lines(data)):
            version, size = (fields.read(image, at, 4) for at in (boot.VERSION_AT, SECOND_AT))
            if version in range(5) and number in (0, 26, 27):
                found.add((version, number, size, retired))
                self.assertEqual(retired, number == 0 and version < 3 and size != 0)
        for version, size in itertools.product(range(3), (0, 1, 2, 2047, 2048, 2049)):
            self.assertIn((version, 0, size, int(size != 0)), found)
            self.assertIn((version, 26, size, 0), found)
        for version, size in itertools.product((1, 2), (1, 2, 2047, 2048, 2049, 2**32 - 1)):
            self.assertIn((version, 27, size, 0), found)
        for version, size in itertools.product((3, 4), (1, 2049, 2**32 - 1)):
            self.assertIn((version, 0, size, 0), found)

    def test_wrong_boot_rules_are_seen(self) -> None:
        """Each wrong rule for the second section changes a line of `boot`."""
        data = self.made[os.path.join("data", "boot.bin")]
        lines = list(boot_lines(data))
        for i, (name, wrong) in enumerate(WRONG_BOOT_RULES):
            with self.subTest(i), unittest.mock.patch.object(boot, name, wrong):
                self.assertNotEqual(list(boot_lines(data)), lines)

    def slot_answers(self) -> List[Tuple[cases_slots.Case, Tuple[int, ...]]]:
        """The cases of `slots` with their values."""
        data = self.made[os.path.join("data", "slots.bin")]
        return [(case, cases_slots.values(case)) for case in slot_cases(data)]

    def test_corrupted_current_slot(self) -> None:
        """A corrupted current slot is started from and confirmed, whatever its other flags."""
        starts, confirms = set(), set()
        for case, (number, kind, *_) in self.slot_answers():
            if number in (0, 33) and case.record.slots[case.record.current].corrupted:
                slot = case.record.slots[case.record.current]
                if case.operation == cases_slots.START:
                    starts.add((slot.unbootable, slot.successful, kind))
                if case.operation == cases_slots.CONFIRM:
                    confirms.add((slot.unbootable, slot.successful, number))
        flags = ((False, False), (False, True), (True, False))
        kinds = (cases_slots.BOOTS, cases_slots.RECOVERY)
        self.assertEqual(starts, {(*pair, kind) for pair in flags for kind in kinds})
        self.assertEqual(confirms, {(*pair, 33) for pair in flags})

    def test_corrupted_slots_passed_over(self) -> None:
        """At each place, and before a candidate at each later place, d being the last."""
        found = set()
        for case, (_, _, slot, *_) in self.slot_answers():
            if case.operation == cases_slots.START and slot != case.record.current:
                passed = [i for i in range(slot) if case.record.slots[i].corrupted]
                found |= {(i, slot) for i in passed if i != case.record.current}
        self.assertEqual(found, {(i, slot) for slot in range(4) for i in range(slot)})

    def test_corrupted_operation(self) -> None:
        """The new operation on slots in use, not in use and past d, and refused for the
        record, with slots of each kind."""
        found: Dict[int, Set[Tuple[int, bool]]] = {0: set(), 31: set(), 32: set()}
        for case, (number, *_) in self.slot_answers():
            if case.operation == cases_slots.CORRUPTED:
                is_used = slots.is_used(case.record, case.argument)
                found[number].add((case.argument, is_used))
        self.assertEqual(found[0], {(slot, True) for slot in range(4)})
        self.assertEqual(found[32], {(slot, False) for slot in (0, 1, 2, 3, 4, 255)})
        places = {(slot, is_used) for slot in range(4) for is_used in (False, True)}
        self.assertEqual(found[31], places | {(4, False)})

    def test_counts_after(self) -> None:
        """What is not refused leaves a record whose count is that of its values; all else,
        and the lamp, leaves the record."""
        for case, (number, _, answered, *after) in self.slot_answers():
            if number == 0:
                self.assertEqual(after[RECORD_STARTABLE], count_of_values(after))
            if number != 0 or case.operation == cases_slots.STARTABLE:
                self.assertEqual(tuple(after), cases_slots.record_values(case.record))
            if case.operation == cases_slots.STARTABLE:
                self.assertEqual(answered, 0 if number else count_of_values(after))

    def test_count_steps(self) -> None:
        """Each step of the count that an operation may make is shown, and no other."""
        found: Dict[Tuple[int, bool, bool], Set[int]] = {}
        for case, (number, _, _, *after) in self.slot_answers():
            if number == 0 and case.operation not in (cases_slots.FRESH, cases_slots.STARTABLE):
                has_slot = case.operation not in (cases_slots.START, cases_slots.CONFIRM)
                slot = case.record.slots[case.argument if has_slot else case.record.current]
                step = after[RECORD_STARTABLE] - case.record.startable
                key = (case.operation, slot.unbootable, slot.corrupted)
                found.setdefault(key, set()).add(step)
        self.assertEqual(found, STEPS)

    def test_wrong_counts(self) -> None:
        """One more and one less than the flags, and others, in each operation, with no other
        fault: all but fresh are refused with 31."""
        found: Set[Tuple[int, int, int]] = set()
        for case, (number, *_) in self.slot_answers():
            count = count_of_values(cases_slots.record_values(case.record))
            is_right = slots.is_valid(case.record._replace(startable=count))
            if is_right and case.record.startable != count:
                found.add((case.operation, number, case.record.startable - count))
        steps = {step for _, _, step in found}
        self.assertLessEqual({1, -1, 2, -2, 4, -4, 128, 253, 255}, steps)
        shown = {(operation, number) for operation, number, _ in found}
        refused = {(operation, 31) for operation in range(1, 7)}
        self.assertEqual(shown, refused | {(cases_slots.FRESH, 0), (cases_slots.FRESH, 31)})
        near = {(operation, 31, step) for operation in range(1, 7) for step in (1, -1)}
        self.assertLessEqual(near, found)

    def test_lamp_answers(self) -> None:
        """Each count is answered, also beside unused places that look startable."""
        answered = [
            (count, case.record.slots) for case, (number, _, count, *_) in self.slot_answers()
            if case.operation == cases_slots.STARTABLE and number == 0
        ]
        self.assertEqual({count for count, _ in answered}, {0, 1, 2, 3, 4})
        beside = {count for count, places in answered if cases_slots.GHOST in places}
        self.assertEqual(beside, {0, 1, 2})

    def test_summed_records(self) -> None:
        """Two slots with all flags and several tries, either current; then records that are
        mostly valid, with any flags at each place, used or not; some have a wrong count
        and no other fault."""
        data = self.made[os.path.join("data", "slotsum.bin")]
        records = [slot_record(data[at:at + RECORD]) for at in range(0, len(data), RECORD)]
        pairs = {(record.slots[:2], record.current) for record in records[:3200]}
        self.assertEqual(len(pairs), 3200)
        places = [enumerate(record.slots) for record in records[3200:]]
        found = {(i, slot[:SLOT_TRIES]) for place in places for i, slot in place}
        self.assertEqual(len(found), slots.PLACES * 2**SLOT_TRIES)
        valid = [record for record in records[3200:] if slots.is_valid(record)]
        self.assertGreater(len(valid), 6000)
        right = [count_of_values(cases_slots.record_values(record)) for record in records]
        for record, count in zip(records[:3200], right):
            self.assertEqual(record.startable, count)
        wrong = [
            record.startable - count for record, count in zip(records, right)
            if record.startable != count and slots.is_valid(record._replace(startable=count))
        ]
        self.assertGreater(len(wrong), 700)
        for step in (1, -1):
            self.assertGreater(wrong.count(step), 200)

    def test_wrong_slot_rules_are_seen(self) -> None:
        """Each changes a line of `slots` and a checksum of the last records of `slotsum`."""
        shown = self.made[os.path.join("data", "slots.bin")]
        summed = self.made[os.path.join("data", "slotsum.bin")][-4 * 64 * RECORD:]
        lines, sums = list(slot_lines(shown)), list(slot_sum_lines(summed))
        for i, (name, wrong) in enumerate(WRONG_RULES + WRONG_COUNTS):
            with self.subTest(i), unittest.mock.patch.object(slots, name, wrong):
                self.assertNotEqual(list(slot_lines(shown)), lines)
                self.assertNotEqual(list(slot_sum_lines(summed)), sums)

    def test_patches_give_the_image(self) -> None:
        images = (b"", bytes(9), b"\x01", bytes(8) + b"\x01" + bytes(9) + b"\x02\0")
        for image in images + (b"\x01" + bytes(7) + b"\x02", bytes(3) + b"\x01" * 30):
            encoded = cases_common.patched_image(image)
            decoded = cases_common.image_from_patches(encoded, 0)
            self.assertEqual(decoded, (image, len(encoded)))

    def test_check(self) -> None:
        with tempfile.TemporaryDirectory() as folder:
            vectors.write(self.made, folder)
            self.assertEqual(vectors.faults(self.made, folder), [])
            os.remove(os.path.join(folder, "data", "boot.bin"))
            with open(os.path.join(folder, "data", "other.bin"), "wb"):
                pass
            with open(os.path.join(folder, "stdout"), "ab") as file:
                file.write(b"\n")
            found = ["missing: data/boot.bin", "differs: stdout", "extra: data/other.bin"]
            self.assertEqual(vectors.faults(self.made, folder), found)


if __name__ == "__main__":
    unittest.main()
