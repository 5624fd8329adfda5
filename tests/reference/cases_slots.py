"""Groups `slots` and `slotsum`: the operations on slot records, and the lamp's count.

`slots` shows every case in full; `slotsum` takes many records, does every operation
on each, and shows one checksum for each block of records.
"""

import itertools
import random
from typing import Iterable, List, NamedTuple, Optional, Sequence, Tuple

import crc
import slots
from cases_common import Group, below, pick
from slots import Record, Slot, counted

OPERATIONS = range(7)
FRESH, START, SET_ACTIVE, MODIFIED, CONFIRM, CORRUPTED, STARTABLE = OPERATIONS
DONE, BOOTS, RECOVERY, REFUSED = range(4)
BLOCK = 64
SUM_ARGUMENTS = range(5)
SUM_RANDOM = 8700

FLAGS = tuple(itertools.product((False, True), repeat=3))
VALID_FLAGS = tuple(flags for flags in FLAGS if flags[:2] != (True, True))

UNUSED = Slot(False, False, False, False, 0)
NEW = Slot(True, False, False, False, 3)
TIRED = Slot(True, False, False, False, 0)
STRONG = Slot(True, False, True, False, 2)
BROKEN = Slot(True, True, False, False, 0)
DAMAGED = STRONG._replace(corrupted=True)
SUSPECT = NEW._replace(corrupted=True)
LOST = BROKEN._replace(corrupted=True)
GHOST = Slot(False, False, True, False, 3)
ODD = Slot(False, True, True, True, 255)


class Case(NamedTuple):
    """An operation, its slot or number of slots, and the record it takes."""

    operation: int
    argument: int
    record: Record


def record_values(record: Record) -> Tuple[int, ...]:
    """The 22 values of a record: five of each place, the current slot, the count."""
    places = [int(value) for slot in record.slots for value in slot]
    return tuple(places + [record.current, record.startable])


def record_of(values: Sequence[int]) -> Optional[Record]:
    """The record of 22 values; none where a flag is neither 0 nor 1."""
    width = len(Slot._fields)
    places = [values[at:at + width] for at in range(0, width * slots.PLACES, width)]
    if any(flag > 1 for *flags, _ in places for flag in flags):
        return None
    a, b, c, d = (Slot(*(flag == 1 for flag in flags), tries) for *flags, tries in places)
    return Record((a, b, c, d), *values[width * slots.PLACES:])


def encoded(case: Case) -> bytes:
    """The case as it stands in the file of `slots`: 24 bytes."""
    return bytes((case.operation, case.argument) + record_values(case.record))


def performed(case: Case) -> Tuple[slots.Answer, Record]:
    """The operation's answer and the record after it, which a refused one leaves."""
    if case.operation == FRESH:
        answer, record = slots.fresh(case.argument)
        return answer, case.record if isinstance(answer, slots.Refusal) else record
    if case.operation == START:
        return slots.start(case.record)
    if case.operation == SET_ACTIVE:
        return slots.set_active(case.record, case.argument)
    if case.operation == MODIFIED:
        return slots.modified(case.record, case.argument)
    if case.operation == CORRUPTED:
        return slots.corrupted(case.record, case.argument)
    return slots.confirm(case.record)


def answer_values(answer: slots.Answer) -> Tuple[int, int, int]:
    """Refusal number, kind and started slot."""
    if isinstance(answer, slots.Refusal):
        return answer.number, REFUSED, 0
    if isinstance(answer, slots.Boots):
        return 0, BOOTS, answer.slot
    if isinstance(answer, slots.Recovery):
        return 0, RECOVERY, 0
    return 0, DONE, 0


def lamp_values(record: Record) -> Tuple[int, int, int]:
    """Refusal number, 0 and the count, which is 0 where it is refused."""
    answer = slots.startable(record)
    return (answer.number, 0, 0) if isinstance(answer, slots.Refusal) else (0, 0, answer)


def values(case: Case) -> Tuple[int, ...]:
    """The answer's three values and the 22 of the record after."""
    if case.operation == STARTABLE:
        return lamp_values(case.record) + record_values(case.record)
    answer, record = performed(case)
    return answer_values(answer) + record_values(record)


def on_record(record: Record, arguments: Iterable[int]) -> List[Case]:
    """Every operation but fresh on a record, with each slot argument."""
    cases = [Case(operation, 0, record) for operation in (START, CONFIRM, STARTABLE)]
    for argument in arguments:
        for operation in (SET_ACTIVE, MODIFIED, CORRUPTED):
            cases.append(Case(operation, argument, record))
    return cases


def fresh_cases() -> List[Case]:
    """Fresh records for numbers of slots in and out of range, where flags stood before,
    the corrupted one among them or in all four places."""
    mixed = counted((STRONG, GHOST, LOST, UNUSED), 2)
    full = counted((DAMAGED, ODD, LOST, ODD), 2)
    numbers = (0, 1, 2, 3, 4, 5, 6, 128, 255)
    return [Case(FRESH, number, record) for record in (mixed, full) for number in numbers]


def example_cases() -> List[Case]:
    """P12 to P14 of document 01."""
    weak = STRONG._replace(successful=False)
    last = NEW._replace(tries=1)
    return [
        Case(START, 0, counted((TIRED, STRONG, UNUSED, UNUSED), 0)),
        Case(START, 0, counted((TIRED, weak, UNUSED, UNUSED), 0)),
        Case(START, 0, counted((last, UNUSED, UNUSED, UNUSED), 0)),
    ]


def tries_cases() -> List[Case]:
    """Start of a successful slot without tries, of one with the most tries, and of an
    unbootable one with some."""
    places = (STRONG._replace(tries=0), NEW._replace(tries=7), BROKEN._replace(tries=3), UNUSED)
    return [Case(START, 0, counted(places, current)) for current in range(3)]


def invalid_records() -> List[Record]:
    """Records with one fault; the current slot of some is corrupted beside it."""
    records = [counted((NEW, STRONG, UNUSED, UNUSED), current) for current in (2, 3, 4, 5, 255)]
    records += [counted((place,) * slots.PLACES, 0) for place in (UNUSED, ODD)]
    records.append(counted((GHOST, NEW, LOST, GHOST), 3))
    faults = (
        Slot(True, True, True, False, 3),
        Slot(True, True, True, True, 3),
        Slot(True, False, True, False, 8),
        Slot(True, False, False, True, 255),
    )
    for fault in faults:
        records += [
            counted((fault, NEW, STRONG, NEW), 0),
            counted((DAMAGED, fault, UNUSED, NEW), 0),
            counted((NEW, STRONG, NEW, fault), 2),
        ]
    return records


def odd_records() -> List[Record]:
    """Valid records that look faulty, by their unused places or their current slot."""
    return [
        counted((NEW, ODD, ODD, ODD), 0),
        counted((ODD, NEW, ODD, ODD), 1),
        counted((ODD, TIRED, ODD, STRONG), 1),
        counted((UNUSED, UNUSED, UNUSED, TIRED), 3),
        counted((GHOST, TIRED, GHOST, GHOST), 1),
        counted((GHOST, NEW, BROKEN, GHOST), 2),
        counted((STRONG, BROKEN, NEW, UNUSED), 1),
        counted((BROKEN, BROKEN, UNUSED, UNUSED), 0),
    ]


def corrupted_records() -> List[Record]:
    """02, CR 4: a corrupted slot that is current, successful or not, unbootable or not,
    with and without a candidate; corrupted slots that are not current; and such
    places that are not in use."""
    return [
        counted((DAMAGED, STRONG, UNUSED, UNUSED), 0),
        counted((NEW, DAMAGED, BROKEN, GHOST), 1),
        counted((DAMAGED, LOST, SUSPECT, STRONG), 2),
        counted((ODD, SUSPECT, DAMAGED, NEW), 1),
        counted((LOST, DAMAGED, UNUSED, STRONG), 0),
        counted((DAMAGED, GHOST, SUSPECT, LOST), 3),
        counted((STRONG, DAMAGED, SUSPECT, LOST), 0),
    ]


def search_cases() -> List[Case]:
    """Start from a current slot at each place that may not start, tired or corrupted; each
    other one is a candidate or of one kind that is passed over."""
    cases = []
    kinds = [(TIRED, passed) for passed in (NEW, BROKEN, GHOST, DAMAGED)] + [(DAMAGED, DAMAGED)]
    for (stopped, passed), current in itertools.product(kinds, range(slots.PLACES)):
        for others in itertools.product((STRONG, passed), repeat=slots.PLACES - 1):
            places = others[:current] + (stopped,) + others[current:]
            cases.append(Case(START, 0, counted(places, current)))
    return list(dict.fromkeys(cases))


def count_records() -> List[Record]:
    """02, CR 6: all slots startable, none, all but one, and some beside places that are not
    in use and look startable or not."""
    return [
        counted((NEW, STRONG, TIRED, NEW), 2),
        counted((DAMAGED, BROKEN, SUSPECT, LOST), 0),
        counted((STRONG, SUSPECT, NEW, TIRED), 1),
        counted((STRONG, GHOST, TIRED, ODD), 2),
    ]


def wrong_counts() -> List[Record]:
    """Records whose count alone is wrong: one more and one less than their flags say, 255
    being one less than 0; 4 for none, 0 for all, and others for some."""
    records = [
        record._replace(startable=(record.startable + step) % 256)
        for record in count_records() for step in (1, -1)
    ]
    all_four, none, _, some = count_records()
    records += [none._replace(startable=4), all_four._replace(startable=0)]
    return records + [some._replace(startable=count) for count in (0, 4, 255)]


def wrong_count_cases() -> List[Case]:
    """Every operation on a record with a wrong count, also with a slot not in use and one
    past d; the lamp where one bit is wrong.  Fresh does not look at the count, and its
    refusal leaves it."""
    cases = []
    for record in wrong_counts():
        cases += on_record(record, (2,)) + [Case(FRESH, number, record) for number in (3, 5)]
    some = count_records()[-1]
    cases += on_record(some._replace(startable=some.startable + 1), (1, 4))
    bits = [some._replace(startable=some.startable ^ 1 << bit) for bit in range(8)]
    return cases + [Case(STARTABLE, 0, record) for record in bits]


def group(_rng: random.Random) -> Group:
    """The cases shown in full."""
    cases = fresh_cases() + example_cases() + tries_cases() + search_cases()
    for record in odd_records() + corrupted_records() + count_records():
        cases += on_record(record, range(slots.PLACES))
    cases += on_record(corrupted_records()[1], (slots.PLACES, 255))
    for i, record in enumerate(invalid_records()):
        cases += on_record(record, ((i + 3) % slots.PLACES, slots.PLACES))
    cases = list(dict.fromkeys(cases + wrong_count_cases()))
    return Group(b"".join(map(encoded, cases)), [values(case) for case in cases])


def two_slot_records() -> List[Record]:
    """Two used slots with all flags and tries 0, 1, 3, 7, 8; either is current."""
    places = [Slot(True, *flags, tries) for flags in FLAGS for tries in (0, 1, 3, 7, 8)]
    return [
        counted((a, b, GHOST, ODD), current)
        for a, b, current in itertools.product(places, places, (0, 1))
    ]


def random_slot(rng: random.Random) -> Slot:
    """A place with any flags, used or not, mostly a valid one."""
    if below(rng, 4) == 0:
        return Slot(False, *pick(rng, FLAGS), below(rng, 256))
    if below(rng, 24) == 0:
        return Slot(True, *pick(rng, FLAGS), pick(rng, (0, 3, 8, 9, 255)))
    return Slot(True, *pick(rng, VALID_FLAGS), pick(rng, (0, 0, 1, 2, 3, 5, 7)))


def near_count(rng: random.Random, count: int) -> int:
    """Mostly one more or one less, or any count."""
    near = (count + 1, count - 1)
    return pick(rng, near + near + (below(rng, 6), below(rng, 256), count ^ 4)) % 256


def random_record(rng: random.Random) -> Record:
    """Any four places, mostly a valid record; one in eight keeps another count."""
    places = [random_slot(rng) for _ in range(slots.PLACES)]
    used = [i for i, slot in enumerate(places) if slot.used]
    current = pick(rng, used) if used and below(rng, 8) != 0 else below(rng, 6)
    record = counted(places, current)
    if below(rng, 8) != 0:
        return record
    return record._replace(startable=near_count(rng, record.startable))


def every_case(record: Record) -> List[Case]:
    """Every operation on a record, each with every argument."""
    return [
        Case(operation, argument, record)
        for operation in OPERATIONS for argument in SUM_ARGUMENTS
    ]


def block_checksum(records: Sequence[Record]) -> int:
    """The checksum of the 25 values, a byte each, of every case of each record."""
    cases = itertools.chain.from_iterable(map(every_case, records))
    return crc.checksum(b"".join(bytes(values(case)) for case in cases))


def sum_group(rng: random.Random) -> Group:
    """The space of two-slot records, then records of any four places."""
    records = two_slot_records() + [random_record(rng) for _ in range(SUM_RANDOM)]
    blocks = [records[at:at + BLOCK] for at in range(0, len(records), BLOCK)]
    data = b"".join(bytes(record_values(record)) for record in records)
    return Group(data, [(block_checksum(block),) for block in blocks])
