"""The slot record and its operations: document 01, "Slot record", and document 02,
change requests 4 and 6."""

from dataclasses import dataclass
from typing import Any, NamedTuple, Optional, Sequence, Tuple, Union

PLACES = 4
MOST_TRIES = 7
NEW_TRIES = 3


class Slot(NamedTuple):
    """One place of the record.  02, CR 4: "Add a *corrupted* flag to each slot of the
    record."."""

    used: bool
    unbootable: bool
    successful: bool
    corrupted: bool
    tries: int


class Record(NamedTuple):
    """01: "four slots of fixed place, used or not ... and one current slot"; 02, CR 6:
    "how many slots in use are neither unbootable nor corrupted. Keep that count in the
    record."."""

    slots: Tuple[Slot, Slot, Slot, Slot]
    current: int
    startable: int


@dataclass(frozen=True)
class Done:
    """Fresh, set active, modified, corrupted and confirm, when they refuse nothing."""


@dataclass(frozen=True)
class Boots:
    """Start's answer when a slot starts."""

    slot: int


@dataclass(frozen=True)
class Recovery:
    """Start's answer when none does."""


@dataclass(frozen=True)
class Refusal:
    """A numbered refusal; slot refusals carry place 0."""

    number: int


Answer = Union[Done, Boots, Recovery, Refusal]


def is_used(record: Record, slot: int) -> bool:
    """A slot from a to d that is in use."""
    return slot < PLACES and record.slots[slot].used


def is_startable(slot: Slot) -> bool:
    """02, CR 6: in use and "neither unbootable nor corrupted"; tries and successful do
    not matter."""
    return slot.used and not slot.unbootable and not slot.corrupted


def count_of(places: Sequence[Slot]) -> int:
    """How many of some places are startable, by their flags."""
    return sum(1 for slot in places if is_startable(slot))


def counted(places: Sequence[Slot], current: int) -> Record:
    """The record of four places with the count of their flags."""
    a, b, c, d = places
    return Record((a, b, c, d), current, count_of(places))


def is_valid(record: Record) -> bool:
    """01: "A valid record has a current slot in use, no used slot with tries above
    7, and none both unbootable and successful; unused places are ignored".  CR 4 of
    02 adds nothing to it: a slot may be corrupted and successful.  CR 6: "A record
    whose count differs from its flags is invalid"."""
    used = [slot for slot in record.slots if slot.used]
    return (
        is_used(record, record.current)
        and all(slot.tries <= MOST_TRIES for slot in used)
        and not any(slot.unbootable and slot.successful for slot in used)
        and record.startable == count_of(record.slots)
    )


def with_slot(record: Record, index: int, slot: Slot) -> Record:
    """The record with one place replaced; 02, CR 6: "Every operation keeps it right"."""
    places = record.slots[:index] + (slot,) + record.slots[index + 1:]
    return counted(places, record.current)


def fresh(number: int) -> Tuple[Answer, Record]:
    """01: "the first so many in use, current a, and in all four places flags clear
    and tries 3. Another number of slots gives 31 and a record with no slot in
    use, current a, flags clear, tries 0."; 02, CR 4: "A fresh record has it clear".  All
    slots in use are startable, beside the refusal none."""
    clear = Slot(False, False, False, False, NEW_TRIES)
    if not 1 <= number <= PLACES:
        return Refusal(31), Record((clear._replace(tries=0),) * PLACES, 0, 0)
    a, b, c, d = (clear._replace(used=i < number) for i in range(PLACES))
    return Done(), Record((a, b, c, d), 0, number)


def may_start(slot: Slot) -> bool:
    """01: "not unbootable, and is successful or has tries above 0"; 02, CR 4: "A
    corrupted slot may not start, successful or not"."""
    return not slot.unbootable and not slot.corrupted and (slot.successful or slot.tries > 0)


def is_candidate(slot: Slot) -> bool:
    """01: a slot "that is successful and not unbootable", among those in use; 02, CR 4,
    of a corrupted one: "it is no candidate"."""
    return slot.used and slot.successful and not slot.unbootable and not slot.corrupted


def first_other(record: Record) -> Optional[int]:
    """01: "the first other slot in letter order" that is a candidate, from a on."""
    for i, slot in enumerate(record.slots):
        if i != record.current and is_candidate(slot):
            return i
    return None


def marked(slot: Slot) -> Slot:
    """01: "it is marked unbootable, if it is not already"; 02, CR 4, of a corrupted one:
    "Start marks it unbootable and clears its successful flag"."""
    return slot._replace(unbootable=True, successful=slot.successful and not slot.corrupted)


def started(record: Record, index: int) -> Record:
    """The slot is current; "A started slot that is not successful loses one try."."""
    slot = record.slots[index]
    if not slot.successful:
        record = with_slot(record, index, slot._replace(tries=slot.tries - 1))
    return record._replace(current=index)


def start(record: Record) -> Tuple[Answer, Record]:
    """Start: the current slot, or else it is marked and the first other one that is a
    candidate starts; "If none is, the answer is Recovery, and the mark stays."."""
    if not is_valid(record):
        return Refusal(31), record
    current = record.slots[record.current]
    if may_start(current):
        return Boots(record.current), started(record, record.current)
    left = with_slot(record, record.current, marked(current))
    other = first_other(left)
    if other is None:
        return Recovery(), left
    return Boots(other), started(left, other)


def on_slot(record: Record, slot: int, **changes: Any) -> Tuple[Answer, Record]:
    """A slot with some of its values changed; or 31, then 32: "slot past d or not in use
    (set active, modified)"; 02, CR 4: "the new operation gives 31, then 32."."""
    if not is_valid(record):
        return Refusal(31), record
    if not is_used(record, slot):
        return Refusal(32), record
    return Done(), with_slot(record, slot, record.slots[slot]._replace(**changes))


def set_active(record: Record, slot: int) -> Tuple[Answer, Record]:
    """01: "The slot becomes current, both flags clear, tries 3."; 02, CR 4: "Set active
    and partition modified clear it."."""
    answer, after = on_slot(
        record, slot, unbootable=False, successful=False, corrupted=False, tries=NEW_TRIES
    )
    return answer, after if isinstance(answer, Refusal) else after._replace(current=slot)


def modified(record: Record, slot: int) -> Tuple[Answer, Record]:
    """01: "The slot's successful flag clears, tries 3. Unbootable stays."; 02, CR 4: "Set
    active and partition modified clear it."."""
    return on_slot(record, slot, successful=False, corrupted=False, tries=NEW_TRIES)


def corrupted(record: Record, slot: int) -> Tuple[Answer, Record]:
    """02, CR 4: "A new operation sets the flag on any slot in use."."""
    return on_slot(record, slot, corrupted=True)


def confirm(record: Record) -> Tuple[Answer, Record]:
    """01: "The current slot, if not unbootable, becomes successful."; else 33; 02, CR 4:
    "Confirming a corrupted slot gives 33."."""
    if not is_valid(record):
        return Refusal(31), record
    current = record.slots[record.current]
    if current.unbootable or current.corrupted:
        return Refusal(33), record
    return Done(), with_slot(record, record.current, current._replace(successful=True))


def startable(record: Record) -> Union[int, Refusal]:
    """02, CR 6: "the lamp reads it": the kept count, or 31."""
    return record.startable if is_valid(record) else Refusal(31)
