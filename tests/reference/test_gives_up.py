"""Holds the reference's slots against change request 14 of document 02, and the checker of that
request against machines that break it.

Run by `python3 tests/reference/test_gives_up.py`.
"""

import itertools
import random
import unittest
import unittest.mock
from functools import lru_cache
from typing import Any, Callable, Dict, FrozenSet, List, NamedTuple, Optional, Sequence, Tuple

import cases_slots
import gives_up
import slots
from cases_common import below
from cases_slots import CONFIRM, CORRUPTED, MODIFIED, SET_ACTIVE, START
from gives_up import ALL, Asked, Claim, Machine, Operation, Reached, Step, Violation, Walk
from slots import Answer, Boots, Done, Record, Recovery, Refusal

Performer = Callable[[Record, Operation], Tuple[Answer, Record]]

STARTS, TRY, FOURTH, RECOVERY, NOTHING = (
    Claim.MOST_STARTS, Claim.TAKES_NO_TRY, Claim.FOURTH_START, Claim.RECOVERY,
    Claim.STORES_NOTHING,
)


@lru_cache(maxsize=None)
def performed(record: Record, operation: Operation) -> Tuple[Answer, Record]:
    """What the reference makes of a record."""
    return cases_slots.performed(cases_slots.Case(operation.kind, operation.slot, record))


REFERENCE = Machine(slots.fresh, performed)


# Machines that are not the reference.

def replaced(kind: int, performer: Performer) -> Machine:
    """The reference with one of its operations replaced."""
    def apply(record: Record, operation: Operation) -> Tuple[Answer, Record]:
        return (performer if operation.kind == kind else performed)(record, operation)
    return Machine(slots.fresh, apply)


def patched(kind: int, name: str, value: Any) -> Machine:
    """The reference, one of whose operations stands on another value or rule of that name."""
    @lru_cache(maxsize=None)
    def performer(record: Record, operation: Operation) -> Tuple[Answer, Record]:
        with unittest.mock.patch.object(slots, name, value):
            return performed.__wrapped__(record, operation)
    return replaced(kind, performer)


def with_values(record: Record, slot: int, **values: Any) -> Record:
    """The record with some values of a slot changed."""
    return slots.with_slot(record, slot, record.slots[slot]._replace(**values))


def fresh_with_four(number: int) -> Tuple[Answer, Record]:
    """A fresh record with tries 4."""
    with unittest.mock.patch.object(slots, "NEW_TRIES", 4):
        return slots.fresh(number)


def modified_that_stays_successful(record: Record, operation: Operation) -> Tuple[Answer, Record]:
    """Partition modified, which leaves the successful flag as it is."""
    answer, after = performed(record, operation)
    if isinstance(answer, Refusal):
        return answer, after
    is_successful = record.slots[operation.slot].successful
    return answer, with_values(after, operation.slot, successful=is_successful)


def less_in_another(record: Record, started: int) -> Record:
    """The record with one try less in the first slot in use, other than a started one, that has
    one."""
    for i, slot in enumerate(record.slots):
        if i != started and slot.used and slot.tries > 0:
            return with_values(record, i, tries=slot.tries - 1)
    return record


def start_from_two(record: Record, operation: Operation) -> Tuple[Answer, Record]:
    """Start, which takes a try from another slot too."""
    answer, after = performed(record, operation)
    return answer, less_in_another(after, answer.slot) if isinstance(answer, Boots) else after


def start_from_another(record: Record, operation: Operation) -> Tuple[Answer, Record]:
    """Start, which takes the try from another slot instead."""
    answer, after = performed(record, operation)
    if not isinstance(answer, Boots) or after.slots[answer.slot].successful:
        return answer, after
    tries = record.slots[answer.slot].tries
    return answer, less_in_another(with_values(after, answer.slot, tries=tries), answer.slot)


def recovery_from_another(record: Record, operation: Operation) -> Tuple[Answer, Record]:
    """Start, which with Recovery takes a try from another slot."""
    answer, after = performed(record, operation)
    is_recovery = isinstance(answer, Recovery)
    return answer, less_in_another(after, after.current) if is_recovery else after


def recovery_with_a_try_left(record: Record, operation: Operation) -> Tuple[Answer, Record]:
    """Start, which takes the last try for none."""
    current = record.slots[record.current]
    if current.tries == 1 and not current.successful:
        return Recovery(), record
    return performed(record, operation)


def start_refused(record: Record, _operation: Operation) -> Tuple[Answer, Record]:
    """Start, which is always refused."""
    return Refusal(31), record


def refused_confirm_that_confirms(record: Record, operation: Operation) -> Tuple[Answer, Record]:
    """Confirm, which is refused and makes the slot one that may start."""
    answer, after = performed(record, operation)
    if isinstance(answer, Refusal):
        good = {"unbootable": False, "corrupted": False, "successful": True}
        after = with_values(after, after.current, **good)
    return answer, after


def confirm_of_all(record: Record, operation: Operation) -> Tuple[Answer, Record]:
    """Confirm, which makes every slot successful that may start."""
    answer, after = performed(record, operation)
    for i, slot in enumerate(after.slots):
        if isinstance(answer, Done) and slots.is_startable(slot):
            after = with_values(after, i, successful=True)
    return answer, after


def active_by_low_byte(record: Record, operation: Operation) -> Tuple[Answer, Record]:
    """Set active, which looks at the low byte of the slot alone."""
    return slots.set_active(record, operation.slot % 256)


def refused_active_that_acts(record: Record, operation: Operation) -> Tuple[Answer, Record]:
    """The same, refused where the slot is past d."""
    return performed(record, operation)[0], active_by_low_byte(record, operation)[1]


def last_other(record: Record) -> Optional[int]:
    """The search of Start in the order of letters from d back."""
    for i, slot in reversed(list(enumerate(record.slots))):
        if i != record.current and slots.is_candidate(slot):
            return i
    return None


def next_other(record: Record) -> Optional[int]:
    """The search of Start which looks only past the current slot."""
    for i, slot in enumerate(record.slots):
        if i > record.current and slots.is_candidate(slot):
            return i
    return None


class Wrong(NamedTuple):
    """A machine, and every claim that it breaks with two slots."""

    machine: Machine
    claims: FrozenSet[Claim]


def wrong(machine: Machine, *claims: Claim) -> Wrong:
    """A machine that breaks these claims."""
    return Wrong(machine, frozenset(claims))


WRONG: Dict[str, Wrong] = {
    "set active with tries 4": wrong(patched(SET_ACTIVE, "NEW_TRIES", 4), STARTS, FOURTH),
    "modified with tries 4": wrong(patched(MODIFIED, "NEW_TRIES", 4), STARTS, FOURTH),
    "fresh with tries 4": wrong(Machine(fresh_with_four, performed), STARTS),
    "modified stays successful": wrong(replaced(MODIFIED, modified_that_stays_successful), STARTS),
    "no try spent": wrong(
        patched(START, "started", lambda record, index: record._replace(current=index)),
        STARTS, FOURTH,
    ),
    "two tries spent": wrong(replaced(START, start_from_two), TRY),
    "a try of another spent": wrong(replaced(START, start_from_another), STARTS, TRY, FOURTH),
    "a try spent for Recovery": wrong(replaced(START, recovery_from_another), TRY),
    "takes an unconfirmed one": wrong(
        patched(START, "is_candidate", lambda slot: slot.used and slots.may_start(slot)), RECOVERY
    ),
    "takes a corrupted one": wrong(
        patched(
            START, "is_candidate",
            lambda slot: slot.used and slot.successful and not slot.unbootable,
        ),
        RECOVERY,
    ),
    "starts a corrupted one": wrong(
        patched(
            START, "may_start",
            lambda slot: not slot.unbootable and (slot.successful or slot.tries > 0),
        ),
        RECOVERY,
    ),
    "Recovery beside one that qualifies": wrong(
        patched(START, "is_candidate", lambda slot: False), FOURTH, RECOVERY
    ),
    "looks past the current": wrong(patched(START, "first_other", next_other), FOURTH, RECOVERY),
    "Recovery with a try left": wrong(replaced(START, recovery_with_a_try_left), FOURTH, RECOVERY),
    "start refused": wrong(replaced(START, start_refused), FOURTH, RECOVERY),
    "refused confirm confirms": wrong(
        replaced(CONFIRM, refused_confirm_that_confirms), STARTS, NOTHING
    ),
    "confirms all": wrong(replaced(CONFIRM, confirm_of_all), STARTS),
    "active by the low byte": wrong(replaced(SET_ACTIVE, active_by_low_byte), STARTS),
    "refused active acts": wrong(replaced(SET_ACTIVE, refused_active_that_acts), STARTS, NOTHING),
}

# Machines that the request does not rule out, though they are not the reference.
OTHERS = {
    "searches from d back": patched(START, "first_other", last_other),
    "modified with tries 2": patched(MODIFIED, "NEW_TRIES", 2),
}


def broken(machine: Machine) -> Dict[Claim, Violation]:
    """Every claim that a machine breaks with two slots, and the first sequence that shows it."""
    found: Dict[Claim, Violation] = {}
    while True:
        asked = Asked(ALL.claims - found.keys(), slots=(0, 1, 2, 256))
        try:
            gives_up.every_state(machine, 2, asked)
        except Violation as violation:
            found[violation.claim] = violation
        else:
            return found


# A second formulation of the claims over stretches and runs, of a whole sequence at once.

def steps_of(machine: Machine, number: int, operations: Sequence[Operation]) -> List[Step]:
    """The steps of a sequence."""
    record, steps = machine.fresh(number)[1], []
    for operation in operations:
        steps.append(Step(record, operation, *machine.apply(record, operation)))
        record = steps[-1].after
    return steps


def is_done(step: Step, *kinds: int) -> bool:
    """Whether an operation of these kinds is accepted."""
    return step.operation.kind in kinds and not isinstance(step.answer, Refusal)


def stretches(steps: Sequence[Step], slot: int) -> List[Sequence[Step]]:
    """The steps between each set active or partition modified on a slot and the next."""
    cuts = [
        i for i, step in enumerate(steps)
        if is_done(step, SET_ACTIVE, MODIFIED) and step.operation.slot == slot
    ]
    ends = [-1, *cuts, len(steps)]
    return [steps[start + 1:end] for start, end in zip(ends, ends[1:])]


def keeps_stretches(steps: Sequence[Step]) -> bool:
    """02: "a slot never confirmed in between is started at most three times"."""
    for slot in range(4):
        for stretch in stretches(steps, slot):
            confirms = [s for s in stretch if is_done(s, CONFIRM) and s.before.current == slot]
            starts = [s for s in stretch if s.answer == Boots(slot)]
            if not confirms and len(starts) > 3:
                return False
    return True


def keeps_runs(steps: Sequence[Step]) -> bool:
    """02: "the fourth start starts a successful slot", refused operations left out."""
    counted = [s for s in steps if s.operation.kind == START or not isinstance(s.answer, Refusal)]
    for run in zip(counted, counted[1:], counted[2:], counted[3:]):
        first, last = run[0].before, run[3]
        others = first.slots[:first.current] + first.slots[first.current + 1:]
        qualifies = any(slot[:4] == (True, False, True, False) for slot in others)
        if qualifies and all(step.operation.kind == START for step in run):
            if not isinstance(last.answer, Boots):
                return False
            if not last.before.slots[last.answer.slot].successful:
                return False
    return True


SLOW = {STARTS: keeps_stretches, FOURTH: keeps_runs}


def first_broken(
    machine: Machine, number: int, operations: Sequence[Operation], claim: Claim
) -> Optional[int]:
    """How many operations of a sequence break a claim, if they do, by the checker."""
    walk = Walk(machine, number, Asked(frozenset([claim])))
    for count, operation in enumerate(operations, 1):
        try:
            walk.take(operation)
        except Violation:
            return count
    return None


class TestReference(unittest.TestCase):
    def test_one_slot(self) -> None:
        """All states, counted by hand.  Not confirmed, with the tries that the starts left: 8
        that are not unbootable, corrupted or not; 4 that are both; 2 that are unbootable
        alone, by the last try or since they were modified.  Confirmed: 8 that are successful,
        corrupted or not; 4 that were corrupted then, and are unbootable."""
        reached = gives_up.every_state(REFERENCE, 1)
        self.assertEqual(reached.states, 8 + 4 + 2 + 8 + 4)
        self.assertEqual((reached.most_unproven, reached.runs), (3, 0))

    def test_two_slots(self) -> None:
        """Every claim holds, and not for want of a case."""
        reached = gives_up.every_state(REFERENCE, 2)
        self.assertEqual(reached.wanting(), ["a confirmed slot that is started more often"])
        self.assertGreater(reached.states, 1000)

    def test_random(self) -> None:
        """Nor by sequences for up to four slots."""
        reached = gives_up.random_sequences(REFERENCE, random.Random(1), 400, 60)
        self.assertEqual(reached.wanting(), [])
        self.assertEqual((reached.sequences, reached.operations), (400, 24000))

    def test_bounds(self) -> None:
        """The request's two numbers are the least: the third start may yet start a slot that is
        not successful, and a slot never confirmed is started three times."""
        start = Operation(START)
        with self.assertRaises(Violation) as caught:
            gives_up.every_state(REFERENCE, 2, ALL._replace(run=3))
        self.assertEqual(caught.exception.claim, FOURTH)
        path = (Operation(CONFIRM), Operation(SET_ACTIVE, 1), start, start, start)
        self.assertEqual(caught.exception.path, path)
        with self.assertRaises(Violation) as caught:
            gives_up.every_state(REFERENCE, 1, ALL._replace(most=2))
        self.assertEqual((caught.exception.claim, caught.exception.path), (STARTS, (start,) * 3))

    def test_wanting(self) -> None:
        """Each thing that is to be met is missed where it alone was not."""
        met = {"most_unproven": 3, "most_confirmed": 4, "runs": 1, "late_runs": 1}
        met.update(recoveries=1, refused=1)
        self.assertEqual(Reached(**met).wanting(), [])
        for name, value in met.items():
            self.assertEqual(len(Reached(**{**met, name: value - 1}).wanting()), 1)
        self.assertEqual(len(Reached(**{**met, "most_unproven": 4}).wanting()), 1)


class TestWrongMachines(unittest.TestCase):
    def test_every_state(self) -> None:
        """Each breaks the claims that it should, and no other; each by the sequence shown."""
        for name, (machine, claims) in WRONG.items():
            with self.subTest(name):
                found = broken(machine)
                self.assertEqual(found.keys(), claims)
                for violation in found.values():
                    self.assertEqual(steps_of(machine, 2, violation.path)[-1], violation.step)

    def test_random(self) -> None:
        """Each is caught by random sequences too, by one of these claims."""
        for name, (machine, claims) in WRONG.items():
            with self.subTest(name):
                with self.assertRaises(Violation) as caught:
                    gives_up.random_sequences(machine, random.Random(name), 400, 60)
                self.assertIn(caught.exception.claim, claims)

    def test_three_slots(self) -> None:
        """An unconfirmed slot before one that qualifies is started by the fourth start."""
        machine = WRONG["takes an unconfirmed one"].machine
        asked = Asked(frozenset([FOURTH]))
        with self.assertRaises(Violation) as caught:
            gives_up.every_state(machine, 3, asked)
        step = caught.exception.step
        assert step is not None and isinstance(step.answer, Boots)
        self.assertFalse(step.before.slots[step.answer.slot].successful)

    def test_that_keeps_more_than_the_record(self) -> None:
        """A machine that spends a try every other time, by what it keeps for itself."""
        turns = itertools.cycle((False, True))

        def start(record: Record, operation: Operation) -> Tuple[Answer, Record]:
            answer, after = performed(record, operation)
            if not isinstance(answer, Boots) or next(turns):
                return answer, after
            return answer, with_values(after, answer.slot, tries=record.slots[answer.slot].tries)

        with self.assertRaises(Violation) as caught:
            gives_up.random_sequences(replaced(START, start), random.Random(1), 400, 60)
        self.assertIn(caught.exception.claim, (STARTS, FOURTH))

    def test_that_makes_no_record(self) -> None:
        """There is no sequence to hold against the claims."""
        machine = Machine(lambda number: (Refusal(31), slots.fresh(number)[1]), performed)
        for look in (gives_up.every_state, lambda machine, number: Walk(machine, number, ALL)):
            with self.assertRaises(Violation) as caught:
                look(machine, 2)
            self.assertEqual(caught.exception.claim, Claim.FRESH)

    def test_others(self) -> None:
        """The claims are the request's, not the reference's rules."""
        for name, machine in OTHERS.items():
            with self.subTest(name):
                self.assertEqual(broken(machine), {})

    def test_shown(self) -> None:
        """A sequence that breaks a claim is told whole."""
        found = broken(WRONG["fresh with tries 4"].machine)[STARTS]
        self.assertEqual(str(found).splitlines(), [
            'not so: "a slot never confirmed in between is started at most three times"',
            "  slot a: start 4, unconfirmed",
            "  fresh for 2, start (4 times)",
            "  the record before the last: a tries 1; b tries 4; c tries 4, not in use; "
            "d tries 4, not in use; current 0; startable 2",
            "  the answer to it: Boots(slot=0)",
            "  the record after it: a tries 0; b tries 4; c tries 4, not in use; "
            "d tries 4, not in use; current 0; startable 2",
        ])


class TestSecondFormulation(unittest.TestCase):
    def check(
        self, machine: Machine, number: int, operations: Sequence[Operation], claim: Claim
    ) -> bool:
        """The checker ends where the first part of a sequence does that breaks the claim."""
        steps = steps_of(machine, number, operations)
        counts = (i for i in range(len(steps) + 1) if not SLOW[claim](steps[:i]))
        expected = next(counts, None)
        self.assertEqual(first_broken(machine, number, operations, claim), expected)
        return expected is not None

    def test_short(self) -> None:
        """Every sequence of five operations on one slot, where set active gives tries 4."""
        operations = [Operation(kind) for kind in (START, CONFIRM, SET_ACTIVE, MODIFIED)]
        machine = WRONG["set active with tries 4"].machine
        count = 0
        for sequence in itertools.product(operations, repeat=5):
            count += self.check(machine, 1, sequence, STARTS)
        self.assertEqual(count, 1)

    def test_random(self) -> None:
        """Sequences on the reference and on the machines that break one of the two claims."""
        rng = random.Random(2)
        for claim in SLOW:
            machines = [item.machine for item in WRONG.values() if claim in item.claims]
            results = set()
            for machine, _ in itertools.product([REFERENCE, *machines], range(12)):
                number = 1 + below(rng, 4)
                operations = gives_up.random_operations(rng, number)
                sequence = list(itertools.islice(operations, 24))
                results.add(self.check(machine, number, sequence, claim))
            self.assertEqual(results, {False, True})


class TestOperations(unittest.TestCase):
    def test_every(self) -> None:
        """Start and confirm, and three others with four slots and some past d."""
        operations = gives_up.every_operation(ALL.slots)
        self.assertEqual(len(set(operations)), 2 + 3 * (4 + len(gives_up.PAST_D)))
        self.assertEqual({operation.kind for operation in operations}, gives_up.KINDS.keys())
        self.assertEqual(str(Operation(CORRUPTED, 256)), "corrupted 256")

    def test_random(self) -> None:
        """All of them come among random ones for any number of slots."""
        for number in range(1, 5):
            some = itertools.islice(gives_up.random_operations(random.Random(3), number), 4000)
            self.assertEqual(set(some), set(gives_up.every_operation(ALL.slots)))


if __name__ == "__main__":
    unittest.main()
