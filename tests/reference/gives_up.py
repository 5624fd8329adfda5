"""Holds slot operations against change request 14 of document 02, "An unproven slot gives up".

The claims are written from documents 02 and 01 alone.  Of the reference's slots they take the
values, records and answers, but none of the rules; so they can be held against the reference
too, and against any other machine that takes such records.
"""

import enum
import itertools
import random
from collections import deque
from dataclasses import dataclass
from typing import (
    Callable, Deque, Dict, FrozenSet, Iterator, List, NamedTuple, Optional, Sequence, Tuple
)

from cases_common import below, pick
from cases_slots import CONFIRM, CORRUPTED, MODIFIED, SET_ACTIVE, START
from slots import PLACES, Answer, Boots, Done, Record, Recovery, Refusal, Slot

LETTERS = "abcd"
KINDS = {
    START: "start", SET_ACTIVE: "set active", MODIFIED: "partition modified",
    CORRUPTED: "corrupted", CONFIRM: "confirm",
}
ON_A_SLOT = (SET_ACTIVE, MODIFIED, CORRUPTED)

# Slots past d: the next, the last of a byte, one with the low byte of a, the last of all.
PAST_D = (4, 255, 256, 2**32 - 1)
NAMED_SLOTS = (*range(PLACES), *PAST_D)

# What a random operation is picked from; so many starts at most come of one pick.
PICKED_KINDS = (START,) * 6 + (CONFIRM,) * 4 + (SET_ACTIVE,) * 4 + (CORRUPTED, CORRUPTED, MODIFIED)
MOST_IN_A_ROW = 5


class Claim(enum.Enum):
    """The sentences that are held, in the papers' words: the four of CR 14, and two of 01 on
    which they stand: there is a record to begin with, and a refused operation changes none."""

    MOST_STARTS = "a slot never confirmed in between is started at most three times"
    TAKES_NO_TRY = "A start that does not pick a slot takes no try from it."
    FOURTH_START = "the fourth start starts a successful slot"
    RECOVERY = (
        "Recovery is answered exactly when the current slot may not start and no other qualifies."
    )
    STORES_NOTHING = "Refusals store nothing."
    FRESH = "A fresh record is made for 1 to 4 slots"


class Asked(NamedTuple):
    """Which claims are asked; 02's two numbers, "at most three times" and "a run of four
    starts"; and the slots that the operations of all sequences name."""

    claims: FrozenSet[Claim] = frozenset(Claim)
    most: int = 3
    run: int = 4
    slots: Tuple[int, ...] = NAMED_SLOTS


ALL = Asked()


class Operation(NamedTuple):
    """An operation by its kind, and the slot of those that name one."""

    kind: int
    slot: int = 0

    def __str__(self) -> str:
        return f"{KINDS[self.kind]} {self.slot}" if self.kind in ON_A_SLOT else KINDS[self.kind]


class Machine(NamedTuple):
    """What is held against the claims: how it makes the fresh record for a number of slots, and
    what it makes of a record by an operation."""

    fresh: Callable[[int], Tuple[Answer, Record]]
    apply: Callable[[Record, Operation], Tuple[Answer, Record]]


class Step(NamedTuple):
    """One operation of a sequence, refused or not."""

    before: Record
    operation: Operation
    answer: Answer
    after: Record


@dataclass
class Reached:
    """How far the sequences went that were looked at: what they were, and what shows that no
    claim held for want of a case."""

    states: int = 0
    sequences: int = 0
    operations: int = 0
    refused: int = 0
    recoveries: int = 0
    # Runs of four starts before which another slot qualifies, and those of them whose last
    # start but one is of a slot that is not successful.
    runs: int = 0
    late_runs: int = 0
    # The most starts in a stretch of a slot not confirmed in it yet, and of one that is; of the
    # latter the search of all sequences counts one alone.
    most_unproven: int = 0
    most_confirmed: int = 0

    def add(self, other: "Reached") -> None:
        """Takes in what was reached elsewhere."""
        self.states += other.states
        self.sequences += other.sequences
        self.operations += other.operations
        self.refused += other.refused
        self.recoveries += other.recoveries
        self.runs += other.runs
        self.late_runs += other.late_runs
        self.most_unproven = max(self.most_unproven, other.most_unproven)
        self.most_confirmed = max(self.most_confirmed, other.most_confirmed)

    def wanting(self) -> List[str]:
        """What was not met, in words, so that the claims would not be seen to be sharp."""
        met = {
            "an unproven slot that is started three times": self.most_unproven == ALL.most,
            "a confirmed slot that is started more often": self.most_confirmed > ALL.most,
            "four starts beside a slot that qualifies": self.runs > 0,
            "the third of them of a slot that is not successful": self.late_runs > 0,
            "Recovery": self.recoveries > 0,
            "a refused operation": self.refused > 0,
        }
        return [text for text, is_met in met.items() if not is_met]


# In words.

def slot_text(slot: Slot) -> str:
    """A place of a record in words."""
    flags = [name for name, value in zip(slot._fields, slot) if value is True and name != "used"]
    return ", ".join(flags + [f"tries {slot.tries}"] + ([] if slot.used else ["not in use"]))


def record_text(record: Record) -> str:
    """A record in words."""
    places = [f"{letter} {slot_text(slot)}" for letter, slot in zip(LETTERS, record.slots)]
    return "; ".join(places) + f"; current {record.current}; startable {record.startable}"


def path_text(number: int, path: Sequence[Operation]) -> str:
    """A sequence in words, equal operations one after the other told once."""
    words = [f"fresh for {number}"]
    for operation, equal in itertools.groupby(path):
        count = len(list(equal))
        words.append(str(operation) if count == 1 else f"{operation} ({count} times)")
    return ", ".join(words)


class Violation(Exception):
    """A claim that does not hold, by a sequence from the fresh record for a number of slots: its
    operations, and the last of its steps, if it has one."""

    def __init__(
        self, claim: Claim, fault: str, number: int, path: Sequence[Operation],
        step: Optional[Step] = None,
    ) -> None:
        lines = [f'not so: "{claim.value}"', fault, path_text(number, path)]
        if step is not None:
            lines += [
                f"the record before the last: {record_text(step.before)}",
                f"the answer to it: {step.answer}",
                f"the record after it: {record_text(step.after)}",
            ]
        super().__init__("\n  ".join(lines))
        self.claim, self.number, self.path, self.step = claim, number, tuple(path), step


# The claims that one step shows.

def may_start(slot: Slot) -> bool:
    """01: "not unbootable, and is successful or has tries above 0"; 02, CR 4: "A corrupted slot
    may not start, successful or not"."""
    if slot.unbootable or slot.corrupted:
        return False
    return slot.successful or slot.tries > 0


def has_other(record: Record) -> bool:
    """02: "some slot in use other than the current one is successful, not corrupted and not
    unbootable"."""
    return any(
        slot.used and slot.successful and not (slot.corrupted or slot.unbootable)
        for place, slot in enumerate(record.slots) if place != record.current
    )


def try_fault(step: Step) -> Optional[str]:
    """Claim TAKES_NO_TRY: the tries of a place that is not picked are as they were, and so are
    all where none is, with Recovery or a refusal."""
    if step.operation.kind != START:
        return None
    picked = step.answer.slot if isinstance(step.answer, Boots) else None
    for place, (old, new) in enumerate(zip(step.before.slots, step.after.slots)):
        if place != picked and old.tries != new.tries:
            return f"slot {LETTERS[place]}, which is not picked, has tries {new.tries}"
    return None


def recovery_fault(step: Step) -> Optional[str]:
    """Claim RECOVERY, both ways: "exactly when"."""
    if step.operation.kind != START:
        return None
    may, other = may_start(step.before.slots[step.before.current]), has_other(step.before)
    if isinstance(step.answer, Recovery) == (not may and not other):
        return None
    words = "may start" if may else "may not start"
    return f"the current slot {words}, {'another' if other else 'no other'} qualifies"


def refusal_fault(step: Step) -> Optional[str]:
    """Claim STORES_NOTHING.  With it a refused operation between two others changes nothing: not
    what comes after it, and not whether four starts are a run."""
    is_kept = not isinstance(step.answer, Refusal) or step.after == step.before
    return None if is_kept else "the record is another one after a refusal"


STEP_FAULTS = {
    Claim.TAKES_NO_TRY: try_fault,
    Claim.RECOVERY: recovery_fault,
    Claim.STORES_NOTHING: refusal_fault,
}


# The claim over runs.

def starts_successful(step: Step) -> bool:
    """Whether a successful slot starts; it is so before the start and after it."""
    if not isinstance(step.answer, Boots):
        return False
    slot = step.answer.slot
    return step.before.slots[slot].successful and step.after.slots[slot].successful


def run_fault(run: Sequence[Step], reached: Reached) -> Optional[str]:
    """Claim FOURTH_START, of a run of starts by its steps."""
    if not has_other(run[0].before):
        return None
    reached.runs += 1
    third = run[-2]
    reached.late_runs += isinstance(third.answer, Boots) and not starts_successful(third)
    return None if starts_successful(run[-1]) else f"start {len(run)} starts no successful slot"


# The claim over stretches, "between one set active or partition modified on a slot, or the
# beginning, and the next of either on it, or the end".

class Watch(NamedTuple):
    """What is known of a slot since its stretch began: how often it has been started, and
    whether it has been confirmed."""

    starts: int
    is_confirmed: bool


Watches = Tuple[Watch, ...]

BEGINS, CONFIRMED, STARTED = "begins", "confirmed", "started"
NEW_WATCH = Watch(0, False)
NEW_WATCHES: Watches = (NEW_WATCH,) * PLACES


class Event(NamedTuple):
    """What a step is to the stretch of a slot."""

    what: str
    slot: int


def event_of(step: Step) -> Optional[Event]:
    """What a step begins, confirms or starts.  02: "Refused operations do not count as any of
    these."  The slot that is confirmed is the current one; past d there is none to begin."""
    kind, slot = step.operation
    if isinstance(step.answer, Boots):
        return Event(STARTED, step.answer.slot)
    if not isinstance(step.answer, Done):
        return None
    if kind in (SET_ACTIVE, MODIFIED) and slot < PLACES:
        return Event(BEGINS, slot)
    return Event(CONFIRMED, step.before.current) if kind == CONFIRM else None


def watch_after(watch: Watch, what: str) -> Watch:
    """A slot's watch after an event of its own."""
    if what == BEGINS:
        return NEW_WATCH
    if what == CONFIRMED:
        return watch._replace(is_confirmed=True)
    return watch._replace(starts=watch.starts + 1)


def with_watch(watches: Watches, slot: int, watch: Watch) -> Watches:
    """The watches with one of them replaced."""
    return watches[:slot] + (watch,) + watches[slot + 1:]


def watches_after(watches: Watches, event: Optional[Event]) -> Watches:
    """All four watches after a step."""
    if event is None:
        return watches
    return with_watch(watches, event.slot, watch_after(watches[event.slot], event.what))


def watch_fault(
    watches: Watches, event: Optional[Event], most: int, reached: Reached
) -> Optional[str]:
    """Claim MOST_STARTS, of the watches after an event.  It is asked of a slot not confirmed yet,
    whatever comes later: where the sequence ends here, it is never confirmed."""
    if event is None or event.what != STARTED:
        return None
    watch = watches[event.slot]
    if watch.is_confirmed:
        reached.most_confirmed = max(reached.most_confirmed, watch.starts)
        return None
    reached.most_unproven = max(reached.most_unproven, watch.starts)
    is_held = watch.starts <= most
    return None if is_held else f"slot {LETTERS[event.slot]}: start {watch.starts}, unconfirmed"


# Sequences.

class Sequences:
    """Sequences of a machine's operations from the fresh record for a number of slots: how they
    are looked at, and what was reached."""

    def __init__(self, machine: Machine, number: int, asked: Asked) -> None:
        self.machine, self.number, self.asked = machine, number, asked
        self.step_faults = [item for item in STEP_FAULTS.items() if item[0] in asked.claims]
        self.reached = Reached()
        answer, self.first = machine.fresh(number)
        if not isinstance(answer, Done):
            raise Violation(Claim.FRESH, f"the answer is {answer}", number, ())

    def step(self, record: Record, operation: Operation) -> Step:
        """Has the machine do an operation."""
        step = Step(record, operation, *self.machine.apply(record, operation))
        self.reached.operations += 1
        self.reached.refused += isinstance(step.answer, Refusal)
        self.reached.recoveries += isinstance(step.answer, Recovery)
        return step

    def fault(self, step: Step) -> Optional[Tuple[Claim, str]]:
        """The first claim that a step breaks by itself, and how."""
        for claim, fault_of in self.step_faults:
            fault = fault_of(step)
            if fault is not None:
                return claim, fault
        return None

    def watch_fault(self, watches: Watches, event: Optional[Event]) -> Optional[str]:
        """How the watches after an event break the claim over stretches."""
        fault = watch_fault(watches, event, self.asked.most, self.reached)
        return fault if Claim.MOST_STARTS in self.asked.claims else None

    def run_fault(self, run: Sequence[Step]) -> Optional[str]:
        """How a run of starts breaks the claim over runs."""
        fault = run_fault(run, self.reached)
        return fault if Claim.FOURTH_START in self.asked.claims else None


# All sequences.

def every_operation(slots: Sequence[int]) -> List[Operation]:
    """Start and confirm, and the others with each of some slots."""
    named = [Operation(kind, slot) for slot in slots for kind in ON_A_SLOT]
    return [Operation(START), Operation(CONFIRM), *named]


class State(NamedTuple):
    """Where a sequence has come to."""

    record: Record
    watches: Watches


class Move(NamedTuple):
    """A step as the search takes it, with its event."""

    step: Step
    event: Optional[Event]


class Search(Sequences):
    """All sequences of any length, as a search of all states that they come to.

    An operation is a function of the record and the slot that it names, and the watches after a
    step are one of those before it and of the step.  So a sequence is a path of states, and by
    induction over its length the search meets each of them.  It looks at every step from every
    state that it meets, and at the four starts from there: at every step and every run of every
    sequence.  A machine that kept something beside the record would be no such function; that
    is for the random sequences to see, which ask it anew at each step.

    The states are few, since a watch counts no further than to one start too many, and not at
    all once its slot is confirmed, of which the claim says no more.  Of the slots past d, which
    are all refused, some stand for the others.
    """

    def __init__(self, machine: Machine, number: int, asked: Asked) -> None:
        super().__init__(machine, number, asked)
        self.operations = every_operation(asked.slots)
        self.origins: Dict[State, Optional[Tuple[State, Operation]]] = {}
        self.known_starts: Dict[Record, Step] = {}
        self.known_moves: Dict[Record, List[Move]] = {}

    def path(self, state: State) -> List[Operation]:
        """The operations by which a state was met first."""
        path: List[Operation] = []
        origin = self.origins[state]
        while origin is not None:
            state, operation = origin
            path.append(operation)
            origin = self.origins[state]
        return path[::-1]

    def violation(self, claim: Claim, fault: str, state: State, steps: Sequence[Step]) -> Violation:
        """A claim broken by some steps from a state."""
        path = self.path(state) + [step.operation for step in steps]
        return Violation(claim, fault, self.number, path, steps[-1])

    def start(self, record: Record) -> Step:
        """Start on a record, asked of the machine once."""
        if record not in self.known_starts:
            self.known_starts[record] = self.step(record, Operation(START))
        return self.known_starts[record]

    def look_at_run(self, state: State) -> None:
        """Holds the starts from a state against the claim over runs."""
        run: List[Step] = []
        for _ in range(self.asked.run):
            run.append(self.start(run[-1].after if run else state.record))
        fault = self.run_fault(run)
        if fault is not None:
            raise self.violation(Claim.FOURTH_START, fault, state, run)

    def moves_from(self, state: State) -> List[Move]:
        """The moves from a record, of those that are alike in record and event the first, and of
        those that change neither it nor a watch none.  At first sight of the record all steps
        are held against the claims that look at no watch."""
        if state.record not in self.known_moves:
            moves: Dict[Tuple[Record, Optional[Event]], Move] = {}
            for operation in self.operations:
                is_start = operation.kind == START
                step = self.start(state.record) if is_start else self.step(state.record, operation)
                found = self.fault(step)
                if found is not None:
                    raise self.violation(*found, state, [step])
                event = event_of(step)
                if event is not None or step.after != state.record:
                    moves.setdefault((step.after, event), Move(step, event))
            self.look_at_run(state)
            self.known_moves[state.record] = list(moves.values())
        return self.known_moves[state.record]

    def settled(self, watch: Watch) -> Watch:
        """A watch as the search keeps it."""
        most = self.asked.most + 1
        return Watch(0, True) if watch.is_confirmed else Watch(min(watch.starts, most), False)

    def next_state(self, state: State, move: Move) -> State:
        """The state after a move, whose watches keep the claim over stretches."""
        event, after = move.event, move.step.after
        if event is None:
            return State(after, state.watches)
        watches = watches_after(state.watches, event)
        fault = self.watch_fault(watches, event)
        if fault is not None:
            raise self.violation(Claim.MOST_STARTS, fault, state, [move.step])
        return State(after, with_watch(watches, event.slot, self.settled(watches[event.slot])))

    def meet_all(self) -> Reached:
        """Meets every state, those first to which the shortest sequences come."""
        first = State(self.first, NEW_WATCHES)
        self.origins[first] = None
        waiting: Deque[State] = deque([first])
        while waiting:
            state = waiting.popleft()
            for move in self.moves_from(state):
                after = self.next_state(state, move)
                if after not in self.origins:
                    self.origins[after] = state, move.step.operation
                    waiting.append(after)
        self.reached.states = len(self.origins)
        return self.reached


def every_state(machine: Machine, number: int, asked: Asked = ALL) -> Reached:
    """Holds all sequences from the fresh record for a number of slots against the claims."""
    return Search(machine, number, asked).meet_all()


# Random sequences.

class Walk(Sequences):
    """One sequence, of which the machine is asked every step anew."""

    def __init__(self, machine: Machine, number: int, asked: Asked) -> None:
        super().__init__(machine, number, asked)
        self.record, self.watches = self.first, NEW_WATCHES
        self.path: List[Operation] = []
        self.run: List[Step] = []

    def broken_by(self, step: Step) -> Optional[Tuple[Claim, str]]:
        """The first claim that is broken with a step, and how; a refused operation does not end
        a run of starts."""
        if step.operation.kind == START:
            self.run.append(step)
        elif not isinstance(step.answer, Refusal):
            self.run.clear()
        event = event_of(step)
        self.watches = watches_after(self.watches, event)
        found = self.fault(step)
        if found is not None:
            return found
        fault = self.watch_fault(self.watches, event)
        if fault is not None:
            return Claim.MOST_STARTS, fault
        if step.operation.kind == START and len(self.run) >= self.asked.run:
            fault = self.run_fault(self.run[-self.asked.run:])
        return None if fault is None else (Claim.FOURTH_START, fault)

    def take(self, operation: Operation) -> None:
        """Takes the next step."""
        step = self.step(self.record, operation)
        self.path.append(operation)
        found = self.broken_by(step)
        if found is not None:
            raise Violation(*found, self.number, self.path, step)
        self.record = step.after


def random_operation(rng: random.Random, number: int) -> Operation:
    """An operation, mostly on a slot in use."""
    kind = pick(rng, PICKED_KINDS)
    if kind not in ON_A_SLOT:
        return Operation(kind)
    if below(rng, 8) == 0:
        return Operation(kind, pick(rng, (*range(number, PLACES), *PAST_D)))
    return Operation(kind, below(rng, number))


def random_operations(rng: random.Random, number: int) -> Iterator[Operation]:
    """Operations without end, starts mostly some in a row."""
    while True:
        operation = random_operation(rng, number)
        count = 1 + below(rng, MOST_IN_A_ROW) if operation.kind == START else 1
        yield from itertools.repeat(operation, count)


def random_sequences(
    machine: Machine, rng: random.Random, count: int, length: int, asked: Asked = ALL
) -> Reached:
    """Holds so many sequences of a length, for 1 to 4 slots, against the claims."""
    reached = Reached(sequences=count)
    for _ in range(count):
        number = 1 + below(rng, PLACES)
        walk = Walk(machine, number, asked)
        for operation in itertools.islice(random_operations(rng, number), length):
            walk.take(operation)
        reached.add(walk.reached)
    return reached
