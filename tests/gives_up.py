"""Holds the slot operations of a shared object against change request 14 of document 02.

    python3 tests/gives_up.py LIBRARY [--seed N]

Looks at all sequences of operations from the fresh records for 1 to 3 slots, and at random ones
for 1 to 4; tests/reference/gives_up.py has the claims, and no rule by which a slot starts is
taken from elsewhere.  For all sequences each operation is called once on each record, since it
takes nothing else; for the random ones it is called anew at each step.  The record that is lent
and the answer have guard bytes before and after them, which must stay as they are.  Prints one
line, `gives up: N states of 1 to 3 slots and M random sequences for 1 to 4, K operations: every
claim of CR 14 holds`; at the first sequence that breaks one it shows that instead and ends with
1, also where a claim held only since nothing was met that it speaks of.
"""

import argparse
import ctypes
import os
import random
import struct
import sys
from functools import lru_cache
from typing import Any, Callable, Dict, Tuple

HERE = os.path.dirname(os.path.abspath(__file__))
sys.path.insert(0, os.path.join(HERE, "reference"))

import cases_slots
from cases_slots import CONFIRM, CORRUPTED, FRESH, MODIFIED, SET_ACTIVE, START
from gives_up import Machine, Operation, Reached, Violation, every_state, random_sequences
from slots import PLACES, Answer, Boots, Done, Record, Recovery, Refusal

SEED = 20240906
SEQUENCES, LENGTH = 10000, 60
MOST_SEARCHED = 3
PREFIX = "tarpaulark_slots_"
NAMES = {
    FRESH: "fresh", START: "start", SET_ACTIVE: "set_active", MODIFIED: "modified",
    CORRUPTED: "corrupted", CONFIRM: "confirm",
}
ANSWERS = {
    cases_slots.answer_values(answer): answer
    for answer in (Done(), Recovery(), *map(Boots, range(PLACES)), *map(Refusal, (31, 32, 33)))
}

# What is lent: the 22 bytes of the record and the two numbers of the answer, guards around both.
RECORD_AT, RECORD_END, ANSWER_AT, ANSWER_END, LENT = 64, 86, 128, 144, 208
GUARD_BYTES = bytes((0xC3 ^ 37 * i) % 256 for i in range(LENT))
BEFORE, BETWEEN, BEHIND = (
    GUARD_BYTES[:RECORD_AT], GUARD_BYTES[RECORD_END:ANSWER_AT], GUARD_BYTES[ANSWER_END:]
)
OLD_ANSWER = b"\x6B" * (ANSWER_END - ANSWER_AT)
OLD_RECORD = b"\x01" * (RECORD_END - RECORD_AT)


class BadCall(Exception):
    """A call whose outcome is none of a slot operation."""


@lru_cache(maxsize=2**16)
def record_bytes(record: Record) -> bytes:
    """A record as it is lent."""
    return bytes(cases_slots.record_values(record))


record_of = lru_cache(maxsize=2**16)(cases_slots.record_of)


def entries(library: str, record: int, answer: int) -> Dict[int, Callable[[int], int]]:
    """The library's operations on a record and an answer at two addresses, by their kinds; each
    takes a number of slots or a slot, which some of them do not hand on."""
    loaded = ctypes.CDLL(library)

    def entry(kind: int, *types: Any) -> Any:
        function = getattr(loaded, PREFIX + NAMES[kind])
        function.argtypes, function.restype = types, ctypes.c_uint32
        return function

    def alone(kind: int) -> Callable[[int], int]:
        function = entry(kind, ctypes.c_void_p, ctypes.c_void_p)
        return lambda _: function(record, answer)

    def on_slot(kind: int) -> Callable[[int], int]:
        function = entry(kind, ctypes.c_void_p, ctypes.c_uint32, ctypes.c_void_p)
        return lambda slot: function(record, slot, answer)

    fresh = entry(FRESH, ctypes.c_uint32, ctypes.c_void_p, ctypes.c_void_p)
    found: Dict[int, Callable[[int], int]] = {FRESH: lambda number: fresh(number, record, answer)}
    found.update({kind: alone(kind) for kind in (START, CONFIRM)})
    found.update({kind: on_slot(kind) for kind in (SET_ACTIVE, MODIFIED, CORRUPTED)})
    return found


class Library:
    """The library as a machine of slot operations."""

    def __init__(self, path: str) -> None:
        self.memory = (ctypes.c_uint64 * (LENT // 8))()
        self.base = ctypes.addressof(self.memory)
        self.entries = entries(path, self.base + RECORD_AT, self.base + ANSWER_AT)

    def call(self, kind: int, number: int, given: bytes) -> Tuple[Answer, bytes]:
        """Lends the bytes of a record: the answer, and the bytes after the call."""
        ctypes.memmove(self.base, BEFORE + given + BETWEEN + OLD_ANSWER + BEHIND, LENT)
        returned = self.entries[kind](number)
        lent = ctypes.string_at(self.base, LENT)
        values = (returned, *struct.unpack_from("=QQ", lent, ANSWER_AT))
        after = lent[RECORD_AT:RECORD_END]
        is_kept = lent == BEFORE + after + BETWEEN + lent[ANSWER_AT:ANSWER_END] + BEHIND
        if is_kept and values in ANSWERS:
            return ANSWERS[values], after
        fault = f"answers {values}" if is_kept else "changes bytes around the record or the answer"
        raise BadCall(f"{PREFIX}{NAMES[kind]} with {number} on {given.hex()} {fault}")

    def done(self, kind: int, number: int, given: bytes) -> Tuple[Answer, Record]:
        """The same, with the record that the bytes are."""
        answer, after = self.call(kind, number, given)
        record = record_of(after)
        if record is None or record.current >= PLACES:
            name = PREFIX + NAMES[kind]
            raise BadCall(f"{name} with {number} on {given.hex()} leaves no record: {after.hex()}")
        return answer, record

    def fresh(self, number: int) -> Tuple[Answer, Record]:
        """The fresh record, where other bytes stood."""
        return self.done(FRESH, number, OLD_RECORD)

    def apply(self, record: Record, operation: Operation) -> Tuple[Answer, Record]:
        """An operation on a record."""
        return self.done(operation.kind, operation.slot, record_bytes(record))


def looked_at(machine: Machine, rng: random.Random) -> Reached:
    """All sequences, the shortest first, then random ones: what was reached."""
    reached = Reached()
    for number in range(1, MOST_SEARCHED + 1):
        reached.add(every_state(machine, number))
    reached.add(random_sequences(machine, rng, SEQUENCES, LENGTH))
    return reached


def main() -> int:
    """1 at the first claim that is broken, or where some case was not met."""
    parser = argparse.ArgumentParser(description="Holds a library against change request 14.")
    parser.add_argument("library")
    parser.add_argument("--seed", type=int, default=SEED)
    options = parser.parse_args()
    library = Library(os.path.abspath(options.library))
    try:
        reached = looked_at(Machine(library.fresh, library.apply), random.Random(options.seed))
    except (Violation, BadCall) as fault:
        print(f"gives up: {fault}")
        return 1
    if reached.wanting():
        print(f"gives up: never met: {'; '.join(reached.wanting())}")
        return 1
    print(
        f"gives up: {reached.states} states of 1 to {MOST_SEARCHED} slots and {reached.sequences} "
        f"random sequences for 1 to {PLACES}, {reached.operations} operations: every claim of CR "
        "14 holds"
    )
    return 0


if __name__ == "__main__":
    sys.exit(main())
