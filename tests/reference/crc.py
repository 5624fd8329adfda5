"""CRC-32 of IEEE 802.3: reflected, start and final inversion all ones.

The one-bit form (`bit_step` to `checksum_by_bits`) is the definition.  The
fast forms below it give the same states for long inputs; the unit tests hold
them against the definition.

A *state* is the register between two bytes, before the final inversion.
"""

import binascii
from functools import lru_cache
from typing import Tuple

POLYNOMIAL = 0xEDB88320
ALL_ONES = 0xFFFFFFFF


# The definition.

def bit_step(state: int) -> int:
    """One step of the reflected register: the low bit leaves it."""
    return (state >> 1) ^ (POLYNOMIAL if state & 1 else 0)


def byte_step(state: int, byte: int) -> int:
    """One byte goes in, lowest bit first: eight steps."""
    state ^= byte
    for _ in range(8):
        state = bit_step(state)
    return state


def after_bytes_by_bits(state: int, data: bytes) -> int:
    """The state after the data went in, from any state."""
    for byte in data:
        state = byte_step(state, byte)
    return state


def checksum_by_bits(data: bytes) -> int:
    """01: "CRC-32 of IEEE 802.3 (reflected, start and final inversion all ones)"."""
    return after_bytes_by_bits(ALL_ONES, data) ^ ALL_ONES


# The same by the standard library, for bytes at hand.

def after_bytes(state: int, data: bytes) -> int:
    """Equal to `after_bytes_by_bits`."""
    return binascii.crc32(data, state ^ ALL_ONES) ^ ALL_ONES


def checksum(data: bytes) -> int:
    """Equal to `checksum_by_bits`."""
    return after_bytes(ALL_ONES, data) ^ ALL_ONES


# The same for long runs.  A step is linear over exclusive or, so the state
# after some bytes is (the old state after as many zeros) xor (state 0 after
# the bytes), and zeros move each of the 32 bits on its own.

Columns = Tuple[int, ...]


def moved(columns: Columns, state: int) -> int:
    """What a linear step, given by where it takes each bit, makes of a state."""
    result = 0
    for i in range(32):
        if state >> i & 1:
            result ^= columns[i]
    return result


@lru_cache(maxsize=None)
def zeros_columns(k: int) -> Columns:
    """Where 2^k zero bytes take each of the 32 bits."""
    if k == 0:
        return tuple(byte_step(1 << i, 0) for i in range(32))
    half = zeros_columns(k - 1)
    return tuple(moved(half, column) for column in half)


def after_zeros(state: int, count: int) -> int:
    """The state after so many zero bytes."""
    for k in range(count.bit_length()):
        if count >> k & 1:
            state = moved(zeros_columns(k), state)
    return state


@lru_cache(maxsize=None)
def words_from_zero(word: int, k: int) -> int:
    """State 0 after the word's four bytes, low byte first, 2^k times."""
    if k == 0:
        return after_bytes_by_bits(0, word.to_bytes(4, "little"))
    half = words_from_zero(word, k - 1)
    return moved(zeros_columns(k + 1), half) ^ half


def after_words(state: int, word: int, count: int) -> int:
    """The state after the word's four bytes, low byte first, so many times."""
    for k in range(count.bit_length()):
        if count >> k & 1:
            state = moved(zeros_columns(k + 2), state) ^ words_from_zero(word, k)
    return state
