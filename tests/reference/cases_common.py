"""What the groups of vectors share: packing, patches and choices from a seed.

Choices use only `getrandbits`, whose results are fixed for a seed.
"""

import random
import struct
from typing import Iterator, List, NamedTuple, Sequence, Tuple, TypeVar

Item = TypeVar("Item")

SHORTEST_GAP = 8


class Group(NamedTuple):
    """A group's file, and the values of each line expected for it."""

    data: bytes
    lines: List[Tuple[int, ...]]


def u32(value: int) -> bytes:
    """Four bytes, low byte first."""
    return struct.pack("<I", value)


def u64(value: int) -> bytes:
    """Eight bytes, low byte first."""
    return struct.pack("<Q", value)


def below(rng: random.Random, bound: int) -> int:
    """A number from 0 to below the bound."""
    return rng.getrandbits(64) % bound


def pick(rng: random.Random, items: Sequence[Item]) -> Item:
    """One of the items."""
    return items[below(rng, len(items))]


def some_bytes(rng: random.Random, count: int) -> bytes:
    """So many bytes of any value."""
    return bytes(rng.getrandbits(8) for _ in range(count))


def stretches(image: bytes) -> Iterator[Tuple[int, bytes]]:
    """The stretches of an image that hold all its bytes that are not 0."""
    rest = image.lstrip(b"\0")
    while rest:
        at = len(image) - len(rest)
        gap = rest.find(bytes(SHORTEST_GAP))
        data = rest[:gap] if gap >= 0 else rest.rstrip(b"\0")
        yield at, data
        rest = rest[len(data):].lstrip(b"\0")


def patched_image(image: bytes) -> bytes:
    """An image as its length and the patches that make it from zeros."""
    patches = [u32(at) + u32(len(data)) + data for at, data in stretches(image)]
    return u32(len(image)) + u32(len(patches)) + b"".join(patches)


def image_from_patches(data: bytes, at: int) -> Tuple[bytes, int]:
    """The image whose patches stand at a position, and the position after them."""
    length, count = struct.unpack_from("<II", data, at)
    at += 8
    image = bytearray(length)
    for _ in range(count):
        offset, size = struct.unpack_from("<II", data, at)
        image[offset:offset + size] = data[at + 8:at + 8 + size]
        at += 8 + size
    return bytes(image), at
