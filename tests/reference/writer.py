"""Writing a compact sparse image: from flat bytes, or from blocks of which some are kept.

Document 01, "Writing from flat bytes"; document 02, change request 2: "Our writer goes
on stating the true one", and change request 7: "The result is compact".
"""

import itertools
import struct
from typing import Iterable, List, NamedTuple, Optional, Tuple

import sparse

LARGEST_FLAT = 2_147_483_648

TYPES = {
    sparse.RAW: sparse.TYPE_RAW,
    sparse.FILL: sparse.TYPE_FILL,
    sparse.DONT_CARE: sparse.TYPE_DONT_CARE,
}


class Part(NamedTuple):
    """Neighbouring blocks of one kind, with the bytes that their chunk holds: all of theirs
    where raw, the word where fill, none where they are kept."""

    kind: str
    blocks: int
    data: bytes


class Written(NamedTuple):
    """The refusal number (0 for none), the image's length, the output after."""

    number: int
    length: int
    output: bytes


def common_word(block: bytes) -> Optional[bytes]:
    """01: "A block whose 4-byte words are all equal becomes fill, any other raw"."""
    word = block[:4]
    for at in range(4, len(block), 4):
        if block[at:at + 4] != word:
            return None
    return word


def block_part(block: bytes) -> Part:
    """A written block alone."""
    word = common_word(block)
    return Part(sparse.RAW, 1, block) if word is None else Part(sparse.FILL, 1, word)


def shared(part: Part) -> Tuple[str, bytes]:
    """What the blocks of one chunk have in common: the kind, and the word where fill."""
    return part.kind, part.data if part.kind == sparse.FILL else b""


def longest(parts: Iterable[Part]) -> List[Part]:
    """01: "neighbouring raw blocks share one chunk, neighbouring fill blocks with the same
    word share one chunk"; 02, CR 7: "chunks as long as they can be, none empty"."""
    found = []
    for (kind, word), same in itertools.groupby((part for part in parts if part.blocks), shared):
        run = list(same)
        data = b"".join(part.data for part in run) if kind == sparse.RAW else word
        found.append(Part(kind, sum(part.blocks for part in run), data))
    return found


def chunk_bytes(part: Part) -> bytes:
    """A chunk with a header of 12 bytes, reserved 0."""
    total_size = sparse.CHUNK_HEADER_LENGTH + len(part.data)
    return struct.pack("<HHII", TYPES[part.kind], 0, part.blocks, total_size) + part.data


def header_bytes(parts: List[Part], block_size: int, checksum: int) -> bytes:
    """01: "Header sizes are 28 and 12, version 1.0"."""
    return struct.pack(
        "<IHHHHIIII",
        sparse.MAGIC,
        1,
        0,
        sparse.HEADER_LENGTH,
        sparse.CHUNK_HEADER_LENGTH,
        block_size,
        sum(part.blocks for part in parts),
        len(parts),
        checksum,
    )


def image_of_parts(parts: Iterable[Part], block_size: int) -> bytes:
    """The compact image of blocks in order, stating the true checksum, be it 0 or not."""
    runs = longest(parts)
    body = b"".join(map(chunk_bytes, runs))
    unstated = header_bytes(runs, block_size, 0) + body
    checksum = sparse.image_checksum(
        unstated, sparse.read_header(unstated), sparse.chunks_of(unstated)
    )
    return header_bytes(runs, block_size, checksum) + body


def image_of(flat: bytes, block_size: int) -> bytes:
    """The image of flat bytes that are whole blocks, all of them written."""
    starts = range(0, len(flat), block_size)
    return image_of_parts((block_part(flat[at:at + block_size]) for at in starts), block_size)


def flat_number(flat_length: int, block_size: int) -> int:
    """Refusal 5, then 13: "flat length too large or not whole blocks"; 0 for none."""
    if not sparse.is_block_size(block_size):
        return 5
    if flat_length > LARGEST_FLAT or flat_length % block_size != 0:
        return 13
    return 0


def output_after(image: bytes, output: bytes) -> bytes:
    """01: "output bytes past it keep what they held"."""
    return image + output[len(image):]


def write(flat: bytes, block_size: int, output: bytes) -> Written:
    """01: "The answer is the image's length"; a refusal, 12 for a short output the last,
    changes nothing."""
    number = flat_number(len(flat), block_size)
    if number != 0:
        return Written(number, 0, output)
    image = image_of(flat, block_size)
    if len(output) < len(image):
        return Written(12, 0, output)
    return Written(0, len(image), output_after(image, output))
