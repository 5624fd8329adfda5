"""Judging a sparse image against a partition length.

Document 01, "Sparse header and chunks" and refusals 1 to 11, and document 02,
change requests 2 and 3.  Chunks are treated as runs of blocks, so an image may
name 2^48 bytes.
"""

from dataclasses import dataclass
from typing import List, NamedTuple, Union

import crc
import fields

MAGIC = 0xED26FF3A
HEADER_LENGTH = 28
CHUNK_HEADER_LENGTH = 12
CHECKSUM_AT = 24

TYPE_RAW = 0xCAC1
TYPE_FILL = 0xCAC2
TYPE_DONT_CARE = 0xCAC3

RAW = "raw"
FILL = "fill"
DONT_CARE = "don't care"
UNKNOWN = "unknown"


class Header(NamedTuple):
    """The fields of the file header, in their order."""

    magic: int
    major: int
    minor: int
    file_header_size: int
    chunk_header_size: int
    block_size: int
    total_blocks: int
    total_chunks: int
    checksum: int


class Chunk(NamedTuple):
    """A chunk that passed its tests: where it stands and what it covers.  02, CR 3:
    its kind "shall say whether its type is known"."""

    kind: str
    first_block: int
    blocks: int
    data_at: int
    end: int


@dataclass(frozen=True)
class Refusal:
    """A numbered refusal with its place in the image."""

    number: int
    place: int


@dataclass(frozen=True)
class Accepted:
    """02, CR 3: "three counts whose sum is the total: written, don't care, unknown"."""

    written: int
    dont_care: int
    unknown: int


Verdict = Union[Accepted, Refusal]


def read_header(image: bytes) -> Header:
    """01's table of header fields; bytes past the end count as 0."""
    return Header(
        magic=fields.read(image, 0, 4),
        major=fields.read(image, 4, 2),
        minor=fields.read(image, 6, 2),
        file_header_size=fields.read(image, 8, 2),
        chunk_header_size=fields.read(image, 10, 2),
        block_size=fields.read(image, 12, 4),
        total_blocks=fields.read(image, 16, 4),
        total_chunks=fields.read(image, 20, 4),
        checksum=fields.read(image, CHECKSUM_AT, 4),
    )


def is_block_size(size: int) -> bool:
    """01: "Block size is a multiple of 4 from 4 to 65,536."."""
    return 4 <= size <= 65536 and size % 4 == 0


def is_header_size(size: int, least: int) -> bool:
    """01: "at least 28 ... at least 12, both multiples of 4"."""
    return size >= least and size % 4 == 0


def header_number(image: bytes, header: Header, partition_length: int) -> int:
    """The first of refusals 1 to 6 that applies; 0 for none."""
    if len(image) < HEADER_LENGTH:
        return 1
    if header.magic != MAGIC:
        return 2
    if header.major != 1:
        return 3
    if not is_header_size(header.file_header_size, HEADER_LENGTH):
        return 4
    if not is_header_size(header.chunk_header_size, CHUNK_HEADER_LENGTH):
        return 4
    if header.file_header_size > len(image):
        return 4
    if not is_block_size(header.block_size):
        return 5
    if header.total_blocks * header.block_size > partition_length:
        return 6
    return 0


def chunk_kind(chunk_type: int) -> str:
    """One of 01's three known types, or "Any other type"."""
    known = {TYPE_RAW: RAW, TYPE_FILL: FILL, TYPE_DONT_CARE: DONT_CARE}
    return known.get(chunk_type, UNKNOWN)


def is_written(chunk: Chunk) -> bool:
    """01: "blocks written (raw and fill) and blocks skipped (all other)"."""
    return chunk.kind in (RAW, FILL)


def is_total_size(header: Header, chunk_type: int, blocks: int, total_size: int) -> bool:
    """01's rule of the total size for each chunk type."""
    if chunk_type == TYPE_RAW:
        return total_size == header.chunk_header_size + blocks * header.block_size
    if chunk_type == TYPE_FILL:
        return total_size == header.chunk_header_size + 4
    if chunk_type == TYPE_DONT_CARE:
        return total_size == header.chunk_header_size
    return total_size >= header.chunk_header_size and total_size % 4 == 0


def read_chunk(
    image: bytes, header: Header, offset: int, first_block: int
) -> Union[Chunk, Refusal]:
    """01: "Each chunk header is either a chunk or a refusal"; tests 7, 8, 7, 9."""
    left = len(image) - offset
    if left < header.chunk_header_size:
        return Refusal(7, offset)
    chunk_type = fields.read(image, offset, 2)
    blocks = fields.read(image, offset + 4, 4)
    total_size = fields.read(image, offset + 8, 4)
    if not is_total_size(header, chunk_type, blocks, total_size):
        return Refusal(8, offset)
    if left < total_size:
        return Refusal(7, offset)
    if first_block + blocks > header.total_blocks:
        return Refusal(9, offset)
    data_at = offset + header.chunk_header_size
    return Chunk(chunk_kind(chunk_type), first_block, blocks, data_at, offset + total_size)


def walk(image: bytes, header: Header) -> Union[List[Chunk], Refusal]:
    """01: "Chunks are tested in order, each fully before the next."."""
    chunks: List[Chunk] = []
    offset = header.file_header_size
    blocks = 0
    while len(chunks) < header.total_chunks:
        chunk = read_chunk(image, header, offset, blocks)
        if isinstance(chunk, Refusal):
            return chunk
        chunks.append(chunk)
        offset = chunk.end
        blocks += chunk.blocks
    if blocks < header.total_blocks:
        return Refusal(9, offset)
    if offset < len(image):
        return Refusal(10, offset)
    return chunks


def chunk_state(state: int, image: bytes, header: Header, chunk: Chunk) -> int:
    """The checksum's state after a chunk, "skipped blocks counted as zeros"."""
    length = chunk.blocks * header.block_size
    if chunk.kind == RAW:
        return crc.after_bytes(state, image[chunk.data_at:chunk.data_at + length])
    if chunk.kind == FILL:
        return crc.after_words(state, fields.read(image, chunk.data_at, 4), length // 4)
    return crc.after_zeros(state, length)


def image_checksum(image: bytes, header: Header, chunks: List[Chunk]) -> int:
    """CRC-32 "over total blocks × block size bytes"."""
    state = crc.ALL_ONES
    for chunk in chunks:
        state = chunk_state(state, image, header, chunk)
    return state ^ crc.ALL_ONES


def is_checksum_stated(header: Header) -> bool:
    """02, CR 2: "in all forms, 0 means that none is stated"."""
    return header.checksum != 0


def is_checksum_wrong(image: bytes, header: Header, chunks: List[Chunk]) -> bool:
    """11: "checksum differs"; none is worked out where none is stated."""
    if not is_checksum_stated(header):
        return False
    return image_checksum(image, header, chunks) != header.checksum


def count(chunks: List[Chunk]) -> Accepted:
    """The blocks of the chunks that are written, and of the others by their kind."""
    return Accepted(
        written=sum(chunk.blocks for chunk in chunks if is_written(chunk)),
        dont_care=sum(chunk.blocks for chunk in chunks if chunk.kind == DONT_CARE),
        unknown=sum(chunk.blocks for chunk in chunks if chunk.kind == UNKNOWN),
    )


def judge(image: bytes, partition_length: int) -> Verdict:
    """The first refusal that applies, in 01's order, or the counts."""
    header = read_header(image)
    number = header_number(image, header, partition_length)
    if number != 0:
        return Refusal(number, 0)
    chunks = walk(image, header)
    if isinstance(chunks, Refusal):
        return chunks
    if is_checksum_wrong(image, header, chunks):
        return Refusal(11, CHECKSUM_AT)
    return count(chunks)


def chunks_of(image: bytes) -> List[Chunk]:
    """The chunks of an image whose chunks all pass their tests."""
    chunks = walk(image, read_header(image))
    assert not isinstance(chunks, Refusal)
    return chunks
