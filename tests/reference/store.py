"""Storing on a partition: in full, up to a limit, cut short, and over a list.

Document 01, "Stopping early", and demand 3.
"""

from typing import List, NamedTuple, Optional, Sequence, Tuple

import sparse
from sparse import Verdict


class Block(NamedTuple):
    """A block to store: the position of its first byte and its bytes."""

    at: int
    data: bytes


def block_data(image: bytes, block_size: int, chunk: sparse.Chunk, i: int) -> bytes:
    """The chunk's i-th block: "the raw data or the 4 bytes repeated"."""
    if chunk.kind == sparse.RAW:
        at = chunk.data_at + i * block_size
        return image[at:at + block_size]
    return image[chunk.data_at:chunk.data_at + 4] * (block_size // 4)


def stored_blocks(image: bytes) -> List[Block]:
    """The blocks that an accepted image stores, in order from byte 0."""
    size = sparse.read_header(image).block_size
    return [
        Block((chunk.first_block + i) * size, block_data(image, size, chunk, i))
        for chunk in sparse.chunks_of(image)
        if sparse.is_written(chunk)
        for i in range(chunk.blocks)
    ]


def with_block(partition: bytes, block: Block) -> bytes:
    """The partition with one block's stretch replaced."""
    return partition[:block.at] + block.data + partition[block.at + len(block.data):]


def with_blocks(partition: bytes, blocks: Sequence[Block]) -> bytes:
    """The partition after the blocks were stored in order."""
    for block in blocks:
        partition = with_block(partition, block)
    return partition


class Stored(NamedTuple):
    """What a storing answers and leaves."""

    verdict: Verdict
    count: int
    partition: bytes


def store_limited(image: bytes, partition: bytes, limit: int) -> Stored:
    """The cut form: "judges the whole image, then stores the first blocks, in
    order, up to the limit or the image's number of written blocks, the lesser,
    and reports how many"."""
    verdict = sparse.judge(image, len(partition))
    if isinstance(verdict, sparse.Refusal):
        return Stored(verdict, 0, partition)
    blocks = stored_blocks(image)[:limit]
    return Stored(verdict, len(blocks), with_blocks(partition, blocks))


def store(image: bytes, partition: bytes) -> Tuple[Verdict, bytes]:
    """01: "The plain store is the cut form with a limit no smaller than the image's
    written blocks."; no image writes more blocks than the partition has bytes."""
    stored = store_limited(image, partition, len(partition))
    return stored.verdict, stored.partition


def torn_block(image: bytes, partition: bytes, n: int) -> Optional[Block]:
    """The next block to be stored after n, "if there is one"."""
    if isinstance(sparse.judge(image, len(partition)), sparse.Refusal):
        return None
    blocks = stored_blocks(image)
    return blocks[n] if n < len(blocks) else None


def cut_state(image: bytes, partition: bytes, n: int, torn: bytes) -> bytes:
    """01: "A cut state after n blocks is what a limit of n leaves, except that the
    next block to be stored, if there is one, may hold any bytes." It begins
    with the bytes of `torn`, as far as they reach, and keeps its old ones after."""
    left = store_limited(image, partition, n).partition
    block = torn_block(image, partition, n)
    if block is None:
        return left
    return with_block(left, Block(block.at, torn[:len(block.data)]))


def full_run(images: Sequence[bytes], partition: bytes) -> Tuple[List[Verdict], bytes]:
    """01: "A full run of a list hands each image in turn to the plain store; a
    refused one stores nothing."."""
    verdicts = []
    for image in images:
        verdict, partition = store(image, partition)
        verdicts.append(verdict)
    return verdicts, partition


class Cut(NamedTuple):
    """A cut of a list: images run in full, blocks stored of the next one, torn
    bytes; no blocks and no torn bytes stop before that image."""

    images: int
    blocks: int
    torn: bytes


def cut_run(images: Sequence[bytes], partition: bytes, cut: Cut) -> bytes:
    """01: "A list is cut by running some first images in full and leaving the next
    accepted one in a cut state, or by stopping before or after any image."."""
    partition = full_run(images[:cut.images], partition)[1]
    if cut.images == len(images):
        return partition
    return cut_state(images[cut.images], partition, cut.blocks, cut.torn)


def cut_runs(images: Sequence[bytes], partition: bytes, cuts: Sequence[Cut]) -> List[bytes]:
    """What each cut run leaves: "The first run begins on the original contents,
    each later one on what the run before left, at the first image again."."""
    left = []
    for cut in cuts:
        partition = cut_run(images, partition, cut)
        left.append(partition)
    return left


def bytes_given(image: bytes, partition_length: int) -> List[Optional[int]]:
    """What an image gives to each position: "An accepted image stores exactly
    the bytes of its raw and fill blocks"; None where it stores nothing."""
    given: List[Optional[int]] = [None] * partition_length
    if isinstance(sparse.judge(image, partition_length), sparse.Refusal):
        return given
    block_size = sparse.read_header(image).block_size
    for chunk in sparse.chunks_of(image):
        if sparse.is_written(chunk):
            first = chunk.first_block * block_size
            for i in range(chunk.blocks * block_size):
                source = i if chunk.kind == sparse.RAW else i % 4
                given[first + i] = image[chunk.data_at + source]
    return given


def last_given(images: Sequence[bytes], partition: bytes) -> bytes:
    """Demand 3: "Each byte is then the one that the last accepted image to
    store it gives it, or the original where none stores it."."""
    last = list(partition)
    for image in images:
        for at, byte in enumerate(bytes_given(image, len(partition))):
            if byte is not None:
                last[at] = byte
    return bytes(last)
