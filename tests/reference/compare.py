"""What changed between two updates: document 02, change request 5.

Chunks are treated as runs of blocks, so the images may name 2^32 - 1 of them.  The
range of blocks is cut where a chunk of either image ends; blocks are compared one by
one only where a raw chunk meets a written one.
"""

from dataclasses import dataclass
from typing import Iterator, List, NamedTuple, Optional, Sequence, Tuple, Union

import sparse
import store
from sparse import Chunk

# "each with first block, length and one of five kinds", which are "0 to 4 in this order".
KINDS = range(5)
NEITHER, ONLY_FIRST, ONLY_SECOND, EQUAL, DIFFERENT = KINDS
RUN_NUMBERS = 3

FIRST, SECOND, NO_IMAGE = 1, 2, 0


class Run(NamedTuple):
    """Neighbouring blocks of one kind: the three numbers that are listed."""

    first: int
    blocks: int
    kind: int


@dataclass(frozen=True)
class Refusal:
    """A numbered refusal, its place in an image, and which image it is of: 1, 2 or 0."""

    number: int
    place: int
    image: int


@dataclass(frozen=True)
class Listed:
    """The runs of an accepted pair, in order."""

    runs: Tuple[Run, ...]


Answer = Union[Listed, Refusal]

GEOMETRY_DIFFERS = Refusal(17, 0, NO_IMAGE)
SPACE_TOO_SHORT = Refusal(18, 0, NO_IMAGE)


class Meeting(NamedTuple):
    """A chunk of each image, and the blocks that both of them cover."""

    first: int
    blocks: int
    of_first: Chunk
    of_second: Chunk


def own_refusal(image: bytes, which: int) -> Optional[Refusal]:
    """"the first image's own, the second's own (each judged as if the partition had
    room)"."""
    header = sparse.read_header(image)
    verdict = sparse.judge(image, header.total_blocks * header.block_size)
    if isinstance(verdict, sparse.Accepted):
        return None
    return Refusal(verdict.number, verdict.place, which)


def geometry(image: bytes) -> Tuple[int, int]:
    """What 17 looks at: "block size and total"."""
    header = sparse.read_header(image)
    return header.block_size, header.total_blocks


def pair_refusal(first: bytes, second: bytes) -> Optional[Refusal]:
    """All refusals but 18, in their order."""
    own = own_refusal(first, FIRST) or own_refusal(second, SECOND)
    if own is not None:
        return own
    return GEOMETRY_DIFFERS if geometry(first) != geometry(second) else None


def chunk_end(chunk: Chunk) -> int:
    """The block after a chunk's last."""
    return chunk.first_block + chunk.blocks


def meetings(first: Sequence[Chunk], second: Sequence[Chunk]) -> Iterator[Meeting]:
    """The range of blocks, cut where a chunk of either image ends.  Empty chunks meet
    none."""
    of_first = [chunk for chunk in first if chunk.blocks > 0]
    of_second = [chunk for chunk in second if chunk.blocks > 0]
    at = i = k = 0
    while i < len(of_first) and k < len(of_second):
        ends = chunk_end(of_first[i]), chunk_end(of_second[k])
        yield Meeting(at, min(ends) - at, of_first[i], of_second[k])
        at = min(ends)
        i += ends[0] == at
        k += ends[1] == at


def block_of(image: bytes, chunk: Chunk, block: int) -> bytes:
    """What a written chunk gives to a block of its own: "Raw and fill that give the
    same bytes are equal."."""
    size = sparse.read_header(image).block_size
    return store.block_data(image, size, chunk, block - chunk.first_block)


def block_kind(first: bytes, second: bytes, meeting: Meeting, block: int) -> int:
    """The kind of a block that both images write."""
    one = block_of(first, meeting.of_first, block)
    other = block_of(second, meeting.of_second, block)
    return EQUAL if one == other else DIFFERENT


def skipped_kind(meeting: Meeting) -> int:
    """The kind of all blocks of a meeting where one of the images, or both, skips them:
    what don't-care and unknown chunks cover is not written."""
    if sparse.is_written(meeting.of_first):
        return ONLY_FIRST
    return ONLY_SECOND if sparse.is_written(meeting.of_second) else NEITHER


def stretches(first: bytes, second: bytes, meeting: Meeting) -> Iterator[Run]:
    """The blocks of a meeting: in one step where their kind cannot change, else one by
    one."""
    chunks = (meeting.of_first, meeting.of_second)
    if not all(sparse.is_written(chunk) for chunk in chunks):
        yield Run(meeting.first, meeting.blocks, skipped_kind(meeting))
    elif all(chunk.kind == sparse.FILL for chunk in chunks):
        kind = block_kind(first, second, meeting, meeting.first)
        yield Run(meeting.first, meeting.blocks, kind)
    else:
        for block in range(meeting.first, meeting.first + meeting.blocks):
            yield Run(block, 1, block_kind(first, second, meeting, block))


def longest(parts: Iterator[Run]) -> Tuple[Run, ...]:
    """"the longest runs of blocks": stretches of one kind that follow one another are
    one run, so "neighbours differ in kind"."""
    runs: List[Run] = []
    for part in parts:
        if runs and runs[-1].kind == part.kind:
            runs[-1] = runs[-1]._replace(blocks=runs[-1].blocks + part.blocks)
        else:
            runs.append(part)
    return tuple(runs)


def runs_of(first: bytes, second: bytes) -> Tuple[Run, ...]:
    """The runs of two accepted images of equal geometry: they "cover every block once,
    in order"."""
    met = meetings(sparse.chunks_of(first), sparse.chunks_of(second))
    return longest(part for meeting in met for part in stretches(first, second, meeting))


def is_too_long(runs: Sequence[Run], room: int) -> bool:
    """18: "exactly when the list needs more than the space", both counted in numbers."""
    return RUN_NUMBERS * len(runs) > room


def compare(first: bytes, second: bytes, room: int) -> Answer:
    """The first refusal that applies, or the runs, for a space of so many numbers."""
    refusal = pair_refusal(first, second)
    if refusal is not None:
        return refusal
    runs = runs_of(first, second)
    return SPACE_TOO_SHORT if is_too_long(runs, room) else Listed(runs)


def space_after(answer: Answer, space: Sequence[int]) -> Tuple[int, ...]:
    """What the lent space holds after: "three numbers a run ... and nothing past them
    is touched"; all is kept where there is a refusal."""
    if isinstance(answer, Refusal):
        return tuple(space)
    numbers = tuple(number for run in answer.runs for number in run)
    return numbers + tuple(space[len(numbers):])
