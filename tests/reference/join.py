"""Two updates made one: document 02, change request 7.

Chunks are treated as runs of blocks, as in the comparison, so the images may name many
of them; blocks are looked at one by one only where they come from a raw chunk.
"""

from typing import Iterator, NamedTuple, Optional, Tuple

import compare
import sparse
import writer
from compare import Meeting, Refusal
from sparse import Chunk
from writer import Part

# "17 geometry differs or total × block size over 2,147,483,648".
LARGEST_JOINED = 2_147_483_648


class Joined(NamedTuple):
    """The refusal number (0 for none), its place and the image that it is of, the joined
    image's length, and the output after."""

    number: int
    place: int
    image: int
    length: int
    output: bytes


def is_too_large(image: bytes) -> bool:
    """Whether total × block size is more than a joined image may have."""
    size, total = compare.geometry(image)
    return total * size > LARGEST_JOINED


def refusal_of(first: bytes, second: bytes) -> Optional[Refusal]:
    """All refusals but 18, in their order: "the images' own as in CR 5", then 17."""
    refusal = compare.pair_refusal(first, second)
    if refusal is not None:
        return refusal
    return compare.GEOMETRY_DIFFERS if is_too_large(first) else None


def last_written(first: bytes, second: bytes, meeting: Meeting) -> Optional[Tuple[bytes, Chunk]]:
    """Whose bytes stand in the blocks of a meeting after "the first followed by the
    second": the image and its chunk, or None where neither writes."""
    if sparse.is_written(meeting.of_second):
        return second, meeting.of_second
    return (first, meeting.of_first) if sparse.is_written(meeting.of_first) else None


def parts_of(first: bytes, second: bytes, meeting: Meeting) -> Iterator[Part]:
    """The blocks of a meeting: "written blocks become fill where all words agree and raw
    elsewhere, other blocks don't care"."""
    source = last_written(first, second, meeting)
    if source is None:
        yield Part(sparse.DONT_CARE, meeting.blocks, b"")
        return
    image, chunk = source
    if chunk.kind == sparse.FILL:
        yield Part(sparse.FILL, meeting.blocks, image[chunk.data_at:chunk.data_at + 4])
        return
    for block in range(meeting.first, meeting.first + meeting.blocks):
        yield writer.block_part(compare.block_of(image, chunk, block))


def image_of(first: bytes, second: bytes) -> bytes:
    """The joined image of two accepted ones of equal geometry."""
    met = compare.meetings(sparse.chunks_of(first), sparse.chunks_of(second))
    parts = (part for meeting in met for part in parts_of(first, second, meeting))
    return writer.image_of_parts(parts, compare.geometry(first)[0])


def is_too_short(image: bytes, room: int) -> bool:
    """18: "exactly when the output is too short"."""
    return len(image) > room


def refused(refusal: Refusal, output: bytes) -> Joined:
    """A refusal, with the output "untouched then"."""
    return Joined(refusal.number, refusal.place, refusal.image, 0, output)


def join(first: bytes, second: bytes, output: bytes) -> Joined:
    """The first refusal that applies, or the joined image's length: "the answer and the
    output past the image are as our writer's too"."""
    refusal = refusal_of(first, second)
    if refusal is not None:
        return refused(refusal, output)
    image = image_of(first, second)
    if is_too_short(image, len(output)):
        return refused(compare.SPACE_TOO_SHORT, output)
    return Joined(0, 0, compare.NO_IMAGE, len(image), writer.output_after(image, output))
