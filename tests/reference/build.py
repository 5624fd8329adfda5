"""Images to test with: whole ones, or with any field given another value.

The headers are packed field after field, as the source documents show them,
and share no table of positions with the modules that read them.
"""

import struct
from typing import Any, Callable, List, NamedTuple, Optional, Sequence, Tuple

import crc

FILLER = b"\xA5" * 8


class ChunkPlan(NamedTuple):
    """A chunk to build: its header fields, its data, the bytes its blocks hold."""

    type: int
    blocks: int
    data: bytes = b""
    total_size: Optional[int] = None
    reserved: int = 0


def raw(data: bytes, block_size: int) -> ChunkPlan:
    """A raw chunk of whole blocks."""
    return ChunkPlan(0xCAC1, len(data) // block_size, data)


def fill(word: bytes, blocks: int) -> ChunkPlan:
    """A fill chunk."""
    return ChunkPlan(0xCAC2, blocks, word)


def skip(blocks: int) -> ChunkPlan:
    """A don't-care chunk."""
    return ChunkPlan(0xCAC3, blocks)


def unknown(chunk_type: int, blocks: int, data: bytes = b"") -> ChunkPlan:
    """A chunk of another type."""
    return ChunkPlan(chunk_type, blocks, data)


def planned_checksum(plans: Sequence[ChunkPlan], block_size: int) -> int:
    """The checksum that the plans' blocks have, skipped ones as zeros."""
    state = crc.ALL_ONES
    for plan in plans:
        length = plan.blocks * block_size
        if plan.type == 0xCAC1:
            state = crc.after_bytes(state, plan.data)
        elif plan.type == 0xCAC2:
            word = int.from_bytes(plan.data, "little")
            state = crc.after_words(state, word, length // 4)
        else:
            state = crc.after_zeros(state, length)
    return state ^ crc.ALL_ONES


def planned_counts(plans: Sequence[ChunkPlan]) -> Tuple[int, int, int]:
    """The plans' blocks that are written, don't care, and unknown."""
    written = sum(plan.blocks for plan in plans if plan.type in (0xCAC1, 0xCAC2))
    dont_care = sum(plan.blocks for plan in plans if plan.type == 0xCAC3)
    unknown = sum(plan.blocks for plan in plans if plan.type not in range(0xCAC1, 0xCAC4))
    return written, dont_care, unknown


def padding(count: int) -> bytes:
    """Bytes past the known fields of a header, the first of them not 0."""
    return FILLER[:count] + bytes(max(0, count - len(FILLER)))


def chunk(plan: ChunkPlan, header_size: int = 12) -> bytes:
    """A chunk; its header is filled up to the stated size."""
    total_size = plan.total_size
    if total_size is None:
        total_size = header_size + len(plan.data)
    head = struct.pack("<HHII", plan.type, plan.reserved, plan.blocks, total_size)
    return head + padding(header_size - 12) + plan.data


def sparse_image(block_size: int, plans: Sequence[ChunkPlan], **given: int) -> bytes:
    """A sparse image with the right header, save for the fields that are given."""
    header = {
        "magic": 0xED26FF3A,
        "major": 1,
        "minor": 0,
        "file_header_size": 28,
        "chunk_header_size": 12,
        "block_size": block_size,
        "total_blocks": sum(plan.blocks for plan in plans),
        "total_chunks": len(plans),
    }
    unknown_names = set(given) - set(header) - {"checksum"}
    assert not unknown_names, unknown_names
    header.update(given)
    if "checksum" not in header:
        header["checksum"] = planned_checksum(plans, block_size)
    head = struct.pack("<IHHHHIIII", *header.values())
    head += padding(max(28, header["file_header_size"]) - 28)
    body = b"".join(chunk(plan, max(12, header["chunk_header_size"])) for plan in plans)
    return head + body


def zero_word(checksum_of: Callable[[bytes], int]) -> bytes:
    """The word that makes a checksum 0.  Each bit of the word always changes the same bits
    of the checksum; some of these changes together undo what it is for the word 0."""
    start = checksum_of(bytes(4))
    changes: List[Tuple[int, int]] = []
    for bit in range(32):
        word = 1 << bit
        change = start ^ checksum_of(word.to_bytes(4, "little"))
        changes.append(reduced(changes, change, word))
        changes.sort(reverse=True)
    left, word = reduced(changes, start, 0)
    assert left == 0
    return word.to_bytes(4, "little")


def reduced(changes: Sequence[Tuple[int, int]], change: int, word: int) -> Tuple[int, int]:
    """A change and its word without the highest bit of each of the changes."""
    for other_change, other_word in changes:
        if change ^ other_change < change:
            change, word = change ^ other_change, word ^ other_word
    return change, word


def stating(image: bytes, checksum: int) -> bytes:
    """The image with another checksum in its header, as far as the image reaches."""
    return with_bytes(image, 24, checksum.to_bytes(4, "little"))[:len(image)]


class BootPlan(NamedTuple):
    """The fields of a boot image header.  None is the right header size, and an os version that
    holds the filler, which also fills up a cmdline that is shorter than its field."""

    version: int
    kernel: int = 0
    ramdisk: int = 0
    second: int = 0
    recovery: int = 0
    recovery_offset: int = 0
    dtb: int = 0
    signature: int = 0
    page: int = 2048
    header_size: Optional[int] = None
    os_version: Optional[int] = None
    magic: bytes = b"ANDROID!"
    cmdline: bytes = b""
    extra_cmdline: bytes = b""
    filler: int = 0


HEADER_LENGTHS = (1632, 1648, 1660, 1580, 1584)


def boot_header(plan: BootPlan) -> bytes:
    """A boot image header of the plan's version, as source document 004 has it."""
    header_size = plan.header_size
    if header_size is None:
        header_size = HEADER_LENGTHS[plan.version]
    if plan.version >= 3:
        return new_boot_header(plan, header_size)
    return old_boot_header(plan, header_size)


def filler_number(plan: BootPlan) -> int:
    """A number of 32 bits that holds the filler."""
    return int.from_bytes(bytes([plan.filler]) * 4, "little")


def os_version(plan: BootPlan) -> int:
    """The plan's os version, or the filler."""
    return filler_number(plan) if plan.os_version is None else plan.os_version


def filled(given: bytes, length: int, filler: bytes) -> bytes:
    """A text in a field of so many bytes."""
    assert len(given) <= length
    return given.ljust(length, filler)


def old_boot_header(plan: BootPlan, header_size: int) -> bytes:
    """Versions 0 to 2; addresses and other texts hold the filler."""
    text = bytes([plan.filler])
    address = filler_number(plan)
    head = struct.pack(
        "<8s10I",
        plan.magic,
        plan.kernel,
        address,
        plan.ramdisk,
        address,
        plan.second,
        address,
        address,
        plan.page,
        plan.version,
        os_version(plan),
    )
    head += text * 16 + filled(plan.cmdline, 512, text)
    head += text * 32 + filled(plan.extra_cmdline, 1024, text)
    if plan.version >= 1:
        head += struct.pack("<IQI", plan.recovery, plan.recovery_offset, header_size)
    if plan.version >= 2:
        head += struct.pack("<I", plan.dtb) + text * 8
    return head


def new_boot_header(plan: BootPlan, header_size: int) -> bytes:
    """Versions 3 and 4; reserved fields hold the filler."""
    assert plan.extra_cmdline == b""
    text = bytes([plan.filler])
    head = struct.pack("<8s3I", plan.magic, plan.kernel, plan.ramdisk, os_version(plan))
    head += struct.pack("<I", header_size) + text * 16
    head += struct.pack("<I", plan.version) + filled(plan.cmdline, 1536, text)
    if plan.version >= 4:
        head += struct.pack("<I", plan.signature)
    return head


def boot_image(version: int, length: int, **fields: Any) -> bytes:
    """A boot image cut or filled up with zeros to a length."""
    header = boot_header(BootPlan(version, **fields))
    return header[:length] + bytes(length - len(header[:length]))


def two_chunks(second_type: int = 0xCAC3, **given: int) -> bytes:
    """P2 of document 01, or with fields given other values."""
    return sparse_image(4, [fill(b"\xFF" * 4, 1), ChunkPlan(second_type, 2)], **given)


def with_bytes(image: bytes, at: int, new: bytes) -> bytes:
    """The image with the bytes at a position replaced."""
    return image[:at] + new + image[at + len(new):]
