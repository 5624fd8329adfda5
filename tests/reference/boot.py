"""Locating the sections of a boot image: document 01, "Boot image layout", with 02, CR 10."""

from dataclasses import dataclass
from typing import List, NamedTuple, Optional, Tuple, Union

import fields

MAGIC = b"ANDROID!"
VERSION_AT = 40
SHORTEST = 44

RECOVERY = "recovery"

# The sections that are offered to callers, in order.  TABLE below has a size for each section of
# a version; one of them that does not stand here is retired: 02, CR 10, "Stop offering the second
# section to callers".
OFFERED = ("kernel", "ramdisk", RECOVERY, "dtb", "signature")


class Text(NamedTuple):
    """Where a text of the header begins, and how many bytes its field has."""

    at: int
    length: int


class Row(NamedTuple):
    """A version's row: header length, positions of its fields (None where the
    version lacks one), of its cmdline, with the extra cmdline where it has one, and of the
    size of each section, in section order."""

    header_length: int
    header_size_at: Optional[int]
    page_size_at: Optional[int]
    os_version_at: int
    recovery_offset_at: Optional[int]
    cmdlines: Tuple[Text, ...]
    size_at: Tuple[Tuple[str, int], ...]


OLD_CMDLINES = (Text(64, 512), Text(608, 1024))
NEW_CMDLINES = (Text(44, 1536),)
OLD_SIZES = (("kernel", 8), ("ramdisk", 16), ("second", 24))
RECOVERY_SIZE = (RECOVERY, 1632)
DTB_SIZE = ("dtb", 1648)
NEW_SIZES = (("kernel", 8), ("ramdisk", 12))
SIGNATURE_SIZE = ("signature", 1580)

# "One table of field positions serves all five versions."
TABLE = (
    Row(1632, None, 36, 44, None, OLD_CMDLINES, OLD_SIZES),
    Row(1648, 1644, 36, 44, 1636, OLD_CMDLINES, OLD_SIZES + (RECOVERY_SIZE,)),
    Row(1660, 1644, 36, 44, 1636, OLD_CMDLINES, OLD_SIZES + (RECOVERY_SIZE, DTB_SIZE)),
    Row(1580, 20, None, 16, None, NEW_CMDLINES, NEW_SIZES),
    Row(1584, 20, None, 16, None, NEW_CMDLINES, NEW_SIZES + (SIGNATURE_SIZE,)),
)
NEW_PAGE_SIZE = 4096


class Section(NamedTuple):
    """A section of the image's version, empty or not."""

    name: str
    position: int
    size: int


@dataclass(frozen=True)
class Located:
    """01: "its version and the position and size of each section of that version", of those that
    are offered; and whether a retired section is present, which is all that is said of it."""

    version: int
    sections: List[Section]
    retired: bool


@dataclass(frozen=True)
class Refusal:
    """A numbered refusal; boot refusals carry place 0."""

    number: int


def header_number(image: bytes, version: int) -> int:
    """The first of 21, 22, 23, 21 that applies; 0 for none."""
    if len(image) < SHORTEST:
        return 21
    if image[:len(MAGIC)] != MAGIC:
        return 22
    if version >= len(TABLE):
        return 23
    if len(image) < TABLE[version].header_length:
        return 21
    return 0


def is_page_size(size: int) -> bool:
    """01: "a number with a single one bit, from 2,048 to 16,384"."""
    return bin(size).count("1") == 1 and 2048 <= size <= 16384


def page_size(image: bytes, row: Row) -> int:
    """01: "The page is 4,096 bytes for versions 3 and 4." Otherwise the field."""
    if row.page_size_at is None:
        return NEW_PAGE_SIZE
    return fields.read(image, row.page_size_at, 4)


def field_number(image: bytes, row: Row) -> int:
    """The first of 24 and 25 that applies; 0 for none."""
    if row.header_size_at is not None:
        if fields.read(image, row.header_size_at, 4) != row.header_length:
            return 24
    if not is_page_size(page_size(image, row)):
        return 25
    return 0


def rounded_up(position: int, page: int) -> int:
    """The least multiple of the page that is no smaller."""
    return -(-position // page) * page


def layout(page: int, sizes: List[Tuple[str, int]]) -> List[Section]:
    """01: "The first section begins at one page; each next one begins after the
    last, rounded up to a page."."""
    sections = []
    position = page
    for name, size in sizes:
        sections.append(Section(name, position, size))
        position = rounded_up(position + size, page)
    return sections


def section_number(
    sections: List[Section], recovery_offset: int, image_length: int
) -> int:
    """The first of 27 and 26 that applies; 0 for none."""
    for section in sections:
        if section.name == RECOVERY and section.size != 0:
            if recovery_offset != section.position:
                return 27
    for section in sections:
        if section.size != 0 and section.position + section.size > image_length:
            return 26
    return 0


def read_sections(image: bytes, row: Row) -> List[Section]:
    """All sections of the row's version, from the size fields of the header.  A retired one
    takes its room, and is tested, as the others: 02, CR 10, "accepted as before, with the later
    sections in the same places", and one "that ends past the input still gets 26"."""
    sizes = [(name, fields.read(image, at, 4)) for name, at in row.size_at]
    return layout(page_size(image, row), sizes)


def read_recovery_offset(image: bytes, row: Row) -> int:
    """All eight bytes of the recovery offset; 0 where the version has none."""
    if row.recovery_offset_at is None:
        return 0
    return fields.read(image, row.recovery_offset_at, 8)


def read_os_version(image: bytes, row: Row) -> int:
    """All four bytes of the os version, which no test of 01's looks at."""
    return fields.read(image, row.os_version_at, 4)


def read_cmdlines(image: bytes, row: Row) -> List[bytes]:
    """All bytes of the cmdline, and of the extra cmdline where the version has one, which no test
    of 01's looks at."""
    return [image[text.at:text.at + text.length] for text in row.cmdlines]


def offered(sections: List[Section]) -> List[Section]:
    """The sections that callers get."""
    return [section for section in sections if section.name in OFFERED]


def has_retired(sections: List[Section]) -> bool:
    """02, CR 10: "exactly when its size is not 0, that a retired section is present"."""
    return any(section.size != 0 for section in sections if section.name not in OFFERED)


def locate(image: bytes) -> Union[Located, Refusal]:
    """The first refusal that applies, in 01's order, or the sections."""
    version = fields.read(image, VERSION_AT, 4)
    number = header_number(image, version)
    if number != 0:
        return Refusal(number)
    row = TABLE[version]
    number = field_number(image, row)
    if number != 0:
        return Refusal(number)
    sections = read_sections(image, row)
    number = section_number(sections, read_recovery_offset(image, row), len(image))
    if number != 0:
        return Refusal(number)
    return Located(version, offered(sections), has_retired(sections))
