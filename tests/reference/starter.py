"""The starter: document 02, CR 12, over Start and the boot image of document 01."""

from dataclasses import dataclass
from typing import NamedTuple, Sequence, Union

import boot
import slots

MISC_LENGTH = 32
LONGEST_LINE = 4096
ASKING = b"boot-recovery\0"
LETTERS = b"abcd"


@dataclass(frozen=True)
class Starts:
    """02, CR 12: "The answer is the started slot, what the boot part answers for its image, and
    the line's length."."""

    slot: int
    located: boot.Located
    length: int


Answer = Union[Starts, slots.Recovery, boot.Refusal]


class Outcome(NamedTuple):
    """The answer, and what the record and the space hold after it."""

    answer: Answer
    record: slots.Record
    space: bytes


def is_recovery_asked(misc: bytes) -> bool:
    """02, CR 12: "Recovery is asked for when misc begins with `boot-recovery` and a zero byte."."""
    return misc.startswith(ASKING)


def up_to_zero(text: bytes) -> bytes:
    """02, CR 12: "up to the first zero byte or its end"."""
    return text.split(b"\0", 1)[0]


def image_line(image: bytes, version: int) -> bytes:
    """02, CR 12: "its cmdline up to the first zero byte or its end, followed in versions 0 to 2 by
    the extra cmdline read the same way"."""
    return b"".join(up_to_zero(text) for text in boot.read_cmdlines(image, boot.TABLE[version]))


def final_line(loader_line: bytes, from_image: bytes, slot: int, is_asked: bool) -> bytes:
    """02, CR 12: "the loader's line, a space, the image's line, then ` androidboot.slot_suffix=_a`
    with the right letter, then ` skip_initramfs` unless recovery was asked for"."""
    suffix = b" androidboot.slot_suffix=_" + LETTERS[slot:slot + 1]
    ending = b"" if is_asked else b" skip_initramfs"
    return loader_line + b" " + from_image + suffix + ending


def is_too_long(line: bytes, space: bytes) -> bool:
    """02, CR 12: "52 exactly when the line needs more than the space or than 4,096 bytes"."""
    return len(line) > len(space) or len(line) > LONGEST_LINE


def first_number(record: slots.Record, misc: bytes) -> int:
    """The first of 31 and 51 that applies, before Start; 0 for none."""
    if not slots.is_valid(record):
        return 31
    return 51 if len(misc) != MISC_LENGTH else 0


def start(
    record: slots.Record, images: Sequence[bytes], misc: bytes, loader_line: bytes, space: bytes
) -> Outcome:
    """02, CR 12: "It runs Start once, then locates the started slot's image."; "Where Start answers
    Recovery, so does this, and no line is written. The record stays as Start left it, here alone
    also in a refusal after Start."; "space past it is kept"."""
    number = first_number(record, misc)
    if number != 0:
        return Outcome(boot.Refusal(number), record, space)
    picked, left = slots.start(record)
    if not isinstance(picked, slots.Boots):
        return Outcome(slots.Recovery(), left, space)
    image = images[picked.slot]
    located = boot.locate(image)
    if isinstance(located, boot.Refusal):
        return Outcome(located, left, space)
    from_image = image_line(image, located.version)
    line = final_line(loader_line, from_image, picked.slot, is_recovery_asked(misc))
    if is_too_long(line, space):
        return Outcome(boot.Refusal(52), left, space)
    return Outcome(Starts(picked.slot, located, len(line)), left, line + space[len(line):])
