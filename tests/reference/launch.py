"""Boot images by launch release: document 02, CR 11, over document 01's boot image.

Run as a program it reads an image from standard input and prints the pairs that take it.
"""

import sys
from typing import Dict, NamedTuple, Tuple, Union

import boot

PLAIN, GENERIC = 0, 1
WORDS = {PLAIN: "plain", GENERIC: "generic"}
LONGEST_IMAGE = 65536


class Rule(NamedTuple):
    """What a release takes with a kernel: the header versions, and whether the os version has
    to be 0."""

    versions: Tuple[int, ...]
    wants_no_os_version: bool = False


# 02, CR 11: "8 only 0; 9 only 1; 10 only 2; 11 only 3; 12 and 13 versions 3 and 4 without the
# generic kernel and only 4 with it. Release 13 with the generic kernel also wants an os version
# of 0".  "The generic kernel before 11 is a bad request", as is every pair that does not stand
# here.  The pairs stand in the order of the program's lines.
RULES: Dict[Tuple[int, int], Rule] = {
    (8, PLAIN): Rule((0,)),
    (9, PLAIN): Rule((1,)),
    (10, PLAIN): Rule((2,)),
    (11, PLAIN): Rule((3,)),
    (11, GENERIC): Rule((3,)),
    (12, PLAIN): Rule((3, 4)),
    (12, GENERIC): Rule((4,)),
    (13, PLAIN): Rule((3, 4)),
    (13, GENERIC): Rule((4,), wants_no_os_version=True),
}


def rule_number(image: bytes, version: int, rule: Rule) -> int:
    """The first of 42 and 43 that applies to an image of a version; 0 for none."""
    if version not in rule.versions:
        return 42
    if rule.wants_no_os_version and boot.read_os_version(image, boot.TABLE[version]) != 0:
        return 43
    return 0


def locate_for(image: bytes, release: int, kernel: int) -> Union[boot.Located, boot.Refusal]:
    """02, CR 11: "41 bad release or pair, then 01's boot refusals, then 42 version not allowed,
    43 os version"; an accepted image has its sections "as without the rules"."""
    rule = RULES.get((release, kernel))
    if rule is None:
        return boot.Refusal(41)
    located = boot.locate(image)
    if isinstance(located, boot.Refusal):
        return located
    number = rule_number(image, located.version, rule)
    return located if number == 0 else boot.Refusal(number)


def text(image: bytes) -> str:
    """02, CR 11: "a line for every pair that takes it, as `12 plain` or `12 generic`, in order of
    release, plain first; a boot refusal prints `refused N` alone, longer input `too long`"."""
    if len(image) > LONGEST_IMAGE:
        return "too long\n"
    located = boot.locate(image)
    if isinstance(located, boot.Refusal):
        return f"refused {located.number}\n"
    return "".join(
        f"{release} {WORDS[kernel]}\n" for release, kernel in RULES
        if locate_for(image, release, kernel) == located
    )


if __name__ == "__main__":
    sys.stdout.write(text(sys.stdin.buffer.read()))
