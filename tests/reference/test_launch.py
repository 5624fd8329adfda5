"""Holds the rules by launch release of change request 11 against document 02.

Run by `python3 tests/reference/test_launch.py`.
"""

import dataclasses
import itertools
import os
import random
import struct
import subprocess
import sys
import unittest
import unittest.mock
from functools import lru_cache
from typing import Any, Callable, Dict, Iterator, List, Set, Tuple, Union

import boot
import build
import cases_boot
import cases_common
import cases_launch
import fields
import launch
import vectors
from cases_launch import Case
from launch import Rule

HERE = os.path.dirname(os.path.abspath(__file__))
PLAIN, GENERIC = 0, 1
RELEASES = range(8, 14)
PAIRS = tuple(itertools.product(RELEASES, (PLAIN, GENERIC)))
OS_VERSIONS = (0, 1, 0x100, 0x10000, 0x80000000, 0xFFFFFFFF)
LONGEST = 65536

# 02's sentence as triples of release, kernel and version: "8 only 0; 9 only 1; 10 only 2; 11 only
# 3; 12 and 13 versions 3 and 4 without the generic kernel and only 4 with it".
TAKEN = {
    (8, PLAIN, 0), (9, PLAIN, 1), (10, PLAIN, 2), (11, PLAIN, 3), (11, GENERIC, 3),
    (12, PLAIN, 3), (12, PLAIN, 4), (12, GENERIC, 4),
    (13, PLAIN, 3), (13, PLAIN, 4), (13, GENERIC, 4),
}
GOOD_PAIRS = {(release, kernel) for release, kernel, _ in TAKEN}

# P10, typed from document 01: version 3, kernel 4,097, ramdisk 1, in 12,289 bytes.
P10 = (
    b"ANDROID!" + struct.pack("<4I", 4097, 1, 0, 1580) + bytes(16) + struct.pack("<I", 3)
    + bytes(12289 - 44)
)

# What the program prints for each version, the os version being 0.
TEXTS = (
    "8 plain\n",
    "9 plain\n",
    "10 plain\n",
    "11 plain\n11 generic\n12 plain\n13 plain\n",
    "12 plain\n12 generic\n13 plain\n13 generic\n",
)

Answer = Union[boot.Located, boot.Refusal]


def slow_answer(image: bytes, release: int, kernel: int) -> Answer:
    """The first refusal of 02's order, each looked for with no eye to the others, or what the
    boot part answers."""
    is_pair = release in RELEASES and (kernel == PLAIN or (kernel == GENERIC and release >= 11))
    located = boot.locate(image)
    version = int.from_bytes(image[40:44], "little")
    os_version = image[44:48] if version < 3 else image[16:20]
    found = (
        0 if is_pair else 41,
        located.number if isinstance(located, boot.Refusal) else 0,
        0 if (release, kernel, version) in TAKEN else 42,
        43 if (release, kernel) == (13, GENERIC) and any(os_version) else 0,
    )
    return next((boot.Refusal(number) for number in found if number != 0), located)


def slow_values(case: Case) -> Tuple[int, ...]:
    """The values of a case of `launch`, by that formulation."""
    return cases_boot.answer_values(slow_answer(case.image, case.release, case.kernel))


def cases_in(data: bytes) -> Iterator[Case]:
    """The cases of `launch`, as its file has them."""
    at = 0
    while at < len(data):
        release, kernel = struct.unpack_from("<II", data, at)
        image, at = cases_common.image_from_patches(data, at + 8)
        yield Case(release, kernel, image)


@lru_cache(maxsize=None)
def cases_of_vectors() -> List[Case]:
    """The cases that the vectors have."""
    return list(cases_in(cases_launch.group(random.Random(vectors.SEED)).data))


def version_of(image: bytes) -> int:
    """The number that stands where the version does."""
    return fields.read(image, 40, 4)


def os_version_of(image: bytes) -> int:
    """The number where the image's version has the os version."""
    return fields.read(image, 44 if version_of(image) < 3 else 16, 4)


class TestRules(unittest.TestCase):
    def check(self, image: bytes, release: int, kernel: int, number: int) -> None:
        """A refusal's number, or 0 for the sections as without the rules."""
        expected = boot.locate(image) if number == 0 else boot.Refusal(number)
        self.assertEqual(launch.locate_for(image, release, kernel), expected)

    def test_table(self) -> None:
        """The rule table against the triples; one rule looks at the os version."""
        taken = {(*pair, v) for pair, rule in launch.RULES.items() for v in rule.versions}
        self.assertEqual(taken, TAKEN)
        wanting = [pair for pair, rule in launch.RULES.items() if rule.wants_no_os_version]
        self.assertEqual(wanting, [(13, GENERIC)])
        self.assertEqual(list(launch.RULES), sorted(launch.RULES))

    def test_every_pair_and_version(self) -> None:
        """Every release of one byte and some more, kernels that there are and others, every
        version, the os version 0 and not."""
        for version, os_version in itertools.product(range(5), (0, 1)):
            image = cases_boot.base_image(version, os_version=os_version)
            for release, kernel in itertools.product(range(300), range(4)):
                answer = launch.locate_for(image, release, kernel)
                self.assertEqual(answer, slow_answer(image, release, kernel))

    def test_sections_stay(self) -> None:
        """Each pair that takes an image answers with what the boot part does."""
        for release, kernel, version in TAKEN:
            image = cases_boot.base_image(version)
            located = boot.locate(image)
            assert isinstance(located, boot.Located)
            self.assertEqual(located.retired, version < 3)
            self.assertTrue(all(section.size != 0 for section in located.sections))
            self.check(image, release, kernel, 0)

    def test_large_numbers(self) -> None:
        """No number is looked at in part."""
        for release, kernel, version in TAKEN:
            image = cases_boot.base_image(version)
            for bit in range(4, 32):
                self.check(image, release | 1 << bit, kernel, 41)
                self.check(image, release, kernel | 1 << bit, 41)
            self.check(image, kernel, release, 41)
            self.check(image, 2**32 - release, kernel, 41)
            self.check(image, release, 2**32 - 1 - kernel, 41)

    def test_release_11(self) -> None:
        """Version 3 with either kernel, and no other."""
        for version, kernel in itertools.product(range(5), (PLAIN, GENERIC)):
            self.check(cases_boot.base_image(version), 11, kernel, 0 if version == 3 else 42)


class TestOsVersion(unittest.TestCase):
    def test_its_place(self) -> None:
        """The table's positions against headers that are packed field after field."""
        for version, number in itertools.product(range(5), (1, 0x01020304, 0xFFFFFFFF)):
            header = build.boot_header(build.BootPlan(version, os_version=number))
            self.assertEqual(boot.read_os_version(header, boot.TABLE[version]), number)
            self.assertEqual(os_version_of(header), number)
            filled = build.boot_header(build.BootPlan(version, os_version=0, filler=0xFF))
            self.assertEqual(boot.read_os_version(filled, boot.TABLE[version]), 0)

    def test_the_boot_part_does_not_look_at_it(self) -> None:
        for version, number in itertools.product(range(5), OS_VERSIONS):
            image = cases_boot.base_image(version, os_version=number)
            self.assertEqual(boot.locate(image), boot.locate(cases_boot.base_image(version)))

    def test_every_bit(self) -> None:
        """Release 13 with the generic kernel wants all of them 0, and no other pair does."""
        for bit in range(32):
            image = cases_boot.base_image(4, os_version=1 << bit)
            self.assertEqual(launch.locate_for(image, 13, GENERIC), boot.Refusal(43))
            for pair in ((12, PLAIN), (12, GENERIC), (13, PLAIN)):
                self.assertEqual(launch.locate_for(image, *pair), boot.locate(image))

    def test_no_other_byte(self) -> None:
        """No other byte of a header of version 4 gives 43: not those where older versions have
        the os version, and not those beside it."""
        image = cases_boot.base_image(4, os_version=0)
        for at in range(build.HEADER_LENGTHS[4]):
            other = build.with_bytes(image, at, bytes([image[at] ^ 0xFF]))
            answer = launch.locate_for(other, 13, GENERIC)
            if at in range(16, 20):
                self.assertEqual(answer, boot.Refusal(43))
            else:
                self.assertEqual(answer, boot.locate(other))
        filled = cases_boot.base_image(4, os_version=0, filler=0xFF)
        self.assertEqual(launch.locate_for(filled, 13, GENERIC), boot.locate(image))


class TestOrder(unittest.TestCase):
    def test_41_first(self) -> None:
        """Before every boot refusal, also for an empty input."""
        for image in cases_launch.refused_images(1) + [b""]:
            for pair in ((0, PLAIN), (7, PLAIN), (14, GENERIC), (10, GENERIC), (13, 2)):
                self.assertEqual(launch.locate_for(image, *pair), boot.Refusal(41))

    def test_boot_refusals_before_42_and_43(self) -> None:
        numbers = []
        for image in cases_launch.refused_images(1):
            answers = [launch.locate_for(image, *pair) for pair in GOOD_PAIRS]
            self.assertEqual(set(answers), {boot.locate(image)})
            numbers.append(answers[0].number if isinstance(answers[0], boot.Refusal) else 0)
        self.assertEqual(numbers, [21, 22, 23, 21, 24, 25, 27, 26, 26])

    def test_42_before_43(self) -> None:
        for version, number in itertools.product(range(5), (0, 1)):
            image = cases_boot.base_image(version, os_version=number)
            expected = boot.Refusal(42 if version != 4 else 43)
            if version != 4 or number != 0:
                self.assertEqual(launch.locate_for(image, 13, GENERIC), expected)


class TestText(unittest.TestCase):
    def test_p10(self) -> None:
        self.assertEqual(P10, cases_boot.example_images()[0])
        self.assertEqual(launch.text(P10), TEXTS[3])
        self.assertEqual(launch.text(P10[:12288]), "refused 26\n")

    def test_each_version(self) -> None:
        for version, number in itertools.product(range(5), OS_VERSIONS):
            image = cases_boot.base_image(version, os_version=number)
            expected = TEXTS[version]
            if number != 0:
                expected = expected.replace("13 generic\n", "")
            self.assertEqual(launch.text(image), expected)

    def test_refused(self) -> None:
        for image in cases_launch.refused_images(0) + [b"", b"\0", bytes(LONGEST)]:
            answer = boot.locate(image)
            assert isinstance(answer, boot.Refusal)
            self.assertEqual(launch.text(image), f"refused {answer.number}\n")

    def test_too_long(self) -> None:
        for version in range(5):
            image = cases_boot.base_image(version).ljust(LONGEST, b"\0")
            self.assertEqual(launch.text(image), TEXTS[version])
            self.assertEqual(launch.text(image + b"\0"), "too long\n")
        self.assertEqual(launch.text(bytes(LONGEST + 1)), "too long\n")
        self.assertEqual(launch.text(bytes(3 * LONGEST)), "too long\n")

    def test_a_line_for_every_pair_that_takes_it(self) -> None:
        """By every release of one byte, for the images of the vectors."""
        for image in {case.image for case in cases_of_vectors()}:
            located = boot.locate(image)
            lines = [
                f"{release} {word}\n"
                for release in range(256) for kernel, word in enumerate(("plain", "generic"))
                if slow_answer(image, release, kernel) == located
            ]
            if isinstance(located, boot.Located):
                self.assertNotEqual(lines, [])
                self.assertEqual(launch.text(image), "".join(lines))

    def test_as_a_program(self) -> None:
        for image in (P10, b"", P10.ljust(LONGEST + 1, b"\0")):
            program = [sys.executable, os.path.join(HERE, "launch.py")]
            done = subprocess.run(program, input=image, stdout=subprocess.PIPE, check=True)
            self.assertEqual(done.stdout, launch.text(image).encode("ascii"))


# Wrong rules, each in the place of a part of the reference.

right_answer = launch.locate_for
right_os_version = boot.read_os_version

Rules = Dict[Tuple[int, int], Rule]


def wrong_rules() -> Iterator[Rules]:
    """Every pair left out, its wish turned round, or a version more or less; and others let in."""
    for pair, rule in launch.RULES.items():
        yield {other: launch.RULES[other] for other in launch.RULES if other != pair}
        wish = rule._replace(wants_no_os_version=not rule.wants_no_os_version)
        yield {**launch.RULES, pair: wish}
        for version in range(5):
            versions = tuple(v for v in range(5) if (v in rule.versions) != (v == version))
            yield {**launch.RULES, pair: rule._replace(versions=versions)}
    for release, kernel in itertools.product((0, 7, 8, 9, 10, 14, 255), (PLAIN, GENERIC)):
        for version in range(5):
            if (release, kernel) not in launch.RULES:
                yield {**launch.RULES, (release, kernel): Rule((version,))}


def other_field(at: int, width: int) -> Callable[[bytes, boot.Row], int]:
    """An os version from another place, or of another width."""
    return lambda image, row: fields.read(image, at, width)


def masked(mask: int) -> Callable[[bytes, boot.Row], int]:
    """An os version of which some bits are not looked at."""
    return lambda image, row: right_os_version(image, row) & mask


WRONG_OS_VERSIONS: Tuple[Callable[[bytes, boot.Row], int], ...] = (
    *(masked(0xFFFFFFFF ^ 1 << bit) for bit in range(32)),
    *(masked(mask) for mask in (0xFF, 0xFFFF, 0xFFFF0000, 0xFF000000)),
    *(other_field(at, 4) for at in (8, 12, 20, 24, 40, 44)),
    *(other_field(16, width) for width in (1, 2, 3, 8)),
    lambda image, row: right_os_version(image, row) | fields.read(image, 44, 4),
    lambda image, row: right_os_version(image, row) & fields.read(image, 44, 4),
)


def boot_part_first(image: bytes, release: int, kernel: int) -> Answer:
    """The boot refusals, then 41."""
    located = boot.locate(image)
    return located if isinstance(located, boot.Refusal) else right_answer(image, release, kernel)


def rules_first(image: bytes, release: int, kernel: int) -> Answer:
    """41, 42 and 43, then the boot refusals."""
    rule = launch.RULES.get((release, kernel))
    if rule is None or version_of(image) >= len(boot.TABLE):
        return right_answer(image, release, kernel)
    number = launch.rule_number(image, version_of(image), rule)
    return right_answer(image, release, kernel) if number == 0 else boot.Refusal(number)


def os_version_after_41(image: bytes, release: int, kernel: int) -> Answer:
    """43 before the boot refusals, but 42 after them."""
    rule = launch.RULES.get((release, kernel))
    if rule == Rule((4,), True) and version_of(image) == 4 and os_version_of(image) != 0:
        return boot.Refusal(43)
    return right_answer(image, release, kernel)


def os_version_before_version(image: bytes, version: int, rule: Rule) -> int:
    """43, then 42."""
    if rule.wants_no_os_version and boot.read_os_version(image, boot.TABLE[version]) != 0:
        return 43
    return 0 if version in rule.versions else 42


def without_retired(image: bytes, release: int, kernel: int) -> Answer:
    """No retired section is told of."""
    answer = right_answer(image, release, kernel)
    if isinstance(answer, boot.Refusal):
        return answer
    return dataclasses.replace(answer, retired=False)


def without_last(image: bytes, release: int, kernel: int) -> Answer:
    """The last section that is offered is left out."""
    answer = right_answer(image, release, kernel)
    if isinstance(answer, boot.Refusal):
        return answer
    return dataclasses.replace(answer, sections=answer.sections[:-1])


def of_numbers(of: Callable[[int, int], Tuple[int, int]]) -> Callable[[bytes, int, int], Answer]:
    """The answer for what is made of release and kernel."""
    return lambda image, release, kernel: right_answer(image, *of(release, kernel))


WRONG_RULES: Tuple[Tuple[Any, str, Any], ...] = (
    *((launch, "RULES", rules) for rules in wrong_rules()),
    *((boot, "read_os_version", wrong) for wrong in WRONG_OS_VERSIONS),
    (launch, "rule_number", os_version_before_version),
    *((launch, "locate_for", wrong) for wrong in (
        boot_part_first, rules_first, os_version_after_41, without_retired, without_last,
        of_numbers(lambda release, kernel: (release, min(kernel, 1))),
        of_numbers(lambda release, kernel: (release, kernel % 2)),
        of_numbers(lambda release, kernel: (release, kernel % 2**8)),
        of_numbers(lambda release, kernel: (release, kernel % 2**16)),
        of_numbers(lambda release, kernel: (release, kernel % 2**31)),
        of_numbers(lambda release, kernel: (release, int(kernel == 1))),
        of_numbers(lambda release, kernel: (release % 2**8, kernel)),
        of_numbers(lambda release, kernel: (release % 2**31, kernel)),
        of_numbers(lambda release, kernel: (max(release, 8), kernel)),
        of_numbers(lambda release, kernel: (min(release, 13), kernel)),
        of_numbers(lambda release, kernel: (min(release, kernel), max(release, kernel))),
        of_numbers(lambda release, kernel: (max(release, kernel), min(release, kernel))),
        of_numbers(lambda release, kernel: divmod((2 * release + kernel) % 2**32, 2)),
        of_numbers(lambda release, kernel: (
            8 + (release - 8 + 6 * kernel) % 2**32 % 6, (release - 8 + 6 * kernel) % 2**32 // 6)),
    )),
)


class TestGroup(unittest.TestCase):
    """What the vectors' cases show."""

    def answers(self) -> List[Tuple[Case, int]]:
        """The cases with the numbers of their refusals."""
        return [(case, cases_launch.values(case)[0]) for case in cases_of_vectors()]

    def test_each_once(self) -> None:
        self.assertEqual(len(set(cases_of_vectors())), len(cases_of_vectors()))

    def test_values(self) -> None:
        for case in cases_of_vectors():
            self.assertEqual(cases_launch.values(case), slow_values(case))

    def test_every_version_pair_and_os_version(self) -> None:
        found = {
            (version_of(case.image), case.release, case.kernel, os_version_of(case.image))
            for case in cases_of_vectors() if isinstance(boot.locate(case.image), boot.Located)
        }
        os_versions = (0, 1, 0x10000, 0x80000000, 0xFFFFFFFF)
        for version, pair, number in itertools.product(range(5), PAIRS, os_versions):
            self.assertIn((version, *pair, number), found)
        for bit in range(32):
            self.assertIn((4, 13, GENERIC, 1 << bit), found)

    def test_bad_pairs(self) -> None:
        """Each bad release with either kernel and every version; each bad kernel with every
        release, and a version that it takes."""
        found: Set[Tuple[int, int, int]] = set()
        for case, number in self.answers():
            if (case.release, case.kernel) not in GOOD_PAIRS:
                self.assertEqual(number, 41)
                found.add((case.release, case.kernel, version_of(case.image)))
        releases = (0, 7, 14, 255, 256 + 12, 2**32 - 1)
        self.assertLessEqual(set(itertools.product(releases, (PLAIN, GENERIC), range(5))), found)
        for kernel in (2, 3, 255, 256, 2**32 - 1):
            self.assertLessEqual({(release, kernel, v) for release, _, v in TAKEN}, found)
        early = itertools.product((8, 9, 10), (GENERIC,), range(5))
        self.assertLessEqual(set(early), found)

    def test_boot_refusals(self) -> None:
        """Each number for every pair that there is, and before it 41 for others."""
        found: Set[Tuple[int, int, int, int]] = set()
        for case, number in self.answers():
            answer = boot.locate(case.image)
            if isinstance(answer, boot.Refusal):
                is_pair = (case.release, case.kernel) in GOOD_PAIRS
                self.assertEqual(number, answer.number if is_pair else 41)
                found.add((case.release, case.kernel, answer.number, min(44, len(case.image))))
        bad = {(8, GENERIC), (7, PLAIN), (14, GENERIC), (12, 2)}
        refusals = [(21, 43)] + [(number, 44) for number in (21, 22, 23, 24, 25, 26, 27)]
        for pair, refusal in itertools.product(GOOD_PAIRS | bad, refusals):
            self.assertIn((*pair, *refusal), found)

    def test_two_refusals(self) -> None:
        """Boot refusals of images whose version the pair does not take, whose os version it does
        not want, both, or neither, as far as the refusal allows; 42 with an os version that is
        not wanted."""
        found: Set[Tuple[int, bool, bool]] = set()
        for case, number in self.answers():
            pair = (case.release, case.kernel)
            if pair in GOOD_PAIRS:
                is_taken = (*pair, version_of(case.image)) in TAKEN
                has_wrong_os = pair == (13, GENERIC) and os_version_of(case.image) != 0
                found.add((number, is_taken, has_wrong_os))
        for number in (21, 22, 24, 25, 26, 27):
            self.assertLessEqual({(number, False, False), (number, True, False)}, found)
        for number in (21, 22, 24, 26):
            self.assertIn((number, True, True), found)
        for number in (23, 25, 26, 27, 42):
            self.assertLessEqual({(number, False, False), (number, False, True)}, found)

    def test_accepted(self) -> None:
        """Every triple with all sections of the version, none empty, and a retired one in versions
        0 to 2; and with none."""
        full: Set[Tuple[int, int, int]] = set()
        bare: Set[Tuple[int, int, int]] = set()
        for case in cases_of_vectors():
            answer = launch.locate_for(case.image, case.release, case.kernel)
            if isinstance(answer, boot.Located):
                sizes = {section.size for section in answer.sections}
                if 0 not in sizes and answer.retired == (answer.version < 3):
                    full.add((case.release, case.kernel, answer.version))
                if sizes == {0} and not answer.retired:
                    bare.add((case.release, case.kernel, answer.version))
        self.assertEqual(full, TAKEN)
        self.assertEqual(bare, TAKEN)

    def test_bytes_elsewhere(self) -> None:
        """Version 4 where its os version and the place of the older ones' differ in being 0."""
        found = {
            (number, os_version_of(case.image) != 0, fields.read(case.image, 44, 4) != 0)
            for case, number in self.answers()
            if (case.release, case.kernel) == (13, GENERIC) and version_of(case.image) == 4
        }
        wanted = {(0, False, False), (0, False, True), (43, True, False), (43, True, True)}
        self.assertLessEqual(wanted, found)

    def test_wrong_rules_are_seen(self) -> None:
        """Each changes a line."""
        cases = cases_of_vectors()
        lines = [cases_launch.values(case) for case in cases]
        for i, (module, name, wrong) in enumerate(WRONG_RULES):
            with self.subTest(i), unittest.mock.patch.object(module, name, wrong):
                self.assertNotEqual([cases_launch.values(case) for case in cases], lines)


if __name__ == "__main__":
    unittest.main()
