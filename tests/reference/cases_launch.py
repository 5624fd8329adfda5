"""Group `launch`: boot images for a launch release, with a kernel."""

import itertools
import random
from typing import List, NamedTuple, Tuple

import boot
import build
import cases_boot
import fields
import launch
from cases_boot import LARGE, VERSIONS
from cases_common import Group, below, patched_image, pick, u32

RELEASES = range(8, 14)
PAIRS = tuple(itertools.product(RELEASES, (launch.PLAIN, launch.GENERIC)))
NEWEST = (13, launch.GENERIC)
OLD_OS_VERSION_AT = 44

# No bit, one of each half, the highest, and all.
OS_VERSIONS = (0, 1, 2**16, 2**31, LARGE)
BAD_RELEASES = (0, 7, 14, 255, 256 + 12, LARGE)
BAD_KERNELS = (2, 3, 255, 256, LARGE)
BAD_PAIRS = ((8, launch.GENERIC), (7, launch.PLAIN), (14, launch.GENERIC), (12, 2))


class Case(NamedTuple):
    """An image for a launch release, with a kernel."""

    release: int
    kernel: int
    image: bytes


def encoded(case: Case) -> bytes:
    """The case as it stands in the file."""
    return u32(case.release) + u32(case.kernel) + patched_image(case.image)


def values(case: Case) -> Tuple[int, ...]:
    """As in `boot`."""
    return cases_boot.answer_values(launch.locate_for(case.image, case.release, case.kernel))


def image_of(version: int, os_version: int) -> bytes:
    """An image with all sections of its version, none of them empty."""
    return cases_boot.base_image(version, os_version=os_version)


def pairs_taking(version: int) -> List[Tuple[int, int]]:
    """The pairs that take a version, and the one that looks at the os version."""
    pairs = [pair for pair, rule in launch.RULES.items() if version in rule.versions]
    return pairs if NEWEST in pairs else pairs + [NEWEST]


def rule_cases() -> List[Case]:
    """Every version for every release from 8 to 13 with either kernel, the os version 0 and not."""
    return [
        Case(*pair, image_of(version, os_version))
        for version, pair, os_version in itertools.product(VERSIONS, PAIRS, OS_VERSIONS)
    ]


def os_version_cases() -> List[Case]:
    """Each bit of the os version alone, where it has to be 0."""
    return [Case(*NEWEST, image_of(4, 1 << bit)) for bit in range(32)]


def elsewhere_cases() -> List[Case]:
    """Versions 3 and 4 with bytes where older versions have the os version, theirs being 0 and
    not; then headers alone, of which only the os version, or all that may be but it, is not 0."""
    cases = []
    for version, os_version, text in itertools.product((3, 4), (0, LARGE), (1, LARGE)):
        image = build.with_bytes(image_of(version, os_version), OLD_OS_VERSION_AT, u32(text))
        cases += [Case(*pair, image) for pair in PAIRS if pair[0] >= 12]
    for version in VERSIONS:
        length = build.HEADER_LENGTHS[version]
        bare = build.boot_image(version, length, os_version=LARGE)
        cases += [Case(*pair, bare) for pair in pairs_taking(version)]
        filled = build.boot_image(version, length, filler=0xFF, os_version=0)
        cases += [Case(*pair, filled) for pair in pairs_taking(version)[-2:]]
    return cases


def bad_pair_cases() -> List[Case]:
    """Releases before 8 and after 13 with every version, for document 004 takes 8 and all before
    it as one; kernels that are neither, with the versions that the release takes."""
    cases = [
        Case(release, kernel, image_of(version, 0)) for release, kernel, version
        in itertools.product(BAD_RELEASES, launch.WORDS, VERSIONS)
    ]
    for release, kernel in itertools.product(RELEASES, BAD_KERNELS):
        taken = launch.RULES[release, launch.PLAIN].versions
        cases += [Case(release, kernel, image_of(version, 0)) for version in taken]
    return cases


def alike_pairs(release: int, kernel: int) -> List[Tuple[int, int]]:
    """Pairs which are this one to a program that looks only at some of the bits, that swaps the
    two numbers, or that makes one of both, by twos or by sixes."""
    alike = [(release + 2**8, kernel), (release + 2**31, kernel), (release, kernel + 2**31)]
    alike += [(kernel, release), (release - 1, kernel + 2), (release + 1, (kernel - 2) % 2**32)]
    return alike + [(release + 6, (kernel - 1) % 2**32), (release - 6, kernel + 1)]


def alike_cases() -> List[Case]:
    """Such pairs, each with an image that the pair it is like takes."""
    return [
        Case(*alike, image_of(rule.versions[-1], 0))
        for pair, rule in launch.RULES.items() for alike in alike_pairs(*pair)
    ]


def cut_in_last(image: bytes, version: int) -> bytes:
    """The image without the last byte of its last section."""
    last = boot.read_sections(image, boot.TABLE[version])[-1]
    return image[:last.position + last.size - 1]


def refused_images(os_version: int) -> List[bytes]:
    """Images with each boot refusal, in 01's order, of version 4 where that can have it; the last
    ends in its second section."""
    new = image_of(4, os_version)
    wrong_offset = cases_boot.BASE_RECOVERY_OFFSET + 1
    return [
        new[:boot.SHORTEST - 1],
        build.with_bytes(new, 7, b"?"),
        build.with_bytes(new, boot.VERSION_AT, b"\x05"),
        new[:build.HEADER_LENGTHS[4] - 1],
        cases_boot.base_image(4, os_version=os_version, header_size=build.HEADER_LENGTHS[3]),
        cases_boot.base_image(2, os_version=os_version, page=1024),
        cases_boot.base_image(1, os_version=os_version, recovery_offset=wrong_offset),
        cut_in_last(new, 4),
        cut_in_last(image_of(0, os_version), 0),
    ]


def refused_cases() -> List[Case]:
    """Each boot refusal for each pair that there is, most of which would give 42 or 43 too, and
    for pairs that there are not; and with an os version of 0 for the pair that looks at it."""
    pairs = tuple(launch.RULES) + BAD_PAIRS
    images = refused_images(LARGE)
    cases = [Case(*pair, image) for image, pair in itertools.product(images, pairs)]
    cases += [Case(*pair, b"") for pair in (NEWEST,) + BAD_PAIRS]
    return cases + [Case(*NEWEST, image) for image in refused_images(0)]


def example_cases() -> List[Case]:
    """P10 and P11 of document 01 for each pair that there is."""
    p10, _, p11 = cases_boot.example_images()
    return [Case(*pair, image) for image, pair in itertools.product((p10, p11), launch.RULES)]


def random_pair(rng: random.Random, image: bytes) -> Tuple[int, int]:
    """Often a pair that takes the image's version, or the one that looks at the os version, or
    another, or one nearly so or alike; at times any number in the place of either."""
    taking = pick(rng, pairs_taking(fields.read(image, boot.VERSION_AT, 4)))
    other = pick(rng, PAIRS)
    near = (6 + below(rng, 10), below(rng, 3))
    alike = pick(rng, alike_pairs(*pick(rng, tuple(launch.RULES))))
    any_release, any_kernel = (rng.getrandbits(32), taking[1]), (taking[0], rng.getrandbits(32))
    rare = (near, near, alike, any_release, any_kernel)
    return pick(rng, (taking,) * 8 + (NEWEST,) * 4 + (other,) * 3 + rare)


def random_os_version(rng: random.Random) -> int:
    """Mostly 0, or small, or of one bit; or any."""
    one_bit = 1 << below(rng, 32)
    return pick(rng, (0,) * 4 + (one_bit,) * 2 + (below(rng, 300), rng.getrandbits(32)))


def random_case(rng: random.Random) -> Case:
    """A random image of `boot`, with an os version."""
    image = cases_boot.random_image(rng, os_version=random_os_version(rng))
    return Case(*random_pair(rng, image), image)


def all_cases(rng: random.Random) -> List[Case]:
    """The cases of the group, each once."""
    cases = example_cases() + rule_cases() + os_version_cases() + elsewhere_cases()
    cases += bad_pair_cases() + alike_cases() + refused_cases()
    cases += [random_case(rng) for _ in range(40)]
    return list(dict.fromkeys(cases))


def group(rng: random.Random) -> Group:
    """All cases of the group."""
    cases = all_cases(rng)
    return Group(b"".join(map(encoded, cases)), [values(case) for case in cases])
