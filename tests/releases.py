"""Holds a built program that prints the launch releases of a boot image against the reference.

    python3 tests/releases.py [PROGRAM]    by default crates/bootimg_releases/out/bootimg_releases

Runs the program on many inputs and compares its standard output byte for byte
with the reference's text.  Prints one line, `releases: N inputs agree`; at the
first difference it shows that one instead and ends with 1.
"""

import itertools
import os
import random
import sys
from typing import List

HERE = os.path.dirname(os.path.abspath(__file__))
sys.path.insert(0, os.path.join(HERE, "reference"))

import build
import cases_boot
import cases_launch
import launch
import programs
from cases_boot import VERSIONS
from cases_common import below, some_bytes

SEED = 20240904
DEFAULT_PROGRAM = os.path.join("crates", "bootimg_releases", "out", "bootimg_releases")
LONGEST = launch.LONGEST_IMAGE
FIRST_PAGE = 4096


def padded_images() -> List[bytes]:
    """Accepted images of every version as long as is read, about so long, and longer, filled up
    with zeros and with other bytes."""
    lengths = (LONGEST - 1, LONGEST, LONGEST + 1, LONGEST + 4096, 2 * LONGEST, 300_000)
    return [
        cases_boot.base_image(version, os_version=version % 2).ljust(length, filler)
        for version, length, filler in itertools.product(VERSIONS, lengths, (b"\0", b"\xFF"))
    ]


def full_images() -> List[bytes]:
    """Images with a section that ends about where the longest input does, whole and cut there."""
    images = []
    for version, more in itertools.product(VERSIONS, (-1, 0, 1)):
        size = LONGEST - FIRST_PAGE + more
        image = build.boot_image(version, LONGEST + more, page=FIRST_PAGE, kernel=size)
        images += [image, image[:LONGEST], image[:-1]]
    return images


def long_images() -> List[bytes]:
    """Inputs about as long as is read, and longer ones: boot images, and bytes that are none."""
    lengths = (LONGEST - 1, LONGEST, LONGEST + 1, 3 * LONGEST)
    others = [byte * length for byte, length in itertools.product((b"\0", b"\xFF"), lengths)]
    return padded_images() + full_images() + others


def short_images() -> List[bytes]:
    """No bytes, some that are no header, and every beginning of the fields before the texts."""
    image = cases_boot.base_image(4, os_version=1)
    return [b"", b"\0", b"\n", b"8 plain\n"] + [image[:length] for length in range(1, 49)]


def changed_image(rng: random.Random) -> bytes:
    """A random image with some bits turned in the fields before the texts."""
    image = cases_launch.random_case(rng).image
    for _ in range(1 + below(rng, 2)):
        at = below(rng, 48)
        image = build.with_bytes(image, at, bytes([image[at] ^ 1 << below(rng, 8)]))
    return image


def random_images(rng: random.Random) -> List[bytes]:
    """Random images, whole and changed, and random bytes."""
    images = [cases_launch.random_case(rng).image for _ in range(400)]
    images += [changed_image(rng) for _ in range(400)]
    return images + [some_bytes(rng, below(rng, 2000)) for _ in range(50)]


def inputs() -> List[bytes]:
    """Every input, each once."""
    rng = random.Random(SEED)
    found = [case.image for case in cases_launch.all_cases(rng)] + cases_boot.all_images(rng)
    found += short_images() + long_images() + random_images(rng)
    return list(dict.fromkeys(found))


def slow_inputs() -> List[bytes]:
    """The inputs that come in pieces: an image of each version, each boot refusal, long ones."""
    bases = [cases_boot.base_image(version) for version in VERSIONS]
    return cases_boot.example_images() + bases + cases_launch.refused_images(0) + long_images()


if __name__ == "__main__":
    TEST = programs.on_input("releases", DEFAULT_PROGRAM, launch.text, inputs, slow_inputs)
    sys.exit(programs.run(TEST))
