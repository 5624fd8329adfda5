"""Holds a built lister program against the reference.

    python3 tests/lister.py [PROGRAM]    by default crates/simg_list/out/simg_list

Runs the program on many inputs and compares its standard output byte for byte
with the reference's text.  Prints one line, `lister: N inputs agree`; at the
first difference it shows that one instead and ends with 1.
"""

import itertools
import os
import random
import sys
from typing import List

HERE = os.path.dirname(os.path.abspath(__file__))
sys.path.insert(0, os.path.join(HERE, "reference"))

import build
import cases_sparse
import cases_store
import lister
import programs
from build import ChunkPlan

SEED = 20240902
DEFAULT_PROGRAM = os.path.join("crates", "simg_list", "out", "simg_list")
LONGEST = lister.LONGEST_IMAGE
BLOCKS_OF_4 = lister.PARTITION_LENGTH // 4


def many_chunks(count: int) -> List[ChunkPlan]:
    """So many chunks of all kinds in turn, the unknown ones of several types."""
    plans = []
    for other in itertools.islice(itertools.cycle(cases_sparse.OTHER_TYPES), 1 + count // 4):
        plans += [build.skip(1), build.fill(b"abcd", 2), build.raw(b"wxyz", 4)]
        plans.append(build.unknown(other, 3))
    return plans[:count]


def long_images() -> List[bytes]:
    """Accepted and refused images just as long as is read, and longer ones."""
    head = len(build.sparse_image(4, [build.raw(b"", 4)]))
    blocks = (LONGEST - head) // 4
    raw = build.raw(bytes(range(251)) * 300, 4)
    full = build.sparse_image(4, [ChunkPlan(0xCAC1, blocks, raw.data[:4 * blocks])])
    unread = build.sparse_image(4, [build.unknown(5, 7, bytes(LONGEST - head))])
    most = (LONGEST - 28) // 12
    skips = build.sparse_image(4, [build.skip(i % 3) for i in range(most)])
    others = [build.unknown(4 * i, 1) for i in range(1, most)]
    unknowns = build.sparse_image(4, [build.unknown(7, BLOCKS_OF_4 - len(others))] + others)
    assert len(full) == len(unread) == LONGEST and LONGEST - 12 < len(skips) <= LONGEST
    images = [full, unread, skips, unknowns]
    images += [image + b"\0" for image in images] + [image[:-1] for image in images]
    images += [bytes(length) for length in (LONGEST - 1, LONGEST, LONGEST + 1, 2 * LONGEST)]
    return images + [full + bytes(LONGEST), full + full, unread + bytes(3), b"\xFF" * 300_000]


def big_number_images() -> List[bytes]:
    """Block numbers up to the greatest that fit the partition, and past it."""
    images = []
    for more in (-1, 0, 1):
        images.append(build.sparse_image(4, [build.skip(BLOCKS_OF_4 + more)]))
        images.append(build.sparse_image(4, [build.fill(b"tarp", BLOCKS_OF_4 + more)]))
        images.append(build.sparse_image(65536, [build.unknown(1, 16 + more)]))
    for near in (9, 10, 99, 100, 9_999, 10_000, 65_535, 65_536, 99_999, 100_000, 262_143):
        plans = [build.fill(b"\0\0\0\1", near), build.raw(b"last", 4), build.skip(0)]
        images.append(build.sparse_image(4, plans))
        images.append(build.sparse_image(4, [build.skip(near), build.raw(b"", 4)]))
        images.append(build.sparse_image(4, [build.unknown(0xCAC4, near), build.skip(1)]))
    images += [build.sparse_image(4, [build.skip(n)]) for n in (2**30, 2**31, 2**32 - 1)]
    return images


def checksum_images() -> List[bytes]:
    """Images that state 0, true or not, and the same with checksum 1: every kind of chunk
    with headers of several sizes, many chunks, and the longest that are read."""
    images = [build.two_chunks(checksum=0), build.two_chunks(second_type=0xCAC5, checksum=0)]
    for sizes in ((28, 12), (28, 16), (36, 20), (1000, 400)):
        images += cases_sparse.none_stated_images(*sizes)
    images += cases_sparse.zero_sum_images()
    images += [build.sparse_image(4, many_chunks(count), checksum=0) for count in (4, 99, 4000)]
    images += [build.stating(image, 0) for image in long_images()[:4] + big_number_images()]
    return images + [build.stating(image, 1) for image in images]


def unknown_images(rng: random.Random) -> List[bytes]:
    """Images with chunks of many unknown types, empty ones and such with data; P2 with
    its second type near any known one."""
    images = [case.image for case in cases_sparse.count_cases()]
    for known in cases_sparse.KNOWN_TYPES:
        near = cases_sparse.near_types(known)
        images += [build.two_chunks(second_type=other) for other in near]
    return images + [cases_store.unknown_image(rng) for _ in range(300)]


def inputs() -> List[bytes]:
    """Every input, each once."""
    rng = random.Random(SEED)
    empties = [build.raw(b"", 8), build.skip(0), build.fill(b"abcd", 0), build.unknown(0, 0)]
    found = [build.two_chunks(), build.two_chunks(second_type=0xCAC5), b"", b"\0", b"\n"]
    found += cases_store.refused_images(lister.PARTITION_LENGTH)
    found += [build.sparse_image(8, empties[:count]) for count in range(5)]
    found += [build.sparse_image(4, many_chunks(count)) for count in (4, 9, 10, 99, 1000, 4000)]
    found += long_images() + big_number_images() + list(cases_store.SMALL_IMAGES)
    found += checksum_images() + unknown_images(rng)
    cases = cases_sparse.example_cases() + cases_sparse.cut_cases() + cases_sparse.sum_cases()
    cases += cases_sparse.end_cases() + cases_sparse.header_size_cases()
    cases += cases_sparse.block_size_cases() + cases_sparse.type_cases()
    cases += cases_sparse.raw_product_cases() + cases_sparse.random_cases(rng)
    return list(dict.fromkeys(found + [case.image for case in cases]))


def slow_inputs() -> List[bytes]:
    """The inputs that come in pieces."""
    return [build.two_chunks(), build.sparse_image(4, many_chunks(99))] + long_images()


if __name__ == "__main__":
    TEST = programs.on_input("lister", DEFAULT_PROGRAM, lister.listing, inputs, slow_inputs)
    sys.exit(programs.run(TEST))
