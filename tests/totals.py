"""Holds a built program that prints the report of the images in a folder against the reference.

    python3 tests/totals.py [PROGRAM]    by default crates/simg_totals/out/simg_totals

Runs the program in many folders, each made for it, and compares its standard output byte for
byte with the reference's text.  Prints one line, `totals: N folders agree`; at the first
difference it shows that one instead and ends with 1.
"""

import itertools
import os
import random
import resource
import sys
import tempfile
from functools import partial
from typing import Callable, Dict, Iterator, List, NamedTuple, Sequence, Tuple

HERE = os.path.dirname(os.path.abspath(__file__))
sys.path.insert(0, os.path.join(HERE, "reference"))

import build
import cases_report
import cases_sparse
import cases_store
import programs
import report
from cases_common import below, pick, some_bytes
from programs import Answer, Test, Trial

SEED = 20240905
DEFAULT_PROGRAM = os.path.join("crates", "simg_totals", "out", "simg_totals")
LONGEST = report.LONGEST_IMAGE
PARTITION = report.PARTITION_LENGTH
BLOCKS_OF_4 = PARTITION // 4
STORED = os.path.join(HERE, os.pardir, "crates", "simg_totals", "data")
SHOWN = 12

# How many files a process may have open, so that a program that closes none of them is seen.
MOST_OPEN = 64

P2 = build.two_chunks()
P7 = build.two_chunks(second_type=0xCAC5)

# Names that are nearly that of the image of a number.
NEAR_NAMES = (
    "0{}.img", "00{}.img", "{}.IMG", "{}.Img", "{}.img.bak", "{}.img~", "{}.img ", " {}.img",
    "{}", "{}.", "{}.im", "{}.imgs", "{}img", "{},img", "-{}.img", "+{}.img", "{}.0.img", "{}.0",
    ".{}.img", "0x{}.img", "{}e0.img", "{}\n.img", "{}.img\n", "img.{}", "#{}.img", "{}0.img",
    "1{}.img",
)
OTHER_NAMES = (".img", "img", "one.img", "0.img", "00.img", "-0.img", "a.img", "A.img")


Entry = Tuple[str, Callable[[str], None]]


class Folder(NamedTuple):
    """The images of a folder, which are `1.img`, `2.img` and on, and what is made there after
    them, by its names."""

    images: Tuple[bytes, ...]
    beside: Tuple[Entry, ...] = ()


# What stands in a folder.

def write(data: bytes, path: str) -> None:
    """Makes a file that holds the data."""
    with open(path, "wb") as file:
        file.write(data)


def write_long(data: bytes, length: int, path: str) -> None:
    """Makes a file that begins with the data and has zeros up to a length."""
    write(data, path)
    os.truncate(path, length)


def link_elsewhere(path: str) -> None:
    """Makes a link to a file in its place, which gets another name."""
    os.rename(path, path + ".moved")
    os.symlink(os.path.basename(path) + ".moved", path)


def link_in_place(target: str, path: str) -> None:
    """Makes a link to a target in the place of a file."""
    os.remove(path)
    os.symlink(target, path)


def folder_in_place(path: str) -> None:
    """Makes a folder in the place of a file."""
    os.remove(path)
    os.mkdir(path)


def named(data: bytes, *names: str) -> Tuple[Entry, ...]:
    """Files of these names that hold the data."""
    return tuple((name, partial(write, data)) for name in names)


def make(folder: Folder, path: str) -> None:
    """Makes all that stands in a folder; images that are alike are one file of several names."""
    made: Dict[bytes, str] = {}
    for number, image in enumerate(folder.images, 1):
        name = os.path.join(path, f"{number}.img")
        if image in made:
            os.link(made[image], name)
        else:
            write(image, name)
            made[image] = name
    for name, maker in folder.beside:
        maker(os.path.join(path, name))


def answer_of(folder: Folder, program: str) -> Answer:
    """The program's answer in a folder."""
    with tempfile.TemporaryDirectory() as path:
        make(folder, path)
        return programs.answer_in_folder(path, program)


def shown(folder: Folder) -> str:
    """A folder in words: how long its first images are, and the names of what stands beside."""
    lengths = ", ".join(str(len(image)) for image in folder.images[:SHOWN])
    names = [name for name, _ in folder.beside[:SHOWN]]
    return f"folder of {len(folder.images)} images, of {lengths} bytes, beside them {names}"


# Images.

def raw_image(blocks: int) -> bytes:
    """An accepted image of so many raw blocks of 4 bytes."""
    data = bytes(range(251)) * (1 + 4 * blocks // 251)
    return build.sparse_image(4, [build.raw(data[:4 * blocks], 4)])


def unread_image(length: int) -> bytes:
    """An accepted image of so many bytes, most of which are the data of an unknown chunk."""
    head = len(build.sparse_image(4, [build.unknown(5, 7)]))
    return build.sparse_image(4, [build.unknown(5, 7, bytes(length - head))])


def longest_images() -> List[bytes]:
    """Images that are as long as is judged, or nearly so: accepted, and refused ones."""
    full, unread = raw_image((LONGEST - 40) // 4), unread_image(LONGEST)
    images = [full, unread, full[:-1], unread[:-1], full[:-4], full[:-4] + b"\0"]
    images += [raw_image((LONGEST - 44) // 4), bytes(LONGEST), full[:-1] + b"\xFF"]
    assert {len(image) for image in images} == {LONGEST, LONGEST - 1, LONGEST - 3, LONGEST - 4}
    return images


def too_long_images() -> List[bytes]:
    """Longer ones, by one byte or many, that would be accepted or refused if they were judged."""
    full = raw_image((LONGEST - 40) // 4)
    images = [full + b"\0", bytes(LONGEST + 1), P2.ljust(LONGEST + 1, b"\0")]
    images += [raw_image((LONGEST - 36) // 4), unread_image(LONGEST + 4), unread_image(2 * LONGEST)]
    images += [full + full, bytes(2 * LONGEST), unread_image(3 * 2**20), b"\xFF" * 5_000_000]
    assert min(map(len, images)) == LONGEST + 1
    return images


def fitting_images() -> List[bytes]:
    """Images of about as many bytes as the partition has, just enough and too many."""
    images = []
    for more in (-1, 0, 1):
        for plan_of in (build.skip, partial(build.fill, b"tarp"), partial(build.unknown, 9)):
            images.append(build.sparse_image(4, [plan_of(BLOCKS_OF_4 + more)]))
            images.append(build.sparse_image(65536, [plan_of(PARTITION // 65536 + more)]))
    for blocks in (2**28, 2**30, 2**30 + 3, 2**32 - 1):
        images.append(build.sparse_image(4, [build.skip(blocks)]))
        images.append(build.sparse_image(65536, [build.fill(b"wide", blocks)]))
    return images


def kind_images() -> List[bytes]:
    """Accepted images of all kinds, and a refused one for each test."""
    images = [P2, P7, b"", cases_sparse.base_image()] + list(cases_store.SMALL_IMAGES)
    images += cases_report.small_images() + cases_sparse.ordered_images()
    images += cases_sparse.none_stated_images(36, 20) + cases_sparse.zero_sum_images()
    return images + cases_store.refused_images(PARTITION)


def judged_images(rng: random.Random) -> List[bytes]:
    """The images that the vectors judge, each once."""
    cases = cases_sparse.example_cases() + cases_sparse.damaged_cases() + cases_sparse.cut_cases()
    cases += cases_sparse.sum_cases() + cases_sparse.end_cases() + cases_sparse.type_cases()
    cases += cases_sparse.header_size_cases() + cases_sparse.block_size_cases()
    cases += cases_sparse.checksum_cases() + cases_sparse.count_cases()
    cases += cases_sparse.random_cases(rng)
    return list(dict.fromkeys(case.image for case in cases))


# Folders.

def stored_folder() -> Folder:
    """The folder that the gate runs the program in, as it stands there."""
    files = {}
    for name in sorted(os.listdir(STORED)):
        with open(os.path.join(STORED, name), "rb") as file:
            files[name] = file.read()
    images = []
    while f"{len(images) + 1}.img" in files:
        images.append(files.pop(f"{len(images) + 1}.img"))
    return Folder(tuple(images), tuple((name, partial(write, data)) for name, data in files.items()))


def missing_folders() -> Iterator[Folder]:
    """No image at all; one missing at the beginning and after some."""
    yield Folder(())
    yield Folder((), named(P2, "2.img"))
    yield Folder((), named(P2, "0.img", "2.img", "3.img", "10.img"))
    yield Folder((P2, P7), named(P2, "4.img"))
    for count in (1, 8, 9, 10, 98, 99, 100):
        after = [f"{number}.img" for number in range(count + 2, count + 15)]
        yield Folder((P2,) * count, named(P7, *after))


def near_folders() -> Iterator[Folder]:
    """Names that are nearly that of the next image, alone and together; folders of such names, and
    of that of an image after the one that is missing; a link to nowhere."""
    for count in (0, 2, 9):
        near = [name.format(count + 1) for name in NEAR_NAMES] + list(OTHER_NAMES)
        for name in near:
            yield Folder((P7,) * count, named(P2, name))
        yield Folder((P7,) * count, named(P2, *near))
        folders = [name.format(count + 1) for name in NEAR_NAMES[:6]] + [f"{count + 2}.img"]
        yield Folder((P7,) * count, tuple((name, os.mkdir) for name in folders))
        missing = (f"{count + 1}.img", partial(os.symlink, "missing"))
        yield Folder((P7,) * count, (missing,) + named(P2, f"{count + 2}.img"))


def linked_folders() -> Iterator[Folder]:
    """Images that are links to files, one of them to what has no bytes, which a folder has not
    either."""
    yield Folder((P2, P7, b"", P2), (("2.img", link_elsewhere), ("4.img", link_elsewhere)))
    yield Folder((P2, b"", P7), (("2.img", partial(link_in_place, os.devnull)),))
    yield Folder((P2, b"", P7), (("2.img", folder_in_place),))


def long_folders() -> Iterator[Folder]:
    """Images about as long as is judged, or longer, first, last, between others and alone."""
    for image in longest_images() + too_long_images():
        for images in ((image,), (image, P2), (P2, image), (P7, b"", image, P2, P7)):
            yield Folder(images)
    yield Folder(tuple(longest_images() + too_long_images()[:1] + longest_images()))


def endless_folders() -> Iterator[Folder]:
    """A second image so long that its length passes 31 or 32 bits, or that has no end, and more
    images after it."""
    after = named(P2, "3.img", "4.img")
    for length in (2**31, 2**32, 2**32 + len(P2), 2**32 + LONGEST, 2**33 + 1):
        yield Folder((P7,), (("2.img", partial(write_long, P2, length)), *after))
    yield Folder((P7,), (("2.img", partial(os.symlink, "/dev/zero")), *after))


def many_folders() -> Iterator[Folder]:
    """Numbers of one digit up to five, and so many images that bytes and blocks pass 32 bits."""
    for count in (9, 10, 11, 12, 19, 20, 99, 100, 101, 109, 110, 255, 256, 257, 999, 1000, 1001):
        yield Folder(tuple(itertools.islice(itertools.cycle((P2, P7, b"", P2 + b"\0")), count)))
    for plan in (build.fill(b"many", BLOCKS_OF_4), build.skip(BLOCKS_OF_4)):
        yield Folder((build.sparse_image(4, [plan], checksum=0),) * (2**14 + 1))


def kind_folders() -> Iterator[Folder]:
    """Images of all kinds and refusals, each alone, and all in one folder, in both orders, and
    each more than nine times; those that about fit too."""
    images = kind_images() + fitting_images()
    for image in images:
        yield Folder((image,))
    yield Folder(tuple(images))
    yield Folder(tuple(images[::-1]))
    for image in cases_store.refused_images(PARTITION):
        yield Folder((image,) * 11)
    yield Folder(tuple(cases_store.refused_images(PARTITION) * 12))


def judged_folders(rng: random.Random) -> Iterator[Folder]:
    """The images that the vectors judge, some to a folder."""
    images = judged_images(rng)
    for at in range(0, len(images), 8):
        yield Folder(tuple(images[at:at + 8]))


def random_image(rng: random.Random, images: Sequence[bytes]) -> bytes:
    """One of the images, or a new one, or any bytes; now and then a long one."""
    maker = pick(rng, (cases_sparse.random_image, cases_store.random_image))
    others = (maker(rng), cases_store.unknown_image(rng), some_bytes(rng, below(rng, 90)))
    return pick(rng, (pick(rng, images),) * 3 + others)


def random_folders(rng: random.Random) -> Iterator[Folder]:
    """Folders of up to 19 images, at times with a long one, one missing, or near names."""
    images = kind_images() + fitting_images()
    for _ in range(300):
        taken = [random_image(rng, images) for _ in range(below(rng, 20))]
        if below(rng, 4) == 0:
            long_image = pick(rng, longest_images() + too_long_images()[:6])
            taken.insert(below(rng, len(taken) + 1), long_image)
        names = [pick(rng, NEAR_NAMES).format(len(taken) + 1) for _ in range(below(rng, 3))]
        names += [f"{len(taken) + 2 + below(rng, 12)}.img" for _ in range(below(rng, 3))]
        yield Folder(tuple(taken), named(pick(rng, images), *dict.fromkeys(names)))


def folders() -> Iterator[Folder]:
    """Every folder."""
    rng = random.Random(SEED)
    yield stored_folder()
    yield from missing_folders()
    yield from near_folders()
    yield from linked_folders()
    yield from long_folders()
    yield from endless_folders()
    yield from many_folders()
    yield from kind_folders()
    yield from judged_folders(rng)
    yield from random_folders(rng)


def trials() -> Iterator[Trial]:
    """A run for each folder."""
    for folder in folders():
        text = report.folder_text(folder.images)
        yield Trial(shown(folder), text, partial(answer_of, folder))


if __name__ == "__main__":
    resource.setrlimit(resource.RLIMIT_NOFILE, (MOST_OPEN, MOST_OPEN))
    sys.exit(programs.run(Test("totals", DEFAULT_PROGRAM, "folders", trials)))
