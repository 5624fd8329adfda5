"""Group `boot`: the sections of boot images."""

import itertools
import random
from typing import Any, Dict, List, Tuple, Union

import boot
import build
from cases_common import Group, below, patched_image, pick

VERSIONS = range(5)
PAGE_SIZES = (0, 1, 1024, 2047, 2048, 3072, 4096, 6144, 8192, 12288, 16384, 32768, 2**31)
LARGE = 2**32 - 1

# The sections of each version, and a size for each in the base images.
SECTIONS = (
    ("kernel", "ramdisk", "second"),
    ("kernel", "ramdisk", "second", "recovery"),
    ("kernel", "ramdisk", "second", "recovery", "dtb"),
    ("kernel", "ramdisk"),
    ("kernel", "ramdisk", "signature"),
)
BASE_SIZES = dict(kernel=3000, ramdisk=100, second=5, recovery=7, dtb=9, signature=11)
BASE_RECOVERY_OFFSET = 10240
BASE_LENGTH = 12400


def section_values(located: boot.Located) -> Tuple[int, ...]:
    """For each of the five sections that are offered: present, position, size; zeros if absent."""
    found = {section.name: section for section in located.sections}
    triples: List[int] = []
    for name in boot.OFFERED:
        if name in found:
            triples += [1, found[name].position, found[name].size]
        else:
            triples += [0, 0, 0]
    return tuple(triples)


def answer_values(answer: Union[boot.Located, boot.Refusal]) -> Tuple[int, ...]:
    """Number and version, then the sections, then whether a retired one is present."""
    if isinstance(answer, boot.Refusal):
        return (answer.number, 0) + (0,) * (3 * len(boot.OFFERED) + 1)
    return (0, answer.version) + section_values(answer) + (int(answer.retired),)


def values(image: bytes) -> Tuple[int, ...]:
    """The values of an image's answer."""
    return answer_values(boot.locate(image))


def example_images() -> List[bytes]:
    """P10 and P11 of document 01."""
    return [
        build.boot_image(3, 12289, kernel=4097, ramdisk=1),
        build.boot_image(3, 12288, kernel=4097, ramdisk=1),
        build.boot_image(2, 6145, kernel=2048, ramdisk=1, dtb=1),
    ]


def base_image(version: int, **given: Any) -> bytes:
    """An image with room for all sections of its version, none of them empty; or with fields
    given other values."""
    plan: Dict[str, Any] = {name: BASE_SIZES[name] for name in SECTIONS[version]}
    plan["recovery_offset"] = BASE_RECOVERY_OFFSET
    plan.update(given)
    return build.boot_image(version, BASE_LENGTH, **plan)


def cut_lengths(version: int) -> List[int]:
    """Every length at which a test of the base image changes its answer, and near."""
    edges = {0, 8, 40, 44, build.HEADER_LENGTHS[version], 2048, 4096}
    for section in boot.read_sections(base_image(version), boot.TABLE[version]):
        edges |= {section.position, section.position + section.size}
    near = {edge + d for edge in edges for d in (-1, 0, 1)}
    return sorted(length for length in near if 0 <= length <= BASE_LENGTH)


def cut_images() -> List[bytes]:
    """The base images, whole and cut."""
    return [base_image(v)[:length] for v in VERSIONS for length in cut_lengths(v)]


def damaged_images() -> List[bytes]:
    """One byte damaged: before the texts, and after them up to the header's end."""
    images = []
    for version in VERSIONS:
        image = base_image(version)
        texts_end = 1632 if version < 3 else 1580
        tail = range(texts_end, build.HEADER_LENGTHS[version])
        for at in itertools.chain(range(48), tail):
            for mask in (0x01, 0x80):
                images.append(build.with_bytes(image, at, bytes([image[at] ^ mask])))
    return images


def page_images() -> List[bytes]:
    """Every page size in every version; versions 3 and 4 have no such field."""
    images = []
    for version, page in itertools.product(range(3), PAGE_SIZES):
        images.append(build.boot_image(version, 40000, page=page, kernel=5000, ramdisk=1))
        images.append(build.boot_image(version, 1700, page=page))
    for version, page in itertools.product((3, 4), PAGE_SIZES):
        field = page.to_bytes(4, "little")
        images.append(build.with_bytes(build.boot_image(version, 5000, kernel=9), 36, field))
    return images


def single_section_images() -> List[bytes]:
    """One section alone, around one page long, with just enough bytes or one less."""
    images = []
    for version in VERSIONS:
        page = 2048 if version < 3 else 4096
        for name, size in itertools.product(SECTIONS[version], (1, page - 1, page, page + 1)):
            sizes = {name: size}
            image = build.boot_image(version, page + size, recovery_offset=page, **sizes)
            images += [image, image[:-1]]
    return images


def header_images() -> List[bytes]:
    """Headers alone, unread fields filled, and versions past 4."""
    images = []
    for version, filler in itertools.product(VERSIONS, (0x00, 0x5A, 0xFF)):
        images.append(build.boot_image(version, build.HEADER_LENGTHS[version], filler=filler))
    for number in (5, 6, 0x100, 0x101, 0x10003, 0x1000002, LARGE):
        images.append(build.with_bytes(base_image(2), 40, number.to_bytes(4, "little")))
    return images


def recovery_images() -> List[bytes]:
    """A recovery offset wrong in each byte; free where the section is empty."""
    images = []
    for version in (1, 2):
        for byte in range(8):
            offset = BASE_RECOVERY_OFFSET ^ (1 << (8 * byte))
            images.append(base_image(version, recovery_offset=offset))
            images.append(base_image(version, recovery_offset=offset, recovery=0))
    return images


def recovery_position(page: int, *sizes: int) -> int:
    """Where the recovery section begins, after sections of these sizes."""
    return page + sum(boot.rounded_up(size, page) for size in sizes)


def retired_images() -> List[bytes]:
    """P11 with a second section; then one that is empty, of a byte or two, around one page long,
    or as long as can be, the other sections not empty.  The recovery offset is right, or as
    if the second section took no room; there are just enough bytes, where they are few, and one
    less.  Each image stands once: version 0 has no offset, and both are right where it is empty."""
    images = [build.boot_image(2, 8193, kernel=2048, ramdisk=1, second=1, dtb=1)]
    for version, second in itertools.product(range(3), (0, 1, 2, 2047, 2048, 2049, LARGE)):
        sizes = {name: BASE_SIZES[name] for name in SECTIONS[version]}
        sizes["second"] = second
        before = (sizes["kernel"], sizes["ramdisk"])
        for offset in (recovery_position(2048, *before, second), recovery_position(2048, *before)):
            image = build.boot_image(version, 16384, recovery_offset=offset, **sizes)
            sections = boot.read_sections(image, boot.TABLE[version])
            end = max(section.position + section.size for section in sections if section.size != 0)
            images += [image[:end], image[:end - 1]] if end <= len(image) else [image]
    return list(dict.fromkeys(images))


def reserved_images() -> List[bytes]:
    """Versions 3 and 4 with bytes in the reserved field where older versions have the size of
    the second section."""
    return [
        build.with_bytes(image, 24, field.to_bytes(4, "little"))
        for version in (3, 4) for image in (base_image(version), base_image(version)[:9000])
        for field in (1, 2049, LARGE)
    ]


def wide_images() -> List[bytes]:
    """Positions that pass 2^32, the recovery offset right or right in 32 bits."""
    images = []
    large = (LARGE, LARGE - 2047, LARGE - 2048, 2**31)
    for version, kernel, second in itertools.product((1, 2), large, (0, LARGE)):
        sizes: Dict[str, int] = dict(kernel=kernel, ramdisk=kernel, second=second)
        position = recovery_position(2048, kernel, kernel, second)
        for offset in (position, position % 2**32, position ^ 2**32):
            images.append(
                build.boot_image(version, 9000, recovery=1, recovery_offset=offset, **sizes)
            )
    for version, size in itertools.product(VERSIONS, large + (LARGE - 4095,)):
        images.append(build.boot_image(version, 9000, kernel=size))
        images.append(build.boot_image(version, 9000, ramdisk=size))
    return images


def order_images() -> List[bytes]:
    """Every set of faults at every length that is a fault of its own."""
    images = []
    lengths = (43, 44, 1659, 1660, BASE_LENGTH)
    for length, *faults in itertools.product(lengths, *[(False, True)] * 5):
        magic, version, header_size, page, recovery = faults
        image = build.boot_image(
            2,
            length,
            magic=b"ANDROID?" if magic else b"ANDROID!",
            header_size=1648 if header_size else 1660,
            page=1024 if page else 2048,
            recovery_offset=BASE_RECOVERY_OFFSET + recovery,
            **{name: BASE_SIZES[name] for name in SECTIONS[2]},
        )
        images.append(build.with_bytes(image, 40, b"\x05") if version else image)
    return images


def random_image(rng: random.Random, **given: Any) -> bytes:
    """Sections of any size, often empty; the recovery offset mostly right; the rest as given."""
    version = below(rng, 5)
    page = pick(rng, (2048, 4096, 8192, 16384))
    sizes = {name: pick(rng, (0, 1, below(rng, 9000))) for name in SECTIONS[version]}
    before = [sizes.get(name, 0) for name in ("kernel", "ramdisk", "second")]
    offset = recovery_position(page, *before) + pick(rng, (0, 0, 0, page))
    length = 1600 + below(rng, 60000)
    return build.boot_image(version, length, page=page, recovery_offset=offset, **sizes, **given)


def all_images(rng: random.Random) -> List[bytes]:
    """The images of the group."""
    images = example_images() + cut_images() + damaged_images() + page_images()
    images += single_section_images() + header_images() + recovery_images()
    images += retired_images() + reserved_images() + wide_images() + order_images()
    return images + [random_image(rng) for _ in range(150)]


def group(rng: random.Random) -> Group:
    """All cases of the group."""
    images = all_images(rng)
    return Group(b"".join(map(patched_image, images)), [values(image) for image in images])
