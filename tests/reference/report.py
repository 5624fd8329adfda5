"""Reports over lists of images: document 02, CR 13, over document 01's judging.

Run as a program it reads `1.img`, `2.img` and on in the folder it is run in and prints their
report.
"""

import itertools
import sys
from typing import Iterable, Iterator, NamedTuple, Tuple

import sparse
from lister import LONGEST_IMAGE, PARTITION_LENGTH

LARGEST_TOTAL = 2**64 - 1
REFUSALS = range(1, 12)


class Report(NamedTuple):
    """02, CR 13: "images accepted, blocks and bytes written, blocks skipped (don't care and
    unknown), and how many got each refusal number; keep also the largest total × block size of
    an accepted image, 0 if none".  How many were refused stands by number, from 1 on."""

    accepted: int
    blocks_written: int
    bytes_written: int
    blocks_skipped: int
    largest: int
    refused: Tuple[int, ...]


EMPTY = Report(0, 0, 0, 0, 0, (0,) * len(REFUSALS))


class Answer(NamedTuple):
    """61 or 0, and the report after."""

    number: int
    report: Report


def of_image(image: bytes, partition_length: int) -> Report:
    """The report of one image alone."""
    verdict = sparse.judge(image, partition_length)
    if isinstance(verdict, sparse.Refusal):
        return EMPTY._replace(refused=tuple(int(n == verdict.number) for n in REFUSALS))
    header = sparse.read_header(image)
    return EMPTY._replace(
        accepted=1,
        blocks_written=verdict.written,
        bytes_written=verdict.written * header.block_size,
        blocks_skipped=verdict.dont_care + verdict.unknown,
        largest=header.total_blocks * header.block_size,
    )


def sums(report: Report, other: Report) -> Report:
    """02, CR 13: "Two half reports can be added, taking the larger largest"; the totals are
    summed, however large they become."""
    return Report(
        accepted=report.accepted + other.accepted,
        blocks_written=report.blocks_written + other.blocks_written,
        bytes_written=report.bytes_written + other.bytes_written,
        blocks_skipped=report.blocks_skipped + other.blocks_skipped,
        largest=max(report.largest, other.largest),
        refused=tuple(map(sum, zip(report.refused, other.refused))),
    )


def totals(report: Report) -> Tuple[int, ...]:
    """All numbers of a report but the largest, which is no total."""
    written = report.blocks_written, report.bytes_written
    return report.accepted, *written, report.blocks_skipped, *report.refused


def is_passing(report: Report) -> bool:
    """02, CR 13: whether "a total would pass 64 bits"."""
    return any(total > LARGEST_TOTAL for total in totals(report))


def add(report: Report, other: Report) -> Answer:
    """02, CR 13: "61 exactly when a total would pass 64 bits, in counting an image or adding
    reports, the reports then unchanged."."""
    both = sums(report, other)
    return Answer(61, report) if is_passing(both) else Answer(0, both)


def count(report: Report, image: bytes, partition_length: int) -> Answer:
    """02, CR 13: "Totals equal the sums over the list.", so an image adds what it is alone.  A
    refused one is counted under its number, which is no refusal of the counting."""
    return add(report, of_image(image, partition_length))


def text(report: Report) -> str:
    """02, CR 13: "a line each, `accepted A`, `blocks B`, `bytes Y`, `skipped S`, `largest L`,
    then by number `refused N C` where C is not 0"."""
    lines = [
        f"accepted {report.accepted}",
        f"blocks {report.blocks_written}",
        f"bytes {report.bytes_written}",
        f"skipped {report.blocks_skipped}",
        f"largest {report.largest}",
    ]
    lines += [f"refused {n} {images}" for n, images in zip(REFUSALS, report.refused) if images != 0]
    return "".join(line + "\n" for line in lines)


def folder_text(files: Iterable[bytes]) -> str:
    """What the program prints for `1.img`, `2.img` and on, up to the first that is missing.  02,
    CR 13: it "judges each for 1,048,576 bytes, ends at the first that is missing or over 65,536
    bytes".  No folder has so many that a total would pass 64 bits."""
    report = EMPTY
    for image in files:
        if len(image) > LONGEST_IMAGE:
            break
        report = count(report, image, PARTITION_LENGTH).report
    return text(report)


def numbered_files() -> Iterator[bytes]:
    """What `1.img`, `2.img` and on hold, up to the first that is missing or cannot be opened; of a
    longer one than is judged no more than that shows.  A folder of such a name holds no bytes."""
    for number in itertools.count(1):
        try:
            with open(f"{number}.img", "rb") as file:
                yield file.read(LONGEST_IMAGE + 1)
        except IsADirectoryError:
            yield b""
        except OSError:
            return


if __name__ == "__main__":
    sys.stdout.write(folder_text(numbered_files()))
