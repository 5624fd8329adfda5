"""Makes the inputs and the expected output of the gate's program.

    python3 tests/reference/vectors.py OUTDIR           write OUTDIR/data/*.bin and OUTDIR/stdout
    python3 tests/reference/vectors.py --check DIR      compare DIR with what would be written
    ... --groups crc,boot                               only these groups

The same bytes come out on every run: all choices come from a fixed seed.

FORMAT

Each group is one file, data/GROUP.bin, of at most 262,144 bytes: its cases,
one directly after the other, up to the end of the file.  All numbers are
unsigned, low byte first; u8, u32 and u64 have 1, 4 and 8 bytes.  Nothing is
aligned.  The program takes the groups in the order of GROUPS below and prints
for each case (for each block of them in `slotsum`, `compare` and `join`) one line:

    GROUP INDEX VALUE VALUE ...

INDEX counts the group's lines from 0.  All numbers are plain decimals without
leading zeros, one space stands between neighbours, a newline ends each line.

crc      case:  kind u32, start u32, n u64, word u32, len u32, len bytes
                (len at most 4,096)
         kind 0 (n and word are 0): the bytes go in from the state `start`.
                values: STATE after them, CHECKSUM of the bytes alone
         kind 1 (word and len are 0): n zero bytes go in, n at most 2^48.
                values: STATE
         kind 2 (len is 0): the word's 4 bytes, low byte first, go in n times,
                n at most 2^46.
                values: STATE
         A state is the register before the final inversion; a checksum begins
         at the state 4294967295 and is inverted at the end.

fields   case:  at u64, value u64, len u32, len bytes (len at most 20)
         values: the 2-, the 4- and the 8-byte number read at `at`, bytes past
                the end counting as 0; then the checksums of the bytes after
                the low 2, the low 4 and all 8 bytes of `value` were written at
                `at`, each into the bytes as given.  A write that does not fit
                whole changes nothing.

slots    case:  operation u8, argument u8, record of 22 u8; 24 bytes in all
         operation: 0 fresh (argument: number of slots; a refusal leaves the record),
                1 start, 2 set active (argument: slot), 3 modified (argument:
                slot), 4 confirm, 5 corrupted (argument: slot), 6 startable,
                the lamp's count; the argument of 1, 4 and 6 is 0.
         record: used, unbootable, successful, corrupted (0 or 1 each) and tries,
                for a, b, c and d in turn; then the current slot (0 for a); then
                the count of startable slots.
         values: NUMBER of the refusal or 0; KIND 0 done, 1 boots, 2 recovery,
                3 refused; the started SLOT, 0 unless it boots; the 22 values
                of the record after.  Of 6: NUMBER; 0; the COUNT, 0 when refused;
                the record, which stays.

slotsum  case:  record of 22 u8 as in `slots`.  One line for each block of 64
                records, the last block being shorter when they do not come out
                even.
         values: CHECKSUM of the values, a byte each, for each record of the block
                in turn, for each operation 0 to 6 in turn, for each argument 0
                to 4 in turn: the 25 values as in `slots` of that operation with
                that argument on the record as it stands in the file.  Start,
                confirm and startable do not look at the argument.

An image is kept as patches over zeros:

image:   len u32 (at most 65,536), patches u32, then for each patch
                offset u32, count u32, count bytes.
         The image has len bytes: zeros, but for the bytes of each patch from
         its offset on.  Patches lie inside the image and do not overlap.

boot     case:  image
         values: NUMBER of the refusal or 0; VERSION, 0 when refused; then for
                kernel, ramdisk, recovery, dtb and signature PRESENT POSITION
                SIZE: 1 and its place for a section of the version, empty or
                not; 0 0 0 for all others and when refused; then RETIRED, 1 if
                the image has a second section that is not empty, which takes
                its room; 0 if not and when refused.

launch   case:  release u32, kernel u32 (0 plain, 1 generic; any other number is none), image
         values: as in `boot`, for the boards of that launch release with that kernel; 41, 42
                and 43 are among the refusals.

start    case:  record of 22 u8 as in `slots`, but a flag may be any number; then u32 each the
                length of image a, of b, of c, of d, of misc, of the loader's line, and of the
                space (at most 8,192); then the bytes of these but for the space, one directly
                after the other, as they are.
         The space has byte i being (11 + 5 * i) % 256 at first.
         values: NUMBER of the refusal or 0; KIND as in `slots`; the started SLOT and the line's
                LENGTH, 0 unless it boots; the CHECKSUM of these: the 17 values of `boot` after
                NUMBER for the image that is started, 8 bytes each, low byte first, all 0 unless
                it boots; the 22 bytes of the record after; every byte of the space after.  A
                record with a flag that is neither 0 nor 1 gives 31 and stays.

sparse   case:  partition length u64, image
         values: NUMBER of the refusal or 0; its PLACE, or 0; blocks WRITTEN,
                DON'T CARE and UNKNOWN, all 0 when refused.

store    case:  size u32 (of the whole case), length u32 (at most 4,096), seed u32
                (at most 255), steps u32, each step; then the images (of at most
                8,192 bytes each).
         step:  form u32, image u32, limit u64, offset u32, count u32, count bytes
         The partition has `length` bytes, byte i being (seed + 7 * i) % 256 at
                first.  Each step stores the image that stands at offset `image`
                of the case: by the plain store where form is 0, by the cut form
                with `limit` where it is 1.  Then its count bytes, a torn block,
                go into the partition at `offset`: they lie in the next block to
                be stored, and count is 0 where there is none.  The steps are
                those of some runs of a list of images that are cut, and of one
                full run at last.
         values: for each step NUMBER, PLACE and the three counts as in `sparse`
                (form 0), or NUMBER of the cut form's refusal or 0, its PLACE,
                or 0, and the COUNT of blocks that it stored, 0 when refused
                (form 1); then the CHECKSUM of the partition after the torn block.

passes   case:  size, length, seed, steps as in `store`; each step; then some bytes.
         step:  form u16, lent u16, at u16, count u16; where form is 2: form u16, 0
                u16, image length u64, partition length u64
         A step of form 2 begins a pass, which is told the two lengths, and gives the
                partition its first bytes again.  Other steps are calls of that pass,
                in the form 3 a piece for the judging pass, 4 its finishing, 5 a
                piece for the storing pass, 6 its finishing.  The piece is the count
                bytes at offset `at` of the case; the storing pass is lent the first
                `lent` bytes of the partition.  What a form lacks is 0.
         values: for each step but those of form 2 NUMBER of the refusal or 0; its
                PLACE, or 0; of a finishing the three counts as in `sparse`, all 0
                unless it accepts; then the CHECKSUM of the bytes that were lent.

write    case:  block size u32, length u32 (at most 69,632), flat bytes in the
                form of an image
         The output has `length` bytes, byte i being (11 + 5 * i) % 256 at first.
         values: NUMBER of the refusal or 0; the image's LENGTH, 0 when refused;
                the CHECKSUM of the whole output after.

compare  case:  first length u32, second length u32, numbers u32 (at most 96), the
                bytes of the first image, those of the second (at most 4,096 each).
                One line for each block of 16 cases, the last block being shorter
                when they do not come out even.
         The lent space has so many `numbers` of 32 bits, number i being 11 + 5 * i
                at first.
         values: CHECKSUM of these, 4 bytes each, low byte first, for each case of
                the block in turn: NUMBER of the refusal or 0; its PLACE, or 0; the
                IMAGE that it is of, 1, 2, or 0; how many RUNS, 0 when refused; then
                every number of the space after.

join     case:  first length u32, second length u32, room u32 (at most 8,192), the
                bytes of the first image, those of the second (at most 4,096 each).
                One line for each block of 32 cases, the last block being shorter
                when they do not come out even.
         The output has `room` bytes, byte i being (7 + 3 * i) % 256 at first.  Where
                the answer is an image's length, the images are joined once more,
                into an output that has one byte less than the image, and such bytes
                at first.
         values: CHECKSUM of these for each case of the block in turn, and in it for
                each joining: four numbers, 4 bytes each, low byte first, which are
                NUMBER of the refusal or 0; its PLACE, or 0; the IMAGE that it is of,
                1, 2, or 0; the joined image's LENGTH, 0 when refused; then every
                byte of the output after.

report   case:  kind u32, report of 16 u64; where kind is 0 partition length u64 and an
                image, which is counted; where it is 1 another report of 16 u64,
                which is added.
         report: images accepted, blocks written, bytes written, blocks skipped, the
                largest; then how many got each refusal number, 1 to 11.
         values: NUMBER of the refusal, 61, or 0, also for a refused image, which is
                counted; the CHECKSUM of the report after, 8 bytes each, low byte
                first.
"""

import argparse
import os
import random
import sys
from typing import Callable, Dict, List, Sequence, Tuple

import cases_boot
import cases_compare
import cases_crc
import cases_fields
import cases_join
import cases_launch
import cases_passes
import cases_report
import cases_slots
import cases_sparse
import cases_start
import cases_store
import cases_write
from cases_common import Group

SEED = 20240901
LARGEST_FILE = 262144

GROUPS: Tuple[Tuple[str, Callable[[random.Random], Group]], ...] = (
    ("crc", cases_crc.group),
    ("fields", cases_fields.group),
    ("slots", cases_slots.group),
    ("slotsum", cases_slots.sum_group),
    ("boot", cases_boot.group),
    ("launch", cases_launch.group),
    ("start", cases_start.group),
    ("sparse", cases_sparse.group),
    ("store", cases_store.group),
    ("passes", cases_passes.group),
    ("write", cases_write.group),
    ("compare", cases_compare.group),
    ("join", cases_join.group),
    ("report", cases_report.group),
)


def line(name: str, index: int, values: Sequence[int]) -> str:
    """One line of the expected output."""
    return " ".join([name, str(index)] + [str(value) for value in values]) + "\n"


def files(names: Sequence[str]) -> Dict[str, bytes]:
    """Every file to write, by its path, for the groups of these names."""
    made: Dict[str, bytes] = {}
    output: List[str] = []
    for name, make in GROUPS:
        if name in names:
            group = make(random.Random(SEED))
            assert len(group.data) <= LARGEST_FILE, name
            made[os.path.join("data", name + ".bin")] = group.data
            output += [line(name, i, values) for i, values in enumerate(group.lines)]
    made["stdout"] = "".join(output).encode("ascii")
    return made


def write(made: Dict[str, bytes], folder: str) -> None:
    """Writes the files into a folder."""
    os.makedirs(os.path.join(folder, "data"), exist_ok=True)
    for path, data in made.items():
        with open(os.path.join(folder, path), "wb") as file:
            file.write(data)


def faults(made: Dict[str, bytes], folder: str) -> List[str]:
    """The files of a folder that differ, are missing, or are extra in its data."""
    found = []
    for path, data in made.items():
        full = os.path.join(folder, path)
        if not os.path.isfile(full):
            found.append(f"missing: {path}")
            continue
        with open(full, "rb") as file:
            if file.read() != data:
                found.append(f"differs: {path}")
    data_folder = os.path.join(folder, "data")
    present = sorted(os.listdir(data_folder)) if os.path.isdir(data_folder) else []
    paths = [os.path.join("data", name) for name in present]
    return found + [f"extra: {path}" for path in paths if path not in made]


def group_names(text: str) -> List[str]:
    """The names in a list with commas; each must be a group."""
    names = text.split(",")
    known = [name for name, _ in GROUPS]
    for name in names:
        if name not in known:
            raise argparse.ArgumentTypeError(f"no group {name}; there are {', '.join(known)}")
    return names


def main() -> int:
    """Writes or checks; 1 when a file is not as it should be."""
    parser = argparse.ArgumentParser(description="Makes or checks the gate's vectors.")
    parser.add_argument("folder")
    parser.add_argument("--check", action="store_true", help="compare and write nothing")
    parser.add_argument("--groups", type=group_names, default=[name for name, _ in GROUPS])
    options = parser.parse_args()
    made = files(options.groups)
    if not options.check:
        write(made, options.folder)
        return 0
    found = faults(made, options.folder)
    for fault in found:
        print(fault)
    return 1 if found else 0


if __name__ == "__main__":
    sys.exit(main())
