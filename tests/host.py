"""Runs the host tool on the checked examples, on bad usage and on faults.

    python3 tests/host.py TOOL...

Each case is a command line, its exit status, and what it prints: on standard
output, or for a refusal the first line on standard error.  Then come the files
that the commands leave, and the checks below, each in a folder of its own.  A
tool that was not built is left out with a line, and so is a check that this
machine cannot make.  Prints one line a tool, `host: N cases and M checks agree`.
"""

import contextlib
import fcntl
import itertools
import json
import os
import pty
import random
import re
import select
import shlex
import shutil
import signal
import stat
import struct
import subprocess
import sys
import tempfile
import termios
import xml.etree.ElementTree
from typing import Any, Callable, Dict, Iterator, List, NamedTuple, Optional, Sequence, Tuple

HERE = os.path.dirname(os.path.abspath(__file__))
ROOT = os.path.dirname(HERE)
sys.path[:0] = [os.path.join(HERE, "reference"), os.path.join(ROOT, "host")]

import boot
import build
import cases_boot
import cases_compare
import cases_launch
import cases_slots
import cases_store
import compare
import demo
import join
import launch
import passes
import report
import slots
import sparse
import starter
import store

LONGEST_WAIT = demo.LONGEST_WAIT


class Case(NamedTuple):
    """Words after the tool's name, the exit status, and the text printed."""

    words: str
    status: int
    text: str


P9_IMAGE = build.sparse_image(8, [build.raw(b"\xFF" * 4 + bytes(4), 8), build.fill(bytes(4), 1)])
PLANS = (
    build.raw(b"abcdefgh", 4), build.fill(b"\x01\x02\x03\x04", 3), build.skip(2),
    build.unknown(7, 1, b"more"), build.raw(b"", 4), build.fill(bytes(4), 1), build.skip(1),
)
ALL_KINDS = build.sparse_image(4, PLANS)
HOLLOW = build.sparse_image(4, [build.fill(b"\xFF" * 4, 1), build.unknown(0xCAC0, 0), build.skip(2)])
STRANGE = build.sparse_image(4, [
    build.skip(1), build.unknown(0xFFFF, 0, b"data"), build.raw(b"abcd", 4), build.unknown(0xCAC4, 3),
    build.fill(b"efgh", 1), build.unknown(0, 2, b"moredata"),
])

# Two images with blocks of every kind of change, of one and of several blocks, over chunks that end elsewhere.
LAST = build.sparse_image(4, [
    build.raw(b"abcdabceaaaa", 4), build.fill(b"aaaa", 3), build.skip(2), build.unknown(7, 1, b"more"),
    build.fill(b"zzzz", 2), build.skip(3), build.raw(b"12345678", 4),
])
NEXT = build.sparse_image(4, [
    build.raw(b"abcdabcfaaaa", 4), build.raw(b"aaaaaaaabbbb", 4), build.skip(1), build.raw(b"wxyz", 4),
    build.fill(b"qqqq", 1), build.skip(2), build.fill(bytes(4), 2), build.skip(3),
])

JOINED = build.sparse_image(4, [
    build.fill(b"abcd", 1), build.fill(b"abcf", 1), build.fill(b"aaaa", 3), build.fill(b"bbbb", 1), build.skip(1),
    build.fill(b"wxyz", 1), build.fill(b"qqqq", 1), build.fill(b"zzzz", 2), build.fill(bytes(4), 2), build.skip(1),
    build.fill(b"1234", 1), build.fill(b"5678", 1),
])

# Two images whose joining has raw blocks of one and of both, fill of raw and of both, and kept blocks.
UNDER = build.sparse_image(8, [
    build.raw(b"abcdefghabcdabcd12345678", 8), build.fill(b"wxyz", 2), build.skip(2), build.unknown(7, 1),
    build.skip(1), build.raw(b"hgfedcba", 8),
])
OVER = build.sparse_image(8, [
    build.skip(2), build.raw(b"87654321wxyzwxyz", 8), build.skip(1), build.raw(bytes(8), 8), build.fill(bytes(4), 1),
    build.skip(1), build.unknown(8, 2, b"more"),
], checksum=0)
UNDER_OVER = build.sparse_image(8, [
    build.raw(b"abcdefgh", 8), build.fill(b"abcd", 1), build.raw(b"87654321", 8), build.fill(b"wxyz", 2),
    build.fill(bytes(4), 2), build.skip(2), build.raw(b"hgfedcba", 8),
])
OVER_UNDER = build.sparse_image(8, [
    build.raw(b"abcdefgh", 8), build.fill(b"abcd", 1), build.raw(b"12345678", 8), build.fill(b"wxyz", 2),
    build.fill(bytes(4), 2), build.skip(2), build.raw(b"hgfedcba", 8),
])

# As many bytes as can be joined, and a block more.
MOST = build.sparse_image(65536, [build.fill(b"most", 32767), build.skip(1)])
TOO_MUCH = build.sparse_image(65536, [build.fill(b"most", 32767), build.skip(2)])

# Where a slot of a record has its tries.
TRIES = 4


def record_of(places: str, current: str = "a", startable: Optional[int] = None) -> bytes:
    """A slot record: used, unbootable, successful, corrupted and tries of each place as five digits, which are zeros
    for places that are left out; then the current slot; then the count of startable slots, by the flags where none is
    given."""
    digits = places.replace(" ", "").ljust(20, "0")
    if startable is None:
        startable = sum(digits[i:i + 2] + digits[i + 3] == "100" for i in range(0, 20, 5))
    return bytes([int(digit) for digit in digits] + ["abcd".index(current), startable])


FILES: Dict[str, bytes] = {
    "p2": build.two_chunks(),
    "p6": build.two_chunks() + b"\0",
    "p7": build.two_chunks(0xCAC5),
    "p8": build.two_chunks(checksum=0),
    "wrong": build.two_chunks(checksum=1),
    "kinds": ALL_KINDS,
    "hollow": HOLLOW,
    "strange": STRANGE,
    "unsummed": build.sparse_image(4, PLANS, checksum=0),
    "last": LAST,
    "next": NEXT,
    "under": UNDER,
    "over": OVER,
    "most": MOST,
    "too-much": TOO_MUCH,
    "raws": build.sparse_image(8, [build.raw(b"abcdabcd" * 3, 8)]),
    "fills": build.sparse_image(8, [build.fill(b"abcd", 3)]),
    "zeros": build.sparse_image(8, [build.fill(bytes(4), 2), build.raw(bytes(8), 8)]),
    "gaps": build.sparse_image(8, [build.skip(1), build.unknown(5, 2, bytes(8))]),
    "none": b"",
    "none2": b"",
    "nothing": build.sparse_image(4096, []),
    "part": b"abcdefghijkl",
    "part7": b"abcdefghijkl",
    "cut": b"abcdefghijkl",
    "long": b"long" * 12,
    "flat": b"\xFF" * 4 + bytes(12),
    "sum0": b"\x9D\x0A\xD9\x6D",
    "boot": build.boot_image(3, 12289, kernel=4097, ramdisk=1),
    "p11": build.boot_image(2, 6145, kernel=2048, ramdisk=1, dtb=1),
    "archived": build.boot_image(2, 8193, kernel=2048, ramdisk=1, second=1, dtb=1),
    "archived-cut": build.boot_image(0, 6145, kernel=2048, ramdisk=1, second=2),
    "boot0": build.boot_image(0, 4097, kernel=2048, ramdisk=1, os_version=2**32 - 1),
    "boot1": build.boot_image(1, 4097, kernel=2048, ramdisk=1),
    "boot4": build.boot_image(4, 8193, kernel=4096, ramdisk=1),
    "boot4-os": build.boot_image(4, 8193, kernel=4096, ramdisk=1, os_version=0x18000169),
    "lined": build.boot_image(3, 12289, kernel=4097, ramdisk=1, cmdline=b"root=/dev/sda4 ro\0?"),
    "lined-old": build.boot_image(2, 8193, kernel=2048, ramdisk=1, second=1, dtb=1, cmdline=b"root=/dev/sdb4\0?",
                                  extra_cmdline=b" ro\0?"),
    "misc": bytes(2048),
    "misc-asking": b"boot-recovery".ljust(32, b"\0"),
    "misc-short": bytes(31),
    "odd": record_of("12000"),
    "ends": record_of("10000 10100"),
    "turns": record_of("10001 10100"),
    "given-up": record_of("10000 10002"),
    "spent": record_of("10007"),
    "miscounted": record_of("10003 10013", startable=2),
    "old21": record_of("10102 11000 10013 10003")[:21],
    "old17": bytes([1, 0, 1, 2] + [1, 1, 0, 0] + [0, 0, 0, 3] * 2 + [0]),
}

LISTED = """block 4 total 10 chunks 7 checksum {}
first block kind        blocks       from byte     before byte fill word
          0 raw              2               0               8
          2 fill             3               8              20 0x04030201
          5 skip             2              20              28
          7 unknown          1              28              32
          8 raw              0              32              32
          8 fill             1              32              36 0x00000000
          9 skip             1              36              40
blocks raw 2 fill 4 skip 3 unknown 1
ok written 6 skipped 3 unknown 1"""

LISTED_P7 = """block 4 total 3 chunks 2 checksum 0xffffffff
first block kind        blocks       from byte     before byte fill word
          0 fill             1               0               4 0xffffffff
          1 unknown          2               4              12
blocks raw 0 fill 1 skip 0 unknown 2
ok written 1 skipped 0 unknown 2"""

LISTED_HOLLOW = """block 4 total 3 chunks 3 checksum 0xffffffff
first block kind        blocks       from byte     before byte fill word
          0 fill             1               0               4 0xffffffff
          1 unknown          0               4               4
          1 skip             2               4              12
blocks raw 0 fill 1 skip 2 unknown 0
ok written 1 skipped 2 unknown 0"""

DRAWN = """block 4 total 10 cell 1
         0  ##===..?=.
a cell is 1 block:  # raw  = fill  . kept  ? unknown, kept too
blocks raw 2 fill 4 kept 3 unknown 1"""

CHANGED_NOTHING = """block 4 total 3 runs 2
first block kind            blocks           bytes
          0 equal                1               4
          1 neither              2               8
      total neither              2               8
      total only first           0               0
      total only second          0               0
      total equal                1               4
      total different            0               0"""

CHANGED = """block 4 total 16 runs 10
first block kind            blocks           bytes
          0 equal                1               4
          1 different            1               4
          2 equal                3              12
          5 different            1               4
          6 neither              1               4
          7 only second          2               8
          9 only first           2               8
         11 only second          2               8
         13 neither              1               4
         14 only first           2               8
      total neither              2               8
      total only first           4              16
      total only second          4              16
      total equal                4              16
      total different            2               8"""

CHANGED_MAP = """block 4 total 16 runs 10 cell 1
     block  first                             second
         0  =#===#...++...++                  =#===#.++..++...
a cell is 1 block:  . not written  + in this image alone  = in both, equal  # in both, different
            kind            blocks           bytes
      total neither              2               8
      total only first           4              16
      total only second          4              16
      total equal                4              16
      total different            2               8"""


def changed_alike(kind: str, block: int, total: int) -> str:
    """What is said of images of which all blocks are of one kind; none where there are no blocks."""
    kinds = ("neither", "only first", "only second", "equal", "different")
    lines = [f"block {block} total {total} runs {min(total, 1)}", "first block kind            blocks           bytes"]
    lines += [f"          0 {kind:11} {total:10} {total * block:15}"] * min(total, 1)
    for one in kinds:
        blocks = total if one == kind else 0
        lines.append(f"      total {one:11} {blocks:10} {blocks * block:15}")
    return "\n".join(lines)


# What is said of a boot image and the launch releases: of every pair that does not take it, why.
LAUNCH_MEANINGS = {
    41: "the plain kernel goes with releases 8 to 13, the generic one with 11 to 13",
    42: "header version not allowed for the release with that kernel",
    43: "os version not 0, as it must be for the release with that kernel",
}
NO_PAIRS = "8 generic, 9 generic, 10 generic"


def taken_by(version: int, takers: str, others: str, no_os: str = "") -> str:
    """What is said of an image of a version: the pairs that take it, those that do not take its version, and the one
    that does not take its os version, each list with commas."""
    lines = [f"version {version}", *takers.split(", ")]
    for number, pairs in ((41, NO_PAIRS), (42, others), (43, no_os)):
        lines += [f"refused {number} for {pairs}: {LAUNCH_MEANINGS[number]}"] * bool(pairs)
    return "\n".join(lines)


def reported(accepted: int, blocks: int, written: int, skipped: int, largest: int, *refused: str) -> str:
    """What a report says: its five numbers, and how many images got each refusal number, as `6 1`."""
    lines = [f"accepted {accepted}", f"blocks {blocks}", f"bytes {written}", f"skipped {skipped}", f"largest {largest}"]
    return "\n".join(lines + [f"refused {one}" for one in refused])


# What goes before the options of `start`, and what it prints for the files above.
BOTH = "--image a=lined --image b=lined-old"
ENDS = "androidboot.slot_suffix=_{}"
SKIPS = ENDS + " skip_initramfs"

DRY = """ok written 6 skipped 3 unknown 1
kept from 20 before 32
kept from 36 before 48
dry run: nothing is stored"""

CASES = (
    Case("judge p2 12", 0, "ok written 1 skipped 2 unknown 0"),
    Case("judge p2 11", 1, "refused 6 at 0"),
    Case("judge p6 12", 1, "refused 10 at 56"),
    Case("judge p7 12", 0, "ok written 1 skipped 0 unknown 2"),
    Case("judge p7 11", 1, "refused 6 at 0"),
    Case("judge p8 12", 0, "ok written 1 skipped 2 unknown 0"),
    Case("judge hollow 12", 0, "ok written 1 skipped 2 unknown 0"),
    Case("judge strange 32", 0, "ok written 2 skipped 1 unknown 5"),
    Case("judge wrong 12", 1, "refused 11 at 24"),
    Case("judge none 0", 1, "refused 1 at 0"),
    Case("judge p2 18446744073709551616", 2, ""),
    Case("judge p2 -1", 2, ""),
    Case("judge -- p2 12", 0, "ok written 1 skipped 2 unknown 0"),
    Case("judge missing 12", 3, ""),
    Case("judge p2", 2, ""),
    Case("judge p2 12 --limit 1", 2, ""),
    Case("judge p2 12 --strange", 2, ""),
    Case("judge - 12", 2, ""),
    Case("judge - 12 --length", 2, ""),
    Case("judge - 12 --length -1", 2, ""),
    Case("judge - --length 56", 2, ""),
    Case("judge p2 12 --length 56", 2, ""),
    Case("judge ./- 12 --length 56", 2, ""),
    Case("store p2 part", 0, "ok written 1 skipped 2 unknown 0"),
    Case("store p6 part", 1, "refused 10 at 56"),
    Case("store p7 part7", 0, "ok written 1 skipped 0 unknown 2"),
    Case("store wrong cut", 1, "refused 11 at 24"),
    Case("store wrong cut --limit 1", 1, "refused 11 at 24"),
    Case("store p2 cut --limit 0", 0, "ok stored 0"),
    Case("store --limit 0 p2 cut", 0, "ok stored 0"),
    Case("store p2 cut --limit", 2, ""),
    Case("store p2 p2", 2, ""),
    Case("store none none2", 1, "refused 1 at 0"),
    Case("store nothing none", 0, "ok written 0 skipped 0 unknown 0"),
    Case("store p2 cut --dry-run", 0,
         "ok written 1 skipped 2 unknown 0\nkept from 4 before 12\ndry run: nothing is stored"),
    Case("store kinds long --dry-run", 0, DRY),
    Case("store kinds long --dry-run --limit 3", 0,
         "ok stored 3\nkept from 12 before 48\ndry run: nothing is stored"),
    Case("store kinds cut --dry-run", 1, "refused 6 at 0"),
    Case("store - cut", 2, ""),
    Case("store p2 cut --length 56", 2, ""),
    Case("store - cut --length 56 --limit 1", 2, ""),
    Case("store - cut --length 56 --dry-run", 2, ""),
    Case("store - missing --length 56", 3, ""),
    Case("list p2 --length 56", 2, ""),
    Case("list -", 3, ""),
    Case("list kinds", 0, LISTED.format(f"0x{sparse.read_header(ALL_KINDS).checksum:08x}")),
    Case("list unsummed", 0, LISTED.format("none")),
    Case("list p6", 1, "refused 10 at 56"),
    Case("list p7", 0, LISTED_P7),
    Case("list hollow", 0, LISTED_HOLLOW),
    Case("list wrong", 1, "refused 11 at 24"),
    Case("map kinds", 0, DRAWN),
    Case("map p6 --svg refused", 1, "refused 10 at 56"),
    Case("map p2 --svg p2", 2, ""),
    Case("map p2 --svg", 2, ""),
    Case("map p2 --svg --help", 2, ""),
    Case("diff p2 p2", 0, CHANGED_NOTHING),
    Case("diff p2 p7", 0, CHANGED_NOTHING),
    Case("diff p7 p8", 0, CHANGED_NOTHING),
    Case("diff last next", 0, CHANGED),
    Case("diff last next --map", 0, CHANGED_MAP),
    Case("diff raws fills", 0, changed_alike("equal", 8, 3)),
    Case("diff fills raws", 0, changed_alike("equal", 8, 3)),
    Case("diff raws raws", 0, changed_alike("equal", 8, 3)),
    Case("diff zeros fills", 0, changed_alike("different", 8, 3)),
    Case("diff zeros gaps", 0, changed_alike("only first", 8, 3)),
    Case("diff gaps zeros", 0, changed_alike("only second", 8, 3)),
    Case("diff gaps gaps", 0, changed_alike("neither", 8, 3)),
    Case("diff nothing nothing", 0, changed_alike("neither", 4096, 0)),
    Case("diff p6 p2", 1, "refused 10 at 56"),
    Case("diff p2 p6", 1, "refused 10 at 56"),
    Case("diff wrong p6", 1, "refused 11 at 24"),
    Case("diff p6 wrong", 1, "refused 10 at 56"),
    Case("diff kinds p6", 1, "refused 10 at 56"),
    Case("diff p6 kinds --svg refused", 1, "refused 10 at 56"),
    Case("diff p2 none", 1, "refused 1 at 0"),
    Case("diff p2 kinds", 1, "refused 17 at 0"),
    Case("diff p2 raws --map", 1, "refused 17 at 0"),
    Case("diff p2 nothing", 1, "refused 17 at 0"),
    Case("diff p2 p7 --svg p2", 2, ""),
    Case("diff p2 p7 --svg p7", 2, ""),
    Case("diff p2 p7 --svg", 2, ""),
    Case("diff p2 p7 --limit 1", 2, ""),
    Case("diff p2 - --length 56", 2, ""),
    Case("diff p2", 2, ""),
    Case("diff p2 p2 p2", 2, ""),
    Case("diff", 2, ""),
    Case("diff p2 missing", 3, ""),
    Case("diff missing p2", 3, ""),
    Case("diff - p2", 3, ""),
    Case("map p2 --map", 2, ""),
    Case("join last next joined", 0, "ok bytes 212 block 4 total 16 chunks 12"),
    Case("join under over joined1", 0, "ok bytes 148 block 8 total 10 chunks 7"),
    Case("join over under joined2", 0, "ok bytes 148 block 8 total 10 chunks 7"),
    Case("join p7 p8 joined3", 0, "ok bytes 56 block 4 total 3 chunks 2"),
    Case("join gaps gaps joined4", 0, "ok bytes 40 block 8 total 3 chunks 1"),
    Case("join nothing nothing joined5", 0, "ok bytes 28 block 4096 total 0 chunks 0"),
    Case("join most most joined6", 0, "ok bytes 56 block 65536 total 32768 chunks 2"),
    Case("join -- raws fills joined7", 0, "ok bytes 44 block 8 total 3 chunks 1"),
    Case("join p6 p2 refused", 1, "refused 10 at 56"),
    Case("join p2 p6 refused", 1, "refused 10 at 56"),
    Case("join wrong p6 refused", 1, "refused 11 at 24"),
    Case("join p6 wrong refused", 1, "refused 10 at 56"),
    Case("join kinds p6 long", 1, "refused 10 at 56"),
    Case("join p6 kinds long", 1, "refused 10 at 56"),
    Case("join p2 none refused", 1, "refused 1 at 0"),
    Case("join p2 kinds long", 1, "refused 17 at 0"),
    Case("join p2 raws refused", 1, "refused 17 at 0"),
    Case("join too-much too-much long", 1, "refused 17 at 0"),
    Case("join most too-much refused", 1, "refused 17 at 0"),
    Case("join too-much p6 refused", 1, "refused 10 at 56"),
    Case("join p2 p7 p2", 2, ""),
    Case("join p2 p7 p7", 2, ""),
    Case("join p2 p2 p2", 2, ""),
    Case("join p2 p7 refused --map", 2, ""),
    Case("join p2 p7 refused --limit 1", 2, ""),
    Case("join p2 - refused --length 56", 2, ""),
    Case("join p2 p7", 2, ""),
    Case("join p2 p7 refused refused", 2, ""),
    Case("join", 2, ""),
    Case("join p2 missing refused", 3, ""),
    Case("join missing p2 refused", 3, ""),
    Case("join - p2 refused", 3, ""),
    Case("join p2 p7 missing/image", 3, ""),
    Case("report p2", 0, reported(1, 1, 4, 2, 12)),
    Case("report p7", 0, reported(1, 1, 4, 2, 12)),
    Case("report p8", 0, reported(1, 1, 4, 2, 12)),
    Case("report nothing", 0, reported(1, 0, 0, 0, 0)),
    Case("report none", 0, reported(0, 0, 0, 0, 0, "1 1")),
    Case("report flat misc p6 wrong", 0, reported(0, 0, 0, 0, 0, "1 1", "2 1", "10 1", "11 1")),
    Case("report p2 p2 p2 p2 p2", 0, reported(5, 5, 20, 10, 12)),
    Case("report p2 raws kinds", 0, reported(3, 10, 52, 6, 40)),
    Case("report kinds raws p2", 0, reported(3, 10, 52, 6, 40)),
    Case("report p6 p2 p6 kinds wrong none p6", 0, reported(2, 7, 28, 6, 40, "1 1", "10 3", "11 1")),
    Case("report most too-much", 0, reported(2, 65534, 4294836224, 3, 2147549184)),
    Case("report p2 p7 kinds --partition-length 12", 0, reported(2, 2, 8, 4, 12, "6 1")),
    Case("report p2 --partition-length 11 p7 kinds", 0, reported(0, 0, 0, 0, 0, "6 3")),
    Case("report --partition-length 0 nothing p2 none p6", 0, reported(1, 0, 0, 0, 0, "1 1", "6 2")),
    Case("report --partition-length 18446744073709551615 -- p2 strange", 0, reported(2, 3, 12, 8, 32)),
    Case("report --partition-length 1 p2 --partition-length 12", 0, reported(1, 1, 4, 2, 12)),
    Case("report -- p2 p6", 0, reported(1, 1, 4, 2, 12, "10 1")),
    Case("report", 2, ""),
    Case("report --", 2, ""),
    Case("report --partition-length 12", 2, ""),
    Case("report p2 --partition-length", 2, ""),
    Case("report p2 --partition-length -1", 2, ""),
    Case("report p2 --partition-length 12x", 2, ""),
    Case("report p2 --partition-length ''", 2, ""),
    Case("report p2 --partition-length 18446744073709551616", 2, ""),
    Case("report p2 --partition-length p7", 2, ""),
    Case("report p2 --partition", 2, ""),
    Case("report p2 --length 56", 2, ""),
    Case("report p2 --limit 1", 2, ""),
    Case("report p2 --map", 2, ""),
    Case("report p2 --svg refused", 2, ""),
    Case("report p2 --dry-run", 2, ""),
    Case("report .", 2, ""),
    Case("report p6 p2 /dev/null", 2, ""),
    Case("report missing", 3, ""),
    Case("report p6 p2 missing p7", 3, ""),
    Case("report -", 3, ""),
    Case("judge p2 12 --partition-length 12", 2, ""),
    Case("list p2 --partition-length 12", 2, ""),
    Case("judge p2 12 p2 12 p2 12", 2, ""),
    Case("list p2 p2 p2 p2 p2", 2, ""),
    Case("join p2 p7 refused refused refused refused", 2, ""),
    Case("slots record start a b c d", 2, ""),
    Case("write flat 8 image", 0, "ok bytes 64"),
    Case("write none 4096 small", 0, "ok bytes 28"),
    Case("write flat 0 refused", 1, "refused 5 at 0"),
    Case("write flat 12 refused", 1, "refused 13 at 0"),
    Case("write flat 8 missing/image", 3, ""),
    Case("write flat 8 flat", 2, ""),
    Case("sections boot", 0, "version 3\nkernel 4096 4097\nramdisk 12288 1"),
    Case("sections p11", 0, "version 2\nkernel 2048 2048\nramdisk 4096 1\nrecovery 6144 0\ndtb 6144 1"),
    Case("sections archived", 0, "version 2\nkernel 2048 2048\nramdisk 4096 1\nrecovery 8192 0\ndtb 8192 1\n"
         "retired section present"),
    Case("sections archived-cut", 1, "refused 26 at 0"),
    Case("sections flat", 1, "refused 21 at 0"),
    Case("rules boot0", 0, taken_by(0, "8 plain", "9 plain, 10 plain, 11 plain, 11 generic, 12 plain, 12 generic,"
                                    " 13 plain, 13 generic")),
    Case("rules boot1", 0, taken_by(1, "9 plain", "8 plain, 10 plain, 11 plain, 11 generic, 12 plain, 12 generic,"
                                    " 13 plain, 13 generic")),
    Case("rules p11", 0, taken_by(2, "10 plain", "8 plain, 9 plain, 11 plain, 11 generic, 12 plain, 12 generic,"
                                  " 13 plain, 13 generic")),
    Case("rules archived", 0, taken_by(2, "10 plain", "8 plain, 9 plain, 11 plain, 11 generic, 12 plain, 12 generic,"
                                       " 13 plain, 13 generic")),
    Case("rules -- boot", 0, taken_by(3, "11 plain, 11 generic, 12 plain, 13 plain",
                                      "8 plain, 9 plain, 10 plain, 12 generic, 13 generic")),
    Case("rules boot4", 0, taken_by(4, "12 plain, 12 generic, 13 plain, 13 generic",
                                    "8 plain, 9 plain, 10 plain, 11 plain, 11 generic")),
    Case("rules boot4-os", 0, taken_by(4, "12 plain, 12 generic, 13 plain",
                                       "8 plain, 9 plain, 10 plain, 11 plain, 11 generic", "13 generic")),
    Case("rules archived-cut", 1, "refused 26 at 0"),
    Case("rules flat", 1, "refused 21 at 0"),
    Case("rules none", 1, "refused 21 at 0"),
    Case("rules boot0 8 plain", 0, "taken by 8 plain\nversion 0\nkernel 2048 2048\nramdisk 4096 1"),
    Case("rules boot1 9 plain", 0, "taken by 9 plain\nversion 1\nkernel 2048 2048\nramdisk 4096 1\nrecovery 6144 0"),
    Case("rules archived 10 plain", 0, "taken by 10 plain\nversion 2\nkernel 2048 2048\nramdisk 4096 1\n"
         "recovery 8192 0\ndtb 8192 1\nretired section present"),
    Case("rules boot 11 generic", 0, "taken by 11 generic\nversion 3\nkernel 4096 4097\nramdisk 12288 1"),
    Case("rules boot4 13 generic", 0,
         "taken by 13 generic\nversion 4\nkernel 4096 4096\nramdisk 8192 1\nsignature 12288 0"),
    Case("rules boot4-os 013 plain", 0,
         "taken by 13 plain\nversion 4\nkernel 4096 4096\nramdisk 8192 1\nsignature 12288 0"),
    Case("rules boot4-os 13 generic", 1, "refused 43 at 0"),
    Case("rules boot 12 generic", 1, "refused 42 at 0"),
    Case("rules boot0 9 plain", 1, "refused 42 at 0"),
    Case("rules boot 10 generic", 1, "refused 41 at 0"),
    Case("rules boot 7 plain", 1, "refused 41 at 0"),
    Case("rules boot 14 plain", 1, "refused 41 at 0"),
    Case("rules boot 268 plain", 1, "refused 41 at 0"),
    Case("rules boot 4294967295 generic", 1, "refused 41 at 0"),
    Case("rules flat 10 generic", 1, "refused 41 at 0"),
    Case("rules flat 10 plain", 1, "refused 21 at 0"),
    Case("rules archived-cut 13 generic", 1, "refused 26 at 0"),
    Case("rules", 2, ""),
    Case("rules boot 12", 2, ""),
    Case("rules boot plain", 2, ""),
    Case("rules boot plain 12", 2, ""),
    Case("rules boot 12 Plain", 2, ""),
    Case("rules boot 12 plainer", 2, ""),
    Case("rules boot 12 0", 2, ""),
    Case("rules boot twelve plain", 2, ""),
    Case("rules boot 12.0 plain", 2, ""),
    Case("rules boot 4294967296 plain", 2, ""),
    Case("rules boot 4294967308 plain", 2, ""),
    Case("rules boot -- -1 plain", 2, ""),
    Case("rules boot 12 plain generic", 2, ""),
    Case("rules boot --map", 2, ""),
    Case("rules - --length 12289", 2, ""),
    Case("rules missing 12", 2, ""),
    Case("rules missing 12 plain", 3, ""),
    Case("rules missing", 3, ""),
    Case("rules -", 3, ""),
    Case("slots record fresh 2", 0, "ok"),
    Case("slots record start", 0, "starts a"),
    Case("slots record show", 0, "current a startable 2\na tries 2\nb tries 3"),
    Case("slots record set-active b", 0, "ok"),
    Case("slots record confirm", 0, "ok"),
    Case("slots record modified b", 0, "ok"),
    Case("slots record modified c", 1, "refused 32 at 0"),
    Case("slots record fresh 5", 1, "refused 31 at 0"),
    Case("slots record fresh 257", 1, "refused 31 at 0"),
    Case("slots record show", 0, "current b startable 2\na tries 2\nb tries 3"),
    Case("slots record corrupted a", 0, "ok"),
    Case("slots record corrupted c", 1, "refused 32 at 0"),
    Case("slots record show", 0, "current b startable 1\na tries 2 corrupted\nb tries 3"),
    Case("slots record status", 0, "slot a: corrupted\nslot b: current, three tries\nslot c: not in use\n"
         "slot d: not in use\none of two slots in use is neither unbootable nor corrupted"),
    Case("slots record status a", 2, ""),
    Case("slots record modified", 2, ""),
    Case("slots record corrupted", 2, ""),
    Case("slots record corrupted 0", 2, ""),
    Case("slots record start b", 2, ""),
    Case("slots long fresh 2", 2, ""),
    Case("slots none2 fresh 1", 0, "ok"),
    Case("slots missing start", 3, ""),
    Case("slots missing status", 3, ""),
    Case("slots odd start", 1, "refused 31 at 0"),
    Case("slots odd show", 1, "refused 31 at 0"),
    Case("slots flat start", 1, "refused 31 at 0"),
    Case("slots ends start", 0, "starts b"),
    Case("slots miscounted start", 1, "refused 31 at 0"),
    Case("slots miscounted status", 1, "refused 31 at 0"),
    Case("slots old21 start", 1, "refused 31 at 0"),
    Case("slots old21 fresh 2", 2, ""),
    Case("slots old17 start", 1, "refused 31 at 0"),
    Case("slots old17 fresh 2", 2, ""),
    Case(f"start turns {BOTH} --misc misc --line quiet", 0, "quiet root=/dev/sda4 ro " + SKIPS.format("a")),
    Case(f"start turns {BOTH} --misc misc --line 'console=ttyS0,115200 quiet'", 0,
         "console=ttyS0,115200 quiet root=/dev/sdb4 ro " + SKIPS.format("b")),
    Case(f"start --line quiet turns --misc misc-asking {BOTH}", 0, "quiet root=/dev/sdb4 ro " + ENDS.format("b")),
    Case(f"start turns {BOTH} --misc misc --line ''", 0, " root=/dev/sdb4 ro " + SKIPS.format("b")),
    Case(f"start turns {BOTH} --misc misc --line -quiet", 0, "-quiet root=/dev/sdb4 ro " + SKIPS.format("b")),
    Case(f"start --misc misc --line quiet --image c=missing --image d=none {BOTH} -- turns", 0,
         "quiet root=/dev/sdb4 ro " + SKIPS.format("b")),
    Case("start turns --image a=boot4 --image b=boot1 --misc misc --line quiet", 0, "quiet  " + SKIPS.format("b")),
    Case("start turns --image a=lined --image b=lined --misc lined --line quiet", 0,
         "quiet root=/dev/sda4 ro " + SKIPS.format("b")),
    Case(f"start given-up {BOTH} --misc misc --line quiet", 0, ""),
    Case("start spent --image a=misc-short --misc misc --line quiet", 1, "refused 21 at 0"),
    Case("start spent --image a=archived-cut --misc misc --line quiet", 1, "refused 26 at 0"),
    Case("start spent --image a=archived-cut --misc misc-short --line quiet", 1, "refused 51 at 0"),
    Case("start spent --image a=archived-cut --misc none --line quiet", 1, "refused 51 at 0"),
    Case(f"start spent --image a=lined --misc misc --line {'x' * 4096}", 1, "refused 52 at 0"),
    Case("start odd --image a=missing --misc missing --line quiet", 1, "refused 31 at 0"),
    Case("start odd --misc misc-short --line quiet", 1, "refused 31 at 0"),
    Case("start flat --image a=lined --misc misc --line quiet", 1, "refused 31 at 0"),
    Case("start miscounted --misc misc --line quiet", 1, "refused 31 at 0"),
    Case("start old21 --misc misc --line quiet", 1, "refused 31 at 0"),
    Case("start old17 --misc misc --line quiet", 1, "refused 31 at 0"),
    Case("start", 2, ""),
    Case(f"start {BOTH} --misc misc --line quiet", 2, ""),
    Case(f"start turns turns {BOTH} --misc misc --line quiet", 2, ""),
    Case(f"start turns {BOTH} --misc misc --line quiet loud", 2, ""),
    Case(f"start turns {BOTH} --misc misc", 2, ""),
    Case(f"start turns {BOTH} --line quiet", 2, ""),
    Case(f"start turns {BOTH} --misc misc --line", 2, ""),
    Case(f"start turns {BOTH} --misc misc --line --version", 2, ""),
    Case(f"start turns {BOTH} --misc misc --line -- quiet", 2, ""),
    Case(f"start turns {BOTH} --line quiet --misc", 2, ""),
    Case(f"start turns {BOTH} --misc -m --line quiet", 2, ""),
    Case(f"start turns {BOTH} --misc misc --misc misc --line quiet", 2, ""),
    Case(f"start turns {BOTH} --misc misc --line quiet --line quiet", 2, ""),
    Case("start turns --misc misc --line quiet", 2, ""),
    Case("start turns --image a=lined --misc misc --line quiet", 2, ""),
    Case("start turns --image b=lined --misc missing --line quiet", 2, ""),
    Case(f"start turns {BOTH} --image b=lined --misc misc --line quiet", 2, ""),
    Case(f"start turns {BOTH} --image e=lined --misc misc --line quiet", 2, ""),
    Case(f"start turns {BOTH} --image c --misc misc --line quiet", 2, ""),
    Case(f"start turns {BOTH} --image c= --misc misc --line quiet", 2, ""),
    Case(f"start turns {BOTH} --image lined --misc misc --line quiet", 2, ""),
    Case(f"start turns {BOTH} --image =lined --misc misc --line quiet", 2, ""),
    Case(f"start turns {BOTH} --misc misc --line quiet --image", 2, ""),
    Case("start turns --image a=turns --image b=lined --misc misc --line quiet", 2, ""),
    Case(f"start turns {BOTH} --misc turns --line quiet", 2, ""),
    Case(f"start turns {BOTH} --misc misc --line quiet --limit 1", 2, ""),
    Case("slots record show --misc misc", 2, ""),
    Case("sections lined --image a=lined", 2, ""),
    Case("sections lined --line quiet", 2, ""),
    Case(f"start missing {BOTH} --misc misc --line quiet", 3, ""),
    Case("start turns --image a=missing --image b=lined --misc misc --line quiet", 3, ""),
    Case("start turns --image a=lined --image b=missing --misc misc --line quiet", 3, ""),
    Case(f"start turns {BOTH} --misc missing --line quiet", 3, ""),
    Case("strange p2", 2, ""),
    Case("", 2, ""),
)

LEFT: Dict[str, bytes] = {
    "part": b"\xFF" * 4 + b"efghijkl",
    "part7": b"\xFF" * 4 + b"efghijkl",
    "cut": FILES["cut"],
    "long": FILES["long"],
    "none": b"",
    "none2": record_of("10003 00003 00003 00003"),
    "p2": FILES["p2"],
    "p7": FILES["p7"],
    "flat": FILES["flat"],
    "joined": JOINED,
    "joined1": UNDER_OVER,
    "joined2": OVER_UNDER,
    "joined3": FILES["p2"],
    "joined4": build.sparse_image(8, [build.skip(3)]),
    "joined5": FILES["nothing"],
    "joined6": MOST,
    "joined7": FILES["fills"],
    "image": P9_IMAGE,
    "small": build.sparse_image(4096, []),
    "odd": FILES["odd"],
    "ends": record_of("11000 10100", "b"),
    "miscounted": FILES["miscounted"],
    "old21": FILES["old21"],
    "old17": FILES["old17"],
    "record": record_of("10012 10003 00003 00003", "b"),
    "turns": record_of("11000 10100", "b"),
    "given-up": record_of("11000 10002"),
    "spent": record_of("10004"),
    "misc": FILES["misc"],
    "lined": FILES["lined"],
}

TRIED = record_of("10003")

# A start of that record, the same with an image that is refused, and what the first prints.
START = "start tried --image a=lined --misc misc --line quiet"
START_REFUSED = START.replace("lined", "archived-cut")
STARTED = f"quiet root=/dev/sda4 ro {SKIPS.format('a')}\n"


class CannotCheck(Exception):
    """Why this machine cannot make a check."""


class Tool:
    """The tool, run in the current folder."""

    def __init__(self, path: str, preload: Optional[str]) -> None:
        self.path = path
        self.preload = preload

    def command(self, words: str, shell: str = "") -> List[str]:
        """The words of a process, by way of a shell where something follows them."""
        if shell:
            return ["sh", "-c", f'exec "$0" {words} {shell}', self.path]
        return [self.path, *shlex.split(words)]

    def environment(self, **faults: str) -> Dict[str, str]:
        """That of a run with faults, which need the loaded file."""
        found = dict(os.environ, ASAN_OPTIONS="verify_asan_link_order=0:detect_leaks=0:exitcode=99",
                     UBSAN_OPTIONS="exitcode=99")
        if faults:
            if not self.preload:
                raise CannotCheck("no compiler for tests/preload.c")
            found.update(faults, LD_PRELOAD=self.preload)
        return found

    def run(self, words: str, shell: str = "", **faults: str) -> "subprocess.CompletedProcess[str]":
        """Runs it to its end."""
        return subprocess.run(
            self.command(words, shell), env=self.environment(**faults), capture_output=True, text=True,
            timeout=LONGEST_WAIT, check=False,
        )

    def run_bytes(self, *words: bytes) -> "subprocess.CompletedProcess[bytes]":
        """Runs it to its end with words of any bytes."""
        return subprocess.run(
            [self.path.encode(), *words], env=self.environment(), capture_output=True, timeout=LONGEST_WAIT,
            check=False,
        )

    def begin(
        self, words: str, stdin: Any = None, stderr: Any = subprocess.PIPE, **faults: str
    ) -> "subprocess.Popen[bytes]":
        """Begins to run it."""
        return subprocess.Popen(
            self.command(words), env=self.environment(**faults), stdin=stdin, stdout=subprocess.PIPE, stderr=stderr,
            bufsize=0,
        )

    def send(self, words: str, pieces: Sequence[bytes], **faults: str) -> "subprocess.CompletedProcess[str]":
        """Runs it to its end on pieces that come through a pipe, each read before the next is there."""
        process = self.begin(words, subprocess.PIPE, **faults)
        demo.feed(process, pieces)
        return ended(process)


def ended(process: "subprocess.Popen[bytes]") -> "subprocess.CompletedProcess[str]":
    """Waits for the end of the tool."""
    said = [(text or b"").decode() for text in process.communicate(timeout=LONGEST_WAIT)]
    return subprocess.CompletedProcess(process.args, process.returncode, *said)


def read(path: str) -> bytes:
    """What a file holds."""
    with open(path, "rb") as file:
        return file.read()


def save(path: str, data: bytes) -> None:
    """Makes a file."""
    with open(path, "wb") as file:
        file.write(data)


def expect(holds: bool, what: str, done: Any = None) -> None:
    """Ends a check where something does not hold."""
    said = "" if done is None else f" (status {done.returncode}: {done.stdout!r} {done.stderr!r})"
    if not holds:
        raise AssertionError(what + said)


def expect_end(done: "subprocess.CompletedProcess[str]", status: int, words: str = "") -> None:
    """The exit status, and words that standard error has."""
    expect(done.returncode == status and words in done.stderr, f"status {status} and {words!r} expected", done)


@contextlib.contextmanager
def locked(path: str, kind: int) -> Iterator[None]:
    """Holds a file as another program would."""
    with open(path, "rb") as file:
        fcntl.flock(file, kind)
        yield


# Faults.

def closed_descriptors(tool: Tool) -> None:
    """What is printed never lands in a file that was opened as descriptor 1 or 2."""
    for closed, status in (("<&- >&-", 4), ("<&- >&- 2>&-", 4), (">&-", 4), ("2>&-", 0), ("<&- 2>&-", 0)):
        save("fresh", FILES["cut"])
        done = tool.run("store p2 fresh", closed)
        expect(done.returncode == status, f"status with {closed}", done)
        expect(read("fresh") == LEFT["part"], f"the partition with {closed}")
        save("fresh", FILES["cut"])
        expect(tool.run("store p6 fresh", closed).returncode == 1, f"a refusal with {closed}")
        expect(read("fresh") == FILES["cut"], f"the partition after a refusal with {closed}")
        for words, ends in ((START, status), (START_REFUSED, 1)):
            save("tried", TRIED)
            done = tool.run(words, closed)
            expect(done.returncode == ends and read("tried") == record_of("10002"), f"{words} with {closed}", done)
        expect(tool.run("report p6 p2 p6", closed).returncode == status, f"a report with {closed}")
        expect(read("p2") == FILES["p2"] and read("p6") == FILES["p6"], f"the images of a report with {closed}")


def printed_into_files(tool: Tool) -> None:
    """A file that is worked on is not printed into, also where the caller has it so."""
    for out in (">>fresh", "1<>fresh", "2<>fresh", "1<>fresh 2>&1"):
        for words in ("store p2 fresh", "store p6 fresh", "store p2 fresh --json", "store p2 fresh --dry-run"):
            save("fresh", FILES["cut"])
            expect(tool.run(words, out).returncode == 2, f"{words} {out}: the status")
            expect(read("fresh") == FILES["cut"], f"{words} {out}: the partition")
    save("tried", TRIED)
    for words, name in (("list p2", "p2"), ("diff p2 p7", "p2"), ("diff p2 p7", "p7"), ("diff p2 p7 --svg p6", "p6"),
                        ("join p2 p7 p6", "p2"), ("join p2 p7 p6", "p7"), ("join p2 p7 p6", "p6"),
                        ("rules boot", "boot"), ("rules boot 12 plain", "boot"),
                        ("report p2 p7", "p2"), ("report p2 p6 p7", "p7"),
                        ("slots tried show", "tried"), ("slots tried start", "tried"),
                        (START, "tried"), (START, "lined"), (START, "misc"),
                        ("write flat 8 p6", "p6"), ("judge - 12 --length 56 <p2", "p2"),
                        ("store - p6 --length 56 <p2", "p6"), ("store - p6 --length 56 <p2", "p2")):
        before = read(name)
        expect_end(tool.run(words, f">>{name}"), 2, "print it elsewhere")
        expect(read(name) == before, f"{words} >>{name}")
    for words, out in itertools.product(("report p6 p2", "report p6 p7 p2 --json"), (">>p2", "2>>p2", ">>p2 2>&1")):
        expect(tool.run(words, out).returncode == 2, f"{words} {out}: the status")
        expect(read("p2") == FILES["p2"], f"{words} {out}: an image that comes after one that is refused")


def device_node(path: str, kind: int) -> str:
    """A second node of a device, which may come to harm; only the first where we may make none."""
    try:
        os.mknod("node", kind | 0o600, os.stat(path).st_rdev)
    except PermissionError:
        return path
    return "node"


def kinds_of_targets(tool: Tool) -> None:
    """A target that is no regular file stays what it is."""
    os.mkfifo("pipe")
    os.mkdir("folder")
    node = device_node("/dev/null", stat.S_IFCHR)
    for target in ("pipe", "folder", node):
        for words in ("write flat 8 {}", "slots {} fresh 2", "slots {} start", "map p2 --svg {}", "store p2 {}",
                      "diff p2 p7 --svg {}", "join p2 p7 {}", START.replace("tried", "{}")):
            expect_end(tool.run(words.format(target)), 2)
    expect(stat.S_ISFIFO(os.stat("pipe").st_mode), "the pipe is replaced")
    expect(stat.S_ISCHR(os.stat(node).st_mode), "the null device is replaced")
    expect(not os.listdir("folder"), "the folder is written to")


@contextlib.contextmanager
def loop_device(path: str) -> Iterator[str]:
    """A block device over a file, where the machine lets us have one."""
    made = subprocess.run(["losetup", "-f", "--show", path], capture_output=True, text=True, check=False) \
        if shutil.which("losetup") and os.geteuid() == 0 else None
    if made is None or made.returncode != 0:
        raise CannotCheck("no loop device to be had")
    try:
        yield made.stdout.strip()
    finally:
        subprocess.run(["losetup", "-d", made.stdout.strip()], check=True)


def block_devices(tool: Tool) -> None:
    """A block device is a partition, held alone, and is never replaced."""
    image = build.sparse_image(512, [build.fill(b"abcd", 2), build.skip(5), build.unknown(8, 1)])
    save("image", image)
    save("disk", b"x" * 4096)
    with loop_device("disk") as device:
        node = device_node(device, stat.S_IFBLK)
        expect_end(tool.run(f"write flat 8 {node}"), 2)
        expect_end(tool.run(f"join p2 p7 {node}"), 2)
        expect_end(tool.run(f"slots {node} fresh 2"), 2)
        expect_end(tool.run(START.replace("tried", node)), 2)
        expect(stat.S_ISBLK(os.stat(node).st_mode), "the block device is replaced")
        held = os.open(device, os.O_RDONLY | os.O_EXCL)
        expect_end(tool.run(f"store image {device}"), 3, "busy")
        os.close(held)
        expect_end(tool.run(f"store {device} {device}"), 2)
        done = tool.run(f"report {device} p2 {node}")
        expect(done.stdout == reported(1, 1, 4, 2, 12, "2 2") + "\n", "a report on block devices", done)
        done = tool.run(f"store image {device}")
        expect(done.stdout == "ok written 2 skipped 5 unknown 1\n", "a block device is stored on", done)
        expect(done.stderr == remarks_on(image), "what is remarked", done)
        with open(device, "rb") as file:
            expect(file.read() == b"abcd" * 256 + b"x" * 3072, "what the block device holds")


def links(tool: Tool) -> None:
    """The file that a link leads to is replaced; owner and mode stay."""
    os.mkdir("far")
    save("far/real", TRIED)
    os.chmod("far/real", 0o640)
    if os.geteuid() == 0:
        os.chown("far/real", 12, 34)
    before = os.stat("far/real")
    os.symlink("far/real", "link")
    expect_end(tool.run("slots link start"), 0)
    after = os.stat("far/real")
    expect(os.path.islink("link") and read("far/real")[TRIES] == 2, "the real record")
    expect((before.st_mode, before.st_uid, before.st_gid) == (after.st_mode, after.st_uid, after.st_gid),
           "owner and mode of the record")
    expect_end(tool.run(START.replace("tried", "link")), 0)
    again = os.stat("far/real")
    expect(os.path.islink("link") and read("far/real")[TRIES] == 1, "the real record after a whole start")
    expect((before.st_mode, before.st_uid, before.st_gid) == (again.st_mode, again.st_uid, again.st_gid),
           "owner and mode of the record after a whole start")
    os.symlink("nowhere", "dangling")
    expect_end(tool.run("slots dangling fresh 2"), 2, "link to nothing")
    expect_end(tool.run(START.replace("tried", "dangling")), 2, "link to nothing")
    os.link("far/real", "other")
    expect_end(tool.run("slots other start"), 2, "hard links")
    expect_end(tool.run(START.replace("tried", "other")), 2, "hard links")
    expect(read("other")[TRIES] == 1, "a record with two names is changed")


@contextlib.contextmanager
def waiting(tool: Tool, words: str, **faults: str) -> "Iterator[subprocess.Popen[bytes]]":
    """The tool, held up where it puts a file on the disk; killed at the end."""
    process = tool.begin(words, WAIT="mark", **faults)
    try:
        demo.holds_soon(lambda: os.path.exists("mark") or process.poll() is not None)
        expect(os.path.exists("mark"), f"{words}: the tool did not come so far")
        yield process
    finally:
        process.kill()
        process.communicate(timeout=LONGEST_WAIT)
        with contextlib.suppress(FileNotFoundError):
            os.remove("mark")


def locks(tool: Tool) -> None:
    """A file that another program holds is left alone, with clear words."""
    save("tried", TRIED)
    for kind in (fcntl.LOCK_SH, fcntl.LOCK_EX):
        with locked("cut", kind):
            expect_end(tool.run("store p2 cut"), 3, "is busy")
            expect_end(tool.run("store p2 cut --dry-run"), 3, "is busy")
        with locked("tried", kind):
            expect_end(tool.run("slots tried start"), 3, "is busy")
            expect_end(tool.run("slots tried fresh 2"), 3, "is busy")
            expect_end(tool.run(START), 3, "is busy")
            expect_end(tool.run("slots tried show"), 0)
        with locked("p2", kind):
            status = 0 if kind == fcntl.LOCK_SH else 3
            expect_end(tool.run("judge p2 12"), status)
            expect_end(tool.run("diff p2 p7"), status)
            expect_end(tool.run("diff p7 p2"), status)
            expect_end(tool.run("join p2 p7 image"), status)
            expect_end(tool.run("join p7 p2 image"), status)
            expect_end(tool.run("join p7 p7 p2"), 3, "is busy")
            expect_end(tool.run("write flat 8 p2"), 3, "is busy")
            for words in ("report p2 p7", "report p7 p2", "report p6 p7 p2"):
                done = tool.run(words)
                expect_end(done, status, "p2: is busy" if status else "")
                expect(bool(done.stdout) == (status == 0), f"{words}: totals", done)
        with locked("boot", kind):
            for words in ("sections boot", "rules boot", "rules boot 12 plain"):
                expect_end(tool.run(words), status)
        for name in ("lined", "misc"):
            save("other", TRIED)
            with locked(name, kind):
                expect_end(tool.run(START.replace("tried", "other")), status, "is busy" if status else "")
            expect(read("other")[TRIES] == (3 if status else 2), f"the record while {name} is held")
    expect(read("cut") == FILES["cut"] and read("tried") == TRIED and read("p2") == FILES["p2"], "files while held")


def locks_to_the_end(tool: Tool) -> None:
    """Files are held until all is on the disk."""
    save("tried", TRIED)
    for words, others in (
        ("store p2 cut", ("store p2 cut", "store p2 cut --dry-run", "write flat 8 p2")),
        ("slots tried start", ("slots tried start", "slots tried confirm", "slots tried fresh 2", START)),
        (START, (START, "slots tried start", "slots tried fresh 2", "write flat 8 lined", "write flat 8 misc")),
        ("write flat 8 p6", ("write flat 8 p6", "judge p6 12", "write p2 4 flat")),
        ("join p2 p7 p6", ("join p2 p7 p6", "write flat 8 p6", "judge p6 12", "write flat 8 p2", "write flat 8 p7")),
    ):
        with waiting(tool, words):
            for other in others:
                expect_end(tool.run(other), 3, "is busy")
    expect(read("tried") == TRIED and read("p6") == FILES["p6"], "files that were being replaced")


def starts_at_once(tool: Tool) -> None:
    """Of several starts at one time each takes its own try, or none."""
    for words in ("slots tried start", START) * 3:
        save("tried", record_of("10007"))
        running = [tool.begin(words) for _ in range(6)]
        ended = [(process.communicate(timeout=LONGEST_WAIT), process.returncode) for process in running]
        expect(all(status in (0, 3) for _, status in ended), f"statuses {ended}")
        taken = sum(status == 0 for _, status in ended)
        expect(taken > 0 and read("tried")[TRIES] == 7 - taken, f"{taken} tries taken, {read('tried')[TRIES]} left")


def replaced_at_once(tool: Tool) -> None:
    """A file that takes the place of the old one meanwhile is worked on, and one that takes a free place is kept."""
    save("tried", TRIED)
    save("another", record_of("10007"))
    expect_end(tool.run("slots tried start", SWAP="tried"), 0)
    expect(read("tried")[TRIES] == 6, f"{read('tried')[TRIES]} tries are left of the record that took the place")
    save("another", record_of("10006"))
    expect_end(tool.run(START, SWAP="tried"), 0)
    expect(read("tried")[TRIES] == 5, f"{read('tried')[TRIES]} tries are left of the next that took the place")
    for words, faults in itertools.product(("write flat 8 image", "join p2 p7 image"), ({}, {"NO_NAMELESS": "1"})):
        with waiting(tool, words, **faults) as process:
            save("image", b"another's")
            os.remove("mark")
            words = process.communicate(timeout=LONGEST_WAIT)[1]
        expect(process.returncode == 3 and b"is busy" in words, f"status {process.returncode}, {words!r}")
        expect(read("image") == b"another's", "a file that was just made")
        os.remove("image")


def changed_image(tool: Tool) -> None:
    """An image that changes while it is stored is told, and is no success."""
    done = tool.run("store p2 cut", TOUCH="p2")
    expect_end(done, 3, "the image changed while it was stored; store it again")
    expect(done.stdout == "", "an answer for a changed image", done)
    expect_end(tool.run("write flat 8 image", CUT="flat"), 3, "to its end")
    save("lost", FILES["p2"])
    expect_end(tool.run("judge lost 12", CUT="lost"), 3, "to its end")
    lost = json.loads(tool.run("judge kinds 40 --json", CUT="kinds").stdout)
    expect(lost["status"] == 3, "an object for a lost file")
    for words in ("judge p2 12", "judge p6 12", "list p2", "map p2", "sections p2", "store p2 cut --dry-run",
                  "store p6 cut --dry-run", "write p2 4 image", "store p2 cut", "store p6 cut", "diff p2 p7",
                  "diff p6 p7", "join p2 p7 image", "join p6 p7 image", "rules boot", "rules p2", "rules boot 12 plain",
                  "rules boot 12 generic", "rules boot 10 generic", "rules boot4-os 13 generic", "rules p2 12 plain",
                  "report p2", "report p6", "report p2 p7 p6"):
        name = words.split()[1]
        save(name, FILES[name])
        expect_end(tool.run(words, GROW=name), 3, "changed while it was")
    expect_end(tool.run("diff none p7", GROW="p7"), 3, "p7: changed while it was")
    expect_end(tool.run("diff last next", CUT="last"), 3, "to its end")
    expect_end(tool.run("join none p7 image", GROW="p7"), 3, "p7: changed while it was")
    expect_end(tool.run("join under over image", CUT="under"), 3, "to its end")
    for words in ("rules boot", "rules boot 12 plain", "rules boot 12 generic"):
        save("boot", FILES["boot"])
        expect_end(tool.run(words, CUT="boot"), 3, "to its end")
    for name, fault, said in (("p2", "GROW", "p2: changed while it was read"), ("kinds", "CUT", "to its end"),
                              ("p6", "GROW", "p6: changed while it was read")):
        save(name, FILES[name])
        done = tool.run(f"report {name} p7 {name}", **{fault: name})
        expect_end(done, 3, said)
        expect(done.stdout == "" and "refused" not in done.stderr, "a report on a changed image", done)
        save(name, FILES[name])
        told = json.loads(tool.run(f"report {name} p7 --json", **{fault: name}).stdout)
        expect((told["result"], told["images"]) == ("failed", []) and "accepted" not in told, f"the object {told}")
        save(name, FILES[name])
    expect(not os.path.exists("image"), "an image is made of changed ones")


def changed_at_starts(tool: Tool) -> None:
    """An image or misc that changes while a slot is started is told; nothing is printed, and no try is spent. The image
    of a slot that is not picked is looked at, too."""
    both = START.replace("--image", "--image b=lined-old --image")
    changed, cut = "{}: changed while it was read; run the same command again", "to its end"
    for words, name, fault, said in (
        (both, "lined", "GROW", changed), (both, "lined", "CUT", cut), (both, "misc", "GROW", changed),
        (both, "lined-old", "GROW", changed), (both, "lined-old", "CUT", changed),
        (both.replace("a=lined", "a=archived-cut"), "archived-cut", "GROW", changed),
        (both.replace("misc misc", "misc misc-short"), "misc-short", "GROW", changed),
    ):
        save("tried", record_of("10003 10003"))
        done = tool.run(words, **{fault: name})
        expect_end(done, 3, said.format(name))
        expect(done.stdout == "" and read("tried") == record_of("10003 10003"), f"{words}: {fault} {name}", done)
        save(name, FILES[name])


def lost_partitions(tool: Tool) -> None:
    """A partition that is replaced, removed or cut while it is stored on is told, and is no success."""
    for lose in (
        lambda: os.rename("long", "fresh"), lambda: os.remove("fresh"), lambda: os.truncate("fresh", 2),
        lambda: os.truncate("fresh", 99),
    ):
        save("fresh", FILES["cut"])
        with waiting(tool, "store p2 fresh") as process:
            lose()
            os.remove("mark")
            said, words = process.communicate(timeout=LONGEST_WAIT)
        expect(process.returncode == 3 and said == b"" and b"store the image again" in words,
               f"status {process.returncode}, {said!r} {words!r}")


def bad_disk(tool: Tool) -> None:
    """A disk that is full or fails is told; records, images and pictures stay as they were, and nothing is left."""
    save("tried", TRIED)
    before = set(os.listdir("."))
    kept = [(words, {fault: "1"}, "nothing is changed") for fault in ("FULL", "BAD_FILE")
            for words in ("slots tried start", "slots new fresh 2", "map p2 --svg new", "map p2 --svg p6",
                          "diff p2 p7 --svg new", START, START_REFUSED)]
    for words, faults, said in kept + [
        ("write flat 8 p6", {"BAD_FILE": "1"}, "nothing is changed"),
        ("write flat 8 new", {"BAD_FILE": "1", "NO_NAMELESS": "1"}, "nothing is changed"),
        ("join p2 p7 p6", {"BAD_FILE": "1"}, "nothing is changed"),
        ("join p2 p7 new", {"BAD_FILE": "1", "NO_NAMELESS": "1"}, "nothing is changed"),
        ("store p2 cut", {"BAD_FILE": "1"}, "may not be on the disk"),
    ]:
        done = tool.run(words, **faults)
        expect_end(done, 3, said)
        expect(done.stdout == "", f"{words}: an answer", done)
    expect(set(os.listdir(".")) == before, "what is left over")
    expect(read("tried") == TRIED and read("p6") == FILES["p6"], "what stood there")


def pipes_as_images(tool: Tool) -> None:
    """A pipe is refused, and nobody waits for it; so is a file that holds more than it says."""
    save("tried", TRIED)
    if os.path.exists("/proc/version"):
        expect_end(tool.run("write /proc/version 4 image"), 2, "length")
        expect_end(tool.run(START.replace("misc misc", "misc /proc/version")), 2, "length")
    os.mkfifo("pipe")
    for words in ("judge pipe 12", "store pipe cut", "store pipe cut --dry-run", "list pipe", "map pipe",
                  "sections pipe", "write pipe 4096 image", "slots pipe show", "judge /dev/stdin 12",
                  "diff pipe p2", "diff p2 pipe", "join pipe p2 image", "join p2 pipe image", "rules pipe",
                  "report pipe", "report p2 p6 pipe", "report p2 /dev/stdin",
                  "rules pipe 12 plain", START.replace("lined", "pipe"), START.replace("misc misc", "misc pipe"),
                  START.replace("misc misc", "misc .")):
        expect_end(tool.run(words, "</dev/null" if "stdin" in words else ""), 2)
    expect(read("tried") == TRIED, "a record after what cannot be read")


def has_nameless() -> bool:
    """Whether the file system knows files without a name."""
    try:
        os.close(os.open(".", os.O_TMPFILE | os.O_RDWR, 0o600))
    except OSError:
        return False
    return True


def interrupted_writes(tool: Tool) -> None:
    """A write that is ended by a signal leaves nothing, with nameless files even by a kill."""
    before = set(os.listdir("."))
    numbers = [signal.SIGINT, signal.SIGTERM, signal.SIGHUP]
    for faults, ends in (({}, numbers + [signal.SIGKILL] * has_nameless()), ({"NO_NAMELESS": "1"}, numbers)):
        for words, number in itertools.product(("write flat 8 image", "join p2 p7 image"), ends):
            with waiting(tool, words, **faults) as process:
                names = [name for name in os.listdir(".") if name.startswith(".tarpaulark")]
                expect(bool(names) or not faults, "a file with a name")
                process.send_signal(number)
                expect(process.wait(LONGEST_WAIT) == -number, f"ended with {process.returncode}")
            expect(set(os.listdir(".")) == before, f"left over: {set(os.listdir('.')) - before}")
    if has_nameless():
        expect(tool.run("write flat 8 p6", SIGNAL_NAMED="15").returncode == -signal.SIGTERM, "a signal")
        expect(set(os.listdir(".")) == before and read("p6") == FILES["p6"], "a name that is dropped again")
        expect(tool.run("write flat 8 image", SIGNAL_NAMED="9").returncode == -signal.SIGKILL, "a kill")
        expect(set(os.listdir(".")) == before | {"image"}, "a free name is given at once")
        os.remove("image")
    for words in ("write flat 8 image", "write flat 8 image"):
        expect_end(tool.run(words, NO_NAMELESS="1"), 0)
    expect(set(os.listdir(".")) == before | {"image"} and read("image") == P9_IMAGE, "the image that is made")


def folder_not_synced(tool: Tool) -> None:
    """After a start that is done the words do not say to run it again."""
    save("tried", TRIED)
    done = tool.run("slots tried start", BAD_FOLDER="1")
    expect_end(done, 3, "spent")
    expect("again" not in done.stderr and done.stdout == "starts a\n", "what is said", done)
    expect(read("tried")[TRIES] == 2, "the try")
    told = json.loads(tool.run("slots tried start --json", BAD_FOLDER="1").stdout)
    expect((told["answer"], told["slot"], told["status"]) == ("starts", "a", 3), f"the object {told}")
    for words, record, answer, first in (
        (START, "10003", STARTED, "tarpaulark: tried: is replaced"), (START_REFUSED, "10003", "", "refused 26 at 0"),
        (START, "10000", "", "recovery: no slot may start, so there is no line"),
    ):
        save("tried", record_of(record))
        done = tool.run(words, BAD_FOLDER="1")
        expect_end(done, 3, "what this start takes is spent; only its folder may not be on the disk. Go by the answer")
        expect(done.stdout == answer and done.stderr.startswith(first), f"{words} on {record}", done)
        expect(read("tried") != record_of(record), f"{words} on {record}: the record")
        save("tried", record_of(record))
        told = json.loads(tool.run(f"{words} --json", BAD_FOLDER="1").stdout)
        expect((told["result"], told["status"]) == ("failed", 3), f"the object {told}")
    expect_end(tool.run("write flat 8 image", BAD_FOLDER="1"), 3, "again")
    done = tool.run("join p2 p7 image", BAD_FOLDER="1")
    expect_end(done, 3, "again")
    expect(done.stdout.startswith("ok bytes 56 ") and read("image") == FILES["p2"], "an image that stands", done)


# What is remarked on images: no checksum, and chunks of unknown type.

UNCHECKED = "no checksum is stated: the data were not checked"


def kept(blocks: int) -> str:
    """What is said of the blocks of unknown chunks."""
    if blocks == 0:
        return "no blocks"
    return "1 block kept as it was" if blocks == 1 else f"{blocks} blocks kept as they were"


def remark_on_unknown(image: bytes) -> str:
    """What is said of the unknown chunks of an accepted image that can be walked, by the reference; nothing where
    there are none."""
    at, found = sparse.read_header(image).file_header_size, []
    for chunk in sparse.chunks_of(image):
        type_there = int.from_bytes(image[at:at + 2], "little")
        if type_there not in KIND_NAMES:
            found.append((type_there, at, chunk.blocks))
        at = chunk.end
    if not found:
        return ""
    chunks = "1 chunk" if len(found) == 1 else f"{len(found)} chunks"
    blocks = kept(sum(blocks for _, _, blocks in found))
    return f"{chunks} of unknown type: {blocks}; the first is 0x{found[0][0]:04X} at offset {found[0][1]}\n"


def remark_on_blocks(unknown: int) -> str:
    """What is said of so many unknown blocks of an image that comes by standard input."""
    return f"chunks of unknown type: {kept(unknown)}\n" if unknown else ""


def remarks_on(image: bytes, words: str = "") -> str:
    """All that is said of an accepted image besides the answer to a command."""
    unchecked = "" if sparse.read_header(image).checksum else UNCHECKED + "\n"
    if " - " not in words:
        return unchecked + remark_on_unknown(image)
    verdict = sparse.judge(image, len(FILES["long"]))
    assert isinstance(verdict, sparse.Accepted)
    return unchecked + remark_on_blocks(verdict.unknown)


def tried_on(tool: Tool, words: str, image: bytes, piped: bool) -> Tuple["subprocess.CompletedProcess[str]", bytes]:
    """How a command on an image in a file ends, or on one that comes by standard input, and the partition then."""
    save("image", image)
    save("fresh", FILES["long"])
    done = tool.send(words, [image[:45], image[45:]]) if piped else tool.run(words, "<image")
    return done, read("fresh")


def commands_on(image: bytes) -> Iterator[Tuple[str, bool]]:
    """Commands on an image that is accepted, and whether it comes through a pipe."""
    for words in ("judge image 48", "store image fresh", "store image fresh --limit 3", "store image fresh --dry-run",
                  "store image fresh --limit 3 --dry-run", "list image"):
        yield words, False
    for words in (f"judge - 48 --length {len(image)}", f"store - fresh --length {len(image)}"):
        yield words, False
        yield words, True


def none_stated(tool: Tool) -> None:
    """An image that states no checksum gets the answer and the partition of one that states the true one, and that
    its data were not checked is said."""
    for stated, unstated in ((FILES["p2"], FILES["p8"]), (FILES["kinds"], FILES["unsummed"])):
        for words, piped in commands_on(stated):
            want, after = tried_on(tool, words, stated, piped)
            done, left = tried_on(tool, words, unstated, piped)
            expect(done.returncode == want.returncode == 0 and left == after, words, done)
            answers = [re.sub("checksum .*", "", told.stdout) for told in (want, done)]
            expect(answers[0] == answers[1] != "", f"{words}: the answer", done)
            expect(want.stderr == remarks_on(stated, words), f"{words}: what is said", want)
            expect(done.stderr == f"{UNCHECKED}\n{want.stderr}", f"{words}: what is said", done)
    done = tool.run("judge p8 12", "2>&1")
    expect(done.stdout == f"ok written 1 skipped 2 unknown 0\n{UNCHECKED}\n", "the answer comes first", done)
    done, left = tried_on(tool, "store image fresh", FILES["p8"] + b"\0", False)
    expect(done.stderr.startswith("refused 10 at 56\n") and UNCHECKED not in done.stderr, "a refusal", done)
    expect(left == FILES["long"], "the partition after a refusal")


def none_stated_in_json(tool: Tool) -> None:
    """The object says it in a member that no other image gives; a checksum is a number there, also 0."""
    for words, piped in commands_on(ALL_KINDS):
        want = tried_on(tool, words + " --json", ALL_KINDS, piped)[0]
        done = tried_on(tool, words + " --json", FILES["unsummed"], piped)[0]
        told, wanted = json.loads(done.stdout), json.loads(want.stdout)
        expect(told.pop("unchecked") == UNCHECKED and want.stderr == done.stderr == "", words, done)
        if "list" in words:
            expect(told.pop("checksum") == 0 != wanted.pop("checksum"), words, done)
        expect(told == wanted, f"{words}: {wanted} expected", done)


def not_checked(tool: Tool) -> None:
    """Other data are stored where no checksum is stated; where a wrong one is, nothing is but through a pipe."""
    for at in range(40, 48):
        image = build.with_bytes(FILES["unsummed"], at, b"!")
        done, left = tried_on(tool, "store image fresh", image, False)
        expect(done.stderr == remarks_on(image) and left == store.store(image, FILES["long"])[1] and b"!" in left,
               f"byte {at}", done)
    for words, piped in commands_on(FILES["wrong"]):
        done, left = tried_on(tool, words, FILES["wrong"], piped)
        expect_end(done, 1, "refused 11 at 24\nchecksum differs\n")
        due = 4 if piped and "store" in words else 0
        expect(left == b"\xFF" * due + FILES["long"][due:], f"{words}: the partition", done)


def true_sum_of_0(tool: Tool) -> None:
    """The image of flat bytes whose checksum is 0 states 0, and gives them back."""
    expect(tool.run("write sum0 4 image").stdout == "ok bytes 44\n", "an image is written")
    image = read("image")
    true_image = build.sparse_image(4, [build.fill(FILES["sum0"], 1)])
    expect(image == true_image and image[24:28] == bytes(4), f"the image {image!r}")
    for words, piped in commands_on(image):
        done, left = tried_on(tool, words, image, piped)
        expect(done.returncode == 0 and done.stderr == UNCHECKED + "\n", words, done)
        stores = "store" in words and "--dry-run" not in words
        expect(left == (FILES["sum0"] if stores else b"long") + FILES["long"][4:], f"{words}: the partition", done)


def unknown_told(tool: Tool) -> None:
    """Of unknown chunks it is said how many there are, empty ones too, and what the first is; of those that come by
    standard input how many blocks they have."""
    said = {
        "p2": ("", ""),
        "p7": ("1 chunk of unknown type: 2 blocks kept as they were; the first is 0xCAC5 at offset 44\n",
               "chunks of unknown type: 2 blocks kept as they were\n"),
        "kinds": ("1 chunk of unknown type: 1 block kept as it was; the first is 0x0007 at offset 76\n",
                  "chunks of unknown type: 1 block kept as it was\n"),
        "hollow": ("1 chunk of unknown type: no blocks; the first is 0xCAC0 at offset 44\n", ""),
        "strange": ("3 chunks of unknown type: 5 blocks kept as they were; the first is 0xFFFF at offset 40\n",
                    "chunks of unknown type: 5 blocks kept as they were\n"),
    }
    for name, (walked, sent) in said.items():
        for words, piped in commands_on(FILES[name]):
            done, left = tried_on(tool, words, FILES[name], piped)
            expect(done.returncode == 0 and done.stderr == (sent if " - " in words else walked), words, done)
            told = json.loads(tried_on(tool, words + " --json", FILES[name], piped)[0].stdout)
            expect(told.get("foreign", "") == done.stderr.rstrip("\n"), f"{words}: {told}")
            if words.startswith("store") and "--limit" not in words and "--dry-run" not in words:
                expect(left == store.store(FILES[name], FILES["long"])[1], f"{words}: the partition", done)
    done = tool.run("judge p7 12", "2>&1")
    expect(done.stdout == "ok written 1 skipped 0 unknown 2\n" + said["p7"][0], "the answer comes first", done)
    done = tool.run("judge p7 11")
    expect(done.stdout == "" and "unknown" not in done.stderr, "a refusal", done)


def unknown_is_kept(tool: Tool) -> None:
    """But for the counts, and what is said of them, P7 is as P2."""
    for words, piped in commands_on(FILES["p2"]):
        want, after = tried_on(tool, words, FILES["p2"], piped)
        done, left = tried_on(tool, words, FILES["p7"], piped)
        expect(done.returncode == want.returncode == 0 and left == after, words, done)
        answer = re.sub("(skip(?:ped)?) 2 unknown 0", r"\1 0 unknown 2", want.stdout)
        expect(done.stdout == answer.replace("1 skip   ", "1 unknown"), f"{words}: {answer!r} expected", done)


# Images that come by standard input.

STORE_P2 = "store - cut --length 56"


def cut_anywhere(rng: random.Random, data: bytes) -> List[bytes]:
    """Bytes in pieces of any lengths from 1 on."""
    cuts = sorted(rng.sample(range(len(data) + 1), min(len(data), rng.randrange(6))))
    pieces = [data[start:end] for start, end in zip([0] + cuts, cuts + [len(data)])]
    return [piece for piece in pieces if piece]


def stored_in_pieces(pieces: Sequence[bytes], length: int, partition: bytes) -> Tuple[passes.Answer, bytes]:
    """What a storing pass that is fed the pieces answers, and what it leaves, by the reference."""
    state = passes.begin(length, len(partition))
    for piece in pieces:
        state, answer, partition = passes.store_piece(state, piece, partition)
        if isinstance(answer, sparse.Refusal):
            return answer, partition
    return passes.store_finish(state, partition)[1:]


def expect_answer(done: "subprocess.CompletedProcess[str]", answer: passes.Answer, late: bool = False) -> None:
    """The answer of the reference, and words about the partition where a refusal may come late."""
    if isinstance(answer, sparse.Refusal):
        expect_end(done, 1, f"refused {answer.number} at {answer.place}\n")
        told = "what had come due before is stored" in done.stderr
        expect(told == (late and answer.number > 6) and done.stdout == "", "what is said of the partition", done)
    else:
        expect(isinstance(answer, sparse.Accepted), f"the answer {answer}")
        counts = f"ok written {answer.written} skipped {answer.dont_care} unknown {answer.unknown}\n"
        expect(done.stdout == counts, f"{answer} expected", done)
        remarks = done.stderr.replace(UNCHECKED + "\n", "")
        expect(remarks == remark_on_blocks(answer.unknown), "what is remarked", done)


def images_to_send(rng: random.Random) -> Iterator[Tuple[bytes, bytes]]:
    """Images, refused ones among them, and a partition for each."""
    for image in cases_store.refused_images(41):
        yield image, rng.randbytes(41)
    for _ in range(8):
        image = cases_store.random_image(rng)
        yield image, rng.randbytes(cases_store.total_length(image) % 1000 + rng.randrange(9))


def sent_in_pieces(tool: Tool) -> None:
    """What comes through a pipe, however it is cut, is judged and stored as by the reference, or refused late."""
    rng = random.Random(13)
    for image, partition in images_to_send(rng):
        pieces = cut_anywhere(rng, image)
        length = max(0, len(image) + rng.choice((0, 0, 0, -1, 1)))
        answer, after = stored_in_pieces(pieces, length, partition)
        expect_answer(tool.send(f"judge - {len(partition)} --length {length}", pieces), answer)
        save("fresh", partition)
        expect_answer(tool.send(f"store - fresh --length {length}", pieces), answer, late=True)
        expect(read("fresh") == after, f"the partition after {pieces} of {length}")


def sent_from_files(tool: Tool) -> None:
    """An image that a file holds from where it stands on is judged first, and a refusal stores nothing."""
    rng = random.Random(14)
    for image, partition in images_to_send(rng):
        verdict, after = store.store(image, partition)
        save("image", image)
        expect_answer(tool.run(f"judge - {len(partition)} --length {len(image)}", "<image"), verdict)
        save("image", b"before" + image)
        save("fresh", partition)
        with open("image", "rb", buffering=0) as file:
            file.seek(6)
            process = tool.begin(f"store - fresh --length {len(image)}", file)
            expect_answer(ended(process), verdict)
        expect(read("fresh") == after, f"the partition after {verdict}")


def wrong_lengths(tool: Tool) -> None:
    """Too few bytes, too many and none at all, from a file and through a pipe."""
    p2 = FILES["p2"]
    for pieces, length, number in (([p2[:50]], 56, 15), ([], 56, 15), ([p2, b"x"], 56, 14), ([p2 + b"x"], 56, 14),
                                   ([], 0, 1), ([b"x"], 0, 14), ([p2], 57, 10), ([p2], 2**64 - 1, 10)):
        save("sent", b"".join(pieces))
        save("cut", FILES["cut"])
        for words in (f"judge - 12 --length {length}", f"store - cut --length {length}"):
            expect_end(tool.run(words, "<sent"), 1, f"refused {number} at")
        expect(read("cut") == FILES["cut"], f"the partition after {number}")
        done = tool.send(f"store - cut --length {length} --json", pieces)
        told = json.loads(done.stdout)
        expect(told["number"] == number and not done.stderr, f"refusal {number}", done)
        expect(("partition" in told) == (number > 6), "words about the partition", done)
        expect(read("cut") == stored_in_pieces(pieces, length, FILES["cut"])[1], f"{pieces} of {length}")


def kinds_of_input(tool: Tool) -> None:
    """Standard input that cannot be read, is the partition itself, breaks off or does not wait; nothing is read
    after a refusal."""
    for given, status, words in (("<&-", 3, "cannot be read"), ("0>>p6", 3, "cannot be read"),
                                 ("<.", 3, "cannot be read"), ("</dev/null", 1, "refused 15"),
                                 ("<cut", 2, "one file"), ("<>cut", 2, "one file")):
        expect_end(tool.run(STORE_P2, given), status, words)
    expect(read("cut") == FILES["cut"] and read("p6") == FILES["p6"], "files after what cannot be read")
    for words in ("judge - 12 --length 56", STORE_P2):
        expect_end(tool.send(words, [FILES["p2"]], BAD_END="1"), 3, "cannot be read to its end")
    expect_end(tool.run("judge - 12 --length 56", "<p6", BAD_END="1"), 1, "refused 14")
    reader, sender = os.pipe()
    os.set_blocking(reader, False)
    process = tool.begin(STORE_P2, reader)
    for piece in (FILES["p2"][:30], FILES["p2"][30:]):
        os.write(sender, piece)
        demo.holds_soon(lambda: not select.select([reader], [], [], 0)[0])
    os.close(sender)
    expect_end(ended(process), 0)
    os.close(reader)


@contextlib.contextmanager
def receiving(tool: Tool, words: str, pieces: Sequence[bytes]) -> Iterator[None]:
    """The tool, fed some pieces and waiting for more; killed at the end."""
    process = tool.begin(words, subprocess.PIPE)
    try:
        demo.feed(process, pieces)
        yield
    finally:
        process.kill()
        process.communicate(timeout=LONGEST_WAIT)


def killed_on_the_way(tool: Tool) -> None:
    """Killed while an image comes, the tool leaves what is due by then, and the whole image makes it good."""
    words = f"store - long --length {len(ALL_KINDS)}"
    for come in (30, 43, 48, 59, 63, 64, len(ALL_KINDS)):
        after = stored_in_pieces([ALL_KINDS[:come]], len(ALL_KINDS), read("long"))[1]
        with receiving(tool, words, [ALL_KINDS[:come]]):
            demo.holds_soon(lambda: read("long") == after)
            expect_end(tool.run("store p2 long"), 3, "is busy")
        expect(read("long") == after, f"what {come} bytes leave")
    expect_end(tool.send(words, [ALL_KINDS[:7], ALL_KINDS[7:]]), 0)
    expect(read("long") == store.store(ALL_KINDS, FILES["long"])[1], "the partition in the end")


def faults_on_the_way(tool: Tool) -> None:
    """A bad disk is told after a refusal too; so are an image and a partition that change while it is stored."""
    for image in ("p2", "wrong"):
        expect_end(tool.send(STORE_P2, [FILES[image]], BAD_FILE="1"), 3, "may not be on the disk")
    for faults in ({"TOUCH": "p2"}, {"SPOILED": "1"}):
        expect_end(tool.run(STORE_P2, "<p2", **faults), 3, "the image changed while it was stored; store it again")
    expect_end(tool.send(STORE_P2, [FILES["p2"]], CUT="cut"), 3, "to its end")


# What a terminal shows.

class Screen:
    """A terminal that is standard error of the tool, and all that the tool sends there."""

    def __init__(self, columns: int = 80) -> None:
        self.text = ""
        self.end, self.tools_end = pty.openpty()
        fcntl.ioctl(self.end, termios.TIOCSWINSZ, struct.pack("HHHH", 24, columns, 0, 0))

    def begin(self, tool: Tool, words: str, stdin: Any = None, **faults: str) -> "subprocess.Popen[bytes]":
        """Begins to run the tool there."""
        process = tool.begin(words, stdin, self.tools_end, **faults)
        os.close(self.tools_end)
        return process

    def take(self, pattern: str) -> None:
        """Takes in what comes until it has the pattern, or the tool has ended."""
        with contextlib.suppress(OSError):
            while not re.search(pattern, self.text) and select.select([self.end], [], [], LONGEST_WAIT)[0]:
                self.text += os.read(self.end, 4096).decode()

    def finish(self, process: "subprocess.Popen[bytes]") -> "subprocess.CompletedProcess[str]":
        """Takes in all; as standard error counts what then stands on the screen."""
        if process.stdin is not None:
            process.stdin.close()
            process.stdin = None
        self.take("(?!)")
        os.close(self.end)
        done = ended(process)
        done.stderr = self.left()
        return done

    def left(self) -> str:
        """What stands there: a return goes back to the first column, and what is there is written over."""
        rows, column = [""], 0
        for sign in self.text:
            if sign == "\n":
                rows.append("")
            elif sign != "\r":
                rows[-1] = rows[-1][:column] + sign + rows[-1][column + 1:]
            column = column + 1 if sign not in "\r\n" else 0
        return "\n".join(row.rstrip() for row in rows)

    def show(self, tool: Tool, words: str, shell: str = "") -> "subprocess.CompletedProcess[str]":
        """Runs the tool to its end with standard output there too; what then stands there counts as that."""
        process = subprocess.Popen(tool.command(words, shell), env=tool.environment(), stdout=self.tools_end,
                                   stderr=self.tools_end)
        os.close(self.tools_end)
        done = self.finish(process)
        done.stdout, done.stderr = done.stderr, ""
        return done


BYTES_DONE = r"\r{} {} B of 56 B, [0-9.]+ (?:Ki)?B/s, (?:[0-9]+ s|unknown time) left *"


def shown_from_pipes(tool: Tool) -> None:
    """How far an image has come is shown again and again, while none of it comes too, and wiped before the answer."""
    for words, what, times in ((STORE_P2, "storing", 2), ("judge - 12 --length 56 --json", "judging", 1)):
        screen = Screen()
        process = screen.begin(tool, words, subprocess.PIPE)
        demo.feed(process, [FILES["p2"][:40]])
        screen.take(f"(?:{BYTES_DONE.format(what, 40)}){{{times}}}")
        expect(re.fullmatch(f"(?:{BYTES_DONE.format(what, '[0-9]+')})+", screen.text) is not None, f"{screen.text!r}")
        demo.feed(process, [FILES["p2"][40:]])
        done = screen.finish(process)
        expect(done.stderr == "" and done.stdout == tool.run(words, "<p2").stdout, f"{screen.text!r}", done)


def shown_from_files(tool: Tool) -> None:
    """A file is shown as it is judged, stored and put on the disk, in lines that the terminal has room for."""
    screen = Screen(30)
    process = screen.begin(tool, "store p2 cut", SLOW_END="1", WAIT="mark")
    screen.take("disk")
    expect(demo.holds_soon(lambda: os.path.exists("mark")), "the tool did not come so far")
    os.remove("mark")
    done = screen.finish(process)
    shown = r"\rjudging 56 B of 56 B.*\rstoring 56 B of 56 B.*\rputting it on the disk, 0 s"
    expect(re.search(shown, screen.text) is not None, f"what is shown: {screen.text!r}")
    expect(max(len(line) for line in screen.text.split("\r")) < 30, f"lines that are too long: {screen.text!r}")
    expect(done.stderr == "" and done.stdout == "ok written 1 skipped 2 unknown 0\n", "what is left", done)
    expect(read("cut") == LEFT["part"], "the partition")
    screen = Screen()
    done = screen.finish(screen.begin(tool, "store p2 cut", SLOW_END="1", BAD_END="1"))
    expect("\rjudging" in screen.text and done.stderr.startswith("tarpaulark: p2: cannot be read"), "a failure", done)


def outcome(tool: Tool, words: str, faults: Dict[str, str], watched: bool) -> Tuple[int, str, str, bytes]:
    """Status, answer, what is said and the partition after a run on the files as they were."""
    for name in ("p2", "p6", "cut"):
        save(name, FILES[name])
    if watched:
        screen = Screen()
        done = screen.finish(screen.begin(tool, words, **faults))
    else:
        done = tool.run(words, **faults)
    return done.returncode, done.stdout, done.stderr, read("cut")


def told_on_terminals(tool: Tool) -> None:
    """Storing a file where a terminal watches ends as it does elsewhere."""
    images = ("p2", "p6", "p7", "p8", "wrong", "kinds", "hollow", "none", "cut", "missing")
    plain = [(f"store {image} cut{more}", {}) for image in images for more in ("", " --json")]
    for words, faults in plain + [
        ("store p2 cut --limit 1", {}), ("store p2 cut --dry-run", {}), ("store p2 cut", {"BAD_FILE": "1"}),
        ("store p2 cut", {"TOUCH": "p2"}), ("store p6 cut", {"GROW": "p6"}),
    ]:
        here, there = outcome(tool, words, faults, True), outcome(tool, words, faults, False)
        expect(here == there, f"{words} {faults}: {there}, and on a terminal {here}")
    changed = outcome(tool, "store p2 cut", {"SPOILED": "1"}, True)
    expect(changed[0] == 3 and "the image changed while it was stored; store it again" in changed[2], f"{changed}")


# What changed between two images.

CHANGES = ("neither", "only first", "only second", "equal", "different")

# What a cell of one kind is drawn as, of the first image and of the second.
SIDES = {"neither": "..", "only first": "+.", "only second": ".+", "equal": "==", "different": "##"}


def expect_changes(tool: Tool, runs: Sequence[compare.Run], block: int, total: int) -> None:
    """What is said of the images in `first` and `second`, which have these runs: as an object and in text."""
    told = json.loads(tool.run("diff first second --json").stdout)
    listed = [(run["first"], run["blocks"], CHANGES.index(run["kind"])) for run in told["list"]]
    expect(listed == [tuple(run) for run in runs] and told["runs"] == len(runs), f"runs {runs}, not {told}")
    expect((told["block"], told["total"], told["status"]) == (block, total, 0), f"{told}")
    expect(all(run["bytes"] == run["blocks"] * block for run in told["list"]), f"bytes of runs, {told}")
    totals = [sum(run.blocks for run in runs if run.kind == kind) for kind in range(len(CHANGES))]
    wanted = [{"kind": kind, "blocks": blocks, "bytes": blocks * block} for kind, blocks in zip(CHANGES, totals)]
    expect(told["totals"] == wanted and sum(totals) == total, f"totals {wanted}, not {told['totals']}")
    done = tool.run("diff first second")
    lines = [f"{run['first']:11} {run['kind']:11} {run['blocks']:10} {run['bytes']:15}" for run in told["list"]]
    lines += [f"      total {one['kind']:11} {one['blocks']:10} {one['bytes']:15}" for one in wanted]
    expect(done.stdout.split("\n")[2:-1] == lines and not done.stderr, f"{lines} expected", done)


def expect_cells(tool: Tool, runs: Sequence[compare.Run]) -> None:
    """How the images in `first` and `second`, which have these runs and a cell for each block, are drawn."""
    told = json.loads(tool.run("diff first second --map --json").stdout)
    cells = ["".join(SIDES[CHANGES[run.kind]][side] * run.blocks for run in runs) for side in range(2)]
    expect([told["first"], told["second"]] == cells and told["cell"] == 1, f"cells {cells}, not {told}")
    lines = tool.run("diff first second --map").stdout.split("\n")[2:]
    for at in range(0, len(cells[0]), 32):
        line = f"{at:10}  {cells[0][at:at + 32]:32}  {cells[1][at:at + 32]}"
        expect(lines[at // 32] == line, f"{line!r} expected, not {lines}")


def compared_as_the_reference(tool: Tool) -> None:
    """Runs, totals and cells of random images are those of the reference."""
    rng = random.Random(15)
    for _ in range(12):
        pair = cases_compare.random_pair(rng, (4, 8, 12), 90)
        first, second = cases_compare.images_of(rng, pair)
        save("first", first)
        save("second", second)
        runs = compare.runs_of(first, second)
        expect_changes(tool, runs, pair.size, len(pair.first))
        expect_cells(tool, runs)


def refused_as_the_reference(tool: Tool) -> None:
    """An image that is refused, as the first, as the second and as both; other geometry too."""
    other = FILES["kinds"]
    for image in cases_compare.refused_images():
        for first, second in ((image, other), (other, image), (image, FILES["wrong"]), (FILES["p6"], image)):
            save("first", first)
            save("second", second)
            refusal = compare.compare(first, second, 99)
            assert isinstance(refusal, compare.Refusal)
            name = ("first", "second")[refusal.image - 1]
            done = tool.run("diff first second")
            expect_end(done, 1, f"refused {refusal.number} at {refusal.place}\n")
            expect(done.stderr.endswith(f"\nin the {name} image, {name}\n") and not done.stdout, f"{refusal}", done)
            told = json.loads(tool.run("diff first second --json").stdout)
            expect((told["number"], told["place"], told["image"], told["name"], told["status"])
                   == (refusal.number, refusal.place, name, name, 1), f"{refusal}: {told}")


def told_of_refusals(tool: Tool) -> None:
    """All that is said of a refusal: the file, by its name as given, or block sizes and totals."""
    save("first", FILES["p6"])
    said = "refused 10 at 56\nbytes remain after the last chunk\nin the {} image, {}\n"
    expect_end(tool.run("diff ./first p2"), 1, said.format("first", "./first"))
    expect_end(tool.run("diff p2 ./first"), 1, said.format("second", "./first"))
    differ = "block size or total blocks of the two images differ"
    for names, geometry in (("p2 kinds", "first image: block 4 total 3; second image: block 4 total 10"),
                            ("raws p2", "first image: block 8 total 3; second image: block 4 total 3"),
                            ("nothing p2", "first image: block 4096 total 0; second image: block 4 total 3")):
        done, told = tool.run(f"diff {names}"), json.loads(tool.run(f"diff {names} --json").stdout)
        expect(done.stderr == f"refused 17 at 0\n{differ}\n{geometry}\n" and not done.stdout, names, done)
        expect((told["number"], told["place"]) == (17, 0) and told["meaning"] == differ, f"{told}")
        expect(told["geometry"] == geometry and "image" not in told and "name" not in told, f"{told}")


def compared_vast(tool: Tool) -> None:
    """Images of 2^32 - 1 blocks of 65,536 bytes."""
    first = [build.skip(2**30), build.unknown(9, 2**30), build.fill(b"\0\0\0\1", 2**31 - 1)]
    second = [build.fill(b"\0\0\0\1", 2**30), build.skip(2**30 - 1), build.fill(b"\0\0\0\1", 2**30),
              build.fill(b"\0\0\0\2", 2**30)]
    save("first", build.sparse_image(65536, first))
    save("second", build.sparse_image(65536, second))
    runs = ((0, 2**30, 2), (2**30, 2**30 - 1, 0), (2**31 - 1, 1, 2), (2**31, 2**30 - 1, 3),
            (2**31 + 2**30 - 1, 2**30, 4))
    expect_changes(tool, [compare.Run(*run) for run in runs], 65536, 2**32 - 1)
    told = json.loads(tool.run("diff first second --map --json").stdout)
    expect(told["first"] == "." * 512 + "=" * 255 + "%" + "#" * 256, f"cells of the first, {told['first']}")
    expect(told["second"] == "+" * 256 + "." * 255 + "%" + "=" * 255 + "%" + "#" * 256, f"{told['second']}")
    save("first", FILES["p2"])
    done = tool.run("diff first second")
    expect_end(done, 1, "first image: block 4 total 3; second image: block 65536 total 4294967295\n")


# Cells of three blocks each: what the two images do, and the signs for both.
MIXED_CHANGES = (
    ("...", "...", ".."), ("aaa", "...", "+."), ("...", "aaa", ".+"), ("aaa", "aaa", "=="), ("aaa", "bbb", "##"),
    (".a.", ".a.", "--"), (".a.", "...", "%."), ("...", "a..", ".%"), ("aaa", "aab", "%%"), ("a..", "a.a", "%%"),
    ("a.a", "aaa", "%%"), ("a..", "..a", "%%"), (".aa", ".ab", "%%"), ("aaa", "b..", "%%"), ("ab.", "ab.", "--"),
)


def plans_of(blocks: str) -> List[build.ChunkPlan]:
    """A chunk for each block, skipped for a dot."""
    return [build.skip(1) if block == "." else build.raw(block.encode("ascii") * 4, 4) for block in blocks]


def compared_mixed(tool: Tool) -> None:
    """A cell of several kinds tells whether some of its blocks changed, of an image that writes any of them."""
    for side, name in enumerate(("first", "second")):
        blocks = "".join(cell[side] for cell in MIXED_CHANGES)
        save(name, build.sparse_image(4, plans_of(blocks) + [build.fill(bytes(4), 3 * 1009)]))
    runs = len(compare.runs_of(read("first"), read("second")))
    lines = tool.run("diff first second --map").stdout.split("\n")
    cells = ["".join(signs[side] for _, _, signs in MIXED_CHANGES).ljust(32, "=") for side in range(2)]
    legend = ("a cell is 3 blocks:  . not written  + in this image alone  = in both, equal  # in both, different"
              "  - mixed, none changed  % mixed, some changed")
    expect(lines[0] == f"block 4 total 3072 runs {runs} cell 3", f"{lines}")
    expect(lines[2] == f"{0:10}  {cells[0]}  {cells[1]}", f"{lines}")
    expect(lines[33] == f"{2976:10}  {'=' * 32}  {'=' * 32}" and lines[34] == legend, f"{lines}")


def compared_in_svg(tool: Tool) -> None:
    """The picture has both names, a note for each cell and a line for each kind."""
    done = tool.run("diff ./last next --svg picture.svg")
    expect(done.stdout == CHANGED + "\n" and not done.stderr, "the answer", done)
    texts = list(xml.etree.ElementTree.parse("picture.svg").getroot().itertext())
    expect("last and next" in texts and "blocks 5 to 5: different 1" in texts, f"{texts}")
    legend = texts.index("only second")
    expect(texts[legend:legend + 4] == ["only second", "4 blocks", "16 bytes", "only the second image writes them"],
           f"the legend, {texts[legend:legend + 4]}")


def save_alternating(blocks: int, gap: int) -> None:
    """Images of so many blocks that are equal and different in turn, before blocks that are skipped."""
    for name, two in (("first", b"samesame"), ("second", b"sameelse")):
        save(name, build.sparse_image(4, [build.raw(two * (blocks // 2), 4), build.skip(gap)], checksum=0))


def compared_at_length(tool: Tool) -> None:
    """Lists of more runs than there is room for at first: the space grows until it is enough."""
    for blocks, gap in ((65536, 0), (65536, 1), (70000, 0), (262144, 2**31), (300000, 2**32 - 1 - 300000)):
        save_alternating(blocks, gap)
        told = json.loads(tool.run("diff first second --map --json").stdout)
        expect(told["runs"] == blocks + (gap > 0) and told["status"] == 0, f"{blocks} runs, not {told['runs']}")
        totals = [gap, 0, 0, blocks // 2, blocks // 2]
        expect([one["blocks"] for one in told["totals"]] == totals, f"totals of {blocks} runs, {told['totals']}")
    save_alternating(70000, 3)
    runs = [compare.Run(block, 1, 3 + block % 2) for block in range(70000)] + [compare.Run(70000, 3, 0)]
    expect_changes(tool, runs, 4, 70003)


def run_limited(
    limit: str, tool: Tool, words: str, environment: Optional[Dict[str, str]] = None
) -> "subprocess.CompletedProcess[str]":
    """Runs it to its end under a limit that a shell sets before."""
    return subprocess.run(["sh", "-c", f'{limit} exec "$0" {words}', tool.path], env=environment or tool.environment(),
                          capture_output=True, text=True, timeout=LONGEST_WAIT, check=False)


def no_memory(tool: Tool) -> None:
    """Where there is no memory for the list, that is told, in words and as an object."""
    save_alternating(300000, 2**31)
    environment = tool.environment()
    limit = "ulimit -v 13000;"
    if b"__asan_init" in read(tool.path):
        limit = ""
        environment["ASAN_OPTIONS"] += ":max_allocation_size_mb=8:allocator_may_return_null=1"
    words = "cannot be compared; see that there is memory for 1048576 runs of 12 bytes each"
    for more in ("", " --json"):
        done = run_limited(limit, tool, f"diff first second{more}", environment)
        said = json.loads(done.stdout)["words"] if more else done.stderr
        expect(done.returncode == 3 and words in said, "what is said", done)


# Two images made one.

def expect_joined(tool: Tool, first: bytes, second: bytes) -> bytes:
    """The joining of two images, in place of whatever stood there, is the reference's; all that is said of it."""
    save("first", first)
    save("second", second)
    done, told = tool.run("join first second both"), json.loads(tool.run("join first second other --json").stdout)
    expect_end(done, 0)
    image = read("both")
    expect(image == join.image_of(first, second) == read("other"), f"the image of {first!r} and {second!r}", done)
    header = sparse.read_header(image)
    numbers = len(image), header.block_size, header.total_blocks, header.total_chunks
    expect(done.stdout == "ok bytes {} block {} total {} chunks {}\n".format(*numbers), f"{numbers}", done)
    expect((told["bytes"], told["block"], told["total"], told["chunks"]) == numbers and not told["status"], f"{told}")
    remarks = [f"{side} image: {one}\n" for side, one in zip(("first", "second"), map(joint_remarks, (first, second)))
               if one]
    expect(done.stderr == "".join(remarks), f"{remarks} expected", done)
    expect([told[side] + "\n" for side in ("first", "second") if side in told] == remarks, f"{told}")
    return image


def joint_remarks(image: bytes) -> str:
    """What is remarked on one of two accepted images, in one line; its unknown blocks may be written by the other."""
    remarks = re.sub("kept as (it was|they were)", "not written", remarks_on(image))
    return remarks.rstrip("\n").replace("\n", "; ")


def stored_by(tool: Tool, partition: bytes, *images: bytes) -> bytes:
    """What the tool leaves of a partition when it stores images one after the other."""
    save("fresh", partition)
    for image in images:
        save("image", image)
        expect_end(tool.run("store image fresh"), 0)
    return read("fresh")


def joined_as_the_reference(tool: Tool) -> None:
    """Random images are joined as by the reference, and storing the one leaves what storing the two leaves."""
    rng = random.Random(16)
    save("both", b"old" * 1000)
    for _ in range(12):
        pair = cases_compare.random_pair(rng, (4, 8, 12), 40)
        first, second = cases_compare.images_of(rng, pair)
        image = expect_joined(tool, first, second)
        partition = rng.randbytes(pair.size * len(pair.first) + rng.randrange(9))
        expect(stored_by(tool, partition, image) == stored_by(tool, partition, first, second), "what is stored")


def joined_in_groups(tool: Tool) -> None:
    """Of three images it does not matter which two are joined first; one joined with itself, and once more, is the
    same; and images of one effect become the same bytes."""
    rng = random.Random(17)
    for _ in range(6):
        size, count = rng.choice((4, 8, 12)), rng.randrange(1, 30)
        rows = [cases_compare.random_blocks(rng, size, count) for _ in range(3)]
        one, two, three = (cases_compare.image_of(rng, size, row) for row in rows)
        left = expect_joined(tool, expect_joined(tool, one, two), three)
        right = expect_joined(tool, one, expect_joined(tool, two, three))
        expect(left == right, f"three images, {one!r}, {two!r}, {three!r}")
        compact = expect_joined(tool, one, one)
        expect(expect_joined(tool, compact, compact) == compact, f"joined twice, {one!r}")
        again = cases_compare.image_of(rng, size, rows[0])
        expect(expect_joined(tool, again, again) == compact, f"one effect, {one!r} and {again!r}")


@contextlib.contextmanager
def nothing_made() -> Iterator[None]:
    """The file `both` stands as it was, and none is made or left over."""
    save("both", b"as it was")
    before, names = os.stat("both"), set(os.listdir("."))
    yield
    after = os.stat("both")
    expect(read("both") == b"as it was" and (after.st_ino, after.st_mtime_ns) == (before.st_ino, before.st_mtime_ns),
           "the file that stood there")
    expect(set(os.listdir(".")) == names, "what is left over")


def joins_refused(tool: Tool) -> None:
    """An image that is refused, as the first, as the second and as both, also where they could not be joined."""
    for image in cases_compare.refused_images():
        for first, second in ((image, FILES["kinds"]), (TOO_MUCH, image), (image, FILES["wrong"]),
                              (FILES["p6"], image)):
            save("first", first)
            save("second", second)
            refusal = join.refusal_of(first, second)
            assert refusal is not None
            name = ("first", "second")[refusal.image - 1]
            with nothing_made():
                done = tool.run("join first second both")
                told = json.loads(tool.run("join first second new --json").stdout)
            expect_end(done, 1, f"refused {refusal.number} at {refusal.place}\n")
            expect(done.stderr.endswith(f"\nin the {name} image, {name}\n") and not done.stdout, f"{refusal}", done)
            expect((told["number"], told["place"], told["image"], told["name"], told["status"])
                   == (refusal.number, refusal.place, name, name, 1), f"{refusal}: {told}")


def told_of_geometry(tool: Tool) -> None:
    """Of 17 it is said which of its reasons it is: images that differ, or too many bytes."""
    differ = "block size or total blocks of the two images differ"
    above = "total blocks x block size above 2,147,483,648: too large to be joined"
    save("vast", build.sparse_image(65536, [build.skip(2**32 - 1)]))
    save("short", build.sparse_image(4, [build.fill(b"\0\0\0\1", 2**29), build.unknown(5, 1)]))
    for names, meaning, geometry in (
        ("p2 kinds", differ, "first image: block 4 total 3; second image: block 4 total 10"),
        ("raws p2", differ, "first image: block 8 total 3; second image: block 4 total 3"),
        ("most too-much", differ, "first image: block 65536 total 32768; second image: block 65536 total 32769"),
        ("vast too-much", differ, "first image: block 65536 total 4294967295; second image: block 65536 total 32769"),
        ("too-much too-much", above, "both images: block 65536 total 32769"),
        ("vast vast", above, "both images: block 65536 total 4294967295"),
        ("short short", above, "both images: block 4 total 536870913"),
    ):
        with nothing_made():
            done, told = tool.run(f"join {names} both"), json.loads(tool.run(f"join {names} new --json").stdout)
        expect(done.stderr == f"refused 17 at 0\n{meaning}\n{geometry}\n" and not done.stdout, names, done)
        expect((told["number"], told["place"], told["meaning"]) == (17, 0, meaning), f"{told}")
        expect(told["geometry"] == geometry and "image" not in told and "name" not in told, f"{told}")


def joined_vast(tool: Tool) -> None:
    """As many bytes as can be joined, in the longest blocks and in the shortest."""
    expect(expect_joined(tool, MOST, MOST) == MOST, "a compact image")
    for size, blocks in ((65536, 2**15), (4, 2**29)):
        first = [build.fill(b"more", blocks // 4), build.skip(blocks // 4), build.fill(b"less", blocks // 2)]
        second = [build.skip(blocks // 2 + 1), build.raw(bytes(size), size), build.fill(b"less", 1),
                  build.unknown(9, blocks // 2 - 3)]
        plans = first[:2] + [build.fill(b"less", 1), build.fill(bytes(4), 1), build.fill(b"less", blocks // 2 - 2)]
        image = expect_joined(tool, build.sparse_image(size, first), build.sparse_image(size, second))
        expect(image == build.sparse_image(size, plans), f"the image of blocks of {size} bytes")


def joined_at_length(tool: Tool) -> None:
    """Raw blocks of one word each become as many fill chunks: nearly four times the bytes of both images, which name
    many blocks more."""
    words = [struct.pack("<I", number) for number in range(1000)]
    first = build.sparse_image(4, [build.raw(b"".join(words), 4), build.skip(2**28)])
    second = build.sparse_image(4, [build.skip(1000 + 2**28)])
    for pair in ((first, second), (second, first)):
        image = expect_joined(tool, *pair)
        expect(image == build.sparse_image(4, [*(build.fill(word, 1) for word in words), build.skip(2**28)]),
               "the image of blocks of one word")
        expect(len(image) > 3.9 * (len(first) + len(second)), f"{len(image)} bytes")


def joined_in_little_room(tool: Tool) -> None:
    """Short images are joined, and refused, however many blocks they name, where files are so limited that the writer
    fails."""
    limit, most = "ulimit -f 1;", 2**29
    save("flat", bytes(4096))
    expect_end(run_limited(limit, tool, "write flat 4 image"), 3, "nothing is changed")
    first, second = (build.sparse_image(4, [build.fill(word, most)]) for word in (b"less", b"more"))
    fewer, above = (build.sparse_image(4, [build.fill(b"less", blocks)]) for blocks in (most - 1, most + 1))
    save("first", first)
    save("second", second)
    done = run_limited(limit, tool, "join first second both")
    expect(done.returncode == 0 and read("both") == second, "two short images", done)
    for number, pair in ((10, (first + b"\0", second)), (10, (first, second + b"\0")), (17, (first, fewer)),
                         (17, (above, above)), (17, (fewer, above))):
        save("first", pair[0])
        save("second", pair[1])
        with nothing_made():
            expect_end(run_limited(limit, tool, "join first second both"), 1, f"refused {number} at ")


def unknown_joined(tool: Tool) -> None:
    """Of the unknown blocks of an image it is said only that it does not write them: the other image may."""
    said = "{} image: 1 chunk of unknown type: 2 blocks not written; the first is 0xCAC5 at offset 44\n"
    save("full", build.sparse_image(4, [build.fill(b"full", 3)]))
    for words, side, image in (("full p7", "second", [build.fill(b"\xFF" * 4, 1), build.fill(b"full", 2)]),
                               ("p7 full", "first", [build.fill(b"full", 3)])):
        done = tool.run(f"join {words} both")
        expect(done.returncode == 0 and done.stderr == said.format(side), words, done)
        expect(read("both") == build.sparse_image(4, image), f"the image of {words}")


def joined_over_links(tool: Tool) -> None:
    """The file that a link leads to is replaced, by a shorter one or a longer; its mode stays."""
    os.symlink("real", "both")
    for old in (b"", b"old" * 1000):
        save("real", old)
        os.chmod("real", 0o640)
        expect_joined(tool, UNDER, OVER)
        expect(os.path.islink("both") and read("real") == UNDER_OVER, "the file that the link leads to")
        expect(stat.S_IMODE(os.stat("real").st_mode) == 0o640, "its mode")
    os.link("p2", "hard")
    expect_end(tool.run("join p7 p8 hard"), 2, "hard links")
    os.symlink("p7", "soft")
    expect_end(tool.run("join p7 p8 soft"), 2, "an image and OUT are one file: name another")
    expect(read("p2") == FILES["p2"] and read("p7") == FILES["p7"], "images under other names")


# Any number of images added up.

# The length of a partition for which no image gets 6.
NO_LIMIT = 2**64 - 1

# What README.md and the man page show a report on.
SHOWN = (
    build.sparse_image(4096, [build.fill(b"tarp", 100), build.skip(28)]),
    build.sparse_image(4096, [build.raw(bytes(range(256)) * 32, 4096), build.unknown(7, 2), build.fill(bytes(4), 60)]),
    build.sparse_image(4096, [build.fill(b"tarp", 300)]),
    build.two_chunks(checksum=1),
    build.sparse_image(4096, [build.fill(b"lark", 7)], checksum=1),
)

# For each refusal number of an image one that gets it, and the length of its partition.
ONE_EACH: Dict[int, Tuple[bytes, int]] = {
    1: (b"", 0),
    2: (build.sparse_image(4, PLANS, magic=1), 40),
    3: (build.sparse_image(4, PLANS, major=2), 40),
    4: (build.sparse_image(4, PLANS, chunk_header_size=8), 40),
    5: (build.sparse_image(6, [build.fill(b"word", 1)]), 40),
    6: (ALL_KINDS, 39),
    7: (ALL_KINDS[:-1], 40),
    8: (build.sparse_image(4, [build.skip(1)._replace(total_size=16)]), 40),
    9: (build.sparse_image(4, PLANS, total_blocks=9), 40),
    10: (ALL_KINDS + b"more", 40),
    11: (build.sparse_image(4, PLANS, checksum=1), 40),
}


def report_on(images: Sequence[bytes], room: int = NO_LIMIT) -> report.Report:
    """The report of images from the empty one on, by the reference."""
    found = report.EMPTY
    for image in images:
        number, found = report.count(found, image, room)
        expect(number == 0, f"the reference refuses with {number}")
    return found


def meaning_of(tool: Tool, number: int) -> str:
    """What a refusal number that an image may get means, in the words of `judge`."""
    image, room = ONE_EACH[number]
    save("refused", image)
    done = tool.run(f"judge refused {room}")
    expect(done.returncode == 1 and done.stderr.startswith(f"refused {number} at "), f"{number}", done)
    return done.stderr.split("\n")[1]


def refusals_told(names: Sequence[str], room: int) -> List[Tuple[str, int]]:
    """Those of the files that are refused, and the number of each."""
    verdicts = [(name, sparse.judge(read(name), room)) for name in names]
    return [(name, verdict.number) for name, verdict in verdicts if isinstance(verdict, sparse.Refusal)]


def expect_report(tool: Tool, names: Sequence[str], room: Optional[int] = None) -> report.Report:
    """What is said of files: the totals of the reference, and each image that is refused; in text and as an object."""
    words = " ".join(["report", *names] + ([] if room is None else ["--partition-length", str(room)]))
    limit = NO_LIMIT if room is None else room
    want, refused = report_on([read(name) for name in names], limit), refusals_told(names, limit)
    done = tool.run(words)
    expect(done.returncode == 0 and done.stdout == report.text(want), f"{words}: {want} expected", done)
    lines = [line.split(": ", 3) for line in done.stderr.splitlines()]
    expect([line[:3] for line in lines] == [["tarpaulark", name, f"refused {number}"] for name, number in refused],
           f"{words}: {refused} expected", done)
    told = json.loads(tool.run(f"{words} --json").stdout, object_pairs_hook=members)
    totals = [told[name] for name in ("accepted", "blocks", "bytes", "skipped", "largest")]
    expect(totals == list(want[:5]) and told["status"] == 0, f"{words}: {told}")
    expect([(one["name"], one["number"]) for one in told["images"]] == refused, f"{words}: {told}")
    expect([one["meaning"] for one in told["images"]] == [line[3] for line in lines], f"{words}: {told}")
    counts = [(number, count) for number, count in zip(report.REFUSALS, want.refused) if count]
    expect([(one["number"], one["count"]) for one in told["refused"]] == counts, f"{words}: {told}")
    return want


def reported_as_the_reference(tool: Tool) -> None:
    """Reports on random images and refused ones are those of the reference; in any order, and from halves added up."""
    rng = random.Random(16)
    images = [*cases_store.refused_images(41), *FILES.values(), *(cases_store.random_image(rng) for _ in range(12))]
    for i, image in enumerate(images):
        save(f"i{i}", image)
    for room in (None, None, 41, 12, rng.randrange(1000), 2**32):
        names = [f"i{rng.randrange(len(images))}" for _ in range(rng.randrange(1, 30))]
        cut = rng.randrange(1, len(names)) if len(names) > 1 else 1
        halves = [expect_report(tool, half, room) for half in (names[:cut], names[cut:]) if half]
        whole = expect_report(tool, rng.sample(names, len(names)), room)
        expect(whole == (report.add(*halves).report if len(halves) == 2 else halves[0]), f"halves of {names}")


def each_refusal_reported(tool: Tool) -> None:
    """Each refusal number is counted and told in the words that `judge` has for it."""
    for number in report.REFUSALS:
        meaning = meaning_of(tool, number)
        words = f"report refused p2 refused --partition-length {max(12, ONE_EACH[number][1])}"
        done = tool.run(words)
        expect(done.stdout == reported(1, 1, 4, 2, 12, f"{number} 2") + "\n", words, done)
        expect(done.stderr == f"tarpaulark: refused: refused {number}: {meaning}\n" * 2, words, done)
        told = json.loads(tool.run(f"{words} --json").stdout)
        expect(told["refused"] == [{"number": number, "count": 2, "meaning": meaning}], f"{number}: {told}")
        expect(told["images"] == [{"name": "refused", "number": number, "meaning": meaning}] * 2, f"{number}: {told}")
    done = tool.run("report p6 p2 p6", "2>&1")
    line = "tarpaulark: p6: refused 10: bytes remain after the last chunk\n"
    expect(done.stdout == line * 2 + reported(1, 1, 4, 2, 12, "10 2") + "\n", "the totals come last", done)


def nothing_remarked(tool: Tool) -> None:
    """Of images without a checksum, and of unknown chunks, a report says nothing."""
    for name in ("p7", "p8", "unsummed", "strange", "hollow"):
        done = tool.run(f"report {name}")
        expect(done.returncode == 0 and done.stderr == "", name, done)
        told = json.loads(tool.run(f"report {name} --json").stdout)
        expect(set(told) == {"command", "images", "accepted", "blocks", "bytes", "skipped", "largest", "refused",
                             "result", "status"}, f"{name}: {told}")


def drawn(tool: Tool, counts: Dict[int, int]) -> List[str]:
    """The lines of refusal numbers on a terminal, by the counts: beginning, bar and meaning in columns; a meaning goes
    on below where its line is full."""
    heads = {number: f"refused {number} {count}" for number, count in counts.items()}
    width, lines = max(map(len, heads.values())), []
    for number, count in counts.items():
        bar = "#" * -(-20 * count // max(counts.values()))
        left, rows = meaning_of(tool, number).split(" "), []
        while left:
            taken = max(n for n in range(1, len(left) + 1) if n == 1 or width + 24 + len(" ".join(left[:n])) < 80)
            rows.append(" ".join(left[:taken]))
            left = left[taken:]
        lines.append(f"{heads[number]:{width}}  {bar:20}  {rows[0]}")
        lines += [" " * (width + 24) + row for row in rows[1:]]
    return lines


def bars_on_terminals(tool: Tool) -> None:
    """Where standard output is a terminal, a bar and the meaning follow each refusal number, in columns that fit;
    elsewhere, and in an object, nothing does."""
    for number, (image, _) in ONE_EACH.items():
        save(f"r{number}", image)
    for counts in ({10: 1}, {1: 1, 11: 1}, {number: number for number in ONE_EACH if number != 6}, {2: 1, 4: 200},
                   {7: 99, 8: 100, 9: 5, 11: 6}, {3: 1, 4: 1500, 5: 75, 7: 76}):
        names = " ".join(name for number, count in counts.items() for name in [f"r{number}"] * count)
        totals = reported(1, 1, 4, 2, 12).split("\n")
        done = Screen().show(tool, f"report p2 {names}", "2>/dev/null")
        rows = done.stdout.split("\n")
        expect(done.returncode == 0 and rows == totals + drawn(tool, counts) + [""], f"{counts}", done)
        expect(max(map(len, rows)) < 80, f"{counts}: lines that are too long", done)
        plain = tool.run(f"report p2 {names}").stdout.rstrip("\n").split("\n")
        expect([re.sub("  .*", "", row) for row in rows if row and row[0] != " "] == plain, f"{counts}: {plain}", done)
        expect(plain[5:] == [f"refused {number} {count}" for number, count in counts.items()], f"{counts}: {plain}")
    told = json.loads(Screen().show(tool, "report p2 p6 --json").stdout)
    expect(told == json.loads(tool.run("report p2 p6 --json").stdout), f"an object on a terminal, {told}")
    expect(Screen().show(tool, "report p2", "2>/dev/null").stdout == reported(1, 1, 4, 2, 12) + "\n", "nothing refused")
    screen = Screen()
    done = screen.finish(screen.begin(tool, "report p2 p6"))
    expect(done.stdout == reported(1, 1, 4, 2, 12, "10 1") + "\n", "only standard error is a terminal", done)
    expect(done.stderr == tool.run("report p2 p6").stderr, "what is said there", done)


def example_of_a_report(tool: Tool) -> None:
    """What README.md and the man page show of a report is what a terminal shows."""
    for number, image in enumerate(SHOWN, 1):
        save(f"{number}.simg", image)
    words, lines = examples_in_readme()[0]
    done = Screen(90).show(tool, words)
    expect(done.stdout == lines, f"{words}: {lines}", done)
    man = read(os.path.join(ROOT, "host", "tarpaulark.1")).decode("ascii").replace("\\-", "-")
    expect(f".nf\n$ tarpaulark {words}\n{lines}.fi\n" in man, "the man page shows something else")


def many_images(tool: Tool) -> None:
    """More images than files may be open, by their own names and by one."""
    os.mkdir("many")
    for i in range(2000):
        save(f"many/{i}", FILES["p6" if i % 5 == 0 else "kinds"])
    done = run_limited("ulimit -n 16;", tool, "report many/* " + "p2 " * 1000)
    expect(done.stdout == reported(2600, 10600, 42400, 8400, 40, "10 400") + "\n", "thousands of images", done)
    expect(len(done.stderr.splitlines()) == 400 and done.returncode == 0, "what is said of them", done)


def totals_that_pass(tool: Tool) -> None:
    """A total takes what 64 bits hold, and one byte more is refused with 61, at the image that brings it."""
    save("v", build.sparse_image(65536, [build.fill(b"vast", 2**32 - 1)], checksum=0))
    save("f", build.sparse_image(65536, [build.fill(b"fits", 65535)], checksum=0))
    save("b", build.sparse_image(4, [build.fill(b"byte", 16383)], checksum=0))
    save("p", build.sparse_image(4, [build.fill(b"past", 1)], checksum=0))
    full = reported(65539, 65536 * (2**32 - 1) + 65535 + 16383, 2**64 - 4, 3, 65536 * (2**32 - 1), "10 1") + "\n"
    refused = "tarpaulark: p6: refused 10: bytes remain after the last chunk\n"
    passes = "refused 61 at 0\na total would pass 64 bits: report on fewer images at a time\nin counting p\n"
    for more, outcome in ((("p6", "gaps"), (0, full, refused)), (("p6", "p", "p2"), (1, "", refused + passes))):
        names = [name.encode() for name in ("v",) * 65536 + ("f", "b") + more]
        try:
            done = tool.run_bytes(b"report", *names)
        except OSError as reason:
            raise CannotCheck("no room for so many words") from reason
        expect((done.returncode, done.stdout.decode(), done.stderr.decode()) == outcome, f"{more}", done)
    told = json.loads(tool.run_bytes(b"report", *names, b"--json").stdout)
    expect((told["number"], told["name"], told["status"]) == (61, "p", 1) and "accepted" not in told, f"{told}")
    expect([one["name"] for one in told["images"]] == ["p6"], f"{told}")


def positions_in_reports(_tool: Tool) -> None:
    """The header has the numbers of a report where the reference has them."""
    header = read(os.path.join(ROOT, "include", "tarpaulark.h")).decode("ascii")
    numbers = {name: int(number) for name, number in re.findall(r"TARPAULARK_(\w+)(?: =)? ([0-9]+)", header)}
    names = ("ACCEPTED", "BLOCKS", "BYTES", "SKIPPED", "LARGEST", "REFUSED")
    expect([numbers[f"REPORT_{name}"] for name in names] == list(range(len(report.EMPTY))), "positions in a report")
    expect(numbers["REPORT"] == len(report.EMPTY) - 1 + len(report.REFUSALS), "numbers of a report")
    expect(numbers["BAD_REPORT"] == report.add(report.EMPTY._replace(accepted=2**64 - 1),
                                               report.EMPTY._replace(accepted=1)).number, "the refusal of a report")
    table = [f"at {i} " for i in range(5)] + [f"at 5 to {numbers['REPORT'] - 1} "]
    expect([row for row in table if f" *    {row}" not in header] == [], "the table of a report")


def names_in_reports(tool: Tool) -> None:
    """What is said of a refused image is whole whatever it is called, and steers no terminal."""
    for name in ODD_NAMES:
        with open(name, "wb") as file:
            file.write(FILES["p6"])
        done = tool.run_bytes(b"report", name, b"p2", name)
        controls = re.findall("[\0-\x1f\x7f-\x9f]", done.stderr.decode("utf-8"))
        expect(done.returncode == 0 and controls == ["\n"] * 2, f"a refusal of {name!r}", done)
        told = json.loads(tool.run_bytes(b"report", name, b"--json").stdout.decode("utf-8"))
        expect((told["images"][0]["name"], told["status"]) == (as_text(name), 0), f"{name!r}: {told}")


# Boot images.

def retired_sections(tool: Tool) -> None:
    """Archived images, and those of versions 3 and 4 with bytes where older ones have the size of the second section, are
    told of as the reference has it: a retired section in text by a last line where one is present, and in the object
    always by whether one is."""
    for image in cases_boot.retired_images() + cases_boot.reserved_images():
        save("image", image)
        found = boot.locate(image)
        done, told = tool.run("sections image"), json.loads(tool.run("sections image --json").stdout)
        if isinstance(found, boot.Refusal):
            expect_end(done, 1, f"refused {found.number} at 0\n")
            expect(told["number"] == found.number and not {"sections", "retired"} & set(told), f"{told}")
            continue
        lines = [f"version {found.version}"] + [" ".join(map(str, section)) for section in found.sections]
        lines += ["retired section present"] * found.retired
        expect(done.returncode == 0 and done.stdout.split("\n") == lines + [""], f"{lines} expected", done)
        sections = [section._asdict() for section in found.sections]
        expect(told["version"] == found.version and told["sections"] == sections, f"{sections}, not {told}")
        expect(told["retired"] is found.retired, f"retired {found.retired}, not {told}")


def launch_images() -> Iterator[bytes]:
    """Images of every version, with an os version of 0 and without, and images with each boot refusal."""
    for version, os_version in itertools.product(range(5), (0, 1, 2**16, 2**31, 2**32 - 1)):
        yield cases_launch.image_of(version, os_version)
    yield from cases_boot.example_images()
    yield from cases_launch.refused_images(0)
    yield from cases_launch.refused_images(2**32 - 1)


def pair_name(release: int, kernel: int) -> str:
    """A pair as it is printed."""
    return f"{release} {launch.WORDS[kernel]}"


def takers_of(image: bytes) -> List[str]:
    """The pairs that take an accepted image, by the reference."""
    return [pair_name(*pair) for pair in cases_launch.PAIRS if launch.locate_for(image, *pair) == boot.locate(image)]


def expect_pairs(tool: Tool, image: bytes, version: int) -> None:
    """What is said of all pairs and an accepted image, which is in `image`: in text the pairs that take it, as the
    program prints them, then those that give each refusal; in the object each pair."""
    pairs: List[Dict[str, Any]] = []
    by_number: Dict[int, List[str]] = {}
    for release, kernel in cases_launch.PAIRS:
        answer = launch.locate_for(image, release, kernel)
        number = answer.number if isinstance(answer, boot.Refusal) else 0
        by_number.setdefault(number, []).append(pair_name(release, kernel))
        pair = {"release": release, "kernel": launch.WORDS[kernel], "taken": number == 0}
        pairs.append(pair if number == 0 else {**pair, "number": number, "meaning": LAUNCH_MEANINGS[number]})
    lines = [f"version {version}", *by_number.pop(0)]
    lines += [f"refused {number} for {', '.join(by_number[number])}: {LAUNCH_MEANINGS[number]}"
              for number in sorted(by_number)]
    done, told = tool.run("rules image"), json.loads(tool.run("rules image --json").stdout)
    expect(done.returncode == 0 and done.stdout.split("\n") == lines + [""] and not done.stderr, f"{lines}", done)
    expect(told == {"command": "rules", "version": version, "pairs": pairs, "result": "ok", "status": 0}, f"{told}")


def rules_as_the_reference(tool: Tool) -> None:
    """The pairs that take an image, and why the others do not, are those of the reference; an image that is refused
    without a release is refused in the same words. An image longer than the program reads is none of that."""
    for image in launch_images():
        save("image", image)
        found = boot.locate(image)
        if isinstance(found, boot.Refusal):
            done, plain = tool.run("rules image"), tool.run("sections image")
            expect_end(done, 1, f"refused {found.number} at 0\n")
            expect((done.stdout, done.stderr) == (plain.stdout, plain.stderr), f"{found}: the words", done)
            told, plain = (json.loads(tool.run(f"{words} image --json").stdout) for words in ("rules", "sections"))
            expect({**told, "command": "sections"} == plain, f"{told}, not {plain}")
            continue
        expect(launch.text(image) == "".join(name + "\n" for name in takers_of(image)), "the program's lines")
        expect_pairs(tool, image, found.version)
    image = build.boot_image(4, 70000, kernel=65000, os_version=1)
    save("image", image)
    expect(launch.text(image) == "too long\n", "an image that the program does not read")
    expect_pairs(tool, image, 4)


def found_in(image: bytes, number: int) -> str:
    """What is said of an image after a refusal that the release gives; nothing after any other."""
    if number not in (42, 43):
        return ""
    version = image[boot.VERSION_AT]
    os_version = boot.read_os_version(image, boot.TABLE[version])
    has = f"header version {version}" if number == 42 else f"os version 0x{os_version:08x}"
    return f"this image has {has} and is taken by {', '.join(takers_of(image))}"


def expect_asked(tool: Tool, image: bytes, release: int, kernel: int) -> None:
    """What is said of one pair and the image, which is in `image`: the sections as without it, or its refusal."""
    words = f"rules image {pair_name(release, kernel)}"
    done, told = tool.run(words), json.loads(tool.run(words + " --json").stdout)
    answer = launch.locate_for(image, release, kernel)
    if isinstance(answer, boot.Refusal):
        found = found_in(image, answer.number)
        lines = [f"refused {answer.number} at 0", told["meaning"]] + [found] * bool(found)
        expect(done.returncode == 1 and done.stderr.split("\n") == lines + [""] and not done.stdout, words, done)
        expect((told["number"], told["place"], told.get("found", "")) == (answer.number, 0, found), f"{told}")
        expect(told["meaning"] == LAUNCH_MEANINGS.get(answer.number, told["meaning"]), f"{told}")
        return
    plain, sections = tool.run("sections image"), json.loads(tool.run("sections image --json").stdout)
    taken = f"taken by {pair_name(release, kernel)}\n"
    expect(done.returncode == 0 and done.stdout == taken + plain.stdout and not done.stderr, words, done)
    pair = {"command": "rules", "release": release, "kernel": launch.WORDS[kernel]}
    expect(told == {**sections, **pair}, f"{words}: {told}, not {sections}")


def asked_as_the_reference(tool: Tool) -> None:
    """What each pair says of images, and pairs that there are not, is what the reference says."""
    releases = (0, 7, *cases_launch.RELEASES, 14, 255, 256 + 12, 2**32 - 1)
    for version, os_version in itertools.product(range(5), (0, 1)):
        image = cases_launch.image_of(version, os_version)
        save("image", image)
        for release, kernel in itertools.product(releases if os_version else cases_launch.RELEASES, launch.WORDS):
            expect_asked(tool, image, release, kernel)
    for image in cases_launch.refused_images(1):
        save("image", image)
        for pair in ((8, launch.PLAIN), (13, launch.GENERIC), (10, launch.GENERIC), (14, launch.PLAIN)):
            expect_asked(tool, image, *pair)


def same_table(_tool: Tool) -> None:
    """The header and the man page have the table of the reference: what each release takes with either kernel."""
    rows = ["release plain kernel generic kernel"]
    for release in cases_launch.RELEASES:
        row = [str(release)]
        for kernel in launch.WORDS:
            rule = launch.RULES.get((release, kernel))
            taken = " and ".join(map(str, rule.versions)) if rule else "no such pair: 41"
            row.append(taken + ", with an os version of 0" * bool(rule and rule.wants_no_os_version))
        rows.append(" ".join(row))
    man = text_of_man(read(os.path.join(ROOT, "host", "tarpaulark.1")).decode("ascii"))
    header = read(os.path.join(ROOT, "include", "tarpaulark.h")).decode("ascii")
    for name, text in (("the man page", man), ("the header", " ".join(re.sub(r"(?m)^ \*", "", header).split()))):
        expect(" ".join(rows) in text, f"{name} lacks {rows}")
    numbers = dict(re.findall(r"(TARPAULARK_\w+)(?: =)? ([0-9]+)", header))
    found = [int(numbers[f"TARPAULARK_{name}"]) for name in ("FIRST_RELEASE", "LAST_RELEASE", "PLAIN_KERNEL",
                                                           "GENERIC_KERNEL")]
    expect(found == [cases_launch.RELEASES[0], cases_launch.RELEASES[-1], launch.PLAIN, launch.GENERIC], f"{found}")


# The slot record.

# An operation, the record before it, what it says, and the record after it.
TURNS: Tuple[Tuple[str, bytes, str, bytes], ...] = (
    ("corrupted a", record_of("10102"), "ok", record_of("10112")),
    ("corrupted b", record_of("10003 11005"), "ok", record_of("10003 11015")),
    ("corrupted b", record_of("10003 10112"), "ok", record_of("10003 10112")),
    ("corrupted b", record_of("10003 00003"), "refused 32 at 0", record_of("10003 00003")),
    ("corrupted e", record_of("10003"), "refused 32 at 0", record_of("10003")),
    ("corrupted e", record_of("10008"), "refused 31 at 0", record_of("10008")),
    ("corrupted b", record_of("11113"), "refused 31 at 0", record_of("11113")),
    ("corrupted a", record_of("10023"), "refused 31 at 0", record_of("10023")),
    ("start", record_of("10112 10003 10100 10100"), "starts c", record_of("11012 10003 10100 10100", "c")),
    ("start", record_of("10100 10013", "b"), "starts a", record_of("10100 11013", "a")),
    ("start", record_of("10000 10112 10101"), "starts c", record_of("11000 10112 10101", "c")),
    ("start", record_of("10112 10003 00100"), "recovery", record_of("11012 10003 00100")),
    ("start", record_of("10000 10112"), "recovery", record_of("11000 10112")),
    ("start", record_of("11012 10112"), "recovery", record_of("11012 10112")),
    ("start", record_of("10003 10112 00113"), "starts a", record_of("10002 10112 00113")),
    ("set-active b", record_of("10102 11011"), "ok", record_of("10102 10003", "b")),
    ("set-active a", record_of("10112"), "ok", record_of("10003")),
    ("modified b", record_of("10112 11011"), "ok", record_of("10112 11003")),
    ("modified a", record_of("10112"), "ok", record_of("10003")),
    ("confirm", record_of("10013"), "refused 33 at 0", record_of("10013")),
    ("confirm", record_of("10113"), "refused 33 at 0", record_of("10113")),
    ("confirm", record_of("11013"), "refused 33 at 0", record_of("11013")),
    ("confirm", record_of("10001 10112"), "ok", record_of("10101 10112")),
    ("fresh 1", record_of("10112 10112"), "ok", record_of("10003 00003 00003 00003", startable=1)),
    ("fresh 2", record_of("10112 10112"), "ok", record_of("10003 10003 00003 00003", startable=2)),
    ("fresh 3", record_of("10003 10003", startable=7), "ok", record_of("10003 10003 10003 00003", startable=3)),
    ("fresh 4", record_of("12003"), "ok", record_of("10003 10003 10003 10003", startable=4)),
    ("fresh 0", record_of("10112 10112"), "refused 31 at 0", record_of("10112 10112")),
)


def slot_turns(tool: Tool) -> None:
    """What each operation says of a record, and what it leaves; the object says the same."""
    for words, before, said, after in TURNS:
        refused = said.startswith("refused")
        save("tried", before)
        done = tool.run(f"slots tried {words}")
        expect(done.returncode == (1 if refused else 0), f"{words} on {before!r}: {said}", done)
        line = (done.stderr if refused else done.stdout).split("\n")[0]
        expect(line == said and read("tried") == after, f"{words} on {before!r}: {said}", done)
        save("tried", before)
        told = json.loads(tool.run(f"slots tried {words} --json").stdout)
        found = f"refused {told['number']} at {told['place']}" if refused else told["answer"]
        expect(f"{found} {told.get('slot', '')}".strip() == said, f"{words} on {before!r}: {told}")
        expect(told["status"] == done.returncode and read("tried") == after, f"{words} on {before!r} with --json")
    save("tried", record_of("10013"))
    expect_end(tool.run("slots tried confirm"), 1, "refused 33 at 0\nconfirming an unbootable or corrupted slot\n")


def flags_shown(tool: Tool) -> None:
    """The count and the flags of slots in use are shown, in text those that are set."""
    save("tried", record_of("10112 11014 00117 10100", "b"))
    done = tool.run("slots tried show")
    lines = "a tries 2 successful corrupted\nb tries 4 unbootable corrupted\nd tries 0 successful\n"
    expect(done.stdout == "current b startable 1\n" + lines and done.returncode == 0, "what is shown", done)
    told = json.loads(tool.run("slots tried show --json").stdout)
    names = ("slot", "tries", "unbootable", "successful", "corrupted")
    slots = (("a", 2, False, True, True), ("b", 4, True, False, True), ("d", 0, False, True, False))
    expect((told["current"], told["startable"]) == ("b", 1), f"{told}")
    expect(told["slots"] == [dict(zip(names, slot)) for slot in slots], f"{told}")


# A record, the states of its slots in words, and the count in words.
STATES: Tuple[Tuple[bytes, Tuple[str, str, str, str], str], ...] = (
    (record_of("10003"), ("current, three tries", "not in use", "not in use", "not in use"),
     "one of one slot in use is"),
    (record_of("11000"), ("current, unbootable", "not in use", "not in use", "not in use"),
     "zero of one slot in use are"),
    (record_of("10112 11017 00117 10100", "d"),
     ("successful, corrupted", "unbootable, corrupted", "not in use", "current, successful, zero tries"),
     "one of three slots in use is"),
    (record_of("11003 10001 10007 10104", "b"),
     ("unbootable", "current, one try", "seven tries", "successful, four tries"), "three of four slots in use are"),
    (record_of("00109 10002 10105 10006", "c"),
     ("not in use", "two tries", "current, successful, five tries", "six tries"), "three of three slots in use are"),
    (record_of("10013 10112", "b"), ("corrupted", "current, successful, corrupted", "not in use", "not in use"),
     "zero of two slots in use are"),
)


def states_in_words(tool: Tool) -> None:
    """Status says how each slot stands, and the count; the object has the numbers and flags."""
    for record, states, count in STATES:
        save("tried", record)
        lines = [f"slot {letter}: {state}" for letter, state in zip("abcd", states)]
        done = tool.run("slots tried status")
        text = "\n".join([*lines, f"{count} neither unbootable nor corrupted\n"])
        expect(done.stdout == text and done.returncode == 0 and not done.stderr, f"the status of {record!r}", done)
        told, shown = (json.loads(tool.run(f"slots tried {words} --json").stdout) for words in ("status", "show"))
        expect(told["used"] == len(told["slots"]) == 4 - states.count("not in use"), f"{told}")
        currents = [slot["slot"] for slot in told["slots"] if slot.pop("current")]
        expect(currents == [told["current"]] and told["startable"] == record[21], f"{told}")
        expect({name: told[name] for name in shown} == shown, f"{told} and {shown}")
        expect(read("tried") == record, "a record that is looked at is changed")


def counts_in_words(tool: Tool) -> None:
    """Every count of so many slots in use is said, and is the one that the record keeps."""
    names = ("zero", "one", "two", "three", "four")
    for used, startable in ((used, startable) for used in range(1, 5) for startable in range(used + 1)):
        save("tried", record_of("10000" * startable + "11000" * (used - startable), startable=startable))
        done = tool.run("slots tried status")
        count = f"{names[startable]} of {names[used]} slot{'s' * (used > 1)} in use {'is' if startable == 1 else 'are'}"
        expect(done.stdout.endswith(f"\n{count} neither unbootable nor corrupted\n"), count, done)
        told = json.loads(tool.run("slots tried status --json").stdout)
        expect((told["startable"], told["used"]) == (startable, used), f"{told}")
        done = tool.run("slots tried show")
        expect(done.stdout.startswith(f"current a startable {startable}\n"), f"{startable} in short", done)


INVALID = "refused 31 at 0\ninvalid slot record, or a fresh record for a number of slots not 1 to 4\n"
OLD_IS = ("is a slot record of {} bytes, as tarpaulark {} made it, without {}; to make a new one of it, see NOTES in"
          " the man page")
OLD_LENGTHS = {
    21: OLD_IS.format(21, "0.5.0 and 0.6.0", "the count of startable slots"),
    17: OLD_IS.format(17, "0.4.0 and before", "the flag corrupted and the count of startable slots"),
}
OPERATIONS = ("show", "status", "start", "confirm", "set-active a", "modified b", "corrupted a", "corrupted e")


@contextlib.contextmanager
def left_alone(data: bytes) -> Iterator[None]:
    """A file that is neither changed nor replaced meanwhile."""
    save("tried", data)
    before = os.stat("tried")
    yield
    after = os.stat("tried")
    expect(read("tried") == data and (after.st_ino, after.st_mtime_ns) == (before.st_ino, before.st_mtime_ns),
           f"{data!r} is changed")


def expect_invalid(tool: Tool, advice: str) -> None:
    """Every operation refuses the file, with the advice that is named, or none; and so does a start, whatever else is
    wrong."""
    starts = (START, START_REFUSED, "start tried --image b=missing --misc misc-short --line quiet")
    for words in [f"slots tried {operation}" for operation in OPERATIONS] + list(starts):
        done, told = tool.run(words), tool.run(f"{words} --json")
        expect(done.returncode == 1 and done.stdout == "" and done.stderr == INVALID + advice, words, done)
        found = json.loads(told.stdout)
        expect(found["number"] == 31 and found["status"] == 1 and told.stderr == "", words, told)
        expect(found.get("record", "") == advice.rstrip("\n"), f"{words}: the advice", told)


def expect_no_record(tool: Tool, data: bytes, advice: str, misuse: str) -> None:
    """Every operation refuses a file, and no record is made in its place."""
    with left_alone(data):
        expect_invalid(tool, advice)
        for words in ("fresh 2", "fresh 5"):
            done, told = tool.run(f"slots tried {words}"), tool.run(f"slots tried {words} --json")
            expect(done.returncode == 2 and done.stderr == f"tarpaulark: tried: {misuse}\n", words, done)
            found = json.loads(told.stdout)
            expect(found["words"] == misuse and found["status"] == 2 and told.stderr == "", words, told)


def wrong_counts(tool: Tool) -> None:
    """A record whose count differs from its flags is refused by every operation and left alone."""
    for places, current, counts in (
        ("10003 10003 00003 00003", "a", (0, 1, 3, 4, 255)),
        ("10102 11014 10013 10000", "d", (1, 3)),
        ("11000 00003 00003 00003", "a", (1, 4)),
        ("10003 10003 10003 10003", "b", (3, 5)),
    ):
        for count in counts:
            with left_alone(record_of(places, current, count)):
                expect_invalid(tool, "")
        save("tried", record_of(places, current))
        expect_end(tool.run("slots tried start"), 0)


def old_records(tool: Tool) -> None:
    """A record of an old length is left alone, whatever it holds, and it is said what it is."""
    for length, words in OLD_LENGTHS.items():
        for data in (FILES[f"old{length}"], bytes(length), b"\xFF" * length, TRIED[:length]):
            expect_no_record(tool, data, f"by its length this {words}\n",
                             f"is there already and by its length {words}; else name another file, or remove it")


def other_lengths(tool: Tool) -> None:
    """A file of any other length is left alone, too."""
    for length in (1, 16, 18, 20, 23, 44):
        expect_no_record(tool, (TRIED * 2)[:length], "", f"is there already and is no record, which has {len(TRIED)}"
                         " bytes; name another file, or remove it")


def recipes() -> Dict[int, str]:
    """What the man page tells to do with an old record, by its length."""
    man = read(os.path.join(ROOT, "host", "tarpaulark.1")).decode("ascii").replace("\\-", "-").replace("\\e", "\\")
    found = re.findall(r"^\.nf\n(set .*?)^\.fi$", man, re.MULTILINE | re.DOTALL)
    scripts = dict(zip(OLD_LENGTHS, found))
    expect(len(scripts) == len(found) == len(OLD_LENGTHS), f"the recipes {found}")
    return scripts


def expect_made(script: str, old: bytes, new: Optional[bytes]) -> None:
    """A recipe makes this record, or none."""
    with contextlib.suppress(FileNotFoundError):
        os.remove("NEW")
    save("OLD", old)
    done = subprocess.run(["sh", "-e", "-c", script], capture_output=True, text=True, check=False)
    expect(done.returncode == (1 if new is None else 0) and read("OLD") == old, script, done)
    expect(os.path.exists("NEW") == (new is not None), f"made of {old!r}", done)
    expect(new is None or read("NEW") == new, f"not {new!r} is made of {old!r}", done)


def old_made_new(tool: Tool) -> None:
    """What the man page tells to do makes a new record of an old one."""
    scripts = recipes()
    for length, new, lines in (
        (21, record_of("10102 11000 10013 10003", startable=2),
         "current a startable 2\na tries 2 successful\nb tries 0 unbootable\nc tries 3 corrupted\nd tries 3\n"),
        (17, record_of("10102 11000 00003 00003", startable=1),
         "current a startable 1\na tries 2 successful\nb tries 0 unbootable\n"),
    ):
        expect_made(scripts[length], FILES[f"old{length}"], new)
        done = tool.run("slots NEW show")
        expect(done.stdout == lines, "the new record", done)
    rng = random.Random(6)
    for _ in range(64):
        places = ["".join(str(rng.randrange(2)) for _ in range(4)) + str(rng.randrange(8)) for _ in range(4)]
        new = record_of("".join(places), rng.choice("abcd"))
        expect_made(scripts[21], new[:21], new)
        new = record_of("".join(place[:3] + "0" + place[4] for place in places), rng.choice("abcd"))
        expect_made(scripts[17], bytes(byte for at, byte in enumerate(new[:21]) if at == 20 or at % 5 != 3), new)


def old_of_any_bytes(_tool: Tool) -> None:
    """It keeps bytes that no record has, and makes nothing of a file of another length."""
    scripts = recipes()
    expect_made(scripts[21], bytes(range(30, 51)), bytes(range(30, 51)) + b"\0")
    slots = [bytes([at, at + 1, at + 2, 0, at + 3]) for at in range(240, 256, 4)]
    expect_made(scripts[17], bytes(range(240, 256)) + b"%", b"".join(slots) + b"%\0")
    for length in (0, 16, 17, 18, 20, 21, 22):
        for other in set(scripts) - {length}:
            expect_made(scripts[other], TRIED[:length], None)


# Starting a slot.

MISC = bytes(32)
ASKING = b"boot-recovery".ljust(32, b"\0")
MOST_LINE = 4096
NO_LINE = "recovery: no slot may start, so there is no line"


class Start(NamedTuple):
    """What a start takes: the record, the images of slots in use by their letters, misc and the loader's line."""

    record: bytes
    images: Dict[str, bytes]
    misc: bytes = MISC
    line: bytes = b"quiet"

    def run(self, tool: Tool, *more: bytes) -> "subprocess.CompletedProcess[bytes]":
        """Runs it on files that hold these."""
        save("tried", self.record)
        save("misc", self.misc)
        words = [b"start", b"tried", b"--misc", b"misc", b"--line", self.line, *more]
        for letter, image in self.images.items():
            save(f"image-{letter}", image)
            words += [b"--image", f"{letter}=image-{letter}".encode("ascii")]
        return tool.run_bytes(*words)

    def outcome(self) -> starter.Outcome:
        """What the reference answers and leaves, with space for the longest line."""
        record = cases_slots.record_of(self.record)
        assert record is not None
        images = [self.images.get(letter, b"") for letter in "abcd"]
        return starter.start(record, images, self.misc[:len(MISC)], self.line, bytes(MOST_LINE))


def spent_words(slot: str, record: slots.Record) -> str:
    """What is said of the record after a refusal of a slot that was picked."""
    picked = record.slots["abcd".index(slot)]
    if picked.successful:
        return f"slot {slot} is successful, so no try is spent; the record stands as start left it"
    tries = "1 try" if picked.tries == 1 else f"{picked.tries} tries"
    return f"the try is spent: the record stands as start left it, with {tries} left for slot {slot}"


def words_of(answer: starter.Answer, record: slots.Record, told: Dict[str, Any]) -> List[str]:
    """The lines on standard error after a start; what a refusal means is taken from the object."""
    if isinstance(answer, slots.Recovery):
        return [NO_LINE]
    if isinstance(answer, starter.Starts):
        return [f"in the image of slot {'abcd'[answer.slot]}: retired section present"] * answer.located.retired
    lines = [f"refused {answer.number} at 0", told["meaning"]]
    if answer.number in (31, 51):
        return lines
    slot = "abcd"[record.current]
    lines += [f"in the image of slot {slot}, image-{slot}"] * (answer.number != 52)
    return lines + [spent_words(slot, record)]


def object_of(outcome: starter.Outcome, told: Dict[str, Any]) -> Dict[str, Any]:
    """The object for a start, but for its command, result and status."""
    answer, record, space = outcome
    if isinstance(answer, slots.Recovery):
        return {"answer": "recovery", "recovery": NO_LINE}
    if isinstance(answer, starter.Starts):
        located, line = answer.located, space[:answer.length]
        return {"answer": "starts", "slot": "abcd"[answer.slot], "line": line.decode("utf-8"), "length": len(line),
                "version": located.version, "sections": [section._asdict() for section in located.sections],
                "retired": located.retired}
    found = {"number": answer.number, "place": 0, "meaning": told["meaning"]}
    if answer.number in (31, 51):
        return found
    slot = "abcd"[record.current]
    name = {} if answer.number == 52 else {"name": f"image-{slot}"}
    return {**found, "slot": slot, **name, "spent": spent_words(slot, record)}


def expect_start(tool: Tool, start: Start) -> starter.Outcome:
    """All that is said of a start, in text and as an object, and the record that it leaves, are the reference's."""
    outcome = start.outcome()
    answer, record, space = outcome
    after = bytes(cases_slots.record_values(record))
    done = start.run(tool, b"--json")
    told = json.loads(done.stdout.decode("utf-8"), object_pairs_hook=members)
    status = 1 if isinstance(answer, boot.Refusal) else 0
    ends = {"command": "start", "result": "refused" if status else "ok", "status": status}
    expect(told == {**object_of(outcome, told), **ends} and not done.stderr, f"{start}: {outcome}", done)
    expect(done.returncode == status and read("tried") == after, f"{start}: the record with --json", done)
    done = start.run(tool)
    line = space[:answer.length] + b"\n" if isinstance(answer, starter.Starts) else b""
    said = "".join(words + "\n" for words in words_of(answer, record, told))
    expect(done.returncode == status and done.stdout == line, f"{start}: {line!r} expected", done)
    expect(done.stderr.decode("utf-8") == said and read("tried") == after, f"{start}: {said!r} expected", done)
    return outcome


# A version, its cmdline, its extra cmdline, and the image's line.
LINES = (
    (0, b"", b"", b""), (0, b"one", b"", b"one"), (0, b"one", b"two", b"onetwo"), (0, b"", b"two", b"two"),
    (0, b"one\0no", b"two\0no", b"onetwo"), (0, b"\0no", b" two\0", b" two"), (1, b"o" * 512, b"", b"o" * 512),
    (1, b"o" * 511, b"t", b"o" * 511 + b"t"), (1, b"o" * 512, b"\0no", b"o" * 512),
    (2, b"o" * 512, b"t" * 1024, b"o" * 512 + b"t" * 1024), (2, b"o" * 511, b"t" * 1023, b"o" * 511 + b"t" * 1023),
    (2, b"one two=\"three\"", b" \xc3\xb6", b"one two=\"three\" \xc3\xb6"),
    (3, b"", b"", b""), (3, b"one\0no", b"", b"one"), (3, b"n" * 1536, b"", b"n" * 1536),
    (4, b"n" * 1535 + b"\0", b"", b"n" * 1535), (4, b"n" * 1536, b"", b"n" * 1536), (4, b"\0n" * 768, b"", b""),
)


def lined(version: int, cmdline: bytes = b"", extra: bytes = b"") -> bytes:
    """A boot image with all sections of its version and a line. A text that does not fill its field ends with a zero
    byte; all that may stand in the header besides is an i."""
    cmdline += b"\0" * (len(cmdline) < (512 if version < 3 else 1536))
    extra += b"\0" * (version < 3 and len(extra) < 1024)
    return cases_boot.base_image(version, cmdline=cmdline, extra_cmdline=extra, filler=ord("i"))


def lines_of_images(tool: Tool) -> None:
    """The line of an image of each version, in the line that a start prints; also where the image is its header
    alone."""
    for version, cmdline, extra, line in LINES:
        bare = build.boot_image(version, build.HEADER_LENGTHS[version], cmdline=cmdline, extra_cmdline=extra)
        for image, misc, loader, end in (
            (lined(version, cmdline, extra), MISC, b"quiet", b" skip_initramfs"),
            (lined(version, cmdline, extra), ASKING, b"one  two ", b""), (bare, ASKING, b"", b""),
        ):
            wanted = loader + b" " + line + b" androidboot.slot_suffix=_a" + end
            outcome = expect_start(tool, Start(TRIED, {"a": image}, misc, loader))
            expect(outcome.space == wanted.ljust(MOST_LINE, b"\0"), f"{wanted!r}, not {outcome.space!r}")


def asked_for_recovery(tool: Tool) -> None:
    """Recovery is asked for by its word and a zero byte at the beginning of misc, whatever follows, and by nothing
    else."""
    word = b"boot-recovery"
    for misc, filler, asks in (
        (word, b"\0", True), (word + b"\0", b"x", True), (word + b"\0", b"\xff", True), (word, b"x", False),
        (word, b"\n", False), (word + b" ", b"\0", False), (word[:-1], b"\0", False), (word[1:], b"\0", False),
        (b" " + word, b"\0", False), (b"\0" + word, b"\0", False), (word.upper(), b"\0", False),
        (b"boot_recovery", b"\0", False), (b"boot-bootloader", b"\0", False), (b"x" * 16 + word, b"\0", False),
    ):
        outcome = expect_start(tool, Start(TRIED, {"a": lined(3)}, misc.ljust(32, filler)))
        expect((b"skip_initramfs" in outcome.space) != asks, f"{misc!r} and {filler!r}")


def lengths_of_misc(tool: Tool) -> None:
    """Of misc 32 bytes are read, and more do not matter; fewer are refused, and the record is not replaced."""
    for length in (0, 1, 13, 14, 31):
        for misc in (bytes(length), ASKING[:length]):
            start = Start(TRIED, {"a": lined(3)}, misc)
            expect(expect_start(tool, start).answer == boot.Refusal(51), f"{length} bytes of misc")
            before = os.stat("tried")
            done = tool.run("start tried --image a=image-a --misc misc --line quiet")
            expect(done.stderr == "refused 51 at 0\nmisc under 32 bytes\n", f"{length} bytes of misc", done)
            expect(os.stat("tried").st_ino == before.st_ino and read("tried") == TRIED, "a record that is replaced")
    for length in (32, 33, 2048, 70000):
        for filler in (b"\0", b"x"):
            outcome = expect_start(tool, Start(TRIED, {"a": lined(3)}, b"boot-recovery\0".ljust(length, filler)))
            expect(b"skip_initramfs" not in outcome.space, f"{length} bytes of misc")


def longest_lines(tool: Tool) -> None:
    """A line of 4,096 bytes is printed, and one of a byte more is refused after the slot was picked."""
    suffix, skips = len(" androidboot.slot_suffix=_a"), len(" skip_initramfs")
    for version, cmdline, extra, line in LINES:
        for misc, end in ((MISC, suffix + skips), (ASKING, suffix)):
            loader = b"l" * (MOST_LINE - 1 - len(line) - end)
            outcome = expect_start(tool, Start(TRIED, {"a": lined(version, cmdline, extra)}, misc, loader))
            expect(isinstance(outcome.answer, starter.Starts) and outcome.answer.length == MOST_LINE, f"{outcome}")
            outcome = expect_start(tool, Start(TRIED, {"a": lined(version, cmdline, extra)}, misc, loader + b"l"))
            expect(outcome.answer == boot.Refusal(52) and read("tried") == record_of("10002"), f"{outcome}")
    expect_start(tool, Start(TRIED, {"a": lined(3)}, MISC, b"l" * 100000))
    done = tool.run("start tried --image a=image-a --misc misc --line " + "l" * 4096)
    expect(done.stderr.startswith("refused 52 at 0\nthe line needs more than 4,096 bytes\n"), "what 52 means", done)


# A record, the letter of the slot that starts or nothing for Recovery, and the record after it.
STARTS: Tuple[Tuple[bytes, str, bytes], ...] = (
    (record_of("10003"), "a", record_of("10002")),
    (record_of("10001 10003"), "a", record_of("10000 10003")),
    (record_of("10100 10003"), "a", record_of("10100 10003")),
    (record_of("10000 10100"), "b", record_of("11000 10100", "b")),
    (record_of("10000 10003 10102"), "c", record_of("11000 10003 10102", "c")),
    (record_of("10112 10003 10013 10107"), "d", record_of("11012 10003 10013 10107", "d")),
    (record_of("10003 10003 10003 10007", "d"), "d", record_of("10003 10003 10003 10006", "d")),
    (record_of("00117 10003 00003 00009", "b"), "b", record_of("00117 10002 00003 00009", "b")),
    (record_of("10000"), "", record_of("11000")),
    (record_of("11000"), "", record_of("11000")),
    (record_of("10000 10003 00100"), "", record_of("11000 10003 00100")),
    (record_of("10112 10112"), "", record_of("11012 10112")),
)


def used_in(record: bytes) -> str:
    """The letters of the slots in use."""
    return "".join(letter for at, letter in zip(range(0, 20, 5), "abcd") if record[at])


def slots_that_start(tool: Tool) -> None:
    """The slot that starts has its own image, its letter in the line, and the record as `slots start` leaves it; where
    none may start there is no line, whatever the images and the loader's line are."""
    for before, letter, after in STARTS:
        for misc in (MISC, ASKING):
            images = {used: lined(version, b"root=" + used.encode("ascii"))
                      for version, used in enumerate(used_in(before))}
            outcome = expect_start(tool, Start(before, images, misc))
            expect(read("tried") == after, f"the record after {before!r}")
            wanted = f"quiet root={letter} androidboot.slot_suffix=_{letter}".encode("ascii")
            expect(outcome.space.startswith(wanted) if letter else not any(outcome.space), f"{wanted!r}")
            save("tried", before)
            done = tool.run("slots tried start")
            expect(done.stdout == (f"starts {letter}\n" if letter else "recovery\n"), f"{before!r}", done)
            expect(read("tried") == after, f"the record after a plain start of {before!r}")
        outcome = expect_start(tool, Start(before, dict.fromkeys(used_in(before), b"none"), MISC, b"l" * 5000))
        expect(outcome.answer == (boot.Refusal(21) if letter else slots.Recovery()), f"{before!r}: {outcome.answer}")
        expect(read("tried") == after, f"the record after a refusal of {before!r}")


def refused_starts(tool: Tool) -> None:
    """Each refusal of an image, of slots with tries left, with none left and successful ones; the images of other slots
    do not matter, and the refusal comes before that of the line."""
    good, numbers = lined(1), []
    for image in cases_launch.refused_images(0) + [b""]:
        for record, letter in ((record_of("10003 10003"), "a"), (record_of("10001 10003", "b"), "b"),
                               (record_of("10003 10002", "b"), "b"), (record_of("10000 10100"), "b")):
            start = Start(record, {"a": good, "b": good, letter: image}, MISC, b"l" * 4096)
            outcome = expect_start(tool, start)
            assert isinstance(outcome.answer, boot.Refusal)
            numbers.append(outcome.answer.number)
            other = {"a": "b", "b": "a"}[letter]
            start = Start(record, {letter: good, other: image})
            expect(isinstance(expect_start(tool, start).answer, starter.Starts), f"{start}: an image that is not read")
    expect(numbers[::4] == [21, 22, 23, 21, 24, 25, 27, 26, 26, 21], f"{numbers}")
    save("tried", record_of("10002"))
    save("image-a", FILES["archived-cut"])
    done = tool.run("start tried --image a=./image-a --misc misc --line quiet")
    said = ("refused 26 at 0\na section that is not empty, a retired one too, ends past the input\n"
            "in the image of slot a, ./image-a\n"
            "the try is spent: the record stands as start left it, with 1 try left for slot a\n")
    expect(done.stderr == said, f"{said!r} expected", done)


def random_start(rng: random.Random) -> Start:
    """A random record, a random image for each slot in use, misc of several kinds, and a line, short or nearly too
    long."""
    record = bytes(cases_slots.record_values(cases_slots.random_record(rng)))
    images: Dict[str, bytes] = {}
    for letter in used_in(record):
        text = bytes(rng.choice(b"ab =\0") for _ in range(rng.randrange(40)))
        images[letter] = cases_boot.random_image(rng, cmdline=text)
    misc = rng.choice((MISC, ASKING, ASKING + b"more", ASKING[:31], rng.randbytes(32)))
    return Start(record, images, misc, bytes(rng.choice(b"kl =") for _ in range(rng.choice((0, 9, 4000, 4060)))))


def started_as_the_reference(tool: Tool) -> None:
    """Random starts are answered, refused and written down as by the reference."""
    rng = random.Random(18)
    kinds = {type(expect_start(tool, random_start(rng)).answer) for _ in range(60)}
    expect(kinds == {starter.Starts, slots.Recovery, boot.Refusal}, f"kinds of answers: {kinds}")


def images_not_in_use(tool: Tool) -> None:
    """The image of a slot that is not in use is not looked at, and each slot in use must have one, or nothing is
    changed; which is missing is said."""
    os.mkfifo("pipe")
    for more in ("--image b=missing", "--image c=pipe --image d=.", "--image b=tried", "--image d=p2"):
        save("tried", TRIED)
        done = tool.run(f"{START} {more}")
        expect(done.stdout == STARTED and not done.stderr and read("tried") == record_of("10002"), more, done)
    places = "10003 00003 10003 10003"
    for given, missing in (("", "a"), ("a", "c"), ("ab", "c"), ("acb", "d"), ("dc", "a"), ("bda", "c")):
        words = "start tried --misc misc --line quiet" + "".join(f" --image {letter}=lined" for letter in given)
        with left_alone(record_of(places)):
            done, told = tool.run(words), json.loads(tool.run(words + " --json").stdout)
        said = f"slot {missing} is in use and has no image; add --image {missing}=FILE"
        expect(done.stderr == f"tarpaulark: {said}\nsee tarpaulark --help\n" and done.returncode == 2, words, done)
        expect((told["words"], told["status"]) == (said, 2), f"{words}: {told}")


def misused_starts(tool: Tool) -> None:
    """What is wrong with the words of a start is said, as an object too, and nothing is changed."""
    both, rest = "start tried --image a=lined --image b=lined", "--misc misc --line quiet"
    takes = "start takes --misc with the file of the misc partition, and --line with the loader's line"
    image = "--image takes a slot, a letter from a to d, and the name of its boot image, as in a=FILE"
    line = "--line takes a text, which may be empty, and not an option"
    for words, said in (
        (f"{both} --misc misc", takes), (f"{both} --line quiet", takes), (both, takes),
        (f"{both} {rest} --image a=other", "--image names slot a twice; name each slot once"),
        (f"{both} {rest} --image c=one --image c=one", "--image names slot c twice; name each slot once"),
        (f"{both} {rest} --image e=lined", image), (f"{both} {rest} --image A=lined", image),
        (f"{both} {rest} --image lined", image), (f"{both} {rest} --image c:lined", image),
        (f"{both} {rest} --image c=", image), (f"{both} {rest} --image ''", image), (f"{both} {rest} --image", image),
        (f"{both} {rest} --misc misc", "--misc is given twice; name one file"),
        (f"{both} {rest} --line ''", "--line is given twice; give one text"),
        (f"{both} --line quiet --misc", "--misc takes the name of a file; put ./ before one that begins with -"),
        (f"{both} --misc --line quiet", "--misc takes the name of a file; put ./ before one that begins with -"),
        (f"{both} --misc misc --line", line), (f"{both} --line --misc misc", line), (f"{both} --line -h", line),
        (f"{both} --misc misc --line --", line),
        (START.replace("a=lined", "a=tried"), "RECORD and an image are one file: name two"),
        (START.replace("misc misc", "misc tried"), "RECORD and misc are one file: name two"),
    ):
        with left_alone(TRIED):
            done, told = tool.run(words), json.loads(tool.run("--json " + words).stdout)
        expect(done.stderr == f"tarpaulark: {said}\nsee tarpaulark --help\n" and not done.stdout, words, done)
        expect(done.returncode == 2 and (told["words"], told["status"]) == (said, 2), f"{words}: {told}")


def lines_of_any_bytes(tool: Tool) -> None:
    """Text has the bytes of the loader's line and of the image's as they are; in the object what is no text shows as a
    sign for that, and nothing steers the terminal. The line's length counts its bytes."""
    cmdlines = b"\xff\x01\n\"\\", b"\xc3", b"=\xc2\x9b"
    for loader, cmdline in itertools.product((*ODD_NAMES, b"", b"-x", b"'a b'"), cmdlines):
        start = Start(TRIED, {"a": lined(2, cmdline, b"\x9f\xe2\x82")}, ASKING, loader)
        done = start.run(tool)
        line = loader + b" " + cmdline + b"\x9f\xe2\x82 androidboot.slot_suffix=_a"
        expect(done.stdout == line + b"\n" and done.returncode == 0, f"{line!r} expected", done)
        shown = start.run(tool, b"--json").stdout.decode("utf-8")
        expect(re.findall("[\0-\x1f\x7f-\x9f]", shown) == ["\n"], f"{shown!r} of {line!r}")
        told = json.loads(shown)
        expect(told["length"] == len(line) and told["line"] == as_text(line), f"{told} of {line!r}")


def as_text(line: bytes) -> str:
    """Bytes as text, with a sign for each that is part of none."""
    text, at = "", 0
    while at < len(line):
        for length in range(1, 5):
            with contextlib.suppress(UnicodeDecodeError):
                sign = line[at:at + length].decode("utf-8")
                break
        else:
            sign, length = "\ufffd", 1
        text, at = text + ("\ufffd" * 3 if sign in "\ufffe\uffff" else sign), at + length
    return text


def names_in_starts(tool: Tool) -> None:
    """A refusal that names an image is whole whatever it is called, and steers no terminal."""
    for name in ODD_NAMES:
        with open(name, "wb") as file:
            file.write(FILES["archived-cut"])
        save("tried", TRIED)
        words = (b"start", b"tried", b"--image", b"a=" + name, b"--misc", b"misc", b"--line", b"quiet")
        done = tool.run_bytes(*words)
        controls = re.findall("[\0-\x1f\x7f-\x9f]", done.stderr.decode("utf-8"))
        expect(done.returncode == 1 and controls == ["\n"] * 4, f"a refusal of {name!r}", done)
        told = json.loads(tool.run_bytes(*words, b"--json").stdout.decode("utf-8"))
        expect((told["slot"], told["name"], told["status"]) == ("a", as_text(name), 1), f"{name!r}: {told}")
        expect(read("tried") == record_of("10001"), f"the record after {name!r}")


def started_from_devices(tool: Tool) -> None:
    """Images and misc may be block devices; each is held so that others may read it."""
    save("image", FILES["lined"].ljust(12800, b"\0"))
    save("disk", b"boot-recovery\0".ljust(4096, b"x"))
    with loop_device("image") as image, loop_device("disk") as misc:
        save("tried", TRIED)
        words = f"start tried --image a={image} --misc {misc} --line quiet"
        done = tool.run(words)
        expect(done.stdout == f"quiet root=/dev/sda4 ro {ENDS.format('a')}\n", "a start from devices", done)
        with locked(misc, fcntl.LOCK_EX):
            expect_end(tool.run(words), 3, "is busy")
        expect(read("tried") == record_of("10002"), "the record")


def examples_in_readme() -> List[Tuple[str, str]]:
    """Words after the tool's name that README.md has, and what it shows for them."""
    readme = read(os.path.join(ROOT, "README.md")).decode("utf-8")
    shown = re.findall(r"^    \$ tarpaulark (.*)\n((?:    (?!\$).*\n)+)", readme, re.MULTILINE)
    expect([words.split()[0] for words, _ in shown] == ["report", "slots", "start"], f"{shown}")
    return [(words, re.sub("(?m)^    ", "", lines)) for words, lines in shown]


def example_in_readme(tool: Tool) -> None:
    """What README.md shows of a start is what the tool prints."""
    for name in "ab":
        save(f"boot_{name}.img", lined(3, b"printk.devkmsg=on"))
    save("misc.img", MISC)
    for words, lines in examples_in_readme()[1:]:
        done = tool.run(words)
        expect(done.stdout == lines and not done.stderr, words, done)


# What people look for.

def help_and_version(tool: Tool) -> None:
    """Help and version go to standard output."""
    for words in ("--help", "-h", "store --help", "slots -h", "rules --help", "report --help", "start --help"):
        done = tool.run(words)
        expect(done.returncode == 0 and "Exit status: 0 done" in done.stdout and not done.stderr, words, done)
    header = read(os.path.join(ROOT, "include", "tarpaulark.h")).decode("ascii")
    version = re.search(r'#define TARPAULARK_VERSION "(.*)"', header)
    assert version is not None
    expect(tool.run("--version").stdout == f"tarpaulark {version.group(1)}\n", "the version")
    expect_end(tool.run("stroe p2 part"), 2, "see tarpaulark --help")
    expect_end(tool.run("store p2 part --limit=1"), 2, "see tarpaulark --help")


def text_of_man(source: str) -> str:
    """A man page as one line of text, without macros and fonts; what a macro of two fonts parts is joined."""
    words = []
    for line in re.sub(r"\\f[A-Z]|\\&", "", source).replace("\\-", "-").split("\n"):
        macro = re.match(r"\.([A-Z]+) ", line)
        parts = shlex.split(line[macro.end():]) if macro else [line]
        words.append(("" if macro and len(macro.group(1)) == 2 else " ").join(parts))
    return " ".join(" ".join(words).split())


def same_words(tool: Tool) -> None:
    """Help, README and man page name the same commands, options and exit statuses in the same words."""
    told = tool.run("--help").stdout
    usages = re.findall(r"^ *(?:usage:)? tarpaulark (.*)$", told, re.MULTILINE)
    statuses = re.findall(r"^(?:Exit status:)? +([0-4]) (.*)$", told, re.MULTILINE)
    expect(len(usages) == 18 and len(statuses) == 5, f"the help {told}")
    man = text_of_man(read(os.path.join(ROOT, "host", "tarpaulark.1")).decode("ascii"))
    readme = read(os.path.join(ROOT, "README.md")).decode("utf-8")
    for usage in usages:
        expect(f"tarpaulark {usage} " in man, f"the man page lacks {usage}")
        expect(f"    {usage}  " in readme, f"README.md lacks {usage}")
    for name, text in (("the help", told), ("the man page", man)):
        expect(f"slot record of {len(TRIED)} bytes" in text, f"{name} lacks the length of a slot record")
        expect("retired section present" in text, f"{name} lacks what is said of a retired section")
    for number, words in statuses:
        expect(f"{number} {words}.".replace("`", "").lower() in man.lower(), f"the man page lacks {words}")
        expect(f"| {number} | {words} |" in readme, f"README.md lacks {words}")
    for option in ("--json", "-h", "--help", "--version", "--limit", "--length", "--dry-run", "--map", "--svg",
                   "--partition-length", "--image", "--misc", "--line", "--"):
        for name, text in (("the help", told), ("the man page", man), ("README.md", readme.replace("`", " "))):
            expect(re.search(rf"(?<![\w-]){option}(?![\w-])", text) is not None, f"{name} lacks {option}")


def not_printed(tool: Tool) -> None:
    """What is done but cannot be printed is told by the status."""
    save("fresh", FILES["cut"])
    expect_end(tool.run("store p2 fresh", ">/dev/full"), 4, "what was asked is done")
    expect(read("fresh") == LEFT["part"], "what was asked")
    expect(tool.run("judge p6 12", ">/dev/full").returncode == 1, "a refusal")
    expect_end(tool.run("--help", ">/dev/full"), 4)
    expect_end(tool.run("list p2 --json", ">/dev/full"), 4)
    for more in ("", " --json", " --map"):
        expect_end(tool.run(f"diff last next{more}", ">/dev/full"), 4)
    for words in ("rules boot", "rules boot --json", "rules boot 12 plain", "report p2 p6", "report p2 p6 --json"):
        expect_end(tool.run(words, ">/dev/full"), 4)
    expect_end(tool.run("join last next image", ">/dev/full"), 4, "what was asked is done")
    expect(read("image") == JOINED, "what was asked of join")
    for more in ("", " --json"):
        save("tried", TRIED)
        expect_end(tool.run(START + more, ">/dev/full"), 4, "what was asked is done")
        expect(read("tried") == record_of("10002"), f"the record of a start that is not printed{more}")
    process = tool.begin("list kinds")
    assert process.stdout is not None
    process.stdout.close()
    expect(process.wait(timeout=LONGEST_WAIT) in (0, 4), "a reader that has gone")
    if process.stderr is not None:
        process.stderr.close()


def numbers_in(value: Any) -> List[int]:
    """All numbers of an object."""
    if isinstance(value, (dict, list)):
        items = value.values() if isinstance(value, dict) else value
        return [number for item in items for number in numbers_in(item)]
    return [value] if isinstance(value, int) and not isinstance(value, bool) else []


def members(pairs: List[Tuple[str, Any]]) -> Dict[str, Any]:
    """An object, in which no name stands twice."""
    found = dict(pairs)
    expect(len(found) == len(pairs), f"a name stands twice in {pairs}")
    return found


def same_in_json(tool: Tool) -> None:
    """The object has each number that the text has, and the status."""
    save("tried", TRIED)
    start = START.replace("tried", "spent")
    for words in ("judge p2 12", "judge p6 12", "judge p7 12", "judge p8 12", "store p2 cut", "store p2 cut --limit 1",
                  "store p7 cut", "store kinds long --dry-run", "store p6 cut", "list kinds", "list p6", "list p7",
                  "list strange", "map kinds", "map p6", "diff p2 p7", "diff last next", "diff last next --map",
                  "diff nothing nothing", "diff p6 p2", "diff p2 kinds", "join last next image", "join p7 p8 image",
                  "join p6 p2 image", "join p2 kinds image", "join too-much too-much image",
                  "write flat 8 image", "write flat 12 image", "sections boot", "sections flat",
                  "sections archived", "sections archived-cut", "rules boot0", "rules archived", "rules boot4-os",
                  "rules archived-cut", "rules boot 12 plain", "rules archived 10 plain", "rules boot 12 generic",
                  "rules boot4-os 13 generic", "rules boot 14 plain",
                  "report p2", "report none", "report p6 p2 kinds wrong p6 strange --partition-length 32",
                  "slots tried show", "slots odd show", "slots old17 show", "slots old21 show", "slots tried status",
                  "slots miscounted status", "slots tried corrupted a", "slots tried fresh 5", "slots tried fresh 3",
                  start, start.replace("lined", "archived-cut"), start.replace("misc misc", "misc misc-short"),
                  start + "x" * 4096, start.replace("spent", "odd"),
                  start.replace("spent", "given-up --image b=p2")):
        text, told = tool.run(words), tool.run(words + " --json")
        found = json.loads(told.stdout, object_pairs_hook=members)
        expect(told.returncode == text.returncode == found["status"] and told.stderr == "", words, told)
        expect(found["command"] == words.split()[0], words, told)
        for name, number in re.findall("(written|skipped|unknown) ([0-9]+)", text.stdout):
            expect(found[name] == int(number), f"{words}: {name} {number} expected", told)
        lines = text.stdout if text.returncode == 0 else text.stderr.split("\n")[0]
        lines = "\n".join(line for line in lines.split("\n") if "a cell is" not in line and "##" not in line)
        said = [int(number, 0) for number in re.findall(r"\b(?:0x[0-9a-f]+|[0-9]+)\b", lines)]
        missing = set(said) - set(numbers_in(found))
        expect(not missing, f"{words}: the object lacks {missing}", told)
    for words, status in (("judge missing 1 --json", 3), ("judge --json", 2), ("--json", 2), ("x --json", 2),
                          ("rules boot 12 --json", 2), ("rules boot x plain --json", 2), ("rules missing --json", 3),
                          ("report --json", 2), ("report p2 --partition-length --json", 2), ("report . --json", 2),
                          ("report p6 missing --json", 3),
                          ("start tried --json", 2), (f"{BOTH} start tried --misc misc --line --json", 2),
                          (f"start missing {BOTH} --misc misc --line quiet --json", 3)):
        told = tool.run(words)
        expect(json.loads(told.stdout)["status"] == told.returncode == status and not told.stderr, words, told)
    expect(json.loads(tool.run("slots tried start --json").stdout)["slot"] == "a", "a start")


KIND_NAMES = {0xCAC1: "raw", 0xCAC2: "fill", 0xCAC3: "skip"}
SIGNS = {"raw": "#", "fill": "=", "skip": ".", "unknown": "?"}


def chunks_of(image: bytes) -> List[Tuple[int, str, int, Optional[int]]]:
    """First block, kind, blocks and fill word of each chunk, by the reference."""
    header = sparse.read_header(image)
    found, at, first = [], header.file_header_size, 0
    for chunk in sparse.chunks_of(image):
        kind = KIND_NAMES.get(int.from_bytes(image[at:at + 2], "little"), "unknown")
        word = int.from_bytes(image[chunk.data_at:chunk.data_at + 4], "little") if kind == "fill" else None
        found.append((first, kind, chunk.blocks, word))
        at, first = chunk.end, first + chunk.blocks
    return found


def as_the_reference(tool: Tool) -> None:
    """Chunks, cells and kept bytes of random images are those of the reference."""
    rng = random.Random(12)
    for _ in range(12):
        image = cases_store.random_image(rng)
        save("image", image)
        header = sparse.read_header(image)
        length = header.total_blocks * header.block_size + rng.randrange(9)
        save("whole", bytes(length))
        if not isinstance(sparse.judge(image, length), sparse.Accepted):
            expect_end(tool.run("list image"), 1)
            continue
        chunks = chunks_of(image)
        expect(tool.run("list image").stderr == remarks_on(image), "what is remarked")
        told = json.loads(tool.run("list image --json").stdout)["list"]
        expect([(c["first"], c["kind"], c["blocks"], c.get("word")) for c in told] == chunks, f"chunks {told}")
        cells = "".join(SIGNS[kind] * blocks for _, kind, blocks, _ in chunks)
        expect(json.loads(tool.run("map image --json").stdout)["cells"] == cells, f"cells, not {cells}")
        kept = json.loads(tool.run("store image whole --dry-run --json").stdout)["kept"]
        bytes_kept = "".join("k" if sign in ".?" else "s" for sign in cells for _ in range(header.block_size))
        bytes_kept += "k" * (length - len(bytes_kept))
        spans = [(match.start(), match.end()) for match in re.finditer("k+", bytes_kept)]
        expect([(span["from"], span["before"]) for span in kept] == spans, f"kept bytes {kept}, not {spans}")


ODD_NAMES = (
    b"a\"b\\c\n\x01\x7f", "höhe-距離".encode("utf-8"), b"\xff\xc3\xe2\x82", b"<&]]>", b"\xed\xa0\x80",
    b"\xf4\x90\x80\x80", b"\xef\xbf\xbe", b"\xc2\x9b31m\x1b[31m", b"long" * 50,
)


def names_of_any_bytes(tool: Tool) -> None:
    """Objects and pictures are whole whatever a file is called, and no name steers the terminal."""
    for name in ODD_NAMES:
        done = tool.run_bytes(b"judge", name, b"1", b"--json")
        expect(json.loads(done.stdout.decode("utf-8"))["status"] == 3, f"the object for {name!r}", done)
        for text in (done.stdout, tool.run_bytes(b"judge", name, b"1").stderr):
            controls = re.findall("[\0-\x1f\x7f-\x9f]", text.decode("utf-8"))
            expect(controls == ["\n"], f"what is said of {name!r}: {text!r}")
        with open(name, "wb") as file:
            file.write(FILES["p2"])
        done = tool.run_bytes(b"map", name, b"--svg", b"picture.svg")
        expect(done.returncode == 0, f"a picture of {name!r}", done)
        lines = xml.etree.ElementTree.parse("picture.svg").iter("{http://www.w3.org/2000/svg}text")
        expect(max(len(line.text or "") for line in lines) < 50, f"a picture that has no room for {name!r}")


def two_names_of_any_bytes(tool: Tool) -> None:
    """The same of two images: a refusal that names one, and a picture that has both names."""
    for name in ODD_NAMES:
        with open(name, "wb") as file:
            file.write(FILES["p6"])
        done = tool.run_bytes(b"diff", b"p2", name)
        controls = re.findall("[\0-\x1f\x7f-\x9f]", done.stderr.decode("utf-8"))
        expect(done.returncode == 1 and controls == ["\n"] * 3, f"a refusal of {name!r}", done)
        told = json.loads(tool.run_bytes(b"diff", b"p2", name, b"--json").stdout.decode("utf-8"))
        expect(told["image"] == "second" and told["status"] == 1, f"the object for {name!r}: {told}")
        joined = tool.run_bytes(b"join", b"p2", name, b"image")
        expect(joined.returncode == 1 and joined.stderr == done.stderr, f"the same refusal of {name!r}", joined)
        with open(name, "wb") as file:
            file.write(FILES["p2"])
        done = tool.run_bytes(b"diff", name, name, b"--svg", b"picture.svg")
        expect(done.returncode == 0, f"a picture of {name!r}", done)
        lines = xml.etree.ElementTree.parse("picture.svg").iter("{http://www.w3.org/2000/svg}text")
        expect(max(len(line.text or "") for line in lines) < 50, f"a picture that has no room for {name!r} twice")


def long_images(tool: Tool) -> None:
    """Images longer than the lister reads, and of more blocks than there are cells."""
    plans = [build.raw(bytes(range(256)) * 16, 4096), build.skip(1), build.fill(b"tarp", 700)] * 30
    save("image", build.sparse_image(4096, plans))
    expect(len(json.loads(tool.run("list image --json").stdout)["list"]) == 90, "chunks of a long image")
    told = json.loads(tool.run("map image --svg picture.svg --json").stdout)
    expect(told["cell"] == 21 and len(told["cells"]) == 1003, f"cells of {told['cell']} blocks")
    expect(told["cells"].count("%") == 30 and set(told["cells"]) == set("%="), "one kept block shows in its cell")
    picture = xml.etree.ElementTree.parse("picture.svg")
    notes = [note.text or "" for note in picture.iter("{http://www.w3.org/2000/svg}title")]
    expect(len(notes) == 1 + 1003 and "kept 1 " in notes[1] + " ", f"notes of the SVG, {notes[:2]}")
    vast = [build.skip(2**30), build.unknown(9, 2**30), build.fill(b"\0\0\0\1", 2**31 - 1)]
    save("vast", build.sparse_image(65536, vast))
    counts = "ok written 2147483647 skipped 1073741824 unknown 1073741824\n"
    expect(tool.run("list vast").stdout.endswith(counts), "a vast image")
    cells = json.loads(tool.run("map vast --json").stdout)["cells"]
    expect(cells == "." * 256 + "?" * 256 + "=" * 512, f"cells of a vast image, {cells}")


MIXED = "         0  #=.?+%%!!!" + "=" * 54
MIXED_LEGEND = ("a cell is 3 blocks:  # raw  = fill  . kept  ? unknown, kept too  + raw and fill  % partly kept"
                "  ! partly unknown")


def mixed_cells(tool: Tool) -> None:
    """A cell of several kinds tells whether some of its blocks are unknown, else whether some are kept."""
    raw, fill, gap, unknown = build.raw(b"abcd", 4), build.fill(b"efgh", 1), build.skip(1), build.unknown(5, 1)
    cells = ((raw,) * 3, (fill,) * 3, (gap,) * 3, (unknown,) * 3, (raw, fill, fill), (raw, gap, gap),
             (gap, fill, gap), (unknown, gap, gap), (raw, unknown, fill), (unknown, raw, gap))
    plans = [plan for cell in cells for plan in cell] + [build.fill(bytes(4), 3 * 1014)]
    save("image", build.sparse_image(4, plans))
    told = tool.run("map image --svg picture.svg").stdout.split("\n")
    expect(told[1] == MIXED and told[17:] == [MIXED_LEGEND, "blocks raw 7 fill 3049 kept 10 unknown 6", ""], f"{told}")
    texts = list(xml.etree.ElementTree.parse("picture.svg").getroot().itertext())
    expect("blocks 24 to 26: raw 1 fill 1 unknown 1" in texts, f"notes of the SVG, {texts[:40]}")
    legend = texts.index("unknown")
    expect(texts[legend:legend + 4] == ["unknown", "6 blocks", "24 bytes", "unknown chunk: left as they were"],
           f"the legend of the SVG, {texts[legend:legend + 4]}")


CHECKS: Tuple[Callable[[Tool], None], ...] = (
    closed_descriptors, printed_into_files, kinds_of_targets, block_devices, links, locks, locks_to_the_end,
    starts_at_once, replaced_at_once, changed_image, changed_at_starts, lost_partitions, bad_disk, pipes_as_images,
    interrupted_writes, folder_not_synced,
    none_stated, none_stated_in_json, not_checked, true_sum_of_0, unknown_told, unknown_is_kept,
    sent_in_pieces, sent_from_files, wrong_lengths, kinds_of_input, killed_on_the_way, faults_on_the_way,
    shown_from_pipes, shown_from_files, told_on_terminals,
    compared_as_the_reference, refused_as_the_reference, told_of_refusals, compared_vast, compared_mixed,
    compared_in_svg, compared_at_length, no_memory,
    joined_as_the_reference, joined_in_groups, joins_refused, told_of_geometry, joined_vast, joined_at_length,
    joined_in_little_room, unknown_joined, joined_over_links,
    reported_as_the_reference, each_refusal_reported, nothing_remarked, bars_on_terminals, example_of_a_report,
    many_images, totals_that_pass, positions_in_reports, names_in_reports,
    retired_sections, rules_as_the_reference, asked_as_the_reference, same_table,
    slot_turns, flags_shown, states_in_words, counts_in_words, wrong_counts, old_records, other_lengths, old_made_new,
    old_of_any_bytes,
    lines_of_images, asked_for_recovery, lengths_of_misc, longest_lines, slots_that_start, refused_starts,
    started_as_the_reference, images_not_in_use, misused_starts, lines_of_any_bytes, names_in_starts,
    started_from_devices, example_in_readme,
    help_and_version, same_words, not_printed, same_in_json, as_the_reference, names_of_any_bytes,
    two_names_of_any_bytes, long_images, mixed_cells,
)


# The run.

@contextlib.contextmanager
def scratch() -> Iterator[None]:
    """A folder with the files, which is the current one and is removed again."""
    old = os.getcwd()
    with tempfile.TemporaryDirectory() as folder:
        os.chdir(folder)
        try:
            for name, data in FILES.items():
                save(name, data)
            yield
        finally:
            os.chdir(old)


def faults_of_cases(tool: Tool) -> List[str]:
    """What the tool does in the cases that it should not."""
    found = []
    for case in CASES:
        done = tool.run(case.words)
        text = done.stdout.rstrip("\n") if done.returncode == 0 else done.stderr.split("\n")[0]
        if done.returncode != case.status or (case.status < 2 and text != case.text):
            found.append(f"{case.words}: status {done.returncode}, {text!r}")
        if case.status >= 2 and (done.stdout or not done.stderr):
            found.append(f"{case.words}: should say what to do, on standard error alone")
    names = set(os.listdir("."))
    found += [f"{name} is left over" for name in names - set(FILES) - set(LEFT)]
    return found + [f"{name} does not hold what it should" for name, data in LEFT.items() if read(name) != data]


def faults_of_checks(tool: Tool) -> Tuple[List[str], int]:
    """What the checks find, and how many were made; one that cannot be made says why."""
    found, made = [], 0
    for check in CHECKS:
        with scratch():
            try:
                check(tool)
                made += 1
            except CannotCheck as reason:
                print(f"host: left out {check.__name__}: {reason}")
            except (AssertionError, subprocess.TimeoutExpired, ValueError, LookupError) as fault:
                found.append(f"{check.__name__}: {fault}")
    return found, made


def built_preload(folder: str) -> Optional[str]:
    """The file that brings about faults, where there is a compiler."""
    path = os.path.join(folder, "preload.so")
    compiler = os.environ.get("CC", "gcc")
    if shutil.which(compiler.split()[0]) is None:
        return None
    words = [*compiler.split(), "-shared", "-fPIC", "-O1", "-o", path, os.path.join(HERE, "preload.c"), "-ldl"]
    return path if subprocess.run(words, check=False).returncode == 0 else None


def agrees(path: str, preload: Optional[str]) -> bool:
    """Runs all cases and checks with a tool, and says what they find."""
    tool = Tool(os.path.abspath(path), preload)
    with scratch():
        found = faults_of_cases(tool)
    more, made = faults_of_checks(tool)
    for fault in found + more:
        print(f"host: {path}: {fault}")
    if not found + more:
        print(f"host: {len(CASES)} cases and {made} checks agree ({os.path.basename(path)})")
    return not found + more


def main() -> int:
    """Runs each tool that was built."""
    if len(sys.argv) < 2:
        print(__doc__, file=sys.stderr)
        return 2
    for number in (signal.SIGINT, signal.SIGTERM, signal.SIGHUP):
        signal.signal(number, signal.SIG_DFL)  # the tools inherit what a shell ignores for its background jobs
    all_agree = True
    with tempfile.TemporaryDirectory() as folder:
        preload = built_preload(folder)
        for path in sys.argv[1:]:
            if os.path.exists(path):
                all_agree = agrees(path, preload) and all_agree
            else:
                print(f"host: left out {path}: it was not built")
    return 0 if all_agree else 1


if __name__ == "__main__":
    sys.exit(main())
