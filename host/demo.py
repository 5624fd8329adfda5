"""An update that skips the distance record: refused when damaged, cut twice, started over, sent in pieces.

    python3 host/demo.py TOOL

Makes a scratch partition and an update, stores the update through the tool with
power cut after some blocks and the next block torn, starts over, and compares
every byte.  Then it prints the distance record as it stands on the partition
before and after, and a map of the partition at each stop.  Last, the update
arrives in odd pieces through standard input, and power is cut while a raw block
and while a fill chunk arrives.  Ends with 1 if anything is not as it should be.
"""

import array
import contextlib
import fcntl
import os
import random
import subprocess
import sys
import tempfile
import termios
import time
from pathlib import Path
from typing import Callable, List, NamedTuple, Sequence, Tuple, Union

ROOT = os.path.dirname(os.path.dirname(os.path.abspath(__file__)))
sys.path.insert(0, os.path.join(ROOT, "tests", "reference"))

import build

BLOCK = 4096
RECORD = b"distance 140.25 m, count 88134".ljust(2 * BLOCK, b".")
RECORD_AT = 5
BLOCKS = 16
STORED = (0, 1, 2, 3, 4, 7, 8, 9, 10, 11)
WRITTEN, TORN, KEPT, TO_COME = "#T.-"
LONGEST_WAIT = 20


class Stop(NamedTuple):
    """Where power fails while the update arrives: the bytes of it that have come, the byte of the partition up to
    which all is stored that will be, and what that means."""

    come: int
    due: int
    what: str


IN_A_BLOCK = Stop(28 + 12 + BLOCK + 1500, BLOCK + 1500, "1500 of the 4096 bytes of block 1 have come")
IN_A_FILL = Stop(28 + 5 * 12 + 6 * BLOCK + 4 + 2, 10 * BLOCK,
                 "2 of the 4 bytes have come that blocks 10 and 11 are filled with")


def original() -> bytes:
    """The partition before the update: old data, and the record in blocks 5 and 6."""
    data = bytearray(random.Random(1).randbytes(BLOCKS * BLOCK))
    data[RECORD_AT * BLOCK:(RECORD_AT + 2) * BLOCK] = RECORD
    return bytes(data)


def update() -> bytes:
    """New data for blocks 0 to 4 and 7 to 11; the record and the rest are skipped."""
    new = random.Random(2).randbytes(6 * BLOCK)
    return build.sparse_image(BLOCK, [
        build.raw(new[:3 * BLOCK], BLOCK),
        build.fill(b"\xDE\xAD\xBE\xEF", 2),
        build.skip(2),
        build.raw(new[3 * BLOCK:], BLOCK),
        build.fill(bytes(4), 2),
        build.skip(4),
    ])


def is_kept(before: bytes, after: bytes) -> bool:
    """Whether the length and every byte outside the stored blocks are as they were."""
    kept = [i for i in range(BLOCKS) if i not in STORED]
    same = all(before[i * BLOCK:(i + 1) * BLOCK] == after[i * BLOCK:(i + 1) * BLOCK] for i in kept)
    return same and len(before) == len(after)


def check(holds: bool, text: str) -> None:
    """Prints what holds, or ends."""
    print(("   yes: " if holds else "   NO: ") + text)
    if not holds:
        sys.exit(1)


def blocks_of(data: bytes) -> List[bytes]:
    """The partition's blocks."""
    return [data[at:at + BLOCK] for at in range(0, len(data), BLOCK)]


def map_of(before: bytes, now: bytes, new: bytes) -> str:
    """A sign for each block of the partition as it is now: kept where the update skips it, else written
    where it holds what the update gives it, still to come where it holds what it did before, else torn."""
    signs = []
    for i, (old, found, given) in enumerate(zip(blocks_of(before), blocks_of(now), blocks_of(new))):
        if i not in STORED:
            signs.append(KEPT if found == old else TORN)
        else:
            signs.append(WRITTEN if found == given else TO_COME if found == old else TORN)
    return "".join(signs)


def record_on(partition: bytes) -> str:
    """The distance record as it stands on a partition."""
    data = partition[RECORD_AT * BLOCK:(RECORD_AT + 2) * BLOCK]
    return repr(data.rstrip(b".").decode("latin-1")) + f" and {len(data) - len(data.rstrip(b'.'))} dots"


def run(tool: str, *words: Union[str, Path]) -> subprocess.CompletedProcess:
    """Runs the tool and prints what it answers."""
    print("$ tarpaulark " + " ".join(os.path.basename(word) for word in words))
    done = subprocess.run([tool, *words], capture_output=True, text=True, check=False)
    print("   " + (done.stdout + done.stderr).rstrip().replace("\n", "\n   "))
    return done


def cut(tool: str, image: Path, partition: Path, before: bytes, limit: int) -> bytes:
    """Stores so many blocks, then leaves junk in the one that would be next; what the partition holds."""
    run(tool, "store", image, partition, "--limit", str(limit))
    torn = STORED[limit]
    with partition.open("r+b") as file:
        file.seek(torn * BLOCK)
        file.write(random.Random(limit).randbytes(BLOCK))
    print(f"   power fails while block {torn} is stored: it holds junk")
    check(is_kept(before, partition.read_bytes()), "every byte that the update skips is as it was")
    return partition.read_bytes()


def odd_pieces(data: bytes) -> List[bytes]:
    """The bytes, cut at odd places."""
    rng, pieces = random.Random(3), []
    while data:
        length = rng.randrange(1, 2000)
        pieces.append(data[:length])
        data = data[length:]
    return pieces


def holds_soon(holds: Callable[[], bool]) -> bool:
    """Whether something holds, now or after a while."""
    end = time.monotonic() + LONGEST_WAIT
    while not holds() and time.monotonic() < end:
        time.sleep(0.001)
    return holds()


def is_drained(process: subprocess.Popen) -> bool:
    """Whether a process has read all that was sent to it, or has ended."""
    left = array.array("i", [0])
    fcntl.ioctl(process.stdin, termios.FIONREAD, left)
    return left[0] == 0 or process.poll() is not None


def feed(process: subprocess.Popen, pieces: Sequence[bytes]) -> None:
    """Sends pieces to a process, each when it has read the one before, until it ends."""
    with contextlib.suppress(BrokenPipeError):
        for piece in pieces:
            process.stdin.write(piece)
            holds_soon(lambda: is_drained(process))


def begin_arrival(tool: str, image: bytes, partition: Path, come: int) -> subprocess.Popen:
    """Stores the update as it arrives; so many bytes of it do, in odd pieces."""
    words = ["store", "-", str(partition), "--length", str(len(image))]
    pieces = odd_pieces(image[:come])
    print(f"$ tarpaulark store - {partition.name} --length {len(image)}")
    print(f"   {come} bytes arrive in {len(pieces)} pieces")
    process = subprocess.Popen(
        [tool, *words], stdin=subprocess.PIPE, stdout=subprocess.PIPE, stderr=subprocess.STDOUT, bufsize=0
    )
    feed(process, pieces)
    return process


def cut_arrival(tool: str, image: bytes, partition: Path, after: bytes, stop: Stop) -> bytes:
    """Ends the tool when all that is due is stored; what the partition holds."""
    before = partition.read_bytes()
    process = begin_arrival(tool, image, partition, stop.come)
    holds_soon(lambda: partition.read_bytes()[:stop.due] == after[:stop.due])
    process.kill()
    process.communicate()
    print(f"   power fails: {stop.what}")
    now = partition.read_bytes()
    check(now == after[:stop.due] + before[stop.due:], "what is due by then is stored, and nothing else")
    check(is_kept(before, now), "every byte that the update skips is as it was")
    check(RECORD in now, "the distance record is whole")
    return now


def arrive(tool: str, image: bytes, partition: Path, before: bytes, after: bytes) -> None:
    """The update arrives in odd pieces: cut in the middle of a raw block and of a fill chunk, then whole."""
    print("\nThe same update is stored as it arrives, on the partition as it was before.")
    partition.write_bytes(before)
    first = cut_arrival(tool, image, partition, after, IN_A_BLOCK)
    second = cut_arrival(tool, image, partition, after, IN_A_FILL)
    process = begin_arrival(tool, image, partition, len(image))
    print("   " + process.communicate()[0].decode().rstrip())
    check(process.returncode == 0, "the update is stored")
    check(partition.read_bytes() == after, "the partition is the one that never lost power, byte for byte")
    show(before, [("cut in a block", first), ("cut in a fill", second), ("after", partition.read_bytes())])


def show(before: bytes, stops: List[Tuple[str, bytes]]) -> None:
    """The record before and after, and the map of the partition at each stop."""
    after = stops[-1][1]
    print("\nThe distance record, as it stands in blocks 5 and 6 of the partition")
    print(f"   before   {record_on(before)}")
    print(f"   after    {record_on(after)}")
    print("\nThe partition, block by block")
    print(f"   {WRITTEN} written   {TORN} torn   {KEPT} kept by the update   {TO_COME} still to be written")
    for name, now in [("before", before)] + stops:
        print(f"   {name:<16}{map_of(before, now, after)}")


def demo(tool: str, folder: Path) -> None:
    """The whole story."""
    before = original()
    image, broken = folder / "update.simg", folder / "damaged.simg"
    partition, whole = folder / "data.img", folder / "uncut.img"
    image.write_bytes(update())
    partition.write_bytes(before)
    whole.write_bytes(before)
    print(f"A partition of {BLOCKS} blocks; blocks 5 and 6 hold: {RECORD.rstrip(b'.').decode()}\n")
    damaged = bytearray(image.read_bytes())
    damaged[100] ^= 1
    broken.write_bytes(damaged)
    check(run(tool, "store", broken, partition).returncode == 1, "a damaged update is refused")
    check(partition.read_bytes() == before, "and changes no byte")
    run(tool, "map", image)
    first = cut(tool, image, partition, before, 4)
    second = cut(tool, image, partition, before, 7)
    print("The update starts over and runs to its end.")
    check(run(tool, "store", image, partition).returncode == 0, "the update is stored")
    after = partition.read_bytes()
    check(is_kept(before, after), "every byte that the update skips is as it was")
    check(RECORD in after, "the distance record is whole")
    print("The same update on a copy that never lost power:")
    run(tool, "store", image, whole)
    check(whole.read_bytes() == after, "both partitions are the same, byte for byte")
    show(before, [("first cut", first), ("second cut", second), ("after", after)])
    arrive(tool, image.read_bytes(), partition, before, after)


def main() -> int:
    """Works in a folder that is removed again."""
    if len(sys.argv) != 2:
        print(__doc__, file=sys.stderr)
        return 2
    with tempfile.TemporaryDirectory() as folder:
        demo(os.path.abspath(sys.argv[1]), Path(folder))
    return 0


if __name__ == "__main__":
    sys.exit(main())
