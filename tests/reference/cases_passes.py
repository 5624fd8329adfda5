"""Group `passes`: images that are fed in pieces to judging and storing passes."""

import random
import struct
from typing import Iterator, List, NamedTuple, Optional, Sequence, Tuple

import build
import cases_sparse
import cases_store
import crc
import passes
import sparse
import store
import writer
from cases_common import Group, below, pick, u32
from passes import Answer, GoingOn
from sparse import Accepted, Refusal

MOST_STEPS = 256
MOST_LENGTH = 2**64 - 1
BEGIN, JUDGE_PIECE, JUDGE_FINISH, STORE_PIECE, STORE_FINISH = range(2, 7)
NEW_REFUSALS = (14, 15, 16)

Pieces = Sequence[bytes]


class Call(NamedTuple):
    """A call of a pass: a piece, or None to finish; the length of the partition that
    is lent, or None for the judging pass."""

    piece: Optional[bytes]
    lent: Optional[int] = None


class Pass(NamedTuple):
    """A pass: the lengths that it is told, and its calls."""

    length: int
    room: int
    calls: Tuple[Call, ...]


class Case(NamedTuple):
    """Bytes in which every piece stands, and passes that are fed them, each on the
    first contents of a partition."""

    data: bytes
    partition_length: int
    seed: int
    passes: Tuple[Pass, ...]


# Ways to cut an image.

def in_two(image: bytes) -> Iterator[Pieces]:
    """Cut at every byte in two."""
    for at in range(len(image) + 1):
        yield image[:at], image[at:]


def by_bytes(image: bytes) -> Pieces:
    """Byte by byte."""
    return [image[at:at + 1] for at in range(len(image))]


def at_random(rng: random.Random, image: bytes, most: int) -> Pieces:
    """Several pieces, some of them empty."""
    cuts = [below(rng, len(image) + 1) for _ in range(below(rng, most))]
    cuts = sorted(cuts + cuts[:1] + [0] * below(rng, 2))
    return [image[a:b] for a, b in zip([0] + cuts, cuts + [len(image)])]


# The file and its lines.

def encoded_call(call: Call, data: bytes, data_at: int) -> bytes:
    """The call as it stands in the file, its piece somewhere in the data."""
    piece_form, finish_form = JUDGE_PIECE, JUDGE_FINISH
    if call.lent is not None:
        piece_form, finish_form = STORE_PIECE, STORE_FINISH
    if call.piece is None:
        return struct.pack("<HHHH", finish_form, call.lent or 0, 0, 0)
    at = data_at + data.index(call.piece)
    return struct.pack("<HHHH", piece_form, call.lent or 0, at, len(call.piece))


def encoded_pass(told: Pass, data: bytes, data_at: int) -> bytes:
    """The pass as it stands in the file."""
    begin = struct.pack("<HHQQ", BEGIN, 0, told.length, told.room)
    return begin + b"".join(encoded_call(call, data, data_at) for call in told.calls)


def encoded(case: Case) -> bytes:
    """The case as it stands in the file."""
    assert case.partition_length <= cases_store.LONGEST_PARTITION
    calls = [call for told in case.passes for call in told.calls]
    assert all((call.lent or 0) <= case.partition_length for call in calls)
    count = len(case.passes) + len(calls)
    assert count <= MOST_STEPS
    data_at = 16 + 20 * len(case.passes) + 8 * len(calls)
    steps = b"".join(encoded_pass(told, case.data, data_at) for told in case.passes)
    size = data_at + len(case.data)
    head = u32(size) + u32(case.partition_length) + u32(case.seed) + u32(count)
    return head + steps + case.data


def answer_values(answer: Answer, finishing: bool) -> Tuple[int, ...]:
    """Number and place; of a finishing also the three counts."""
    verdict = Accepted(0, 0, 0) if isinstance(answer, GoingOn) else answer
    values = cases_sparse.verdict_values(verdict)
    return values if finishing else values[:2]


class Outcome(NamedTuple):
    """What the last call of a pass answered, the values of all, and what they left."""

    answer: Answer
    values: Tuple[int, ...]
    partition: bytes


def outcome(told: Pass, partition: bytes) -> Outcome:
    """The values are each call's answer, and the checksum of what was lent, after it."""
    state = passes.begin(told.length, told.room)
    answer: Answer = GoingOn()
    found: Tuple[int, ...] = ()
    for piece, length in told.calls:
        lent = None if length is None else partition[:length]
        state, answer, left = passes.called(state, piece, lent)
        found += answer_values(answer, piece is None) + (crc.checksum(left or b""),)
        partition = (left or b"") + partition[length or 0:]
    return Outcome(answer, found, partition)


def assert_whole_form(told: Pass, first: bytes, found: Outcome) -> None:
    """CR 1: "Where the pieces together are exactly the announced length and no call gets
    14, 15 or 16", answer and, if all is stored, partition are the whole form's."""
    fed = b"".join(call.piece or b"" for call in told.calls)
    if len(fed) != told.length or told.calls[-1].piece is not None:
        return
    if isinstance(found.answer, Refusal) and found.answer.number in NEW_REFUSALS:
        return
    assert found.answer == sparse.judge(fed, told.room)
    if isinstance(found.answer, Accepted) and all(call.lent is not None for call in told.calls):
        left = store.store(fed, first[:told.room])[1]
        assert found.partition == left + first[told.room:]


def values(case: Case) -> Tuple[int, ...]:
    """The values of all passes, one after the other."""
    first = cases_store.first_contents(case.partition_length, case.seed)
    found: Tuple[int, ...] = ()
    for told in case.passes:
        result = outcome(told, first)
        assert_whole_form(told, first, result)
        found += result.values
    return found


# Passes to try.

def judged(pieces: Pieces, length: int, room: int) -> Pass:
    """A judging pass that is fed pieces and then finished."""
    return Pass(length, room, tuple(map(Call, pieces)) + (Call(None),))


def stored(pieces: Pieces, length: int, room: int) -> Pass:
    """A storing pass that is fed pieces and then finished."""
    calls = tuple(Call(piece, room) for piece in pieces)
    return Pass(length, room, calls + (Call(None, room),))


def both(pieces: Pieces, length: int, room: int) -> List[Pass]:
    """A judging pass, then a storing pass."""
    return [judged(pieces, length, room), stored(pieces, length, room)]


def cases_of(rng: random.Random, data: bytes, room: int, told: Sequence[Pass]) -> List[Case]:
    """Passes over the same bytes, as many in a case as it takes."""
    parts: List[List[Pass]] = []
    count = MOST_STEPS
    for one in told:
        steps = 1 + len(one.calls)
        if count + steps > MOST_STEPS:
            parts.append([])
            count = 0
        parts[-1].append(one)
        count += steps
    return [Case(data, room, below(rng, 256), tuple(part)) for part in parts]


P2 = build.two_chunks()
RAW = build.sparse_image(4, [build.raw(b"abcdefgh", 4), build.skip(1)])
WIDE = build.two_chunks(file_header_size=36, chunk_header_size=20)


def cut_cases(rng: random.Random) -> List[Case]:
    """Small images cut at every byte in two."""
    cases = []
    for image in cases_store.SMALL_IMAGES[:5] + (WIDE,):
        room = cases_store.total_length(image)
        told = [one for pieces in in_two(image) for one in both(pieces, len(image), room)]
        cases += cases_of(rng, image, room, told)
    return cases


def example_images() -> List[cases_sparse.Case]:
    """The sparse images of P1 to P9, and P2 with checksum 1."""
    flat = b"\xFF" * 4 + bytes(12)
    p1, p9 = writer.write(b"", 4096, bytes(28)).output, writer.write(flat, 8, bytes(64)).output
    found = [cases_sparse.Case(p1, 0), cases_sparse.Case(p9, 16), cases_sparse.Case(p9, 15)]
    return found + cases_sparse.example_cases()


def small_images() -> List[cases_sparse.Case]:
    """Images accepted and refused, for partitions with room or without."""
    empties = [build.raw(b"", 4), build.unknown(7, 0, b"data"), build.skip(0)]
    found = [(image, cases_store.total_length(image)) for image in cases_store.SMALL_IMAGES]
    found += [(image, 41) for image in cases_store.refused_images(41)]
    found += [(P2[:length], 12) for length in (0, 1, 27, 28, 29, 39, 40, 43, 44, 55)]
    found += [(WIDE, 12), (WIDE[:55], 12), (WIDE[:56], 12), (WIDE + b"\0", 12)]
    found += [(build.sparse_image(4, empties), 0), (build.sparse_image(65536, []), 3)]
    found += [(cases_sparse.base_image(), 64), (cases_sparse.base_image(), 70)]
    found += [(cases_sparse.base_image(checksum=checksum), 64) for checksum in (0, 1)]
    return example_images() + [cases_sparse.Case(image, room) for image, room in found]


def at_its_moment(image: bytes, room: int) -> Pieces:
    """Byte by byte; of an image that is refused only the last bytes before that."""
    pieces = by_bytes(image)
    numbers = outcome(judged(pieces, len(image), room), b"").values[:3 * len(pieces):3]
    refused = [at for at, number in enumerate(numbers) if number != 0]
    if not refused:
        return pieces
    start = max(0, refused[0] - 3)
    return [image[:start]] + by_bytes(image[start:start + 6])


def byte_cases(rng: random.Random) -> List[Case]:
    """Small images byte by byte, for every moment at which a test runs."""
    cases = []
    for image, room in small_images():
        told = both(at_its_moment(image, room), len(image), room)
        cases += cases_of(rng, image, room, told)
    return cases


def length_cases(rng: random.Random) -> List[Case]:
    """Announced lengths but the right one: fed all at once, all but the last byte, and
    cut where they end."""
    cases = []
    for image in (P2, RAW):
        size = len(image)
        told = []
        for length in (0, 1, 27, 28, 40, size - 1, size + 1, size + 12, 2**32, MOST_LENGTH):
            told += both([image], length, 12) + both([image[:-1]], length, 12)
            told += both([image[:length], b"", image[length:]], length, 12)
        cases += cases_of(rng, image, 12, told)
    return cases


def early_passes(image: bytes, come: int, room: int) -> Iterator[Pass]:
    """Calls that 14, 15 or 16 refuse, or two of them, after so many bytes of an image;
    then the pass goes on as if nothing had happened."""
    rest = image[come:]
    for early in (
        Call(None),
        Call(None, room),
        Call(None, room + 1),
        Call(None, room - 1),
        Call(rest + b"x"),
        Call(rest + b"x", room),
        Call(rest + b"x", room + 1),
        Call(rest, room - 1),
        Call(b"", room + 1),
        Call(b"", 0),
    ):
        last = (Call(rest, room), Call(b"", room + 1), Call(None, room), Call(None))
        yield Pass(len(image), room, (Call(image[:come], room), early) + last)


def early_cases(rng: random.Random) -> List[Case]:
    """14, 15 and 16 at several moments, and before anything has come."""
    cases = []
    wrong = build.two_chunks(magic=0)
    for image, moments in ((P2, (0, 28, 43, 56)), (RAW, (45,)), (wrong, (3, 4))):
        told = [one for come in moments for one in early_passes(image, come, 12)]
        cases += cases_of(rng, image + b"x", 13, told)
    firsts = [Call(piece, lent) for piece in (None, b"", b"x") for lent in (None, 12, 13)]
    for length, room in ((0, 12), (1, 12), (27, 12), (28, 12), (0, MOST_LENGTH), (MOST_LENGTH, 12)):
        told = [Pass(length, room, (first, Call(b"x", 12), Call(None, 12))) for first in firsts]
        cases += cases_of(rng, b"x", 13, told)
    return cases


def wide_cases(rng: random.Random) -> List[Case]:
    """Images that name up to 2^48 bytes, and long headers, judged."""
    cases = []
    wide = cases_sparse.long_run_cases(rng)[::4] + cases_sparse.header_size_cases()
    for image, room in wide:
        if len(image) < 1200:
            told = judged(at_random(rng, image, 8), len(image), room)
            cases += cases_of(rng, image, 0, [told])
    return cases


def checksum_cases(rng: random.Random) -> List[Case]:
    """02, CR 2: images that state 0, true or not, and the same with a wrong checksum."""
    images = cases_sparse.none_stated_images(36, 20) + cases_sparse.zero_sum_images()
    cases = []
    for i, image in enumerate(images):
        room, wrong = cases_store.total_length(image), cases_sparse.with_wrong_checksum(image, i)
        told = both(at_random(rng, image, 6), len(image), room)
        told.append(stored([wrong], len(image), room))
        cases += cases_of(rng, image + wrong, room, told)
    for image in cases_sparse.wide_zero_images():
        told = [judged(at_random(rng, image, 6), len(image), MOST_LENGTH)]
        cases += cases_of(rng, image, 0, told)
    return cases


def count_cases(rng: random.Random) -> List[Case]:
    """02, CR 3: a chunk of each kind in every order, types near the known ones, and many
    blocks of each kind."""
    cases = []
    for image in cases_sparse.ordered_images() + cases_sparse.near_images():
        room = cases_store.total_length(image)
        told = both(at_random(rng, image, 6), len(image), room)
        cases += cases_of(rng, image, room, told)
    for image in cases_sparse.wide_count_images():
        told = [judged(at_random(rng, image, 6), len(image), MOST_LENGTH)]
        cases += cases_of(rng, image, 0, told)
    return cases


def passes_taken(rng: random.Random, room: int) -> Sequence[Optional[int]]:
    """One of the passes, or both in turn, by the partition that is lent."""
    return pick(rng, ((None,), (room,), (room,), (room, None)))


def random_calls(
    rng: random.Random, pieces: Pieces, taken: Sequence[Optional[int]]
) -> List[Call]:
    """Each piece and then a finishing, by the passes that are taken, and some calls
    more; at times one of them finishes early or is lent another partition."""
    more = pick(rng, ([], [None], [b""], [pieces[-1]], [b"", None]))
    found = [Call(piece, pick(rng, taken)) for piece in list(pieces) + [None] + more]
    odd = below(rng, 3 * len(found))
    if odd < len(found):
        piece, lent = found[odd]
        if lent is None or below(rng, 2) == 0:
            found[odd] = Call(None, lent)
        else:
            found[odd] = Call(piece, max(0, lent + pick(rng, (-1, 1, 40))))
    return found


def with_a_bit_flipped(rng: random.Random, image: bytes) -> bytes:
    """The image with one bit damaged."""
    at = below(rng, len(image))
    return build.with_bytes(image, at, bytes([image[at] ^ 1 << below(rng, 8)]))


def random_cases(rng: random.Random) -> List[Case]:
    """Random images, whole and damaged, cut at random."""
    cases = []
    for i in range(100):
        image = cases_store.random_image(rng)
        image = with_a_bit_flipped(rng, image) if i % 3 == 0 else image
        room = cases_store.total_length(image) % 300 + pick(rng, (0, 0, 0, 5))
        length = max(0, len(image) + pick(rng, (0,) * 12 + (-1, 1, 12)))
        told = []
        for _ in range(2):
            pieces, taken = at_random(rng, image, 8), passes_taken(rng, room)
            told.append(Pass(length, room, tuple(random_calls(rng, pieces, taken))))
        cases.append(Case(image, room + 40, below(rng, 256), tuple(told)))
    return cases


def group(rng: random.Random) -> Group:
    """All cases of the group."""
    cases = cut_cases(rng) + byte_cases(rng) + length_cases(rng) + early_cases(rng)
    cases += wide_cases(rng) + checksum_cases(rng) + count_cases(rng) + random_cases(rng)
    return Group(b"".join(map(encoded, cases)), [values(case) for case in cases])
