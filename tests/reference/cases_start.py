"""Group `start`: the starter.

An image of a case that is not to be taken is a decoy, which the boot part refuses, or another good
image; no two images of a case are alike.
"""

import itertools
import random
from typing import Any, List, NamedTuple, Optional, Sequence, Tuple

import boot
import build
import cases_boot
import cases_slots
import crc
import slots
import starter
from cases_common import Group, below, pick, some_bytes, u32, u64
from cases_slots import BROKEN, DAMAGED, GHOST, LOST, NEW, ODD, STRONG, SUSPECT, TIRED, UNUSED
from cases_write import first_output
from slots import Record, Slot, counted

PLACES = range(slots.PLACES)
LARGEST_SPACE = 8192
LAYOUT_NUMBERS = 17
PAGES = (2048, 4096, 8192, 16384)
OLD_LENGTHS, NEW_LENGTHS = (512, 1024), (1536,)

QUIET = bytes(32)
ASKING = b"boot-recovery".ljust(32, b"\0")
LINE = b"console=ttyS0,115200 quiet"

Images = Tuple[bytes, ...]


class Case(NamedTuple):
    """The bytes of a record, or such that are none; an image for each place; misc; the loader's
    line; the length of the space."""

    record: bytes
    images: Images
    misc: bytes
    line: bytes
    room: int


class Result(NamedTuple):
    """The refusal's number or 0; kind, slot, the line's length and the layout's numbers; the
    record's bytes and the space after."""

    number: int
    answer: Tuple[int, ...]
    record: bytes
    space: bytes


def encoded(case: Case) -> bytes:
    """The case as it stands in the file."""
    assert case.room <= LARGEST_SPACE
    parts = (*case.images, case.misc, case.line)
    lengths = [u32(len(part)) for part in parts] + [u32(case.room)]
    return case.record + b"".join(lengths) + b"".join(parts)


def record_bytes(record: Record) -> bytes:
    """A record as it is lent."""
    return bytes(cases_slots.record_values(record))


def answer_numbers(answer: starter.Answer) -> Tuple[int, ...]:
    """Kind, slot, the line's length, the layout's numbers: all but the kind 0 unless it starts."""
    if isinstance(answer, starter.Starts):
        _, *layout = cases_boot.answer_values(answer.located)
        return cases_slots.BOOTS, answer.slot, answer.length, *layout
    is_recovery = isinstance(answer, slots.Recovery)
    kind = cases_slots.RECOVERY if is_recovery else cases_slots.REFUSED
    return (kind,) + (0,) * (2 + LAYOUT_NUMBERS)


def result_of(case: Case, space: bytes) -> Result:
    """What the starter makes of a case with a space.  Bytes that are no record are refused as one
    that is not valid."""
    record = cases_slots.record_of(case.record)
    if record is None:
        return Result(31, answer_numbers(boot.Refusal(31)), case.record, space)
    answer, left, after = starter.start(record, case.images, case.misc, case.line, space)
    number = answer.number if isinstance(answer, boot.Refusal) else 0
    return Result(number, answer_numbers(answer), record_bytes(left), after)


def values(case: Case) -> Tuple[int, ...]:
    """Number, kind, slot and length, and the checksum of all else that there is after."""
    number, answer, record, space = result_of(case, first_output(case.room))
    kind, slot, length, *layout = answer
    checked = b"".join(map(u64, layout)) + record + space
    return number, kind, slot, length, crc.checksum(checked)


def needed_room(case: Case) -> int:
    """How many bytes the line takes; 0 where none is made."""
    record = cases_slots.record_of(case.record)
    picked = None if record is None else slots.start(record)[0]
    if not isinstance(picked, slots.Boots):
        return 0
    image = case.images[picked.slot]
    located = boot.locate(image)
    if isinstance(located, boot.Refusal):
        return 0
    from_image = starter.image_line(image, located.version)
    is_asked = starter.is_recovery_asked(case.misc)
    return len(starter.final_line(case.line, from_image, picked.slot, is_asked))


def fitted(case: Case, spare: Optional[int]) -> Case:
    """The case with so many bytes more than the line takes, or with none at all."""
    return case._replace(room=0 if spare is None else max(0, needed_room(case) + spare))


# Records and images.

def decoy(place: int) -> bytes:
    """Some bytes of a place that are no boot image."""
    return b"ANDROID!" + bytes([place]) * (3 + 2 * place)


def around(place: int, image: bytes) -> Images:
    """The image at a place, decoys at the others."""
    return tuple(image if other == place else decoy(other) for other in PLACES)


def record_of_slots(current: int, others: Sequence[Slot], slot: Slot) -> Record:
    """A slot that is current, and three others in letter order."""
    return counted((*others[:current], slot, *others[current:]), current)


def started_as_current() -> List[Tuple[Record, int]]:
    """At each place a current slot that starts: new, with the most tries and the last one;
    successful with tries and with none.  The others would start, or look so and are not in use."""
    kinds = (NEW, STRONG, NEW._replace(tries=1), STRONG._replace(tries=0), NEW._replace(tries=7))
    others = ((STRONG, NEW, GHOST), (ODD, UNUSED, GHOST), (NEW, DAMAGED, STRONG))
    return [
        (record_of_slots(place, pair, slot), place)
        for slot, pair in zip(kinds, itertools.cycle(others)) for place in PLACES
    ]


def taken_over() -> List[Tuple[Record, int]]:
    """From each place to each other: the current slot has no tries, is unbootable or corrupted;
    the one that starts is the only candidate, or the first of several."""
    found = []
    stopped = itertools.cycle((TIRED, BROKEN, DAMAGED, LOST, SUSPECT))
    for step, place in itertools.product((1, 2, 3), PLACES):
        current = (place + step) % slots.PLACES
        passed = itertools.cycle((NEW, GHOST, DAMAGED, TIRED))
        others = {other: next(passed) if other < place or step == 2 else STRONG for other in PLACES}
        others.update({place: STRONG._replace(tries=place), current: next(stopped)})
        found.append((counted([others[other] for other in PLACES], current), place))
    return found


def starting_records() -> List[Tuple[Record, int]]:
    """All of these, each with the place that starts, in an order that mixes them."""
    pairs = started_as_current() + taken_over()
    return [pairs[13 * i % len(pairs)] for i in range(len(pairs))]


def header_image(version: int, *texts: bytes, **given: Any) -> bytes:
    """A header with cmdlines, and some bytes after it; fields that no rule is for hold bytes, as
    does what is left of a field after its text."""
    names = ("cmdline", "extra_cmdline")
    plan = {"filler": 0xE7, **dict(zip(names, texts)), **given}
    return build.boot_header(build.BootPlan(version, **plan)) + b"past"


def good_image(place: int, version: int) -> bytes:
    """A place's own image: its texts, its page, its bytes elsewhere."""
    letter = bytes([ord("A") + place])
    texts = (b"image=" + letter + b"\0", b" more=" + letter + b"\0")
    texts = texts if version < 3 else texts[:1]
    return header_image(version, *texts, page=PAGES[place], filler=0xF0 + place)


def whole_image(version: int, length: int, **given: Any) -> bytes:
    """An image with sections, and a text in its header."""
    plan = {"cmdline": b"sections=%d\0hidden" % version, **given}
    return build.boot_image(version, length, **plan)


def any_text(length: int, first: int = 1) -> bytes:
    """So many bytes of every value but 0."""
    return bytes(1 + (first + 7 * i) % 255 for i in range(length))


# Cases.  A plan is a case without a record: it gets one of those that start a slot.

class Plan(NamedTuple):
    """The image that is to be started, misc, the loader's line, and how many bytes more of space
    there are than the line takes."""

    image: bytes
    misc: bytes = QUIET
    line: bytes = LINE
    spare: Optional[int] = 5


def planned(plan: Plan, record: Record, place: int) -> Case:
    """The case of a plan with a record that starts the slot at a place."""
    images = around(place, plan.image)
    return fitted(Case(record_bytes(record), images, plan.misc, plan.line, 0), plan.spare)


def section_plans() -> List[Plan]:
    """Each version with a section that is not empty, a retired one among them, and beside another.
    In version 4 a full cmdline stands before a size that is not 0."""
    return [
        Plan(whole_image(0, 2048 + 5, second=5)),
        Plan(whole_image(1, 2048 + 7, recovery=7, recovery_offset=2048)),
        Plan(whole_image(2, 2048 + 9, dtb=9)),
        Plan(whole_image(3, 4096 + 1, kernel=1)),
        Plan(whole_image(4, 4096 + 3, signature=3, cmdline=any_text(1536)), misc=ASKING),
        Plan(whole_image(2, 4096 + 1, second=2048, dtb=1), misc=ASKING),
    ]


def text_plans() -> List[Plan]:
    """Cmdlines that are empty, of a byte, full, and nearly so; that end early, with bytes after
    the zero byte; with a zero byte where another version's field begins or ends.  What follows a
    full field is not 0."""
    early = (b"early\0late", b"more\0late")
    full = (any_text(512), any_text(1024, 100))
    tail = {"recovery": 7, "recovery_offset": 2048}
    old = [(version, early) for version in range(3)] + [(0, full)]
    old += [(0, (b"\0cmd", b"\0extra")), (1, (b"\0cmd", b"y\0")), (2, (b"x\0", b"\0extra"))]
    old += [(0, (full[0][1:] + b"\0", full[1][1:] + b"\0")), (1, (b"\0cmd", full[1]))]
    old += [(2, (full[0], b"\0extra")), (2, (full[0], b" z\0"))]
    new = [(3, any_text(1535) + b"\0"), (3, b"\0cmd"), (4, b"x\0late")]
    new += [(version, any_text(at - 44) + b"\0") for version, at in ((3, 576), (4, 608))]
    plans = [Plan(header_image(version, *texts)) for version, texts in old]
    plans += [Plan(header_image(version, text)) for version, text in new]
    return plans + [
        Plan(header_image(version, *full, **tail).ljust(2048 + 7, b"\x01")) for version in (1, 2)
    ]


def space_plans() -> List[Plan]:
    """A space that is exact, one byte short and one byte long, none at all, and as short as if the
    line had no ending or no suffix."""
    short = header_image(3, b"s\0")
    spares = (-1, 0, 1, None, -15)
    plans = [Plan(short, spare=spare) for spare in spares]
    plans += [Plan(header_image(0, b"\0", b"e\0"), ASKING, spare=spare) for spare in (-1, 0, 1)]
    return plans + [Plan(short, ASKING, spare=-27)]


def longest_plans() -> List[Plan]:
    """Lines of 4,096 bytes, and of one more; the loader's line alone has so many."""
    new = header_image(3, any_text(1536))
    old = header_image(0, any_text(512), any_text(1024))
    plans = [Plan(new, line=any_text(2517), spare=spare) for spare in (-1, 0, 4096)]
    plans += [Plan(new, line=any_text(2518), spare=spare) for spare in (0, 4095)]
    plans += [Plan(old, ASKING, any_text(count), spare=9) for count in (2532, 2533)]
    empty = header_image(3, b"\0")
    return plans + [Plan(empty, line=any_text(n), spare=60) for n in (4053, 4054, 4097)]


def asked_plans() -> List[Plan]:
    """Recovery asked for, with bytes after the zero byte too; and nearly so."""
    texts = [ASKING, b"boot-recovery\0recovery\n--wipe_data", b"boot-recovery".ljust(32, b" ")]
    texts += [b"boot-recovery".ljust(32, b"\x01"), b" boot-recovery", b"BOOT-RECOVERY"]
    texts += [b"boot-recover", b"boot-fastboot"]
    texts += [build.with_bytes(ASKING, at, bytes([ASKING[at] ^ 1])) for at in (0, 4, 7, 12)]
    texts += [build.with_bytes(ASKING, 13, b"\x80"), ASKING[:14] + b"\xFF" * 18]
    return [
        Plan(header_image(3 + i % 2, b"asked=%d\0" % i), text.ljust(32, b"\0")[:32])
        for i, text in enumerate(texts)
    ]


def loader_plans() -> List[Plan]:
    """A loader's line that is empty, of a space, of zero bytes or with one; of every byte; with
    both ends such as might be cut off."""
    lines = (b"", b" ", b"\0", b"before\0after", bytes(range(256)), b" a b \n", b"\0\0")
    return [Plan(header_image(3, b" \tt \n\0"), line=line) for line in lines]


def planned_cases() -> List[Case]:
    """Every plan, each with a record of its own."""
    plans = section_plans() + text_plans() + space_plans() + longest_plans()
    plans += asked_plans() + loader_plans()
    records = itertools.cycle(starting_records())
    return [planned(plan, *pair) for plan, pair in zip(plans, records)]


def four_images(turn: int) -> Images:
    """A good image at each place, no two of one version."""
    return tuple(good_image(place, (place + turn) % 5) for place in PLACES)


def letter_cases() -> List[Case]:
    """Each letter started, as the current slot and by taking over, with a good image at every
    place."""
    cases = []
    for place in PLACES:
        taking, _ = taken_over()[slots.PLACES * (place % 3) + place]
        cases.append(Case(record_bytes(taking), four_images(place), QUIET, LINE, 0))
        others = (NEW, STRONG, TIRED)
        images = list(around(place, good_image(place, (place + 2) % 5)))
        images[place - 1] = good_image((place - 1) % slots.PLACES, 3)
        record = record_bytes(record_of_slots(place, others, NEW))
        cases.append(Case(record, tuple(images), ASKING, LINE, 0))
    return [fitted(case, 8) for case in cases]


def refused_images() -> List[bytes]:
    """Images with each boot refusal, in 01's order; the last ends in its second section."""
    right = good_image(0, 4)
    return [
        right[:boot.SHORTEST - 1],
        build.with_bytes(right, 7, b"?")[:boot.SHORTEST],
        build.with_bytes(right, boot.VERSION_AT, b"\x05")[:boot.SHORTEST],
        right[:build.HEADER_LENGTHS[4] - 1],
        header_image(3, header_size=build.HEADER_LENGTHS[4]),
        header_image(0, page=1024),
        header_image(1, recovery=1, recovery_offset=2048, kernel=1),
        header_image(3, kernel=1),
        header_image(0, second=1),
    ]


def refused_cases() -> List[Case]:
    """Each boot refusal of the current slot's image, which has spent a try, another slot's image
    being good or all others; then of one that takes over, that of the slot that was current being
    good; then of a successful slot."""
    cases = []
    for i, image in enumerate(refused_images()):
        place = i % slots.PLACES
        images = list(around(place, image))
        for step in (1, 2, 3) if i % 5 == 0 else (1,):
            other = (place + step) % slots.PLACES
            images[other] = good_image(other, 3)
        others = (NEW, STRONG, NEW) if i % 2 == 0 else (STRONG, STRONG, STRONG)
        record = record_of_slots(place, others, NEW._replace(tries=1 + i % 7))
        room = 0 if i % 3 == 0 else 900
        cases.append(Case(record_bytes(record), tuple(images), (QUIET, ASKING)[i % 2], LINE, room))
    for i, (record, place) in enumerate(taken_over()[::4]):
        images = list(around(place, refused_images()[(2 * i + 1) % 9]))
        images[record.current] = good_image(record.current, i)
        cases.append(Case(record_bytes(record), tuple(images), QUIET, LINE, 300))
    strong = record_bytes(record_of_slots(1, (NEW, STRONG, NEW), STRONG))
    return cases + [Case(strong, around(1, b""), ASKING, LINE, 40)]


def short_images(place: int) -> Images:
    """Four images of which none is good, and the one at a place is empty."""
    return around(place, b"")


def misc_cases() -> List[Case]:
    """Misc that has not 32 bytes, with records that would start a slot or answer Recovery, with a
    good image and a bad one, enough space and too little."""
    starts, _ = starting_records()[1]
    takes, place = taken_over()[4]
    recovers = record_of_slots(2, (NEW, GHOST, DAMAGED), TIRED)
    wrong = (b"", QUIET[1:], ASKING + b"\0", ASKING[:14], QUIET + b"\0", ASKING[:31], ASKING * 2)
    cases = []
    for i, misc in enumerate(wrong):
        record = (starts, takes, recovers)[i % 3]
        cases.append(Case(record_bytes(record), short_images(2), misc, LINE, 70 * (i % 2)))
    cases.append(Case(record_bytes(recovers), short_images(0), b"", LINE, 0))
    good = around(place, good_image(place, 3))
    wrong = ((ASKING[:31], 0), (QUIET + b"\0", 400))
    return cases + [Case(record_bytes(takes), good, misc, LINE, room) for misc, room in wrong]


def no_records() -> List[bytes]:
    """Bytes that are no record, for a flag that is neither 0 nor 1, at a place in use or not."""
    given = record_bytes(record_of_slots(0, (STRONG, UNUSED, GHOST), NEW))
    return [build.with_bytes(given, at, bytes([flag])) for at, flag in ((0, 2), (8, 255), (16, 2))]


def invalid_cases() -> List[Case]:
    """Records that are not valid, and bytes that are none, with misc of 32 bytes and of others,
    with a good image and bad ones."""
    records = [record_bytes(record) for record in cases_slots.invalid_records()[::4]]
    records += [record_bytes(record) for record in cases_slots.wrong_counts()[:3]] + no_records()
    miscs = itertools.cycle((QUIET, ASKING, b"", ASKING[:31], QUIET + b"\0"))
    cases = [
        Case(record, short_images(i % slots.PLACES), misc, LINE, 90 * (i % 2))
        for i, (record, misc) in enumerate(zip(records, miscs))
    ]
    good = around(0, good_image(0, 3))
    return cases + [Case(record, good, QUIET, LINE, 200) for record in (records[0], records[-1])]


def recovery_cases() -> List[Case]:
    """Start answers Recovery: a slot that is marked now or was before, corrupted or not, beside
    others that are no candidates; recovery asked for or not, the images good or not, the space
    and the loader's line of any length."""
    records = [
        record_of_slots(0, (UNUSED, UNUSED, UNUSED), TIRED),
        record_of_slots(1, (NEW, GHOST, DAMAGED), DAMAGED),
        record_of_slots(2, (NEW, NEW, NEW), BROKEN._replace(tries=3)),
        record_of_slots(3, (DAMAGED, SUSPECT, TIRED), SUSPECT),
        record_of_slots(1, (GHOST, GHOST, GHOST), LOST),
        record_of_slots(2, (NEW, GHOST, ODD), TIRED),
    ]
    cases = [
        Case(record_bytes(record), short_images(i % 3), (QUIET, ASKING)[i % 2], LINE, 50 * (i % 3))
        for i, record in enumerate(records)
    ]
    tired = record_bytes(records[0])
    cases.append(Case(tired, around(0, good_image(0, 3)), QUIET, LINE, 500))
    cases.append(Case(tired, around(0, good_image(0, 4)), ASKING, LINE, 500))
    return cases + [Case(tired, short_images(0), QUIET, any_text(4097), 4096)]


# Random cases, of which the differential test makes more.

def random_text(rng: random.Random, length: int) -> bytes:
    """What a field of so many bytes begins with: a text that is empty, short, full or nearly so,
    with a zero byte after it and some bytes after that, as far as there is room."""
    short = below(rng, 40)
    count = pick(rng, (0, 1, short, short, short, below(rng, length), length - 1, length))
    text = some_bytes(rng, count).replace(b"\0", b" ")
    return (text + b"\0" + some_bytes(rng, below(rng, 20)))[:length]


def random_image(rng: random.Random, **given: Any) -> bytes:
    """A header with random texts, and no sections but those that are given."""
    version = below(rng, 5)
    texts = [random_text(rng, n) for n in (OLD_LENGTHS if version < 3 else NEW_LENGTHS)]
    page = pick(rng, PAGES)
    return header_image(version, *texts, page=page, filler=pick(rng, (0, 32, 255)), **given)


def random_record(rng: random.Random) -> Record:
    """Mostly one that starts a slot, or any."""
    starts, _ = pick(rng, starting_records())
    return pick(rng, (starts, starts, cases_slots.random_record(rng)))


def random_misc(rng: random.Random) -> bytes:
    """Recovery asked for or nearly so, or not, or any bytes; at times not 32 of them."""
    asking = ASKING[:14] + some_bytes(rng, 18)
    at = below(rng, 16)
    near = build.with_bytes(asking, at, bytes([asking[at] ^ 1 << below(rng, 8)]))
    misc = pick(rng, (asking, asking, ASKING, near, near, QUIET, some_bytes(rng, 32)))
    if below(rng, 12) != 0:
        return misc
    return pick(rng, (b"", misc[:31], misc + b"\0", misc + misc, misc[:below(rng, 32)]))


def random_spare(rng: random.Random) -> Optional[int]:
    """Mostly as much space as the line takes, or nearly so, or more; less, or none."""
    more, less = below(rng, 400), -1 - below(rng, 50)
    return pick(rng, (-1, 0, 0, 0, 0, 1, 1, 2, more, more, more, pick(rng, (less, None))))


def random_case(rng: random.Random) -> Case:
    """A record that mostly starts a slot, then with a random image."""
    record = random_record(rng)
    picked, _ = slots.start(record)
    images = short_images(0)
    if isinstance(picked, slots.Boots):
        images = around(picked.slot, random_image(rng))
    line = some_bytes(rng, below(rng, 60))
    case = Case(record_bytes(record), images, random_misc(rng), line, 0)
    return fitted(case, random_spare(rng))


def all_cases(rng: random.Random) -> List[Case]:
    """The cases of the group, each once."""
    cases = planned_cases() + letter_cases() + refused_cases() + misc_cases()
    cases += invalid_cases() + recovery_cases() + [random_case(rng) for _ in range(8)]
    return list(dict.fromkeys(cases))


def group(rng: random.Random) -> Group:
    """All cases of the group."""
    cases = all_cases(rng)
    return Group(b"".join(map(encoded, cases)), [values(case) for case in cases])
