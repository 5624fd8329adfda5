"""Looks for tables of the checksum in what the compiler made.

    python3 tests/tables.py LIBRARY          an archive of objects, or an object
    python3 tests/tables.py --planted [CC]   on objects that CC makes, most with a fault

A library may hold one: sixteen numbers, each what four one-bit steps make of its
index, in read-only data, in rows of four.  None of the sixteen but 0 and the
polynomial may stand in data a second time, or some of them in the code, where a
copy on the stack would be made number by number.  Nor may it hold another table:

- sixteen numbers in a row, of 1, 2, 4 or 8 bytes in either order, that are linear
  over exclusive or, up to one number that is added to all: so are the tables of all
  such checksums, of any polynomial and any step (in code only numbers of many bits,
  since the places that instructions in a row name can be linear too);
- in code or data, some numbers that a larger step of this checksum makes of an
  index, or some powers that squaring makes;
- data that are written, where a table could be made.

Prints where the table stands; where something is wrong, prints that and ends
with 1.
"""

import os
import shlex
import struct
import subprocess
import sys
import tempfile
from typing import Dict, Iterator, List, NamedTuple, Tuple

HERE = os.path.dirname(os.path.abspath(__file__))
sys.path.insert(0, os.path.join(HERE, "reference"))

import crc

LOADED, WRITTEN, RUN = 2, 1, 4  # flags of a section: SHF_ALLOC, SHF_WRITE, SHF_EXECINSTR
NO_BITS = 8  # the type of a section that is all zeros and not in the file
WIDTHS = {1: "B", 2: "H", 4: "I", 8: "Q"}
FARTHEST = 16  # bytes that a step of a larger table passes over
SOME = 3  # so many numbers of one table are no chance
DENSE = 6  # bits of a number that tell it from the places that instructions in a row name


class Section(NamedTuple):
    """A section that goes into the program, with its object's number in the archive."""

    member: int
    name: str
    flags: int
    content: bytes
    length: int

    def is_code(self) -> bool:
        """Whether it is run."""
        return bool(self.flags & RUN)


Place = Tuple[Section, int]


def shown(places: List[Place]) -> str:
    """Places in words."""
    return ", ".join(f"{section.name}+{at}" for section, at in places) or "nowhere"


def after_steps(count: int, state: int) -> int:
    """So many one-bit steps."""
    for _ in range(count):
        state = crc.bit_step(state)
    return state


HALF_BYTES = [after_steps(4, index) for index in range(16)]
ROWS = [struct.pack("<4I", *HALF_BYTES[k:k + 4]) for k in range(0, 16, 4)]
OWN = [number for number in HALF_BYTES if number not in (0, crc.POLYNOMIAL)]
# Numbers that stand anywhere.
PLAIN = set(HALF_BYTES) | {1 << k for k in range(32)}


def other_tables() -> Dict[str, List[int]]:
    """The numbers of other tables of this checksum, but for those that stand anywhere."""
    tables = {}
    for passed in range(1, FARTHEST + 1):
        numbers = {after_steps(8 * passed, index) for index in range(256)}
        tables[f"{passed} bytes at a step"] = numbers | {after_steps(8 * passed + 4, index) for index in range(16)}
    tables["powers by squaring"] = {crc.after_zeros(1 << 31, 2 ** k) for k in range(64)}
    return {name: sorted(numbers - PLAIN) for name, numbers in tables.items()}


# What is in a file.

def sections_of(found: bytes, member: int = 0) -> Iterator[Section]:
    """The sections of an ELF object of 64 bits, little-endian, that are loaded."""
    if found[:6] != b"\x7fELF\x02\x01":
        raise ValueError("not an ELF object of 64 bits, little-endian")
    at, = struct.unpack_from("<Q", found, 40)
    size, count, names = struct.unpack_from("<HHH", found, 58)
    heads = [struct.unpack_from("<IIQQQQ", found, at + size * i) for i in range(count)]
    text = heads[names][4]
    for name, kind, flags, _, place, length in heads:
        if flags & LOADED:
            word = found[text + name:found.index(b"\0", text + name)].decode()
            content = b"" if kind == NO_BITS else found[place:place + length]
            yield Section(member, word, flags, content, length)


def members_of(found: bytes) -> Iterator[bytes]:
    """The objects of an archive; an object is its own only member."""
    if not found.startswith(b"!<arch>\n"):
        yield found
        return
    at = 8
    while at < len(found):
        length = int(found[at + 48:at + 58])
        member = found[at + 60:at + 60 + length]
        if member.startswith(b"\x7fELF"):
            yield member
        at += 60 + length + length % 2


def sections_in(path: str) -> List[Section]:
    """The sections of all objects of a file."""
    with open(path, "rb") as file:
        members = enumerate(members_of(file.read()))
    return [section for number, member in members for section in sections_of(member, number)]


# Where numbers stand.

def places_of(pattern: bytes, sections: List[Section]) -> List[Place]:
    """Where the bytes stand, at any place."""
    places = []
    for section in sections:
        at = section.content.find(pattern)
        while at >= 0:
            places.append((section, at))
            at = section.content.find(pattern, at + 1)
    return places


def of_number(number: int, sections: List[Section]) -> List[Place]:
    """Where a number of 32 bits stands."""
    return places_of(struct.pack("<I", number), sections)


def is_linear(table: Tuple[int, ...], fewest: int) -> bool:
    """Sixteen numbers, all different, that are, less the first, sums of those at 1, 2, 4 and 8.

    These have so many bits at least, and the others are not just multiples of one.
    """
    if len(set(table)) < 16:
        return False
    less = [number ^ table[0] for number in table]
    sums = [0] * 16
    for index in range(1, 16):
        low = index & -index
        sums[index] = less[low] ^ sums[index ^ low]
    if sums != less or any(bin(less[k]).count("1") < fewest for k in (1, 2, 4, 8)):
        return False
    return max(less) > 15 and any(x != index * less[1] for index, x in enumerate(less))


def linear_tables(section: Section) -> Iterator[int]:
    """Where linear tables begin in the section."""
    fewest = DENSE if section.is_code() else 1
    for letter in WIDTHS.values():
        for order in "<>":
            row = struct.Struct(f"{order}16{letter}")
            for at in range(len(section.content) - row.size + 1):
                if is_linear(row.unpack_from(section.content, at), fewest):
                    yield at


# What is wrong.

def faults_of_table(sections: List[Section]) -> List[str]:
    """The table's rows stand once each in read-only data, and its numbers nowhere else."""
    data = [section for section in sections if not section.is_code()]
    code = [section for section in sections if section.is_code()]
    faults = []
    for row in ROWS:
        places = [place for place in places_of(row, data) if not place[0].flags & WRITTEN]
        if len(places) != 1:
            faults.append(f"a row of the table stands {len(places)} times in read-only data: {shown(places)}")
    for number in OWN:
        places = of_number(number, data)
        if len(places) > 1:
            faults.append(f"{number:#010x} of the table stands {len(places)} times in data: {shown(places)}")
    in_code = [place for number in OWN for place in of_number(number, code)]
    if len(in_code) >= SOME:
        faults.append(f"numbers of the table stand in the code: {shown(in_code)}")
    return faults


def faults_of_others(sections: List[Section]) -> List[str]:
    """No other table stands anywhere, and none can be made."""
    faults = []
    own = places_of(b"".join(ROWS), sections)[:1]
    for section in sections:
        for at in linear_tables(section):
            if (section, at) not in own:
                faults.append(f"a linear table stands at {shown([(section, at)])}")
        if section.flags & WRITTEN and section.length:
            faults.append(f"{section.name} is written: a table could be made there")
    for name, numbers in other_tables().items():
        met = [number for number in numbers if of_number(number, sections)]
        if len(met) >= SOME:
            places = shown(of_number(met[0], sections))
            faults.append(f"{len(met)} numbers of a table of {name} stand in it, {met[0]:#010x} at {places}")
    return faults


def faults_of(sections: List[Section]) -> List[str]:
    """All that is wrong."""
    return faults_of_table(sections) + faults_of_others(sections)


# Objects with and without a fault.

def mirrored(number: int, bits: int = 32) -> int:
    """The bits of a number in the other order."""
    return int(f"{number:0{bits}b}"[::-1], 2)


def listed(name: str, numbers: List[int], kind: str = "unsigned") -> str:
    """A constant array of C that the compiler keeps."""
    return f"extern const {kind} {name}[];\nconst {kind} {name}[] = {{{', '.join(f'{x}u' for x in numbers)}}};\n"


def looked_up(numbers: List[int]) -> str:
    """The numbers in code, one at a time."""
    cases = "".join(f"case {i}: *at = {x}u; break;\n" for i, x in enumerate(numbers))
    return f"void f(int i, volatile unsigned *at) {{ switch (i * i * 7 - i) {{ {cases} }} }}\n"


def byte_table(polynomial: int) -> List[int]:
    """What eight one-bit steps with a polynomial make of each index."""
    table = list(range(256))
    for _ in range(8):
        table = [(state >> 1) ^ (polynomial if state & 1 else 0) for state in table]
    return table


def beside_the_table() -> Dict[str, str]:
    """What must not stand beside the table."""
    full = byte_table(crc.POLYNOMIAL)
    swapped = [int.from_bytes(number.to_bytes(4, "little"), "big") for number in HALF_BYTES]
    upright = [mirrored(full[mirrored(index, 8)]) for index in range(256)]
    powers = [crc.after_zeros(1 << 31, 2 ** k) for k in range(32)]
    return {
        "the table again": listed("again", [7] + HALF_BYTES),
        "the table, numbers of 64 bits": listed("wide", HALF_BYTES, "unsigned long long"),
        "the table, bytes in the other order": listed("swapped", swapped),
        "the table's highest bytes": listed("high", [number >> 24 for number in HALF_BYTES], "unsigned char"),
        "the table in code": looked_up(HALF_BYTES),
        "256 numbers": listed("full", full),
        "256 numbers in code": looked_up(full),
        "256 numbers in a section of code":
            listed("full", upright).replace("[] =", '[] __attribute__((section(".text.full"))) ='),
        "256 numbers that are inverted": listed("inverted", [number ^ crc.ALL_ONES for number in full]),
        "256 numbers that are written": listed("full", full).replace("const ", ""),
        "room for 256 numbers": "unsigned made[256];\n",
        "256 numbers of eight bytes at a step": listed("far", [after_steps(64, index) for index in range(256)]),
        "256 numbers, bits in the other order": listed("upright", upright),
        "256 numbers of another polynomial": listed("other", byte_table(0x82F63B78)),
        "powers by squaring": listed("powers", powers),
    }


def planted() -> List[Tuple[str, str, bool]]:
    """Name, source, and whether it is right."""
    good = listed("table", HALF_BYTES)
    plain = listed("shifted", [16 * i for i in range(16)]) + listed("none", [0] * 64)
    return [
        ("the table", good, True),
        ("the table and others that are no checksum's", good + plain, True),
        ("no table", plain, False),
        ("the table with another number", listed("table", HALF_BYTES[:15] + [1]), False),
        ("256 numbers alone", listed("full", byte_table(crc.POLYNOMIAL)), False),
    ] + [(name, good + text, False) for name, text in beside_the_table().items()]


def compiled(compiler: List[str], folder: str, name: str, text: str) -> str:
    """The object that the compiler makes of a source."""
    source, made = os.path.join(folder, f"{name}.c"), os.path.join(folder, f"{name}.o")
    with open(source, "w") as file:
        file.write(text)
    subprocess.run([*compiler, "-O1", "-fno-jump-tables", "-w", "-c", source, "-o", made], check=True)
    return made


def try_planted(compiler: List[str]) -> int:
    """Each of the objects is judged as it should be, and so are two of them in one archive."""
    wrong = 0
    cases = planted()
    with tempfile.TemporaryDirectory() as folder:
        for name, text, right in cases:
            sections = sections_in(compiled(compiler, folder, "planted", text))
            if bool(faults_of(sections)) == right:
                wrong += 1
                print(f"tables: {name}: {faults_of(sections) or 'passed'}")
        again = byte_table(0x82F63B78)
        pair = [compiled(compiler, folder, "one", cases[0][1]), compiled(compiler, folder, "two", listed("t", again))]
        archive = os.path.join(folder, "pair.a")
        subprocess.run(["ar", "rc", archive, *pair], check=True)
        if not faults_of(sections_in(archive)):
            wrong += 1
            print("tables: an archive of two tables: passed")
    if not wrong:
        print(f"tables: {len(cases) + 1} planted tables and faults, each judged as it should be")
    return 1 if wrong else 0


def main(words: List[str]) -> int:
    """The command line."""
    if words[:1] == ["--planted"] and len(words) <= 2:
        return try_planted(shlex.split(words[1]) if len(words) == 2 else ["cc"])
    if len(words) != 1:
        print(__doc__, file=sys.stderr)
        return 2
    sections = sections_in(words[0])
    faults = faults_of(sections)
    for fault in faults:
        print(f"tables: {words[0]}: {fault}")
    if not faults:
        print(f"tables: one table of the checksum, from {shown(places_of(ROWS[0], sections))} on, and no other")
    return 1 if faults else 0


if __name__ == "__main__":
    sys.exit(main(sys.argv[1:]))
