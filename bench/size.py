"""Prints the table of sizes of docs/PERFORMANCE.md: make size, or python3 bench/size.py once the library is built

The kit compiles a static library at -O3, and takes no other flag.  So the library is built once more here, by a folder
of compilers that is the kit's but for one, which keeps what it is given to compile; that is then compiled again with the
compiler's own flags for size.

checksum is the code of the checksum's own functions; tables is how often its table stands in the object; judge and
store is what these two functions take alone, code and data, by a linker that leaves out the rest.
"""

import os
import shlex
import subprocess
import sys
import tempfile
from typing import List, Tuple

HERE = os.path.dirname(os.path.abspath(__file__))
TOP = os.path.dirname(HERE)
sys.path.insert(0, os.path.join(TOP, "tests"))

import archive
import tables

BUILT = "-O3"
LEVELS = (BUILT, "-O2", "-Os", "-Oz")
# What a loader that only judges and stores links.
STORING = ("tarpaulark_judge", "tarpaulark_store")
KEEPER = """#!/bin/sh
for word; do case $word in *.bc) cp "$word" {kept}/module.bc;; esac; done
printf '%s\\n' "$@" >{kept}/words
exec {real} "$@"
"""


def link_all(source: str, target: str, but: str) -> None:
    """Links to all that is in a folder, but for one name, in another."""
    os.makedirs(target)
    for name in os.listdir(source):
        if name != but:
            os.symlink(os.path.join(source, name), os.path.join(target, name))


def keep_module(folder: str) -> List[str]:
    """Builds the library, and keeps its module; the words that the compiler got."""
    tools = os.path.join(archive.kit_home(), "toolchain")
    made = os.path.join(folder, "toolchain")
    link_all(tools, made, "bin")
    link_all(os.path.join(tools, "bin"), os.path.join(made, "bin"), "clang")
    keeper = os.path.join(made, "bin", "clang")
    real = os.path.join(tools, "bin", "clang")
    with open(keeper, "w") as file:
        file.write(KEEPER.format(kept=shlex.quote(folder), real=shlex.quote(real)))
    os.chmod(keeper, 0o755)
    archive.build(os.path.join(folder, "library.a"), made)
    with open(os.path.join(folder, "words")) as file:
        words = file.read().splitlines()
    if BUILT not in words:
        sys.exit(f"size: the kit's compiler is not called with {BUILT}: {words}")
    return [real] + words


def compile_again(folder: str, words: List[str], level: str) -> str:
    """The module compiled at a level; the object."""
    made = os.path.join(folder, f"module{level}.o")
    again = [os.path.join(folder, "module.bc") if word.endswith(".bc") else word for word in words]
    again[again.index("-o") + 1] = made
    again[again.index(BUILT)] = level
    subprocess.run(again, check=True)
    return made


def only(folder: str, made: str, functions: Tuple[str, ...]) -> str:
    """What an object has for some functions alone, by the linker that leaves out the rest."""
    part = os.path.join(folder, "part.o")
    roots = [f"-Wl,-u,{name}" for name in functions]
    subprocess.run([os.environ.get("CC", "gcc"), "-nostdlib", "-r", "-Wl,--gc-sections", *roots, made, "-o", part],
                   check=True)
    return part


def bytes_of(sections: List[tables.Section], beginning: str = "") -> int:
    """How long the sections are whose names begin so."""
    return sum(section.length for section in sections if section.name.startswith(beginning))


def put_row(folder: str, made: str, level: str) -> None:
    """A row of the table, and what is wrong with the tables of the checksum in the object."""
    sections = tables.sections_in(made)
    code = [section for section in sections if section.is_code()]
    data = [section for section in sections if not section.is_code()]
    stored = bytes_of(tables.sections_in(only(folder, made, STORING)))
    copies = len(tables.places_of(tables.ROWS[0], sections))
    print(f"{level:<6} {bytes_of(code):8} {bytes_of(data):8} {bytes_of(code, '.text.crc32'):9} {copies:7} {stored:16}")
    for fault in tables.faults_of(sections):
        print(f"       {fault}")


def main() -> int:
    """The command line."""
    print(f"{'build':<6} {'code':>8} {'data':>8} {'checksum':>9} {'tables':>7} {'judge and store':>16}")
    with tempfile.TemporaryDirectory() as folder:
        words = keep_module(folder)
        for level in LEVELS:
            put_row(folder, compile_again(folder, words, level), level)
    return 0


if __name__ == "__main__":
    sys.exit(main())
