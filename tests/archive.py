"""Builds the static library over libraries that are proved and built already.

    python3 tests/archive.py OUT [TOOLCHAIN]

`rt ci` leaves each library that it proved in crates/NAME/out/rlib, and makes no static library;
`rt lib` would prove all of them once more.  So the kit's compiler is called here as rt calls it:
it checks the crate of the exported functions over the libraries that stand there, and makes of it
the archive that `rt lib` makes, byte for byte.  TOOLCHAIN is a folder of compilers in the place of
the kit's.  Prints the verdict, or all that the compiler said where there is none; ends with 1 then,
and where a library is not built.
"""

import os
import re
import shutil
import subprocess
import sys
from typing import Dict, List

HERE = os.path.dirname(os.path.abspath(__file__))
TOP = os.path.dirname(HERE)
EXPORTS = "tarpaulark_c"
MOST_JOBS = 4


def kit_home() -> str:
    """The folder of the installed kit."""
    found = shutil.which(os.environ.get("RT", "rt"))
    if not found:
        sys.exit("archive: no rt on the path")
    return os.path.dirname(os.path.dirname(os.path.realpath(found)))


def uses_by_crate() -> Dict[str, List[str]]:
    """What each crate of crates.txt stands on."""
    with open(os.path.join(TOP, "crates.txt")) as file:
        rows = re.findall(r"^(\w+)[^:#\n]*:([^#\n]*)", file.read(), re.M)
    return {name: uses.split() for name, uses in rows}


def below(name: str, uses: Dict[str, List[str]]) -> List[str]:
    """The repository's libraries that a crate stands on, directly or not."""
    found: List[str] = []
    waiting = [name]
    while waiting:
        new = [use for use in uses[waiting.pop()] if use in uses and use not in found]
        found += new
        waiting += new
    return found


def library(name: str) -> str:
    """Where a library of the repository is built."""
    return os.path.join(TOP, "crates", name, "out", "rlib", f"{name}.rlib")


def command(out: str, kit: str, toolchain: str) -> List[str]:
    """The words that build the archive."""
    uses = uses_by_crate()
    libraries = below(EXPORTS, uses)
    for name in libraries:
        if not os.path.isfile(os.path.join(library(name), "format")):
            sys.exit(f"archive: {name} is not built")
    of_kit = os.path.join(kit, "rlibs")
    words = [os.path.join(kit, "bin", "rattle"), "build", "--crate-name", EXPORTS, "src/lib.rt"]
    words += ["--extern", f"std={of_kit}/std.rlib", "-L", f"dependency={of_kit}"]
    for name in uses[EXPORTS]:
        words += ["--extern", f"{name}={library(name) if name in uses else f'{of_kit}/{name}.rlib'}"]
    for name in libraries:
        words += ["-L", f"dependency={os.path.dirname(library(name))}"]
    words += ["--antt-project", f"{kit}/rattle/logic/antt-project.json"]
    words += ["--logic-built", f"{kit}/logic_built", "--links", f"{EXPORTS}="]
    words += ["--jobs", str(min(MOST_JOBS, len(os.sched_getaffinity(0))))]
    words += ["--crate-type", "staticlib", "--toolchain", toolchain, "--backend", "llvm", "-o", out]
    return words


def build(out: str, toolchain: str = "") -> str:
    """Builds the archive, by the kit's own compilers where no others are given; the verdict."""
    kit = kit_home()
    words = command(os.path.abspath(out), kit, toolchain or os.path.join(kit, "toolchain"))
    built = subprocess.run(words, cwd=os.path.join(TOP, "crates", EXPORTS), stdin=subprocess.DEVNULL,
                           stdout=subprocess.PIPE, stderr=subprocess.STDOUT, text=True)
    lines = built.stdout.splitlines()
    verdict = [line for line in lines if line.startswith("logic=proved ")]
    if built.returncode or not verdict:
        sys.exit("\n".join(lines + ["archive: not built"]))
    return verdict[-1]


def main(words: List[str]) -> int:
    """The command line."""
    if len(words) not in (1, 2):
        print(__doc__, file=sys.stderr)
        return 2
    print(f"archive: {build(*words)}")
    return 0


if __name__ == "__main__":
    sys.exit(main(sys.argv[1:]))
