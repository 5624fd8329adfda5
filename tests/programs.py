"""Holds a built program, which reads an image from standard input or files in a folder, against
the reference."""

import os
import subprocess
import sys
import time
from functools import partial
from typing import Callable, Iterator, List, NamedTuple, Optional, Sequence

LONGEST_WAIT = 60
SHOWN = 96


class Answer(NamedTuple):
    """What the program wrote, and the code it ended with."""

    output: bytes
    code: int


class Trial(NamedTuple):
    """A run of the program: what it is given, in words; the reference's text for that; and how
    the program at a path is run."""

    given: str
    text: str
    run: Callable[[str], Answer]


class Test(NamedTuple):
    """What is tested: its name, the program where none is given, what its runs are counted as,
    and the maker of the runs."""

    name: str
    default_program: str
    noun: str
    trials: Callable[[], Iterator[Trial]]


def answer_at_once(image: bytes, program: str) -> Answer:
    """The program's answer when all its input is there at once."""
    done = subprocess.run(
        [program], input=image, stdout=subprocess.PIPE, timeout=LONGEST_WAIT, check=False
    )
    return Answer(done.stdout, done.returncode)


def answer_in_pieces(pieces: Sequence[bytes], program: str) -> Answer:
    """The program's answer when its input comes in pieces, with a pause after each."""
    with subprocess.Popen([program], stdin=subprocess.PIPE, stdout=subprocess.PIPE) as process:
        assert process.stdin is not None
        try:
            for piece in pieces:
                process.stdin.write(piece)
                process.stdin.flush()
                time.sleep(0.01)
        except BrokenPipeError:
            pass
        output, _ = process.communicate(timeout=LONGEST_WAIT)
        return Answer(output, process.returncode)


def answer_in_folder(folder: str, program: str) -> Answer:
    """The program's answer when it is run in a folder.  Its standard input is a pipe into which
    nothing ever comes, so it would not end if it read that."""
    reading, writing = os.pipe()
    try:
        done = subprocess.run(
            [program], cwd=folder, stdin=reading, stdout=subprocess.PIPE, timeout=LONGEST_WAIT,
            check=False,
        )
    finally:
        os.close(reading)
        os.close(writing)
    return Answer(done.stdout, done.returncode)


def difference(trial: Trial, answer: Answer) -> Optional[str]:
    """What is wrong with an answer: another text, or an end by a signal."""
    expected = trial.text.encode("ascii")
    if answer.output == expected and answer.code >= 0:
        return None
    return "\n".join((
        trial.given,
        f"expected {expected[:SHOWN]!r} ({len(expected)} bytes)",
        f"found    {answer.output[:SHOWN]!r} ({len(answer.output)} bytes, code {answer.code})",
    ))


def in_pieces(image: bytes) -> List[bytes]:
    """An input as a few pieces, the first of one byte, none of them a whole field."""
    size = max(1, len(image) // 5 | 1)
    return [image[:1]] + [image[at:at + size] for at in range(1, len(image), size)]


def shown(image: bytes) -> str:
    """An input in words."""
    return f"input of {len(image)} bytes, from {image[:SHOWN].hex()}"


def on_input(
    name: str,
    default_program: str,
    text: Callable[[bytes], str],
    inputs: Callable[[], List[bytes]],
    slow_inputs: Callable[[], List[bytes]],
) -> Test:
    """The test of a program that reads an image from standard input, by the reference's text for
    an input and the makers of the inputs that are given at once and of those in pieces."""
    def trials() -> Iterator[Trial]:
        for image in inputs():
            yield Trial(shown(image), text(image), partial(answer_at_once, image))
        for image in slow_inputs():
            yield Trial(shown(image), text(image), partial(answer_in_pieces, in_pieces(image)))
    return Test(name, default_program, "inputs", trials)


def run(test: Test) -> int:
    """Makes all runs of the program that is named on the command line; 1 at the first
    difference."""
    program = os.path.abspath(sys.argv[1] if len(sys.argv) > 1 else test.default_program)
    if not os.access(program, os.X_OK):
        print(f"{test.name}: no program {program}")
        return 1
    count = 0
    for trial in test.trials():
        fault = difference(trial, trial.run(program))
        if fault is not None:
            print(f"{test.name}: {fault}")
            return 1
        count += 1
    print(f"{test.name}: {count} {test.noun} agree")
    return 0
