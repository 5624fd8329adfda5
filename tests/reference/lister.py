"""The lister: the chunks of an image as text.

Run as a program it reads the image from standard input.
"""

import sys

import sparse

LONGEST_IMAGE = 65536
PARTITION_LENGTH = 1048576
WORDS = {
    sparse.RAW: "raw",
    sparse.FILL: "fill",
    sparse.DONT_CARE: "skip",
    sparse.UNKNOWN: "unknown",
}


def listing(image: bytes) -> str:
    """01, "The lister": "Longer input prints `too long` alone, a refusal
    `refused N at P` alone. Each chunk, empty ones too, has a line"; 02, CR 3: "The
    lister prints `unknown` in place of `skip` for such a chunk"."""
    if len(image) > LONGEST_IMAGE:
        return "too long\n"
    verdict = sparse.judge(image, PARTITION_LENGTH)
    if isinstance(verdict, sparse.Refusal):
        return f"refused {verdict.number} at {verdict.place}\n"
    header = sparse.read_header(image)
    chunks = sparse.chunks_of(image)
    lines = [f"block {header.block_size} total {header.total_blocks} chunks {len(chunks)}"]
    lines += [f"{chunk.first_block} {WORDS[chunk.kind]} {chunk.blocks}" for chunk in chunks]
    skipped = f"skipped {verdict.dont_care} unknown {verdict.unknown}"
    lines.append(f"ok written {verdict.written} {skipped}")
    return "".join(line + "\n" for line in lines)


if __name__ == "__main__":
    sys.stdout.write(listing(sys.stdin.buffer.read()))
