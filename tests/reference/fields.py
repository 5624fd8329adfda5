"""Fields of an image: unsigned numbers, low byte first.

Reading is total: bytes past the end of the data count as 0.
Writing is all or nothing: a field that does not fit whole changes nothing.
"""


def byte_at(data: bytes, at: int) -> int:
    """The byte at a position; 0 past the end."""
    return data[at] if at < len(data) else 0


def read(data: bytes, at: int, width: int) -> int:
    """01, Sparse header and chunks: "All fields are unsigned, low byte first."."""
    return sum(byte_at(data, at + i) << (8 * i) for i in range(width))


def written(data: bytes, at: int, width: int, value: int) -> bytes:
    """The data after the low `width` bytes of the value went in, low byte first."""
    if at + width > len(data):
        return data
    field = (value % (1 << (8 * width))).to_bytes(width, "little")
    return data[:at] + field + data[at + width:]
