"""The lines of a capture (docs/CAPTURES.md), and those of them that can be shown."""

from __future__ import annotations

from typing import Callable, NamedTuple, Sequence, Union

LINES_AT_MOST = 4_000_000


class BadLine(Exception):
    """A line that is none of a capture, or can't be shown."""

    def __init__(self, line: int, why: str) -> None:
        super().__init__(f"line {line}: {why}")


class MainBytes(NamedTuple):
    """Bytes of the main stream that reached the other end."""

    line: int
    side: str
    data: bytes


class Datagram(NamedTuple):
    """A datagram that a side gave on the link of this kind."""

    line: int
    side: str
    kind: str
    number: int
    data: bytes


class Arrival(NamedTuple):
    """The arrival of a datagram at the other end."""

    line: int
    side: str
    kind: str
    number: int


Entry = Union[MainBytes, Datagram, Arrival]
Value = Union[str, int, bytes]


def shown(word: str) -> str:
    """A word as it is printed: its first 40 characters, with no control characters."""
    text = word.encode("unicode_escape").decode("ascii")
    return f"`{text[:40]}..`" if len(text) > 40 else f"`{text}`"


def reader_of_choice(name: str, choices: Sequence[str]) -> Callable[[str], str]:
    """Reads one of these words."""

    def read(word: str) -> str:
        if word not in choices:
            raise ValueError(
                f"{name} is `{choices[0]}` or `{choices[1]}`, not {shown(word)}"
            )
        return word

    return read


def reader_of_number(name: str, bits: int) -> Callable[[str], int]:
    """Reads a number of so many bits."""

    def read(word: str) -> int:
        digits = word.isascii() and word.isdigit() and len(word) <= 20
        if not digits or str(int(word)) != word or int(word) >= 2**bits:
            raise ValueError(
                f"{name} is a number below 2^{bits} with no zero in front, "
                f"not {shown(word)}"
            )
        return int(word)

    return read


def read_name(word: str) -> str:
    """Reads the name of a channel, which is any word but the empty one."""
    if not word:
        raise ValueError("NAME has one byte or more")
    return word


def is_hex(word: str) -> bool:
    """Whether a word has nothing but the digits of a capture."""
    return not word.strip("0123456789abcdef")


def read_hex(word: str) -> bytes:
    """Reads bytes."""
    if word == "-":
        return b""
    if not word or len(word) % 2 or not is_hex(word):
        raise ValueError(
            f"HEX is pairs of 0 to 9 and a to f, or `-`, not {shown(word)}"
        )
    return bytes.fromhex(word)


def read_cookie(word: str) -> bytes:
    """Reads the 16 bytes of a cookie."""
    if len(word) != 32 or not is_hex(word):
        raise ValueError(f"COOKIE is 32 of 0 to 9 and a to f, not {shown(word)}")
    return bytes.fromhex(word)


read_side = reader_of_choice("SIDE", ("server", "client"))
read_kind = reader_of_choice("KIND", ("reliable", "lossy"))
read_id = reader_of_number("ID", 32)
read_datagram_number = reader_of_number("N", 64)

FORMS: dict[str, tuple[Callable[[str], Value], ...]] = {
    "issue": (read_id, read_kind, read_cookie),
    "open": (read_id, read_name),
    "sent": (read_side, read_id, read_hex),
    "got": (read_side, read_id, read_hex),
    "main": (read_side, read_hex),
    "word": (read_side, read_kind, read_id),
    "out": (read_side, read_kind, read_datagram_number, read_hex),
    "in": (read_side, read_kind, read_datagram_number),
}

# The lines that can be shown; the others are read and passed over.
ENTRIES: dict[str, Callable[..., Entry]] = {
    "main": MainBytes,
    "out": Datagram,
    "in": Arrival,
}


def read_line(number: int, line: str) -> Entry | None:
    """Reads a line, and gives what is shown of it, if anything."""
    first, *words = line.split(" ")
    form = FORMS.get(first)
    if form is None:
        raise BadLine(number, f"no line begins with {shown(first)}")
    if len(words) != len(form):
        raise BadLine(
            number, f"`{first}` has {len(form)} words behind it, not {len(words)}"
        )
    try:
        values = [read(word) for read, word in zip(form, words)]
    except ValueError as error:
        raise BadLine(number, str(error)) from None
    return ENTRIES[first](number, *values) if first in ENTRIES else None


def read_capture(text: bytes) -> list[Entry]:
    """Reads the lines of a capture, and gives what is shown of them, in order.

    Raises BadLine at the first line that is none of a capture, or is one too many.
    """
    lines = text.decode("latin-1").split("\n")
    if lines[-1] == "":
        lines.pop()
    if len(lines) > LINES_AT_MOST:
        raise BadLine(LINES_AT_MOST + 1, f"a capture has {LINES_AT_MOST} lines at most")
    entries = (read_line(number, line) for number, line in enumerate(lines, 1))
    return [entry for entry in entries if entry is not None]
