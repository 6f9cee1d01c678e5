"""The structures and the calls of the library's header, mbe.h. Programs import `mbe` instead.

The shared library is the file that the environment variable `MBE_LIB` names. Without it, it is the
file `libmbe.so.1` of this package, or else the one of the system.
"""
from __future__ import annotations

import ctypes
import os
from dataclasses import dataclass
from typing import Any, Callable, Iterator, Mapping, NamedTuple, Optional, Sequence, Union

#: The version of the interface that these structures are of.
VERSION = 3


def _library() -> ctypes.CDLL:
    beside = os.path.join(os.path.dirname(os.path.abspath(__file__)), "libmbe.so.1")
    path = os.environ.get("MBE_LIB") or (beside if os.path.exists(beside) else "libmbe.so.1")
    try:
        found = ctypes.CDLL(path)
        version = found.mbe_c_version()
    except (OSError, AttributeError) as why:
        raise ImportError(f"mbe: no library at {path}, which MBE_LIB may name: {why}") from why
    if version != VERSION:
        raise ImportError(f"mbe: {path} has version {version} of the interface, not {VERSION}")
    return found


LIB = _library()
U32, SIZE, CHAR = ctypes.c_uint32, ctypes.c_size_t, ctypes.c_char
STATUSES = ["done", "faulted", "refused", "bad number", "not UTF-8", "too long", "no tokens",
            "no trees", "no grammar", "out of memory", "no room", "null pointer", "no macro",
            "has a macro"]
PARTS = ["", "definition", "argument", "grammar"]
FORMS = {"tokens": 0, "lines": 1, "rust": 2}
DIALECTS = {"sample": 0, "rust": 1}
GRAMMARS = {"sample": 0, "rust": 1}
STYLES = {"fn": 0, "attr": 1, "derive": 2}
READINGS = ["one", "many", "ambiguous", "stuck"]


def number(what: str, name: str, numbers: Mapping[str, int]) -> int:
    """The number of a name. Raises `ValueError` if no number has the name."""
    if name not in numbers:
        raise ValueError(f"no {what} {name!r}: it is one of {', '.join(map(repr, numbers))}")
    return numbers[name]


class _Numbers(ctypes.Structure):
    """A structure that equals another one with equal fields. It can change, so it has no hash."""

    def _values(self) -> list[Any]:
        return [getattr(self, field[0]) for field in self._fields_]

    def __eq__(self, other: object) -> bool:
        if not isinstance(other, _Numbers) or type(other) is not type(self):
            return NotImplemented
        return self._values() == other._values()

    __hash__ = None  # type: ignore[assignment]

    def __repr__(self) -> str:
        fields = (f"{field[0]}={getattr(self, field[0])!r}" for field in self._fields_)
        return f"{type(self).__name__}({', '.join(fields)})"


class Span(_Numbers):
    """Where a token is. `file`, `ast` and `context` are numbers of the caller. `start` and `end`
    are bytes of the file."""

    file: int
    ast: int
    start: int
    end: int
    context: int
    _fields_ = [(name, U32) for name in ("file", "ast", "start", "end", "context")]

    def code_points(self, text: str) -> tuple[int, int]:
        """The start and the end in code points of the file's text, as Python counts them:
        `text[start:end]` is the text of the span."""
        found = text.encode()
        start, end = (len(found[:it].decode(errors="ignore")) for it in (self.start, self.end))
        return start, end


class Token(_Numbers):
    """A leaf, an opening or a closing; `kind` and `sort` are numbers of the header. The text of a
    leaf is `len` bytes from `offset` on. An opening has `len` tokens inside."""

    kind: int
    sort: int
    character: int
    hashes: int
    suffix_len: int
    span: Span
    offset: int
    len: int
    _fields_ = [*((name, U32) for name in ("kind", "sort", "character", "hashes", "suffix_len")),
                ("span", Span), ("offset", SIZE), ("len", SIZE)]


class RawVerdict(_Numbers):
    """How a rule reads an argument, as numbers."""

    kind: int
    place: int
    _fields_ = [("kind", SIZE), ("place", SIZE)]


class Piece(_Numbers):
    """One of many arguments: a part of a text or of flat tokens, and the span of its call."""

    _fields_ = [*((name, SIZE) for name in ("offset", "len", "token_offset", "token_len")),
                ("call_site", Span)]


class Request(_Numbers):
    """A request."""

    _fields_ = [*((name, U32) for name in ("edition", "dialect", "grammar", "style", "form",
                                           "definition_is_flat", "argument_is_flat")),
                ("call_site", Span)]


class Call(_Numbers):
    """A request for one call of a macro."""

    _fields_ = [*((name, U32) for name in ("style", "form", "argument_is_flat")),
                ("call_site", Span)]


class Macro(_Numbers):
    """A macro that was read, or none, until `mbe_c_macro_free`."""

    _fields_ = [("at", ctypes.c_void_p), ("state", ctypes.c_uint64)]


class Reply(_Numbers):
    """The reply of a call."""

    status: int
    part: int
    has_rule: int
    rule: int
    span: Span
    column: int
    place: int
    tokens: int
    text: int
    message: int
    _fields_ = [*((name, U32) for name in ("status", "part", "has_rule", "rule")), ("span", Span),
                ("column", U32), *((name, SIZE) for name in ("place", "tokens", "text", "message"))]


class Leaf(NamedTuple):
    """A token of trees, and its text."""

    token: Token
    text: str


@dataclass(frozen=True)
class Trees:
    """Flat tokens, which are one group, and the bytes of their texts. In the forms `lines` and
    `rust` there are no tokens, and the bytes are the text."""

    tokens: tuple[Token, ...]
    text: bytes

    def leaves(self) -> Iterator[Leaf]:
        """The leaves at any depth, each with its text. The text of a punct is its character."""
        for token in self.tokens:
            if token.kind == 2:
                yield Leaf(token, chr(token.character))
            elif token.kind in (1, 3):
                yield Leaf(token, self.text[token.offset:token.offset + token.len].decode())

    def group(self, index: int) -> Trees:
        """The group whose opening is the token of that index."""
        opening = self.tokens[index]
        if opening.kind != 4:
            raise ValueError(f"token {index} opens no group")
        return Trees(self.tokens[index:index + opening.len + 2], self.text)

    def __str__(self) -> str:
        return self.text.decode(errors="replace")


Input = Union[str, bytes, Trees]
Answer = tuple[Reply, list[Any], str]


class Error(Exception):
    """Why a call has no answer.

    `status` is one of `mbe.c.STATUSES`. `part` is the part at fault: `definition`, `argument`,
    `grammar` or no text. `place` is the byte, the token or the line in it, and `column` the column
    of a grammar's fault. `message` explains the error.
    """

    def __init__(self, status: str, part: str, place: int, column: int, message: str) -> None:
        super().__init__(status, part, place, column, message)
        self.status, self.part, self.place = status, part, place
        self.column, self.message = column, message

    def __str__(self) -> str:
        where = f"{self.part} at {self.place}" if self.part else "call"
        return f"{where}: {self.status}" + (f": {self.message}" if self.message else "")


def error(reply: Reply, message: str) -> Error:
    """The error that a reply stands for."""
    status, part = STATUSES[reply.status], PARTS[reply.part]
    return Error(status, part, reply.place, reply.column, message)


def text_parts(text: bytes) -> list[Any]:
    """A text, as a call takes it."""
    return [text, SIZE(len(text))]


def given(it: Input) -> tuple[int, list[Any]]:
    """Whether a definition or an argument is flat tokens, and how a call takes it."""
    if isinstance(it, Trees):
        tokens = (Token * max(1, len(it.tokens)))(*it.tokens)
        return 1, [*text_parts(it.text), tokens, SIZE(len(it.tokens))]
    return 0, [*text_parts(it.encode() if isinstance(it, str) else it), (Token * 1)(), SIZE(0)]


def answer(call: Callable[..., int], parts: Sequence[Any], kinds: Sequence[Any]) -> Answer:
    """A call's reply, its answers of these kinds, and its message. Raises `Error` if there is no
    answer. A call without enough room says how much it needs, and is made again."""
    reply, kinds = Reply(), [*kinds, CHAR]
    rooms = [256] * len(kinds)
    while True:
        buffers = [(kind * room)() for kind, room in zip(kinds, rooms)]
        outs = (part for it, room in zip(buffers, rooms) for part in (it, SIZE(room)))
        call(*parts, *outs, ctypes.byref(reply))
        needed = [reply.text if kind is CHAR else reply.tokens for kind in kinds[:-1]]
        needed.append(reply.message)
        if all(n <= room for n, room in zip(needed, rooms)):
            break
        rooms = [max(n, room) for n, room in zip(needed, rooms)]
    message = buffers[-1].raw[:reply.message].decode()
    if reply.status > 1:
        raise error(reply, message)
    return reply, buffers[:-1], message


class Part(NamedTuple):
    """One of many answers: its reply, its tokens, its text and its message."""

    reply: Reply
    tokens: Sequence[Token]
    text: bytes
    message: str


def split(replies: Sequence[Reply], tokens: Sequence[Token], text: bytes,
          message: bytes) -> Iterator[Part]:
    """Divides answers that come one after another by their replies."""
    token = byte = word = 0
    for it in replies:
        ends = token + it.tokens, byte + it.text, word + it.message
        yield Part(it, tokens[token:ends[0]], text[byte:ends[1]], message[word:ends[2]].decode())
        token, byte, word = ends


def call_site(span: Optional[Span]) -> Span:
    """A span, or the one of zeros."""
    return Span() if span is None else span
