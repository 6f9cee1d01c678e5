"""Macros, their calls, and the trees of texts."""
from __future__ import annotations

import ctypes
import itertools
import threading
import weakref
from dataclasses import dataclass
from types import TracebackType
from typing import Any, NamedTuple, Optional, Sequence, Union

from . import c
from .c import Error, Input, Span, Token, Trees


class Fault(NamedTuple):
    """The error of an expansion, and its span."""

    message: str
    span: Span


class Verdict(NamedTuple):
    """How a rule reads an argument: `one` reading or `many`, or `ambiguous` or `stuck` at an offset.

    `place` is that offset: the number of tokens before it."""

    reading: str
    place: int


class ExpansionError(Exception):
    """An expansion has an error, as when no rule matches its argument."""

    def __init__(self, fault: Fault, rule: Optional[int]) -> None:
        super().__init__(fault, rule)
        self.message, self.span, self.rule = fault.message, fault.span, rule

    def __str__(self) -> str:
        return self.message


@dataclass(frozen=True)
class Expansion:
    """An expansion: its trees, the index of its rule, and its error, if it has one. Indices count
    from 0. The trees beside an error are the part that was expanded."""

    trees: Trees
    rule: Optional[int]
    fault: Optional[Fault]

    def check(self) -> Trees:
        """The trees. Raises `ExpansionError` if the expansion has an error."""
        if self.fault is not None:
            raise ExpansionError(self.fault, self.rule)
        return self.trees

    def __str__(self) -> str:
        return str(self.trees)


def _expansion(reply: c.Reply, tokens: Sequence[Token], text: bytes,
               message: str) -> Union[Expansion, Error]:
    if reply.status > 1:
        return c.error(reply, message)
    fault = Fault(message, reply.span) if reply.status == 1 else None
    return Expansion(Trees(tuple(tokens), text), reply.rule if reply.has_rule else None, fault)


def check_grammar(text: str) -> None:
    """Checks that a text is a grammar of fragments. Raises `Error` if it has a fault."""
    c.answer(c.LIB.mbe_c_grammar, c.text_parts(text.encode()), [])


def convert(given: Input, form: str = "tokens", edition: int = 2024, dialect: str = "sample",
            file: int = 1) -> Trees:
    """The trees of a text, or of flat tokens, in a form: `tokens`, `lines` or `rust`.

    `file` is the file of the spans of a text. Raises `Error` if a text has no tokens, or if tokens
    are no trees.
    """
    is_flat, parts = c.given(given)
    request = c.Request(edition=edition, dialect=c.number("dialect", dialect, c.DIALECTS),
                        form=c.number("form", form, c.FORMS), argument_is_flat=is_flat)
    asked = [ctypes.byref(request), *parts]
    reply, (tokens, text), _ = c.answer(c.LIB.mbe_c_convert, asked, [Token, c.CHAR])
    found = tuple(tokens[:reply.tokens])
    for token in () if is_flat else found:
        token.span.file = file
    return Trees(found, text.raw[:reply.text])


class Macro:
    """The rules of a `macro_rules!`, without its name and braces, or those of flat tokens.

    The rules are read once, for all calls of `expand`. `explain` and `expand_each` read them again,
    from the flat tokens that they were lexed to. `grammar` is `sample`, `rust`, or the text of a
    grammar. Without `check`, the first `expand` reads the rules.

    A macro is used on the thread that made it. `close`, or the end of a `with` statement, frees it;
    else it is freed with the object. Raises `Error` if the rules have a fault.
    """

    def __init__(self, definition: Input, edition: int = 2024, dialect: str = "sample",
                 grammar: str = "sample", check: bool = True) -> None:
        by_name = grammar in c.GRAMMARS
        self._grammar = b"" if by_name else grammar.encode()
        is_flat, self._definition = c.given(definition)
        self._request = {
            "edition": edition, "dialect": c.number("dialect", dialect, c.DIALECTS),
            "grammar": c.GRAMMARS[grammar] if by_name else 2, "definition_is_flat": is_flat}
        self._thread = threading.get_ident()
        self._read = c.Macro()
        self._free = weakref.finalize(self, c.LIB.mbe_c_macro_free, ctypes.byref(self._read))
        #: The number of rules, or None before they are read.
        self.rules: Optional[int] = None
        if check:
            self._read_rules()
            lexed = definition if is_flat else convert(definition, "tokens", edition, dialect, 0)
            self._request["definition_is_flat"], self._definition = c.given(lexed)

    def __repr__(self) -> str:
        return f"<mbe.Macro, {'not read' if self.rules is None else f'rules: {self.rules}'}>"

    def __enter__(self) -> Macro:
        return self

    def __exit__(self, kind: Optional[type[BaseException]], value: Optional[BaseException],
                 trace: Optional[TracebackType]) -> None:
        self.close()

    def close(self) -> None:
        """Frees the rules. Later calls of `expand` raise `Error`."""
        self._free()

    def _read_rules(self) -> None:
        request = ctypes.byref(c.Request(**self._request))
        asked = [request, *c.text_parts(self._grammar), *self._definition, ctypes.byref(self._read)]
        self.rules = c.answer(c.LIB.mbe_c_macro_read, asked, [])[0].place

    def _asked(self, argument: Input, **more: int) -> list[Any]:
        is_flat, parts = c.given(argument)
        request = ctypes.byref(c.Request(**self._request, argument_is_flat=is_flat, **more))
        return [request, *c.text_parts(self._grammar), *self._definition, *parts]

    def expand(self, argument: Input, form: str = "tokens", call_site: Optional[Span] = None,
               style: str = "fn") -> Expansion:
        """Expands a call with this argument.

        `form` is `tokens`, `lines` or `rust`. `call_site` is the span of the call. `style` is `fn`,
        `attr` or `derive`. In the spans of texts, the rules are file 0 and the argument is file 1.
        An expansion has a `fault` if no rule matches. Raises `Error` if the argument has no tokens.
        """
        if threading.get_ident() != self._thread:
            raise RuntimeError("a macro is used on the thread that made it")
        if self.rules is None:
            self._read_rules()
        is_flat, parts = c.given(argument)
        call = c.Call(c.number("style", style, c.STYLES), c.number("form", form, c.FORMS), is_flat,
                      c.call_site(call_site))
        asked = [ctypes.byref(self._read), ctypes.byref(call), *parts]
        kinds = [Token, c.CHAR]
        reply, (tokens, text), message = c.answer(c.LIB.mbe_c_macro_expand, asked, kinds)
        found = _expansion(reply, tokens[:reply.tokens], text.raw[:reply.text], message)
        assert isinstance(found, Expansion)  # `c.answer` raised any other status
        return found

    def expand_each(self, arguments: Sequence[Union[str, bytes]], form: str = "tokens",
                    call_sites: Sequence[Span] = (),
                    style: str = "fn") -> list[Union[Expansion, Error]]:
        """Expands a call with each argument, at its span if there are any.

        The rules are read once for all arguments. If `expand` would raise an `Error` for an
        argument, the list has this `Error`.
        """
        texts = [it.encode() if isinstance(it, str) else it for it in arguments]
        starts = itertools.accumulate(map(len, texts), initial=0)
        sites = call_sites or [Span()] * len(texts)
        size, room = c.SIZE(len(texts)), max(1, len(texts))
        rows = zip(starts, zip(texts, sites, strict=True))
        pieces = (c.Piece * room)(*(c.Piece(at, len(it), 0, 0, site) for at, (it, site) in rows))
        replies = (c.Reply * room)()
        asked = self._asked(b"".join(texts), form=c.number("form", form, c.FORMS),
                            style=c.number("style", style, c.STYLES))
        asked += [pieces, size, replies, size]
        _, (tokens, text), message = c.answer(c.LIB.mbe_c_expand_each, asked, [Token, c.CHAR])
        parts = c.split(replies[:len(texts)], tokens, text.raw, message.encode())
        return [_expansion(*it) for it in parts]

    def explain(self, argument: Input) -> list[Verdict]:
        """How each rule, of every style, reads an argument, in order of the rules."""
        asked = self._asked(argument)
        reply, (found,), _ = c.answer(c.LIB.mbe_c_explain, asked, [c.RawVerdict])
        return [Verdict(c.READINGS[it.kind], it.place) for it in found[:reply.tokens]]


def rust_macro(definition: Input, edition: int = 2024) -> Macro:
    """A `Macro` of Rust: with the tokens and the fragments of whole Rust."""
    return Macro(definition, edition, "rust", "rust")
