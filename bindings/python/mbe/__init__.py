"""The macro expander `mbe`: expands calls of Rust's declarative macros.

    >>> import mbe
    >>> swap = mbe.rust_macro("($a:expr, $b:ident) => { [$b, $a] }")
    >>> print(swap.expand("1 + 2, x", form="rust"))
    [x, (1 + 2)]

`Macro` has the rules of a macro; `expand`, `expand_each` and `explain` are its calls. `convert`
gives the trees of a text. A call without an answer raises `Error`.
"""
from .c import Error, Input, Leaf, Span, Token, Trees
from .macros import (Expansion, ExpansionError, Fault, Macro, Verdict, check_grammar, convert,
                     rust_macro)

__version__ = "0.1.0"
__all__ = ["Error", "Expansion", "ExpansionError", "Fault", "Input", "Leaf", "Macro", "Span",
           "Token", "Trees", "Verdict", "check_grammar", "convert", "rust_macro"]
