"""Editions: `pat` matches a `|` from 2021 on, and `expr` matches `_` and `const` blocks from 2024 on."""
from mbex import worked

BEFORE_2021 = (
    ("($p:pat) => {A}; ($p:pat | $q:pat) => {B}", "a | b", "", 1, "  IDENT   B 0@39..40\n"),
    ("($p:pat) => {$p}", "a | b", "leftover tokens at 1@0..5", 0, "  IDENT   a 1@0..1\n"),
)

SINCE_2021 = (
    ("($p:pat) => {A}; ($p:pat | $q:pat) => {B}", "a | b", "", 0, "  IDENT   A 0@13..14\n"),
    ("($p:pat) => {$p}", "a | b", "", 0, "  IDENT   a 1@0..1\n  PUNCH   | [alone] 1@2..3\n  IDENT   b 1@4..5\n"),
)

BEFORE_2024 = (
    ("($e:expr) => {A}; ($($t:tt)*) => {B}", "_", "", 1, "  IDENT   B 0@34..35\n"),
    ("($e:expr) => {A}; ($($t:tt)*) => {B}", "const { 1 }", "", 1, "  IDENT   B 0@34..35\n"),
)

SINCE_2024 = (
    ("($e:expr) => {A}; ($($t:tt)*) => {B}", "_", "", 0, "  IDENT   A 0@14..15\n"),
    ("($e:expr) => {A}; ($($t:tt)*) => {B}", "const { 1 }", "", 0, "  IDENT   A 0@14..15\n"),
)

# The kinds that no edition decides.
ALWAYS = (
    ("($p:pat_param) => {A}; ($($t:tt)*) => {B}", "a | b", "", 1, "  IDENT   B 0@39..40\n"),
    ("($e:expr_2021) => {A}; ($($t:tt)*) => {B}", "_", "", 1, "  IDENT   B 0@39..40\n"),
    ("($e:expr_2021) => {A}; ($($t:tt)*) => {B}", "const { 1 }", "", 1, "  IDENT   B 0@39..40\n"),
    # Names and keywords that begin an expression, and others.
    ("($e:expr) => {A}; ($($t:tt)*) => {B}", "a", "", 0, "  IDENT   A 0@14..15\n"),
    ("($e:expr) => {A}; ($($t:tt)*) => {B}", "1", "", 0, "  IDENT   A 0@14..15\n"),
    ("($e:expr) => {A}; ($($t:tt)*) => {B}", "let", "", 1, "  IDENT   B 0@34..35\n"),
    ("($e:expr) => {A}; ($($t:tt)*) => {B}", "r#let", "", 1, "  IDENT   B 0@34..35\n"),
    ("($e:expr) => {A}; ($($t:tt)*) => {B}", "lets", "", 0, "  IDENT   A 0@14..15\n"),
    ("($e:expr) => {A}; ($($t:tt)*) => {B}", "r#const", "", 0, "  IDENT   A 0@14..15\n"),
    ("($e:expr) => {A}; ($($t:tt)*) => {B}", "constant", "", 0, "  IDENT   A 0@14..15\n"),
)

BY_EDITION = (
    (2015, BEFORE_2021),
    (2015, BEFORE_2024),
    (2015, ALWAYS),
    (2018, BEFORE_2021),
    (2018, BEFORE_2024),
    (2018, ALWAYS),
    (2021, SINCE_2021),
    (2021, BEFORE_2024),
    (2021, ALWAYS),
    (2024, SINCE_2021),
    (2024, SINCE_2024),
    (2024, ALWAYS),
)


def test(program):
    for edition, rows in BY_EDITION:
        worked(program, f"edition {edition}", rows, edition)
