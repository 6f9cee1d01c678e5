//! Expands calls of Rust's declarative macros, `macro_rules!` and `macro`.
//!
//! A [`Macro`] has the rules of a macro. [`Macro::expand`] expands one call, and
//! [`Macro::expand_each`] many. [`Macro::explain`] says how each rule reads an argument.
//!
//! ```
//! use mbe::{Form, Macro, Span};
//!
//! let swap: Macro = "($a:expr, $b:ident) => { [$b, $a] }".parse()?;
//! let found = swap.expand("1 + 2, x", Form::Rust, Span::default())?;
//! assert_eq!(found.text(), "[x, (1 + 2)]");
//!
//! // The rule needs a comma after the expression. The error says which bytes of file 1, the
//! // argument, don't match.
//! let fault = swap.expand("1 + 2; x", Form::Rust, Span::default())?.into_result().unwrap_err();
//! assert_eq!((fault.span.file, fault.span.start, fault.span.end), (1, 5, 6));
//! # Ok::<(), mbe::Error>(())
//! ```
//!
//! A definition and an argument are an [`Input`]: a text, or the [`Trees`] that [`convert`] makes of
//! one. A call that has no answer returns an [`Error`].
//!
//! The crate `mbe-sys` links the C library `libmbe` and has all `unsafe` code.
//!
//! # Features
//!
//! No feature is on by default.
//!
//! - `serde`: `Serialize` and `Deserialize` for trees, expansions, errors, verdicts and what a call
//!   is given. The fields have the names that they have here. An edition is its year, and the text
//!   of trees is a string. `Deserialize` doesn't check trees; each call does.
//! - `proc-macro2`: trees of a `TokenStream`, and back, with the spans of the tokens (`Streams`).
//!
//! ```
//! # #[cfg(feature = "serde")] {
//! let rules: mbe::Macro = "(a) => {}; ($x:tt) => {}".parse()?;
//! let verdicts: Vec<_> = rules.explain("b")?.collect();
//! let text = serde_json::to_string(&verdicts).unwrap();
//! assert_eq!(text, r#"[{"rule":0,"reading":{"stuck":0}},{"rule":1,"reading":"one"}]"#);
//! assert_eq!(serde_json::from_str::<Vec<mbe::Verdict>>(&text).unwrap(), verdicts);
//! # }
//! # Ok::<(), mbe::Error>(())
//! ```
#![forbid(unsafe_code)]
#![deny(missing_docs)]

/// The example of the crate's README is tested.
#[cfg(doctest)]
#[doc = include_str!("../README.md")]
struct Readme;

mod answers;
mod inputs;
mod macros;
#[cfg(feature = "serde")]
mod serialized;
#[cfg(feature = "proc-macro2")]
mod streams;

pub use answers::{Error, Expansion, Fault, Part, Reading, Status, Verdict, Verdicts};
pub use inputs::{Dialect, Edition, Form, Grammar, Input, Leaves, Style, Trees, UnknownName};
pub use macros::{check_grammar, convert, version, Macro};
pub use mbe_sys::{Span, Token};
#[cfg(feature = "proc-macro2")]
pub use streams::Streams;
