//! What a call answers: expansions, verdicts and errors.

use crate::Trees;
use mbe_sys::{Buffers, Reply, Span};
use std::borrow::Cow;
use std::fmt;
use std::iter::FusedIterator;

/// The parts of a call.
#[derive(Clone, Copy, Debug, PartialEq, Eq, Hash)]
#[cfg_attr(feature = "serde", derive(serde::Serialize, serde::Deserialize))]
#[cfg_attr(feature = "serde", serde(rename_all = "snake_case"))]
pub enum Part {
    /// No part.
    None,
    /// The definition.
    Definition,
    /// The argument.
    Argument,
    /// The text of the grammar.
    Grammar,
}

impl fmt::Display for Part {
    fn fmt(&self, f: &mut fmt::Formatter<'_>) -> fmt::Result {
        f.pad(match self {
            Part::None => "call",
            Part::Definition => "definition",
            Part::Argument => "argument",
            Part::Grammar => "grammar",
        })
    }
}

/// Why a call has no answer.
#[derive(Clone, Copy, Debug, PartialEq, Eq, Hash)]
#[cfg_attr(feature = "serde", derive(serde::Serialize, serde::Deserialize))]
#[cfg_attr(feature = "serde", serde(rename_all = "snake_case"))]
pub enum Status {
    /// The definition has a fault.
    Refused,
    /// A number of the request stands for nothing.
    BadNumber,
    /// A text isn't UTF-8.
    NotUtf8,
    /// A text has 2^32 bytes or more.
    TooLong,
    /// A text can't be lexed.
    NoTokens,
    /// Flat tokens are no trees.
    NoTrees,
    /// The text of the grammar has a fault.
    NoGrammar,
    /// There isn't enough memory.
    OutOfMemory,
    /// Another status of the C library.
    Other(u32),
}

impl Status {
    fn new(number: u32) -> Status {
        match number {
            2 => Status::Refused,
            3 => Status::BadNumber,
            4 => Status::NotUtf8,
            5 => Status::TooLong,
            6 => Status::NoTokens,
            7 => Status::NoTrees,
            8 => Status::NoGrammar,
            9 => Status::OutOfMemory,
            other => Status::Other(other),
        }
    }
}

impl fmt::Display for Status {
    fn fmt(&self, f: &mut fmt::Formatter<'_>) -> fmt::Result {
        f.pad(match self {
            Status::Refused => "refused",
            Status::BadNumber => "a number stands for nothing",
            Status::NotUtf8 => "not UTF-8",
            Status::TooLong => "2^32 bytes or more",
            Status::NoTokens => "no tokens",
            Status::NoTrees => "no trees",
            Status::NoGrammar => "no grammar",
            Status::OutOfMemory => "out of memory",
            Status::Other(number) => return write!(f, "status {number}"),
        })
    }
}

/// Why a call has no answer, and where.
#[derive(Clone, Debug, PartialEq, Eq)]
#[cfg_attr(feature = "serde", derive(serde::Serialize, serde::Deserialize))]
pub struct Error {
    /// Why there is no answer.
    pub status: Status,
    /// The part at fault.
    pub part: Part,
    /// The byte, the token or the line in this part.
    pub place: usize,
    /// The column of a grammar's fault.
    pub column: u32,
    /// An explanation, or no text.
    pub message: String,
}

impl Error {
    pub(crate) fn new(reply: Reply, message: String) -> Error {
        let part = match reply.part {
            1 => Part::Definition,
            2 => Part::Argument,
            3 => Part::Grammar,
            _ => Part::None,
        };
        let status = Status::new(reply.status);
        Error { status, part, place: reply.place, column: reply.column, message }
    }

    pub(crate) fn of(reply: Reply, out: &Buffers) -> Error {
        Error::new(reply, message_of(reply, out))
    }
}

impl fmt::Display for Error {
    fn fmt(&self, f: &mut fmt::Formatter<'_>) -> fmt::Result {
        write!(f, "{} at {}: {}", self.part, self.place, self.status)?;
        if !self.message.is_empty() {
            write!(f, ": {}", self.message)?;
        }
        Ok(())
    }
}

impl std::error::Error for Error {}

/// The error of an expansion, and its span.
#[derive(Clone, Debug, PartialEq, Eq)]
#[cfg_attr(feature = "serde", derive(serde::Serialize, serde::Deserialize))]
pub struct Fault {
    /// An explanation.
    pub message: String,
    /// Where the expansion stops. File 0 is the definition, and file 1 is the argument.
    pub span: Span,
}

impl fmt::Display for Fault {
    fn fmt(&self, f: &mut fmt::Formatter<'_>) -> fmt::Result {
        f.pad(&self.message)
    }
}

impl std::error::Error for Fault {}

/// An expansion.
#[derive(Clone, Debug, PartialEq, Eq)]
#[cfg_attr(feature = "serde", derive(serde::Serialize, serde::Deserialize))]
pub struct Expansion {
    /// Its trees. Beside a fault they are the part that was expanded.
    pub trees: Trees,
    /// The index of the rule that is used, or that fits best. Indices count from 0.
    pub rule: Option<u32>,
    /// Its error, if it has one.
    pub fault: Option<Fault>,
}

impl Expansion {
    pub(crate) fn new(reply: Reply, trees: Trees, message: String) -> Result<Expansion, Error> {
        let fault = match reply.status {
            0 => None,
            1 => Some(Fault { message, span: reply.span }),
            _ => return Err(Error::new(reply, message)),
        };
        Ok(Expansion { trees, rule: (reply.has_rule == 1).then_some(reply.rule), fault })
    }

    /// The text of the trees, in the forms that have one.
    pub fn text(&self) -> Cow<'_, str> {
        self.trees.text()
    }

    /// The trees, or the error if there is one.
    pub fn into_result(self) -> Result<Trees, Fault> {
        match self.fault {
            None => Ok(self.trees),
            Some(fault) => Err(fault),
        }
    }
}

impl TryFrom<Expansion> for Trees {
    type Error = Fault;

    fn try_from(expansion: Expansion) -> Result<Trees, Fault> {
        expansion.into_result()
    }
}

/// How a rule reads an argument.
#[derive(Clone, Copy, Debug, PartialEq, Eq, Hash)]
#[cfg_attr(feature = "serde", derive(serde::Serialize, serde::Deserialize))]
#[cfg_attr(feature = "serde", serde(rename_all = "snake_case"))]
pub enum Reading {
    /// In one way.
    One,
    /// In more than one way.
    Many,
    /// There is a local ambiguity after so many tokens.
    Ambiguous(usize),
    /// The rule doesn't match; it stops after so many tokens.
    Stuck(usize),
}

/// A rule's index, and how the rule reads the argument.
#[derive(Clone, Copy, Debug, PartialEq, Eq, Hash)]
#[cfg_attr(feature = "serde", derive(serde::Serialize, serde::Deserialize))]
pub struct Verdict {
    /// The index of the rule. Indices count from 0.
    pub rule: usize,
    /// How the rule reads the argument.
    pub reading: Reading,
}

/// The verdicts on an argument, in order of the rules.
#[derive(Clone, Debug)]
pub struct Verdicts {
    found: std::iter::Enumerate<std::vec::IntoIter<mbe_sys::Verdict>>,
}

impl Verdicts {
    pub(crate) fn new(found: Vec<mbe_sys::Verdict>) -> Verdicts {
        Verdicts { found: found.into_iter().enumerate() }
    }
}

impl Iterator for Verdicts {
    type Item = Verdict;

    fn next(&mut self) -> Option<Verdict> {
        let (rule, verdict) = self.found.next()?;
        let reading = match verdict.kind {
            0 => Reading::One,
            1 => Reading::Many,
            2 => Reading::Ambiguous(verdict.place),
            _ => Reading::Stuck(verdict.place),
        };
        Some(Verdict { rule, reading })
    }

    fn size_hint(&self) -> (usize, Option<usize>) {
        self.found.size_hint()
    }
}

impl ExactSizeIterator for Verdicts {}
impl FusedIterator for Verdicts {}

/// The message of a reply.
pub(crate) fn message_of(reply: Reply, out: &Buffers) -> String {
    String::from_utf8_lossy(out.message.get(..reply.message).unwrap_or(&[])).into_owned()
}
