//! What a call is given: texts and trees, with what they are read as.

use crate::{convert, Error};
use mbe_sys::{Bytes, Token};
use std::borrow::Cow;
use std::fmt;
use std::iter::FusedIterator;
use std::str::FromStr;

/// An edition of Rust.
#[derive(Clone, Copy, Debug, Default, PartialEq, Eq, PartialOrd, Ord, Hash)]
#[cfg_attr(feature = "serde", derive(serde::Serialize, serde::Deserialize))]
#[cfg_attr(feature = "serde", serde(try_from = "u32", into = "u32"))]
pub enum Edition {
    /// The edition 2015.
    E2015,
    /// The edition 2018.
    E2018,
    /// The edition 2021.
    E2021,
    /// The edition 2024.
    #[default]
    E2024,
}

/// A text that isn't the name of a value.
#[derive(Clone, Copy, Debug, PartialEq, Eq)]
pub struct UnknownName;

impl fmt::Display for UnknownName {
    fn fmt(&self, f: &mut fmt::Formatter<'_>) -> fmt::Result {
        f.write_str("unknown name: an edition is 2015, 2018, 2021 or 2024")
    }
}

impl std::error::Error for UnknownName {}

impl From<Edition> for u32 {
    /// The year.
    fn from(edition: Edition) -> u32 {
        match edition {
            Edition::E2015 => 2015,
            Edition::E2018 => 2018,
            Edition::E2021 => 2021,
            Edition::E2024 => 2024,
        }
    }
}

impl TryFrom<u32> for Edition {
    type Error = UnknownName;

    /// The edition of a year.
    fn try_from(year: u32) -> Result<Edition, UnknownName> {
        let all = [Edition::E2015, Edition::E2018, Edition::E2021, Edition::E2024];
        all.into_iter().find(|&it| u32::from(it) == year).ok_or(UnknownName)
    }
}

impl FromStr for Edition {
    type Err = UnknownName;

    /// The edition of a year, as in a `Cargo.toml`.
    ///
    /// ```
    /// assert_eq!("2021".parse(), Ok(mbe::Edition::E2021));
    /// assert!("2020".parse::<mbe::Edition>().is_err());
    /// ```
    fn from_str(year: &str) -> Result<Edition, UnknownName> {
        match year {
            "2015" => Ok(Edition::E2015),
            "2018" => Ok(Edition::E2018),
            "2021" => Ok(Edition::E2021),
            "2024" => Ok(Edition::E2024),
            _ => Err(UnknownName),
        }
    }
}

impl fmt::Display for Edition {
    fn fmt(&self, f: &mut fmt::Formatter<'_>) -> fmt::Result {
        u32::from(*self).fmt(f)
    }
}

/// Which tokens texts have.
#[derive(Clone, Copy, Debug, Default, PartialEq, Eq, Hash)]
#[cfg_attr(feature = "serde", derive(serde::Serialize, serde::Deserialize))]
#[cfg_attr(feature = "serde", serde(rename_all = "snake_case"))]
pub enum Dialect {
    /// The project's sample dialect, which is smaller than Rust.
    Sample,
    /// Whole Rust.
    #[default]
    Rust,
}

/// Which fragments there are, such as `expr` and `ty`.
#[derive(Clone, Copy, Debug, Default, PartialEq, Eq, Hash)]
pub enum Grammar<'a> {
    /// The project's sample grammar, which is smaller than Rust's.
    Sample,
    /// Rust's.
    #[default]
    Rust,
    /// The grammar of a text.
    Text(&'a str),
}

impl<'a> From<&'a str> for Grammar<'a> {
    fn from(text: &'a str) -> Grammar<'a> {
        Grammar::Text(text)
    }
}

/// The form in which trees are written.
#[derive(Clone, Copy, Debug, Default, PartialEq, Eq, Hash)]
#[cfg_attr(feature = "serde", derive(serde::Serialize, serde::Deserialize))]
#[cfg_attr(feature = "serde", serde(rename_all = "snake_case"))]
pub enum Form {
    /// Flat tokens, and the bytes of their texts.
    #[default]
    Tokens,
    /// A line for each group and each leaf.
    Lines,
    /// Rust text.
    Rust,
}

/// How a macro is called.
#[derive(Clone, Copy, Debug, Default, PartialEq, Eq, Hash)]
#[cfg_attr(feature = "serde", derive(serde::Serialize, serde::Deserialize))]
#[cfg_attr(feature = "serde", serde(rename_all = "snake_case"))]
pub enum Style {
    /// As `name!(argument)`.
    #[default]
    FnLike,
    /// As an attribute, by a rule that begins with `attr`.
    Attr,
    /// As a derive, by a rule that begins with `derive`.
    Derive,
}

/// A definition or an argument.
#[derive(Clone, Copy, Debug)]
pub enum Input<'a> {
    /// A text that is lexed.
    Text(&'a [u8]),
    /// Flat tokens, which are one group.
    Flat(&'a Trees),
}

impl<'a> From<&'a str> for Input<'a> {
    fn from(text: &'a str) -> Input<'a> {
        Input::Text(text.as_bytes())
    }
}

impl<'a> From<&'a String> for Input<'a> {
    fn from(text: &'a String) -> Input<'a> {
        Input::Text(text.as_bytes())
    }
}

impl<'a> From<&'a [u8]> for Input<'a> {
    fn from(text: &'a [u8]) -> Input<'a> {
        Input::Text(text)
    }
}

impl<'a, const N: usize> From<&'a [u8; N]> for Input<'a> {
    fn from(text: &'a [u8; N]) -> Input<'a> {
        Input::Text(text)
    }
}

impl<'a> From<&'a Trees> for Input<'a> {
    fn from(trees: &'a Trees) -> Input<'a> {
        Input::Flat(trees)
    }
}

impl<'a> Input<'a> {
    /// The bytes that a call takes, and 1 if they are flat tokens.
    pub(crate) fn bytes(self) -> (Bytes<'a>, u32) {
        match self {
            Input::Text(text) => (Bytes { text, tokens: &[] }, 0),
            Input::Flat(trees) => (Bytes { text: &trees.text, tokens: &trees.tokens }, 1),
        }
    }
}

/// Flat tokens, which are one group, and the bytes of their texts. In the forms [`Form::Lines`] and
/// [`Form::Rust`] there are no tokens, and the bytes are the text.
#[derive(Clone, Debug, Default, PartialEq, Eq, Hash)]
#[cfg_attr(feature = "serde", derive(serde::Serialize, serde::Deserialize))]
pub struct Trees {
    /// An opening, the tokens of its group, and its closing.
    pub tokens: Vec<Token>,
    /// The bytes that the tokens' offsets count in, or the text of the other forms.
    #[cfg_attr(feature = "serde", serde(with = "crate::serialized"))]
    pub text: Vec<u8>,
}

impl Trees {
    /// The leaves at any depth, each with its text.
    ///
    /// ```
    /// let trees: mbe::Trees = "a (1u8 +)".parse()?;
    /// let leaves: Vec<_> = trees.leaves().map(|(_, text)| text).collect();
    /// assert_eq!(leaves, ["a", "1u8", "+"]);
    /// # Ok::<(), mbe::Error>(())
    /// ```
    pub fn leaves(&self) -> Leaves<'_> {
        Leaves { trees: self, at: 0 }
    }

    /// The group whose opening is the token of that index, or `None` if that token is no opening or
    /// its group isn't whole.
    pub fn group(&self, index: usize) -> Option<Trees> {
        let opening = self.tokens.get(index)?;
        let end = index.checked_add(opening.len)?.checked_add(2)?;
        let tokens = if opening.kind == 4 { self.tokens.get(index..end)? } else { return None };
        Some(Trees { tokens: tokens.to_vec(), text: self.text.clone() })
    }

    /// The text, of the forms [`Form::Lines`] and [`Form::Rust`].
    pub fn text(&self) -> Cow<'_, str> {
        String::from_utf8_lossy(&self.text)
    }
}

impl<'a> IntoIterator for &'a Trees {
    type Item = (Token, String);
    type IntoIter = Leaves<'a>;

    fn into_iter(self) -> Leaves<'a> {
        self.leaves()
    }
}

impl FromStr for Trees {
    type Err = Error;

    /// The flat tokens of a text of Rust, in edition 2024, as file 1.
    fn from_str(text: &str) -> Result<Trees, Error> {
        convert(text, Edition::default(), Dialect::Rust, Form::Tokens)
    }
}

/// The leaves of trees at any depth, each with its text. The text of a punct is its character.
#[derive(Clone, Debug)]
pub struct Leaves<'a> {
    trees: &'a Trees,
    at: usize,
}

impl Iterator for Leaves<'_> {
    type Item = (Token, String);

    fn next(&mut self) -> Option<(Token, String)> {
        loop {
            let token = *self.trees.tokens.get(self.at)?;
            self.at += 1;
            match token.kind {
                2 => {
                    let text = char::from_u32(token.character).map(String::from);
                    return Some((token, text.unwrap_or_default()));
                }
                1 | 3 => {
                    let end = token.offset.saturating_add(token.len);
                    let bytes = self.trees.text.get(token.offset..end)?;
                    return Some((token, String::from_utf8_lossy(bytes).into_owned()));
                }
                _ => {}
            }
        }
    }

    fn size_hint(&self) -> (usize, Option<usize>) {
        (0, Some(self.trees.tokens.len().saturating_sub(self.at)))
    }
}

impl FusedIterator for Leaves<'_> {}
