//! Token streams of `proc_macro2` as trees, and trees as token streams.

use crate::{convert, Dialect, Edition, Error, Form, Part, Status, Token, Trees};
use proc_macro2::{Delimiter, Group, Ident, Literal, Punct, Spacing, TokenStream, TokenTree};

const IDENT: u32 = 1;
const PUNCT: u32 = 2;
const LITERAL: u32 = 3;
const OPENING: u32 = 4;
const CLOSING: u32 = 5;
// The delimiters and the literals, in order of their numbers. A literal has its quotes, and the
// hashes of a raw string are at the `#`.
const DELIMITERS: [Delimiter; 4] =
    [Delimiter::Parenthesis, Delimiter::Brace, Delimiter::Bracket, Delimiter::None];
const QUOTES: [(&str, &str); 10] = [
    ("b'", "'"),
    ("'", "'"),
    ("", ""),
    ("", ""),
    ("\"", "\""),
    ("r#\"", "\"#"),
    ("b\"", "\""),
    ("br#\"", "\"#"),
    ("c\"", "\""),
    ("cr#\"", "\"#"),
];

/// Token streams of `proc_macro2` as trees, with the spans of their tokens.
///
/// [`trees`](Streams::trees) gives each token a span in the file [`FILE`](Streams::FILE), and keeps
/// the span of `proc_macro2`. An expansion has these spans, so [`stream`](Streams::stream) gives its
/// tokens the spans of the stream that they are from. Without spans, use [`TryFrom`].
///
/// ```
/// use mbe::{Dialect, Edition, Form, Grammar, Macro, Span, Streams};
/// use proc_macro2::TokenStream;
///
/// let mut streams = Streams::new();
/// let rules: TokenStream = "($x:ident : $t:ty) => { let $x: $t; }".parse().unwrap();
/// let rules = streams.trees(rules)?;
/// let rules = Macro::new(&rules, Edition::E2021, Dialect::Rust, Grammar::Rust)?;
///
/// let argument: TokenStream = "a: Vec<u8>".parse().unwrap();
/// let found = rules.expand(&streams.trees(argument)?, Form::Tokens, Span::default())?;
/// let expansion: TokenStream = streams.stream(&found.trees)?;
/// assert_eq!(expansion.to_string(), "let a : Vec < u8 > ;");
/// # Ok::<(), mbe::Error>(())
/// ```
///
/// An error of an expansion leads to the span of its token:
///
/// ```
/// # use mbe::{Dialect, Edition, Form, Grammar, Macro, Span, Streams};
/// let mut streams = Streams::new();
/// let rules: Macro = "($x:ident) => {}".parse()?;
/// let argument = streams.trees("1".parse().unwrap())?;
/// let fault = rules.expand(&argument, Form::Tokens, Span::default())?.fault.unwrap();
/// assert!(streams.span(fault.span).is_some());
/// # Ok::<(), mbe::Error>(())
/// ```
#[derive(Clone, Debug, Default)]
pub struct Streams {
    // The span of the token at each position. A token after a joint punct has the next position,
    // and any other token leaves one out, as if there was a space before it.
    spans: Vec<Option<proc_macro2::Span>>,
}

impl Streams {
    /// The file of the spans that [`trees`](Streams::trees) gives.
    pub const FILE: u32 = u32::MAX;

    /// No streams yet.
    #[must_use]
    pub fn new() -> Streams {
        Streams::default()
    }

    /// The trees of a stream.
    ///
    /// There is an error if a literal isn't one of Rust.
    pub fn trees(&mut self, stream: TokenStream) -> Result<Trees, Error> {
        let mut trees = Trees::default();
        let call_site = proc_macro2::Span::call_site();
        let mut open = vec![(stream.into_iter(), self.open(&mut trees, 3, call_site), call_site)];
        while let Some((rest, opening, end)) = open.last_mut() {
            match rest.next() {
                Some(TokenTree::Group(group)) => {
                    let sort = DELIMITERS.iter().position(|&it| it == group.delimiter());
                    let sort = sort.unwrap_or(3) as u32;
                    let opening = self.open(&mut trees, sort, group.span_open());
                    open.push((group.stream().into_iter(), opening, group.span_close()));
                }
                Some(TokenTree::Ident(ident)) => self.ident(&mut trees, &ident),
                Some(TokenTree::Punct(punct)) => self.punct(&mut trees, &punct),
                Some(TokenTree::Literal(literal)) => self.literal(&mut trees, &literal)?,
                None => {
                    let (opening, end) = (*opening, *end);
                    open.pop();
                    self.close(&mut trees, opening, end);
                }
            }
        }
        convert(&trees, Edition::default(), Dialect::Rust, Form::Tokens)
    }

    /// The span of a token of a stream: `None` if [`trees`](Streams::trees) didn't give this span.
    #[must_use]
    pub fn span(&self, span: crate::Span) -> Option<proc_macro2::Span> {
        let position = usize::try_from(span.start).ok()?;
        *self.spans.get(position).filter(|_| span.file == Streams::FILE)?
    }

    /// The stream of trees. A token has the span of the stream that it is from, or else
    /// `Span::call_site()`. A group has the span of its opening.
    ///
    /// There is an error if the trees are in another form than [`Form::Tokens`], or if a leaf is no
    /// token of `proc_macro2`.
    pub fn stream(&self, trees: &Trees) -> Result<TokenStream, Error> {
        let trees = convert(trees, Edition::default(), Dialect::Rust, Form::Tokens)?;
        let (mut open, mut done) = (Vec::new(), Vec::new());
        for (place, token) in trees.tokens.iter().enumerate() {
            match token.kind {
                OPENING => open.push((std::mem::take(&mut done), token.span)),
                CLOSING => {
                    let (before, opening) = open.pop().unwrap_or_default();
                    let inside = TokenStream::from_iter(std::mem::replace(&mut done, before));
                    let delimiter = DELIMITERS[token.sort.min(3) as usize];
                    done.push(self.spanned(Group::new(delimiter, inside).into(), opening));
                }
                _ => {
                    let leaf = leaf(&trees, token);
                    let leaf = leaf.ok_or_else(|| no_token(place, &trees, token))?;
                    done.push(self.spanned(leaf, token.span));
                }
            }
        }
        // All of it is one group.
        match done.pop() {
            Some(TokenTree::Group(all)) => Ok(all.stream()),
            _ => Ok(TokenStream::new()),
        }
    }

    fn spanned(&self, mut tree: TokenTree, span: crate::Span) -> TokenTree {
        tree.set_span(self.span(span).unwrap_or_else(proc_macro2::Span::call_site));
        tree
    }

    // The span of the next token.
    fn next_span(&mut self, is_joint: bool, span: proc_macro2::Span) -> crate::Span {
        let start = self.spans.len();
        self.spans.push(Some(span));
        if !is_joint {
            self.spans.push(None);
        }
        let start = u32::try_from(start).unwrap_or(u32::MAX - 1);
        crate::Span { file: Streams::FILE, ast: 0, start, end: start + 1, context: 0 }
    }

    fn open(&mut self, trees: &mut Trees, sort: u32, span: proc_macro2::Span) -> usize {
        let span = self.next_span(false, span);
        trees.tokens.push(Token { kind: OPENING, sort, span, ..Token::default() });
        trees.tokens.len() - 1
    }

    fn close(&mut self, trees: &mut Trees, opening: usize, span: proc_macro2::Span) {
        let span = self.next_span(false, span);
        trees.tokens[opening].len = trees.tokens.len() - opening - 1;
        let sort = trees.tokens[opening].sort;
        trees.tokens.push(Token { kind: CLOSING, sort, span, ..Token::default() });
    }

    fn ident(&mut self, trees: &mut Trees, ident: &Ident) {
        let text = ident.to_string();
        let (sort, text) = text.strip_prefix("r#").map_or((0, &text[..]), |plain| (1, plain));
        let span = self.next_span(false, ident.span());
        let (offset, len) = (trees.text.len(), text.len());
        trees.tokens.push(Token { kind: IDENT, sort, span, offset, len, ..Token::default() });
        trees.text.extend_from_slice(text.as_bytes());
    }

    fn punct(&mut self, trees: &mut Trees, punct: &Punct) {
        let is_joint = punct.spacing() == Spacing::Joint;
        let span = self.next_span(is_joint, punct.span());
        let (sort, character) = (u32::from(is_joint), u32::from(punct.as_char()));
        trees.tokens.push(Token { kind: PUNCT, sort, character, span, ..Token::default() });
    }

    // Lexes a literal. A negative number is a `-` and a number.
    fn literal(&mut self, trees: &mut Trees, literal: &Literal) -> Result<(), Error> {
        let text = literal.to_string();
        let lexed = convert(&text, Edition::default(), Dialect::Rust, Form::Tokens)?;
        let end = lexed.tokens.len() - 1;
        for token in &lexed.tokens[1..end] {
            let span = self.next_span(false, literal.span());
            let is_literal = token.kind == LITERAL;
            let offset = if is_literal { token.offset + trees.text.len() } else { 0 };
            trees.tokens.push(Token { span, offset, ..*token });
        }
        trees.text.extend_from_slice(&lexed.text);
        Ok(())
    }
}

fn text_of<'a>(trees: &'a Trees, token: &Token) -> Option<&'a str> {
    let end = token.offset.checked_add(token.len)?;
    std::str::from_utf8(trees.text.get(token.offset..end)?).ok()
}

fn leaf(trees: &Trees, token: &Token) -> Option<TokenTree> {
    match token.kind {
        IDENT => ident_of(text_of(trees, token)?, token.sort == 1),
        PUNCT => {
            let spacing = if token.sort == 1 { Spacing::Joint } else { Spacing::Alone };
            let character = char::from_u32(token.character)?;
            let is_punct = "=<>!~+-*/%^&|@.,;:#$?'".contains(character);
            is_punct.then(|| Punct::new(character, spacing).into())
        }
        _ => literal_of(text_of(trees, token)?, token).map(TokenTree::from),
    }
}

// `Ident::new` panics at what is no identifier, so a text is parsed.
fn ident_of(text: &str, is_raw: bool) -> Option<TokenTree> {
    let text = if is_raw { format!("r#{text}") } else { text.to_string() };
    let mut parsed = text.parse::<TokenStream>().ok()?.into_iter();
    match (parsed.next(), parsed.next()) {
        (Some(TokenTree::Ident(ident)), None) => Some(ident.into()),
        _ => None,
    }
}

fn literal_of(text: &str, token: &Token) -> Option<Literal> {
    let (before, after) = QUOTES.get(token.sort as usize)?;
    let hashes = "#".repeat(token.hashes as usize);
    let split = text.len().checked_sub(token.suffix_len as usize)?;
    let (value, suffix) = (text.get(..split)?, text.get(split..)?);
    let (before, after) = (before.replace('#', &hashes), after.replace('#', &hashes));
    format!("{before}{value}{after}{suffix}").parse().ok()
}

fn no_token(place: usize, trees: &Trees, token: &Token) -> Error {
    let shown = text_of(trees, token).unwrap_or_default();
    let message = format!("no token of proc_macro2: `{shown}`");
    Error { status: Status::NoTrees, part: Part::Argument, place, column: 0, message }
}

impl TryFrom<TokenStream> for Trees {
    type Error = Error;

    /// The trees of a stream, without its spans.
    ///
    /// ```
    /// let stream: proc_macro2::TokenStream = "a + -1".parse().unwrap();
    /// assert_eq!(mbe::Trees::try_from(stream)?.leaves().count(), 4);
    /// # Ok::<(), mbe::Error>(())
    /// ```
    fn try_from(stream: TokenStream) -> Result<Trees, Error> {
        Streams::new().trees(stream)
    }
}

impl TryFrom<&Trees> for TokenStream {
    type Error = Error;

    /// The stream of trees, whose tokens have the span `Span::call_site()`.
    ///
    /// ```
    /// let trees: mbe::Trees = "a (1u8 +)".parse()?;
    /// assert_eq!(proc_macro2::TokenStream::try_from(&trees)?.to_string(), "a (1u8 +)");
    /// # Ok::<(), mbe::Error>(())
    /// ```
    fn try_from(trees: &Trees) -> Result<TokenStream, Error> {
        Streams::new().stream(trees)
    }
}
