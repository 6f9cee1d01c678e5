//! A definition that is kept, its calls, and the calls on texts.

use crate::answers::message_of;
use crate::{Dialect, Edition, Error, Expansion, Form, Grammar, Input, Style, Trees, Verdicts};
use mbe_sys::{self as sys, Buffers, Bytes, Call, Piece, Reply, Request, Span, Token};
use std::cell::RefCell;
use std::str::FromStr;

fn form_number(form: Form) -> u32 {
    match form {
        Form::Tokens => 0,
        Form::Lines => 1,
        Form::Rust => 2,
    }
}

fn style_number(style: Style) -> u32 {
    match style {
        Style::FnLike => 0,
        Style::Attr => 1,
        Style::Derive => 2,
    }
}

// Calls until the answer has room: a call without enough room says how much it needs. A call that
// keeps something has room for its message at once, or is refused before it keeps anything.
fn with_room(out: &mut Buffers, mut call: impl FnMut(&mut Buffers) -> Reply) -> Reply {
    loop {
        let reply = call(out);
        if reply.status != 10 && reply.message <= out.message.len() {
            return reply;
        }
        out.tokens.resize(out.tokens.len().max(reply.tokens), Token::default());
        out.verdicts.resize(out.verdicts.len().max(reply.tokens), sys::Verdict::default());
        out.text.resize(out.text.len().max(reply.text), 0);
        out.message.resize(out.message.len().max(reply.message), 0);
    }
}

fn buffers() -> Buffers {
    Buffers {
        tokens: vec![Token::default(); 256],
        verdicts: vec![sys::Verdict::default(); 16],
        text: vec![0; 4096],
        message: vec![0; 256],
    }
}

fn trees_of(reply: Reply, mut out: Buffers) -> Trees {
    out.tokens.truncate(reply.tokens);
    out.text.truncate(reply.text);
    Trees { tokens: out.tokens, text: out.text }
}

// Arguments one after another, all of them texts or all of them flat tokens, and which of a list of
// calls they are.
#[derive(Default)]
struct Joined {
    text: Vec<u8>,
    tokens: Vec<Token>,
    pieces: Vec<Piece>,
    calls: Vec<usize>,
}

impl Joined {
    fn new(calls: &[(Input<'_>, Span)], flat: u32) -> Joined {
        let mut all = Joined::default();
        for (index, &(input, call_site)) in calls.iter().enumerate() {
            let (given, is_flat) = input.bytes();
            if is_flat != flat {
                continue;
            }
            all.calls.push(index);
            all.pieces.push(Piece {
                offset: all.text.len(),
                len: given.text.len(),
                token_offset: all.tokens.len(),
                token_len: given.tokens.len(),
                call_site,
            });
            all.text.extend_from_slice(given.text);
            all.tokens.extend_from_slice(given.tokens);
        }
        all
    }
}

// The first `len` elements, which `rest` then lacks.
fn front<'a, T>(rest: &mut &'a [T], len: usize) -> &'a [T] {
    let (front, after) = rest.split_at(len.min(rest.len()));
    *rest = after;
    front
}

// The flat tokens of a definition's text, each in file 0; `convert` lexes a text as file 1.
fn lexed_definition(text: Input<'_>, edition: Edition, dialect: Dialect) -> Result<Trees, Error> {
    let mut trees = convert(text, edition, dialect, Form::Tokens)?;
    for token in &mut trees.tokens {
        token.span.file = 0;
    }
    Ok(trees)
}

/// The rules of a macro, which [`Macro::new`] reads once.
///
/// [`expand`](Macro::expand) uses what was read. [`explain`](Macro::explain) and
/// [`expand_each`](Macro::expand_each) read the rules again in each call, from the flat tokens that
/// the definition was lexed to. A macro is freed when it is dropped. It stays on its thread:
///
/// ```compile_fail,E0277
/// fn needs_send<T: Send>() {}
/// needs_send::<mbe::Macro>();
/// ```
#[derive(Debug)]
pub struct Macro<'a> {
    read: RefCell<sys::Macro>,
    definition: Trees,
    request: Request,
    grammar: &'a str,
    rules: usize,
}

impl<'a> Macro<'a> {
    /// Reads a definition: the rules of a `macro_rules!`, without its name and braces.
    ///
    /// An error says what is wrong with the definition or the text of the grammar.
    ///
    /// ```
    /// use mbe::{Dialect, Edition, Grammar, Macro, Status};
    ///
    /// let read = |rules| Macro::new(rules, Edition::E2021, Dialect::Rust, Grammar::Rust);
    /// assert_eq!(read("() => {}; ($x:tt) => { $x }")?.rules(), 2);
    /// assert_eq!(read("($x) => {}").unwrap_err().status, Status::Refused);
    /// # Ok::<(), mbe::Error>(())
    /// ```
    pub fn new<'b>(
        definition: impl Into<Input<'b>>,
        edition: Edition,
        dialect: Dialect,
        grammar: impl Into<Grammar<'a>>,
    ) -> Result<Macro<'a>, Error> {
        let definition = definition.into();
        let (number, grammar) = match grammar.into() {
            Grammar::Sample => (0, ""),
            Grammar::Rust => (1, ""),
            Grammar::Text(text) => (2, text),
        };
        let (given, definition_is_flat) = definition.bytes();
        let mut request = Request {
            edition: edition.into(),
            dialect: u32::from(dialect == Dialect::Rust),
            grammar: number,
            definition_is_flat,
            ..Request::default()
        };
        let (mut out, mut read) = (buffers(), sys::Macro::default());
        let reply = with_room(&mut out, |out| read.read(&request, grammar.as_bytes(), given, out));
        if reply.status != 0 {
            return Err(Error::of(reply, &out));
        }
        let definition = match definition {
            Input::Flat(trees) => trees.clone(),
            Input::Text(_) => lexed_definition(definition, edition, dialect)?,
        };
        request.definition_is_flat = 1;
        Ok(Macro { read: RefCell::new(read), definition, request, grammar, rules: reply.place })
    }

    /// The number of rules.
    pub fn rules(&self) -> usize {
        self.rules
    }

    fn definition(&self) -> Bytes<'_> {
        Bytes { text: &self.definition.text, tokens: &self.definition.tokens }
    }

    /// Expands a call `name!(argument)` at that span.
    ///
    /// The trees have the form that you name. If no rule matches, the expansion has a fault. An
    /// error says why there is no expansion.
    pub fn expand<'b>(
        &self,
        argument: impl Into<Input<'b>>,
        form: Form,
        call_site: Span,
    ) -> Result<Expansion, Error> {
        self.expand_as(Style::FnLike, argument, form, call_site)
    }

    /// Expands a call of that style, as [`expand`](Macro::expand) does. Only rules of this style
    /// count.
    pub fn expand_as<'b>(
        &self,
        style: Style,
        argument: impl Into<Input<'b>>,
        form: Form,
        call_site: Span,
    ) -> Result<Expansion, Error> {
        let (argument, argument_is_flat) = argument.into().bytes();
        let (style, form) = (style_number(style), form_number(form));
        let call = Call { style, form, argument_is_flat, call_site };
        let mut out = buffers();
        let reply = with_room(&mut out, |out| self.read.borrow_mut().expand(&call, argument, out));
        let message = message_of(reply, &out);
        Expansion::new(reply, trees_of(reply, out), message)
    }

    /// Expands calls with these arguments, each at its span, and reads the rules once for them all.
    ///
    /// Each answer is the one of [`expand`](Macro::expand). The error of the whole is
    /// [`Status::OutOfMemory`](crate::Status::OutOfMemory).
    ///
    /// ```
    /// use mbe::{Form, Macro, Span};
    ///
    /// let twice: Macro = "($x:ident) => { $x $x }".parse()?;
    /// let calls = ["a", "b", ")"].map(|it| (it.into(), Span::default()));
    /// let found = twice.expand_each(&calls, Form::Rust)?;
    /// assert_eq!(found[1].as_ref().map(|it| it.text()), Ok("b b".into()));
    /// assert!(found[2].is_err());
    /// # Ok::<(), mbe::Error>(())
    /// ```
    pub fn expand_each(
        &self,
        calls: &[(Input<'_>, Span)],
        form: Form,
    ) -> Result<Vec<Result<Expansion, Error>>, Error> {
        let mut found = Vec::with_capacity(calls.len());
        for is_flat in [0, 1] {
            self.expand_joined(&Joined::new(calls, is_flat), form, is_flat, &mut found)?;
        }
        found.sort_by_key(|(call, _)| *call);
        Ok(found.into_iter().map(|(_, answer)| answer).collect())
    }

    // Adds the answers to these calls, each with its index.
    fn expand_joined(
        &self,
        all: &Joined,
        form: Form,
        is_flat: u32,
        found: &mut Vec<(usize, Result<Expansion, Error>)>,
    ) -> Result<(), Error> {
        if all.calls.is_empty() {
            return Ok(());
        }
        let (form, grammar) = (form_number(form), self.grammar.as_bytes());
        let request = Request { form, argument_is_flat: is_flat, ..self.request };
        let arguments = Bytes { text: &all.text, tokens: &all.tokens };
        let (mut out, mut replies) = (buffers(), vec![Reply::default(); all.calls.len()]);
        let reply = with_room(&mut out, |out| {
            let definition = self.definition();
            sys::expand_each(
                &request,
                grammar,
                definition,
                arguments,
                &all.pieces,
                &mut replies,
                out,
            )
        });
        if reply.status != 0 {
            return Err(Error::of(reply, &out));
        }
        let (mut tokens, mut text) = (&out.tokens[..], &out.text[..]);
        let mut message = &out.message[..];
        for (&call, reply) in all.calls.iter().zip(replies) {
            let trees = Trees {
                tokens: front(&mut tokens, reply.tokens).to_vec(),
                text: front(&mut text, reply.text).to_vec(),
            };
            let said = String::from_utf8_lossy(front(&mut message, reply.message)).into_owned();
            found.push((call, Expansion::new(reply, trees, said)));
        }
        Ok(())
    }

    /// How each rule, of every style, reads an argument.
    ///
    /// ```
    /// use mbe::{Macro, Reading};
    ///
    /// let rules: Macro = "(a) => {}; ($x:tt) => {}".parse()?;
    /// let readings: Vec<_> = rules.explain("b")?.map(|it| it.reading).collect();
    /// assert_eq!(readings, [Reading::Stuck(0), Reading::One]);
    /// # Ok::<(), mbe::Error>(())
    /// ```
    pub fn explain<'b>(&self, argument: impl Into<Input<'b>>) -> Result<Verdicts, Error> {
        let (argument, is_flat) = argument.into().bytes();
        let request = Request { argument_is_flat: is_flat, ..self.request };
        let mut out = buffers();
        let reply = with_room(&mut out, |out| {
            sys::explain(&request, self.grammar.as_bytes(), self.definition(), argument, out)
        });
        if reply.status != 0 {
            return Err(Error::of(reply, &out));
        }
        out.verdicts.truncate(reply.tokens);
        Ok(Verdicts::new(out.verdicts))
    }
}

impl FromStr for Macro<'static> {
    type Err = Error;

    /// Reads the rules of a macro of Rust, in edition 2024.
    fn from_str(definition: &str) -> Result<Macro<'static>, Error> {
        Macro::new(definition, Edition::default(), Dialect::Rust, Grammar::Rust)
    }
}

impl TryFrom<Input<'_>> for Macro<'static> {
    type Error = Error;

    /// Reads the rules of a macro of Rust, in edition 2024.
    fn try_from(definition: Input<'_>) -> Result<Macro<'static>, Error> {
        Macro::new(definition, Edition::default(), Dialect::Rust, Grammar::Rust)
    }
}

/// The trees of an input in a form: a text as flat tokens, or a text or flat tokens as lines or as
/// Rust text. A text is file 1.
///
/// ```
/// use mbe::{convert, Dialect, Edition, Form};
///
/// let lines = convert("a", Edition::E2024, Dialect::Rust, Form::Lines)?;
/// assert_eq!(lines.text().lines().last(), Some("  IDENT   a 1@0..1"));
/// # Ok::<(), mbe::Error>(())
/// ```
pub fn convert<'a>(
    input: impl Into<Input<'a>>,
    edition: Edition,
    dialect: Dialect,
    form: Form,
) -> Result<Trees, Error> {
    let (input, is_flat) = input.into().bytes();
    let request = Request {
        edition: edition.into(),
        dialect: u32::from(dialect == Dialect::Rust),
        form: form_number(form),
        argument_is_flat: is_flat,
        ..Request::default()
    };
    let mut out = buffers();
    let reply = with_room(&mut out, |out| sys::convert(&request, input, out));
    if reply.status != 0 {
        return Err(Error::of(reply, &out));
    }
    Ok(trees_of(reply, out))
}

/// Checks that a text is a grammar of fragments.
///
/// The error has the line (`place`) and the column of its fault.
pub fn check_grammar(text: &str) -> Result<(), Error> {
    let mut out = buffers();
    let reply = with_room(&mut out, |out| sys::grammar(text.as_bytes(), out));
    if reply.status != 0 {
        return Err(Error::of(reply, &out));
    }
    Ok(())
}

/// The version of the C library's interface.
pub fn version() -> u32 {
    sys::version()
}
