//! The declarations of `mbe.h`, and a safe call for each export. Programs use the crate `mbe`.
#![deny(missing_docs)]

use std::os::raw::{c_char, c_void};

/// Where a token is: `mbe_span`.
#[repr(C)]
#[derive(Clone, Copy, Debug, Default, PartialEq, Eq, Hash)]
#[cfg_attr(feature = "serde", derive(serde::Serialize, serde::Deserialize))]
pub struct Span {
    /// The file's number, the caller's.
    pub file: u32,
    /// The item's number, the caller's.
    pub ast: u32,
    /// The first byte.
    pub start: u32,
    /// The byte after the last.
    pub end: u32,
    /// The hygiene context.
    pub context: u32,
}

/// A leaf, an opening or a closing: `mbe_token`, which explains the numbers.
#[repr(C)]
#[derive(Clone, Copy, Debug, Default, PartialEq, Eq, Hash)]
#[cfg_attr(feature = "serde", derive(serde::Serialize, serde::Deserialize))]
pub struct Token {
    /// 1 an identifier, 2 a punct, 3 a literal, 4 an opening, 5 a closing.
    pub kind: u32,
    /// Which of its kind.
    pub sort: u32,
    /// Of a punct, its char.
    pub character: u32,
    /// Of a raw string, how many `#`.
    pub hashes: u32,
    /// Of a literal, how many bytes its suffix has.
    pub suffix_len: u32,
    /// Where it is.
    pub span: Span,
    /// Where its text begins, in the text beside the tokens.
    pub offset: usize,
    /// How many bytes that has; of an opening how many tokens are inside.
    pub len: usize,
}

/// How a rule reads an argument: `mbe_verdict`.
#[repr(C)]
#[derive(Clone, Copy, Debug, Default)]
pub struct Verdict {
    /// 0 one reading, 1 many, 2 ambiguous, 3 stuck.
    pub kind: usize,
    /// The tokens that were read before.
    pub place: usize,
}

/// What is asked: `mbe_request`, which explains the numbers.
#[repr(C)]
#[derive(Clone, Copy, Debug, Default)]
pub struct Request {
    /// The year.
    pub edition: u32,
    /// Which tokens texts have.
    pub dialect: u32,
    /// What fragments are.
    pub grammar: u32,
    /// How the macro is called.
    pub style: u32,
    /// What is written of trees.
    pub form: u32,
    /// 1 where the definition is flat tokens.
    pub definition_is_flat: u32,
    /// 1 where the argument is flat tokens.
    pub argument_is_flat: u32,
    /// Where the call is.
    pub call_site: Span,
}

/// What a call answers: `mbe_reply`, which explains the numbers.
#[repr(C)]
#[derive(Clone, Copy, Debug, Default)]
pub struct Reply {
    /// How it ended.
    pub status: u32,
    /// The part at fault.
    pub part: u32,
    /// 1 where `rule` is the index of one.
    pub has_rule: u32,
    /// The rule that was used, or that fits best.
    pub rule: u32,
    /// Where the error is.
    pub span: Span,
    /// Of a grammar's fault, the column.
    pub column: u32,
    /// The byte, the token or the line at fault; of a definition, how many rules it has.
    pub place: usize,
    /// How many tokens, or verdicts, the answer has.
    pub tokens: usize,
    /// How many bytes its text has.
    pub text: usize,
    /// How many bytes its message has.
    pub message: usize,
}

/// One of many arguments: `mbe_piece`.
#[repr(C)]
#[derive(Clone, Copy, Debug, Default)]
pub struct Piece {
    /// Where its text begins, in that of all.
    pub offset: usize,
    /// How many bytes that has.
    pub len: usize,
    /// Where its tokens begin, among those of all.
    pub token_offset: usize,
    /// How many these are.
    pub token_len: usize,
    /// Where its call is.
    pub call_site: Span,
}

/// What is asked of a macro in one call: `mbe_call`, which explains the numbers.
#[repr(C)]
#[derive(Clone, Copy, Debug, Default)]
pub struct Call {
    /// How the macro is called.
    pub style: u32,
    /// What is written of trees.
    pub form: u32,
    /// 1 where the argument is flat tokens.
    pub argument_is_flat: u32,
    /// Where the call is.
    pub call_site: Span,
}

/// A macro that was read, until it is dropped: `mbe_macro`. It stays on its thread.
#[repr(C)]
#[derive(Debug)]
pub struct Macro {
    at: *mut c_void,
    state: u64,
}

extern "C" {
    fn mbe_c_version() -> u32;
    fn mbe_c_expand(
        request: *const Request,
        grammar: *const c_char,
        grammar_len: usize,
        definition: *const c_char,
        definition_len: usize,
        definition_tokens: *const Token,
        definition_token_len: usize,
        argument: *const c_char,
        argument_len: usize,
        argument_tokens: *const Token,
        argument_token_len: usize,
        tokens: *mut Token,
        token_room: usize,
        text: *mut c_char,
        text_room: usize,
        message: *mut c_char,
        message_room: usize,
        reply: *mut Reply,
    ) -> u32;
    fn mbe_c_expand_each(
        request: *const Request,
        grammar: *const c_char,
        grammar_len: usize,
        definition: *const c_char,
        definition_len: usize,
        definition_tokens: *const Token,
        definition_token_len: usize,
        arguments: *const c_char,
        arguments_len: usize,
        argument_tokens: *const Token,
        argument_token_len: usize,
        pieces: *const Piece,
        piece_len: usize,
        replies: *mut Reply,
        reply_room: usize,
        tokens: *mut Token,
        token_room: usize,
        text: *mut c_char,
        text_room: usize,
        message: *mut c_char,
        message_room: usize,
        reply: *mut Reply,
    ) -> u32;
    fn mbe_c_explain(
        request: *const Request,
        grammar: *const c_char,
        grammar_len: usize,
        definition: *const c_char,
        definition_len: usize,
        definition_tokens: *const Token,
        definition_token_len: usize,
        argument: *const c_char,
        argument_len: usize,
        argument_tokens: *const Token,
        argument_token_len: usize,
        verdicts: *mut Verdict,
        verdict_room: usize,
        message: *mut c_char,
        message_room: usize,
        reply: *mut Reply,
    ) -> u32;
    fn mbe_c_convert(
        request: *const Request,
        input: *const c_char,
        input_len: usize,
        input_tokens: *const Token,
        input_token_len: usize,
        tokens: *mut Token,
        token_room: usize,
        text: *mut c_char,
        text_room: usize,
        message: *mut c_char,
        message_room: usize,
        reply: *mut Reply,
    ) -> u32;
    fn mbe_c_define(
        request: *const Request,
        definition: *const c_char,
        definition_len: usize,
        definition_tokens: *const Token,
        definition_token_len: usize,
        message: *mut c_char,
        message_room: usize,
        reply: *mut Reply,
    ) -> u32;
    fn mbe_c_grammar(
        grammar: *const c_char,
        grammar_len: usize,
        message: *mut c_char,
        message_room: usize,
        reply: *mut Reply,
    ) -> u32;
    fn mbe_c_macro_read(
        request: *const Request,
        grammar: *const c_char,
        grammar_len: usize,
        definition: *const c_char,
        definition_len: usize,
        definition_tokens: *const Token,
        definition_token_len: usize,
        it: *mut Macro,
        message: *mut c_char,
        message_room: usize,
        reply: *mut Reply,
    ) -> u32;
    fn mbe_c_macro_expand(
        it: *mut Macro,
        call: *const Call,
        argument: *const c_char,
        argument_len: usize,
        argument_tokens: *const Token,
        argument_token_len: usize,
        tokens: *mut Token,
        token_room: usize,
        text: *mut c_char,
        text_room: usize,
        message: *mut c_char,
        message_room: usize,
        reply: *mut Reply,
    ) -> u32;
    fn mbe_c_macro_free(it: *mut Macro) -> u32;
}

/// Memory for an answer.
#[derive(Default)]
pub struct Buffers {
    /// For flat tokens.
    pub tokens: Vec<Token>,
    /// For verdicts.
    pub verdicts: Vec<Verdict>,
    /// For texts.
    pub text: Vec<u8>,
    /// For what is wrong, in words.
    pub message: Vec<u8>,
}

/// A text or flat tokens with theirs.
#[derive(Clone, Copy)]
pub struct Bytes<'a> {
    /// The text, or that of the tokens.
    pub text: &'a [u8],
    /// The tokens, or none.
    pub tokens: &'a [Token],
}

// SAFETY, of each call after this: the declarations above are those of `mbe.h`; each pointer with its length is that of one slice, which is
// borrowed for the call; what is written is borrowed mutably, so overlaps nothing; a slice's pointer is never null, and all of its
// elements are numbers. A `Macro` begins with zeros, no one else writes its fields, it is never copied, and it stays on its thread, since a
// struct with a raw pointer does.

/// The version of the interface.
#[must_use]
pub fn version() -> u32 {
    unsafe { mbe_c_version() }
}

/// `mbe_expand`.
pub fn expand(
    request: &Request,
    grammar: &[u8],
    definition: Bytes,
    argument: Bytes,
    out: &mut Buffers,
) -> Reply {
    let mut reply = Reply::default();
    unsafe {
        mbe_c_expand(
            request,
            grammar.as_ptr().cast(),
            grammar.len(),
            definition.text.as_ptr().cast(),
            definition.text.len(),
            definition.tokens.as_ptr(),
            definition.tokens.len(),
            argument.text.as_ptr().cast(),
            argument.text.len(),
            argument.tokens.as_ptr(),
            argument.tokens.len(),
            out.tokens.as_mut_ptr(),
            out.tokens.len(),
            out.text.as_mut_ptr().cast(),
            out.text.len(),
            out.message.as_mut_ptr().cast(),
            out.message.len(),
            &mut reply,
        )
    };
    reply
}

/// `mbe_expand_each`; `replies` has as many elements as `pieces`.
pub fn expand_each(
    request: &Request,
    grammar: &[u8],
    definition: Bytes,
    arguments: Bytes,
    pieces: &[Piece],
    replies: &mut [Reply],
    out: &mut Buffers,
) -> Reply {
    let mut reply = Reply::default();
    unsafe {
        mbe_c_expand_each(
            request,
            grammar.as_ptr().cast(),
            grammar.len(),
            definition.text.as_ptr().cast(),
            definition.text.len(),
            definition.tokens.as_ptr(),
            definition.tokens.len(),
            arguments.text.as_ptr().cast(),
            arguments.text.len(),
            arguments.tokens.as_ptr(),
            arguments.tokens.len(),
            pieces.as_ptr(),
            pieces.len(),
            replies.as_mut_ptr(),
            replies.len(),
            out.tokens.as_mut_ptr(),
            out.tokens.len(),
            out.text.as_mut_ptr().cast(),
            out.text.len(),
            out.message.as_mut_ptr().cast(),
            out.message.len(),
            &mut reply,
        )
    };
    reply
}

/// `mbe_explain`.
pub fn explain(
    request: &Request,
    grammar: &[u8],
    definition: Bytes,
    argument: Bytes,
    out: &mut Buffers,
) -> Reply {
    let mut reply = Reply::default();
    unsafe {
        mbe_c_explain(
            request,
            grammar.as_ptr().cast(),
            grammar.len(),
            definition.text.as_ptr().cast(),
            definition.text.len(),
            definition.tokens.as_ptr(),
            definition.tokens.len(),
            argument.text.as_ptr().cast(),
            argument.text.len(),
            argument.tokens.as_ptr(),
            argument.tokens.len(),
            out.verdicts.as_mut_ptr(),
            out.verdicts.len(),
            out.message.as_mut_ptr().cast(),
            out.message.len(),
            &mut reply,
        )
    };
    reply
}

/// `mbe_convert`.
pub fn convert(request: &Request, input: Bytes, out: &mut Buffers) -> Reply {
    let mut reply = Reply::default();
    unsafe {
        mbe_c_convert(
            request,
            input.text.as_ptr().cast(),
            input.text.len(),
            input.tokens.as_ptr(),
            input.tokens.len(),
            out.tokens.as_mut_ptr(),
            out.tokens.len(),
            out.text.as_mut_ptr().cast(),
            out.text.len(),
            out.message.as_mut_ptr().cast(),
            out.message.len(),
            &mut reply,
        )
    };
    reply
}

/// `mbe_define`.
pub fn define(request: &Request, definition: Bytes, out: &mut Buffers) -> Reply {
    let mut reply = Reply::default();
    unsafe {
        mbe_c_define(
            request,
            definition.text.as_ptr().cast(),
            definition.text.len(),
            definition.tokens.as_ptr(),
            definition.tokens.len(),
            out.message.as_mut_ptr().cast(),
            out.message.len(),
            &mut reply,
        )
    };
    reply
}

/// `mbe_grammar`.
pub fn grammar(text: &[u8], out: &mut Buffers) -> Reply {
    let mut reply = Reply::default();
    unsafe {
        mbe_c_grammar(
            text.as_ptr().cast(),
            text.len(),
            out.message.as_mut_ptr().cast(),
            out.message.len(),
            &mut reply,
        )
    };
    reply
}

impl Default for Macro {
    fn default() -> Macro {
        Macro { at: std::ptr::null_mut(), state: 0 }
    }
}

impl Macro {
    /// `mbe_macro_read`.
    pub fn read(
        &mut self,
        request: &Request,
        grammar: &[u8],
        definition: Bytes,
        out: &mut Buffers,
    ) -> Reply {
        let mut reply = Reply::default();
        unsafe {
            mbe_c_macro_read(
                request,
                grammar.as_ptr().cast(),
                grammar.len(),
                definition.text.as_ptr().cast(),
                definition.text.len(),
                definition.tokens.as_ptr(),
                definition.tokens.len(),
                self,
                out.message.as_mut_ptr().cast(),
                out.message.len(),
                &mut reply,
            )
        };
        reply
    }

    /// `mbe_macro_expand`.
    pub fn expand(&mut self, call: &Call, argument: Bytes, out: &mut Buffers) -> Reply {
        let mut reply = Reply::default();
        unsafe {
            mbe_c_macro_expand(
                self,
                call,
                argument.text.as_ptr().cast(),
                argument.text.len(),
                argument.tokens.as_ptr(),
                argument.tokens.len(),
                out.tokens.as_mut_ptr(),
                out.tokens.len(),
                out.text.as_mut_ptr().cast(),
                out.text.len(),
                out.message.as_mut_ptr().cast(),
                out.message.len(),
                &mut reply,
            )
        };
        reply
    }

    /// `mbe_macro_free`: 0, or 12 where it has none. A drop does it too.
    pub fn free(&mut self) -> u32 {
        unsafe { mbe_c_macro_free(self) }
    }
}

impl Drop for Macro {
    fn drop(&mut self) {
        self.free();
    }
}
