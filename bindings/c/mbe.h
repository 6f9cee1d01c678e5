/* The macro expander `mbe` for C99 and C++. docs/C.md shows a first program.
 *
 * A call takes its inputs as pointers and lengths, and writes into memory of the caller. It parses its definition, and keeps nothing. Two
 * calls avoid parsing a definition again: `mbe_expand_each` parses it once for many arguments, and `mbe_macro_read` once for many calls. An
 * `mbe_macro` keeps the definition until `mbe_macro_free`, on one thread.
 *
 * Threads: a call may run on any thread, and any number of calls at once, if no two of them write the same memory. Don't call from a signal
 * handler.
 *
 * Memory: a call requests memory by `malloc`, and frees it before it returns, except what an `mbe_macro` keeps.
 *
 * Errors: no input can crash a call. A status says what is wrong, with the part at fault, the place and a message. If a buffer is too
 * small, it is unchanged, the status is MBE_NO_ROOM, and the reply says how much room is needed. A message without room changes no status.
 *
 * Pointers: a pointer may be null if its length is 0. Any other null pointer is MBE_NULL_POINTER. Nothing checks these three requirements:
 *   - what a call writes overlaps nothing else of the call;
 *   - a pointer points to as many elements as its length says;
 *   - a pointer is aligned for its type.
 */
#ifndef MBE_H
#define MBE_H

#include <stddef.h>
#include <stdint.h>
#include <string.h>

#ifdef __cplusplus
extern "C" {
#endif

/* The version of this interface. `mbe_version` returns the same number if the library fits this file. */
#define MBE_VERSION 3u

/* How a call ended. */
typedef enum mbe_status {
    MBE_DONE = 0,           /* the answer is whole */
    MBE_FAULTED = 1,        /* the expansion has an error (message, span); the tree is the partial expansion */
    MBE_REFUSED = 2,        /* the definition has a fault (message) */
    MBE_BAD_NUMBER = 3,     /* a number of the request stands for nothing */
    MBE_NOT_UTF8 = 4,       /* a text is not UTF-8 (part) */
    MBE_TOO_LONG = 5,       /* a text has 2^32 bytes or more (part) */
    MBE_NO_TOKENS = 6,      /* a text can't be lexed (part, place: the byte, message) */
    MBE_NO_TREES = 7,       /* flat tokens are not trees (part, place: the token, message) */
    MBE_NO_GRAMMAR = 8,     /* the text of a grammar has a fault (place: the line, column, message) */
    MBE_OUT_OF_MEMORY = 9,
    MBE_NO_ROOM = 10,       /* a buffer is too small; the reply says what is needed */
    MBE_NULL_POINTER = 11,  /* a pointer is null and its length isn't 0, or the request, call, macro or reply is null */
    MBE_NO_MACRO = 12,      /* an `mbe_macro` is empty: none was read into it, or it was freed */
    MBE_HAS_MACRO = 13      /* the `mbe_macro` of `mbe_macro_read` isn't empty; free it first */
} mbe_status;

/* Which part of a call is at fault. */
typedef enum mbe_part { MBE_NO_PART = 0, MBE_DEFINITION = 1, MBE_ARGUMENT = 2, MBE_GRAMMAR = 3 } mbe_part;

/* Values of `mbe_token.kind`. */
typedef enum mbe_kind { MBE_IDENT = 1, MBE_PUNCT = 2, MBE_LITERAL = 3, MBE_OPENING = 4, MBE_CLOSING = 5 } mbe_kind;

/* Values of `mbe_token.sort` for a literal. */
typedef enum mbe_literal {
    MBE_BYTE = 0, MBE_CHAR = 1, MBE_INTEGER = 2, MBE_FLOAT = 3, MBE_STR = 4, MBE_STR_RAW = 5, MBE_BYTE_STR = 6,
    MBE_BYTE_STR_RAW = 7, MBE_C_STR = 8, MBE_C_STR_RAW = 9, MBE_ERR = 10
} mbe_literal;

/* Values of `mbe_token.sort` for an opening and a closing. */
typedef enum mbe_delimiter { MBE_PARENTHESIS = 0, MBE_BRACE = 1, MBE_BRACKET = 2, MBE_INVISIBLE = 3 } mbe_delimiter;

/* Values of `mbe_token.sort` for a punct: whether the next punct follows it at once. */
typedef enum mbe_spacing { MBE_ALONE = 0, MBE_JOINT = 1 } mbe_spacing;

/* Values of `mbe_verdict.kind`. */
typedef enum mbe_reading { MBE_ONE_READING = 0, MBE_MANY_READINGS = 1, MBE_AMBIGUOUS = 2, MBE_STUCK = 3 } mbe_reading;

/* Values of `mbe_request.dialect`: which tokens texts have. */
typedef enum mbe_dialect { MBE_DIALECT_SAMPLE = 0, MBE_DIALECT_RUST = 1 } mbe_dialect;

/* Values of `mbe_request.grammar`: which fragments there are. The third grammar is parsed from the text of the call. */
typedef enum mbe_grammar_kind { MBE_GRAMMAR_SAMPLE = 0, MBE_GRAMMAR_RUST = 1, MBE_GRAMMAR_TEXT = 2 } mbe_grammar_kind;

/* Values of `mbe_request.style`: `name!(..)`, `#[name]`, `#[derive(Name)]`. */
typedef enum mbe_style { MBE_FN_LIKE = 0, MBE_ATTR = 1, MBE_DERIVE = 2 } mbe_style;

/* Values of `mbe_request.form`: how trees are written. As flat tokens and their text; as a line for each group and leaf; as Rust text. */
typedef enum mbe_form { MBE_TOKENS = 0, MBE_LINES = 1, MBE_RUST = 2 } mbe_form;

/* Where a token is. `file` and `ast` are numbers of the caller, `start` and `end` are bytes, `context` is the syntax context. */
typedef struct mbe_span { uint32_t file, ast, start, end, context; } mbe_span;

/* A leaf, an opening or a closing. The tokens of a call are one group: an opening, the content, and its closing.
 *   kind        mbe_kind
 *   sort        identifier: 1 if it is raw (`r#a`), else 0; punct: mbe_spacing; literal: mbe_literal; opening and closing: mbe_delimiter
 *   character   punct: its Unicode scalar value
 *   hashes      raw string: the number of `#` around it, at most 255
 *   suffix_len  literal: how many bytes of its text are the suffix, at most 255
 *   offset, len identifier (without `r#`) and literal (without its quotes, with its suffix): the bytes of its text, in the text beside the
 *               tokens; opening: `len` is the number of tokens inside
 * A field that isn't named for a kind is written as 0 and isn't read. `len` of an opening isn't read either. */
typedef struct mbe_token {
    uint32_t kind, sort, character, hashes, suffix_len;
    mbe_span span;
    size_t offset, len;
} mbe_token;

/* The verdict of a rule on an argument. `place` is a token offset, for MBE_AMBIGUOUS and MBE_STUCK. */
typedef struct mbe_verdict { size_t kind, place; } mbe_verdict;

/* A request. `edition` is 2015, 2018, 2021 or 2024. `definition_is_flat` and `argument_is_flat` are 1 for flat tokens and 0 for a text.
 * `call_site` is the span of the call, which the group around an expansion gets. */
typedef struct mbe_request {
    uint32_t edition, dialect, grammar, style, form, definition_is_flat, argument_is_flat;
    mbe_span call_site;
} mbe_request;

/* A reply. The comments on statuses say which fields have a meaning. `tokens`, `text` and `message` are lengths, also if there is no room. */
typedef struct mbe_reply {
    uint32_t status, part, has_rule, rule;
    mbe_span span;
    uint32_t column;
    size_t place, tokens, text, message;
} mbe_reply;

/* An input: the bytes of a text, or flat tokens and the bytes of their texts. */
typedef struct mbe_input { const char *text; size_t text_len; const mbe_token *tokens; size_t token_len; } mbe_input;

/* One of many arguments: `len` bytes of their text from `offset` on, `token_len` of their tokens from `token_offset` on, and the span of
 * its call. Pieces may overlap. The flat tokens of a piece are one group, whose texts are in the text of the piece. */
typedef struct mbe_piece { size_t offset, len, token_offset, token_len; mbe_span call_site; } mbe_piece;

/* A macro that is kept from `mbe_macro_read` to `mbe_macro_free`. Set it to zeros first, as by `mbe_macro it = {0, 0};`, and don't read or
 * write its fields. It is empty before the first `mbe_macro_read`, and after `mbe_macro_free`. A call with an empty one is MBE_NO_MACRO, and
 * so is a second `mbe_macro_free`. You may move it by an assignment, and use only one of the two then; nothing checks that. Nothing checks
 * either that it began with zeros. Make all calls with it on the thread that read it. */
typedef struct mbe_macro { void *at; uint64_t state; } mbe_macro;

/* One call of an `mbe_macro`. Everything else is as in the request that the macro was read for. */
typedef struct mbe_call { uint32_t style, form, argument_is_flat; mbe_span call_site; } mbe_call;

/* Memory of the caller for an answer. */
typedef struct mbe_output {
    mbe_token *tokens; size_t token_room;
    char *text; size_t text_room;
    char *message; size_t message_room;
} mbe_output;

/* ---- the exports of the library. They take no null pointers; call the functions below them instead. */

uint32_t mbe_c_version(void);
uint32_t mbe_c_expand(const mbe_request *request, const char *grammar, size_t grammar_len, const char *definition,
    size_t definition_len, const mbe_token *definition_tokens, size_t definition_token_len, const char *argument,
    size_t argument_len, const mbe_token *argument_tokens, size_t argument_token_len, mbe_token *tokens, size_t token_room,
    char *text, size_t text_room, char *message, size_t message_room, mbe_reply *reply);
uint32_t mbe_c_expand_each(const mbe_request *request, const char *grammar, size_t grammar_len, const char *definition,
    size_t definition_len, const mbe_token *definition_tokens, size_t definition_token_len, const char *arguments,
    size_t arguments_len, const mbe_token *argument_tokens, size_t argument_token_len, const mbe_piece *pieces, size_t piece_len,
    mbe_reply *replies, size_t reply_room, mbe_token *tokens, size_t token_room, char *text, size_t text_room, char *message,
    size_t message_room, mbe_reply *reply);
uint32_t mbe_c_explain(const mbe_request *request, const char *grammar, size_t grammar_len, const char *definition,
    size_t definition_len, const mbe_token *definition_tokens, size_t definition_token_len, const char *argument,
    size_t argument_len, const mbe_token *argument_tokens, size_t argument_token_len, mbe_verdict *verdicts, size_t verdict_room,
    char *message, size_t message_room, mbe_reply *reply);
uint32_t mbe_c_convert(const mbe_request *request, const char *input, size_t input_len, const mbe_token *input_tokens,
    size_t input_token_len, mbe_token *tokens, size_t token_room, char *text, size_t text_room, char *message,
    size_t message_room, mbe_reply *reply);
uint32_t mbe_c_define(const mbe_request *request, const char *definition, size_t definition_len,
    const mbe_token *definition_tokens, size_t definition_token_len, char *message, size_t message_room, mbe_reply *reply);
uint32_t mbe_c_grammar(const char *grammar, size_t grammar_len, char *message, size_t message_room, mbe_reply *reply);
uint32_t mbe_c_macro_read(const mbe_request *request, const char *grammar, size_t grammar_len, const char *definition,
    size_t definition_len, const mbe_token *definition_tokens, size_t definition_token_len, mbe_macro *macro, char *message,
    size_t message_room, mbe_reply *reply);
uint32_t mbe_c_macro_expand(mbe_macro *macro, const mbe_call *call, const char *argument, size_t argument_len,
    const mbe_token *argument_tokens, size_t argument_token_len, mbe_token *tokens, size_t token_room, char *text, size_t text_room,
    char *message, size_t message_room, mbe_reply *reply);
uint32_t mbe_c_macro_free(mbe_macro *macro);

/* ---- null pointers */

/* The pointer, or `empty` for a null pointer. */
static inline void *mbe_or_empty(const void *pointer, void *empty) { return pointer ? (void *)(uintptr_t)pointer : empty; }

static inline int mbe_is_null(const void *pointer, size_t len) { return !pointer && len != 0; }

static inline int mbe_null_input(const mbe_input *input) {
    return mbe_is_null(input->text, input->text_len) || mbe_is_null(input->tokens, input->token_len);
}

static inline int mbe_null_output(const mbe_output *out) {
    return mbe_is_null(out->tokens, out->token_room) || mbe_is_null(out->text, out->text_room)
        || mbe_is_null(out->message, out->message_room);
}

/* ---- the calls */

/* Returns a short English text for a status, which is never null and never freed. */
static inline const char *mbe_status_text(mbe_status status) {
    switch (status) {
    case MBE_DONE: return "done";
    case MBE_FAULTED: return "the expansion has an error";
    case MBE_REFUSED: return "the definition has a fault";
    case MBE_BAD_NUMBER: return "a number of the request stands for nothing";
    case MBE_NOT_UTF8: return "a text is not UTF-8";
    case MBE_TOO_LONG: return "a text has 2^32 bytes or more";
    case MBE_NO_TOKENS: return "a text can't be lexed";
    case MBE_NO_TREES: return "flat tokens are not trees";
    case MBE_NO_GRAMMAR: return "the text of the grammar has a fault";
    case MBE_OUT_OF_MEMORY: return "out of memory";
    case MBE_NO_ROOM: return "a buffer is too small";
    case MBE_NULL_POINTER: return "a pointer is null";
    case MBE_NO_MACRO: return "the macro is empty";
    case MBE_HAS_MACRO: return "the macro isn't empty";
    }
    return "unknown status";
}

/* Returns a request for a call `name!(..)` in edition 2024, with the tokens and the fragments of Rust. The inputs are texts. */
static inline mbe_request mbe_rust_request(mbe_form form) {
    mbe_request request = {2024, MBE_DIALECT_RUST, MBE_GRAMMAR_RUST, MBE_FN_LIKE, 0, 0, 0, {0, 0, 0, 0, 0}};
    request.form = (uint32_t)form;
    return request;
}

/* Returns the input of a text that ends in a zero byte. */
static inline mbe_input mbe_text(const char *text) {
    mbe_input input = {text, 0, NULL, 0};
    if (text) input.text_len = strlen(text);
    return input;
}

/* Returns the version of the library. Compare it with MBE_VERSION. */
static inline uint32_t mbe_version(void) { return mbe_c_version(); }

/* Expands the argument by the definition. `grammar` is read only if the request's grammar is MBE_GRAMMAR_TEXT. In the spans of lexed texts
 * the definition is file 0 and the argument is file 1. If `reply->has_rule` is 1, `reply->rule` is the index of the rule. */
static inline mbe_status mbe_expand(const mbe_request *request, const char *grammar, size_t grammar_len, mbe_input definition,
    mbe_input argument, mbe_output out, mbe_reply *reply) {
    static mbe_token empty;
    if (!request || !reply || mbe_is_null(grammar, grammar_len) || mbe_null_input(&definition) || mbe_null_input(&argument)
        || mbe_null_output(&out)) return MBE_NULL_POINTER;
    return (mbe_status)mbe_c_expand(request, (const char *)mbe_or_empty(grammar, &empty), grammar_len,
        (const char *)mbe_or_empty(definition.text, &empty), definition.text_len,
        (const mbe_token *)mbe_or_empty(definition.tokens, &empty), definition.token_len,
        (const char *)mbe_or_empty(argument.text, &empty), argument.text_len,
        (const mbe_token *)mbe_or_empty(argument.tokens, &empty), argument.token_len,
        (mbe_token *)mbe_or_empty(out.tokens, &empty), out.token_room, (char *)mbe_or_empty(out.text, &empty), out.text_room,
        (char *)mbe_or_empty(out.message, &empty), out.message_room, reply);
}

/* Expands each of `count` arguments by the definition, which is parsed once. `pieces[i]` says which part of `arguments` the argument is, and
 * has the span of its call, which isn't read from the request. `replies[i]` is the reply of `mbe_expand` to this argument alone, except that
 * room isn't counted. A piece that isn't within `arguments` is MBE_BAD_NUMBER of MBE_ARGUMENT. The answers come one after another:
 * `replies[i].tokens`, `.text` and `.message` say how much of each buffer belongs to this answer, after the earlier ones.
 *
 * The status and `*reply` are of the whole. If the definition or the grammar can't be parsed, they say why, and nothing is written for the
 * arguments. Otherwise the status is MBE_DONE, whatever the answers are, or MBE_NO_ROOM, and `*reply` has the lengths of all together. */
static inline mbe_status mbe_expand_each(const mbe_request *request, const char *grammar, size_t grammar_len, mbe_input definition,
    mbe_input arguments, const mbe_piece *pieces, size_t count, mbe_reply *replies, mbe_output out, mbe_reply *reply) {
    static union { mbe_token token; mbe_piece piece; mbe_reply reply; } empty;
    if (!request || !reply || mbe_is_null(grammar, grammar_len) || mbe_null_input(&definition) || mbe_null_input(&arguments)
        || mbe_is_null(pieces, count) || mbe_is_null(replies, count) || mbe_null_output(&out)) return MBE_NULL_POINTER;
    return (mbe_status)mbe_c_expand_each(request, (const char *)mbe_or_empty(grammar, &empty), grammar_len,
        (const char *)mbe_or_empty(definition.text, &empty), definition.text_len,
        (const mbe_token *)mbe_or_empty(definition.tokens, &empty), definition.token_len,
        (const char *)mbe_or_empty(arguments.text, &empty), arguments.text_len,
        (const mbe_token *)mbe_or_empty(arguments.tokens, &empty), arguments.token_len,
        (const mbe_piece *)mbe_or_empty(pieces, &empty), count, (mbe_reply *)mbe_or_empty(replies, &empty), count,
        (mbe_token *)mbe_or_empty(out.tokens, &empty), out.token_room, (char *)mbe_or_empty(out.text, &empty), out.text_room,
        (char *)mbe_or_empty(out.message, &empty), out.message_room, reply);
}

/* Writes the verdict of each rule on the argument, for rules of every style, in order. `reply->tokens` is their number. */
static inline mbe_status mbe_explain(const mbe_request *request, const char *grammar, size_t grammar_len, mbe_input definition,
    mbe_input argument, mbe_verdict *verdicts, size_t verdict_room, char *message, size_t message_room, mbe_reply *reply) {
    static mbe_token empty;
    if (!request || !reply || mbe_is_null(grammar, grammar_len) || mbe_null_input(&definition) || mbe_null_input(&argument)
        || mbe_is_null(verdicts, verdict_room) || mbe_is_null(message, message_room)) return MBE_NULL_POINTER;
    return (mbe_status)mbe_c_explain(request, (const char *)mbe_or_empty(grammar, &empty), grammar_len,
        (const char *)mbe_or_empty(definition.text, &empty), definition.text_len,
        (const mbe_token *)mbe_or_empty(definition.tokens, &empty), definition.token_len,
        (const char *)mbe_or_empty(argument.text, &empty), argument.text_len,
        (const mbe_token *)mbe_or_empty(argument.tokens, &empty), argument.token_len,
        (mbe_verdict *)mbe_or_empty(verdicts, &empty), verdict_room, (char *)mbe_or_empty(message, &empty), message_room, reply);
}

/* Parses a definition into an empty macro. `grammar` is read only if the request's grammar is MBE_GRAMMAR_TEXT. The status is MBE_DONE, and
 * `reply->place` is the number of rules. Otherwise it is the status of `mbe_expand` for that definition, or MBE_HAS_MACRO, and the macro is
 * unchanged. The request's style, form, argument_is_flat and call_site have no effect here, but a style or a form that stands for nothing is
 * MBE_BAD_NUMBER. After the call, the memory of the inputs isn't needed. */
static inline mbe_status mbe_macro_read(const mbe_request *request, const char *grammar, size_t grammar_len, mbe_input definition,
    mbe_macro *macro, char *message, size_t message_room, mbe_reply *reply) {
    static mbe_token empty;
    if (!request || !macro || !reply || mbe_is_null(grammar, grammar_len) || mbe_null_input(&definition)
        || mbe_is_null(message, message_room)) return MBE_NULL_POINTER;
    return (mbe_status)mbe_c_macro_read(request, (const char *)mbe_or_empty(grammar, &empty), grammar_len,
        (const char *)mbe_or_empty(definition.text, &empty), definition.text_len,
        (const mbe_token *)mbe_or_empty(definition.tokens, &empty), definition.token_len, macro,
        (char *)mbe_or_empty(message, &empty), message_room, reply);
}

/* Expands the argument by a kept macro. The answer is the answer of `mbe_expand` to the definition and the request that the macro was read
 * for, with the fields of the call. The rules aren't parsed again; the text of a grammar is. MBE_NO_MACRO if the macro is empty. */
static inline mbe_status mbe_macro_expand(mbe_macro *macro, const mbe_call *call, mbe_input argument, mbe_output out, mbe_reply *reply) {
    static mbe_token empty;
    if (!macro || !call || !reply || mbe_null_input(&argument) || mbe_null_output(&out)) return MBE_NULL_POINTER;
    return (mbe_status)mbe_c_macro_expand(macro, call, (const char *)mbe_or_empty(argument.text, &empty), argument.text_len,
        (const mbe_token *)mbe_or_empty(argument.tokens, &empty), argument.token_len,
        (mbe_token *)mbe_or_empty(out.tokens, &empty), out.token_room, (char *)mbe_or_empty(out.text, &empty), out.text_room,
        (char *)mbe_or_empty(out.message, &empty), out.message_room, reply);
}

/* Frees a kept macro: MBE_DONE, or MBE_NO_MACRO if it is empty. Then it is empty, and you may read another definition into it. */
static inline mbe_status mbe_macro_free(mbe_macro *macro) {
    return macro ? (mbe_status)mbe_c_macro_free(macro) : MBE_NULL_POINTER;
}

/* Writes the trees of an input in another form: a text as flat tokens, or either one as lines or as Rust text. `argument_is_flat` says which
 * one the input is. */
static inline mbe_status mbe_convert(const mbe_request *request, mbe_input input, mbe_output out, mbe_reply *reply) {
    static mbe_token empty;
    if (!request || !reply || mbe_null_input(&input) || mbe_null_output(&out)) return MBE_NULL_POINTER;
    return (mbe_status)mbe_c_convert(request, (const char *)mbe_or_empty(input.text, &empty), input.text_len,
        (const mbe_token *)mbe_or_empty(input.tokens, &empty), input.token_len, (mbe_token *)mbe_or_empty(out.tokens, &empty),
        out.token_room, (char *)mbe_or_empty(out.text, &empty), out.text_room, (char *)mbe_or_empty(out.message, &empty),
        out.message_room, reply);
}

/* Checks a definition. `reply->place` is the number of its rules, or the message says what is wrong. */
static inline mbe_status mbe_define(const mbe_request *request, mbe_input definition, char *message, size_t message_room,
    mbe_reply *reply) {
    static mbe_token empty;
    if (!request || !reply || mbe_null_input(&definition) || mbe_is_null(message, message_room)) return MBE_NULL_POINTER;
    return (mbe_status)mbe_c_define(request, (const char *)mbe_or_empty(definition.text, &empty), definition.text_len,
        (const mbe_token *)mbe_or_empty(definition.tokens, &empty), definition.token_len,
        (char *)mbe_or_empty(message, &empty), message_room, reply);
}

/* Checks the text of a grammar. If it has a fault, `reply->place` is the line, and `reply->column` the column. */
static inline mbe_status mbe_grammar(const char *grammar, size_t grammar_len, char *message, size_t message_room,
    mbe_reply *reply) {
    static mbe_token empty;
    if (!reply || mbe_is_null(grammar, grammar_len) || mbe_is_null(message, message_room)) return MBE_NULL_POINTER;
    return (mbe_status)mbe_c_grammar((const char *)mbe_or_empty(grammar, &empty), grammar_len,
        (char *)mbe_or_empty(message, &empty), message_room, reply);
}

#ifdef __cplusplus
}
#endif

#endif
