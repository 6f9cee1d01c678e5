/* Tests of the calls from C: a line for each that fails, and `N passed, M failed`. It compiles as C99 and as C++. */
#include "../mbe.h"

#include <stdio.h>
#include <stdlib.h>
#include <string.h>

static int passed, failed;

static void check(int holds, const char *name) {
    if (holds) { passed++; return; }
    failed++;
    printf("failed: %s\n", name);
}

static mbe_token tokens[4096];
static char text[65536], message[1024];
static mbe_reply reply;

static mbe_input words(const char *s) {
    mbe_input input = {s, strlen(s), NULL, 0};
    return input;
}

static mbe_output room(void) {
    mbe_output out = {tokens, 4096, text, sizeof text, message, sizeof message};
    return out;
}

static mbe_request asked(uint32_t form) {
    mbe_request request;
    memset(&request, 0, sizeof request);
    request.edition = 2024;
    request.form = form;
    return request;
}

static int text_is(const char *s) { return reply.text == strlen(s) && memcmp(text, s, reply.text) == 0; }

static int message_is(const char *s) { return reply.message == strlen(s) && memcmp(message, s, reply.message) == 0; }

/* Rows of docs: a definition, an argument, the expansion as Rust text, and the index of the rule. */
static const struct { const char *definition, *argument, *expansion; uint32_t rule; } rows[] = {
    {"($x:ident) => {$x $x}", "a", "a a", 0},
    {"($($x:ident),*) => {[$($x);*]}", "a, b, c", "[a; b; c]", 0},
    {"() => {none}; ($e:expr) => {one}", "1 + 2", "one", 1},
    {"() => {none}; ($e:expr) => {one}", "", "none", 0},
    {"(a $x:tt) => {$x}", "a (b c)", "(b c)", 0},
    {"($x:literal) => {$x}", "1u8", "1u8", 0},
};

static void expansions(void) {
    mbe_request request = asked(MBE_RUST);
    for (size_t i = 0; i < sizeof rows / sizeof *rows; i++) {
        mbe_status status = mbe_expand(&request, NULL, 0, words(rows[i].definition), words(rows[i].argument), room(), &reply);
        check(status == MBE_DONE && text_is(rows[i].expansion), rows[i].definition);
        check(reply.has_rule == 1 && reply.rule == rows[i].rule, "the rule");
    }
}

/* The rows of one definition at once, and what is wrong with pieces: each reply is that of `mbe_expand`, with what is needed. */
static void many_arguments(void) {
    static const char *const definition = "($x:ident) => {$x $x}; ($($x:ident),*) => {[$($x);*]}; ($x:literal) => {$x $x $x}";
    static const char all[] = "a|b,c|1u8|+|)|\xff|";
    static const struct { size_t offset, len; uint32_t status; const char *text; } wanted[] = {
        {0, 1, MBE_DONE, "a a"}, {2, 3, MBE_DONE, "[b; c]"}, {6, 3, MBE_DONE, "1u8 1u8 1u8"}, {1, 0, MBE_DONE, "[]"},
        {10, 1, MBE_FAULTED, NULL}, {12, 1, MBE_NO_TOKENS, ""}, {14, 1, MBE_NOT_UTF8, ""}, {15, 2, MBE_BAD_NUMBER, ""},
        {SIZE_MAX, 1, MBE_BAD_NUMBER, ""}, {1, SIZE_MAX, MBE_BAD_NUMBER, ""}, {0, 1, MBE_DONE, "a a"},
    };
    enum { COUNT = sizeof wanted / sizeof *wanted };
    static mbe_piece pieces[COUNT];
    static mbe_reply replies[COUNT];
    mbe_request request = asked(MBE_RUST);
    mbe_input arguments = {all, sizeof all - 1, NULL, 0};
    size_t at = 0, said = 0;
    for (size_t i = 0; i < COUNT; i++) {
        pieces[i].offset = wanted[i].offset;
        pieces[i].len = wanted[i].len;
        pieces[i].call_site.file = 7;
        pieces[i].call_site.start = (uint32_t)i;
    }
    check(mbe_expand_each(&request, NULL, 0, words(definition), arguments, pieces, COUNT, replies, room(), &reply) == MBE_DONE, "many arguments");
    check(reply.place == COUNT, "how many");
    for (size_t i = 0; i < COUNT; i++) {
        check(replies[i].status == wanted[i].status, "the status of one");
        const char *its = wanted[i].text;
        check(!its || (replies[i].text == strlen(its) && memcmp(text + at, its, replies[i].text) == 0), "the text of one");
        at += replies[i].text;
        said += replies[i].message;
    }
    check(at == reply.text && said == reply.message, "how much they are");
    check(replies[1].has_rule == 1 && replies[1].rule == 1 && replies[2].rule == 2, "their rules");
    check(replies[7].part == MBE_ARGUMENT && replies[5].part == MBE_ARGUMENT && replies[5].place == 0, "their parts");
    memset(text, 1, 64);
    mbe_output little = {NULL, 0, text, at - 1, NULL, 0};
    check(mbe_expand_each(&request, NULL, 0, words(definition), arguments, pieces, COUNT, replies, little, &reply) == MBE_NO_ROOM
        && reply.text == at && text[0] == 1 && text[at - 2] == 1, "one byte too few for all");
    mbe_output exact = {NULL, 0, text, at, NULL, 0};
    check(mbe_expand_each(&request, NULL, 0, words(definition), arguments, pieces, COUNT, replies, exact, &reply) == MBE_DONE
        && reply.message == said, "as many bytes as needed, and no room for messages");
    check(mbe_expand_each(&request, NULL, 0, words(definition), arguments, NULL, 0, NULL, exact, &reply) == MBE_DONE && reply.place == 0
        && reply.text == 0, "no arguments");
    check(mbe_c_expand_each(&request, "", 0, definition, strlen(definition), tokens, 0, all, sizeof all - 1, tokens, 0, pieces, COUNT, replies,
        COUNT - 1, tokens, 4096, text, at, message, 0, &reply) == MBE_NO_ROOM && reply.place == COUNT, "one reply too few");
}

/* One argument of many is answered as it is alone, with its call site. */
static void each_as_alone(void) {
    static const char *const definition = "($($x:tt)*) => {$($x)*}; (a) => {b}";
    static mbe_token lexed[64], alone[256];
    static char lexed_text[64], alone_text[1024];
    mbe_request request = asked(MBE_TOKENS);
    mbe_output out = {lexed, 64, lexed_text, sizeof lexed_text, NULL, 0};
    check(mbe_convert(&request, words("a (b 1u8)"), out, &reply) == MBE_DONE, "an argument to tokens");
    mbe_input arguments = {lexed_text, reply.text, lexed, reply.tokens};
    mbe_piece pieces[3] = {{0, reply.text, 0, reply.tokens, {9, 0, 3, 4, 0}}, {0, reply.text, 1, 3, {0, 0, 0, 0, 0}},
        {0, reply.text, 2, 4, {9, 1, 5, 6, 2}}};
    mbe_reply replies[3];
    request.argument_is_flat = 1;
    mbe_output one = {alone, 256, alone_text, sizeof alone_text, NULL, 0};
    check(mbe_expand_each(&request, NULL, 0, words(definition), arguments, pieces, 3, replies, room(), &reply) == MBE_DONE, "flat arguments");
    size_t token = 0, byte = 0;
    for (int i = 0; i < 3; i++) {
        mbe_input argument = {lexed_text + pieces[i].offset, pieces[i].len, lexed + pieces[i].token_offset, pieces[i].token_len};
        mbe_reply its;
        request.call_site = pieces[i].call_site;
        mbe_status status = mbe_expand(&request, NULL, 0, words(definition), argument, one, &its);
        check(status == replies[i].status && memcmp(&its, &replies[i], sizeof its) == 0, "a reply as alone");
        check(memcmp(alone, tokens + token, its.tokens * sizeof *alone) == 0 && memcmp(alone_text, text + byte, its.text) == 0, "an answer as alone");
        token += its.tokens;
        byte += its.text;
    }
    check(replies[0].status == MBE_DONE && replies[1].status == MBE_NO_TREES && replies[2].status == MBE_DONE, "what they are");
    check(tokens[0].span.file == 9 && tokens[0].span.start == 3, "the first site");
}

/* A macro that is read once is expanded as by `mbe_expand`, in each form and with each style, and from text and from tokens. */
static void kept_as_alone(void) {
    static const char *const definition = "($x:ident) => {$x $x}; attr() ($($x:tt)*) => {[$($x);*]}; ($e:expr) => {$e + 1}";
    static const char *const arguments[] = {"a", "b + 2", "", "1u8", ")", "\xff", "r#fn"};
    static mbe_token lexed[64], alone[256];
    static char lexed_text[64], alone_text[4096], alone_message[256];
    mbe_macro macro = {NULL, 0};
    mbe_request request = asked(MBE_TOKENS);
    mbe_output out = {lexed, 64, lexed_text, sizeof lexed_text, NULL, 0};
    mbe_output one = {alone, 256, alone_text, sizeof alone_text, alone_message, sizeof alone_message};
    check(mbe_convert(&request, words("a (b 1u8)"), out, &reply) == MBE_DONE, "an argument to tokens");
    mbe_input flat = {lexed_text, reply.text, lexed, reply.tokens};
    check(mbe_macro_read(&request, NULL, 0, words(definition), &macro, message, sizeof message, &reply) == MBE_DONE && reply.place == 3
        && reply.message == 0, "a macro is read");
    for (size_t i = 0; i < 3 * 4 * (1 + sizeof arguments / sizeof *arguments); i++) {
        size_t which = i / 12;
        mbe_input argument = which ? words(arguments[which - 1]) : flat;
        mbe_call call = {(uint32_t)(i % 3), (uint32_t)(i / 3 % 4), !which, {9, 1, 2, (uint32_t)i, 4}};
        mbe_reply its;
        request.style = call.style;
        request.form = call.form;
        request.argument_is_flat = call.argument_is_flat;
        request.call_site = call.call_site;
        mbe_status status = mbe_expand(&request, NULL, 0, words(definition), argument, one, &its);
        check(mbe_macro_expand(&macro, &call, argument, room(), &reply) == status && memcmp(&its, &reply, sizeof its) == 0, "a reply as alone");
        check(memcmp(alone, tokens, its.tokens * sizeof *alone) == 0 && memcmp(alone_text, text, its.text) == 0
            && memcmp(alone_message, message, its.message) == 0, "an answer as alone");
    }
    check(mbe_macro_free(&macro) == MBE_DONE, "it is freed");
}

/* A macro that wasn't read, one that was freed, and one into which another is read, are refused by name. */
static void kept_macros(void) {
    mbe_request request = asked(MBE_RUST);
    mbe_call call = {MBE_FN_LIKE, MBE_RUST, 0, {0, 0, 0, 0, 0}}, unknown = {3, MBE_RUST, 0, {0, 0, 0, 0, 0}};
    mbe_macro macro = {NULL, 0}, moved, many[3] = {{NULL, 0}, {NULL, 0}, {NULL, 0}};
    check(mbe_macro_expand(&macro, &call, words("a"), room(), &reply) == MBE_NO_MACRO && reply.status == MBE_NO_MACRO && reply.text == 0,
        "one that was never read");
    check(mbe_macro_free(&macro) == MBE_NO_MACRO, "one that was never read is freed");
    check(mbe_macro_read(&request, NULL, 0, words("($x) => {}"), &macro, message, sizeof message, &reply) == MBE_REFUSED
        && message_is("missing fragment specifier") && reply.part == MBE_DEFINITION, "a refused definition is not read");
    check(mbe_macro_read(&request, NULL, 0, words("\xff"), &macro, NULL, 0, &reply) == MBE_NOT_UTF8 && reply.part == MBE_DEFINITION,
        "a definition to be read that is not UTF-8");
    check(mbe_macro_read(&request, NULL, 0, words("() => {)"), &macro, NULL, 0, &reply) == MBE_NO_TOKENS, "one that is not lexed");
    request.edition = 1;
    check(mbe_macro_read(&request, NULL, 0, words(""), &macro, NULL, 0, &reply) == MBE_BAD_NUMBER, "one of no edition");
    check(macro.state == 0 && mbe_macro_free(&macro) == MBE_NO_MACRO, "nothing was read");
    request = asked(MBE_RUST);
    char rules[] = "($x:ident) => {$x $x}; (+) => {}";
    check(mbe_macro_read(&request, NULL, 0, words(rules), &macro, message, sizeof message, &reply) == MBE_DONE && reply.place == 2, "two rules are read");
    memset(rules, 'z', sizeof rules - 1);
    check(mbe_macro_expand(&macro, &call, words("a"), room(), &reply) == MBE_DONE && text_is("a a") && reply.rule == 0, "its first expansion");
    check(mbe_macro_expand(&macro, &call, words("1"), room(), &reply) == MBE_FAULTED && message_is("expected ident"), "a fault");
    check(mbe_macro_expand(&macro, &call, words(")"), room(), &reply) == MBE_NO_TOKENS && reply.part == MBE_ARGUMENT, "an argument that is not lexed");
    check(mbe_macro_expand(&macro, &unknown, words("a"), room(), &reply) == MBE_BAD_NUMBER, "a style that is none");
    mbe_output little = {NULL, 0, text, 2, NULL, 0};
    text[0] = 9;
    check(mbe_macro_expand(&macro, &call, words("b"), little, &reply) == MBE_NO_ROOM && reply.text == 3 && text[0] == 9, "one byte too few for one");
    check(mbe_macro_read(&request, NULL, 0, words("() => {}"), &macro, message, sizeof message, &reply) == MBE_HAS_MACRO, "another is not read into it");
    moved = macro;
    check(mbe_macro_expand(&moved, &call, words("c"), room(), &reply) == MBE_DONE && text_is("c c"), "its second expansion, after a move");
    check(mbe_macro_free(&moved) == MBE_DONE && mbe_macro_free(&moved) == MBE_NO_MACRO, "freed twice");
    check(mbe_macro_expand(&moved, &call, words("a"), room(), &reply) == MBE_NO_MACRO, "expanded after it is freed");
    check(mbe_macro_read(&request, NULL, 0, words("() => {x}"), &moved, NULL, 0, &reply) == MBE_DONE
        && mbe_macro_expand(&moved, &call, words(""), room(), &reply) == MBE_DONE && text_is("x") && mbe_macro_free(&moved) == MBE_DONE, "read again");
    for (int i = 0; i < 3; i++) {
        char definition[] = "() => {a}";
        definition[7] = (char)('a' + i);
        check(mbe_macro_read(&request, NULL, 0, words(definition), &many[i], NULL, 0, &reply) == MBE_DONE, "one of several");
    }
    for (int i = 2; i >= 0; i--) {
        char wanted[] = {(char)('a' + i), 0};
        check(mbe_macro_expand(&many[i], &call, words(""), room(), &reply) == MBE_DONE && text_is(wanted) && mbe_macro_free(&many[i]) == MBE_DONE,
            "each of several");
    }
    mbe_input one = {NULL, 1, NULL, 0};
    mbe_output bad = {NULL, 1, NULL, 0, NULL, 0};
    check(mbe_macro_read(NULL, NULL, 0, words(""), &macro, NULL, 0, &reply) == MBE_NULL_POINTER
        && mbe_macro_read(&request, NULL, 1, words(""), &macro, NULL, 0, &reply) == MBE_NULL_POINTER
        && mbe_macro_read(&request, NULL, 0, one, &macro, NULL, 0, &reply) == MBE_NULL_POINTER
        && mbe_macro_read(&request, NULL, 0, words(""), NULL, NULL, 0, &reply) == MBE_NULL_POINTER
        && mbe_macro_read(&request, NULL, 0, words(""), &macro, NULL, 1, &reply) == MBE_NULL_POINTER
        && mbe_macro_read(&request, NULL, 0, words(""), &macro, NULL, 0, NULL) == MBE_NULL_POINTER, "null pointers to read");
    check(mbe_macro_expand(NULL, &call, words(""), room(), &reply) == MBE_NULL_POINTER
        && mbe_macro_expand(&moved, NULL, words(""), room(), &reply) == MBE_NULL_POINTER
        && mbe_macro_expand(&moved, &call, one, room(), &reply) == MBE_NULL_POINTER
        && mbe_macro_expand(&moved, &call, words(""), bad, &reply) == MBE_NULL_POINTER
        && mbe_macro_expand(&moved, &call, words(""), room(), NULL) == MBE_NULL_POINTER, "null pointers to expand");
    check(mbe_macro_free(NULL) == MBE_NULL_POINTER, "a null macro to free");
}

/* A macro keeps the text of its grammar, or Rust's. */
static void kept_grammars(void) {
    char sums[] = "expr = operand ('+' operand!)*\noperand = NAME";
    mbe_request request = asked(MBE_RUST);
    mbe_call call = {MBE_FN_LIKE, MBE_RUST, 0, {0, 0, 0, 0, 0}};
    mbe_macro by_text = {NULL, 0}, of_rust = {NULL, 0};
    request.grammar = MBE_GRAMMAR_TEXT;
    check(mbe_macro_read(&request, "expr = ", 7, words("() => {}"), &by_text, NULL, 0, &reply) == MBE_NO_GRAMMAR && reply.part == MBE_GRAMMAR,
        "no grammar to be kept");
    check(mbe_macro_read(&request, sums, strlen(sums), words("($e:expr) => {sum}"), &by_text, NULL, 0, &reply) == MBE_DONE, "a grammar is kept");
    memset(sums, 0, sizeof sums);
    request.grammar = MBE_GRAMMAR_RUST;
    request.dialect = MBE_DIALECT_RUST;
    check(mbe_macro_read(&request, NULL, 0, words("($t:ty) => {$t}"), &of_rust, NULL, 0, &reply) == MBE_DONE, "whole Rust is read");
    for (int i = 0; i < 2; i++) {
        check(mbe_macro_expand(&by_text, &call, words("a + b"), room(), &reply) == MBE_DONE && text_is("sum"), "a sum by a grammar");
        check(mbe_macro_expand(&by_text, &call, words("a +"), room(), &reply) == MBE_FAULTED, "no sum by a grammar");
        check(mbe_macro_expand(&of_rust, &call, words("Vec<&'a str>"), room(), &reply) == MBE_DONE && text_is("Vec<&'a str>"), "a type of Rust");
    }
    check(mbe_macro_free(&by_text) == MBE_DONE && mbe_macro_free(&of_rust) == MBE_DONE, "both are freed");
}

/* Where no macro is read nothing is written, but why. */
static void unread_macros(void) {
    mbe_request request = asked(MBE_RUST);
    mbe_piece piece = {0, 1, 0, 0, {0, 0, 0, 0, 0}};
    mbe_reply its, before;
    memset(&its, 5, sizeof its);
    before = its;
    text[0] = 9;
    check(mbe_expand_each(&request, NULL, 0, words("($x) => {}"), words("a"), &piece, 1, &its, room(), &reply) == MBE_REFUSED
        && message_is("missing fragment specifier"), "a refused definition of many");
    check(mbe_expand_each(&request, NULL, 0, words("\xff"), words("a"), &piece, 1, &its, room(), &reply) == MBE_NOT_UTF8
        && reply.part == MBE_DEFINITION, "a definition of many that is not UTF-8");
    check(mbe_expand_each(&request, NULL, 0, words("() => {)"), words("a"), &piece, 1, &its, room(), &reply) == MBE_NO_TOKENS
        && reply.part == MBE_DEFINITION, "a definition of many that is not lexed");
    request.grammar = MBE_GRAMMAR_TEXT;
    check(mbe_expand_each(&request, "a =", 3, words("() => {}"), words("a"), &piece, 1, &its, room(), &reply) == MBE_NO_GRAMMAR, "no grammar of many");
    request = asked(9);
    check(mbe_expand_each(&request, NULL, 0, words(""), words("a"), &piece, 1, &its, room(), &reply) == MBE_BAD_NUMBER, "a bad number of many");
    check(memcmp(&its, &before, sizeof its) == 0 && text[0] == 9, "nothing is written");
    request = asked(MBE_RUST);
    mbe_input one = {NULL, 1, NULL, 0};
    mbe_output bad = {NULL, 1, NULL, 0, NULL, 0};
    check(mbe_expand_each(&request, NULL, 0, words(""), one, &piece, 1, &its, room(), &reply) == MBE_NULL_POINTER, "null arguments");
    check(mbe_expand_each(&request, NULL, 0, words(""), words("a"), NULL, 1, &its, room(), &reply) == MBE_NULL_POINTER, "null pieces");
    check(mbe_expand_each(&request, NULL, 0, words(""), words("a"), &piece, 1, NULL, room(), &reply) == MBE_NULL_POINTER, "null replies");
    check(mbe_expand_each(&request, NULL, 0, words(""), words("a"), &piece, 1, &its, bad, &reply) == MBE_NULL_POINTER, "a null buffer of many");
    check(mbe_expand_each(NULL, NULL, 0, words(""), words("a"), &piece, 1, &its, room(), &reply) == MBE_NULL_POINTER, "no request of many");
    check(mbe_expand_each(&request, NULL, 0, words(""), words("a"), &piece, 1, &its, room(), NULL) == MBE_NULL_POINTER, "no reply of many");
}

static void faults(void) {
    mbe_request request = asked(MBE_TOKENS);
    check(mbe_expand(&request, NULL, 0, words("(a) => {b}"), words("c"), room(), &reply) == MBE_FAULTED, "no rule fits");
    check(message_is("unexpected token in input") && reply.span.file == 1 && reply.span.start == 0 && reply.span.end == 1, "its span");
    check(mbe_expand(&request, NULL, 0, words("($x) => {}"), words("c"), room(), &reply) == MBE_REFUSED, "a refused definition");
    check(message_is("missing fragment specifier"), "why it is refused");
    check(mbe_expand(&request, NULL, 0, words("(a) => {b}"), words(")"), room(), &reply) == MBE_NO_TOKENS, "no tokens");
    check(reply.part == MBE_ARGUMENT && reply.place == 0, "where there are none");
    check(mbe_expand(&request, NULL, 0, words("\xff"), words(""), room(), &reply) == MBE_NOT_UTF8, "a text that is not UTF-8");
    check(reply.part == MBE_DEFINITION, "which one");
    request.edition = 2019;
    check(mbe_expand(&request, NULL, 0, words(""), words(""), room(), &reply) == MBE_BAD_NUMBER, "an unknown edition");
    request = asked(3);
    check(mbe_expand(&request, NULL, 0, words(""), words(""), room(), &reply) == MBE_BAD_NUMBER, "an unknown form");
    request = asked(0);
    request.grammar = 7;
    check(mbe_expand(&request, NULL, 0, words(""), words(""), room(), &reply) == MBE_BAD_NUMBER, "an unknown grammar");
    request = asked(0);
    request.argument_is_flat = 2;
    check(mbe_expand(&request, NULL, 0, words(""), words(""), room(), &reply) == MBE_BAD_NUMBER, "an unknown sort of input");
    request = asked(0);
    request.style = UINT32_MAX;
    check(mbe_explain(&request, NULL, 0, words(""), words(""), NULL, 0, NULL, 0, &reply) == MBE_BAD_NUMBER, "an unknown style");
}

static void nulls(void) {
    mbe_request request = asked(0);
    mbe_input none = {NULL, 0, NULL, 0}, one = {NULL, 1, NULL, 0}, flat = {NULL, 0, NULL, 1};
    mbe_output no_room = {NULL, 0, NULL, 0, NULL, 0}, bad = {NULL, 1, NULL, 0, NULL, 0};
    check(mbe_expand(&request, NULL, 0, none, none, room(), &reply) == MBE_FAULTED && message_is("no rule matches input tokens"),
        "empty ranges at null");
    check(mbe_expand(&request, NULL, 0, one, none, room(), &reply) == MBE_NULL_POINTER, "a null text");
    check(mbe_expand(&request, NULL, 0, none, flat, room(), &reply) == MBE_NULL_POINTER, "null tokens");
    check(mbe_expand(&request, NULL, 2, none, none, room(), &reply) == MBE_NULL_POINTER, "a null grammar");
    check(mbe_expand(&request, NULL, 0, none, none, bad, &reply) == MBE_NULL_POINTER, "a null buffer");
    check(mbe_expand(NULL, NULL, 0, none, none, room(), &reply) == MBE_NULL_POINTER, "no request");
    check(mbe_expand(&request, NULL, 0, none, none, room(), NULL) == MBE_NULL_POINTER, "no reply");
    check(mbe_explain(&request, NULL, 0, none, none, NULL, 1, NULL, 0, &reply) == MBE_NULL_POINTER, "null verdicts");
    check(mbe_convert(&request, one, room(), &reply) == MBE_NULL_POINTER, "a null text to convert");
    check(mbe_define(&request, one, NULL, 0, &reply) == MBE_NULL_POINTER, "a null definition");
    check(mbe_grammar(NULL, 1, NULL, 0, &reply) == MBE_NULL_POINTER, "a null grammar to check");
    check(mbe_expand(&request, NULL, 0, words("() => {a}"), none, no_room, &reply) == MBE_NO_ROOM, "no room");
    check(reply.tokens == 3 && reply.text == 1, "how much is needed");
}

static void flat_tokens(void) {
    static const struct { const char *name; uint32_t kind, sort, character; size_t offset, len; const char *why; } bad[] = {
        {"no kind", 0, 0, 0, 0, 0, "a token of no kind"},
        {"a kind too many", 6, 0, 0, 0, 0, "a token of no kind"},
        {"no raw", MBE_IDENT, 2, 0, 0, 1, "a token of no sort"},
        {"no literal", MBE_LITERAL, 11, 0, 0, 1, "a token of no sort"},
        {"no delimiter", MBE_OPENING, 4, 0, 0, 0, "a token of no sort"},
        {"no char", MBE_PUNCT, 0, 0xd800, 0, 0, "a punct that is no char"},
        {"past the end", MBE_IDENT, 0, 0, 3, 1, "a text that is out of bounds"},
        {"a length that wraps", MBE_IDENT, 0, 0, 1, SIZE_MAX, "a text that is out of bounds"},
        {"half a char", MBE_IDENT, 0, 0, 0, 1, "a text that is not UTF-8"},
        {"a closing", MBE_CLOSING, MBE_BRACE, 0, 0, 0, "a closing without its opening"},
        {"an opening", MBE_OPENING, MBE_BRACE, 0, 0, 0, "a group that is not closed"},
    };
    mbe_request request = asked(MBE_TOKENS);
    mbe_token given[3];
    memset(given, 0, sizeof given);
    given[0].kind = MBE_OPENING;
    given[2].kind = MBE_CLOSING;
    mbe_input input = {"\xc3\xa9", 2, given, 3};
    request.argument_is_flat = 1;
    for (size_t i = 0; i < sizeof bad / sizeof *bad; i++) {
        given[1].kind = bad[i].kind;
        given[1].sort = bad[i].sort;
        given[1].character = bad[i].character;
        given[1].offset = bad[i].offset;
        given[1].len = bad[i].len;
        check(mbe_convert(&request, input, room(), &reply) == MBE_NO_TREES && message_is(bad[i].why), bad[i].name);
    }
    input.token_len = 1;
    check(mbe_convert(&request, input, room(), &reply) == MBE_NO_TREES && message_is("tokens that are not one group"), "one token");
    input.token_len = 0;
    check(mbe_convert(&request, input, room(), &reply) == MBE_NO_TREES, "no token");
}

/* A text to tokens, and these to lines: the same as at once. */
static void round_trips(void) {
    static const char *const texts[] = {"", "a", "r#fn x", "(a [b {c}]) + 1u8 \"s\\n\"", "a..=b, 'c'", "\xc3\xa9"};
    static mbe_token first[256];
    static char first_text[1024], lines[65536];
    for (size_t i = 0; i < sizeof texts / sizeof *texts; i++) {
        mbe_request request = asked(MBE_TOKENS);
        mbe_output out = {first, 256, first_text, sizeof first_text, message, sizeof message};
        check(mbe_convert(&request, words(texts[i]), out, &reply) == MBE_DONE, texts[i]);
        mbe_input flat = {first_text, reply.text, first, reply.tokens};
        request.form = MBE_LINES;
        check(mbe_convert(&request, words(texts[i]), room(), &reply) == MBE_DONE, "lines of a text");
        size_t len = reply.text;
        memcpy(lines, text, len);
        request.argument_is_flat = 1;
        check(mbe_convert(&request, flat, room(), &reply) == MBE_DONE && reply.text == len && memcmp(lines, text, len) == 0, "lines of tokens");
        request.form = MBE_TOKENS;
        check(mbe_convert(&request, flat, room(), &reply) == MBE_DONE && reply.tokens == flat.token_len
            && memcmp(tokens, first, reply.tokens * sizeof *tokens) == 0, "tokens of tokens");
    }
}

static void verdicts(void) {
    mbe_verdict found[4];
    mbe_request request = asked(0);
    check(mbe_explain(&request, NULL, 0, words("(a) => {}; ($x:tt) => {}; ($($x:ident)* $y:ident) => {}"), words("b"), found, 4,
        message, sizeof message, &reply) == MBE_DONE && reply.tokens == 3, "three verdicts");
    check(found[0].kind == MBE_STUCK && found[0].place == 0, "stuck");
    check(found[1].kind == MBE_ONE_READING, "one reading");
    check(found[2].kind == MBE_AMBIGUOUS && found[2].place == 0, "ambiguous");
    check(mbe_explain(&request, NULL, 0, words("(a) => {}"), words("a"), found, 0, NULL, 0, &reply) == MBE_NO_ROOM && reply.tokens == 1,
        "no room for verdicts");
    check(mbe_explain(&request, NULL, 0, words("(a"), words("a"), found, 4, message, sizeof message, &reply) == MBE_REFUSED, "verdicts on none");
}

static void grammars(void) {
    const char *sums = "expr = operand ('+' operand!)*\noperand = NAME";
    mbe_request request = asked(MBE_RUST);
    request.grammar = MBE_GRAMMAR_TEXT;
    check(mbe_expand(&request, sums, strlen(sums), words("($e:expr) => {$e}"), words("a + b"), room(), &reply) == MBE_DONE, "a grammar of sums");
    check(mbe_expand(&request, "expr = ", 7, words("() => {}"), words(""), room(), &reply) == MBE_NO_GRAMMAR && reply.part == MBE_GRAMMAR,
        "no grammar");
    check(mbe_grammar(sums, strlen(sums), message, sizeof message, &reply) == MBE_DONE, "a grammar");
    check(mbe_grammar("a = b", 5, message, sizeof message, &reply) == MBE_NO_GRAMMAR && reply.place == 1 && reply.column == 5,
        "where a rule is missing");
    check(mbe_grammar("\xff", 1, message, sizeof message, &reply) == MBE_NOT_UTF8, "a grammar that is not UTF-8");
    request = asked(MBE_RUST);
    request.grammar = MBE_GRAMMAR_RUST;
    request.dialect = MBE_DIALECT_RUST;
    check(mbe_expand(&request, NULL, 0, words("($t:ty) => {$t}"), words("Vec<&'a str>"), room(), &reply) == MBE_DONE
        && text_is("Vec<&'a str>"), "whole Rust");
    check(mbe_define(&request, words("() => {}; (a) => {}"), message, sizeof message, &reply) == MBE_DONE && reply.place == 2, "two rules");
    check(mbe_define(&request, words("() =>"), message, sizeof message, &reply) == MBE_REFUSED, "no definition");
}

/* The requests and the inputs of the header's own functions are those that are written out. */
static void header_functions(void) {
    mbe_request request = mbe_rust_request(MBE_LINES), written = asked(MBE_LINES);
    mbe_input input = mbe_text("ab"), none = mbe_text(NULL);
    const char *before = "";
    written.dialect = MBE_DIALECT_RUST;
    written.grammar = MBE_GRAMMAR_RUST;
    check(memcmp(&request, &written, sizeof request) == 0, "a request for Rust");
    check(input.text_len == 2 && memcmp(input.text, "ab", 2) == 0 && !input.tokens && input.token_len == 0, "the input of a text");
    check(!none.text && none.text_len == 0, "the input of no text");
    for (int status = MBE_DONE; status <= MBE_HAS_MACRO; status++) {
        const char *its = mbe_status_text((mbe_status)status);
        check(strlen(its) > 3 && strcmp(its, before) != 0 && strcmp(its, "unknown status") != 0, "the text of a status");
        before = its;
    }
    check(strcmp(mbe_status_text((mbe_status)(MBE_HAS_MACRO + 1)), "unknown status") == 0, "the text of no status");
}

/* Bytes of no meaning, as texts, tokens and numbers. */
static void nonsense(void) {
    static unsigned char bytes[2048];
    uint64_t state = 88172645463325252u;
    int known = 1;
    for (int round = 0; round < 2000; round++) {
        for (size_t i = 0; i < sizeof bytes; i++) {
            state ^= state << 13; state ^= state >> 7; state ^= state << 17;
            bytes[i] = (unsigned char)(round % 2 ? state : state % 6);
        }
        mbe_request request;
        memcpy(&request, bytes, sizeof request);
        if (round % 4) { request = asked(bytes[0] % 3); request.definition_is_flat = request.argument_is_flat = 1; }
        static mbe_token given[16];
        memcpy(given, bytes, sizeof given);
        mbe_input input = {(const char *)bytes, bytes[0] % 100u, given, bytes[1] % 16u};
        known &= mbe_expand(&request, (const char *)bytes, bytes[2], input, input, room(), &reply) <= MBE_NO_ROOM;
        known &= mbe_convert(&request, input, room(), &reply) <= MBE_NO_ROOM;
        static mbe_piece pieces[4];
        static mbe_reply replies[4];
        memcpy(pieces, bytes + 1024, sizeof pieces);
        pieces[0].offset = bytes[3] % 100u;
        pieces[0].len = bytes[4] % 20u;
        pieces[0].token_offset = bytes[5] % 16u;
        pieces[0].token_len = bytes[6] % 8u;
        known &= mbe_expand_each(&request, (const char *)bytes, bytes[2], round % 3 ? words("($($x:tt)*) => {$($x)*}") : input, input, pieces, 4,
            replies, room(), &reply) <= MBE_NO_ROOM;
        mbe_macro macro = {NULL, 0};
        mbe_call call;
        memcpy(&call, bytes + 512, sizeof call);
        if (round % 3) { call.style %= 3; call.form %= 3; call.argument_is_flat %= 2; }
        known &= mbe_macro_read(&request, (const char *)bytes, bytes[2], round % 3 ? words("($($x:tt)*) => {$($x)*}") : input, &macro, message,
            sizeof message, &reply) <= MBE_NO_ROOM;
        mbe_status status = mbe_macro_expand(&macro, &call, input, room(), &reply);
        known &= (status <= MBE_NO_ROOM && mbe_macro_free(&macro) == MBE_DONE) || status == MBE_NO_MACRO;
    }
    check(known, "bytes of no meaning");
}

int main(void) {
    check(mbe_version() == MBE_VERSION, "the version");
    expansions();
    many_arguments();
    each_as_alone();
    kept_as_alone();
    kept_macros();
    kept_grammars();
    unread_macros();
    faults();
    nulls();
    flat_tokens();
    round_trips();
    verdicts();
    grammars();
    header_functions();
    nonsense();
    printf("%d passed, %d failed\n", passed, failed);
    return failed != 0;
}
