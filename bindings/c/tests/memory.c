/* Each call with each of its requests for memory refused in turn: it ends, says so, and frees what it has. `N passed, M failed`.
 * Link it with -Wl,--wrap=malloc,--wrap=realloc. */
#include "../mbe.h"

#include <stdio.h>
#include <string.h>

void *__real_malloc(size_t size);
void *__real_realloc(void *old, size_t size);
void *__wrap_malloc(size_t size);
void *__wrap_realloc(void *old, size_t size);

/* How many requests are granted before one is refused; none is at -1. */
static long granted = -1;
static int refused;

static int is_refused(void) {
    if (granted < 0) return 0;
    if (granted-- > 0) return 0;
    refused = 1;
    return 1;
}

void *__wrap_malloc(size_t size) { return is_refused() ? NULL : __real_malloc(size); }

void *__wrap_realloc(void *old, size_t size) { return is_refused() ? NULL : __real_realloc(old, size); }

static mbe_request request;
static mbe_token tokens[512];
static mbe_verdict verdicts[8];
static mbe_reply replies[4], reply;
static char text[4096], message[512];

static mbe_input words(const char *s) {
    mbe_input input = {s, strlen(s), NULL, 0};
    return input;
}

static mbe_output room(void) {
    mbe_output out = {tokens, 512, text, sizeof text, message, sizeof message};
    return out;
}

#define RULES "($($x:ident),*) => {$([$x])* \"s\"}; ($e:expr) => {$e}"
#define SUMS "expr = operand ('+' operand!)*\noperand = NAME"

static mbe_status expand(void) { return mbe_expand(&request, SUMS, strlen(SUMS), words(RULES), words("1 + 2"), room(), &reply); }
static mbe_status explain(void) {
    return mbe_explain(&request, SUMS, strlen(SUMS), words(RULES), words("a, b"), verdicts, 8, message, sizeof message, &reply);
}
static mbe_status convert(void) { return mbe_convert(&request, words("a (1u8 +)"), room(), &reply); }
static mbe_status define(void) { return mbe_define(&request, words(RULES), message, sizeof message, &reply); }
static mbe_status grammar(void) { return mbe_grammar(SUMS, strlen(SUMS), message, sizeof message, &reply); }
static mbe_status unlexed(void) { return mbe_convert(&request, words("a )"), room(), &reply); }

/* Where memory is lacking for one argument alone, its reply says so. */
static mbe_status expand_each(void) {
    static const mbe_piece pieces[4] = {{0, 4, 0, 0, {0, 0, 0, 0, 0}}, {5, 5, 0, 0, {0, 0, 0, 0, 0}}, {11, 1, 0, 0, {0, 0, 0, 0, 0}},
        {13, 1, 0, 0, {0, 0, 0, 0, 0}}};
    mbe_status status = mbe_expand_each(&request, SUMS, strlen(SUMS), words(RULES), words("a, b 1 + 2 ) +"), pieces, 4, replies, room(), &reply);
    for (int i = 0; status == MBE_DONE && i < 4; i++) if (replies[i].status == MBE_OUT_OF_MEMORY) return MBE_OUT_OF_MEMORY;
    return status;
}

/* A macro is read, and expanded twice; what it keeps is freed, if it is read. */
static mbe_status kept(void) {
    mbe_macro macro = {NULL, 0};
    mbe_call call = {MBE_FN_LIKE, MBE_TOKENS, 0, {0, 0, 0, 0, 0}};
    mbe_status status = mbe_macro_read(&request, SUMS, strlen(SUMS), words(RULES), &macro, message, sizeof message, &reply);
    if (status != MBE_DONE) return mbe_macro_free(&macro) == MBE_NO_MACRO ? status : MBE_HAS_MACRO;
    mbe_status first = mbe_macro_expand(&macro, &call, words("1 + 2"), room(), &reply);
    mbe_status second = mbe_macro_expand(&macro, &call, words("a, b"), room(), &reply);
    if (mbe_macro_free(&macro) != MBE_DONE) return MBE_NO_MACRO;
    return first == MBE_OUT_OF_MEMORY ? first : second;
}

static const struct { const char *name; mbe_status (*call)(void); mbe_status status; } calls[] = {
    {"mbe_expand", expand, MBE_DONE}, {"mbe_expand_each", expand_each, MBE_DONE}, {"mbe_explain", explain, MBE_DONE},
    {"mbe_macro_expand", kept, MBE_DONE},
    {"mbe_convert", convert, MBE_DONE}, {"mbe_define", define, MBE_DONE}, {"mbe_grammar", grammar, MBE_DONE},
    {"a text that is not lexed", unlexed, MBE_NO_TOKENS},
};

int main(void) {
    int passed = 0, failed = 0;
    for (size_t i = 0; i < sizeof calls / sizeof *calls; i++) {
        for (int kind = MBE_GRAMMAR_SAMPLE; kind <= MBE_GRAMMAR_TEXT; kind++) {
            mbe_status status;
            long number = 0;
            int as_said = 1;
            memset(&request, 0, sizeof request);
            request.edition = 2024;
            request.grammar = (uint32_t)kind;
            for (;; number++) {
                granted = number;
                refused = 0;
                status = calls[i].call();
                granted = -1;
                if (!refused) break;
                as_said &= status == MBE_OUT_OF_MEMORY;
            }
            as_said &= number > 0 && (status == calls[i].status || (status == MBE_FAULTED && kind == MBE_GRAMMAR_TEXT));
            if (as_said) { passed++; continue; }
            failed++;
            printf("failed: %s with grammar %d, %ld requests, status %d\n", calls[i].name, kind, number, (int)status);
        }
    }
    printf("%d passed, %d failed\n", passed, failed);
    return failed != 0;
}
