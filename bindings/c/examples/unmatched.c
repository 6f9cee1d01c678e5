/* Lists the calls that no rule matches: ./unmatched FILE.. takes the macros of all the files. */
#include <mbe.h>
#include <stdio.h>
#include <stdlib.h>

static struct { char *source; mbe_input trees; } files[4096], *end = files;
static void stop(const char *path, const char *why) { fprintf(stderr, "%s: %s\n", path, why); exit(2); }
static void read_file(const char *path) {
    mbe_request request = mbe_rust_request(MBE_TOKENS);
    FILE *in = fopen(path, "rb");
    if (!in || fseek(in, 0, SEEK_END)) stop(path, "can't be read");
    /* A byte has at most three tokens: the three bytes of a comment of documentation have seven. */
    size_t len = (size_t)ftell(in), room = 3 * len + 8;
    mbe_token *tokens = (mbe_token *)calloc(room, sizeof *tokens);
    char *text = (char *)malloc(room);
    end->source = (char *)malloc(len + 1);
    if (!end->source || !text || !tokens) stop(path, "out of memory");
    if (fseek(in, 0, SEEK_SET) || fread(end->source, 1, len, in) != len) stop(path, "can't be read");
    fclose(in);
    mbe_input input = {end->source, len, NULL, 0}, trees = {text, 0, tokens, 0};
    mbe_output out = {tokens, room, text, room, NULL, 0};
    mbe_reply reply;
    if (mbe_convert(&request, input, out, &reply)) stop(path, mbe_status_text((mbe_status)reply.status));
    trees.text_len = reply.text, trees.token_len = reply.tokens, (end++)->trees = trees;
}
static int is(mbe_input f, size_t i, uint32_t kind) { return i < f.token_len && f.tokens[i].kind == kind; }
static const char *name(mbe_input f, size_t i) { return f.text + f.tokens[i].offset; }
static int is_name(mbe_input f, size_t i, const char *s, size_t len) { return is(f, i, MBE_IDENT) && f.tokens[i].len == len && !memcmp(name(f, i), s, len); }
static int is_call(mbe_input f, size_t i) { return is(f, i, MBE_IDENT) && is(f, i + 1, MBE_PUNCT) && f.tokens[i + 1].character == '!'; }
static int is_macro(mbe_input f, size_t i) { return is_call(f, i) && is_name(f, i, "macro_rules", 11) && is(f, i + 3, MBE_OPENING); }
static mbe_input group(mbe_input f, size_t i) { f.tokens += i; f.token_len = f.tokens->len + 2; return f; }
static int is_matched(mbe_input f, size_t call) { /* also if no macro has the name */
    mbe_request request = mbe_rust_request(MBE_TOKENS);
    mbe_output none = {NULL, 0, NULL, 0, NULL, 0}; /* the reply says how long the message is */
    mbe_reply reply = {0, 0, 0, 0, {0, 0, 0, 0, 0}, 0, 0, 0, 0, 0};
    request.definition_is_flat = request.argument_is_flat = 1;
    for (size_t k = 0; files + k < end; k++) for (size_t i = 0; i < files[k].trees.token_len; i++)
        if (is_macro(files[k].trees, i) && is_name(files[k].trees, i + 2, name(f, call), f.tokens[call].len)) {
            mbe_expand(&request, NULL, 0, group(files[k].trees, i + 3), group(f, call + 2), none, &reply);
            if (reply.message == 0) return 1;
        }
    return reply.message == 0;
}
int main(int argc, char **argv) {
    int unmatched = 0;
    if (argc > 4097) stop(argv[0], "too many files");
    for (int k = 1; k < argc; k++) read_file(argv[k]);
    for (size_t k = 0; files + k < end; k++) for (size_t i = 0; i < files[k].trees.token_len; i++) {
        mbe_input f = files[k].trees;
        if (is_macro(f, i)) i += 4 + f.tokens[i + 3].len;
        else if (is_call(f, i) && is(f, i + 2, MBE_OPENING) && !is_matched(f, i)) {
            int line = 1;
            for (uint32_t at = 0; at < f.tokens[i].span.start; at++) line += files[k].source[at] == '\n';
            unmatched++;
            printf("%s:%d: no rule matches %.*s!\n", argv[k + 1], line, (int)f.tokens[i].len, name(f, i));
        }
    }
    return unmatched > 0;
}
