#!/usr/bin/env python3
"""Compares the cost of a call through the C interface with one run of `mbex`, without the start
of a process.

The library is MBE_LIB_DIR/libmbe_c.a, which bindings/library.sh makes. The script times TIMES
calls of `mbe_expand` in one program (`cc -O2`), and TIMES runs of MBEX on the two files. It
subtracts as many runs of MBEX on an empty definition and argument. It prints the processor time
of a call and of a run, and their ratio.
"""
import os
import resource
import subprocess
import sys

sys.path.insert(0, os.path.dirname(os.path.dirname(os.path.abspath(__file__))))
import common  # noqa: E402

PROGRAM = r"""
#include "mbe.h"
#include <stdio.h>
#include <stdlib.h>
#include <time.h>
static char *read_file(const char *name, size_t *len) {
    FILE *f = fopen(name, "rb");
    char *text = malloc(1 << 26);
    *len = fread(text, 1, 1 << 26, f);
    fclose(f);
    return text;
}
int main(int n, char **words) {
    mbe_request request = {2024, 0, 0, 0, MBE_LINES, 0, 0, {1, 0, 0, 0, 0}};
    mbe_input d = {0}, a = {0};
    mbe_output out = {NULL, 0, malloc(1 << 26), 1 << 26, malloc(4096), 4096};
    mbe_reply reply;
    struct timespec from, to;
    long times = atol(words[3]);
    d.text = read_file(words[1], &d.text_len);
    a.text = read_file(words[2], &a.text_len);
    request.call_site.end = (uint32_t)a.text_len;
    if (n > 4 && words[4][0] == 'k') {
        mbe_macro kept = {0};
        mbe_call call = {MBE_FN_LIKE, MBE_LINES, 0, request.call_site};
        if (mbe_macro_read(&request, NULL, 0, d, &kept, NULL, 0, &reply) != MBE_DONE) return 1;
        for (long i = 0; i < times; i++) if (mbe_macro_expand(&kept, &call, a, out, &reply) > MBE_FAULTED) return 1;
        return mbe_macro_free(&kept) != MBE_DONE;
    }
    if (n > 4) {
        mbe_piece *pieces = calloc((size_t)times, sizeof *pieces);
        mbe_reply *replies = calloc((size_t)times, sizeof *replies);
        for (long i = 0; i < times; i++) { pieces[i].len = a.text_len; pieces[i].call_site = request.call_site; }
        return mbe_expand_each(&request, NULL, 0, d, a, pieces, (size_t)times, replies, out, &reply) != MBE_DONE;
    }
    clock_gettime(CLOCK_PROCESS_CPUTIME_ID, &from);
    for (long i = 0; i < times; i++) if (mbe_expand(&request, NULL, 0, d, a, out, &reply) > MBE_FAULTED) return 1;
    clock_gettime(CLOCK_PROCESS_CPUTIME_ID, &to);
    printf("%.9f\n", ((double)(to.tv_sec - from.tv_sec) + (double)(to.tv_nsec - from.tv_nsec) / 1e9) / (double)times);
}
"""


def mean_of_runs(program, files, times):
    before = resource.getrusage(resource.RUSAGE_CHILDREN)
    for _ in range(times):
        subprocess.run([program, *files], stdout=subprocess.DEVNULL)
    after = resource.getrusage(resource.RUSAGE_CHILDREN)
    return (after.ru_utime + after.ru_stime - before.ru_utime - before.ru_stime) / times


def per_call(call, files, times, *each):
    many, one = (common.instructions([call, *files, str(it), *each]) for it in (times + 1, 1))
    return (many - one) / times


def count(call, program, files, empty, times):
    """Prints how many instructions a call takes by `mbe_expand` and by mbex, both without the instructions of an empty call.

    It also prints the instructions of an empty call, of one more argument of `mbe_expand_each`, and of one more call of
    `mbe_macro_expand`."""
    nothing, called, each = per_call(call, empty, times), per_call(call, files, times), per_call(call, files, times, "each")
    kept = per_call(call, files, times, "kept")
    ran = common.instructions([program, *files]) - common.instructions([program, *empty])
    print(f"instructions: mbe_expand {called - nothing:.0f} more than the {nothing:.0f} of an empty call, mbex {ran}, ratio {(called - nothing) / ran:.3f}; "
          f"an argument of mbe_expand_each {each:.0f}, ratio to a call {each / called:.3f}; "
          f"a call of mbe_macro_expand {kept:.0f}, ratio to that argument {kept / each:.3f}")


def asked():
    parser = common.arguments(__doc__)
    parser.add_argument("mbex", metavar="MBEX", type=os.path.abspath)
    parser.add_argument("definition", metavar="DEF-FILE")
    parser.add_argument("argument", metavar="ARG-FILE")
    parser.add_argument("times", metavar="TIMES", type=int, nargs="?", default=20)
    parser.add_argument("--instructions", action="store_true",
                        help="count instructions by callgrind, which are the same on a busy "
                             "machine: of TIMES calls after the first, of one run of MBEX, of each "
                             "argument more of `mbe_expand_each`, and of each call more of "
                             "`mbe_macro_expand`")
    return parser.parse_args()


def main():
    args = asked()
    if "MBE_LIB_DIR" not in os.environ:
        sys.exit("set MBE_LIB_DIR to the folder of libmbe_c.a")
    files = [args.definition, args.argument]
    with common.folder() as folder:
        for name, text in (("call.c", PROGRAM), ("d", "() => {}"), ("a", "")):
            common.write(f"{folder}/{name}", text)
        library = f"{os.environ['MBE_LIB_DIR']}/libmbe_c.a"
        call, empty = f"{folder}/call", [f"{folder}/d", f"{folder}/a"]
        include = f"{common.TOP}/bindings/c"
        words = ["cc", "-O2", "-I", include, "-o", call, f"{call}.c", library, "-lm"]
        subprocess.run(words, check=True)
        if args.instructions:
            count(call, args.mbex, files, empty, args.times)
            return
        called = float(common.run([call, *files, args.times], check=True).stdout)
        ran, nothing = (mean_of_runs(args.mbex, it, args.times) for it in (files, empty))
        ran -= nothing
    print(f"mbe_expand {called * 1e3:.3f} ms, mbex {ran * 1e3:.3f} ms, ratio {called / ran:.3f}")


if __name__ == "__main__":
    main()
