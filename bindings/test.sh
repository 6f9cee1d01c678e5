#!/bin/sh
# test.sh: the tests of the bindings for C, C++, Rust and Python. `MBE_LIB_DIR=DIR` takes the archive that is in DIR; else library.sh
# makes one. A language whose tool isn't there is skipped, and named. The last line is `N passed, M failed`.
here=$(cd "$(dirname "$0")" && pwd)
work=$(mktemp -d)
trap 'rm -rf "$work"' EXIT
passed=0 failed=0
if [ -z "${MBE_LIB_DIR:-}" ]; then
    MBE_LIB_DIR=$work/library
    sh "$here/library.sh" "$MBE_LIB_DIR" >"$work/log" 2>&1 || { cat "$work/log"; echo "0 passed, 1 failed"; exit 1; }
fi
MBE_LIB_DIR=$(cd "$MBE_LIB_DIR" && pwd)
export MBE_LIB_DIR

# Adds what the last line of a log says; without one, a failure.
add() {
    cat "$work/log"
    counts=$(sed -n 's/^\([0-9]*\) passed, \([0-9]*\) failed$/\1 \2/p' "$work/log" | tail -1)
    set -- ${counts:-0 1}
    passed=$((passed + $1)) failed=$((failed + $2))
    [ -n "$counts" ] || echo "no result"
}

if cc --version >/dev/null 2>&1; then
    echo "C"
    { cc -std=c99 -Wall -Wextra -pedantic -Werror -o "$work/calls" "$here/c/tests/calls.c" "$MBE_LIB_DIR/libmbe_c.a" -lm &&
        "$work/calls"; } >"$work/log" 2>&1
    add
    if valgrind --version >/dev/null 2>&1; then
        echo "C under valgrind"
        valgrind -q --error-exitcode=9 --leak-check=full "$work/calls" >"$work/log" 2>&1
        [ $? = 9 ] && echo "0 passed, 1 failed" >>"$work/log"
        add
    else
        echo "skipped: valgrind isn't there"
    fi
    echo "C with AddressSanitizer"
    { cc -std=c99 -g -fsanitize=address,undefined -o "$work/asan" "$here/c/tests/calls.c" "$MBE_LIB_DIR/libmbe_c.a" -lm &&
        "$work/asan"; } >"$work/log" 2>&1
    add
    echo "C, each request for memory refused in turn"
    { cc -std=c99 -Wall -Wextra -pedantic -Werror -Wl,--wrap=malloc,--wrap=realloc -o "$work/memory" "$here/c/tests/memory.c" \
        "$MBE_LIB_DIR/libmbe_c.a" -lm && "$work/memory"; } >"$work/log" 2>&1
    if valgrind --version >/dev/null 2>&1; then
        valgrind -q --error-exitcode=9 --leak-check=full "$work/memory" >/dev/null 2>&1
        [ $? = 9 ] && echo "0 passed, 1 failed" >>"$work/log"
    fi
    add
else
    echo "skipped: C, since cc isn't there"
fi
if c++ --version >/dev/null 2>&1; then
    echo "C++"
    { c++ -x c++ -Wall -Wextra -Werror -o "$work/callspp" "$here/c/tests/calls.c" -x none "$MBE_LIB_DIR/libmbe_c.a" -lm &&
        "$work/callspp"; } >"$work/log" 2>&1
    add
else
    echo "skipped: C++, since c++ isn't there"
fi
if cargo --version >/dev/null 2>&1; then
    cp -r "$here/rust" "$work/rust"
    rm -rf "$work/rust/target" "$work/rust/Cargo.lock"
    # The features need crates that Debian has. Without these crates, only the rest is tested.
    registry=/usr/share/cargo/registry features=
    if [ -d "$(echo $registry/serde_json-1.*)" ] && [ -d "$(echo $registry/serde_derive-1.*)" ] && [ -d "$(echo $registry/proc-macro2-1.*)" ]; then
        echo "Rust, with its features"
        features=--all-features
        mkdir "$work/rust/.cargo"
        printf '[source.crates-io]\nreplace-with = "debian"\n[source.debian]\ndirectory = "%s"\n' $registry >"$work/rust/.cargo/config.toml"
    else
        echo "Rust"
        echo "skipped: the features of the crate, since librust-serde-json-dev, librust-serde-derive-dev and librust-proc-macro2-dev aren't there"
        sed -i 's/^\(serde\|proc-macro2\) = \["dep:.*/\1 = []/; /optional = true/d; /^serde_json = /d' "$work/rust/Cargo.toml" "$work/rust/sys/Cargo.toml"
    fi
    (cd "$work/rust" && CARGO_TARGET_DIR="$work/target" cargo test --offline --quiet $features --test calls --test features) >"$work/cargo" 2>&1
    sed -n 's/^test result: .* \([0-9]*\) passed; \([0-9]*\) failed;.*/\1 \2/p' "$work/cargo" |
        awk '{ passed += $1; failed += $2 } END { if (NR == 2) print passed " passed, " failed " failed" }' >"$work/log"
    grep -q passed "$work/log" || cat "$work/cargo"
    add
else
    echo "skipped: Rust, since cargo isn't there"
fi
if python3 --version >/dev/null 2>&1 && [ -f "$MBE_LIB_DIR/libmbe_c.so" ]; then
    echo "Python"
    for test in test_mbe.py test_texts.py test_corpus.py; do
        (cd "$here/python" && MBE_LIB="$MBE_LIB_DIR/libmbe_c.so" PYTHONDONTWRITEBYTECODE=1 python3 "$test") >"$work/log" 2>&1
        add
    done
else
    echo "skipped: Python, since python3 or libmbe_c.so isn't there"
fi
echo "$passed passed, $failed failed"
[ "$failed" = 0 ]
