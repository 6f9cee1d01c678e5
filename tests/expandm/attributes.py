"""The meaning of attributes: whether their target is compiled under `--cfg yes --cfg 'mode="fast"' --features std`. Also the options of
targets. `tools/rustc/cfg-forms.py` compares the rows with rustc 1.95.
"""
from expandm import defined
from programs import spelled

# Attributes without a fault, and whether their target is compiled.
HOLD = (
    ("", True),
    ("#[inline]", True),
    ("#[cfg(yes)]", True),
    ("#[cfg(no)]", False),
    ("#[cfg(yes,)]", True),
    ("#[cfg(r#yes)]", True),
    ("#[r#cfg(no)]", False),
    ("#[cfg(mode)]", False),
    ('#[cfg(mode = "fast")]', True),
    ('#[cfg(mode = "slow")]', False),
    ('#[cfg(mode = r"fast")]', True),
    ('#[cfg(mode = r#"fast"#)]', True),
    ('#[cfg(yes = "fast")]', False),
    ('#[cfg(feature = "std")]', True),
    ('#[cfg(feature = "alloc")]', False),
    ("#[cfg(feature)]", False),
    ("#[cfg(test)]", False),
    ("#[cfg(unix)]", True),
    ("#[cfg(windows)]", False),
    ('#[cfg(target_os = "linux")]', True),
    ('#[cfg(target_os = "macos")]', False),
    ('#[cfg(target_has_atomic = "64")]', True),
    ('#[cfg(target_env = "gnu")]', True),
    ("#[cfg(true)]", True),
    ("#[cfg(false)]", False),
    ("#[cfg(r#true)]", False),
    ("#[cfg(not(yes))]", False),
    ("#[cfg(not(no))]", True),
    ("#[cfg(not(no,))]", True),
    ("#[cfg(not)]", False),
    ("#[cfg(all())]", True),
    ("#[cfg(any())]", False),
    ("#[cfg(all(yes, unix))]", True),
    ("#[cfg(all(yes, no,))]", False),
    ("#[cfg(any(no, unix))]", True),
    ("#[cfg(any(no, not(yes)))]", False),
    ("#[cfg(r#all(no))]", False),
    ('#[cfg(all(any(no, mode = "fast"), not(all(yes, no))))]', True),
    ("#[cfg(yes)] #[inline] #[cfg(no)]", False),
    ("#![cfg(no)]", False),
    ("#[cfg_attr(yes, cfg(no))]", False),
    ("#[cfg_attr(no, cfg(no))]", True),
    ("#[cfg_attr(no, cfg(nonsense(no)))]", True),
    ("#[cfg_attr(yes,)]", True),
    ("#[cfg_attr(yes, inline, cfg(no))]", False),
    ('#[cfg_attr(yes, cfg_attr(unix, doc = "a, b", cfg(no)))]', False),
)

# Attributes with a fault, the byte of the fault, and its message.
FAULTS = (
    ("#[cfg]", 2, "Malformed"),
    ('#[cfg = "a"]', 2, "Malformed"),
    ("#[cfg[yes]]", 2, "Malformed"),
    ("#[cfg{yes}]", 2, "Malformed"),
    ("#[cfg_attr]", 2, "Malformed"),
    ("#[cfg_attr[yes, inline]]", 2, "Malformed"),
    ("#[cfg()]", 6, "NotOne"),
    ("#[cfg(yes, no)]", 11, "NotOne"),
    ("#[cfg(not())]", 10, "NotOne"),
    ("#[cfg(not(yes, no))]", 15, "NotOne"),
    ("#[cfg(foo(yes))]", 6, "Invalid"),
    ("#[cfg(foo())]", 6, "Invalid"),
    ("#[cfg(accessible(a))]", 6, "Invalid"),
    ("#[cfg(any(yes, foo(no)))]", 15, "Invalid"),
    ("#[cfg(all(no, foo(no)))]", 14, "Invalid"),
    ("#[cfg_attr(foo(a), inline)]", 11, "Invalid"),
    ("#[cfg_attr(yes, cfg(foo(a)))]", 20, "Invalid"),
    ('#[cfg(version("1.0"))]', 6, "Unstable"),
    ('#[cfg(target(os = "linux"))]', 6, "Unstable"),
    ("#[cfg(,)]", 6, "NoName"),
    ('#[cfg("a")]', 6, "NoName"),
    ("#[cfg(1)]", 6, "NoName"),
    ("#[cfg(_)]", 6, "NoName"),
    ("#[cfg((yes))]", 6, "NoName"),
    ("#[cfg(all(yes,,no))]", 14, "NoName"),
    ("#[cfg(a::b)]", 6, "Path"),
    ("#[cfg(mode = 1)]", 13, "NoString"),
    ('#[cfg(mode = b"fast")]', 13, "NoString"),
    ("#[cfg(mode = fast)]", 13, "NoString"),
    ("#[cfg(mode = )]", 13, "NoString"),
    ('#[cfg(mode = "fast"suf)]', 13, "Suffix"),
    ("#[cfg(yes no)]", 10, "NoComma"),
    ('#[cfg(true = "x")]', 11, "NoComma"),
    ("#[cfg(foo[yes])]", 9, "NoComma"),
    ("#[cfg_attr(yes inline)]", 15, "NoComma"),
)

# The greatest depth of nested predicates.
DEEP = (
    ("#[cfg(«126 not(»yes«126 )»)]", True),
)

TOO_DEEP = (
    ("#[cfg(«128 not(»yes«128 )»)]", 518, "TooDeep"),
)

MESSAGES = {
    "Malformed": "malformed attribute input: expected parentheses",
    "NotOne": "expected exactly one predicate",
    "Invalid": "invalid predicate",
    "Unstable": "this predicate is experimental",
    "NoName": "expected identifier",
    "Path": "expected an identifier, found a path",
    "NoString": "literal in `cfg` predicate value must be a string",
    "Suffix": "suffixes on string literals are invalid",
    "NoComma": "expected `,`",
    "TooDeep": "predicates are nested too deep",
}

# Targets, an option that each has, and which of `unix` and `windows` it has.
TARGETS = (
    ("x86_64-unknown-linux-gnu", 'target_os = "linux"', "unix"),
    ("x86_64-pc-windows-msvc", 'target_env = "msvc"', "windows"),
    ("x86_64-apple-darwin", 'target_vendor = "apple"', "unix"),
    ("aarch64-apple-darwin", 'target_arch = "aarch64"', "unix"),
    ("wasm32-unknown-unknown", 'target_family = "wasm"', ""),
)

# Predicates that hold with the feature `a-b` and tests, and predicates that don't.
GIVEN = (
    ("test", True),
    ('feature = "a-b"', True),
    ('feature = "a"', False),
    ('feature = "test"', False),
    ('test = "a-b"', False),
    ("a", False),
)

M = "m { () => { 1 } }"

OPTIONS = ("--cfg", "yes", "--cfg", 'mode="fast"', "--features", "std")


def ran_on(program, words, attribute):
    """A run on a call in a function or a module that the attribute is on."""
    text = f"mod a {{ {attribute} m!(); }}" if attribute.startswith("#!") else f"{attribute} fn f() {{ m!(); }}"
    return text, program.run([*words, "a.rs"], {"a.rs": defined(M, text)})


def check_holds(program, table, words, attribute, holds):
    """The call is expanded exactly if the target of the attribute is compiled."""
    text, ran = ran_on(program, words, attribute)
    want = defined(M, text.replace("m!()", "1") if holds else text)
    program.check(table, (words, attribute), (ran.status, ran.out, ran.err), (0, want, ""))


def check_fault(program, table, attribute, at, wrong):
    """The first report is the fault, at its location."""
    _, ran = ran_on(program, OPTIONS, attribute)
    said = ran.err.split("\n")[0]
    program.check(table, attribute, (ran.status, said), (1, f"a.rs:2:{at + 1}: error: {MESSAGES[wrong]}"))


def test(program):
    for attribute, holds in HOLD + DEEP:
        check_holds(program, "attributes.HOLD", OPTIONS, spelled(attribute), holds)
    for attribute, at, wrong in FAULTS + TOO_DEEP:
        check_fault(program, "attributes.FAULTS", spelled(attribute), at, wrong)
    for target, option, family in TARGETS:
        words = ("--target", target)
        check_holds(program, "attributes.TARGETS", words, f"#[cfg({option})] #[cfg(debug_assertions)]", True)
        for name in ("unix", "windows"):
            check_holds(program, "attributes.TARGETS", words, f"#[cfg({name})]", family == name)
    for option, holds in GIVEN:
        check_holds(program, "attributes.GIVEN", ("--features", "a-b", "--test"), f"#[cfg({option})]", holds)
