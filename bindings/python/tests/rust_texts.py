"""Trees as Rust text."""

# Texts of several files, with a `~` between two, and what their trees are as one text. Tokens that are side by side in a file are so
# here; any other two that would be read as one, or as others, are kept apart.
ROWS = [
    ('', ''),
    ('a::b(c)[0].d!', 'a::b(c)[0].d!'),
    ('a~b', 'a b'),
    ('a~1', 'a 1'),
    ('1~2', '1 2'),
    ("a~'b", "a 'b"),
    ('&~&a', '& &a'),
    ('&&a', '&&a'),
    ('1~.~(2)', '1 .(2)'),
    ('1.a', '1.a'),
    ('0..1', '0..1'),
    ('a~.~b~,~c', 'a.b, c'),
    ('-~1', '- 1'),
    ('a~=~b~;~c', 'a = b;\nc'),
    ('if~(a)~{b}', 'if (a) {\n    b\n}'),
    ('{a}~else~{b}', '{\n    a\n} else {\n    b\n}'),
    ('{a}~b', '{\n    a\n}\nb'),
    ('{}', '{}'),
    ('a~::~b', 'a::b'),
    ('$~crate', '$crate'),
    ('r#if~"b"', 'r#if "b"'),
    ('a~!~(b)', 'a!(b)'),
    ('Vec<T> , a', 'Vec<T> , a'),
    ('Vec<T>, a', 'Vec<T>, a'),
    ('Vec<T> ;', 'Vec<T> ;'),
    ('a:: <b>', 'a:: <b>'),
    ('a::<b>', 'a::<b>'),
    ('#!~[a]', ' #![a]'),
    ('#~[a]', '#[a]'),
    ('#~"a"', '# "a"'),
    ('a#b', 'a #b'),
    ("a'b", "a 'b"),
]

# Doc comments are written as doc comments, and doc comments of several lines as blocks. An attribute that somebody wrote remains an
# attribute. A block whose text has one line is written as `///` or `//!`. The edition is 2021, as in all tables below.
COMMENTS = [
    ('/// a', '/// a\n'),
    ('///\nb', '///\nb'),
    ('/// a\nb', '/// a\nb'),
    ('//! a\n//!/b\nc', '//! a\n//!/b\nc'),
    ('/// a "# b\nc', '/// a "# b\nc'),
    ('/** a */ b', '/// a \nb'),
    ('/** a\nb */ c', '/** a\nb */\nc'),
    ('/*! a\nb */ c', '/*! a\nb */\nc'),
    ('/*!\n*/', '/*!\n*/\n'),
    ('/** a\n * b\n */\nc', '/** a\n * b\n */\nc'),
    ('/**\n* a */ b', '/**\n* a */\nb'),
    ('/*!*\n a */ b', '/*!*\n a */\nb'),
    ('/*!/\n a */ b', '/*!/\n a */\nb'),
    ('/** a\n**/ b', '/** a\n**/\nb'),
    ('/** /* a\n*/ b */ c', '/** /* a\n*/ b */\nc'),
    ('/** /*/ a\n*/*/ c', '/** /*/ a\n*/*/\nc'),
    ('/** // a\n/**/ */ b', '/** // a\n/**/ */\nb'),
    ('/** é\n😀\u2028 */ b', '/** é\n😀\u2028 */\nb'),
    ('/** a"# b\n"### */ c', '/** a"# b\n"### */\nc'),
    ('a; { /** b\nc */ d }', 'a;\n{\n    /** b\nc */\n    d\n}'),
    ('m! { (/** a\nb */ c) }', 'm! {\n    (\n    /** a\nb */\n    c)\n}'),
    ('+/** a\nb */ c', '+\n/** a\nb */\nc'),
    ('#[doc = r" a\nb "] c', '#[doc = r" a\nb "] c'),
    ('/** a\nb */~/// c\n~d', '/** a\nb */\n/// c\nd'),
    ('/*! a\nb *//** c\n*/', '/*! a\nb */\n/** c\n*/\n'),
    ('#[doc = r" a"] b', '#[doc = r" a"] b'),
    ('a; /// b\nc', 'a;\n/// b\nc'),
    ('{ /// a\nb }', '{\n    /// a\n    b\n}'),
    ('(/// a\nb)', '(\n/// a\nb)'),
    ('+/// a\nb', '+\n/// a\nb'),
    ('/// a\n~b', '/// a\nb'),
    ('a~/// b\n', 'a\n/// b\n'),
]

# A `.` beside numbers and other literals, where a number could continue, and lifetimes beside puncts.
DOTS = [
    ('1 .a', '1 .a'),
    ('1. a', '1. a'),
    ('1..2', '1..2'),
    ('1..=2', '1..=2'),
    ('1 ..2', '1 ..2'),
    ('1. .2', '1. .2'),
    ('1.0.1', '1.0.1'),
    ('1u8.0', '1u8.0'),
    ('a.0.1', 'a.0.1'),
    ('a.0 .1', 'a.0 .1'),
    ('(a).0.b', '(a).0.b'),
    ('1.r"a"', '1.r"a"'),
    ('"a".0', '"a".0'),
    ("'a'.(b)", "'a'.(b)"),
    ("b'a' .b", "b'a' .b"),
    ('r#"a"#.b', 'r#"a"#.b'),
    ('1e5.a', '1e5.a'),
    ("+'a", "+'a"),
    ("+ 'a", "+ 'a"),
    ("&'r#a", "&'r#a"),
]

# Texts with a `"` before so many `#`, which come back; no raw string holds so many as the last two.
HASHES = [0, 1, 254, 255, 300]


def with_hashes(count):
    """Comments in which a `"` is before so many `#`."""
    quote = '"' + "#" * count
    return f"/*! {quote}\n*/\n/** a {quote}\n */\n/// {quote}\nb"


# Texts, each as the text of an attribute whose tokens have one span. Only the first two are texts of doc comments of several lines.
TEXTS = [
    ('a\n', '/**a\n*/\n'),
    ('a\n*', '/**a\n**/\n'),
    ('a\n*/', '#[doc = r"a\n*/"]'),
    ('a\n/*', '#[doc = r"a\n/*"]'),
    ('/**/*/\n', '#[doc = r"/**/*/\n"]'),
    ('a */ /*\n', '#[doc = r"a */ /*\n"]'),
    ('a\n/', '#[doc = r"a\n/"]'),
    ('*\n', '#[doc = r"*\n"]'),
    ('/\n', '#[doc = r"/\n"]'),
    ('a\r\n', '#[doc = r"a\r\n"]'),
]
