//! The crate's calls, in safe code.
#![forbid(unsafe_code)]

use mbe::{
    check_grammar, convert, version, Dialect, Edition, Form, Grammar, Input, Macro, Part, Reading,
    Span, Status, Style, Trees,
};

const ROWS: &[(&str, &str, &str, u32)] = &[
    ("($x:ident) => {$x $x}", "a", "a a", 0),
    ("($($x:ident),*) => {[$($x);*]}", "a, b, c", "[a; b; c]", 0),
    ("() => {none}; ($e:expr) => {one}", "1 + 2", "one", 1),
    ("() => {none}; ($e:expr) => {one}", "", "none", 0),
    ("(a $x:tt) => {$x}", "a (b c)", "(b c)", 0),
    ("($x:literal) => {$x}", "1u8", "1u8", 0),
];

fn sample(definition: &str) -> Macro<'static> {
    Macro::new(Input::Text(definition.as_bytes()), Edition::E2024, Dialect::Sample, Grammar::Sample)
        .expect("a definition")
}

#[test]
fn rows() {
    assert_eq!(version(), 3);
    for (definition, argument, expansion, rule) in ROWS {
        let found = sample(definition)
            .expand(Input::Text(argument.as_bytes()), Form::Rust, Span::default())
            .expect(definition);
        assert_eq!(String::from_utf8_lossy(&found.trees.text), *expansion);
        assert_eq!((found.rule, found.fault), (Some(*rule), None));
    }
}

#[test]
fn faults() {
    let found = sample("(a) => {b}")
        .expand(Input::Text(b"c"), Form::Tokens, Span::default())
        .expect("an expansion");
    let fault = found.fault.expect("a fault");
    assert_eq!(
        (fault.message.as_str(), fault.span.file, fault.span.start, fault.span.end),
        ("unexpected token in input", 1, 0, 1)
    );
    let refused =
        Macro::new(Input::Text(b"($x) => {}"), Edition::E2015, Dialect::Sample, Grammar::Sample)
            .unwrap_err();
    assert_eq!(
        (refused.status, refused.message.as_str()),
        (Status::Refused, "missing fragment specifier")
    );
    let unlexed =
        sample("() => {}").expand(Input::Text(b"a )"), Form::Tokens, Span::default()).unwrap_err();
    assert_eq!((unlexed.status, unlexed.place), (Status::NoTokens, 2));
    assert_eq!(
        sample("() => {}")
            .expand(Input::Text(b"\xff"), Form::Tokens, Span::default())
            .unwrap_err()
            .status,
        Status::NotUtf8
    );
}

#[test]
fn verdicts() {
    let found: Vec<Reading> = sample("(a) => {}; ($x:tt) => {}; ($($x:ident)* $y:ident) => {}")
        .explain(Input::Text(b"b"))
        .expect("verdicts")
        .map(|v| v.reading)
        .collect();
    assert_eq!(found, [Reading::Stuck(0), Reading::One, Reading::Ambiguous(0)]);
}

#[test]
fn flat() {
    let trees = convert(Input::Text(b"a (1u8 +)"), Edition::E2024, Dialect::Sample, Form::Tokens)
        .expect("trees");
    let leaves: Vec<String> = trees.leaves().map(|(_, text)| text).collect();
    assert_eq!(leaves, ["a", "1u8", "+"]);
    let again =
        convert(Input::Flat(&trees), Edition::E2024, Dialect::Sample, Form::Tokens).expect("trees");
    assert_eq!(again, trees);
    let mut astray = trees.clone();
    astray.tokens.truncate(3);
    assert_eq!(
        convert(Input::Flat(&astray), Edition::E2024, Dialect::Sample, Form::Lines)
            .unwrap_err()
            .status,
        Status::NoTrees
    );
    let expanded = sample("($($x:tt)*) => {$($x)*}")
        .expand(Input::Flat(&trees), Form::Rust, Span::default())
        .expect("an expansion");
    assert_eq!(String::from_utf8_lossy(&expanded.trees.text), "a(1u8 +)");
}

#[test]
fn definitions_are_lexed_once() {
    let from_text = sample("(a) => {b c}");
    let found =
        from_text.expand(Input::Text(b"a"), Form::Tokens, Span::default()).expect("an expansion");
    let spans: Vec<_> = found
        .trees
        .leaves()
        .map(|(token, _)| (token.span.file, token.span.start, token.span.end))
        .collect();
    assert_eq!(spans, [(0, 8, 9), (0, 10, 11)]);
    let unlexed = Macro::new(Input::Text(b"() => {"), Edition::E2024, Dialect::Rust, Grammar::Rust)
        .unwrap_err();
    assert_eq!((unlexed.status, unlexed.part), (Status::NoTokens, Part::Definition));
    let empty = Macro::new(
        Input::Flat(&Trees::default()),
        Edition::E2024,
        Dialect::Sample,
        Grammar::Sample,
    )
    .unwrap_err();
    assert_eq!((empty.status, empty.part), (Status::NoTrees, Part::Definition));
}

#[test]
fn rules_are_read_once() {
    let mut rules = String::from("($x:ident) => {$x $x}; ($x:literal) => {$x}");
    let twice =
        Macro::new(Input::Text(rules.as_bytes()), Edition::E2024, Dialect::Sample, Grammar::Sample)
            .expect("a definition");
    rules.clear();
    let found = |text: &'static str| {
        twice.expand(Input::Text(text.as_bytes()), Form::Rust, Span::default())
    };
    for _ in 0..3 {
        assert_eq!(found("a").expect("an expansion").trees.text, b"a a");
        assert_eq!(found("1").expect("an expansion").rule, Some(1));
        assert_eq!(
            found("+").expect("an expansion").fault.expect("a fault").message,
            "expected ident"
        );
        assert_eq!(found(")").unwrap_err().status, Status::NoTokens);
    }
    let macros: Vec<_> =
        ["a", "b", "c"].map(|it| sample(&format!("() => {{{it}}}"))).into_iter().collect();
    for (it, of) in ["a", "b", "c"].iter().zip(&macros) {
        assert_eq!(
            of.expand(Input::Text(b""), Form::Rust, Span::default())
                .expect("an expansion")
                .trees
                .text,
            it.as_bytes()
        );
    }
}

#[test]
fn many_calls_at_once() {
    let twice = sample("($x:ident) => {$x $x}; ($x:literal) => {$x}");
    let site = |file| Span { file, ..Span::default() };
    let lexed =
        convert(Input::Text(b"b"), Edition::E2024, Dialect::Sample, Form::Tokens).expect("tokens");
    let calls = [
        (Input::Text(b"a"), site(3)),
        (Input::Flat(&lexed), site(4)),
        (Input::Text(b")"), site(5)),
        (Input::Text(b"1u8"), site(6)),
        (Input::Text(b"+"), site(7)),
        (Input::Flat(&lexed), site(8)),
    ];
    for form in [Form::Rust, Form::Tokens, Form::Lines] {
        let alone: Vec<_> =
            calls.iter().map(|&(argument, site)| twice.expand(argument, form, site)).collect();
        assert_eq!(twice.expand_each(&calls, form), Ok(alone));
    }
    let found = twice.expand_each(&calls, Form::Rust).expect("answers");
    let texts: Vec<_> = found
        .iter()
        .map(|it| it.as_ref().map(|it| String::from_utf8_lossy(&it.trees.text).into_owned()).ok())
        .collect();
    assert_eq!(
        (texts[0].as_deref(), texts[1].as_deref(), texts[2].as_deref()),
        (Some("a a"), Some("b b"), None)
    );
    let wrong = found[2].as_ref().unwrap_err();
    assert_eq!((wrong.status, wrong.part, wrong.place), (Status::NoTokens, Part::Argument, 0));
    let fault = found[4].as_ref().expect("an expansion").fault.as_ref().expect("a fault");
    assert_eq!(fault.message, "expected ident");
    assert_eq!(twice.expand_each(&[], Form::Rust), Ok(Vec::new()));
    let many: Vec<_> =
        (0..5000).map(|_| (Input::Text(b"word".as_slice()), Span::default())).collect();
    let found = twice.expand_each(&many, Form::Rust).expect("answers");
    assert!(
        found.len() == 5000
            && found.iter().all(|it| it.as_ref().is_ok_and(|it| it.trees.text == b"word word"))
    );
}

#[test]
fn long_answers_get_room() {
    let many = "a ".repeat(3000);
    let found = sample("($($x:ident)*) => {$($x)*}")
        .expand(Input::Text(many.as_bytes()), Form::Tokens, Span::default())
        .expect("an expansion");
    assert_eq!(found.trees.leaves().count(), 3000);
}

#[test]
fn grammars() {
    let sums = "expr = operand ('+' operand!)*\noperand = NAME";
    let by = Macro::new(
        Input::Text(b"($e:expr) => {$e}"),
        Edition::E2021,
        Dialect::Sample,
        Grammar::Text(sums),
    )
    .expect("a definition");
    assert_eq!(by.rules(), 1);
    assert!(by
        .expand(Input::Text(b"a + b"), Form::Rust, Span::default())
        .expect("an expansion")
        .fault
        .is_none());
    let fault = check_grammar("a = b").unwrap_err();
    assert_eq!((fault.status, fault.place, fault.column), (Status::NoGrammar, 1, 5));
    let rust =
        Macro::new(Input::Text(b"($t:ty) => {$t}"), Edition::E2024, Dialect::Rust, Grammar::Rust)
            .expect("a definition");
    let found = rust
        .expand(Input::Text(b"Vec<&'a str>"), Form::Rust, Span::default())
        .expect("an expansion");
    assert_eq!(String::from_utf8_lossy(&found.trees.text), "Vec<&'a str>");
}

#[test]
fn numbers_and_names() {
    use std::error::Error as _;
    let years: Vec<u32> =
        ["2015", "2018", "2021", "2024"].map(|it| it.parse::<Edition>().expect(it).into()).into();
    assert_eq!(years, [2015, 2018, 2021, 2024]);
    assert!(Edition::try_from(2019).is_err() && "15".parse::<Edition>().is_err());
    assert_eq!(Edition::try_from(2021).map(|it| it.to_string()), Ok("2021".to_string()));
    let refused = "($x) => {}".parse::<Macro>().unwrap_err();
    assert_eq!(refused.to_string(), "definition at 0: refused: missing fragment specifier");
    assert!(refused.source().is_none());
}

#[test]
fn styles_are_kept_apart() {
    let rules = "attr() ($x:ident) => {[$x]}; derive() ($x:ident) => {$x;}; ($x:ident) => {($x)}";
    let rules: Macro = rules.parse().expect("a definition");
    let expand = |style| rules.expand_as(style, "a", Form::Rust, Span::default());
    for (style, wanted) in [(Style::Attr, "[a]"), (Style::Derive, "a;"), (Style::FnLike, "(a)")] {
        assert_eq!(expand(style).expect("an expansion").text(), wanted);
    }
}

#[test]
fn groups_and_results() {
    let trees: Trees = "a (b) c".parse().expect("trees");
    // The tokens are the opening, a, (, b, ), c and the closing.
    let group = trees.group(2).expect("a group");
    assert_eq!(group.leaves().map(|(_, text)| text).collect::<Vec<_>>(), ["b"]);
    assert!(trees.group(1).is_none() && trees.group(7).is_none());
    assert_eq!((&trees).into_iter().count(), 3);
    let same: Macro = "($x:ident) => {$x}".parse().expect("a definition");
    let found = same.expand(&group, Form::Rust, Span::default()).expect("an expansion");
    assert_eq!(Trees::try_from(found).map(|it| it.text().into_owned()), Ok("b".to_string()));
    let fault = same.expand("+", Form::Rust, Span::default()).expect("an expansion").into_result();
    assert_eq!(fault.expect_err("a fault").to_string(), "expected ident");
}

#[test]
fn offsets_that_are_too_large_are_no_leaves() {
    let token = mbe::Token { kind: 1, offset: usize::MAX, len: usize::MAX, ..Default::default() };
    assert_eq!(Trees { tokens: vec![token], text: vec![0] }.leaves().next(), None);
    let opening = mbe::Token { kind: 4, len: usize::MAX, ..Default::default() };
    assert_eq!(Trees { tokens: vec![opening], text: Vec::new() }.group(0), None);
}

#[test]
fn answers_may_cross_threads() {
    fn is_send<T: Send + Sync>() {}
    is_send::<(Trees, mbe::Expansion, mbe::Error, mbe::Fault, mbe::Verdict)>();
}
