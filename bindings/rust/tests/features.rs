//! The features `serde` and `proc-macro2`. Without a feature, its tests are left out.
#![forbid(unsafe_code)]

#[cfg(feature = "serde")]
mod serialized {
    use mbe::{
        Dialect, Edition, Error, Expansion, Fault, Form, Macro, Part, Reading, Span, Status, Style,
        Trees, Verdict,
    };
    use serde::de::DeserializeOwned;
    use serde::Serialize;
    use std::fmt::Debug;

    // The text of a value, which must be the same value again.
    fn json<T: Serialize + DeserializeOwned + PartialEq + Debug>(it: &T) -> String {
        let text = serde_json::to_string(it).expect("a text");
        assert_eq!(&serde_json::from_str::<T>(&text).expect("a value"), it);
        text
    }

    #[test]
    fn values() {
        assert_eq!(json(&Edition::E2021), "2021");
        assert!(serde_json::from_str::<Edition>("2020").is_err());
        assert_eq!(json(&[Dialect::Sample, Dialect::Rust]), r#"["sample","rust"]"#);
        assert_eq!(json(&[Form::Tokens, Form::Lines, Form::Rust]), r#"["tokens","lines","rust"]"#);
        let styles = [Style::FnLike, Style::Attr, Style::Derive];
        assert_eq!(json(&styles), r#"["fn_like","attr","derive"]"#);
        assert_eq!(json(&[Status::NotUtf8, Status::Other(14)]), r#"["not_utf8",{"other":14}]"#);
        assert_eq!(json(&Part::Definition), r#""definition""#);
        let verdicts =
            [Reading::Many, Reading::Ambiguous(2)].map(|it| Verdict { rule: 1, reading: it });
        assert_eq!(
            json(&verdicts),
            r#"[{"rule":1,"reading":"many"},{"rule":1,"reading":{"ambiguous":2}}]"#
        );
    }

    #[test]
    fn trees() {
        let one: Trees = "é".parse().expect("trees");
        let span =
            |start, end| format!(r#"{{"file":1,"ast":0,"start":{start},"end":{end},"context":0}}"#);
        let text = json(&one);
        assert!(text.ends_with(r#""text":"é"}"#), "{text}");
        let ident = format!(
            r#"{{"kind":1,"sort":0,"character":0,"hashes":0,"suffix_len":0,"span":{},"offset":0,"len":2}}"#,
            span(0, 2)
        );
        assert!(text.contains(&ident), "{text}");
        json(&"a (1u8 + r#\"b\"#) [] {'c'}".parse::<Trees>().expect("trees"));
        let wrong = Trees { tokens: Vec::new(), text: vec![0xff] };
        assert!(serde_json::to_string(&wrong).is_err());
    }

    #[test]
    fn answers() {
        let rules: Macro = "($x:ident) => { $x }".parse().expect("rules");
        let found = rules.expand("a", Form::Tokens, Span::default()).expect("an expansion");
        json::<Expansion>(&found);
        let fault = rules.expand("1", Form::Tokens, Span::default()).expect("an answer").fault;
        let span = r#""span":{"file":1,"ast":0,"start":0,"end":1,"context":0}"#;
        assert_eq!(
            json::<Option<Fault>>(&fault),
            format!(r#"{{"message":"expected ident",{span}}}"#)
        );
        let wrong: Error = "($x) => {}".parse::<Macro>().expect_err("no rules");
        assert_eq!(
            json(&wrong),
            r#"{"status":"refused","part":"definition","place":0,"column":0,"message":"missing fragment specifier"}"#
        );
    }
}

#[cfg(feature = "proc-macro2")]
mod streams {
    use mbe::{Form, Macro, Part, Span, Status, Streams, Trees};
    use proc_macro2::{Delimiter, Group, Ident, Literal, Spacing, TokenStream, TokenTree};

    // A stream as text, with its spacing and its invisible groups.
    fn shown(stream: TokenStream) -> String {
        let trees = stream.into_iter().map(|it| match it {
            TokenTree::Group(it) => {
                let (open, close) = match it.delimiter() {
                    Delimiter::Parenthesis => ("(", ")"),
                    Delimiter::Brace => ("{", "}"),
                    Delimiter::Bracket => ("[", "]"),
                    Delimiter::None => ("<<", ">>"),
                };
                format!("{open} {}{close} ", shown(it.stream()))
            }
            TokenTree::Punct(it) if it.spacing() == Spacing::Joint => it.to_string(),
            it => format!("{it} "),
        });
        trees.collect()
    }

    fn stream(text: &str) -> TokenStream {
        text.parse().expect(text)
    }

    // Texts, and their tokens: a space after each one that isn't joint.
    const ROWS: &[(&str, &str)] = &[
        ("", ""),
        ("a r#fn _ é Self", "a r#fn _ é Self "),
        ("a::b <<= .. c . . d", "a :: b <<= .. c . . d "),
        ("(a [b] {c ()})", "( a [ b ] { c ( ) } ) "),
        ("str 'b: loop {}", "str 'b : loop { } "),
        ("1 1u8 0xff_u32 1.5 1e3f64", "1 1u8 0xff_u32 1.5 1e3f64 "),
        (r#""a\n" r"b" b"e" br"f" b'g' 'h' '\''"#, r#""a\n" r"b" b"e" br"f" b'g' 'h' '\'' "#),
        ("r#\"c\"d\"#x r##\"\"#\"##", "r#\"c\"d\"#x r##\"\"#\"## "),
        ("#[doc = \" x\"] $y", "# [ doc = \" x\" ] $ y "),
        ("a = b; |c| -> d?", "a = b ; | c | -> d ? "),
    ];

    fn words(trees: &Trees) -> Vec<(u32, u32, String)> {
        trees.leaves().map(|(token, text)| (token.kind, token.sort, text)).collect()
    }

    #[test]
    fn texts() {
        for (text, wanted) in ROWS {
            assert_eq!(shown(stream(text)), *wanted);
            let from_stream = Trees::try_from(stream(text)).expect(text);
            let from_text: Trees = text.parse().expect(text);
            assert_eq!(words(&from_stream), words(&from_text), "{text}");
            assert_eq!(from_stream.tokens.len(), from_text.tokens.len());
            for trees in [&from_stream, &from_text] {
                assert_eq!(shown(TokenStream::try_from(trees).expect(text)), *wanted);
            }
        }
    }

    // proc_macro2 by itself reads a `&` before a lifetime as joint, and rustc reads it as alone.
    #[test]
    fn lifetimes() {
        let trees = Trees::try_from(stream("&'a str")).expect("trees");
        let puncts: Vec<_> = words(&trees).into_iter().filter(|it| it.0 == 2).collect();
        assert_eq!(puncts, [(2, 1, "&".to_string()), (2, 1, "'".to_string())]);
        assert_eq!(shown(TokenStream::try_from(&trees).expect("a stream")), "&'a str ");
    }

    #[test]
    fn literals_of_numbers() {
        let mut made = TokenStream::new();
        let literals =
            [Literal::i8_suffixed(-1), Literal::f64_unsuffixed(-2.5), Literal::string("\"")];
        made.extend(literals.map(TokenTree::from));
        let trees = Trees::try_from(made).expect("trees");
        let found: Vec<_> = trees.leaves().map(|(_, text)| text).collect();
        assert_eq!(found, ["-", "1i8", "-", "2.5", "\\\""]);
        assert_eq!(
            shown(TokenStream::try_from(&trees).expect("a stream")),
            "- 1i8 - 2.5 \"\\\"\" "
        );
    }

    #[test]
    fn invisible_groups() {
        let inside = Group::new(Delimiter::None, stream("1 + 2"));
        let mut given = TokenStream::from(TokenTree::from(inside));
        given.extend(stream("* 3"));
        assert_eq!(shown(given.clone()), "<< 1 + 2 >> * 3 ");
        let trees = Trees::try_from(given).expect("trees");
        assert_eq!(shown(TokenStream::try_from(&trees).expect("a stream")), "<< 1 + 2 >> * 3 ");
    }

    #[test]
    fn expansions() {
        let mut streams = Streams::new();
        let rules = streams.trees(stream("($($x:ident = $e:expr),*) => { $(a::$x <<= $e;)* }"));
        let rules: Macro = mbe::Input::Flat(&rules.expect("rules")).try_into().expect("rules");
        let argument = streams.trees(stream("x = 1 + 2, y = z")).expect("an argument");
        let found = rules.expand(&argument, Form::Tokens, Span::default()).expect("an answer");
        let back = streams.stream(&found.into_result().expect("no fault")).expect("a stream");
        // The second `:` is joint to the `$` of the template. The expression stays whole.
        assert_eq!(shown(back), "a ::x <<= ( 1 + 2 ) ; a ::y <<= z ; ");
    }

    #[test]
    fn spans() {
        let mut streams = Streams::new();
        let trees = streams.trees(stream("a (b::c)")).expect("trees");
        assert!(trees.tokens.iter().all(|it| streams.span(it.span).is_some()));
        assert!(trees.tokens.iter().all(|it| it.span.file == Streams::FILE));
        assert!(streams.span(Span::default()).is_none());
        let after = Span { file: Streams::FILE, start: 1000, end: 1001, ..Span::default() };
        assert!(streams.span(after).is_none());
        // The text has spaces where the stream has them.
        let text = mbe::convert(&trees, mbe::Edition::E2021, mbe::Dialect::Rust, Form::Rust);
        assert_eq!(text.expect("a text").text(), "a(b::c)");
    }

    #[test]
    fn errors() {
        let lines = mbe::convert("a", mbe::Edition::E2021, mbe::Dialect::Rust, Form::Lines);
        let wrong = TokenStream::try_from(&lines.expect("lines")).expect_err("no trees");
        assert_eq!(wrong.status, Status::NoTrees);
        let mut trees = Trees::try_from(TokenStream::from(TokenTree::from(Ident::new(
            "a",
            proc_macro2::Span::call_site(),
        ))))
        .expect("trees");
        trees.text[0] = b'1';
        let wrong = TokenStream::try_from(&trees).expect_err("no identifier");
        assert_eq!((wrong.status, wrong.part, wrong.place), (Status::NoTrees, Part::Argument, 1));
    }
}
