// Writes the tokens of files as rustc sees them: after a joint punct U+0001, and U+0002 after every other token.
extern crate proc_macro;
use proc_macro::{Delimiter, Spacing, TokenStream, TokenTree};
use std::fmt::Write;
use std::panic::{catch_unwind, AssertUnwindSafe};

fn dump(stream: TokenStream, out: &mut String) {
    for tree in stream {
        match tree {
            TokenTree::Group(group) => {
                let (open, close) = match group.delimiter() {
                    Delimiter::Parenthesis => ("(\u{2}", ")\u{2}"),
                    Delimiter::Bracket => ("[\u{2}", "]\u{2}"),
                    Delimiter::Brace => ("{\u{2}", "}\u{2}"),
                    Delimiter::None => ("", ""),
                };
                out.push_str(open);
                dump(group.stream(), out);
                out.push_str(close);
            }
            TokenTree::Punct(punct) => {
                out.push(punct.as_char());
                out.push(if punct.spacing() == Spacing::Joint { '\u{1}' } else { '\u{2}' });
            }
            TokenTree::Ident(ident) => write!(out, "{ident}\u{2}").unwrap(),
            TokenTree::Literal(literal) => write!(out, "{literal}\u{2}").unwrap(),
        }
    }
}

// Each call names a file, so that the messages on one text are none of another's: rustc doesn't repeat a message of one place.
#[proc_macro]
pub fn judge(name: TokenStream) -> TokenStream {
    let name = name.to_string();
    let path = name.trim_matches('"');
    let text = std::fs::read_to_string(path).unwrap();
    eprintln!("@@ {path}");
    let mut out = String::new();
    match catch_unwind(AssertUnwindSafe(|| text.parse::<TokenStream>())) {
        Ok(Ok(stream)) => {
            out.push_str("ok\n");
            dump(stream, &mut out);
        }
        Ok(Err(error)) => write!(out, "fault\n{error}").unwrap(),
        Err(_) => out.push_str("fault\npanic"),
    }
    std::fs::write(format!("{path}.rustc"), out).unwrap();
    TokenStream::new()
}
