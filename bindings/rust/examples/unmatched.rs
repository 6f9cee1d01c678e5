//! Lists the calls that no rule matches: `unmatched FILE..` takes the macros of all the files.

use mbe::{convert, Dialect, Edition, Form, Input, Macro, Span, Trees};
use std::collections::HashMap;
use std::process::ExitCode;

/// The identifier at that token, or no text.
fn word(trees: &Trees, at: usize) -> &str {
    let token = trees.tokens.get(at).filter(|it| it.kind == 1);
    let text = token.and_then(|it| trees.text.get(it.offset..it.offset + it.len));
    std::str::from_utf8(text.unwrap_or_default()).unwrap_or_default()
}

/// The tokens of the names of calls and definitions, without the calls in templates.
fn calls(trees: &Trees) -> Vec<usize> {
    let (mut at, mut found) = (0, Vec::new());
    while at + 3 < trees.tokens.len() {
        if !word(trees, at).is_empty() && trees.tokens[at + 1].character == u32::from('!') {
            found.push(at);
            let group = trees.tokens[at + 3]; // an opening is of kind 4
            if word(trees, at) == "macro_rules" && group.kind == 4 {
                at += 4 + group.len;
            }
        }
        at += 1;
    }
    found
}

fn main() -> Result<ExitCode, Box<dyn std::error::Error>> {
    let mut files = Vec::new();
    let mut macros: HashMap<String, Vec<Macro>> = HashMap::new();
    for path in std::env::args().skip(1) {
        let text = std::fs::read_to_string(&path)?;
        let trees = convert(&text, Edition::E2024, Dialect::Rust, Form::Tokens)?;
        for at in calls(&trees).into_iter().filter(|&at| word(&trees, at) == "macro_rules") {
            if let Some(rules) = trees.group(at + 3) {
                let name = word(&trees, at + 2).to_string();
                macros.entry(name).or_default().push(Macro::try_from(Input::Flat(&rules))?);
            }
        }
        files.push((path, text, trees));
    }
    let mut status = ExitCode::SUCCESS;
    for (path, text, trees) in &files {
        for at in calls(trees) {
            let Some(known) = macros.get(word(trees, at)) else { continue };
            let Some(argument) = trees.group(at + 2) else { continue };
            let found = known.iter().map(|it| it.expand(&argument, Form::Lines, Span::default()));
            if found.collect::<Result<Vec<_>, _>>()?.iter().all(|it| it.fault.is_some()) {
                let line = 1 + text[..trees.tokens[at].span.start as usize].matches('\n').count();
                println!("{path}:{line}: no rule matches {}!", word(trees, at));
                status = ExitCode::FAILURE;
            }
        }
    }
    Ok(status)
}
