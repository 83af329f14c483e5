//! Makes the texts that an installation has besides: the manual pages, and the completion for
//! shells.

#![forbid(unsafe_code)]

use std::process::ExitCode;

fn main() -> ExitCode {
    let words: Vec<String> = std::env::args().skip(1).collect();
    let words: Vec<&str> = words.iter().map(String::as_str).collect();
    let text = match words[..] {
        ["page", name] => cgraph::pages::page(name),
        ["completion", shell] => cgraph::completions::completion(shell),
        _ => None,
    };
    match text {
        Some(text) => {
            print!("{text}");
            ExitCode::SUCCESS
        }
        None => {
            eprintln!("usage: git-cgraph-texts page NAME | completion SHELL");
            ExitCode::from(2)
        }
    }
}
