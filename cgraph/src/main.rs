//! The program `git-cgraph`.

#![forbid(unsafe_code)]

use std::ffi::OsString;

fn main() {
    let words: Vec<OsString> = std::env::args_os().skip(1).collect();
    cgraph::run(&words)
}
