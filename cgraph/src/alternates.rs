//! The object folders of other repositories of which this one borrows objects, as Git names them.

use std::env;
use std::ffi::OsString;
use std::fs;
use std::os::unix::ffi::OsStringExt;
use std::path::{Path, PathBuf};
use std::process::Stdio;

use crate::session::Session;

/// Whether there may be some.
pub fn may_be(objects: &Path) -> bool {
    let named = env::var_os("GIT_ALTERNATE_OBJECT_DIRECTORIES");
    named.is_some_and(|list| !list.is_empty())
        || fs::metadata(objects.join("info/alternates")).is_ok_and(|file| file.len() > 0)
}

/// All of them, in Git's order.
pub fn all(session: &Session) -> Vec<PathBuf> {
    let mut git = session.git();
    let (_, out) = session.output(git.args(["count-objects", "-v"]).stderr(Stdio::null()));
    out.split(|&byte| byte == b'\n').filter_map(folder_in).collect()
}

/// The folder that a line of `git count-objects -v` names.
fn folder_in(line: &[u8]) -> Option<PathBuf> {
    let path = line.strip_prefix(b"alternate: ")?;
    let quoted = path.strip_prefix(b"\"").and_then(|path| path.strip_suffix(b"\""));
    Some(OsString::from_vec(quoted.map_or_else(|| path.to_vec(), unquoted)).into())
}

/// What a text stands for in which a backslash comes before a letter, a sign or three octal digits.
fn unquoted(text: &[u8]) -> Vec<u8> {
    let mut bytes = Vec::with_capacity(text.len());
    let mut rest = text;
    while let Some((&byte, after)) = rest.split_first() {
        rest = after;
        if byte != b'\\' {
            bytes.push(byte);
            continue;
        }
        match rest {
            [high @ b'0'..=b'3', middle @ b'0'..=b'7', low @ b'0'..=b'7', after @ ..] => {
                bytes.push(64 * (high - b'0') + 8 * (middle - b'0') + (low - b'0'));
                rest = after;
            }
            [letter, after @ ..] => {
                bytes.push(control(*letter));
                rest = after;
            }
            [] => {}
        }
    }
    bytes
}

/// The byte that a letter stands for after a backslash.
fn control(letter: u8) -> u8 {
    match letter {
        b'a' => 7,
        b'b' => 8,
        b't' => b'\t',
        b'n' => b'\n',
        b'v' => 11,
        b'f' => 12,
        b'r' => b'\r',
        other => other,
    }
}

#[cfg(test)]
mod tests {
    use super::*;

    #[test]
    fn a_path_with_odd_bytes_has_quotes() {
        let path = |line: &[u8]| folder_in(line).map(|path| path.into_os_string().into_vec());
        assert_eq!(path(b"alternate: /a b/objects"), Some(b"/a b/objects".to_vec()));
        let line = br#"alternate: "/a\"\\\t\n\377\303\251\001'""#;
        assert_eq!(path(line), Some(b"/a\"\\\t\n\xff\xc3\xa9\x01'".to_vec()));
        assert_eq!(path(b"count: 0"), None);
    }
}
