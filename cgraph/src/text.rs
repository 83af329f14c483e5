//! Bytes as text. A path, or what a program says, may have bytes that are no UTF-8. Each of them
//! becomes one letter of a block for private use, so that sentences are ordinary strings, and comes
//! back where a text is written.

use std::ffi::OsStr;
use std::os::unix::ffi::OsStrExt;
use std::path::Path;

/// The letter for the byte 0; those for the others follow.
const FIRST: u32 = 0x0010_FF00;

/// A text for some bytes, from which [`bytes_of`] makes them again.
pub fn text_of(bytes: &[u8]) -> String {
    let mut text = String::with_capacity(bytes.len());
    let mut rest = bytes;
    while !rest.is_empty() {
        let valid = match std::str::from_utf8(rest) {
            Ok(all) => all,
            Err(error) => std::str::from_utf8(&rest[..error.valid_up_to()]).unwrap_or_default(),
        };
        valid.chars().for_each(|letter| push(&mut text, letter));
        rest = &rest[valid.len()..];
        if let Some((&byte, after)) = rest.split_first() {
            text.extend(letter_of(byte));
            rest = after;
        }
    }
    text
}

/// Appends a letter; one that stands for a byte elsewhere becomes those of its own bytes.
fn push(text: &mut String, letter: char) {
    if byte_of(letter).is_some() {
        text.extend(letter.encode_utf8(&mut [0; 4]).bytes().filter_map(letter_of));
    } else {
        text.push(letter);
    }
}

/// The letter that stands for a byte.
fn letter_of(byte: u8) -> Option<char> {
    char::from_u32(FIRST + u32::from(byte))
}

/// The byte for which a letter stands, if it stands for one.
pub fn byte_of(letter: char) -> Option<u8> {
    u32::from(letter).checked_sub(FIRST).and_then(|number| u8::try_from(number).ok())
}

/// The bytes that a text stands for.
pub fn bytes_of(text: &str) -> Vec<u8> {
    let mut bytes = Vec::with_capacity(text.len());
    for letter in text.chars() {
        match byte_of(letter) {
            Some(byte) => bytes.push(byte),
            None => bytes.extend_from_slice(letter.encode_utf8(&mut [0; 4]).as_bytes()),
        }
    }
    bytes
}

/// Whether all bytes of a text are UTF-8.
pub fn is_readable(text: &str) -> bool {
    !text.chars().any(|letter| byte_of(letter).is_some())
}

/// The text of a path.
pub fn shown(path: impl AsRef<Path>) -> String {
    text_of(path.as_ref().as_os_str().as_bytes())
}

/// The text of a word of the command line.
pub fn word_of(word: &OsStr) -> String {
    text_of(word.as_bytes())
}

/// A path as one word of a shell.
pub fn quoted(path: impl AsRef<Path>) -> String {
    format!("'{}'", shown(path).replace('\'', "'\\''"))
}

#[cfg(test)]
mod tests {
    use super::*;

    #[test]
    fn bytes_come_back() {
        let all: Vec<u8> = (0..=255).collect();
        let letters = "a\u{e9}\u{20ac}\u{1f600}\u{10feff}\u{10ff41}\u{10ffff}".as_bytes();
        for bytes in [&all[..], letters, b"", b"\xe2\x82", b"\xf4\x8f\xbc\xff", b"\xed\xa0\x80"] {
            assert_eq!(bytes_of(&text_of(bytes)), bytes);
        }
    }

    #[test]
    fn what_is_utf8_stays_as_it_is() {
        assert_eq!(text_of("a\u{e9}\n".as_bytes()), "a\u{e9}\n");
        assert!(is_readable("a\u{e9}"));
        assert!(!is_readable(&text_of(b"a\xff")));
        assert_eq!(text_of(b"\xe2\x82A").chars().count(), 3);
    }

    #[test]
    fn a_path_is_one_word_of_a_shell() {
        assert_eq!(quoted("a b"), "'a b'");
        assert_eq!(quoted("it's\n"), "'it'\\''s\n'");
    }
}
