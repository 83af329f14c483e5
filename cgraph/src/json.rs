//! JSON: values, and the texts of them.

use std::fmt;

use crate::text;

/// A value.
#[derive(Clone, Debug, PartialEq)]
pub enum Value {
    Null,
    Bool(bool),
    Number(u64),
    Text(String),
    List(Vec<Value>),
    Object(Object),
}

/// Fields, in the order in which they are written.
#[derive(Clone, Debug, Default, PartialEq)]
pub struct Object(Vec<(String, Value)>);

impl Object {
    /// Puts a field behind the others, or the value in the place of that of a field with this name.
    pub fn set(&mut self, name: &str, value: impl Into<Value>) {
        let value = value.into();
        match self.0.iter_mut().find(|(known, _)| known == name) {
            Some((_, old)) => *old = value,
            None => self.0.push((name.to_owned(), value)),
        }
    }

    /// Puts a text behind the others, unless it is empty.
    pub fn set_text(&mut self, name: &str, text: &str) {
        if !text.is_empty() {
            self.set(name, text);
        }
    }

    /// The list of a field, which begins as an empty one.
    pub fn list(&mut self, name: &str) -> &mut Vec<Value> {
        match self.entry(name, Value::List(Vec::new())) {
            Value::List(list) => list,
            _ => unreachable!("a field has one kind of value"),
        }
    }

    /// The object of a field, which begins as one without fields.
    pub fn object(&mut self, name: &str) -> &mut Object {
        match self.entry(name, Value::Object(Object::default())) {
            Value::Object(object) => object,
            _ => unreachable!("a field has one kind of value"),
        }
    }

    /// The value of a field, which begins as this one.
    fn entry(&mut self, name: &str, first: Value) -> &mut Value {
        let at = self.0.iter().position(|(known, _)| known == name).unwrap_or_else(|| {
            self.0.push((name.to_owned(), first));
            self.0.len() - 1
        });
        &mut self.0[at].1
    }

    /// Puts the fields of another object behind the own ones.
    pub fn extend(&mut self, more: Object) {
        self.0.extend(more.0);
    }
}

impl From<bool> for Value {
    fn from(value: bool) -> Self {
        Value::Bool(value)
    }
}

impl From<u64> for Value {
    fn from(value: u64) -> Self {
        Value::Number(value)
    }
}

impl From<&str> for Value {
    fn from(text: &str) -> Self {
        Value::Text(text.to_owned())
    }
}

impl From<String> for Value {
    fn from(text: String) -> Self {
        Value::Text(text)
    }
}

impl From<Object> for Value {
    fn from(object: Object) -> Self {
        Value::Object(object)
    }
}

impl<T: Into<Value>> From<Vec<T>> for Value {
    fn from(values: Vec<T>) -> Self {
        Value::List(values.into_iter().map(Into::into).collect())
    }
}

impl fmt::Display for Value {
    fn fmt(&self, out: &mut fmt::Formatter<'_>) -> fmt::Result {
        match self {
            Value::Null => out.write_str("null"),
            Value::Bool(value) => write!(out, "{value}"),
            Value::Number(value) => write!(out, "{value}"),
            Value::Text(text) => write_text(out, text),
            Value::List(values) => {
                out.write_str("[")?;
                write_all(out, values, |out, value| value.fmt(out))?;
                out.write_str("]")
            }
            Value::Object(object) => object.fmt(out),
        }
    }
}

impl fmt::Display for Object {
    fn fmt(&self, out: &mut fmt::Formatter<'_>) -> fmt::Result {
        out.write_str("{")?;
        write_all(out, &self.0, |out, (name, value)| {
            write_text(out, name)?;
            write!(out, ":{value}")
        })?;
        out.write_str("}")
    }
}

/// Writes items with commas between them.
fn write_all<T>(
    out: &mut fmt::Formatter<'_>,
    items: &[T],
    write: impl Fn(&mut fmt::Formatter<'_>, &T) -> fmt::Result,
) -> fmt::Result {
    for (at, item) in items.iter().enumerate() {
        if at > 0 {
            out.write_str(",")?;
        }
        write(out, item)?;
    }
    Ok(())
}

/// Writes a text in double quotes. A byte that is no UTF-8 becomes U+FFFD, the sign for what cannot
/// be read.
fn write_text(out: &mut fmt::Formatter<'_>, text: &str) -> fmt::Result {
    out.write_str("\"")?;
    for letter in text.chars() {
        match letter {
            '"' | '\\' => write!(out, "\\{letter}")?,
            '\0'..='\x1f' | '\x7f' => write!(out, "\\u{:04x}", u32::from(letter))?,
            _ if text::byte_of(letter).is_some() => out.write_str("\\ufffd")?,
            _ => write!(out, "{letter}")?,
        }
    }
    out.write_str("\"")
}

#[cfg(test)]
mod tests {
    use std::io::Write;
    use std::process::{Command, Stdio};

    use super::*;
    use crate::text::text_of;

    #[test]
    fn each_kind_of_value() {
        let mut object = Object::default();
        object.set("a", true);
        object.set("b", Value::Null);
        object.set("c", u64::MAX);
        object.list("d").push("x\"\\\n\u{7f}\u{e9}".into());
        object.object("e").set("f", vec![1u64, 2]);
        object.list("g");
        object.object("h");
        object.set("a", false);
        let written = r#"{"a":false,"b":null,"c":18446744073709551615,"d":["x\"\\\u000a\u007fé"],"e":{"f":[1,2]},"g":[],"h":{}}"#;
        assert_eq!(object.to_string(), written);
    }

    #[test]
    fn a_byte_that_is_no_utf8_cannot_be_read() {
        assert_eq!(
            Value::from(text_of(b"a\xffb\xe2\x82")).to_string(),
            r#""a\ufffdb\ufffd\ufffd""#
        );
    }

    /// Python's reader takes what is written, and finds the text that stands for the bytes.
    #[test]
    fn python_reads_odd_bytes() {
        let odd: Vec<Vec<u8>> =
            (0..=255u8).map(|byte| vec![b'a', byte, 0xc3, byte, b'z']).collect();
        let lines: String =
            odd.iter().map(|bytes| format!("{}\n", Value::from(text_of(bytes)))).collect();
        let script = "import json,sys\nfor line in sys.stdin.buffer: print(json.loads(line.decode()).encode().hex())";
        let started = Command::new("python3")
            .args(["-c", script])
            .stdin(Stdio::piped())
            .stdout(Stdio::piped())
            .spawn();
        let Ok(mut python) = started else { return };
        python.stdin.take().unwrap().write_all(lines.as_bytes()).unwrap();
        let read = String::from_utf8(python.wait_with_output().unwrap().stdout).unwrap();
        let wanted: Vec<String> = odd.iter().map(|bytes| hex(replaced(bytes).as_bytes())).collect();
        assert_eq!(read.lines().collect::<Vec<_>>(), wanted);
    }

    /// The bytes as text, where each that begins no letter is U+FFFD.
    fn replaced(bytes: &[u8]) -> String {
        let letters = text_of(bytes);
        letters.chars().map(|letter| text::byte_of(letter).map_or(letter, |_| '\u{fffd}')).collect()
    }

    fn hex(bytes: &[u8]) -> String {
        bytes.iter().map(|byte| format!("{byte:02x}")).collect()
    }
}
