//! How the lines of an answer become fields of an object.

use std::io::BufRead;

use crate::json::{Object, Value};

/// The table, as the clone has it.
const TABLE: &str = include_str!("../../tables/fields");

/// The fields of the lines of a command.
pub fn fields_of(command: &str, lines: impl BufRead) -> Object {
    let rows: Vec<Row> = TABLE.lines().filter_map(|line| Row::of(line, command)).collect();
    let mut fields = Object::default();
    for line in lines.lines().map_while(Result::ok) {
        let words: Vec<&str> = line.split(' ').collect();
        if let Some(row) = rows.iter().find(|row| row.fits(&words)) {
            for part in &row.parts {
                add_part(&mut fields, part, &words);
            }
        }
    }
    fields
}

/// A row of the table: the words of a line, and what becomes of it.
struct Row {
    form: Vec<&'static str>,
    parts: Vec<&'static str>,
}

impl Row {
    /// The row of a line of the table, if it is one of this command.
    fn of(line: &'static str, command: &str) -> Option<Row> {
        let (form, parts) = line.split_once(" : ").filter(|_| !line.starts_with('#'))?;
        let mut form = form.split_whitespace();
        let is_own = form.next()?.split(',').any(|own| own == command);
        is_own.then(|| Row { form: form.collect(), parts: parts.split_whitespace().collect() })
    }

    /// Whether these are its words.
    fn fits(&self, words: &[&str]) -> bool {
        self.form.len() == words.len()
            && self.form.iter().zip(words).all(|(own, word)| *own == "*" || own == word)
    }
}

/// Adds a part of what becomes of a line: a field, one more value of a list, or one more field of
/// an object; or begins a list or an object that may stay empty.
fn add_part(fields: &mut Object, part: &str, words: &[&str]) {
    let (name, value) = part.split_once('=').unwrap_or((part, ""));
    if let Some(name) = name.strip_suffix("[]") {
        let list = fields.list(name);
        if !value.is_empty() {
            list.push(value_of(value, words));
        }
    } else if let Some(name) = name.strip_suffix("{}") {
        add_pair(fields.object(name), value, words);
    } else {
        fields.set(word_of(name, words), value_of(value, words));
    }
}

/// Adds a field to an object, if there is one: its name in quotes, a colon, and its value.
fn add_pair(object: &mut Object, pair: &str, words: &[&str]) {
    if let Some((name, value)) = pair.split_once(':') {
        object.set(word_of(name.trim_matches('"'), words), value_of(value, words));
    }
}

/// A word of the table, or the word of the line of which it has the number.
fn word_of<'a>(text: &'a str, words: &[&'a str]) -> &'a str {
    let number = text.strip_prefix('$').and_then(|number| number.parse::<usize>().ok());
    number.and_then(|number| words.get(number.checked_sub(1)?)).copied().unwrap_or(text)
}

/// A value of the table: an object, a text in quotes, a truth, or what a word says, which is a
/// number, or nothing for `none`.
fn value_of(text: &str, words: &[&str]) -> Value {
    if let Some(pairs) = text.strip_prefix('{').and_then(|text| text.strip_suffix('}')) {
        let mut object = Object::default();
        pairs.split(',').for_each(|pair| add_pair(&mut object, pair, words));
        return object.into();
    }
    match word_of(text, words) {
        "true" => Value::Bool(true),
        "false" => Value::Bool(false),
        "none" | "null" => Value::Null,
        word => match word.parse() {
            Ok(number) => Value::Number(number),
            Err(_) => Value::from(word_of(word.trim_matches('"'), words)),
        },
    }
}

/// What a word of a listing says.
fn number_of(word: &str) -> Value {
    value_of(word, &[])
}

/// Makes objects of the lines of a listing. Positions count over all layers.
#[derive(Default)]
pub struct Listing {
    /// The number of the layer, and how many commits the layers below it have.
    pub layer: u64,
    pub below: u64,
    layer_fields: Object,
    awaited: u64,
    bases: Vec<Value>,
}

impl Listing {
    /// The listing of a layer, over so many commits below.
    pub fn of_layer(layer: u64, below: u64) -> Self {
        Listing { layer, below, ..Listing::default() }
    }

    /// The object that a line completes, if it completes one. That of a layer comes once all of its
    /// base ids are there.
    pub fn object_of(&mut self, line: &str) -> Option<Object> {
        let words: Vec<&str> = line.split(' ').collect();
        match words[..] {
            ["layer", hash, "bases", bases, "commits", commits] => {
                self.layer_fields = Object::default();
                self.layer_fields.set("layer", self.layer);
                self.layer_fields.set("hash", hash);
                self.layer_fields.set("bases", Value::List(Vec::new()));
                self.layer_fields.set("commits", number_of(commits));
                self.awaited = bases.parse().unwrap_or(0);
                self.bases.clear();
                (self.awaited == 0).then(|| self.layer_fields.clone())
            }
            ["base", id] => {
                self.bases.push(Value::from(id));
                self.layer_fields.set("bases", Value::List(self.bases.clone()));
                (self.bases.len() as u64 == self.awaited).then(|| self.layer_fields.clone())
            }
            [position, id, tree, generation, time, parents] => {
                let mut commit = Object::default();
                let position: u64 = position.parse().unwrap_or(0);
                commit.set("position", self.below + position);
                commit.set("id", id);
                commit.set("tree", tree);
                commit.set("generation", number_of(generation));
                commit.set("time", number_of(time));
                let parents = parents.split(',').filter(|parent| *parent != "-");
                commit.set("parents", Value::List(parents.map(number_of).collect()));
                Some(commit)
            }
            _ => None,
        }
    }
}

#[cfg(test)]
mod tests {
    use super::*;

    fn written(command: &str, lines: &str) -> String {
        fields_of(command, lines.as_bytes()).to_string()
    }

    #[test]
    fn counts() {
        let lines = "ok commits 2 longest none\nparents 1 commits 2\ndates commits 2\nfilters none\nobjects commits 2\n";
        let wanted = r#"{"commits":2,"longest":null,"parents":{"1":2},"dates":2,"filters":null,"objects":2}"#;
        assert_eq!(written("check", lines), wanted);
        let wanted = r#"{"commits":0,"longest":0,"parents":{}}"#;
        assert_eq!(written("verify", "ok commits 0 longest 0\n"), wanted);
    }

    #[test]
    fn answers_about_commits() {
        let wanted = r#"{"position":2,"generation":3,"time":17179869183}"#;
        assert_eq!(written("find", "position 2 generation 3 time 17179869183\n"), wanted);
        assert_eq!(written("find", "none\n"), r#"{"position":null}"#);
        assert_eq!(written("is-ancestor", "no\n"), r#"{"is_ancestor":false}"#);
        assert_eq!(written("walk", "aa\nbb\n"), r#"{"walk":["aa","bb"]}"#);
        assert_eq!(written("walk", "none\n"), r#"{"walk":null}"#);
        let lines = "base 2 aa\nahead 3 behind 4\nvisits 5\n";
        let wanted =
            r#"{"merge_bases":[{"id":"aa","position":2}],"ahead":3,"behind":4,"visits":5}"#;
        assert_eq!(written("merge-base", lines), wanted);
        assert_eq!(written("merge-base", "none\n"), r#"{"merge_bases":[]}"#);
        assert_eq!(written("write", "ok commits 4 layers 2\n"), r#"{"commits":4,"layers":2}"#);
    }

    #[test]
    fn listings() {
        let mut listing = Listing::of_layer(1, 5);
        assert_eq!(listing.object_of("layer sha1 bases 1 commits 2"), None);
        let layer = listing.object_of("base cc").unwrap().to_string();
        assert_eq!(layer, r#"{"layer":1,"hash":"sha1","bases":["cc"],"commits":2}"#);
        let commit = listing.object_of("1 aa bb 4 0 1,0,!4").unwrap().to_string();
        let wanted =
            r#"{"position":6,"id":"aa","tree":"bb","generation":4,"time":0,"parents":[1,0,"!4"]}"#;
        assert_eq!(commit, wanted);
        assert!(listing
            .object_of("0 aa bb 4 0 -")
            .unwrap()
            .to_string()
            .ends_with(r#""parents":[]}"#));
    }
}
