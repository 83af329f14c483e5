//! What is known of a line beside its row in the tables, and the sentences and the fields of JSON
//! that say all of it.

use std::path::PathBuf;

use crate::error::Error;
use crate::json::Object;
use crate::refusals::{self, number_after, Meaning, ANEW};
use crate::session::NAME;
use crate::text::{is_readable, shown};

/// What is known of one repository. All of it may be empty.
#[derive(Clone, Debug, Default, PartialEq, Eq)]
pub struct Known {
    /// What happened, in the place of what the table has.
    pub cause: String,
    /// A sentence on the file of which the line speaks.
    pub place: String,
    /// That file.
    pub file: Option<PathBuf>,
    /// What to do, in the place of what the table has.
    pub advice: String,
    /// The commands for that.
    pub cure: Vec<String>,
    /// What these may lose.
    pub note: String,
    /// The id of the commit of which the line speaks.
    pub commit: String,
    /// The id of the tree of which it speaks, where it does.
    pub tree: String,
    /// Whether nothing is wrong with what the repository has, as far as one knows.
    pub is_absent: bool,
    /// Whether there is no commit-graph.
    pub has_none: bool,
}

/// A line, by whatever command it was answered, with what is known of it.
pub struct Explained<'a> {
    line: &'a str,
    known: &'a Known,
    row: Option<Meaning>,
    /// What is said beside an answer, with its row.
    beside: Option<(String, Meaning)>,
}

impl<'a> Explained<'a> {
    /// Looks for the rows.
    pub fn new(line: &'a str, command: &str, beside: Option<&Error>, known: &'a Known) -> Self {
        let beside = beside.map(|error| {
            let text = error.to_string();
            let row = refusals::meaning_of(&text, command).unwrap_or_default();
            (text, row)
        });
        Explained { line, known, row: refusals::meaning_of(line, command), beside }
    }

    /// All sentences, and the commands after them, as standard error has them; nothing where no row
    /// is found.
    pub fn sentences(&self) -> String {
        let mut said = Vec::new();
        if self.row.is_none() && self.beside.is_none() {
            return String::new();
        }
        if !self.known.commit.is_empty() && !self.line.starts_with("unknown ") {
            let place = number_after(self.line, " position ")
                .map_or_else(String::new, |position| format!("at position {position} "));
            said.push(format!("the commit {place}is {}", self.known.commit));
        }
        said.extend(self.happened());
        if let Some((text, row)) = &self.beside {
            said.extend([text.clone(), row.happened.clone()]);
        }
        if !self.known.place.is_empty() {
            said.push(self.known.place.clone());
        }
        let mut text: String =
            said.iter().map(|sentence| format!("{NAME}: {sentence}\n")).collect();
        text.push_str(&self.cure());
        text
    }

    /// What happened, where that is known.
    fn happened(&self) -> Option<String> {
        let row = self.row.as_ref()?;
        let cause = &self.known.cause;
        Some(if cause.is_empty() { row.happened.clone() } else { cause.clone() })
    }

    /// What to do, by the row of the line that stands beside, if there is one.
    fn to_do(&self) -> String {
        if !self.known.advice.is_empty() {
            return self.known.advice.clone();
        }
        let row = self.beside.as_ref().map(|(_, row)| row).or(self.row.as_ref());
        row.map(|row| row.to_do.clone()).unwrap_or_default()
    }

    /// Whether the commands by which a commit-graph is written anew are a part of what to do.
    fn has_commands(&self, to_do: &str) -> bool {
        (to_do.contains(ANEW) || !self.known.advice.is_empty()) && !self.known.cure.is_empty()
    }

    /// What to do, and the sentence that follows on it, if there is one.
    fn noted(&self, to_do: &str) -> String {
        match self.known.note.as_str() {
            "" => to_do.to_owned(),
            note => format!("{to_do}. {note}"),
        }
    }

    /// What to do, and how a commit-graph is written anew where that is a part of it.
    fn cure(&self) -> String {
        let to_do = self.to_do();
        if self.has_commands(&to_do) {
            return what_to_do(&self.noted(&to_do), &self.known.cure);
        }
        if to_do == ANEW {
            return what_to_do(&refusals::anew_in_words(), &[]);
        }
        let mut text = String::new();
        if !to_do.is_empty() {
            text = what_to_do(&to_do, &[]);
        }
        if to_do.contains(ANEW) {
            text += &format!("{NAME}: to write it anew, {}\n", refusals::anew_in_words());
        }
        text
    }

    /// The fields of an object: those alone of which something is known. Commands with a byte that
    /// is no UTF-8 would name another path.
    pub fn fields(&self, warnings: &[String]) -> Object {
        let mut fields = Object::default();
        let mut warnings = warnings.to_vec();
        if let Some((text, row)) = &self.beside {
            warnings.push(format!("{text}: {}", row.happened));
        }
        if !warnings.is_empty() {
            fields.set("warnings", warnings);
        }
        let known = self.known;
        fields.set_text("error", self.line);
        fields.set_text("reason", &self.happened().unwrap_or_default());
        fields.set_text("where", &known.place);
        if !known.cause.is_empty() || !known.place.is_empty() {
            fields.set_text("file", &known.file.as_ref().map(shown).unwrap_or_default());
        }
        fields.set_text("commit", &known.commit);
        let to_do = self.to_do();
        if self.has_commands(&to_do) {
            fields.set_text("advice", &self.noted(&to_do));
            if known.cure.iter().all(|command| is_readable(command)) {
                fields.set("cure", known.cure.clone());
            }
        } else if to_do == ANEW && known.cure.is_empty() {
            fields.set_text("advice", &refusals::anew_in_words());
        } else {
            fields.set_text("advice", &to_do);
        }
        fields
    }
}

/// A sentence on what to do, and the commands for that.
pub fn what_to_do(advice: &str, cure: &[String]) -> String {
    let end = if cure.is_empty() { "" } else { ":" };
    let commands: String = cure.iter().map(|command| format!("    {command}\n")).collect();
    format!("{NAME}: what to do: {advice}{end}\n{commands}")
}

#[cfg(test)]
mod tests {
    use super::*;

    #[test]
    fn what_is_known_comes_before_what_the_table_has() {
        let known = Known {
            place: "the file is 'x'".into(),
            cure: vec!["rm -f 'x'".into(), "git commit-graph write --reachable".into()],
            note: "And more".into(),
            ..Known::default()
        };
        let explained = Explained::new("refused verify 4 layer 0 fault 1", "verify", None, &known);
        let said = explained.sentences();
        let wanted = "git cgraph: the file is 'x'\n\
                      git cgraph: what to do: check the disk, and write it anew. And more:\n    rm -f 'x'\n    \
                      git commit-graph write --reachable\n";
        assert!(
            said.starts_with("git cgraph: the checksum of layer 0 is not")
                && said.ends_with(wanted),
            "{said}"
        );
    }

    #[test]
    fn without_commands_the_words_stand_for_them() {
        let known = Known::default();
        let said = Explained::new("refused verify 1", "verify", None, &known).sentences();
        assert!(said.contains("what to do: remove '.git/objects/info/commit-graph'"), "{said}");
        let said =
            Explained::new("refused verify 4 layer 0 fault 1", "verify", None, &known).sentences();
        assert!(said.contains("\ngit cgraph: to write it anew, remove "), "{said}");
    }

    #[test]
    fn a_line_of_no_row_says_nothing() {
        assert_eq!(
            Explained::new("refused nothing", "verify", None, &Known::default()).sentences(),
            ""
        );
    }

    #[test]
    fn commands_that_would_name_another_path_are_left_out() {
        let mut known = Known {
            advice: "do it".into(),
            cure: vec![crate::text::text_of(b"rm \xff")],
            ..Known::default()
        };
        let fields = |known: &Known| {
            Explained::new("refused verify 1", "verify", None, known).fields(&[]).to_string()
        };
        assert!(!fields(&known).contains("cure"));
        known.cure = vec!["rm x".into()];
        assert!(fields(&known).ends_with(r#""advice":"do it","cure":["rm x"]}"#));
    }
}
