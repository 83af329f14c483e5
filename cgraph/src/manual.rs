//! The parts of a manual, such as docs/MANUAL.md.
//!
//! The document has headings, indented lines that are kept, items that begin with “- ” and a term
//! in backquotes, and paragraphs.

/// A part of a manual.
#[derive(Debug, PartialEq, Eq)]
pub enum Part {
    /// The name of what it is about.
    Title(String),
    /// The line that says what that is.
    About(String),
    Heading(String),
    Paragraph(String),
    Item {
        term: String,
        text: String,
    },
    /// An item without a term.
    Point(String),
    /// Lines that are kept as they are.
    Kept(Vec<String>),
}

/// The parts of a document, in their order.
pub fn parts_of(document: &str) -> Vec<Part> {
    let mut reader = Reader::default();
    for line in document.lines() {
        reader.take(line);
    }
    reader.finish();
    reader.parts
}

#[derive(Default)]
struct Reader {
    parts: Vec<Part>,
    text: String,
    is_item: bool,
    has_heading: bool,
}

impl Reader {
    fn take(&mut self, line: &str) {
        if let Some(title) = line.strip_prefix("# ") {
            self.parts.push(Part::Title(title.to_owned()));
        } else if let Some(heading) = line.strip_prefix("## ") {
            self.finish();
            self.has_heading = true;
            self.parts.push(Part::Heading(heading.to_owned()));
        } else if let Some(kept) = line.strip_prefix("    ") {
            self.finish();
            match self.parts.last_mut() {
                Some(Part::Kept(lines)) => lines.push(kept.to_owned()),
                _ => self.parts.push(Part::Kept(vec![kept.to_owned()])),
            }
        } else if let Some(item) = line.strip_prefix("- ") {
            self.finish();
            self.is_item = true;
            self.text = item.to_owned();
        } else if line.is_empty() {
            self.finish();
        } else {
            if !self.text.is_empty() {
                self.text.push(' ');
            }
            self.text.push_str(line.trim_start());
        }
    }

    /// Ends the paragraph or the item that was begun.
    fn finish(&mut self) {
        let (text, is_item) = (std::mem::take(&mut self.text), std::mem::take(&mut self.is_item));
        if text.is_empty() {
            return;
        }
        self.parts.push(match text.split_once(": ") {
            _ if !self.has_heading => Part::About(text),
            Some((term, told)) if is_item && is_term(term) => {
                Part::Item { term: term.to_owned(), text: told.to_owned() }
            }
            _ if is_item => Part::Point(text),
            _ => Part::Paragraph(text),
        });
    }
}

/// Whether a text has terms in backquotes, and no other words than those that stand between them.
fn is_term(text: &str) -> bool {
    let mut between = text.split('`').step_by(2);
    between.all(|part| matches!(part, "" | ", " | " and " | ", and "))
}

#[cfg(test)]
mod tests {
    use super::*;

    #[test]
    fn all_kinds_of_parts() {
        let document = "# a\n\nwhat it is\n\n## One\n\n    kept\n\n      more\n\nwords\nand words\n\n- `x`: an\n  item\n- `y`, `z`: z\n- `x` is: no term\n";
        let text = |text: &str| text.to_owned();
        let wanted = [
            Part::Title(text("a")),
            Part::About(text("what it is")),
            Part::Heading(text("One")),
            Part::Kept(vec![text("kept"), text("  more")]),
            Part::Paragraph(text("words and words")),
            Part::Item { term: text("`x`"), text: text("an item") },
            Part::Item { term: text("`y`, `z`"), text: text("z") },
            Part::Point(text("`x` is: no term")),
        ];
        assert_eq!(parts_of(document), wanted);
    }
}
