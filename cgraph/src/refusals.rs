//! What a line means and what to do, by the table tables/refusals.tsv.
//!
//! A row is that of a line if its own has the same words, where a capital letter stands for any
//! number, and the line may have more words at its end. Of several such rows the one with the most
//! words is taken, of those one that is for the command, and of those the one with the fewest
//! letters. In the sentences `L+1` is one more than L.

use crate::system::signal_name;

/// The table, as the clone has it.
const TABLE: &str = include_str!("../../tables/refusals.tsv");

/// What stands for the commands by which a commit-graph is written anew.
pub const ANEW: &str = "write it anew";

/// What a row says of a line, with its numbers.
#[derive(Clone, Debug, Default, PartialEq, Eq)]
pub struct Meaning {
    pub happened: String,
    pub to_do: String,
}

/// A row, as it fits a line.
#[derive(Clone, Copy)]
struct Fit {
    score: usize,
    text: &'static str,
    happened: &'static str,
    to_do: &'static str,
}

/// What the tables say of a line that a command answered, if they have a row of it.
pub fn meaning_of(line: &str, command: &str) -> Option<Meaning> {
    let row = row_of(line, command)?;
    let mut happened = plain(row.happened);
    if let Some(detail) = detail_of(line).and_then(|detail| row_of(&detail, command)) {
        happened = format!("{}: {}", without_reference(&happened), plain(detail.happened));
    }
    let values = values_of(row.text, line);
    Some(Meaning {
        happened: with_values(&happened, &values),
        to_do: with_values(&plain(row.to_do), &values),
    })
}

/// How a commit-graph is written anew, in words.
pub fn anew_in_words() -> String {
    row_of(ANEW, "").map(|row| plain(row.happened)).unwrap_or_default()
}

/// The number after a word of a line, such as that after ` position `.
pub fn number_after<'a>(line: &'a str, word: &str) -> Option<&'a str> {
    line.split_once(word)?.1.split(' ').next()
}

/// A row of the table.
struct Row {
    text: &'static str,
    /// The commands that it is for, where it is not for all.
    commands: &'static str,
    happened: &'static str,
    to_do: &'static str,
}

/// The rows that have a line.
fn rows() -> impl Iterator<Item = Row> {
    let mut lines = TABLE.lines();
    let titles: Vec<&str> = lines.next().unwrap_or("").split('\t').collect();
    lines.filter_map(move |line| {
        let cells: Vec<&'static str> = line.split('\t').collect();
        let cell = |title| {
            let at = titles.iter().position(|&known| known == title);
            at.and_then(|at| cells.get(at)).copied().unwrap_or("")
        };
        let row = Row {
            text: cell("line"),
            commands: cell("from"),
            happened: cell("what happened"),
            to_do: cell("what to do"),
        };
        (!row.text.is_empty()).then_some(row)
    })
}

/// The row that fits a line best.
fn row_of(line: &str, command: &str) -> Option<Fit> {
    let mut best = None::<Fit>;
    for Row { text, commands, happened, to_do } in rows() {
        let score = score_of(text, commands, line, command);
        if score > best.map_or(0, |fit| fit.score) {
            best = Some(Fit { score, text, happened, to_do });
        }
    }
    best
}

/// How well a text and the commands of its row fit a line: 0 where they do not.
fn score_of(text: &str, commands: &str, line: &str, command: &str) -> usize {
    let (mut count, mut letters, mut parts) = (0, 0, line.split(' '));
    for word in text.split(' ') {
        match parts.next() {
            Some(part) if is_letter(word) && is_number(part) => letters += 1,
            Some(part) if part == word => {}
            _ => return 0,
        }
        count += 1;
    }
    let score = 100 * count - letters;
    if commands.is_empty() {
        score
    } else if commands.split(' ').any(|known| known == command) {
        score + 50
    } else {
        0
    }
}

fn is_letter(word: &str) -> bool {
    matches!(word.as_bytes(), [b'A'..=b'Z'])
}

fn is_number(part: &str) -> bool {
    !part.is_empty() && part.bytes().all(|byte| byte.is_ascii_digit())
}

/// A sentence without the words on the table that explains its last number.
fn without_reference(happened: &str) -> &str {
    match happened.find(" is explained under ") {
        Some(at) => happened[..at].rsplit_once("; ").map_or(happened, |(before, _)| before),
        None => happened,
    }
}

/// The line that explains the last number of this one, if there is one.
fn detail_of(line: &str) -> Option<String> {
    if line.starts_with("refused open 5 ") {
        line.find(" file ").map(|at| format!("refused {}", &line[at + 1..]))
    } else if line.starts_with("refused verify 6 ") {
        line.split_once(" error ").map(|(_, number)| format!("!{number}"))
    } else {
        None
    }
}

/// The numbers that the letters of a text stand for in a line. That of a signal has its name behind
/// it.
fn values_of(text: &str, line: &str) -> Vec<(char, String)> {
    let pairs = text.split(' ').zip(line.split(' '));
    let letters = pairs.filter(|(word, _)| is_letter(word));
    let mut values: Vec<(char, String)> =
        letters.filter_map(|(word, part)| Some((word.chars().next()?, part.to_owned()))).collect();
    if let Some(number) = line.strip_prefix("ended by signal ") {
        let name = number.parse().ok().and_then(signal_name);
        values.push(('S', name.map_or(number.to_owned(), |name| format!("{number} (SIG{name})"))));
        values.rotate_right(1);
    }
    values
}

/// A sentence with numbers in the place of letters, and one more in the place of a letter with `+1`
/// behind it.
fn with_values(text: &str, values: &[(char, String)]) -> String {
    let (mut whole, mut before, mut rest) = (String::new(), ' ', text);
    while let Some(letter) = rest.chars().next() {
        rest = &rest[letter.len_utf8()..];
        let is_alone = !before.is_ascii_alphanumeric()
            && !rest.starts_with(|next: char| next.is_ascii_alphanumeric());
        match values.iter().find(|(known, _)| is_alone && *known == letter) {
            None => whole.push(letter),
            Some((_, value)) => match rest.strip_prefix("+1") {
                Some(after) => {
                    whole.push_str(&value.parse().map_or(0, |number: u64| number + 1).to_string());
                    rest = after;
                }
                None => whole.push_str(value),
            },
        }
        before = letter;
    }
    whole
}

/// A text of the table with the quotes of plain text.
fn plain(text: &str) -> String {
    text.replace('`', "'")
}

#[cfg(test)]
mod tests {
    use super::*;

    fn happened(line: &str, command: &str) -> String {
        meaning_of(line, command).unwrap().happened
    }

    #[test]
    fn numbers_stand_in_the_place_of_letters() {
        let said = happened("refused open 4 line 6", "verify");
        assert_eq!(said, "line 7 of the chain file is not UTF-8");
        let said = happened("refused verify 3 layer 2 index 1", "verify");
        assert!(said.starts_with("base id 1 of layer 2 is not the checksum of layer 1: "));
    }

    #[test]
    fn the_table_says_what_to_do() {
        assert_eq!(meaning_of("refused file 9", "list").unwrap().to_do, ANEW);
        assert_eq!(
            meaning_of("refused verify 5 position 1 fault 2", "verify").unwrap().to_do,
            ANEW
        );
    }

    #[test]
    fn a_row_may_be_for_one_command() {
        assert_eq!(
            happened("none", "walk"),
            "no walk along parents leads from the first commit to the second"
        );
        assert!(happened("none", "find").starts_with("the id is not in the commit-graph"));
        assert!(happened("none", "merge-base-ids").starts_with("the first commit has no common"));
        assert_eq!(
            happened("refused write 9", "write"),
            "the stream has no commits: Git writes no file then"
        );
        assert_eq!(
            happened("refused write 9", "merge"),
            "the graph has no commits: Git writes no file then"
        );
    }

    #[test]
    fn a_line_may_have_a_detail() {
        let said = happened("refused open 5 layer 1 file 5 chunk 2", "verify");
        let wanted =
            "the file of layer 1 is not a layer: the table of chunks passes the end of the file";
        assert_eq!(said, wanted);
        let said = happened("refused verify 6 position 9 error 4", "verify");
        assert_eq!(said, "its parents cannot be read: its list in 'EDGE' runs past the end");
    }

    #[test]
    fn signals_have_names() {
        assert_eq!(happened("ended by signal 11", ""), "signal 11 (SIGSEGV) ended the program");
        assert!(happened("ended by signal 9", "").contains("(SIGKILL)"));
    }

    #[test]
    fn a_line_of_no_row() {
        assert_eq!(meaning_of("refused nothing 3", "verify"), None);
        assert_eq!(meaning_of("", "verify"), None);
        assert_eq!(meaning_of("refused", "verify"), None);
    }
}
