//! The one table of commands, tables/commands.

/// The table, as the clone has it.
const TABLE: &str = include_str!("../../tables/commands");

/// One of the proved programs.
#[derive(Clone, Copy, Debug, PartialEq, Eq)]
pub enum Tool {
    Graphtool,
    Historytool,
}

impl Tool {
    /// The name of the program.
    pub fn name(self) -> &'static str {
        match self {
            Tool::Graphtool => "graphtool",
            Tool::Historytool => "historytool",
        }
    }
}

/// How many ids a command takes.
#[derive(Clone, Copy, Debug, PartialEq, Eq)]
pub enum Takes {
    Ids(usize),
    IdsOrMore(usize),
    Range,
}

impl Takes {
    /// Whether it takes so many.
    pub fn fits(self, count: usize) -> bool {
        match self {
            Takes::Ids(number) => count == number,
            Takes::IdsOrMore(number) => count >= number,
            Takes::Range => count == 0 || count == 2,
        }
    }

    /// Whether it takes any.
    pub fn some(self) -> bool {
        matches!(self, Takes::Ids(1..) | Takes::IdsOrMore(_))
    }
}

/// A command of a program: a row of the table.
#[derive(Clone, Copy, Debug, PartialEq, Eq)]
pub struct Command {
    pub word: &'static str,
    pub tool: Tool,
    pub reads: &'static str,
    pub takes: Takes,
    /// Whether `git cgraph` has it too.
    pub by_git: bool,
    pub about: &'static str,
}

/// All commands, in the order of the table.
pub fn all() -> impl Iterator<Item = Command> {
    TABLE.lines().filter_map(row)
}

/// The command of `git cgraph` with this word.
pub fn by_git(word: &str) -> Option<Command> {
    all().find(|command| command.by_git && command.word == word)
}

/// The command of a row, if it is one.
fn row(line: &'static str) -> Option<Command> {
    let (word, rest) = cut(line)?;
    let (tool, rest) = cut(rest)?;
    let (reads, rest) = cut(rest)?;
    let (ids, rest) = cut(rest)?;
    let (by_git, about) = cut(rest)?;
    if word.starts_with('#') {
        return None;
    }
    let tool = if tool == "graphtool" { Tool::Graphtool } else { Tool::Historytool };
    let takes = match (ids, ids.strip_suffix('+')) {
        ("range", _) => Takes::Range,
        (_, Some(least)) => Takes::IdsOrMore(least.parse().ok()?),
        _ => Takes::Ids(ids.parse().ok()?),
    };
    Some(Command { word, tool, reads, takes, by_git: by_git == "yes", about })
}

/// The first word of a text, and what follows it.
fn cut(text: &'static str) -> Option<(&'static str, &'static str)> {
    let (word, rest) = text.split_once(' ')?;
    Some((word, rest.trim_start()))
}

#[cfg(test)]
mod tests {
    use super::*;

    #[test]
    fn each_row_of_the_table_is_read() {
        let rows = TABLE.lines().filter(|line| !line.starts_with('#')).count();
        assert_eq!(all().count(), rows);
        assert!(all().all(|command| !command.about.is_empty()));
    }

    #[test]
    fn the_numbers_of_ids() {
        assert_eq!(by_git("verify").map(|command| command.takes), Some(Takes::Ids(0)));
        assert_eq!(by_git("merge-base").map(|command| command.takes), Some(Takes::IdsOrMore(2)));
        assert_eq!(by_git("ids"), None);
        assert_eq!(
            all().find(|command| command.word == "ids").map(|it| it.takes),
            Some(Takes::Range)
        );
        assert!(Takes::Range.fits(2) && !Takes::Range.fits(1));
        assert!(Takes::IdsOrMore(2).fits(7) && !Takes::IdsOrMore(2).fits(1));
    }
}
