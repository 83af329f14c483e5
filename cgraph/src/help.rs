//! The usage, and the help: the manual as plain text.

use crate::manual::{parts_of, Part};

/// The manual.
pub const MANUAL: &str = include_str!("../../docs/MANUAL.md");

/// No line of a paragraph is wider.
const WIDTH: usize = 79;

/// The usage of a command, or of all.
pub fn usage(word: Option<&str>) -> String {
    parts_of(MANUAL).iter().find_map(|part| synopsis(part, word)).unwrap_or_default()
}

/// The lines of the synopsis that are of a command, which begins with the first lines that are
/// kept.
fn synopsis(part: &Part, word: Option<&str>) -> Option<String> {
    let Part::Kept(lines) = part else { return None };
    let own = lines.iter().filter(|line| word.map_or(true, |word| has_word(line, word)));
    let own: Vec<&str> = own.map(String::as_str).collect();
    Some(format!("usage: {}\n", own.join("\n   or: ")))
}

/// Whether a line of the synopsis is of a command.
fn has_word(line: &str, word: &str) -> bool {
    line.split(|letter: char| " []|".contains(letter)).any(|part| part == word)
}

/// The help of a command, or the whole manual.
pub fn help(word: Option<&str>) -> String {
    match word {
        Some(word) => help_of(word),
        None => whole(),
    }
}

/// The whole manual.
fn whole() -> String {
    let (mut text, mut name, mut lines, mut is_synopsis) = (String::new(), String::new(), 0, false);
    for part in parts_of(MANUAL) {
        match part {
            Part::Title(title) => name = title,
            Part::About(about) => text += &format!("{name}: {about}\n"),
            Part::Heading(heading) => {
                is_synopsis = heading == "Synopsis";
                lines = 0;
                if !is_synopsis {
                    text += &format!("\n{heading}\n");
                }
            }
            Part::Kept(_) if is_synopsis => text += &format!("\n{}", usage(None)),
            Part::Kept(kept) => {
                text.push('\n');
                kept.iter().for_each(|line| text += &format!("  {line}\n"));
            }
            Part::Paragraph(paragraph) => {
                if lines > 0 {
                    text.push('\n');
                }
                text += &wrapped(&paragraph, "");
                lines += 1;
            }
            Part::Item { term, text: told } => {
                text += &format!("  {}\n{}", plain(&term), wrapped(&told, "      "));
                lines += 1;
            }
            Part::Point(point) => {
                text += &wrapped(&point, "    ").replacen("    ", "  - ", 1);
                lines += 1;
            }
        }
    }
    text
}

/// The part on a command and its options.
fn help_of(word: &str) -> String {
    let (mut text, mut section, mut options) = (usage(Some(word)), String::new(), 0);
    for part in parts_of(MANUAL) {
        match part {
            Part::Heading(heading) => section = heading,
            Part::Item { term, text: told } => {
                if section == "Commands" && first_word(&plain(&term)) == word {
                    text += &format!("\n{}", wrapped(&told, ""));
                } else if is_for(&told, word) {
                    let start = if options == 0 { "\n" } else { "" };
                    let told = wrapped(&without_commands(&told), "      ");
                    text += &format!("{start}  {}\n{told}", plain(&term));
                    options += 1;
                }
            }
            _ => {}
        }
    }
    text + "\n'git cgraph -h' has the options of all commands, and examples.\n"
}

/// Whether what is said of an option begins with a command that it is for.
fn is_for(text: &str, word: &str) -> bool {
    commands_before(text).0.iter().any(|command| first_word(command) == word)
}

/// The commands that an option is for, as it is told, and what is told then.
pub fn commands_before(text: &str) -> (Vec<&str>, &str) {
    let mut commands = Vec::new();
    let Some(mut rest) = text.strip_prefix("With `") else { return (commands, text) };
    loop {
        let Some((command, after)) = rest.split_once('`') else { return (Vec::new(), text) };
        commands.push(command);
        rest = match after.strip_prefix(", `").or_else(|| after.strip_prefix(" and `")) {
            Some(next) => next,
            None => return (commands, after.strip_prefix(", ").unwrap_or(text)),
        };
    }
}

/// What is said of an option, without the commands that it is for.
fn without_commands(text: &str) -> String {
    let (commands, rest) = commands_before(text);
    if commands.iter().any(|command| command.contains(' ')) || rest.len() == text.len() {
        return text.to_owned();
    }
    capital(rest)
}

/// A text that begins with a capital letter.
pub fn capital(text: &str) -> String {
    let mut letters = text.chars();
    let first = letters.next().map(|letter| letter.to_ascii_uppercase());
    first.into_iter().chain(letters).collect()
}

/// The first word of a text.
pub fn first_word(text: &str) -> &str {
    text.split(' ').next().unwrap_or_default()
}

/// A text without its backquotes.
fn plain(text: &str) -> String {
    text.replace('`', "")
}

/// A text in lines of some width, each of which begins with the same blanks. What stands in
/// backquotes has quotes there.
fn wrapped(text: &str, indent: &str) -> String {
    let (mut whole, mut line) = (String::new(), String::new());
    for word in text.replace('`', "'").split_whitespace() {
        if !line.is_empty() && line.len() + 1 + word.len() > WIDTH {
            whole += &format!("{line}\n");
            line.clear();
        }
        line += if line.is_empty() { indent } else { " " };
        line += word;
    }
    whole + &line + "\n"
}

#[cfg(test)]
mod tests {
    use super::*;

    #[test]
    fn the_usage_of_a_command() {
        let wanted = "usage: git cgraph [<options>] verify | check | distinct | show | list [--if-exists]\n   \
                      or: git cgraph [<options>] verify [--all-checks] [--objects] [-j <n>] \
                      [--paths]\n";
        assert_eq!(usage(Some("verify")), wanted);
        assert!(usage(None).ends_with("   or: git cgraph -h | --help | --version\n"));
    }

    #[test]
    fn the_help_of_a_command_has_its_options() {
        let help = help(Some("write"));
        assert!(
            help.contains("\n\n  --split\n      Write a layer of the commits")
                && help.contains("\n  --keep-filters\n"),
            "{help}"
        );
        assert!(!help.contains("--jobs") && !help.contains("--quiet"));
    }

    #[test]
    fn commands_that_an_option_is_for() {
        let (commands, rest) = commands_before("With `a`, `b -x` and `c`, do it");
        assert_eq!((commands, rest), (vec!["a", "b -x", "c"], "do it"));
        assert_eq!(commands_before("With all commands but `ask`, do it").0, Vec::<&str>::new());
        assert_eq!(without_commands("With `a` and `b`, do it"), "Do it");
        assert_eq!(without_commands("With `a -x`, do it"), "With `a -x`, do it");
    }

    #[test]
    fn lines_are_not_too_wide() {
        let help = super::help(Some("write"));
        assert!(help.lines().all(|line| line.len() <= WIDTH), "{help}");
    }
}
