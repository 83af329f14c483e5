//! The manual pages, of docs/MANUAL.md, and of docs/PROGRAMS.md with the table of commands.

use std::collections::BTreeMap;

use crate::commands::{self, Command, Takes, Tool};
use crate::help::{capital, MANUAL};
use crate::manual::{parts_of, Part};
use crate::VERSION;

const PROGRAMS: &str = include_str!("../../docs/PROGRAMS.md");

/// The manual page of a command by its name, if it is one of those that have a page.
pub fn page(name: &str) -> Option<String> {
    Some(match name {
        "git-cgraph" => page_of(MANUAL),
        "graphtool" => page_of(&manual_of(Tool::Graphtool)),
        "historytool" => page_of(&manual_of(Tool::Historytool)),
        _ => return None,
    })
}

/// The page of a manual.
fn page_of(manual: &str) -> String {
    let mut page = Page::default();
    for part in parts_of(manual) {
        page.add(part);
    }
    page.text
}

#[derive(Default)]
struct Page {
    text: String,
    name: String,
    section: String,
    /// How many paragraphs and items the section has, and whether the last of them is an item.
    parts: usize,
    is_in_item: bool,
}

impl Page {
    fn add(&mut self, part: Part) {
        match part {
            Part::Title(name) => self.name = name,
            Part::About(about) => self.begin(&about),
            Part::Heading(heading) => {
                self.text += &format!(".SH {}\n", roff(&heading.to_uppercase()));
                self.section = heading;
                (self.parts, self.is_in_item) = (0, false);
            }
            Part::Paragraph(text) => {
                self.text += if self.parts > 0 { ".PP\n" } else { "" };
                self.text += &format!("{}\n", roff_text(&text));
                self.parts += 1;
                self.is_in_item = false;
            }
            Part::Item { term, text } => {
                self.text += &format!(".TP\n{}\n{}\n", roff_text(&term), roff_text(&text));
                self.parts += 1;
                self.is_in_item = true;
            }
            Part::Point(text) => {
                self.text += &format!(".IP \\(bu 3\n{}\n", roff_text(&text));
                self.parts += 1;
                self.is_in_item = true;
            }
            Part::Kept(lines) => self.keep(&lines),
        }
    }

    fn begin(&mut self, about: &str) {
        let number = VERSION.split(',').next().unwrap_or_default();
        let (name, title) = (roff(&self.name), roff(&self.name.to_uppercase()));
        self.text +=
            &format!(".TH {title} 1 \"\" \"{}\" \"Nolavimure\"\n.nh\n.ad l\n", roff(number));
        self.text += &format!(".SH NAME\n{name} \\- {}\n", roff(about));
    }

    /// Lines that are kept. Those of the synopsis are the usage, and all others stand further in.
    fn keep(&mut self, lines: &[String]) {
        let is_synopsis = self.section == "Synopsis";
        if !is_synopsis && self.is_in_item {
            self.text += ".RS 11\n";
        } else if !is_synopsis {
            self.text += if self.parts > 0 { ".PP\n" } else { "" };
            self.text += ".RS 4\n";
            self.parts += 1;
        }
        self.text += ".nf\n";
        for line in lines {
            let line = if is_synopsis { bold(line) } else { roff_line(line) };
            self.text += &format!("{line}\n");
        }
        self.text += if is_synopsis { ".fi\n" } else { ".fi\n.RE\n" };
    }
}

/// A text for the page, with what stands in backquotes in bold.
fn roff_text(text: &str) -> String {
    let parts = text.split('`').enumerate();
    let whole: String =
        parts.map(|(at, part)| if at % 2 == 0 { roff(part) } else { bold(part) }).collect();
    guarded(whole)
}

/// A line of its own.
fn roff_line(line: &str) -> String {
    guarded(roff(line))
}

/// A line that is no request, also where it begins as one.
fn guarded(line: String) -> String {
    if line.starts_with(['.', '\'']) {
        format!("\\&{line}")
    } else {
        line
    }
}

fn bold(text: &str) -> String {
    format!("\\fB{}\\fR", roff(text))
}

/// Characters that have a meaning of their own in a manual page.
fn roff(text: &str) -> String {
    text.replace('\\', "\\e").replace('-', "\\-").replace('\'', "\\(aq").replace('~', "\\(ti")
}

/// The manual of a program.
fn manual_of(tool: Tool) -> String {
    let own: Vec<Command> = commands::all().filter(|command| command.tool == tool).collect();
    let told = Told::read(tool, &own);
    let name = tool.name();
    let mut text = format!("# {name}\n\n{}\n\n## Synopsis\n\n", told.about);
    for command in &own {
        text += &format!("    {name} {}{}\n", command.word, operands(command));
    }
    text +=
        &format!("    {name} --help | --version\n\n## Description\n{}## Commands\n\n", told.read);
    for command in &own {
        text += &told.item(command);
    }
    text += &format!("\n## Exit status\n\n{}\n", told.statuses());
    let other = match tool {
        Tool::Graphtool => "historytool",
        Tool::Historytool => "graphtool",
    };
    text +=
        "## Diagnostics\n\nA refusal is one line on standard output, such as `refused verify 4 \
             layer 0 fault 1`. Standard error says what it means and what to do.\n\n";
    text + &format!(
        "## See also\n\n`git-cgraph(1)`, `{other}(1)`, `git-commit-graph(1)`, \
         `gitformat-commit-graph(5)`\n"
    )
}

/// What stands after the word of a command.
fn operands(command: &Command) -> String {
    let path = match command.reads {
        "path" => " PATH",
        "optional" => " [PATH]",
        "trusted" => " [--unchecked] PATH",
        "newer" => " [--unchecked] [--newer] PATH",
        "limited" => " [--exact] [--trees N] PATH",
        _ => "",
    };
    match command.takes {
        Takes::Ids(count) => path.to_owned() + &" HEX".repeat(count),
        Takes::IdsOrMore(count) => path.to_owned() + &" HEX".repeat(count) + "..",
        Takes::Range => path.to_owned() + " [FROM TO]",
    }
}

/// What docs/PROGRAMS.md tells of a program.
#[derive(Default)]
struct Told {
    about: String,
    /// The part on what the programs read, but for paragraphs that begin with a command of the
    /// other program.
    read: String,
    /// What each command prints, and lines that show it.
    prints: BTreeMap<String, (String, String)>,
    /// What each exit status says, by its number.
    said: BTreeMap<u32, String>,
}

impl Told {
    fn read(tool: Tool, own: &[Command]) -> Self {
        let is_own = |word: &str| own.iter().any(|command| command.word == word);
        let mut told = Told::default();
        let (mut section, mut item, mut sample) = (String::new(), String::new(), String::new());
        let (mut is_first, mut is_left_out, mut status) = (false, false, String::new());
        for line in PROGRAMS.lines() {
            if let Some(heading) = line.strip_prefix("## ") {
                told.end_item(&mut item, &mut sample);
                heading.clone_into(&mut section);
            } else if section.is_empty() {
                let start = format!("- `{}`: ", tool.name());
                if let Some(about) = line.strip_prefix(&start) {
                    about.clone_into(&mut told.about);
                }
            } else if section == "What they read" {
                if is_first && !line.starts_with(' ') && !line.is_empty() {
                    is_left_out = begins_with_command(line).is_some_and(|word| !is_own(word));
                }
                if !is_left_out {
                    told.read += &format!("{line}\n");
                }
                is_first = line.is_empty();
            } else if section == "What they print" {
                if let Some(start) = line.strip_prefix("- ") {
                    told.end_item(&mut item, &mut sample);
                    start.clone_into(&mut item);
                } else if !item.is_empty() && line.starts_with("      ") {
                    sample += &format!("{}\n", &line[2..]);
                } else if !item.is_empty() && line.starts_with("  ") {
                    item += &format!(" {}", line.trim_start());
                }
            } else if section.ends_with("exit statuses") && line.starts_with("| ") {
                told.take_row(line, &mut status, is_own);
            }
        }
        told.end_item(&mut item, &mut sample);
        told
    }

    /// Notes what an item says that its commands print.
    fn end_item(&mut self, item: &mut String, sample: &mut String) {
        let (item, sample) = (std::mem::take(item), std::mem::take(sample));
        if let Some((names, text)) = item.split_once(": ") {
            let text = text.strip_suffix([';', '.', ':']).unwrap_or(text);
            for name in names.split('`').skip(1).step_by(2) {
                self.prints.insert(name.to_owned(), (text.to_owned(), sample.clone()));
            }
        }
    }

    /// Notes a row of the table of exit statuses, if it is of a command of this program.
    fn take_row(&mut self, line: &str, status: &mut String, is_own: impl Fn(&str) -> bool) {
        let cells: Vec<&str> = line.split('|').map(str::trim).collect();
        let [_, number, after, when, ..] = cells[..] else { return };
        if !number.is_empty() {
            number.clone_into(status);
        }
        let Ok(number) = status.parse::<u32>() else { return };
        let said = self.said.entry(number).or_default();
        if after == "all" {
            when.clone_into(said);
            return;
        }
        let words = after.split('`').skip(1).step_by(2).filter(|word| is_own(word));
        let words: Vec<String> = words.map(|word| format!("`{word}`")).collect();
        if !words.is_empty() {
            let start = if said.is_empty() { "" } else { "; " };
            *said += &format!("{start}{}: {when}", words.join(", "));
        }
    }

    /// The item of one command.
    fn item(&self, command: &Command) -> String {
        let head =
            format!("- `{}{}`: {}.", command.word, operands(command), capital(command.about));
        match self.prints.get(command.word) {
            Some((text, sample)) if sample.is_empty() => format!("{head} It prints {text}.\n"),
            Some((text, sample)) => format!("{head} It prints {text}:\n\n{sample}\n"),
            None => format!("{head}\n"),
        }
    }

    fn statuses(&self) -> String {
        let said = self.said.iter().filter(|(_, text)| !text.is_empty());
        said.map(|(status, text)| format!("- `{status}`: {}.\n", capital(text))).collect()
    }
}

/// The command with which a paragraph begins, if it does.
fn begins_with_command(line: &str) -> Option<&str> {
    let (word, rest) = line.strip_prefix('`')?.split_once('`')?;
    let is_word = word.bytes().all(|byte| byte.is_ascii_lowercase() || byte == b'-');
    (is_word && !word.is_empty() && rest.starts_with([' ', ','])).then_some(word)
}
