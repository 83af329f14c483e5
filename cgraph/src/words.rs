//! The words of the command line.

use std::ffi::{OsStr, OsString};
use std::os::unix::ffi::{OsStrExt, OsStringExt};
use std::path::PathBuf;

use crate::commands::{self, Command};
use crate::error::Error;
use crate::text::word_of;

/// What is asked for.
#[derive(Debug, PartialEq, Eq)]
pub enum Request {
    /// The help, of all commands or of one.
    Help(Option<&'static str>),
    Version,
    Question(Box<Words>),
}

/// The words of a question.
#[derive(Debug, PartialEq, Eq)]
pub struct Words {
    pub command: Command,
    pub options: Options,
    pub revisions: Vec<OsString>,
}

impl Words {
    /// The word of the command.
    pub fn word(&self) -> &'static str {
        self.command.word
    }

    /// Whether the question is also about commits that the commit-graph lacks, which Git hands over.
    pub fn is_about_newer(&self) -> bool {
        matches!(self.word(), "is-ancestor" | "walk" | "merge-base") && !self.options.graph_only
    }

    /// Whether the answer is to be an object of JSON. With `--quiet` there is none.
    pub fn in_json(&self) -> bool {
        self.options.json && !self.options.quiet
    }
}

/// What options say.
#[derive(Debug, Default, PartialEq, Eq)]
pub struct Options {
    /// The folders that are entered, each from the one before.
    pub folders: Vec<PathBuf>,
    pub object_dir: Option<PathBuf>,
    pub quiet: bool,
    pub json: bool,
    pub progress: Option<bool>,
    pub all_checks: bool,
    pub objects: bool,
    pub paths: bool,
    pub if_exists: bool,
    pub jobs: Option<u32>,
    pub split: bool,
    pub keep_filters: bool,
    pub verbose: bool,
    pub unchecked: bool,
    pub graph_only: bool,
}

/// What is wrong with words, and the command that was begun, whose usage helps.
#[derive(Debug, PartialEq, Eq)]
pub struct Wrong {
    pub error: Error,
    pub word: Option<&'static str>,
}

/// Reads the words after the name of the program.
pub fn read(words: &[OsString]) -> Result<Request, Wrong> {
    let mut reader = Reader { rest: words, command: None, options: Options::default() };
    reader.read().map_err(|error| Wrong { error, word: reader.command.map(|it| it.word) })
}

/// What comes of an option.
enum Taken {
    Option,
    Help,
    Version,
}

struct Reader<'a> {
    rest: &'a [OsString],
    command: Option<Command>,
    options: Options,
}

impl Reader<'_> {
    fn read(&mut self) -> Result<Request, Error> {
        let mut revisions = Vec::new();
        let mut takes_options = true;
        while let Some((word, rest)) = self.rest.split_first() {
            self.rest = rest;
            if takes_options && self.command.is_some() && word == "--" {
                takes_options = false;
            } else if takes_options && word.len() > 1 && word.as_bytes()[0] == b'-' {
                match self.take_option(word)? {
                    Taken::Option => {}
                    Taken::Help => return Ok(Request::Help(self.command.map(|it| it.word))),
                    Taken::Version => return Ok(Request::Version),
                }
            } else if self.command.is_some() {
                revisions.push(word.clone());
            } else {
                self.command = word.to_str().and_then(commands::by_git);
                if self.command.is_none() {
                    return Err(Error::UnknownCommand(word_of(word)));
                }
            }
        }
        let command = self.command.ok_or(Error::NoCommand)?;
        self.look_at_all(&command, revisions.len())?;
        let options = std::mem::take(&mut self.options);
        Ok(Request::Question(Box::new(Words { command, options, revisions })))
    }

    /// Looks at one option, and the word after it, if there is one.
    fn take_option(&mut self, option: &OsStr) -> Result<Taken, Error> {
        let options = &mut self.options;
        match option.as_bytes() {
            b"-h" | b"--help" => return Ok(Taken::Help),
            b"--version" => return Ok(Taken::Version),
            b"-C" => {
                let folder = self.folder_after("-C")?;
                self.options.folders.push(folder);
            }
            b"--object-dir" => self.options.object_dir = Some(self.folder_after("--object-dir")?),
            b"-q" | b"--quiet" => options.quiet = true,
            b"--json" => options.json = true,
            b"--progress" => options.progress = Some(true),
            b"--no-progress" => options.progress = Some(false),
            bytes => match bytes.strip_prefix(b"--object-dir=") {
                Some(folder) => {
                    options.object_dir = Some(OsString::from_vec(folder.to_vec()).into())
                }
                None => self.take_own(option)?,
            },
        }
        Ok(Taken::Option)
    }

    /// Looks at an option that is for some commands alone.
    fn take_own(&mut self, option: &OsStr) -> Result<(), Error> {
        let Some(word) = self.command.map(|command| command.word) else {
            return Err(Error::UnknownOption(word_of(option)));
        };
        let options = &mut self.options;
        match (word, word_of(option).as_str()) {
            ("verify", "--all-checks") => options.all_checks = true,
            ("verify", "--objects") => options.objects = true,
            ("verify", "--paths") => options.paths = true,
            ("verify" | "check" | "distinct" | "show" | "list", "--if-exists") => {
                options.if_exists = true;
            }
            ("verify", name @ ("-j" | "--jobs")) => {
                let name = if name == "-j" { "-j" } else { "--jobs" };
                let text = word_of(self.next().ok_or(Error::NoNumber(name))?);
                self.options.jobs = Some(jobs(&text)?);
            }
            ("write", "--split") => options.split = true,
            ("write", "--keep-filters") => options.keep_filters = true,
            ("merge-base", "-v" | "--verbose") => options.verbose = true,
            ("merge-base", "-a" | "--all") => {}
            ("is-ancestor" | "walk" | "merge-base" | "ask", "--unchecked") => {
                options.unchecked = true;
            }
            ("is-ancestor" | "walk" | "merge-base", "--graph-only") => options.graph_only = true,
            (word, text) => {
                let number = text.strip_prefix("--jobs=").or_else(|| text.strip_prefix("-j"));
                match number.filter(|_| word == "verify") {
                    Some(number) => options.jobs = Some(jobs(number)?),
                    None => return Err(Error::OptionOfOthers { word, option: text.to_owned() }),
                }
            }
        }
        Ok(())
    }

    fn next(&mut self) -> Option<&OsStr> {
        let (word, rest) = self.rest.split_first()?;
        self.rest = rest;
        Some(word)
    }

    fn folder_after(&mut self, option: &'static str) -> Result<PathBuf, Error> {
        self.next().map(PathBuf::from).ok_or(Error::NoFolder(option))
    }

    /// Whether all words go together.
    fn look_at_all(&self, command: &Command, count: usize) -> Result<(), Error> {
        let Command { word, takes, .. } = *command;
        if !takes.fits(count) {
            return Err(Error::OtherRevisions { word, takes });
        }
        let options = &self.options;
        match word {
            _ if options.jobs.is_some() && !options.objects => Err(Error::JobsAlone),
            "ask" if options.json => Err(Error::AskInJson),
            "ask" if options.quiet => Err(Error::AskQuietly),
            "ask" if options.progress == Some(true) => Err(Error::AskWithProgress),
            _ => Ok(()),
        }
    }
}

/// A number of jobs.
fn jobs(text: &str) -> Result<u32, Error> {
    let is_number = text.len() <= 2 && text.bytes().all(|byte| byte.is_ascii_digit());
    match text.parse() {
        Ok(number) if is_number && !text.starts_with('0') => Ok(number),
        _ => Err(Error::NoJobs(text.to_owned())),
    }
}

#[cfg(test)]
mod tests {
    use super::*;

    fn asked(words: &[&str]) -> Result<Request, Wrong> {
        read(&words.iter().map(OsString::from).collect::<Vec<_>>())
    }

    fn question(words: &[&str]) -> Words {
        match asked(words) {
            Ok(Request::Question(words)) => *words,
            other => panic!("{other:?}"),
        }
    }

    fn sentence(words: &[&str]) -> (String, Option<&'static str>) {
        let wrong = asked(words).unwrap_err();
        assert!(wrong.error.is_of_words());
        (wrong.error.to_string(), wrong.word)
    }

    #[test]
    fn options_stand_anywhere() {
        let words =
            question(&["-q", "-C", "a", "verify", "-C", "", "--objects", "-j12", "--object-dir=b"]);
        assert_eq!(words.options.folders, [PathBuf::from("a"), PathBuf::new()]);
        assert_eq!((words.options.jobs, words.options.object_dir), (Some(12), Some("b".into())));
        assert!(words.options.quiet && words.options.objects);
    }

    #[test]
    fn after_two_hyphens_no_word_is_an_option() {
        assert_eq!(question(&["walk", "-q", "--", "-q", "--"]).revisions, ["-q", "--"]);
        assert_eq!(question(&["walk", "-", ""]).revisions, ["-", ""]);
    }

    #[test]
    fn help_is_that_of_the_command_that_was_begun() {
        assert_eq!(asked(&["-q", "--help"]), Ok(Request::Help(None)));
        assert_eq!(asked(&["show", "x", "-h", "--bogus"]), Ok(Request::Help(Some("show"))));
        assert_eq!(asked(&["show", "--version"]), Ok(Request::Version));
    }

    #[test]
    fn wrong_words() {
        assert_eq!(sentence(&[]), ("there is no command".into(), None));
        assert_eq!(sentence(&["--"]), ("there is no option '--'".into(), None));
        assert_eq!(sentence(&["ids"]), ("there is no command 'ids'".into(), None));
        assert_eq!(sentence(&["--split", "write"]), ("there is no option '--split'".into(), None));
        assert_eq!(sentence(&["find", "-v"]), ("'find' has no option '-v'".into(), Some("find")));
        assert_eq!(sentence(&["find"]), ("'find' takes one revision".into(), Some("find")));
        for number in ["0", "x", "100", "+1", "01", ""] {
            let wrong = format!("'{number}' is no number of jobs from 1 to 99");
            assert_eq!(sentence(&["verify", "--objects", "-j", number]).0, wrong);
        }
    }

    /// No words, however odd, are more than a question, a wish or a mistake.
    #[test]
    fn odd_words() {
        let parts: [&[u8]; 12] = [
            b"verify",
            b"ask",
            b"--json",
            b"-q",
            b"--",
            b"-j",
            b"\xff",
            b"-\xff",
            b"-C",
            b"",
            b"walk",
            b"--jobs=\xfe",
        ];
        for number in 0..parts.len().pow(4) {
            let at = |place: u32| parts[number / parts.len().pow(place) % parts.len()].to_vec();
            let words: Vec<OsString> = (0..4).map(|place| OsString::from_vec(at(place))).collect();
            if let Err(wrong) = read(&words) {
                assert!(wrong.error.is_of_words());
            }
        }
    }
}
