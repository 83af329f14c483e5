//! The completion of `git cgraph` for shells, of the table of commands and the options in the
//! manual.
//!
//! bash reads its own with `source`, after Git's completion, which finds it also in
//! share/bash-completion/completions. That of zsh belongs into a folder of its `fpath`, and that of
//! fish into one of `fish_complete_path`.

use crate::commands;
use crate::help::{commands_before, first_word, MANUAL};
use crate::manual::{parts_of, Part};

/// The completion for bash, with names for what differs.
const BASH: &str = r#"# Completion of `git cgraph` for bash, which Git's own completion finds by the name of this function.

_git_cgraph() {
    local commands='@COMMANDS@' options='@OPTIONS@'
    local command
    command=$(__git_find_on_cmdline "$commands")
    case $prev in
    @FOLDERS@)
        compopt -o filenames 2>/dev/null
        mapfile -t COMPREPLY < <(compgen -d -- "$cur")
        return
        ;;
    esac
    case $command,$cur in
@OWN@
    *,-*) __gitcomp "$options" ;;
    ,*) __gitcomp "$commands" ;;
    @WITH_COMMITS@) __git_complete_refs ;;
    esac
}

if declare -F __git_complete >/dev/null; then
    __git_complete git-cgraph _git_cgraph
fi
"#;

/// The same for zsh.
const ZSH: &str = r#"#compdef git-cgraph
#description @TITLE@

# Completion of `git cgraph` for zsh, which its completion of Git finds by the name of this file.

_git-cgraph() {
  local curcontext=$curcontext state line ret=1
  local -A opt_args
  local -a commands options operands commits expl
  commands=(
@COMMANDS@
  )
  options=(
@OPTIONS@
  )
  _arguments -C $options '(-): :->command' '(-)*:: :->operands' && ret=0
  case $state in
  command) _describe -t commands 'command' commands && ret=0 ;;
  operands)
    case $words[1] in
@OPERANDS@
    esac
    _arguments -C $options $operands && ret=0
    ;;
  esac
  if [[ $state == commits ]]; then
    commits=(HEAD ${(f)"$(_call_program commits git for-each-ref --format='%\(refname:short\)' 2>/dev/null)"})
    _wanted commits expl commit compadd -a commits && ret=0
  fi
  return ret
}

_git-cgraph "$@"
"#;

/// The completion for a shell, if it is one of these.
pub fn completion(shell: &str) -> Option<String> {
    let all = All::read();
    Some(match shell {
        "bash" => all.bash(),
        "zsh" => all.zsh(),
        "fish" => all.fish(),
        _ => return None,
    })
}

/// A command, what it does, and whether it takes commits.
struct Command {
    word: &'static str,
    about: String,
    takes_commits: bool,
}

/// An option: what it takes, what it does, the commands that it is for, if it is for some alone, or
/// the one that it is not for.
struct Opt {
    name: String,
    takes: String,
    does: String,
    is_for: Vec<String>,
    is_not_for: Option<String>,
    /// All names of the same option.
    names: Vec<String>,
}

impl Opt {
    /// Whether it is for this command, and not for others too.
    fn is_own(&self, command: &str) -> bool {
        self.is_for.iter().any(|word| word == command)
    }

    fn is_kept_from(&self, command: &str) -> bool {
        self.is_not_for.as_deref() == Some(command)
    }

    fn is_shared(&self) -> bool {
        self.is_for.is_empty()
    }

    /// Whether it is offered where one name of each option is enough.
    fn is_main(&self) -> bool {
        self.name.starts_with("--") || self.names.len() == 1
    }
}

struct All {
    title: String,
    commands: Vec<Command>,
    options: Vec<Opt>,
}

impl All {
    fn read() -> Self {
        let (mut title, mut options, mut is_options) = (String::new(), Vec::new(), false);
        for part in parts_of(MANUAL) {
            match part {
                Part::About(about) => title = about,
                Part::Heading(heading) => is_options = heading == "Options",
                Part::Item { term, text } if is_options => options.extend(options_of(&term, &text)),
                _ => {}
            }
        }
        let own = commands::all().filter(|command| command.by_git);
        let commands = own.map(|command| Command {
            word: command.word,
            about: about_of(command.about),
            takes_commits: command.takes.some(),
        });
        All { title, commands: commands.collect(), options }
    }

    fn words(&self) -> String {
        self.commands.iter().map(|command| command.word).collect::<Vec<_>>().join(" ")
    }

    fn with_commits(&self) -> impl Iterator<Item = &Command> {
        self.commands.iter().filter(|command| command.takes_commits)
    }

    /// Whether some option that is for all others is not for a command.
    fn is_left_out(&self, command: &str) -> bool {
        self.options.iter().any(|option| option.is_kept_from(command))
    }

    /// The options that are for all commands, but for those that are not for this one.
    fn shared_with(&self, command: &str) -> String {
        let shared = self
            .options
            .iter()
            .filter(|it| it.is_shared() && !it.is_kept_from(command) && it.is_main());
        shared.map(|option| option.name.as_str()).collect::<Vec<_>>().join(" ")
    }

    /// The options that are for a command alone, each with a blank behind it.
    fn own_of(&self, command: &str) -> String {
        let own = self.options.iter().filter(|option| option.is_own(command) && option.is_main());
        own.map(|option| format!("{} ", option.name)).collect()
    }

    fn bash(&self) -> String {
        let folders = self.options.iter().filter(|option| option.takes == "<folder>");
        let folders: Vec<&str> = folders.map(|option| option.name.as_str()).collect();
        let mut own_options = String::new();
        for Command { word, .. } in &self.commands {
            let own = self.own_of(word);
            if self.is_left_out(word) {
                let shared = self.shared_with(word);
                own_options += &format!("    {word},-*) __gitcomp \"{own}{shared}\" ;;\n");
            } else if !own.is_empty() {
                own_options += &format!("    {word},-*) __gitcomp \"{own}$options\" ;;\n");
            }
        }
        let with_commits = self.with_commits().map(|command| format!("{},*", command.word));
        BASH.replace("@COMMANDS@", &self.words())
            .replace("@OPTIONS@", &self.shared_with(""))
            .replace("@FOLDERS@", &folders.join(" | "))
            .replace("@OWN@\n", &own_options)
            .replace("@WITH_COMMITS@", &with_commits.collect::<Vec<_>>().join(" | "))
    }

    fn zsh(&self) -> String {
        let about = |command: &Command| zsh_quoted(&format!("{}:{}", command.word, command.about));
        let commands = self.commands.iter().map(|command| format!("    {}\n", about(command)));
        let shared = self.options.iter().filter(|option| option.is_shared());
        let options = shared.map(|option| format!("    {}\n", zsh_option(option)));
        let operands = self.commands.iter().map(|command| self.zsh_command(command));
        ZSH.replace("@TITLE@", &self.title)
            .replace("@COMMANDS@\n", &commands.collect::<String>())
            .replace("@OPTIONS@\n", &options.collect::<String>())
            .replace("@OPERANDS@\n", &operands.collect::<String>())
    }

    /// What stands after a command.
    fn zsh_command(&self, command: &Command) -> String {
        let own = self.options.iter().filter(|option| option.is_own(command.word));
        let mut own: Vec<String> = own.map(zsh_option).collect();
        if command.takes_commits {
            own.push("'*: :->commits'".to_owned());
        }
        let mut text = format!("    {}) operands=({})", command.word, own.join(" "));
        if self.is_left_out(command.word) {
            let shared =
                self.options.iter().filter(|it| it.is_shared() && !it.is_kept_from(command.word));
            let shared: String = shared.map(|option| format!("{} ", zsh_option(option))).collect();
            text += &format!(" options=({shared})");
        }
        text + " ;;\n"
    }

    fn fish(&self) -> String {
        let mut text =
            "# Completion of `git cgraph` for fish, which its completion of Git asks.\n\n\
                        function __fish_git_cgraph_commits\n    echo HEAD\n    \
                        command git for-each-ref --format='%(refname:short)' 2>/dev/null\nend\n\n\
                        complete -c git-cgraph -f\n"
                .to_owned();
        let none = fish_quoted(&format!("not __fish_seen_subcommand_from {}", self.words()));
        for Command { word, about, .. } in &self.commands {
            text +=
                &format!("complete -c git-cgraph -n {none} -a {word} -d {}\n", fish_quoted(about));
        }
        let words: Vec<&str> = self.with_commits().map(|command| command.word).collect();
        let with_commits = fish_quoted(&format!("__fish_seen_subcommand_from {}", words.join(" ")));
        text +=
            &format!("complete -c git-cgraph -n {with_commits} -a '(__fish_git_cgraph_commits)'\n");
        self.options.iter().for_each(|option| text += &fish_option(option));
        text
    }
}

/// What a command of `git cgraph` does.
fn about_of(about: &str) -> String {
    let about = about.strip_suffix(" of the one file on standard input").unwrap_or(about);
    match about.split_once(" the commits on standard input as a layer, ") {
        Some((before, _)) => {
            format!("{before} the commit-graph of all commits that references lead to")
        }
        None => about.to_owned(),
    }
}

/// The options of an item.
fn options_of(terms: &str, text: &str) -> Vec<Opt> {
    let terms: Vec<&str> = terms.split('`').skip(1).step_by(2).collect();
    let names: Vec<String> = terms.iter().map(|term| first_word(term).to_owned()).collect();
    let (mut is_for, mut text) = commands_before(text);
    let mut is_not_for = None;
    if let Some((word, rest)) =
        text.strip_prefix("With all commands but `").and_then(|rest| rest.split_once("`, "))
    {
        (is_not_for, text) = (Some(word.to_owned()), rest);
    }
    is_for.iter_mut().for_each(|command| *command = first_word(command));
    let option = |term: &&str| Opt {
        name: first_word(term).to_owned(),
        takes: term.split_once(' ').map_or("", |(_, takes)| takes).to_owned(),
        does: short(text),
        is_for: is_for.iter().map(|word| (*word).to_owned()).collect(),
        is_not_for: is_not_for.clone(),
        names: names.clone(),
    };
    terms.iter().map(option).collect()
}

/// What an option does, in few words.
fn short(text: &str) -> String {
    const MOST: usize = 70;
    let text = text.replace('`', "");
    let at = text.match_indices(['.', ';', ':']).map(|(at, _)| at);
    let end = at.into_iter().find(|at| matches!(text[at + 1..].chars().next(), None | Some(' ')));
    let mut text = &text[..end.unwrap_or(text.len())];
    if text.len() > MOST {
        text = text.split(',').next().unwrap_or_default();
    }
    let mut letters = text.chars();
    let first = letters.next().map(|letter| letter.to_ascii_lowercase());
    first.into_iter().chain(letters).collect()
}

fn zsh_quoted(text: &str) -> String {
    format!("'{}'", text.replace('\'', "'\\''"))
}

fn zsh_option(option: &Opt) -> String {
    let takes = match option.takes.as_str() {
        "" => "",
        _ if option.name.starts_with("--") => "=",
        _ => "+",
    };
    let mut text = format!("({}){}{takes}[{}]", option.names.join(" "), option.name, option.does);
    if !takes.is_empty() {
        let folders = if option.takes == "<folder>" { "_directories" } else { "" };
        text += &format!(":{}:{folders}", option.takes.replace(['<', '>'], ""));
    }
    zsh_quoted(&text)
}

fn fish_quoted(text: &str) -> String {
    format!("'{}'", text.replace('\'', "\\'"))
}

fn fish_option(option: &Opt) -> String {
    let mut text = "complete -c git-cgraph".to_owned();
    if !option.is_for.is_empty() {
        let seen = format!("__fish_seen_subcommand_from {}", option.is_for.join(" "));
        text += &format!(" -n {}", fish_quoted(&seen));
    }
    if let Some(word) = &option.is_not_for {
        text += &format!(" -n {}", fish_quoted(&format!("not __fish_seen_subcommand_from {word}")));
    }
    match option.name.strip_prefix("--") {
        Some(name) => text += &format!(" -l {name}"),
        None => text += &format!(" -s {}", &option.name[1..]),
    }
    match option.takes.as_str() {
        "" => {}
        "<folder>" => text += " -x -a '(__fish_complete_directories)'",
        _ => text += " -x",
    }
    text + &format!(" -d {}\n", fish_quoted(&option.does))
}
