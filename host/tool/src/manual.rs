//! The manual page and the shells' completions, made from the words of the helps.

use crate::commands::HELPS;
use jinnychair::VERSION;
use std::fmt::Write;

/// What the program does, as the list of commands has it in its first line.
const DOES: &str = "the proved sensor-tilt search";

/// A command's help, taken apart.
#[derive(Clone, Debug, PartialEq, Eq)]
pub struct Help {
    /// The command.
    pub name: &'static str,
    /// What it does, in one line.
    pub does: String,
    /// How it is called, a line for each way.
    pub usage: Vec<&'static str>,
    /// Paragraphs, options and texts to be shown as they are, in their order.
    pub parts: Vec<Part>,
}

/// A part of a help.
#[derive(Clone, Debug, PartialEq, Eq)]
pub enum Part {
    /// Running text.
    Paragraph(String),
    /// An option.
    Option(Choice),
    /// An example.
    Literal(Vec<&'static str>),
}

/// An option of a command.
#[derive(Clone, Debug, PartialEq, Eq)]
pub struct Choice {
    /// Its name, with its hyphens.
    pub name: &'static str,
    /// What it takes, in capitals; nothing for a flag.
    pub takes: &'static str,
    /// What it does.
    pub text: String,
}

impl Choice {
    /// Whether it takes a file's name.
    fn takes_file(&self) -> bool {
        ["FILE", "NAME", "VIEWS"].contains(&self.takes)
    }

    /// The beginning of what it does, for a list.
    fn short(&self) -> &str {
        self.text.split([';', ':', ',']).next().unwrap_or_default()
    }
}

impl Help {
    /// Its options.
    pub fn options(&self) -> impl Iterator<Item = &Choice> {
        self.parts.iter().filter_map(|part| match part {
            Part::Option(choice) => Some(choice),
            _ => None,
        })
    }
}

/// The helps of all commands.
#[must_use]
pub fn helps() -> Vec<Help> {
    let (list, _) = HELPS[0].1.split_once("\n`").unwrap_or((HELPS[0].1, ""));
    let does = |name: &str| {
        let line = list
            .lines()
            .find_map(|line| line.trim_start().strip_prefix("jinnychair ")?.strip_prefix(name));
        line.unwrap_or_default().trim().to_owned()
    };
    HELPS[1..]
        .iter()
        .map(|(name, text)| Help { name, does: does(name), ..parsed(name, text) })
        .collect()
}

fn parsed(name: &'static str, text: &'static str) -> Help {
    let mut help = Help { name, does: String::new(), usage: vec![], parts: vec![] };
    let mut is_new = true;
    for line in text.lines() {
        let indented = line.strip_prefix("    ");
        match (indented, help.parts.last_mut()) {
            _ if line.is_empty() => {
                is_new = true;
                continue;
            }
            (None, None) if line.starts_with("jinnychair ") => help.usage.push(line),
            (Some(words), _) if words.starts_with("--") => {
                help.parts.push(Part::Option(option(words)))
            }
            (Some(more), Some(Part::Option(choice))) if !is_new => {
                choice.text += if choice.text.is_empty() { "" } else { " " };
                choice.text += more.trim();
            }
            (Some(words), Some(Part::Literal(lines))) => lines.push(words),
            (Some(words), _) => help.parts.push(Part::Literal(vec![words])),
            (None, Some(Part::Paragraph(text))) if !is_new => {
                text.push(' ');
                text.push_str(line);
            }
            (None, _) => help.parts.push(Part::Paragraph(line.into())),
        }
        is_new = false;
    }
    help
}

/// `--name TAKES   what it does`.
fn option(words: &'static str) -> Choice {
    let (head, text) = words.split_once("  ").unwrap_or((words, ""));
    let (name, takes) = head.split_once(' ').unwrap_or((head, ""));
    Choice { name, takes, text: text.trim().into() }
}

/// The version as the page has it.
fn version() -> String {
    let [_, major, minor, patch] = VERSION.to_be_bytes();
    format!("{major}.{minor}.{patch}")
}

/// Text for troff.
fn troff(text: &str) -> String {
    let text = text.replace('\\', "\\e").replace('-', "\\-");
    if text.starts_with(['.', '\'']) { format!("\\&{text}") } else { text }
}

/// The manual page, jinnychair(1).
#[must_use]
pub fn manual_page() -> String {
    let mut page =
        format!(".TH JINNYCHAIR 1 \"\" \"jinnychair {}\" \"User Commands\"\n", version());
    page += &format!(".SH NAME\njinnychair \\- {}\n.SH SYNOPSIS\n.nf\n", troff(DOES));
    let helps = helps();
    for line in helps.iter().flat_map(|help| &help.usage) {
        page += &format!("{}\n", troff(line));
    }
    page += ".fi\n.SH COMMANDS\n";
    for help in &helps {
        page += &format!(".SS {}\n{}.\n", troff(help.name), troff(&help.does));
        page.extend(help.parts.iter().map(|part| match part {
            Part::Paragraph(text) => format!(".PP\n{}\n", troff(text)),
            Part::Option(Choice { name, takes, text }) => {
                format!(".TP\n\\fB{}\\fR \\fI{}\\fR\n{}\n", troff(name), troff(takes), troff(text))
            }
            Part::Literal(lines) => {
                let lines: String = lines.iter().map(|line| format!("{}\n", troff(line))).collect();
                format!(".PP\n.nf\n.RS 4\n{lines}.RE\n.fi\n")
            }
        }));
    }
    let codes = crate::commands::EXIT_CODES.trim().trim_start_matches("Exit codes: ");
    page + &format!(".SH EXIT STATUS\n{}\n", troff(codes))
}

/// A bash completion.
#[must_use]
pub fn bash() -> String {
    let helps = helps();
    let names: Vec<_> = helps.iter().map(|help| help.name).collect();
    let mut cases = String::new();
    let mut files: Vec<&str> = vec![];
    for help in &helps {
        let options: Vec<_> = help.options().map(|choice| choice.name).collect();
        writeln!(cases, "    {}) options='{} --help' ;;", help.name, options.join(" "))
            .expect("a string grows");
        files.extend(help.options().filter(|choice| choice.takes_file()).map(|choice| choice.name));
    }
    files.sort_unstable();
    files.dedup();
    format!(
        "# Completion of jinnychair for bash.\n\
         _jinnychair() {{\n  \
           local word=${{COMP_WORDS[COMP_CWORD]}} before=${{COMP_WORDS[COMP_CWORD - 1]}} options=''\n  \
           COMPREPLY=()\n  \
           if [ \"$COMP_CWORD\" -eq 1 ]; then\n    \
             COMPREPLY=($(compgen -W '{} --help --version' -- \"$word\"))\n    \
             return\n  \
           fi\n  \
           case $before in {}) compopt -o filenames 2>/dev/null; COMPREPLY=($(compgen -f -- \"$word\")); return ;; esac\n  \
           case ${{COMP_WORDS[1]}} in\n{cases}  esac\n  \
           case $word in\n    \
             -*) COMPREPLY=($(compgen -W \"$options\" -- \"$word\")) ;;\n    \
             *) compopt -o filenames 2>/dev/null; COMPREPLY=($(compgen -f -- \"$word\")) ;;\n  \
           esac\n\
         }}\n\
         complete -F _jinnychair jinnychair\n",
        names.join(" "),
        files.join(" | ")
    )
}

/// A zsh completion.
#[must_use]
pub fn zsh() -> String {
    let plain = |text: &str| text.replace('\'', "").replace(['[', ']', ':', '`'], " ");
    let mut text =
        "#compdef jinnychair\n# Completion of jinnychair for zsh.\nlocal -a commands=(\n"
            .to_owned();
    let helps = helps();
    text.extend(helps.iter().map(|help| format!("  '{}:{}'\n", help.name, plain(&help.does))));
    text += ")\nif (( CURRENT == 2 )); then\n  _describe command commands\n  return\nfi\nlocal command=$words[2]\nshift words\n\
             (( CURRENT-- ))\ncase $command in\n";
    for help in &helps {
        text += &format!("  {})\n    _arguments", help.name);
        for choice in help.options() {
            let takes = match (choice.takes, choice.takes_file()) {
                ("", _) => String::new(),
                (takes, true) => format!(":{takes}:_files"),
                (takes, false) => format!(":{takes}: "),
            };
            text += &format!(" \\\n      '{}[{}]{takes}'", choice.name, plain(choice.short()));
        }
        text += " \\\n      '--help[explains the command]' '*:file:_files' ;;\n";
    }
    text + "esac\n"
}

/// A fish completion.
#[must_use]
pub fn fish() -> String {
    let quoted = |text: &str| format!("'{}'", text.replace('\\', "\\\\").replace('\'', "\\'"));
    let helps = helps();
    let mut text = "# Completion of jinnychair for fish.\n".to_owned();
    for help in &helps {
        text += &format!(
            "complete -c jinnychair -n __fish_use_subcommand -f -a {} -d {}\n",
            help.name,
            quoted(&help.does)
        );
        for choice in help.options() {
            let takes = match (choice.takes, choice.takes_file()) {
                ("", _) => "",
                (_, true) => " -r -F",
                (_, false) => " -x",
            };
            text += &format!(
                "complete -c jinnychair -n '__fish_seen_subcommand_from {}' -l {}{takes} -d {}\n",
                help.name,
                choice.name.trim_start_matches('-'),
                quoted(choice.short())
            );
        }
    }
    text
}

#[cfg(test)]
mod tests {
    use super::*;
    use crate::choices::NAMES;

    #[test]
    fn a_help_is_taken_apart_and_nothing_is_lost() {
        for (help, (name, text)) in helps().iter().zip(&HELPS[1..]) {
            assert_eq!(help.name, *name);
            assert!(!help.does.is_empty() && !help.usage.is_empty(), "{name}");
            let mut words = vec![];
            words.extend(
                help.usage.iter().flat_map(|line| line.split_whitespace()).map(str::to_owned),
            );
            for part in &help.parts {
                let text = match part {
                    Part::Paragraph(text) => text.clone(),
                    Part::Option(Choice { name, takes, text }) => format!("{name} {takes} {text}"),
                    Part::Literal(lines) => lines.join(" "),
                };
                words.extend(text.split_whitespace().map(str::to_owned));
            }
            assert_eq!(words, text.split_whitespace().collect::<Vec<_>>(), "{name}");
        }
    }

    #[test]
    fn every_choice_is_an_option_of_search_and_every_option_stands_in_each_text() {
        let helps = helps();
        let search = helps.iter().find(|help| help.name == "search").unwrap();
        for (name, takes) in NAMES {
            let found = search.options().find(|choice| choice.name == format!("--{name}"));
            assert_eq!(
                found.map(|choice| choice.takes.is_empty()),
                Some(takes.is_empty()),
                "{name}"
            );
        }
        let (page, bash, zsh, fish) = (manual_page(), bash(), zsh(), fish());
        for choice in helps.iter().flat_map(Help::options) {
            assert!(page.contains(&format!("\\fB{}\\fR", troff(choice.name))), "{choice:?}");
            assert!(
                bash.contains(choice.name) && zsh.contains(&format!("'{}[", choice.name)),
                "{choice:?}"
            );
            assert!(fish.contains(&format!(" -l {}", &choice.name[2..])), "{choice:?}");
        }
    }
}
