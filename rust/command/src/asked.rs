//! The words of the command.

use std::path::Path;

use crate::files::meant;
use crate::files::STANDARD_INPUT;
use crate::help::{help_of, COMMANDS, HELP};
use crate::next;
use crate::stop::{Stop, Stopped};

/// How a listing is written: as the proved program writes it, by names, or as JSON.
#[derive(Clone, Copy, Debug, PartialEq, Eq)]
pub enum Form {
    Program,
    Names,
    Json,
}

/// What the command asks for.
#[derive(Debug, PartialEq, Eq)]
pub enum Asked {
    Help(String),
    Version,
    List {
        table: Option<String>,
        runs: Vec<String>,
        form: Form,
    },
    Judge {
        table: String,
        runs: Vec<String>,
        strict: bool,
        json: bool,
    },
    Replay {
        table: String,
        runs: Vec<String>,
    },
    Fire {
        table: String,
        event: String,
        at: Option<String>,
    },
    Enabled {
        table: String,
        run: Option<String>,
        at: Option<String>,
    },
    Exchange {
        table: String,
        run: String,
        k: u64,
    },
    Unfold {
        table: String,
        json: bool,
    },
    Export(String),
    Witness(String, String),
    Pack(String, Option<String>),
    Show(String, Vec<String>),
}

/// The words that ask for help, and those that ask for the version.
const HELPS: [&str; 3] = ["help", "-h", "--help"];
const VERSIONS: [&str; 2] = ["--version", "-V"];

/// Wrong use, told.
fn wrong<T>(what: impl Into<String>) -> Stopped<T> {
    Err(Stop::Use(what.into()))
}

/// There is no such command; the one that is likely meant is named.
fn unknown<T>(word: &str) -> Stopped<T> {
    let plain = word.trim_start_matches('-').to_lowercase();
    let meant = match text::nearest(&plain, COMMANDS.into_iter()) {
        Some(near) => meant(Some(near.to_string())),
        None if word.starts_with('-') => " and no such option".to_string(),
        None if Path::new(word).exists() => format!("; for the file: 'judge {word}'"),
        None => String::new(),
    };
    wrong(format!("there is no command '{word}'{meant}"))
}

/// What the words after 'help' ask for.
fn asked_help(words: &[String]) -> Stopped<Asked> {
    let Some((command, rest)) = words.split_first() else {
        return Ok(Asked::Help(HELP.to_string()));
    };
    nothing_after(rest)?;
    match COMMANDS.contains(&command.as_str()) {
        true => Ok(Asked::Help(help_of(command))),
        false => unknown(command),
    }
}

/// The words after a command, parted: files, names and numbers in their order, and the options.
struct Words {
    plain: Vec<String>,
    flags: Vec<String>,
    values: Vec<(String, String)>,
}

/// The options of a command: those that stand alone, and those that a value follows.
struct Options {
    flags: &'static [&'static str],
    valued: &'static [&'static str],
}

/// No options.
const NONE: Options = Options {
    flags: &[],
    valued: &[],
};

/// There is no such option; the command's own is named if it is near, which no single letter is.
fn no_option<T>(word: &str, options: &Options) -> Stopped<T> {
    let known = options.flags.iter().chain(options.valued).copied();
    let near = text::nearest(word, known).filter(|_| word.starts_with("--"));
    let more = match near {
        Some(near) => meant(Some(near.to_string())),
        None => format!("; a file of that name is './{word}'"),
    };
    wrong(format!("there is no option '{word}' here{more}"))
}

impl Words {
    /// Parts the words after a command; after `--` none is an option, and neither `-` nor a run of it, `-:NAME`, ever is one.
    fn parted(words: &[String], options: &Options) -> Stopped<Words> {
        let mut parted = Words {
            plain: Vec::new(),
            flags: Vec::new(),
            values: Vec::new(),
        };
        let mut rest = words.iter();
        while let Some(word) = rest.next() {
            if word == "--" {
                parted.plain.extend(rest.cloned());
                break;
            }
            if !word.starts_with('-') || word == "-" || word.starts_with("-:") {
                parted.plain.push(word.clone());
            } else if options.flags.contains(&word.as_str()) {
                parted.flags.push(word.clone());
            } else {
                parted.take_valued(word, &mut rest, options)?;
            }
        }
        Ok(parted)
    }

    /// Takes an option with its value, which follows it or stands in it after `=`.
    fn take_valued<'a>(
        &mut self,
        word: &str,
        rest: &mut impl Iterator<Item = &'a String>,
        options: &Options,
    ) -> Stopped<()> {
        let (name, inner) = match word.split_once('=') {
            Some((name, value)) => (name, Some(value.to_string())),
            None => (word, None),
        };
        if !options.valued.contains(&name) {
            return no_option(word, options);
        }
        if self.value(name).is_some() {
            return wrong(format!("{name} is there twice"));
        }
        let missing = || match name {
            "-o" => Stop::Use("a folder is missing after -o".to_string()),
            _ => Stop::Use(format!("nothing comes after {name}")),
        };
        let value = inner.or_else(|| rest.next().cloned()).ok_or_else(missing)?;
        self.values.push((name.to_string(), value));
        Ok(())
    }

    /// An option that stands alone is there.
    fn has(&self, flag: &str) -> bool {
        self.flags.iter().any(|there| there == flag)
    }

    /// The value of an option.
    fn value(&self, name: &str) -> Option<String> {
        let found = self.values.iter().find(|(there, _)| there == name);
        found.map(|(_, value)| value.clone())
    }

    /// The word at a place, of which it is said what is missing where there is none.
    fn needed(&self, at: usize, what: &str) -> Stopped<String> {
        let missing = || Stop::Use(format!("{what} is missing"));
        self.plain.get(at).cloned().ok_or_else(missing)
    }

    /// The words from a place on.
    fn from(&self, at: usize) -> &[String] {
        self.plain.get(at..).unwrap_or_default()
    }

    /// There are no more words than so many.
    fn at_most(&self, count: usize) -> Stopped<()> {
        nothing_after(self.from(count))
    }
}

/// The commands that take the words that they took where the next version is not asked for; that takes more runs, the standard input as a
/// file, and the words after `--` as none of its options.
const BEFORE: [&str; 8] = [
    "list", "judge", "unfold", "export", "witness", "pack", "show", "build",
];

/// A command takes its words as it did before there was any of its options that stand alone.
fn is_as_before(command: &str, rest: &[String]) -> bool {
    let flags = options_of(command).flags;
    let is_flag = |word: &String| flags.contains(&word.as_str());
    !next::is_asked() && BEFORE.contains(&command) && !rest.iter().any(is_flag)
}

/// None of the words is an option, since all of them are files and names.
fn no_options<'a>(mut words: impl Iterator<Item = &'a String>) -> Stopped<()> {
    match words.find(|word| word.starts_with('-')) {
        None => Ok(()),
        Some(word) if word == STANDARD_INPUT => {
            wrong("'-' is no file; the standard input is /dev/stdin")
        }
        Some(word) => no_option(word, &NONE),
    }
}

/// The words after `pack` without `-o` and the folder after it.
fn without_folder(rest: &[String]) -> Stopped<Vec<String>> {
    let (mut others, mut folders) = (Vec::new(), 0);
    let mut words = rest.iter();
    while let Some(word) = words.next() {
        match (word.as_str(), folders) {
            ("-o", 0) => {
                let missing = || Stop::Use("a folder is missing after -o".to_string());
                words.next().ok_or_else(missing)?;
                folders = 1;
            }
            ("-o", _) => return wrong("-o is there twice"),
            _ => others.push(word.clone()),
        }
    }
    Ok(others)
}

/// A command takes no other words than before, and tells of wrong ones what it told, in the same order.
fn held_to(command: &str, rest: &[String]) -> Stopped<()> {
    let missing = |what: &str| Stop::Use(format!("{what} is missing"));
    match command {
        "build" => return wrong("only the script builds"),
        "witness" => {
            let table = rest.first().ok_or_else(|| missing("TABLE"))?;
            no_options([table].into_iter())?;
            let trace = rest.get(1).ok_or_else(|| missing("TRACE"))?;
            no_options([trace].into_iter().filter(|trace| *trace != STANDARD_INPUT))?;
            return nothing_after(&rest[2..]);
        }
        _ => {}
    }
    let words = match command {
        "pack" => without_folder(rest)?,
        _ => rest.to_vec(),
    };
    no_options(words.iter())?;
    let (most, needed) = match command {
        "list" => (2, None),
        "show" => (usize::MAX, Some("TABLE")),
        "pack" => (1, Some("FILE")),
        _ => (1, Some("TABLE")),
    };
    match needed.filter(|_| words.is_empty()) {
        Some(what) => Err(missing(what)),
        None => nothing_after(words.get(most..).unwrap_or_default()),
    }
}

/// There are no words left.
fn nothing_after(rest: &[String]) -> Stopped<()> {
    match rest.first() {
        None => Ok(()),
        Some(word) => wrong(format!("'{word}' is one word too many")),
    }
}

/// What the words ask for.
pub fn asked(words: &[String]) -> Stopped<Asked> {
    let Some((command, rest)) = words.split_first() else {
        return Err(Stop::Unasked);
    };
    if HELPS.contains(&command.as_str()) {
        return asked_help(rest);
    }
    if VERSIONS.contains(&command.as_str()) {
        return nothing_after(rest).map(|()| Asked::Version);
    }
    if !COMMANDS.contains(&command.as_str()) {
        return unknown(command);
    }
    let is_as_before = is_as_before(command, rest);
    let mut options = rest.iter().take_while(|word| is_as_before || *word != "--");
    if options.any(|word| word == "-h" || word == "--help") {
        return Ok(Asked::Help(help_of(command)));
    }
    if is_as_before {
        held_to(command, rest)?;
    }
    asked_of(command, rest)
}

/// The options of a command.
fn options_of(command: &str) -> Options {
    let (flags, valued): (&[&str], &[&str]) = match command {
        "list" => (&["--names", "--json"], &[]),
        "judge" => (&["--strict", "--json"], &[]),
        "unfold" => (&["--json"], &[]),
        "fire" | "enabled" => (&[], &["--at"]),
        "pack" => (&[], &["-o"]),
        _ => return NONE,
    };
    Options { flags, valued }
}

/// What the words after a command ask for.
fn asked_of(command: &str, rest: &[String]) -> Stopped<Asked> {
    let words = Words::parted(rest, &options_of(command))?;
    match command {
        "list" => Ok(asked_list(&words)),
        "pack" => {
            words.at_most(1)?;
            Ok(Asked::Pack(words.needed(0, "FILE")?, words.value("-o")))
        }
        "build" | "install" => wrong("only the script at the top of the sources does this"),
        _ => asked_of_table(command, &words, words.needed(0, "TABLE")?),
    }
}

/// What the words after 'list' ask for.
fn asked_list(words: &Words) -> Asked {
    let form = match (words.has("--json"), words.has("--names")) {
        (true, _) => Form::Json,
        (false, true) => Form::Names,
        (false, false) => Form::Program,
    };
    Asked::List {
        table: words.plain.first().cloned(),
        runs: words.from(1).to_vec(),
        form,
    }
}

/// What the words after a command that needs a table ask for.
fn asked_of_table(command: &str, words: &Words, table: String) -> Stopped<Asked> {
    let runs = words.from(1).to_vec();
    match command {
        "show" => return Ok(Asked::Show(table, runs)),
        "replay" => return Ok(Asked::Replay { table, runs }),
        "judge" => {
            let (strict, json) = (words.has("--strict"), words.has("--json"));
            return Ok(Asked::Judge {
                table,
                runs,
                strict,
                json,
            });
        }
        "fire" | "enabled" | "exchange" => return asked_of_step(command, words, table),
        _ => {}
    }
    if command == "witness" {
        words.at_most(2)?;
        return Ok(Asked::Witness(table, words.needed(1, "TRACE")?));
    }
    words.at_most(1)?;
    let json = words.has("--json");
    match command {
        "export" => Ok(Asked::Export(table)),
        _ => Ok(Asked::Unfold { table, json }),
    }
}

/// What the words after a command on single steps ask for.
fn asked_of_step(command: &str, words: &Words, table: String) -> Stopped<Asked> {
    let at = words.value("--at");
    words.at_most(if command == "exchange" { 3 } else { 2 })?;
    match command {
        "fire" => {
            let event = words.needed(1, "EVENT")?;
            Ok(Asked::Fire { table, event, at })
        }
        "enabled" => {
            let run = words.plain.get(1).cloned();
            if run.is_some() && at.is_some() {
                return wrong("a run and --at both say where; one of them will do");
            }
            Ok(Asked::Enabled { table, run, at })
        }
        _ => {
            let run = words.needed(1, "RUN")?;
            let k = step_number(&words.needed(2, "K")?)?;
            Ok(Asked::Exchange { table, run, k })
        }
    }
}

/// The number of a step.
fn step_number(word: &str) -> Stopped<u64> {
    let wrong = |_| Stop::Use(format!("'{word}' is no number of a step, counted from 0"));
    word.parse().map_err(wrong)
}
