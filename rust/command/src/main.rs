//! `dovetrellis COMMAND WORDS...`: the script at the top of the repository builds and starts this.

use std::ffi::OsString;
use std::io::{self, Write};
use std::process::ExitCode;

use command::asked::{asked, Asked};
use command::stop::{Stop, Stopped};
use command::{exchange, export, fire, judge, list, next, pack, replay, unfold, version, witness};

/// Does what is asked; the answer goes to the given output.
fn act(asked: Asked, out: &mut impl Write) -> Stopped<()> {
    match asked {
        Asked::Help(said) => Ok(out.write_all(said.as_bytes())?),
        Asked::Version => Ok(out.write_all(version::told().as_bytes())?),
        Asked::List { table, runs, form } => list::list(table.as_deref(), &runs, form, out),
        Asked::Judge {
            table,
            runs,
            strict,
            json,
        } => judge::judge(&table, &runs, strict, json, out),
        Asked::Replay { table, runs } => replay::replay(&table, &runs, out),
        Asked::Fire { table, event, at } => fire::fire(&table, &event, at.as_deref(), out),
        Asked::Enabled { table, run, at } => {
            fire::enabled(&table, run.as_deref(), at.as_deref(), out)
        }
        Asked::Exchange { table, run, k } => exchange::exchange(&table, &run, k, out),
        Asked::Unfold { table, json } => unfold::unfold(&table, json, out),
        Asked::Export(table) => export::export(&table, out),
        Asked::Witness(table, trace) => witness::witness(&table, &trace, out),
        Asked::Pack(file, folder) => pack::pack(&file, folder.as_deref(), out),
        Asked::Show(table, runs) => pack::show(&table, &runs, out),
    }
}

/// The words after the program's name; one that is no text is wrong use.
fn words() -> Stopped<Vec<String>> {
    let no_text = |word: OsString| {
        let what = "is not in UTF-8, and no file whose name is not can be given";
        Stop::Use(match next::is_asked() {
            true => format!("the word {word:?} {what}"),
            false => format!("{word:?} is no text"),
        })
    };
    let words = std::env::args_os().skip(1);
    words
        .map(|word| word.into_string().map_err(no_text))
        .collect()
}

/// What a command comes to whose answer was written or not: an answer that tells of a refusal must be there too.
fn ended(done: Stopped<()>, written: Stopped<()>) -> Stopped<()> {
    match done {
        Ok(()) | Err(Stop::Answered) => written.and(done),
        stopped => stopped,
    }
}

fn main() -> ExitCode {
    let mut out = io::BufWriter::new(io::stdout().lock());
    let asked = words().and_then(|words| asked(&words));
    let done = asked.and_then(|asked| act(asked, &mut out));
    let written = out.flush().map_err(Stop::from);
    match ended(done, written) {
        Ok(()) => ExitCode::SUCCESS,
        Err(stop) => {
            stop.tell(&mut out);
            ExitCode::from(stop.status())
        }
    }
}
