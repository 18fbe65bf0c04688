//! Writes a crate of lines for the proved model: `lines COUNT SEED [FOLDER]`, or `lines limits 0 [FOLDER]`, or one line that is wrong,
//! `lines wrong 0 [FOLDER]`.

use std::fs;
use std::path::{Path, PathBuf};
use std::process::ExitCode;

use second::lines::{as_written, limit_lines, lines, proofs_module, specs_module, wrong_lines};

/// What the words of the command ask for.
struct Asked {
    lines: Vec<String>,
    seed: u64,
    folder: PathBuf,
}

/// Reads the words of the command and makes the lines.
fn asked() -> Option<Asked> {
    let words: Vec<String> = std::env::args().skip(1).collect();
    let folder = words.get(2).map_or("target/compared", String::as_str);
    let seed = words.get(1)?.parse().ok()?;
    let lines = match words.first()?.as_str() {
        "limits" => limit_lines(),
        "wrong" => wrong_lines(),
        count => lines(count.parse().ok()?, seed),
    };
    Some(Asked {
        lines,
        seed,
        folder: PathBuf::from(folder),
    })
}

/// Writes one file of the crate, with the folders that it needs.
fn write(folder: &Path, name: &str, text: &str) -> std::io::Result<()> {
    let path = folder.join(name);
    if let Some(parent) = path.parent() {
        fs::create_dir_all(parent)?;
    }
    fs::write(path, text)
}

/// Writes the crate.
fn write_crate(asked: &Asked) -> std::io::Result<()> {
    let specs = as_written(&specs_module(&asked.lines, asked.seed));
    let proofs = as_written(&proofs_module(&asked.lines));
    let list = "-- The modules of this folder.\npub mod Compared\n";
    let code = "// This crate has no code: it compares lines.\n#![tactic(auto)]\n";
    write(&asked.folder, "src/lib.rt", code)?;
    write(&asked.folder, "specs/Lib.antt", list)?;
    write(&asked.folder, "specs/Compared.antt", &specs)?;
    write(&asked.folder, "proofs/Lib.antt", list)?;
    write(&asked.folder, "proofs/Compared.antt", &proofs)
}

fn main() -> ExitCode {
    let Some(asked) = asked() else {
        eprintln!("usage: lines COUNT SEED [FOLDER] or lines limits|wrong 0 [FOLDER]");
        return ExitCode::from(2);
    };
    let folder = asked.folder.display();
    match write_crate(&asked) {
        Ok(()) => {
            println!("{} lines, seed {}: {folder}", asked.lines.len(), asked.seed);
            ExitCode::SUCCESS
        }
        Err(error) => {
            eprintln!("{folder}: {error}");
            ExitCode::FAILURE
        }
    }
}
