//! Whole exports: by the second implementation, and by the proved program in a process of its own, which the environment names.

use std::fs;
use std::hint::black_box;
use std::io::{self, Read};
use std::path::{Path, PathBuf};
use std::process::{Command, Stdio};
use std::time::Instant;

use second::export::Doubled;
use second::table::read_table;
use second::unfolding::unfold;

/// How often each is measured.
const ROUNDS: usize = 3;

/// The program that the environment names, with the words that run it on this machine.
pub fn program() -> Option<Vec<String>> {
    let program = std::env::var("DOVETRELLIS_EXPORT").ok()?;
    let runner = std::env::var("RATTLE_RUN").unwrap_or_default();
    let words = runner.split_whitespace().map(str::to_string);
    Some(words.chain([program]).collect())
}

/// An export that was measured.
pub struct Exported {
    pub elements: usize,
    pub bytes: usize,
    /// The least times, in nanoseconds.
    pub second: f64,
    pub program: Option<f64>,
}

/// A folder with a table for the program; it goes when it is dropped.
struct Folder(PathBuf);

impl Folder {
    fn with(table: &[u8]) -> io::Result<Folder> {
        let name = format!("dovetrellis-bench-{}", std::process::id());
        let folder = Folder(std::env::temp_dir().join(name));
        fs::create_dir_all(&folder.0)?;
        fs::write(folder.0.join("net.bin"), table)?;
        Ok(folder)
    }
}

impl Drop for Folder {
    fn drop(&mut self) {
        let _ = fs::remove_dir_all(&self.0);
    }
}

/// What the program writes in a folder.
fn written(words: &[String], folder: &Path) -> io::Result<Vec<u8>> {
    let mut program = Command::new(&words[0]);
    program.args(&words[1..]).current_dir(folder);
    let mut child = program.stdout(Stdio::piped()).spawn()?;
    let mut text = Vec::new();
    if let Some(mut stdout) = child.stdout.take() {
        stdout.read_to_end(&mut text)?;
    }
    child.wait()?;
    Ok(text)
}

/// The elements of a table's export by the second implementation, one after another.
fn elements(table: &[u8], mut take: impl FnMut(&str)) {
    let unfolding = read_table(table).and_then(|table| unfold(&table.net));
    if let Ok(unfolding) = unfolding {
        let doubled = Doubled::of(&unfolding);
        doubled.elements().for_each(|element| take(&element));
    }
}

/// The least time of some rounds, in nanoseconds.
fn least(mut work: impl FnMut()) -> f64 {
    let timed = |_| {
        let begun = Instant::now();
        work();
        begun.elapsed().as_nanos() as f64
    };
    (0..ROUNDS).map(timed).fold(f64::MAX, f64::min)
}

/// Measures the export of a table; what the program writes is compared first.
pub fn measured(table: &[u8]) -> io::Result<Exported> {
    let (mut text, mut count) = (Vec::new(), 0);
    elements(table, |element| {
        text.extend_from_slice(element.as_bytes());
        count += 1;
    });
    let by_program = match program() {
        None => None,
        Some(words) => {
            let folder = Folder::with(table)?;
            let agreed = written(&words, &folder.0)? == text;
            assert!(agreed, "the program and the second implementation differ");
            Some(least(|| {
                black_box(written(&words, &folder.0).is_ok());
            }))
        }
    };
    Ok(Exported {
        elements: count,
        bytes: text.len(),
        second: least(|| {
            elements(table, |element| {
                black_box(element);
            })
        }),
        program: by_program,
    })
}
