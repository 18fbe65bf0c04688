//! Exports nets, and compares plain nets with the unfolded nets that they must be:
//! `plain export COUNT SEED FOLDER` writes random small nets, each as `N.bin` (its table) and `N.pnml` (its export);
//! `plain export TABLE` writes the export of a table's file to stdout;
//! `plain compare FOLDER` reads plain nets from stdin, as lines (`plain.rs` of this package), and compares each with `NAME.bin`.

use std::fs;
use std::io::{self, BufWriter, Read, Write};
use std::path::Path;
use std::process::ExitCode;

use second::export::Doubled;
use second::generator::{small_unfolding, Random};
use second::plain::{compare, read_nets, Named};
use second::table::{read_table, table_bytes};
use second::unfolding::{unfold, Unfolding};

/// The most markings of a net that are looked at.
const MOST_MARKINGS: usize = 2_000;

/// The unfolding of the net in a table's file.
fn unfolding_of(path: &Path) -> Result<Unfolding, String> {
    let table = fs::read(path).map_err(|error| format!("{}: {error}", path.display()))?;
    let unfolding = read_table(&table).and_then(|table| unfold(&table.net));
    unfolding.map_err(|refusal| {
        let path = path.display();
        format!("{path}: refused {} at {}", refusal.number, refusal.place)
    })
}

/// Writes the export of an unfolded net.
fn write_export(unfolding: &Unfolding, to: impl Write) -> io::Result<()> {
    let mut to = BufWriter::new(to);
    for element in Doubled::of(unfolding).elements() {
        to.write_all(element.as_bytes())?;
    }
    to.flush()
}

/// Writes random small nets to a folder.
fn export_random(count: usize, seed: u64, folder: &Path) -> io::Result<()> {
    let mut random = Random::new(seed);
    fs::create_dir_all(folder)?;
    for number in 0..count {
        let (net, unfolding) = small_unfolding(&mut random);
        fs::write(folder.join(format!("{number}.bin")), table_bytes(&net))?;
        let file = fs::File::create(folder.join(format!("{number}.pnml")))?;
        write_export(&unfolding, file)?;
    }
    Ok(())
}

/// Compares one plain net with the unfolded net of its table; true where every marking was seen.
fn compare_one(net: &Named, folder: &Path) -> Result<bool, String> {
    let unfolding = unfolding_of(&folder.join(format!("{}.bin", net.name)))?;
    let plain = net.in_order(unfolding.conditions.len(), unfolding.events.len());
    let plain = plain.ok_or_else(|| format!("{}: not the parts of the export", net.name))?;
    let agreed = compare(&unfolding, &plain, MOST_MARKINGS);
    let agreed = agreed.map_err(|what| format!("{}: {what}", net.name))?;
    Ok(agreed.whole)
}

/// Compares all plain nets of stdin.
fn compare_all(folder: &Path) -> Result<(), String> {
    let mut text = String::new();
    let read = io::stdin().read_to_string(&mut text);
    read.map_err(|error| error.to_string())?;
    let nets = read_nets(&text)?;
    let mut whole = 0;
    for net in &nets {
        whole += usize::from(compare_one(net, folder)?);
    }
    println!("{} nets agree, {whole} of them whole", nets.len());
    Ok(())
}

fn main() -> ExitCode {
    let words: Vec<String> = std::env::args().skip(1).collect();
    let words: Vec<&str> = words.iter().map(String::as_str).collect();
    let told = |error: io::Error| error.to_string();
    let done = match words[..] {
        ["export", table] => unfolding_of(Path::new(table))
            .and_then(|unfolding| write_export(&unfolding, io::stdout().lock()).map_err(told)),
        ["export", count, seed, folder] => match (count.parse(), seed.parse()) {
            (Ok(count), Ok(seed)) => export_random(count, seed, Path::new(folder)).map_err(told),
            _ => Err("COUNT and SEED are numbers".to_string()),
        },
        ["compare", folder] => compare_all(Path::new(folder)),
        _ => Err(
            "usage: plain export COUNT SEED FOLDER, plain export TABLE, or plain compare FOLDER"
                .to_string(),
        ),
    };
    match done {
        Ok(()) => ExitCode::SUCCESS,
        Err(what) => {
            eprintln!("plain: {what}");
            ExitCode::FAILURE
        }
    }
}
