//! Writes the listing of `net.bin` and `run.bin` in the current folder (01, Listing).

use std::fs::File;
use std::io::{Read, Write};

use second::listing::{listing, MOST_NET_BYTES, MOST_RUN_BYTES};

/// The bytes of a file up to one past its limit; a file that cannot be opened or read counts as empty.
fn bytes_of(name: &str, most: usize) -> Vec<u8> {
    let mut bytes = Vec::new();
    let wanted = most as u64 + 1;
    let read = File::open(name).and_then(|file| file.take(wanted).read_to_end(&mut bytes));
    if read.is_err() {
        bytes.clear();
    }
    bytes
}

fn main() -> std::io::Result<()> {
    let net_file = bytes_of("net.bin", MOST_NET_BYTES);
    let run_file = bytes_of("run.bin", MOST_RUN_BYTES);
    std::io::stdout().write_all(listing(&net_file, &run_file).as_bytes())
}
