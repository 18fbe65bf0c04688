//! The listing, byte for byte, and which refusal it shows (01, Listing).

use std::fs;
use std::path::PathBuf;
use std::process::Command;

use second::listing::listing;
use second::records::{record_bytes, word_bytes, RUN};
use second::table::table_bytes;

use crate::common::*;

/// The bytes of a Run record.
fn run_file(run: &[u16]) -> Vec<u8> {
    record_bytes(RUN, &word_bytes(run))
}

#[test]
fn net_a_and_0_1_2_1_are_listed_exactly() {
    let expected = "start 0\n0 0 0 1,2\n1 1 2 2,3\n2 2 3 1,2\n3 1 2 2,3\nend unfolded 3,4\n";
    assert_eq!(listing(&net_a(&[0]), &run_file(&[0, 1, 2, 1])), expected);
}

#[test]
fn a_repeat_that_lifts_is_listed() {
    let expected = "start 0\n0 0 0 0\n1 0 1 0\n2 0 1 0\nend unfolded 0,1\n";
    assert_eq!(listing(&net_c(), &run_file(&[0, 0, 0])), expected);
}

#[test]
fn an_empty_marking_is_a_dash() {
    let table = table_bytes(&net(&[0], &[(&[0], &[])], &[0]));
    let expected = "start 0\n0 0 0 -\nend unfolded -\n";
    assert_eq!(listing(&table, &run_file(&[0])), expected);
    let table = net_a(&[]);
    assert_eq!(listing(&table, &run_file(&[])), "start -\nend unfolded -\n");
}

#[test]
fn refusals_of_the_table_come_first() {
    assert_eq!(listing(&[], &[]), "refused 1 at 0\n");
    assert_eq!(listing(&[0; 65_537], &[0; 8_197]), "refused 19 at 0\n");
    assert_eq!(listing(&[0; 65_536], &[0; 8_197]), "refused 2 at 0\n");
    assert_eq!(listing(&net_a(&[4]), &[0; 8_197]), "refused 5 at 48\n");
}

#[test]
fn refusals_of_the_run_file_come_before_those_of_the_lift() {
    let idle = table_bytes(&net(&[1], &[(&[], &[0])], &[]));
    assert_eq!(listing(&idle, &[0; 8_197]), "refused 19 at 0\n");
    assert_eq!(listing(&idle, &[]), "refused 1 at 0\n");
    assert_eq!(listing(&idle, &[0, 0, 5, 0]), "refused 2 at 0\n");
    assert_eq!(listing(&idle, &[1, 0, 4, 0, 0]), "refused 3 at 0\n");
    assert_eq!(listing(&idle, &[0, 0, 4, 0, 9]), "refused 9 at 4\n");
    assert_eq!(listing(&idle, &run_file(&[])), "refused 13 at 0\n");
}

#[test]
fn a_full_run_file_is_read() {
    let table = table_bytes(&net(&[0], &[(&[0], &[0])], &[0]));
    let text = listing(&table, &run_file(&[0; 4_096]));
    assert_eq!(text.lines().count(), 4_098);
    assert!(text.ends_with("\n4095 0 0 0\nend unfolded 0\n"));
}

#[test]
fn refusals_of_the_lift_take_the_place_of_all_lines() {
    assert_eq!(
        listing(&net_a(&[0]), &run_file(&[0, 3])),
        "refused 10 at 1\n"
    );
    assert_eq!(
        listing(&net_a(&[0]), &run_file(&[0, 0])),
        "refused 11 at 1 by 0\n"
    );
    assert_eq!(
        listing(&net_a(&[0, 1]), &run_file(&[0])),
        "refused 12 at 0 by 1\n"
    );
    assert_eq!(listing(&net_b(), &run_file(&[0, 0])), "refused 15 at 1\n");
}

/// An empty folder of this name for the program to run in.
fn folder(name: &str) -> PathBuf {
    let folder = PathBuf::from(env!("CARGO_TARGET_TMPDIR")).join(name);
    if folder.exists() {
        fs::remove_dir_all(&folder).unwrap();
    }
    fs::create_dir_all(&folder).unwrap();
    folder
}

/// What the program writes in a folder.
fn program_in(folder: &PathBuf) -> String {
    let mut program = Command::new(env!("CARGO_BIN_EXE_listing"));
    let output = program.current_dir(folder).output().unwrap();
    assert!(output.status.success());
    String::from_utf8(output.stdout).unwrap()
}

#[test]
fn the_program_lists_its_files() {
    let folder = folder("files");
    fs::write(folder.join("net.bin"), net_a(&[0])).unwrap();
    fs::write(folder.join("run.bin"), run_file(&[0, 1])).unwrap();
    let expected = "start 0\n0 0 0 1,2\n1 1 2 2,3\nend unfolded 3,4\n";
    assert_eq!(program_in(&folder), expected);
    fs::write(folder.join("run.bin"), vec![0; 8_197]).unwrap();
    assert_eq!(program_in(&folder), "refused 19 at 0\n");
}

#[test]
fn a_missing_file_and_a_folder_count_as_empty() {
    let folder = folder("missing");
    assert_eq!(program_in(&folder), "refused 1 at 0\n");
    fs::create_dir(folder.join("net.bin")).unwrap();
    assert_eq!(program_in(&folder), "refused 1 at 0\n");
    fs::remove_dir(folder.join("net.bin")).unwrap();
    fs::write(folder.join("net.bin"), vec![0; 100_000]).unwrap();
    assert_eq!(program_in(&folder), "refused 19 at 0\n");
    fs::write(folder.join("net.bin"), net_a(&[0])).unwrap();
    fs::create_dir(folder.join("run.bin")).unwrap();
    assert_eq!(program_in(&folder), "refused 1 at 0\n");
}
