//! Wrong words as they were told before the next version's answers: its options, `--` and `-:NAME` are no words of those commands. Nothing
//! is asked of a driver.

use std::ffi::OsStr;
use std::os::unix::ffi::OsStrExt;
use std::process::Command;

use command::lister::Folder;
use command::next::VARIABLE as NEXT;

/// What is said of words, and the exit status, in the next version or not; nothing is answered. A table, records and a run are there.
fn told_by(next: &str, words: &[&OsStr]) -> (String, i32) {
    let folder = Folder::new().unwrap();
    folder
        .write("t.txt", b"conditions: a\nstart: {a}\n")
        .unwrap();
    folder.write("t.bin", &[1, 0, 1, 0, 0, 3, 0, 0, 0]).unwrap();
    folder.write("odd.bin", &[0x7f, 0, 9]).unwrap();
    folder.write("log.txt", b"run: 0\n").unwrap();
    let mut command = Command::new(env!("CARGO_BIN_EXE_dovetrellis"));
    command.args(words).current_dir(folder.path());
    command.env(NEXT, next).env_remove("DOVETRELLIS_SCRIPT");
    let output = command.output().unwrap();
    assert_eq!(output.stdout, b"");
    let err = String::from_utf8(output.stderr).unwrap();
    (err, output.status.code().unwrap())
}

#[test]
fn wrong_words_are_told_as_before() {
    let no_option =
        |word: &str| format!("there is no option '{word}' here; a file of that name is './{word}'");
    let no_file = "'-' is no file; the standard input is /dev/stdin".to_string();
    for (words, said) in [
        ("list --name t.txt", no_option("--name")),
        ("list t.txt -:night", no_option("-:night")),
        ("list -- t.txt", no_option("--")),
        ("judge --stric t.txt", no_option("--stric")),
        ("unfold t.txt more --jsn", no_option("--jsn")),
        ("show -x -", no_option("-x")),
        ("show - -x", no_file.clone()),
        ("pack -o=f t.txt", no_option("-o=f")),
        ("pack -o f -- t.txt", no_option("--")),
        ("pack t.txt -o", "a folder is missing after -o".to_string()),
        ("pack -o f t.txt -o", "-o is there twice".to_string()),
        ("pack -o f", "FILE is missing".to_string()),
        ("witness", "TABLE is missing".to_string()),
        ("witness - -", no_file),
        ("witness t.txt", "TRACE is missing".to_string()),
        ("witness t.txt -:x", no_option("-:x")),
        (
            "witness t.txt - more",
            "'more' is one word too many".to_string(),
        ),
        ("list t.txt a b", "'b' is one word too many".to_string()),
        ("judge t.txt a", "'a' is one word too many".to_string()),
        (
            "list t.txt log.txt",
            "log.txt is text; a run is a record file, or the name of a run in a text table"
                .to_string(),
        ),
        (
            "list odd.bin none",
            "'none' is neither a run nor a file; odd.bin is no text, so its runs are files"
                .to_string(),
        ),
        (
            "list odd.bin",
            "odd.bin is no text, so no run stands in it and RUN must be given".to_string(),
        ),
        (
            "list none t.txt",
            "'none' is no file; the table comes first, then the run".to_string(),
        ),
        ("build library", "only the script builds".to_string()),
    ] {
        let words: Vec<&OsStr> = words.split(' ').map(OsStr::new).collect();
        let said = format!("dovetrellis: {said}\n'dovetrellis help' tells the commands\n");
        assert_eq!(told_by("", &words), (said, 2), "{words:?}");
    }
}

#[test]
fn a_word_that_is_no_text_is_told_as_before() {
    let words = [OsStr::new("list"), OsStr::from_bytes(b"a\xff")];
    let (err, status) = told_by("", &words);
    assert!(
        err.starts_with("dovetrellis: \"a\\xFF\" is no text\n"),
        "{err}"
    );
    assert_eq!(status, 2);
    let (err, status) = told_by("1", &words);
    assert!(
        err.starts_with("dovetrellis: the word \"a\\xFF\" is not in UTF-8, "),
        "{err}"
    );
    assert_eq!(status, 2);
}

#[test]
fn the_next_version_takes_more_words() {
    let told = |words: &str| {
        let words: Vec<&OsStr> = words.split(' ').map(OsStr::new).collect();
        told_by("1", &words).0
    };
    assert!(told("list --name t.txt").contains("'--name' here (is '--names' meant?)"));
    assert!(told("list odd.bin none")
        .contains("so its runs are files; it is not taken as text, since byte 0 is"));
}
