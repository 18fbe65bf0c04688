//! What is wrong with a text, as the command tells it: one trouble, or all that the next version tells. The environment names the driver (DOVETRELLIS_DRIVER), run by the words of
//! RATTLE_RUN.

use std::process::Command;

use command::lister::Folder;
use command::next::VARIABLE as NEXT;

/// What came of a command on a text: its output, what it said, and its exit status; in the next version, or not.
fn ran_by(next: &str, text: &str, words: &[&str]) -> (String, String, i32) {
    let folder = Folder::new().unwrap();
    folder.write("t.txt", text.as_bytes()).unwrap();
    let mut command = Command::new(env!("CARGO_BIN_EXE_dovetrellis"));
    command.args(words).current_dir(folder.path());
    command.env(NEXT, next);
    let output = command.env_remove("DOVETRELLIS_SCRIPT").output().unwrap();
    let [out, err] = [output.stdout, output.stderr].map(|bytes| String::from_utf8(bytes).unwrap());
    (out, err, output.status.code().unwrap())
}

/// The same in the next version.
fn ran(text: &str, words: &[&str]) -> (String, String, i32) {
    ran_by("1", text, words)
}

#[test]
fn one_trouble_is_told_and_that_is_the_first_of_its_kind() {
    let pieces = "conditions: a, b\nx {a} -> {b}\ny: {a} -> {c}\nstart: {a, d}\nrun r: x, ; z\n";
    let marks = "expected a name, a number or one of `{ } , : -> .. [p] #`, found";
    let statements = pieces.replace(" ;", "");
    let begins = "expected `[p]`, `,` or the end of the line, found `{`";
    let names = statements.replace("x {", "x: {");
    let none = "expected the name or number of a condition, found `c`, which is none";
    let log = "# of tonight\nrun: 0, 1\n";
    let nothing = "expected `conditions:` somewhere, found the end of the text";
    for (text, said) in [
        (pieces, format!("line 5, column 11: {marks} `;`")),
        (&statements, format!("line 2, column 3: {begins}")),
        (&names, format!("line 3, column 12: {none}")),
        (log, format!("line 3, column 1: {nothing}")),
    ] {
        let said = format!("dovetrellis: t.txt: {said}\n");
        for command in ["judge", "unfold", "export", "pack", "show", "list"] {
            assert_eq!(
                ran_by("", text, &[command, "t.txt"]),
                (String::new(), said.clone(), 1)
            );
        }
    }
}

#[test]
fn several_troubles_are_told_in_one_go() {
    let text = "conditions: a, b\nx {a} -> {b}\ny: {a} -> {c}\nstart: {a, d}\nrun r: x, z\n";
    let condition = "expected the name or number of a condition, found";
    let said = format!(
        "dovetrellis: t.txt: line 2, column 3: expected `:`, since `x` begins an event, found `{{`\n\
         dovetrellis: t.txt: line 3, column 12: {condition} `c`, which is none\n\
         dovetrellis: t.txt: line 4, column 12: {condition} `d`, which is none\n\
         dovetrellis: t.txt: line 5, column 11: expected the name or number of an event, found `z`, which is none\n"
    );
    for command in ["judge", "unfold", "export", "pack", "show", "list"] {
        assert_eq!(
            ran(text, &[command, "t.txt"]),
            (String::new(), said.clone(), 1)
        );
    }
}

#[test]
fn the_troubles_that_are_not_told_are_counted() {
    let lists: String = (0..27).map(|e| format!("{e}: {{b}} -> {{}}\n")).collect();
    let text = format!("conditions: a\n{lists}start: {{a}}\n");
    let (_, err, status) = ran(&text, &["judge", "t.txt"]);
    assert_eq!((err.lines().count(), status), (21, 1));
    assert!(
        err.ends_with(", which is none\ndovetrellis: t.txt: and 7 more\n"),
        "{err}"
    );
}

#[test]
fn a_text_with_the_character_that_deletes_is_text_but_in_the_next_version() {
    let text = "conditions: a \x7f\nstart: {a}\n";
    let marks = "a name, a number or one of `{ } , : -> .. [p] #`";
    let place = "line 1, column 15";
    let said = format!(
        "dovetrellis: t.txt: {place}: expected {marks}, found `\\u{{7f}}`, which is U+007F\n"
    );
    assert_eq!(
        ran_by("", text, &["pack", "t.txt"]),
        (String::new(), said, 1)
    );
    let (_, err, _) = ran(text, &["pack", "t.txt"]);
    assert!(err.contains("byte 14 is a control character"), "{err}");
}
