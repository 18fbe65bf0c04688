//! The command `export` as it is meant for the next version, and what it tells while it takes long. The environment names the program
//! (DOVETRELLIS_EXPORT) and the driver (DOVETRELLIS_DRIVER), both run by the words of RATTLE_RUN.

use std::fs;
use std::io::Read;
use std::path::Path;
use std::process::{Command, Output, Stdio};

use command::export::lacking;
use command::lister::Folder;
use command::next::VARIABLE as NEXT;
use command::source::{read, Source};
use second::export::Doubled;
use second::plain::reached_unfolded;
use second::table::read_table;
use second::unfolding::unfold;

/// The top of the repository.
const TOP: &str = concat!(env!("CARGO_MANIFEST_DIR"), "/../..");

/// What the second implementation writes for a table.
fn expected(table: &[u8]) -> String {
    let unfolding = read_table(table).and_then(|table| unfold(&table.net));
    match unfolding {
        Ok(unfolding) => Doubled::of(&unfolding).elements().collect(),
        Err(refusal) => format!("refused {} at {}\n", refusal.number, refusal.place),
    }
}

// ---- the examples and the command

/// The records of an example's table.
fn example(name: &str) -> Vec<u8> {
    let path = Path::new(TOP).join(format!("examples/{name}.txt"));
    text::read(&fs::read(path).unwrap()).unwrap().bytes()
}

/// The command among the examples.
fn command(words: &[&str]) -> Command {
    let mut command = Command::new(env!("CARGO_BIN_EXE_dovetrellis"));
    command.env(NEXT, "1");
    command.args(words).env_remove("DOVETRELLIS_SCRIPT");
    command.current_dir(Path::new(TOP).join("examples"));
    command
}

/// A command with stand-ins, which are scripts for `sh`: one for the program, and one that does something before it is the driver.
fn with_scripts(folder: &Folder, words: &[&str], before: &str, script: &str) -> Command {
    let runner = std::env::var("RATTLE_RUN").unwrap_or_default();
    let driver = std::env::var("DOVETRELLIS_DRIVER").expect("it names the driver, as .ci/run does");
    let driver = format!("{before}exec {runner} '{driver}'\n");
    folder.write("driver", driver.as_bytes()).unwrap();
    folder.write("export", script.as_bytes()).unwrap();
    let mut command = command(words);
    command.env("RATTLE_RUN", "sh");
    command.env("DOVETRELLIS_DRIVER", folder.path().join("driver"));
    command.env("DOVETRELLIS_EXPORT", folder.path().join("export"));
    command
}

/// The command with a stand-in for the program: a script for `sh`, which then runs the driver too.
fn with_stand_in(folder: &Folder, script: &str) -> Command {
    with_scripts(folder, &["export", "net-a.txt"], "", script)
}

/// What came of a command: its output, what it said, and its exit status.
fn came_of(output: Output) -> (String, String, i32) {
    let [out, err] = [output.stdout, output.stderr].map(|bytes| String::from_utf8(bytes).unwrap());
    (out, err, output.status.code().unwrap())
}

#[test]
fn the_page_counts_the_markings_of_the_hand_control() {
    let page = fs::read_to_string(Path::new(TOP).join("docs/CHECKER.md")).unwrap();
    let mut rows = page.lines().filter(|line| line.starts_with("| `hand` | "));
    let row: Vec<&str> = rows.next().unwrap().split(" | ").collect();
    let table = example("hand");
    let unfolding = unfold(&read_table(&table).unwrap().net).unwrap();
    let reached = reached_unfolded(&unfolding, 100).markings.len();
    let places = 2 * unfolding.conditions.len();
    let counts = [expected(&table).len(), places, unfolding.events.len()];
    let counted = [1, 2, 3, 5, 6].map(|cell| row[cell].parse::<usize>().unwrap());
    assert_eq!(counted[..3], counts);
    assert_eq!(counted[3..], [reached; 2]);
    assert_eq!(rows.next(), None);
}

#[test]
fn where_nobody_reads_on_the_command_ends_and_says_so() {
    let folder = Folder::new().unwrap();
    let script = "printf '<pnml'\nwhile :; do echo 0123456789abcdef; done\n";
    let mut command = with_stand_in(&folder, script);
    let mut child = command
        .stdout(Stdio::piped())
        .stderr(Stdio::piped())
        .spawn()
        .unwrap();
    let mut first = [0; 100];
    child.stdout.take().unwrap().read_exact(&mut first).unwrap();
    let (_, err, status) = came_of(child.wait_with_output().unwrap());
    let said = "dovetrellis: the output was closed before all was written\n";
    assert_eq!((err.as_str(), status), (said, 2));
}

/// A table of a text.
fn source(text: &str) -> Source {
    let folder = Folder::new().unwrap();
    folder.write("t.txt", text.as_bytes()).unwrap();
    let path = folder.path().join("t.txt").display().to_string();
    read(&path).unwrap_or_else(|stop| panic!("{stop:?}"))
}

#[test]
fn what_is_not_in_the_net_is_noted_by_its_events() {
    let text = "conditions: a\npress: {a} -> {}\n1: {a} -> {}\nstart: {}\n";
    let note = |events: &str| {
        format!(
            "runs of the table are not in the net where one of these comes again: {events}; \
             what a checker shows for the net is not shown for such runs (docs/CHECKER.md)"
        )
    };
    let table = source(text);
    assert_eq!(lacking(&table, &[]), None);
    assert_eq!(lacking(&table, &[0]), Some(note("event 0 `press`")));
    let both = note("event 0 `press`, event 1");
    assert_eq!(lacking(&table, &[0, 1]), Some(both));
    let many: Vec<u16> = (0..12).collect();
    let told = lacking(&table, &many).unwrap();
    assert!(told.contains("event 8, event 9 and 2 more; what"), "{told}");
}

/// A button whose second press no run of the net has.
const BUTTON: &str = "conditions: hand-off, hand-on, k [p], n0, n1, armed, lamp-off, lamp-on\n\
    press: {hand-off} -> {hand-on, k}\none: {hand-on, n0} -> {hand-off, n1}\n\
    two: {hand-on, n1} -> {hand-off, armed}\nuse: {lamp-off, k} -> {lamp-on}\n\
    start: {hand-off, n0, lamp-off}\n";

#[test]
fn the_note_stands_beside_the_net_and_not_in_it() {
    let folder = Folder::new().unwrap();
    folder.write("button.txt", BUTTON.as_bytes()).unwrap();
    let path = folder.path().join("button.txt").display().to_string();
    let table = source(BUTTON);
    let (out, err, status) = came_of(command(&["export", &path]).output().unwrap());
    assert!(out == expected(&table.bytes), "{out}");
    let note = lacking(&table, &[0]).unwrap();
    assert_eq!((err, status), (format!("dovetrellis: note: {note}\n"), 0));
}

/// The bytes that a command writes, and the lines on its progress, asked for or not, each written over the one before and the last wiped.
fn progress_of(command: &mut Command, is_asked: bool) -> (usize, Vec<String>) {
    match is_asked {
        true => command.env("DOVETRELLIS_PROGRESS", "1"),
        false => command.env_remove("DOVETRELLIS_PROGRESS"),
    };
    let (out, err, status) = came_of(command.output().unwrap());
    assert_eq!(status, 0, "{err}");
    let mut lines: Vec<String> = err.split('\r').map(String::from).collect();
    assert_eq!(
        (lines.remove(0), lines.pop().unwrap_or_default()),
        Default::default()
    );
    if let Some(blanks) = lines.pop() {
        let last = lines.last().expect("it wipes a line");
        assert_eq!(blanks, " ".repeat(last.len()));
    }
    (out.len(), lines)
}

#[test]
fn a_long_export_tells_how_far_it_is() {
    let folder = Folder::new().unwrap();
    let script =
        "printf '<pnml><page id=\"g\">'\nyes '<place id=\"p0\"/>' | head -n 100000\nsleep 1.3\n\
                  printf '<transition id=\"t0\"/><text>'\n";
    let (bytes, lines) = progress_of(&mut with_stand_in(&folder, script), true);
    assert_eq!(bytes, 1_700_046);
    let last = lines.last().map(String::as_str);
    assert_eq!(last, Some("export: 1.7 MB, 100,002 of 38 elements"));
    let unasked = progress_of(&mut with_stand_in(&folder, script), false);
    assert_eq!(unasked, (bytes, Vec::new()));
}

#[test]
fn what_is_done_within_a_second_is_done_without_a_word() {
    let (_, lines) = progress_of(&mut command(&["export", "net-c.txt"]), true);
    assert_eq!(lines.len(), 0);
}

#[test]
fn an_element_counts_that_comes_in_two_parts() {
    let folder = Folder::new().unwrap();
    let script =
        "printf '<pnml><place id=\"p0\"/><a'\nsleep 0.6\nprintf 'rc id=\"a0\"/><t'\nsleep 0.6\n\
                  printf 'ransition id=\"t0\"/></page>'\n";
    let (_, lines) = progress_of(&mut with_stand_in(&folder, script), true);
    let last = lines.last().map(String::as_str);
    assert_eq!(last, Some("export: 0.0 MB, 4 of 38 elements"));
}

#[test]
fn a_long_unfolding_tells_how_far_it_is() {
    let folder = Folder::new().unwrap();
    let mut slow = with_scripts(&folder, &["unfold", "net-a.txt"], "sleep 1.2\n", "");
    let (bytes, lines) = progress_of(&mut slow, true);
    assert_eq!(lines[0], "unfold: 0 of 4 events");
    assert_eq!(progress_of(&mut slow, false), (bytes, Vec::new()));
}
