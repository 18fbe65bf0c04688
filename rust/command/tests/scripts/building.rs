//! What the script builds, and how it tells of it.

use std::fs;
use std::process::Command;

use command::lister::Folder;

use crate::{one_test, repository, said, script, write_script};

/// A kit that does nothing.
const IDLE: &str = "#!/usr/bin/env bash
";

/// A kit that proves nothing.
const FAILING: &str = "#!/usr/bin/env bash
exit 1
";

/// A kit that says what the file of the crate says, and builds what is asked for.
const SAYING: &str = "#!/usr/bin/env bash
echo \"$(< says)\"
mkdir -p out && echo built > \"out/${PWD##*/}\"
";

/// Something that stands for the C compiler and its linker.
const LINKING: &str = "#!/usr/bin/env bash
echo built > \"$2\"
";

/// A repository of six crates and a kit that says the given lines where it is called in one of them.
fn saying(of: &str, says: &[&str]) -> Folder {
    let repository = repository(SAYING, &[]);
    let at = repository.path();
    let crates =
        "# the crates\nlists:\nmodel : lists\ntext: lists\nffi: model\nffi_c staticlib: ffi\n\
                  list: model io # and\n";
    fs::write(at.join("crates.txt"), crates).unwrap();
    fs::create_dir_all(at.join("crates").join(of)).unwrap();
    fs::write(at.join("crates").join(of).join("says"), says.join("\n")).unwrap();
    write_script(&at.join("driver/build"), LINKING);
    repository
}

/// What the script says of building something, after its first line.
fn told_of(repository: &Folder, what: &str) -> String {
    let output = script(repository, &["build", what]).output().unwrap();
    let told = said(&output);
    assert_eq!(output.status.code(), Some(0), "{told}");
    told.split_once('\n').unwrap().1.to_string()
}

#[test]
fn a_build_counts_the_crates_that_are_proved() {
    let _one = one_test();
    let says = [
        "rt: lists: begins with what a check kept in /elsewhere/crates/lists",
        "rt: chose --jobs 2 for lists",
        "fn lists::first: proved",
        "logic=proved functions=6",
        "rt: chose --jobs 2 for list",
        "logic=proved functions=9",
        "rt: running out/list; to give it other input, run that file yourself",
        "rt: waiting for another rt to finish",
    ];
    let expected = "\
dovetrellis: 1 of at most 3: lists proved
dovetrellis: 2 of at most 3: list proved
rt: waiting for another rt to finish
";
    assert_eq!(told_of(&saying("list", &says), "list"), expected);
}

#[test]
fn the_library_is_the_archive_with_the_driver_over_it() {
    let _one = one_test();
    let repository = saying("ffi_c", &[]);
    let archiving = "#!/usr/bin/env bash\necho 'rt: chose --jobs 2 for ffi_c'\necho 'logic=proved functions=29'\n\
                     echo built > \"$1\"\n";
    write_script(&repository.path().join("driver/archive"), archiving);
    let told = told_of(&repository, "library");
    assert_eq!(told, "dovetrellis: 1 of at most 4: ffi_c proved\n");
    for built in ["target/libdovetrellis.a", "target/outside/driver"] {
        let built = repository.path().join(built);
        assert_eq!(fs::read_to_string(built).unwrap(), "built\n");
    }
}

#[test]
fn what_is_not_proved_is_told_as_it_is() {
    let _one = one_test();
    let says = [
        "rt: chose --jobs 2 for lists",
        "logic=not-proved",
        "rt: mend these first",
    ];
    let told = told_of(&saying("list", &says), "list");
    assert_eq!(told, "rt: mend these first\n");
}

#[test]
fn what_rt_keeps_is_not_taken_for_a_change() {
    let _one = one_test();
    let repository = saying("list", &[]);
    assert_eq!(told_of(&repository, "list"), "");
    let kept = repository.path().join("crates/list/out/incremental");
    fs::write(kept, "newer").unwrap();
    let again = script(&repository, &["build", "list"]).output().unwrap();
    assert_eq!(said(&again), "");
    std::thread::sleep(std::time::Duration::from_millis(20));
    fs::write(repository.path().join("crates/list/changed"), "newer").unwrap();
    let changed = script(&repository, &["build", "list"]).output().unwrap();
    assert!(said(&changed).contains("proving and building the program 'list'"));
}

#[test]
fn the_archive_for_c_is_built_once() {
    let _one = one_test();
    let repository = saying("ffi_c", &[]);
    let archiving = "#!/usr/bin/env bash\necho 'logic=proved functions=29'\necho built > \"$1\"\n";
    write_script(&repository.path().join("driver/archive"), archiving);
    let told = told_of(&repository, "archive");
    assert_eq!(told, "dovetrellis: 1 of at most 4: ffi_c proved\n");
    let archive = repository.path().join("target/libdovetrellis.a");
    assert_eq!(fs::read_to_string(archive).unwrap(), "built\n");
    let again = script(&repository, &["build", "archive"]).output().unwrap();
    assert_eq!(said(&again), "");
}

#[test]
fn a_closed_output_is_an_error_in_the_next_version() {
    let _one = one_test();
    let repository = repository(IDLE, &[]);
    let closed = |next: &str| {
        let mut shell = Command::new("bash");
        shell.args(["-c", "\"$0\" help >&-"]);
        shell.env("DOVETRELLIS_NEXT", next);
        let output = shell.arg(repository.path().join("dovetrellis")).output();
        output.unwrap()
    };
    let output = closed("1");
    let expected = "dovetrellis: the standard output is closed: nothing can be written there\n";
    assert_eq!(
        (output.status.code(), said(&output).as_str()),
        (Some(2), expected)
    );
    assert!(!said(&closed("")).contains("closed"));
}

/// A kit that tells its version.
const VERSIONED: &str = "#!/usr/bin/env bash
[ \"$1\" = --version ] && echo 'kit-1 logic 23'
";

/// A git that knows a commit, and tells as changed what a file of the repository says; it is told of the top by '-C TOP'.
const GIT: &str = "#!/usr/bin/env bash
case \"$3 $4\" in
    'rev-parse --show-prefix') echo ;;
    'rev-parse --short') echo abc1234 ;;
    'status '*) [ ! -e \"$2/changed\" ] || echo \"$(< \"$2/changed\")\" ;;
esac
";

/// A git in a folder below the top of another repository.
const GIT_ABOVE: &str = "#!/usr/bin/env bash
[ \"$3 $4\" = 'rev-parse --show-prefix' ] && echo 'below/' || echo abc1234
";

/// What the script hands to the program as the origin of the build, with this git, or none.
fn origin(kit: &str, git: Option<&str>, changed: &str) -> String {
    let repository = repository(kit, &[]);
    let at = repository.path();
    let program = "#!/usr/bin/env bash\necho \"$1 ${DOVETRELLIS_BUILT-}\"\n";
    write_script(&at.join("rust/target/release/dovetrellis"), program);
    if let Some(git) = git {
        write_script(&at.join("bin/git"), git);
    }
    if !changed.is_empty() {
        fs::write(at.join("changed"), changed).unwrap();
    }
    let output = script(&repository, &["--version"]).output().unwrap();
    assert_eq!(said(&output), "");
    String::from_utf8(output.stdout).unwrap()
}

#[test]
fn the_version_is_given_commit_and_kit() {
    let _one = one_test();
    let at_commit = origin(VERSIONED, Some(GIT), "");
    assert_eq!(at_commit, "--version commit abc1234, kit-1 logic 23\n");
    let changed = origin(VERSIONED, Some(GIT), " M crates/lists/src/lib.rt");
    assert_eq!(
        changed,
        "--version commit abc1234+changes, kit-1 logic 23\n"
    );
    for git in [None, Some(FAILING), Some(GIT_ABOVE)] {
        let unknown = origin(VERSIONED, git, "");
        assert_eq!(unknown, "--version commit unknown, kit-1 logic 23\n");
    }
    let no_kit = origin(FAILING, Some(GIT), "");
    assert_eq!(no_kit, "--version commit abc1234, kit unknown\n");
}
