//! The lines for the proved model.

use second::lines::{limit_lines, lines, proofs_module, specs_module, ROUND};

/// A line is of a kind, on a net under either rule.
fn is_of(line: &str, kind: &str) -> bool {
    let line = line.trim_start_matches("example (");
    let rest = line.strip_prefix(&format!("{kind} "));
    rest.is_some_and(|rest| rest.starts_with("(net ") || rest.starts_with("(underOld (net "))
}

#[test]
fn equal_seeds_give_equal_lines_of_every_kind() {
    let kinds = [
        "counts",
        "lists",
        "behind",
        "numbered",
        "unfolded",
        "notUnfolded",
        "stops",
        "stopsUnfolded",
        "fires",
        "plays",
        "notPlayed",
        "lifts",
        "notLifted",
        "projects",
        "notProjected",
        "exchanges",
        "notExchanged",
    ];
    let some = lines(2 * ROUND, 5);
    assert_eq!(some, lines(2 * ROUND, 5));
    for kind in kinds {
        assert!(some.iter().any(|line| is_of(line, kind)), "{kind}");
    }
}

#[test]
fn refusals_11_and_12_are_told_with_their_condition() {
    let some = lines(10 * ROUND, 5);
    let ends = |kind: &str, end: &str| {
        let shown = |line: &&String| is_of(line, kind) && line.contains(end);
        some.iter().filter(shown).count()
    };
    for kind in ["stops", "stopsUnfolded"] {
        assert!(ends(kind, " (some (lacks ") > 0 && ends(kind, " (some (meets ") > 0);
        assert!(ends(kind, " (some unknown)") > 0 && ends(kind, " none") > 0);
    }
    for kind in ["notPlayed", "notLifted", "notProjected", "notExchanged"] {
        let numbered = |number: u8| {
            let line =
                |line: &&String| line.starts_with(kind) && line.contains(&format!(" {number} "));
            some.iter().filter(line).count()
        };
        assert!(numbered(11) > 0 && numbered(12) > 0);
        assert!(ends(kind, " (some ") >= 20, "{kind}");
        assert!(ends(kind, " none") > 0, "{kind}");
    }
}

#[test]
fn runs_with_repeats_are_lifted_and_refused() {
    let some = lines(10 * ROUND, 5);
    let count = |kind: &str, has: &str| {
        let shown = |line: &&String| is_of(line, kind) && line.contains(has);
        some.iter().filter(shown).count()
    };
    assert_eq!(count("lifts", ""), 30 + 50);
    let refused: usize = (1..7)
        .map(|place| count("notLifted", &format!(" 15 {place} none")))
        .sum();
    assert_eq!(refused, 30);
}

#[test]
fn nets_come_under_both_rules_and_the_old_one_alone_stops() {
    let some = lines(10 * ROUND, 5);
    let under_old = |line: &&String| line.contains(" (underOld (net ");
    let old = some.iter().filter(under_old).count();
    assert!(old > 100 && old < some.len() / 2, "{old}");
    for round in some.chunks(ROUND) {
        let alone = &round[ROUND - 6..];
        assert!(alone.iter().all(|line| under_old(&line)), "{alone:?}");
        for kind in ["stops", "stopsUnfolded"] {
            let met = |line: &String| is_of(line, kind) && line.contains(" (some (meets ");
            assert!(alone.iter().any(met), "{alone:?}");
        }
        for kind in ["notPlayed", "notLifted", "notProjected", "notExchanged"] {
            let met = |line: &String| is_of(line, kind) && line.contains(" 12 ");
            assert!(alone.iter().any(met), "{alone:?}");
        }
    }
    let module = specs_module(&some, 5);
    assert!(module.contains("net, underOld, ") && module.contains("unfolding net underOld\n"));
}

#[test]
fn modules_go_in_chunks_of_fifty() {
    let some = lines(120, 1);
    assert!(specs_module(&some, 1).contains("compared2 ="));
    assert!(!specs_module(&some, 1).contains("compared3"));
    assert!(proofs_module(&some).contains("compared2-agree = tt"));
}

#[test]
fn the_limits_show_3_13_and_14() {
    let some = limit_lines();
    for (kind, end) in [
        ("notLifted", "(replicate 4097 0) 3 0 none"),
        ("notProjected", "(replicate 4097 0) 3 0 none"),
        ("notExchanged", "(replicate 4097 0) 0 3 0 none"),
        ("notUnfolded", " 14 0)"),
        ("notUnfolded", " 13 27)"),
        ("notUnfolded", " 13 28)"),
        ("notLifted", "[] 14 0 none"),
        ("notProjected", "[] 14 0 none"),
        ("counts", " 228 65535)"),
        ("counts", " 65535 65280)"),
    ] {
        let shown = |line: &String| {
            let line = line.trim_start_matches("example (");
            line.starts_with(kind) && line.ends_with(end)
        };
        assert!(some.iter().any(shown), "{kind} {end}");
    }
}
