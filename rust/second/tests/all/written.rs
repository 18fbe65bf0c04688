//! The modules of lines as they are written.

use second::lines::{
    as_written, limit_lines, lines, proofs_module, specs_module, wrong_lines, ROUND,
};

#[test]
fn names_are_written_as_the_model_spells_them() {
    for (module, written) in [
        (
            "example (notUnfolded (underOld n) 14 0)",
            "example (not_unfolded (under_old n) 14 0)",
        ),
        (
            "(0 ∷ []) ↝ (atStart ∷ byEvent 1 ∷ [])",
            "(0 ∷ []) ↝ (at_start ∷ by_event 1 ∷ [])",
        ),
        (
            "use Rattle.model.specs.Examples.{Line, net}",
            "use Rattle.model.specs.Examples.{Line, net}",
        ),
        (
            "pub compared12-agree : T (allAgree compared12)",
            "pub compared12_agree : T (all_agree compared12)",
        ),
        (
            "-- Every line agrees.\nsome_name = tt",
            "-- Every line agrees.\nsome_name = tt",
        ),
    ] {
        assert_eq!(as_written(module), written);
    }
}

#[test]
fn a_module_changes_in_its_names_alone() {
    let some = [lines(2 * ROUND, 5), limit_lines()].concat();
    for module in [specs_module(&some, 5), proofs_module(&some)] {
        let written = as_written(&module);
        let plain = |text: &str| text.replace(['_', '-'], "").to_lowercase();
        assert_eq!(plain(&written), plain(&module));
        assert_eq!(as_written(&written), written);
        assert!(written.lines().eq(written.lines().map(str::trim_end)));
    }
}

#[test]
fn the_wrong_line_is_wrong_by_one_event() {
    let net = "(net (1 ∷ []) (((0 ∷ []) ↝ (0 ∷ [])) ∷ []) (0 ∷ []))";
    assert_eq!(wrong_lines(), [format!("example (counts {net} 2 3)")]);
}
