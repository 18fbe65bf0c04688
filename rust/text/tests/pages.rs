//! What the pages show of texts with several troubles, of logs and of digests.

use std::fs;

use text::{read_all, Table};

/// The table of an example.
fn example(name: &str) -> Table {
    let path = format!("{}/../../examples/{name}", env!("CARGO_MANIFEST_DIR"));
    let bytes = fs::read(&path).unwrap_or_else(|error| panic!("{path}: {error}"));
    read_all(&bytes).unwrap_or_else(|troubles| panic!("{path}: {troubles:?}"))
}

#[test]
fn the_page_of_the_notation_shows_several_troubles_and_logs() {
    let path = format!("{}/../../docs/TEXT.md", env!("CARGO_MANIFEST_DIR"));
    let page = fs::read_to_string(path).unwrap();
    let blocks: Vec<&str> = page.split("```\n").collect();
    let named = read_all(blocks[1].as_bytes()).unwrap();
    let shown = Table::of_bytes(&named.bytes()).unwrap().text();
    assert_eq!(shown, blocks[3]);
    let misspelt = blocks[1]
        .replace("load-key: {}", "load-key {}")
        .replace("b-warm, key-loaded}", "b-warm, key-loded}")
        .replace("run hasty: c", "run hasty: \u{441}");
    let troubles = read_all(misspelt.as_bytes()).unwrap_err();
    let told = troubles.iter().map(|t| format!("night.txt: {t}\n"));
    assert_eq!(told.collect::<String>(), blocks[7]);
    for log in [blocks[13], blocks[15]] {
        let runs = text::read_log(log.as_bytes(), &named).unwrap().runs;
        assert_eq!(runs[0].steps, [0, 1]);
    }
    let (stated, _) = text::log_digest(blocks[13].as_bytes()).unwrap();
    assert!(text::digest(&named.bytes()).starts_with(&stated));
    assert!(page.contains(&format!("| `table: {stated}` |")));
}

#[test]
fn the_page_of_the_format_tells_the_digest_of_net_a() {
    let path = format!("{}/../../docs/FORMAT.md", env!("CARGO_MANIFEST_DIR"));
    let page = fs::read_to_string(path).unwrap();
    let digest = text::digest(&example("net-a.txt").bytes());
    assert!(page.contains(&format!("The digest of the table is {digest}.\n")));
}
