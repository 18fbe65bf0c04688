//! Links the archive that DOVETRELLIS_ARCHIVE names.

fn main() {
    println!("cargo:rerun-if-env-changed=DOVETRELLIS_ARCHIVE");
    let Ok(archive) = std::env::var("DOVETRELLIS_ARCHIVE") else {
        println!(
            "cargo:warning=DOVETRELLIS_ARCHIVE names no archive, so the benchmarks will not link"
        );
        return;
    };
    println!("cargo:rerun-if-changed={archive}");
    println!("cargo:rustc-link-arg-bins={archive}");
}
