//! `dovetrellis --version`: the version, and of what it was built.

/// The line: the version of the command and the library, and the commit and the kit as the script or the installation tells them.
pub fn told() -> String {
    let version = env!("CARGO_PKG_VERSION");
    match std::env::var("DOVETRELLIS_BUILT") {
        Ok(built) if !built.is_empty() => format!("dovetrellis {version} ({built})\n"),
        _ => format!("dovetrellis {version}\n"),
    }
}
