//! The answers that are meant for the next version. Without them every word answers as it did before they were made.

/// The variable of the environment that asks for them, by being 1.
pub const VARIABLE: &str = "DOVETRELLIS_NEXT";

/// They are asked for.
pub fn is_asked() -> bool {
    std::env::var_os(VARIABLE).is_some_and(|value| value == "1")
}
