//! Runs told one after another.

use std::io::Write;

use crate::errors::put;
use crate::source::RunSource;
use crate::stop::{Stop, Stopped, Told};

/// The listing of a run, and why it is none, or none to the run's end in the unfolded net.
pub struct Listed {
    pub text: String,
    pub told: Option<Told>,
}

/// Writes listings one after another, each under what its run is called where there are several; of a refused run it is said on the
/// error output what that means, and then its story.
pub fn write_all(
    runs: &[RunSource],
    mut listed: impl FnMut(&RunSource) -> Stopped<Listed>,
    mut story: impl FnMut(&RunSource, &Told) -> Stopped<String>,
    out: &mut impl Write,
) -> Stopped<()> {
    let mut fares = Ok(());
    for (index, run) in runs.iter().enumerate() {
        let Listed { text, told } = listed(run)?;
        if runs.len() > 1 {
            let between = if index > 0 { "\n" } else { "" };
            writeln!(out, "{between}# {}", run.called)?;
        }
        out.write_all(text.as_bytes())?;
        if let Some(told) = told {
            // where nobody reads the listing the error output still tells
            let _ = out.flush();
            put(told.words() + "\n");
            put(story(run, &told)?);
            fares = Err(Stop::Answered);
        }
    }
    fares
}
