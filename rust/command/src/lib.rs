//! The command `dovetrellis`: lists, judges, plays, unfolds, exports, packs and shows tables, and reads a checker's traces back. Every
//! answer comes from the proved library, asked over its driver, or from the proved programs `list` and `export`; this crate finds the
//! files, turns text into records and words what comes back. Only digests, the warnings on a table, why two steps may not change places and
//! what else a refused step lacked are its own.

pub mod asked;
pub mod before;
pub mod errors;
pub mod exchange;
pub mod export;
pub mod files;
pub mod fire;
pub mod help;
pub mod json;
pub mod judge;
pub mod list;
pub mod listed;
pub mod lister;
pub mod lossy;
pub mod names;
pub mod next;
pub mod pack;
pub mod played;
pub mod progress;
pub mod replay;
pub mod source;
pub mod stop;
pub mod telling;
pub mod tools;
pub mod trace;
pub mod trial;
pub mod unfold;
pub mod version;
pub mod walk;
pub mod warnings;
pub mod witness;
