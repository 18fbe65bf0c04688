//! A second implementation of the calls on net tables with persistent conditions, written to be believed and compared.
//!
//! The requirements document is cited as 01 by the title of its section; the paper is F. Crazzolara and G. Winskel,
//! Petri Nets With Persistence.

pub mod across;
pub mod calls;
pub mod export;
pub mod game;
pub mod generator;
pub mod lent;
pub mod lines;
pub mod listing;
pub mod losses;
pub mod plain;
pub mod reader;
pub mod records;
pub mod refusal;
pub mod repeats;
pub mod showing;
pub mod table;
pub mod unfolding;
