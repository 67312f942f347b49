//! A second reading of `docs/RULES.md`, to hold the proved program against. It shares nothing with the
//! proved crates but the rules.
//!
//! * `rules` reads and writes texts and knows the refusal table.
//! * `best` finds the best delay of each gate by trying every cluster.
//! * `printed` and `legal` take a printed result apart and check it against the definitions.
//! * `plain` answers by the document's own labelling, for comparison byte by byte.
//! * `judge` puts these together: one text, one answer, right or wrong.
//! * `exhaustive`, `random`, `damaged` and `table` make the texts; `backends` gets the answers, from `library` if it is linked.
//! * `steps`, `sorted` and `shapes` are the plain baselines that speed is measured against, `whole` times whole programs.

pub mod backends;
pub mod best;
pub mod damaged;
pub mod exhaustive;
pub mod hex;
pub mod judge;
pub mod legal;
#[cfg(any(feature = "staticlib", feature = "bench"))]
pub mod library;
pub mod plain;
pub mod printed;
pub mod random;
pub mod rng;
pub mod rules;
pub mod shapes;
pub mod sorted;
pub mod steps;
pub mod table;
pub mod tally;
pub mod whole;
