//! The original as the judge of jobs, beside it the rules written a second time, and
//! jobs for them to judge.

pub mod answer;
pub mod calls;
pub mod draft;
pub mod encode;
pub mod enough;
pub mod equations;
pub mod frame;
pub mod generate;
pub mod grouping;
pub mod number;
pub mod patch;
pub mod plain;
pub mod prices;
pub mod random;
pub mod reading;
pub mod replay;
pub mod sharing;
pub mod tally;
pub mod target;
pub mod tries;
pub mod values;
pub mod words;
