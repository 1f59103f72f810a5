//! Of compare's generator: targets, and patches of each flavour.

#[path = "../../compare/src/generate/accepted.rs"]
pub mod accepted;
#[path = "../../compare/src/generate/patches.rs"]
pub mod patches;
#[path = "../../compare/src/generate/targets.rs"]
pub mod targets;
