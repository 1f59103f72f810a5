//! The unchanged module, and the one type it takes from its neighbour.

/// `Edit`.
#[path = "../../target/cut/move_resolver.rs"]
pub mod move_resolver;

#[path = "../../target/original/internal/parallel_moves.rs"]
pub mod parallel_moves;
