//! Which build this is.

/// Tells builds apart, in one line: the crate's version, the version of the
/// interface, the SHA-256 sum of each of the static library's archives, the kit and
/// the sum of the logic that proved it, and the commit of the checkout that it
/// was made in, with `+changes` if that had any.
///
/// Without the library it ends in `library none`, and if `c/stamp` was not run
/// for the library in `not stamped`.
///
/// ```
/// let words: Vec<&str> = parallel_moves::BUILD.split(' ').collect();
/// assert_eq!(words[0], "parallel_moves");
/// assert_eq!(words[2..5], ["interface", "5", "library"]);
/// ```
pub const BUILD: &str = env!("PARALLEL_MOVES_BUILD");
