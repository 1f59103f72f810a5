//! What the original says of its searches for a scratch register, by the
//! `trace!` macro that it calls: the class searched, and the register of its
//! order that was found, if one there would do. Nothing that the original does
//! depends on it.

extern crate std;

use alloc::string::String;
use alloc::vec::Vec;
use core::cell::RefCell;
use core::fmt;

/// A search for a scratch register.
#[derive(Clone, Copy, Debug)]
pub struct Search {
    /// The number of the class.
    pub class: usize,
    /// The number of the register found in its order.
    pub found: Option<usize>,
}

/// The first words of what is heard: of a search, of what it found, and of what
/// it took where nothing of the order would do.
const SEARCHING: &str = "Searching for scratch register in ";
const FOUND: &str = "-> got scratch register ";
const ELSE: [&str; 3] = [
    "-> got emergency spill slot ",
    "-> re-using previously evicted ",
    "-> evicted ",
];

std::thread_local! {
    static SEARCHES: RefCell<Vec<Search>> = const { RefCell::new(Vec::new()) };
    /// The class of the search that has not come to its end.
    static OPEN: RefCell<Option<usize>> = const { RefCell::new(None) };
}

/// Whether what a `trace!` is given, as a text with its quotes, is heard.
pub const fn is_heard(given: &str) -> bool {
    let [slot, again, evicted] = ELSE;
    starts(given, SEARCHING)
        || starts(given, FOUND)
        || starts(given, slot)
        || starts(given, again)
        || starts(given, evicted)
}

/// Whether a text, behind its quote, starts with another.
const fn starts(given: &str, with: &str) -> bool {
    let (given, with) = (given.as_bytes(), with.as_bytes());
    let mut at = 0;
    while at < with.len() {
        if at + 1 >= given.len() || given[at + 1] != with[at] {
            return false;
        }
        at += 1;
    }
    true
}

/// Hears one.
pub fn hear(said: fmt::Arguments<'_>) {
    let mut text = String::new();
    fmt::write(&mut text, said).expect("writing to a string does not fail");
    if let Some(class) = text.strip_prefix(SEARCHING) {
        let open = OPEN.replace(Some(number(class)));
        assert!(open.is_none(), "a search inside of another");
        return;
    }
    let class = OPEN.take().expect("a search has begun");
    let found = text.strip_prefix(FOUND).map(number);
    SEARCHES.with_borrow_mut(|searches| searches.push(Search { class, found }));
}

/// The number that a name ends in.
fn number(name: &str) -> usize {
    let digits = name.trim_start_matches(|c: char| !c.is_ascii_digit());
    digits.parse().expect("a name ends in a number")
}

/// The searches of this thread since this was asked last.
pub fn searches() -> Vec<Search> {
    OPEN.take();
    SEARCHES.take()
}
