//! Arrays that are lent, watched past their ends.

/// An array that is lent, and past its end some that is not.
pub struct Lent<T> {
    pub all: Vec<T>,
    len: usize,
    not_lent: T,
}

/// How many numbers past the end of an array are watched.
pub const WATCHED: usize = 32;

impl<T: Copy + PartialEq> Lent<T> {
    /// An array of any content, here two numbers in turn.
    pub fn new(len: usize, content: [T; 2]) -> Self {
        let all = (0..len + WATCHED).map(|index| content[index % 2]).collect();
        let mut lent = Lent {
            all,
            len,
            not_lent: content[1],
        };
        lent.all[len..].fill(content[1]);
        lent
    }

    pub fn pointer(&mut self) -> *mut T {
        self.all.as_mut_ptr()
    }

    pub fn is_kept(&self) -> bool {
        self.all[self.len..].iter().all(|&n| n == self.not_lent)
    }
}
