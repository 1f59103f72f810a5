//! What edits cost: `price_c`.

use super::Prices;
use crate::price::{Choice, Edge};

unsafe extern "C" {
    #[link_name = "parallel_moves_price_5"]
    fn parallel_moves_price(
        words: *const u64,
        words_length: usize,
        patch: usize,
        prices: &Prices,
        runs: u64,
        total: &mut u64,
        runs_as_double: &mut f64,
        product: &mut f64,
    ) -> u8;

    #[link_name = "parallel_moves_price_edits_5"]
    fn parallel_moves_price_edits(
        list: *const u64,
        list_length: usize,
        prices: &Prices,
        runs: u64,
        total: &mut u64,
        runs_as_double: &mut f64,
        product: &mut f64,
    ) -> u8;

    #[link_name = "parallel_moves_cheaper_5"]
    fn parallel_moves_cheaper(
        first: *const u64,
        first_length: usize,
        second: *const u64,
        second_length: usize,
        prices: &Prices,
    ) -> u8;
}

/// What the patch costs that stands at a place, counted from 1, in the words of an
/// answer; if it is refused, the number.
pub(crate) fn price(words: &[u64], patch: usize, prices: Prices, runs: u64) -> Result<Edge, u8> {
    let mut edge = NO_EDGE;
    // SAFETY: `words` is as long as the function is told, and what is written is
    // borrowed mutably. The function keeps no pointer.
    let refusal = unsafe {
        parallel_moves_price(
            words.as_ptr(),
            words.len(),
            patch,
            &prices,
            runs,
            &mut edge.total,
            &mut edge.runs,
            &mut edge.product,
        )
    };
    if refusal == 0 { Ok(edge) } else { Err(refusal) }
}

/// What a patch with these edits costs; if it is refused, the number.
pub(crate) fn price_edits(list: &[u64], prices: Prices, runs: u64) -> Result<Edge, u8> {
    let mut edge = NO_EDGE;
    // SAFETY: `list` is as long as the function is told, and what is written is
    // borrowed mutably. The function keeps no pointer.
    let refusal = unsafe {
        parallel_moves_price_edits(
            list.as_ptr(),
            list.len(),
            &prices,
            runs,
            &mut edge.total,
            &mut edge.runs,
            &mut edge.product,
        )
    };
    if refusal == 0 { Ok(edge) } else { Err(refusal) }
}

/// A record before it is written.
const NO_EDGE: Edge = Edge {
    total: 0,
    runs: 0.0,
    product: 0.0,
};

/// Which of two lists is the cheaper; if they are refused, the number.
pub(crate) fn cheaper(first: &[u64], second: &[u64], prices: Prices) -> Result<Choice, u8> {
    // SAFETY: the lists are as long as the function is told. The function keeps no
    // pointer.
    let answered = unsafe {
        parallel_moves_cheaper(
            first.as_ptr(),
            first.len(),
            second.as_ptr(),
            second.len(),
            &prices,
        )
    };
    match answered {
        1 => Ok(Choice::First),
        2 => Ok(Choice::Second),
        number => Err(number),
    }
}
