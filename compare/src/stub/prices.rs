//! What patches cost, and which of two lists costs less.

use std::cmp::Ordering;
use std::slice;

use crate::faults::fault;

/// What is refused by 19 or 2, in this order but for the fault.
fn price_refusal(prices: &[u32; 4], runs: u64, there_is: bool) -> u8 {
    let most_price = 65_535 + u32::from(fault() == "price-range");
    let most_runs = if fault() == "price-runs" {
        1 << 28
    } else {
        (1 << 26) - 1
    };
    let outside = runs > most_runs || prices.iter().any(|&price| price > most_price);
    match (outside, there_is) {
        (true, false) if fault() == "price-order" => 2,
        (true, _) => 19,
        (false, false) => 2,
        (false, true) => 0,
    }
}

/// What a word costs.
fn price_of(word: u64, prices: &[u32; 4]) -> u64 {
    let price = match word % 8 {
        0 if matches!(fault(), "price-head" | "cheaper-head") => prices[0],
        1 => prices[0],
        2 => prices[1],
        3 => prices[2],
        4 if fault() == "price-reload" => prices[2],
        4 => prices[3],
        _ => 0,
    };
    price.into()
}

/// Sets the record of a patch, or refuses it.
fn price(
    list: Option<&[u64]>,
    prices: &[u32; 4],
    runs: u64,
    total: &mut u64,
    runs_as_double: &mut f64,
    product: &mut f64,
) -> u8 {
    let refusal = price_refusal(prices, runs, list.is_some());
    if refusal != 0 {
        if fault() == "price-set" {
            *total = 0;
        }
        return refusal;
    }
    let list = list.unwrap_or_default();
    *total = list.iter().map(|&word| price_of(word, prices)).sum();
    *runs_as_double = runs as f64;
    *product = match fault() {
        "price-single" => f64::from(runs as f32 * *total as f32),
        _ => (runs * *total) as f64,
    };
    0
}

/// # Safety
/// As the library's.
#[unsafe(export_name = "parallel_moves_price_5")]
pub unsafe extern "C" fn parallel_moves_price(
    words: *const u64,
    words_len: usize,
    patch: usize,
    prices: &[u32; 4],
    runs: u64,
    total: &mut u64,
    runs_as_double: &mut f64,
    product: &mut f64,
) -> u8 {
    let mut rest = unsafe { slice::from_raw_parts(words, words_len) };
    let mut patches = Vec::new();
    while let Some(&head) = rest.first() {
        let (edits, after) = rest.split_at(1 + (head / 8 % 65_536) as usize);
        // With its head, which costs nothing, for the fault.
        patches.push(if fault() == "price-head" {
            edits
        } else {
            &edits[1..]
        });
        rest = after;
    }
    let patch = match fault() {
        "price-number" if patch == patches.len() + 1 => patch - 1,
        _ => patch,
    };
    let list = patch.checked_sub(1).and_then(|at| patches.get(at).copied());
    price(list, prices, runs, total, runs_as_double, product)
}

/// # Safety
/// As the library's.
#[unsafe(export_name = "parallel_moves_price_edits_5")]
pub unsafe extern "C" fn parallel_moves_price_edits(
    list: *const u64,
    list_len: usize,
    prices: &[u32; 4],
    runs: u64,
    total: &mut u64,
    runs_as_double: &mut f64,
    product: &mut f64,
) -> u8 {
    let list = unsafe { slice::from_raw_parts(list, list_len) };
    price(Some(list), prices, runs, total, runs_as_double, product)
}

/// # Safety
/// As the library's.
#[unsafe(export_name = "parallel_moves_cheaper_5")]
pub unsafe extern "C" fn parallel_moves_cheaper(
    first: *const u64,
    first_len: usize,
    second: *const u64,
    second_len: usize,
    prices: &[u32; 4],
) -> u8 {
    let lists = [(first, first_len), (second, second_len)];
    let [first, second] = lists.map(|(list, len)| unsafe { slice::from_raw_parts(list, len) });
    let same = fault() == "cheaper-same" && first == second;
    let too_long = first.len().max(second.len()) > 65_536;
    if !same && (too_long || price_refusal(prices, 0, true) != 0) {
        return 19;
    }
    let [first, second] =
        [first, second].map(|list| list.iter().map(|&word| price_of(word, prices)).sum::<u64>());
    let at_a_tie = if fault() == "cheaper-tie" { 2 } else { 1 };
    match second.cmp(&first) {
        Ordering::Less => 2,
        Ordering::Equal => at_a_tie,
        Ordering::Greater => 1,
    }
}
