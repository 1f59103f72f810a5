//! What patches cost, and the cheaper of two: trials, and each limit.

mod common;

use common::jobs;
use parallel_moves::{
    Allocation, ParallelMoves, Patch, PhysReg, Prices, Refusal, Resolver, Value, cheaper,
    priced_job,
};

const PRICES: Prices = Prices {
    moves: 4,
    remats: 6,
    spills: 16,
    reloads: 12,
};
const MOST_RUNS: u64 = 67_108_863;

fn trial(wanted: &str) -> Vec<u8> {
    let found = jobs("compare/trials")
        .into_iter()
        .find(|(name, _)| name == wanted);
    found.unwrap().1
}

/// What the only patch of a trial costs, as one of an answer and as edits.
#[test]
fn trials() {
    for (name, total) in [
        ("swap-full", 12),
        ("slots-swapped", 52),
        ("rebuild-into-slot", 38),
    ] {
        let answer = Resolver::new().answer(1, &trial(name)).unwrap();
        let patch = answer.patches().next().unwrap();
        for runs in [0, 1, 100, MOST_RUNS] {
            let edge = patch.price(PRICES, runs).unwrap();
            assert_eq!(patch.edits().price(PRICES, runs), Ok(edge));
            assert_eq!(edge.total, total, "{name}");
            assert_eq!(edge.runs as u64, runs);
            assert_eq!(edge.product as u64, runs * total);
            assert!(edge.runs.is_sign_positive() && edge.product.is_sign_positive());
        }
        for runs in [MOST_RUNS + 1, 1 << 32, u64::MAX] {
            assert_eq!(patch.price(PRICES, runs), Err(Refusal::OutsidePrice));
            assert_eq!(
                patch.edits().price(PRICES, runs),
                Err(Refusal::OutsidePrice)
            );
        }
    }
}

/// 67,108,863 runs of swap-full.
#[test]
fn often_run() {
    let answer = Resolver::new().answer(1, &trial("swap-full")).unwrap();
    let edge = answer.patches().next().unwrap().price(PRICES, MOST_RUNS);
    assert_eq!(edge.unwrap().product, 805_306_356.0);
}

/// Each of the four is 65,535 at most, also where no edit has it.
#[test]
fn ranges() {
    let answer = Resolver::new().answer(1, &trial("swap-full")).unwrap();
    let patch = answer.patches().next().unwrap();
    let with = |index: usize, price| {
        let mut prices = [4, 6, 16, 12];
        prices[index] = price;
        let [moves, remats, spills, reloads] = prices;
        Prices {
            moves,
            remats,
            spills,
            reloads,
        }
    };
    for index in 0..4 {
        let total = if index == 0 { 3 * 65_535 } else { 12 };
        assert_eq!(patch.price(with(index, 65_535), 1).unwrap().total, total);
        for price in [65_536, 131_071, u32::MAX] {
            let refused = patch.price(with(index, price), 1);
            assert_eq!(refused, Err(Refusal::OutsidePrice));
            assert_eq!(patch.edits().price(with(index, price), 1), refused);
        }
    }
    assert_eq!(Refusal::OutsidePrice.number(), 19);
}

/// Opened with prices: 19 comes after the target's 7, and before the function's first number;
/// so it does of a whole job's opening, which tells how many patches there are.
#[test]
fn opened_with_prices() {
    let too_dear = [0, 1, 2, 3].map(|index| {
        let mut prices = [4, 6, 16, 12];
        prices[index] = 65_536;
        let [moves, remats, spills, reloads] = prices;
        Prices {
            moves,
            remats,
            spills,
            reloads,
        }
    });
    let dearest = Prices {
        moves: 65_535,
        remats: 65_535,
        spills: 65_535,
        reloads: 65_535,
    };
    let job = trial("swap-full");
    // Its target, its function, and what follows them.
    let (target, function) = (39, 46);
    let opened = |kept: u32, prices: Prices, job: &[u8], function: usize| {
        let again = ParallelMoves::open(1, &trial("swap-full")[..46]).unwrap();
        let number = |refusal: Refusal| refusal.number();
        let bytes = &job[..function];
        let opened = ParallelMoves::open_priced(kept, prices, bytes).map(|moves| moves.made());
        let reopened = again.reopen_priced(kept, prices, bytes);
        assert_eq!(reopened.map(|moves| moves.made()), opened);
        (
            opened.map_or_else(number, |made| made as u8),
            priced_job(kept, prices, job).map_err(number),
        )
    };
    let mut unfit = job.clone();
    // A top-level class without slots.
    assert_eq!(std::mem::replace(&mut unfit[20], 0), 1);
    let mut nowhere = job.clone();
    // A bank that there is not, of the first value.
    assert_eq!(std::mem::replace(&mut nowhere[42], 9), 0);
    assert_eq!(opened(1, dearest, &job, function), (0, Ok(1)));
    assert_eq!(opened(2, dearest, &job, function), (0, Ok(1)));
    assert_eq!(opened(1, dearest, &unfit, function), (7, Err(7)));
    assert_eq!(opened(1, dearest, &nowhere, function), (2, Err(2)));
    assert_eq!(opened(1, dearest, &job[..target], target), (1, Err(1)));
    for prices in too_dear {
        assert_eq!(opened(1, prices, &job, function), (19, Err(19)));
        assert_eq!(opened(3, prices, &job, function), (22, Err(22)));
        assert_eq!(opened(1, prices, &unfit, function), (7, Err(7)));
        assert_eq!(opened(1, prices, &nowhere, function), (19, Err(19)));
        assert_eq!(opened(1, prices, &job[..target], target), (19, Err(19)));
        assert_eq!(opened(1, prices, &job[..38], 38), (1, Err(1)));
    }
    // Of a function nothing is left over; of a job the count is read, and no patch.
    assert_eq!(opened(1, dearest, &job, job.len()), (8, Ok(1)));
    assert_eq!(priced_job(1, dearest, &job[..47]), Ok(1));
    assert_eq!(priced_job(1, dearest, &job[..46]), Err(Refusal::NotANumber));
    let none = [&job[..46], &[0]].concat();
    assert_eq!(priced_job(1, dearest, &none), Err(Refusal::NamesNothing));
}

/// A function opened with prices answers as one without.
#[test]
fn the_same_edits() {
    let job = trial("swap-full");
    let [r0, r1] = [0, 1].map(PhysReg::new);
    let mut swap = Patch::new();
    swap.move_(r0, r1, Value::new(0))
        .move_(r1, r0, Value::new(1));
    let mut moves = ParallelMoves::open(1, &job[..46]).unwrap();
    let mut priced = ParallelMoves::open_priced(1, PRICES, &job[..46]).unwrap();
    assert_eq!(priced.resolve(&swap), moves.resolve(&swap));
    assert_eq!((priced.made(), moves.made()), (1, 1));
}

/// Patch by patch: the edits of a call, and none.
#[test]
fn edits_of_a_call() {
    let job = trial("swap-full");
    // All but its patch count and its patch.
    let mut moves = ParallelMoves::open(1, &job[..job.len() - 11]).unwrap();
    let [r0, r1] = [0, 1].map(|index| Allocation::reg(PhysReg::new(index)));
    let mut patch = Patch::new();
    let mut price = |patch: &Patch, runs| {
        let edge = moves.resolve(patch).unwrap().price(PRICES, runs).unwrap();
        (edge.total, edge.product)
    };
    assert_eq!(price(&patch, MOST_RUNS), (0, 0.0));
    patch.add_move(r0, r1, Value::new(0));
    assert_eq!(price(&patch, 5), (4, 20.0));
    patch.add_move(r1, r0, Value::new(1));
    assert_eq!(price(&patch, 5), (12, 60.0));
}

/// Every patch of every trial, at both settings, by the letters of its lines.
#[test]
fn by_the_text() {
    let mut resolver = Resolver::new();
    let mut priced = 0;
    for (name, job) in jobs("compare/trials") {
        for setting in [1, 2] {
            let answer = resolver.answer(setting, &job);
            for patch in common::resolved(&answer) {
                let price = |edit: parallel_moves::Edit| match edit.to_string().as_bytes()[0] {
                    b'M' => 4,
                    b'R' => 6,
                    b'S' => 16,
                    b'L' => 12,
                    _ => unreachable!(),
                };
                let total: u64 = patch.edits().iter().map(price).sum();
                let edge = patch.price(PRICES, 1000).unwrap();
                assert_eq!(edge.total, total, "{name}");
                assert_eq!(edge.product as u64, 1000 * total, "{name}");
                priced += 1;
            }
        }
    }
    assert!(priced > 150, "{priced}");
}

const M: u64 = 1;
const S: u64 = 3;
const L: u64 = 4;

/// Checks that the slice itself comes back, and not only equal words.
fn chosen(first: &[u64], second: &[u64], expected: &[u64]) {
    let given = cheaper(first, second, PRICES).unwrap();
    assert_eq!(given.as_ptr(), expected.as_ptr());
    assert_eq!(given.len(), expected.len());
}

#[test]
fn cheaper_of_two() {
    let moves = [M, M, M];
    // 12 and 28, in either order.
    chosen(&moves, &[S, L], &moves);
    chosen(&[S, L], &moves, &moves);
    // 12 and 12: the first.
    let reload = [L];
    chosen(&moves, &reload, &moves);
    chosen(&reload, &moves, &reload);
    // Words that are no edits cost nothing, and come along.
    let six = [M, 0, M, 5, M, 7];
    chosen(&[S], &six, &six);
    // Kind 3 that would save slot 1 in slot 0: no edit, yet it costs an S.
    let no_edit = [262_147];
    chosen(&no_edit, &reload, &reload);
    chosen(&reload, &no_edit, &reload);
    // Two empty lists, and equal words in two places.
    let (empty, again) = ([], [M, M, M]);
    chosen(&empty, &moves[3..], &empty);
    chosen(&moves, &again, &moves);
    chosen(&moves, &empty, &empty);
}

/// 65,535 for a price and 65,536 words are the most.
#[test]
fn cheaper_at_the_limits() {
    let long = vec![M; 65_537];
    let (most, over) = (&long[..65_536], &long[..]);
    chosen(most, &long[1..], most);
    chosen(most, &[S], &[S]);
    let refused = Err(Refusal::OutsidePrice);
    for (first, second) in [(most, over), (over, most), (over, over), (&[][..], over)] {
        assert_eq!(cheaper(first, second, PRICES), refused);
    }
    for index in 0..4 {
        let mut numbers = [65_535; 4];
        let prices = |[moves, remats, spills, reloads]: [u32; 4]| Prices {
            moves,
            remats,
            spills,
            reloads,
        };
        assert_eq!(cheaper(&[S, L], &[M], prices(numbers)), Ok(&[M][..]));
        numbers[index] = 65_536;
        assert_eq!(cheaper(&[S, L], &[M], prices(numbers)), refused);
        assert_eq!(cheaper(&[], &[], prices(numbers)), refused);
    }
}

/// Edits of answers: the cheaper of those with one kept eviction and with two.
#[test]
fn cheaper_order() {
    let job = trial("slots-swapped");
    let (mut one, mut two) = (Resolver::new(), Resolver::new());
    let (answer, other) = (one.answer(1, &job).unwrap(), two.answer(2, &job).unwrap());
    let [edits, others] = [&answer, &other].map(|a| a.patches().next().unwrap().edits());
    let given = edits.cheaper(others, PRICES).unwrap();
    let [cost, other] = [edits, others].map(|e| e.price(PRICES, 0).unwrap().total);
    assert_eq!(given.price(PRICES, 0).unwrap().total, cost.min(other));
    // The first where both cost the same.
    let given = edits.cheaper(edits, PRICES).unwrap();
    assert_eq!(given.words().as_ptr(), edits.words().as_ptr());
    let too_dear = Prices {
        spills: 65_536,
        ..PRICES
    };
    assert_eq!(edits.cheaper(others, too_dear), Err(Refusal::OutsidePrice));
}
