//! Answers longer than the room at hand, deep visits, and resolvers in threads.

mod common;

use std::thread;

use common::{deep_chain, jobs, kept_evictions, many_swaps, printed, text, text_of};
use parallel_moves::{
    Answer, BuildError, Edit, JobBuilder, JobWriter, ParallelMoves, Patch, PhysReg, Prices,
    Refusal, RefusedJob, Resolver, Value, priced_job,
};

/// The list of words is enlarged, and the answer is whole.
#[test]
fn long_answer() {
    let job = many_swaps();
    let mut resolver = Resolver::new();
    for _ in 0..2 {
        let answer = resolver.answer(1, &job).unwrap();
        assert_eq!(answer.patches().count(), 1024);
        for patch in answer.patches() {
            assert_eq!(patch.edits().len(), 3);
            assert_eq!(patch.made(), 1);
        }
        assert_eq!(text(&mut resolver, 1, &job).lines().count(), 4096);
    }
}

/// The deepest visit takes little of the stack.
#[test]
fn small_stack() {
    let job = deep_chain();
    let answer = thread::Builder::new()
        .stack_size(64 * 1024)
        .spawn(move || Resolver::new().answer(2, &job))
        .unwrap()
        .join()
        .unwrap();
    let answer = answer.unwrap();
    let patch = answer.patches().next().unwrap();
    let edits = (0..128).rev().map(|n| Edit::Move {
        to: PhysReg::new(n + 1).into(),
        from: PhysReg::new(n).into(),
        value: Value::new(n),
    });
    assert!(patch.edits().iter().eq(edits));
}

/// So does writing.
#[test]
fn small_stack_of_writing() {
    for job in [deep_chain(), many_swaps()] {
        let numbers = JobBuilder::from_bytes(&job).unwrap().numbers();
        let written = thread::Builder::new()
            .stack_size(64 * 1024)
            .spawn(move || JobWriter::new().write(&numbers))
            .unwrap()
            .join()
            .unwrap();
        assert_eq!(written, Ok(job));
    }
}

/// So do an opening with prices, a job's opening, and a job written of the opened function.
#[test]
fn small_stack_of_opening() {
    let job = deep_chain();
    let expected = job.clone();
    let written = thread::Builder::new()
        .stack_size(64 * 1024)
        .spawn(move || {
            let prices = Prices::default();
            // Behind the function: the patch count, no free unit, 128 entries.
            let function = (0..job.len()).rfind(|&end| {
                let opened = ParallelMoves::open_priced(1, prices, &job[..end]);
                opened.is_ok()
            });
            let moves = ParallelMoves::open_priced(1, prices, &job[..function?]).ok()?;
            let mut patch = Patch::new();
            for n in (0..128).rev() {
                patch.move_(PhysReg::new(n), PhysReg::new(n + 1), Value::new(n));
            }
            assert_eq!(priced_job(1, prices, &job), Ok(1));
            moves.write_job(&[patch]).ok()
        })
        .unwrap()
        .join()
        .unwrap();
    assert_eq!(written, Some(expected));
}

/// After a long answer a short one is short.
#[test]
fn short_after_long() {
    let mut resolver = Resolver::new();
    let long = many_swaps();
    for (name, job) in jobs("compare/trials") {
        let _ = resolver.answer(2, &long);
        let text = text(&mut resolver, kept_evictions(&name), &job);
        assert_eq!(text, printed(&name), "{name}");
    }
}

#[test]
fn goes_between_threads() {
    fn is_send_and_sync<T: Send + Sync>() {}
    is_send_and_sync::<Resolver>();
    is_send_and_sync::<ParallelMoves>();
    is_send_and_sync::<Patch>();
    is_send_and_sync::<Answer>();
    is_send_and_sync::<RefusedJob>();
    is_send_and_sync::<Edit>();
    is_send_and_sync::<Refusal>();
    is_send_and_sync::<JobWriter>();
    is_send_and_sync::<JobBuilder>();
    is_send_and_sync::<BuildError>();
}

/// Resolvers at work at the same time do not disturb each other.
#[test]
fn one_for_each_thread() {
    let jobs = jobs("compare/trials");
    thread::scope(|scope| {
        for _ in 0..4 {
            scope.spawn(|| {
                let mut resolver = Resolver::new();
                for _ in 0..100 {
                    for (name, job) in &jobs {
                        let answer = resolver.answer(kept_evictions(name), job);
                        assert_eq!(text_of(&answer), printed(name), "{name}");
                    }
                }
            });
        }
    });
}
