//! The trials and examples of the repository, byte for byte.

mod common;

use common::{jobs, kept_evictions, positions_met, printed, text};
use parallel_moves::{Edit, PhysReg, Refusal, Resolver, SpillSlot, Value};

#[test]
fn trials() {
    let mut resolver = Resolver::new();
    for (name, job) in jobs("compare/trials") {
        let text = text(&mut resolver, kept_evictions(&name), &job);
        assert_eq!(text, printed(&name), "{name}");
    }
}

/// The positions that the judge met, where a trial says them.
#[test]
fn positions() {
    let mut resolver = Resolver::new();
    let mut trials = 0;
    for (name, job) in jobs("compare/trials") {
        let Some(met) = positions_met(&name) else {
            continue;
        };
        trials += 1;
        let answer = resolver.answer(kept_evictions(&name), &job).unwrap();
        let positions: Vec<_> = answer.patches().map(|patch| patch.position()).collect();
        assert_eq!(positions, met, "{name}");
    }
    assert!(trials >= 8);
}

#[test]
fn examples() {
    let mut resolver = Resolver::new();
    for (name, job) in jobs("examples") {
        let text = text(&mut resolver, kept_evictions(&name), &job);
        assert_eq!(text, printed(&name), "{name}");
    }
}

/// A resolver that has seen other jobs answers as a new one does.
#[test]
fn used_again() {
    let mut used = Resolver::new();
    for (name, job) in jobs("compare/trials").iter().rev() {
        for kept_evictions in [2, 3, 1] {
            let mut new = Resolver::new();
            let answer = new.answer(kept_evictions, job);
            assert_eq!(used.answer(kept_evictions, job), answer, "{name}");
        }
    }
}

#[test]
fn swap_full() {
    let jobs = jobs("examples");
    let (_, job) = jobs.iter().find(|(name, _)| name == "swap-full").unwrap();
    let answer = Resolver::new().answer(1, job).unwrap();
    let patches: Vec<_> = answer.patches().collect();
    assert_eq!(patches.len(), 1);
    assert_eq!(patches[0].made(), 1);
    assert_eq!(patches[0].position(), 3);
    let (r0, r1) = (PhysReg::new(0).into(), PhysReg::new(1).into());
    let s0 = SpillSlot::new(0).into();
    let edit = |to, from, value| Edit::Move {
        to,
        from,
        value: Value::new(value),
    };
    let edits = [edit(s0, r1, 1), edit(r1, r0, 0), edit(r0, s0, 1)];
    assert!(patches[0].edits().iter().eq(edits));
    let backwards = patches[0].edits().iter().rev();
    assert!(backwards.eq(edits.into_iter().rev()));
}

/// The patches before a refused one stand.
#[test]
fn refused_17() {
    let jobs = jobs("examples");
    let (_, job) = jobs.iter().find(|(name, _)| name == "refused-17").unwrap();
    let refused = Resolver::new().answer(1, job).unwrap_err();
    let refusal = refused.refusal();
    assert_eq!(refusal, Refusal::OutOfSlots);
    assert_eq!(refusal.number(), 17);
    let printed = format!("refused 17: {}", refusal.words());
    assert_eq!(refusal.to_string(), printed);
    assert_eq!(refused.to_string(), printed);
    assert_eq!(Refusal::from(refused.clone()), refusal);
    assert_eq!(refused.before().patches().count(), 1);
}
