//! Answers made wrong on purpose, to see that no equation of one holds.

use super::{Answers, Done, Edit};

/// Makes an answer wrong: by the way that the number says, or the next that can be gone.
pub fn spoil(answers: &mut Answers, number: usize) {
    let ways = [
        value, place, left_out, exchanged, made, position, patch, refusal,
    ];
    let right = answers.clone();
    for way in ways.iter().cycle().skip(number % ways.len()) {
        way(answers);
        if *answers != right {
            return;
        }
    }
}

/// The last patch with edits.
fn last(answers: &mut Answers) -> Option<&mut Done> {
    answers.done.iter_mut().rfind(|done| !done.edits.is_empty())
}

/// Of the last edit a number is one more.
fn value(answers: &mut Answers) {
    if let Some(edit) = last(answers).and_then(|done| done.edits.last_mut()) {
        match edit {
            Edit::Move(_, _, number)
            | Edit::Rematerialize(_, number)
            | Edit::EmergencySpill(_, number)
            | Edit::EmergencyReload(_, number) => *number += 1,
        }
    }
}

/// The first move goes to where it comes from, and comes from where it goes to.
fn place(answers: &mut Answers) {
    let mut edits = answers.done.iter_mut().flat_map(|done| &mut done.edits);
    if let Some(Edit::Move(to, from, _)) = edits.find(|edit| matches!(edit, Edit::Move(..))) {
        std::mem::swap(to, from);
    }
}

/// The last edit is left out.
fn left_out(answers: &mut Answers) {
    last(answers).and_then(|done| done.edits.pop());
}

/// The first two edits of a patch are exchanged.
fn exchanged(answers: &mut Answers) {
    let mut done = answers.done.iter_mut();
    if let Some(done) = done.find(|done| done.edits.len() > 1) {
        done.edits.swap(0, 1);
    }
}

/// One slot more is made.
fn made(answers: &mut Answers) {
    if let Some(done) = answers.done.last_mut() {
        done.made += 1;
    }
}

/// The position is one more.
fn position(answers: &mut Answers) {
    if let Some(done) = answers.done.first_mut() {
        done.position += 1;
    }
}

/// The last patch is not answered.
fn patch(answers: &mut Answers) {
    answers.done.pop();
}

/// The refusal is another, or one comes where none does.
fn refusal(answers: &mut Answers) {
    answers.refusal = match answers.refusal {
        None => Some(8),
        Some(12) => Some(21),
        Some(number) => Some(number + 1),
    };
}
