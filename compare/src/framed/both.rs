//! A frame of ours and of the judge, call by call.

use judge::calls::Call;
use judge::sharing::{Asked, Expected, Frame};

use crate::ours::{Ours, Preview};

/// As many answers are kept of a formula, the last ones.
const KEPT: usize = 3;

/// An answer that can be asked to be taken.
pub struct Answer {
    asked: Asked,
    preview: Preview,
}

/// Calls resolved, refused, by 17, asked for, taken, takes refused, and frames refused.
#[derive(Default)]
pub struct Counts {
    pub resolved: usize,
    pub refused: usize,
    pub out: usize,
    pub asked: usize,
    pub taken: usize,
    pub late: usize,
    pub frames: usize,
}

pub type Checked = Result<(), String>;

pub fn same<T: PartialEq + std::fmt::Debug>(what: &str, ours: T, judges: T) -> Checked {
    if ours == judges {
        Ok(())
    } else {
        Err(format!("{what}: {ours:?}, of the judge {judges:?}"))
    }
}

/// A frame on both sides.
pub struct Both<'a> {
    pub ours: &'a mut Ours,
    pub judge: Frame<'a>,
    pub answers: Vec<Vec<Answer>>,
}

impl Both<'_> {
    /// What a refused call must leave.
    fn state(&self) -> (Vec<u16>, Vec<Vec<u16>>) {
        let caches = self.ours.formulas.iter().map(|tables| tables.cache.clone());
        (self.ours.frame.clone(), caches.collect())
    }

    fn refused(
        &self,
        number: u8,
        before: &(Vec<u16>, Vec<Vec<u16>>),
        counts: &mut Counts,
    ) -> Checked {
        counts.refused += 1;
        counts.out += usize::from(number == 17);
        same(
            "a refused call: frame and caches",
            &self.state() == before,
            true,
        )
    }

    pub fn resolve(&mut self, formula: usize, call: &Call, counts: &mut Counts) -> Checked {
        let before = self.state();
        let Expected {
            room,
            outcome,
            made,
        } = self.judge.resolve(formula, call);
        let given = self.ours.resolve(formula, call, room);
        let expected = outcome.map_err(|refused| refused.0);
        same("resolved", &given, &expected)?;
        match expected {
            Ok(_) => counts.resolved += 1,
            Err(number) => self.refused(number, &before, counts)?,
        }
        same("slots that the formula made", self.ours.made(formula), made)
    }

    pub fn ask(&mut self, formula: usize, call: &Call, counts: &mut Counts) -> Checked {
        let before = self.state();
        let (
            Expected {
                room,
                outcome,
                made,
            },
            asked,
        ) = self.judge.ask(formula, call);
        let given = self.ours.ask(formula, call, room);
        same("an asking: frame and caches", self.state() == before, true)?;
        match (given, outcome) {
            (Ok((words, preview)), Ok(expected)) => {
                same("asked for", words, Ok(expected))?;
                same("slots of the formula once taken", preview.made.into(), made)?;
                let answers = &mut self.answers[formula];
                if answers.len() == KEPT {
                    answers.remove(0);
                }
                answers.push(Answer { asked, preview });
                counts.asked += 1;
                Ok(())
            }
            (Err(number), Err(refused)) => {
                same("asked for", number, refused.0)?;
                self.refused(number, &before, counts)
            }
            (Ok(_), Err(refused)) => Err(format!("an asking: of the judge refused {}", refused.0)),
            (Err(number), Ok(_)) => Err(format!("an asking: refused {number}, not of the judge")),
        }
    }

    pub fn take(&mut self, formula: usize, at: usize, counts: &mut Counts) -> Checked {
        let before = self.state();
        let Answer { asked, preview } = &self.answers[formula][at];
        let refusal = self.ours.take(formula, preview);
        match self.judge.take(formula, asked) {
            Err(refused) => {
                same("a take", refusal, refused.0)?;
                counts.late += 1;
                same(
                    "a refused take: frame and caches",
                    self.state() == before,
                    true,
                )
            }
            Ok(expected) => {
                same("a take", refusal, 0)?;
                same("a take's patch resolved", expected.outcome.is_ok(), true)?;
                counts.taken += 1;
                same(
                    "slots made by a take",
                    self.ours.made(formula),
                    expected.made,
                )
            }
        }
    }
}
