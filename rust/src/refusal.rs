//! Why a job, a function or a patch is refused.

use std::error::Error;
use std::fmt;
use std::num::NonZeroU8;

/// Defines [`Refusal`] with the number and the words of each cause.
macro_rules! refusals {
    ($($number:literal $name:ident: $words:literal;)*) => {
        /// Why a job, a function or a patch is refused.
        ///
        /// `docs/JOB.md` of the repository has the cure of each.
        #[derive(Clone, Copy, Debug, PartialEq, Eq, PartialOrd, Ord, Hash)]
        #[must_use = "what is refused has no edits"]
        #[non_exhaustive]
        pub enum Refusal {
            $(
                #[doc = concat!(stringify!($number), ": ", $words, ".")]
                $name,
            )*
            /// One that this crate has no name for.
            Other(Unnamed),
        }

        impl Refusal {
            /// The refusal with a number; 0 is none.
            pub fn of_number(number: u8) -> Option<Self> {
                match number {
                    $($number => Some(Refusal::$name),)*
                    _ => NonZeroU8::new(number).map(|number| Refusal::Other(Unnamed(number))),
                }
            }

            /// The refusal with a number that the library gives, which is not 0.
            pub(crate) fn given(number: u8) -> Self {
                Refusal::of_number(number).expect("0 is no refusal")
            }

            /// The cause's number, as the program `resolve` prints it.
            #[must_use]
            pub fn number(self) -> u8 {
                match self {
                    $(Refusal::$name => $number,)*
                    Refusal::Other(Unnamed(number)) => number.get(),
                }
            }

            /// The cause in words.
            #[must_use]
            pub fn words(self) -> &'static str {
                match self {
                    $(Refusal::$name => $words,)*
                    Refusal::Other(_) => "a cause that this crate has no words for",
                }
            }
        }

        #[cfg(test)]
        const NAMED: &[u8] = &[$($number),*];
    };
}

refusals! {
    1 NotANumber: "a number is cut off, has more than 5 bytes, is 2^32 or more, or is not in its shortest form";
    2 NamesNothing: "a number is outside a limit, or an index, place, flag or code that names nothing, or the job has more than 65,536 bytes";
    3 ListedTwice: "something is listed twice, or free units are not rising";
    4 UnequalWidths: "a memory register has more than one unit, or registers of one bank that are not memory have different numbers of units";
    5 ForeignMember: "a member, a bank's class or an order entry is of another bank, or an order entry is no member";
    6 SharedMemory: "a memory register shares a unit with one that is not memory";
    7 UnfitClass: "a top-level class has no slots, a stack class has slots or a memory register in its order, or the order of a class without slots is empty or ends in a memory register";
    8 LeftOver: "bytes are left over";
    9 ForeignBank: "a register, or a value's rebuild class, is not of the value's bank";
    10 SelfMove: "a move's source is its destination";
    11 CannotRematerialize: "a rebuild of a value that cannot be rebuilt";
    12 WrittenTwice: "a destination overlaps that of an earlier entry, and the entry does not repeat a kept move";
    13 FreeDestination: "a free unit is a destination's";
    14 EvictsDestination: "a rebuild needs a scratch, in a class without slots whose order's last register overlaps the destination";
    15 TooManyEntries: "a patch has more than 128 entries";
    16 ListTooShort: "the lent list is too short for the patch's edits";
    17 OutOfSlots: "an emergency slot is needed, none of its size is at hand, and no more may be made";
    18 BytesTooFew: "the lent bytes are fewer than the job has";
    19 OutsidePrice: "a price is above 65,535, a run count is 2^26 or more, or one of two lists to choose from has more than 65,536 entries";
    20 TakenLate: "an answer is taken of a cache that has taken one or resolved a patch since it was asked for";
    21 OverlappingSources: "a move's source overlaps that of an earlier move without being equal to it, and both moves are kept";
    22 NoSuchSetting: "the number of kept evictions is neither 1 nor 2";
    23 SharesAboveLimit: "the shares of the formulas of a frame add up to more than its limit";
    24 NoSuchEdit: "an entry of a list to examine is no edit, or names a register, a value or a slot that there is not";
}

/// The number of a refusal without a name.
#[derive(Clone, Copy, Debug, PartialEq, Eq, PartialOrd, Ord, Hash)]
pub struct Unnamed(NonZeroU8);

/// Prints `refused`, the number, and the cause in words.
impl fmt::Display for Refusal {
    fn fmt(&self, f: &mut fmt::Formatter<'_>) -> fmt::Result {
        write!(f, "refused {}: {}", self.number(), self.words())
    }
}

impl Error for Refusal {}

#[cfg(test)]
mod tests {
    use super::{NAMED, Refusal};

    #[test]
    fn each_number_is_taken() {
        assert_eq!(Refusal::of_number(0), None);
        for number in 1..=u8::MAX {
            let refusal = Refusal::of_number(number).unwrap();
            assert_eq!(refusal.number(), number);
            assert_eq!(
                refusal.to_string(),
                format!("refused {number}: {}", refusal.words())
            );
            let named = !matches!(refusal, Refusal::Other(_));
            assert_eq!(named, NAMED.contains(&number));
        }
    }

    #[test]
    fn each_has_words_of_its_own() {
        assert!((1..=24).eq(NAMED.iter().copied()));
        let words: Vec<&str> = (1..=24)
            .map(|number| Refusal::of_number(number).unwrap().words())
            .collect();
        for (index, words_of_one) in words.iter().enumerate() {
            assert!(!words[..index].contains(words_of_one));
        }
    }
}
