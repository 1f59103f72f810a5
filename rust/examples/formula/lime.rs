//! The formula: how much lime a field gets.

use super::code::{End, Formula, Operator};

/// pH, the pH that is aimed at, buffer pH, and texture class, 1 for sand to 3 for clay.
pub type Sample = [f64; 4];

/// The lime rate in t/ha. Two estimates are made, by pH and by buffer; the higher one is trusted less, by texture. A
/// soil gets the other one and, the heavier it is, the more of what lies between them.
pub fn rate([ph, aim, buffer, texture]: Sample) -> f64 {
    let need = aim - ph;
    if 0.0 < need {
        let by_ph = need * (texture * 1.5 + 2.0);
        let by_buffer = (7.0 - buffer) * 4.0;
        let (first, second) = if by_ph < by_buffer {
            (by_ph, by_buffer - texture * 0.25)
        } else {
            (by_buffer, by_ph * (texture * 0.125 + 0.5))
        };
        first + (second - first) * (texture / 4.0)
    } else {
        0.0
    }
}

/// The blocks, by their numbers. The first is 0.
const NEEDED: usize = 1;
const BUFFER_ASKS: usize = 2;
pub const PH_ASKS: usize = 3;
const TOGETHER: usize = 4;
const NOT_NEEDED: usize = 5;
const END: usize = 6;

/// The same as code. Where the pH asks for more, `first` is the estimate that is `second` where the buffer does: when
/// the two paths come together, one of them must let two values change their places.
pub fn formula() -> Formula {
    use Operator::{Add, Divide, Multiply, Subtract};
    let mut f = Formula::default();
    let [ph, aim, buffer, texture] = [(); 4].map(|()| f.input());
    let [zero, per_class, base, neutral, per_unit, classes] =
        [0.0, 1.5, 2.0, 7.0, 4.0, 4.0].map(|number| f.constant(number));
    let [less_per_class, trust_per_class, least_trust] =
        [0.25, 0.125, 0.5].map(|number| f.constant(number));

    let need = f.compute(aim, Subtract, ph);
    f.end(&[], End::Branch([zero, need], [NEEDED, NOT_NEEDED]));

    let of_texture = f.compute(texture, Multiply, per_class);
    let factor = f.compute(of_texture, Add, base);
    let by_ph = f.compute(need, Multiply, factor);
    let missing = f.compute(neutral, Subtract, buffer);
    let by_buffer = f.compute(missing, Multiply, per_unit);
    f.end(&[], End::Branch([by_ph, by_buffer], [BUFFER_ASKS, PH_ASKS]));

    let less = f.compute(texture, Multiply, less_per_class);
    let lowered = f.compute(by_buffer, Subtract, less);
    f.end(&[], End::Jump(TOGETHER, vec![by_ph, lowered]));

    let of_class = f.compute(texture, Multiply, trust_per_class);
    let trust = f.compute(of_class, Add, least_trust);
    let trusted = f.compute(by_ph, Multiply, trust);
    f.end(&[], End::Jump(TOGETHER, vec![by_buffer, trusted]));

    let [first, second] = [(); 2].map(|()| f.value());
    let span = f.compute(second, Subtract, first);
    let weight = f.compute(texture, Divide, classes);
    let part = f.compute(span, Multiply, weight);
    let sum = f.compute(first, Add, part);
    f.end(&[first, second], End::Jump(END, vec![sum]));

    f.end(&[], End::Jump(END, vec![zero]));

    let rate = f.value();
    f.end(&[rate], End::Return(rate));
    f
}
