//! Measuring one side.

use std::hint::black_box;
use std::time::Instant;

/// Nanoseconds for each input. Answers are lent to the black box, since a long one would be
/// copied into it.
pub fn each<I: Copy, O>(inputs: &[I], answer: impl Fn(I) -> O) -> f64 {
    per(inputs.len(), || {
        for &input in inputs {
            black_box(&answer(black_box(input)));
        }
    })
}

/// Nanoseconds for each of so many answers.
pub fn per(answers: usize, give: impl FnOnce()) -> f64 {
    let start = Instant::now();
    give();
    start.elapsed().as_nanos() as f64 / answers as f64
}

/// A call that is never inlined. What answers comes first, as a method has its `self`.
#[inline(never)]
pub fn called<I, O>(answer: &impl Fn(I) -> O, input: I) -> O {
    answer(input)
}
