//! A round makes each call on 64 different inputs; one input over and over would let the processor learn its branches. The
//! inputs are timed in groups of 8, and a figure adds the least time of each group over many rounds, which leaves out what
//! else the machine does. The sides take turns round by round.

use std::hint::black_box;
use std::time::Instant;

const INPUTS: usize = 64;
const GROUP: usize = 8;

/// The least times of the groups of inputs so far, in nanoseconds.
struct Least([f64; INPUTS / GROUP]);

impl Least {
    fn round<Input>(&mut self, inputs: &[Input], call: &mut dyn FnMut(&Input)) {
        for (time, group) in self.0.iter_mut().zip(inputs.chunks(GROUP)) {
            let start = Instant::now();
            for input in group {
                call(black_box(input));
            }
            *time = time.min(start.elapsed().as_nanos() as f64);
        }
    }

    /// The time of a call.
    fn of_a_call(&self) -> f64 {
        self.0.iter().sum::<f64>() / INPUTS as f64
    }
}

/// The times of a call of some sides, which take turns for some rounds.
pub fn times<Input, const SIDES: usize>(
    rounds: usize,
    inputs: &[Input],
    mut calls: [&mut dyn FnMut(&Input); SIDES],
) -> [f64; SIDES] {
    assert_eq!(inputs.len(), INPUTS);
    let mut least = [0; SIDES].map(|_| Least([f64::MAX; INPUTS / GROUP]));
    for _ in 0..rounds {
        for (least, call) in least.iter_mut().zip(&mut calls) {
            least.round(inputs, *call);
        }
    }
    least.map(|least| least.of_a_call())
}

/// As many inputs as a round has.
pub fn several<T>(mut make: impl FnMut() -> T) -> Vec<T> {
    (0..INPUTS).map(|_| make()).collect()
}
