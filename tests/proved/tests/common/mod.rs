//! What several of the tests share.
#![allow(dead_code)]

pub mod process;
pub mod sheets;

use reference::{Answer, Sheet};

/// The proved load of links in the reference's form, once the reference permits what it answers: which choice of directions
/// it makes is free, so the reference goes on from the one that it made.
pub fn load_links(text: &[u8], present: &Sheet) -> (Answer, Sheet, usize) {
    let (number, sheet, taken) = proved::load_links(text, present);
    let refusal = u8::try_from(number).expect("a refusal number");
    let answer = (if refusal == 0 { Ok(()) } else { Err(refusal) }, sheet, taken);
    assert!(
        reference::permitted(text, present, &answer),
        "the load of links answers {number} with {taken} bytes taken of {:?}",
        String::from_utf8_lossy(text)
    );
    answer
}

/// How often each answer came, by its number, 0 for acceptance.
#[derive(Debug, Default)]
pub struct Seen(pub [usize; 23]);

impl Seen {
    pub fn count(&mut self, number: usize) {
        self.0[number] += 1;
    }

    pub fn all(&self) -> usize {
        self.0.iter().sum()
    }

    /// Each of these answers came so often at least.
    pub fn at_least(&self, counts: &[(usize, usize)]) {
        for &(number, count) in counts {
            assert!(self.0[number] >= count, "answer {number}: {:?}", self.0);
        }
    }
}
