//! The sheet record.

/// "n bars, 2 to 128"
pub const MAX_VERTICES: usize = 128;
/// "m wires, 2 to 256"
pub const MAX_EDGES: usize = 256;
/// Two ends for each wire.
pub const MAX_DARTS: usize = 2 * MAX_EDGES;

/// "its answer is acceptance or a refusal number"
pub type Answer = Result<(), u8>;

/// "For each end the sheet record holds the next end clockwise at the same bar."
#[derive(Clone, Copy, Debug, PartialEq, Eq)]
pub struct Sheet {
    pub vertices: usize,
    pub edges: usize,
    pub tails: [u16; MAX_EDGES],
    pub heads: [u16; MAX_EDGES],
    pub nexts: [u16; MAX_DARTS],
}

impl Sheet {
    /// A record with the two counts given and every entry 0.
    pub fn blank(vertices: usize, edges: usize) -> Sheet {
        Sheet {
            vertices,
            edges,
            tails: [0; MAX_EDGES],
            heads: [0; MAX_EDGES],
            nexts: [0; MAX_DARTS],
        }
    }

    /// "The fresh sheet: bars 0 and 1, wires 0 and 1 both from 0 to 1."
    pub fn fresh() -> Sheet {
        let mut sheet = Sheet::blank(2, 2);
        sheet.heads[..2].copy_from_slice(&[1, 1]);
        sheet.nexts[..4].copy_from_slice(&[2, 3, 0, 1]);
        sheet
    }

    /// "Wire k has two ends: end 2k at its tail, end 2k+1 at its head."
    pub fn vertex_of(&self, dart: usize) -> usize {
        let ends = if dart % 2 == 0 { &self.tails } else { &self.heads };
        usize::from(ends[dart / 2])
    }

    /// The next end clockwise at the same bar.
    pub fn next(&self, dart: usize) -> usize {
        usize::from(self.nexts[dart])
    }

    /// The end of wire k at bar v, where it has one.
    pub fn dart_at(&self, k: usize, v: usize) -> Option<usize> {
        if k >= self.edges {
            None
        } else if self.vertex_of(2 * k) == v {
            Some(2 * k)
        } else if self.vertex_of(2 * k + 1) == v {
            Some(2 * k + 1)
        } else {
            None
        }
    }

    /// The number of ends at each bar. The bars of all wires must be bars of the sheet.
    pub fn degrees(&self) -> [u16; MAX_VERTICES] {
        let mut degrees = [0; MAX_VERTICES];
        for k in 0..self.edges {
            degrees[usize::from(self.tails[k])] += 1;
            degrees[usize::from(self.heads[k])] += 1;
        }
        degrees
    }

    /// The same sheet with some wires the other way, both ends at their places in the rings.
    pub fn turned(&self, turn: impl Fn(usize) -> bool) -> Sheet {
        let new_number = |dart: usize| if turn(dart / 2) { dart ^ 1 } else { dart };
        let mut new = *self;
        for k in 0..self.edges {
            if turn(k) {
                (new.tails[k], new.heads[k]) = (self.heads[k], self.tails[k]);
            }
        }
        for dart in 0..2 * self.edges {
            new.nexts[new_number(dart)] = new_number(self.next(dart)) as u16;
        }
        new
    }
}
