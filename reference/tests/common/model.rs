//! A second implementation of the four edits, with lists of wire numbers for rings.

use std::collections::BTreeSet;

use reference::{Edit, Sheet};

#[derive(Clone, Debug)]
pub struct Model {
    wires: Vec<(usize, usize)>,
    rings: Vec<Vec<usize>>,
}

fn replace(list: &mut [usize], old: usize, new: usize) {
    list.iter_mut().filter(|entry| **entry == old).for_each(|entry| *entry = new);
}

fn insert_after(list: &mut Vec<usize>, old: usize, new: usize) {
    let place = list.iter().position(|&entry| entry == old).expect("in the list");
    list.insert(place + 1, new);
}

impl Model {
    pub fn new(sheet: &Sheet) -> Model {
        let mut rings = vec![Vec::new(); sheet.vertices];
        for end in 0..2 * sheet.edges {
            let v = [sheet.tails[end / 2], sheet.heads[end / 2]][end % 2] as usize;
            if rings[v].is_empty() {
                let mut other = end;
                loop {
                    rings[v].push(other / 2);
                    other = sheet.nexts[other] as usize;
                    if other == end {
                        break;
                    }
                }
            }
        }
        let wires = (0..sheet.edges).map(|k| (sheet.tails[k] as usize, sheet.heads[k] as usize));
        Model { wires: wires.collect(), rings }
    }

    pub fn sheet(&self) -> Sheet {
        let mut sheet = Sheet::blank(self.rings.len(), self.wires.len());
        for (k, wire) in self.wires.iter().enumerate() {
            (sheet.tails[k], sheet.heads[k]) = (wire.0 as u16, wire.1 as u16);
        }
        for (v, ring) in self.rings.iter().enumerate() {
            let end = |k: usize| if self.wires[k].0 == v { 2 * k } else { 2 * k + 1 };
            for i in 0..ring.len() {
                sheet.nexts[end(ring[i])] = end(ring[(i + 1) % ring.len()]) as u16;
            }
        }
        sheet
    }

    pub fn edit(&self, edit: Edit) -> Result<Model, u8> {
        let mut new = self.clone();
        match edit {
            Edit::In(k) => new.put_in(k)?,
            Edit::Run(a, p, b, q) => new.run(a, p, b, q)?,
            Edit::Out(k) => new.out(k)?,
            Edit::Off(v) => new.off(v)?,
        }
        Ok(new)
    }

    fn put_in(&mut self, k: usize) -> Result<(), u8> {
        let (n, m) = (self.rings.len(), self.wires.len());
        match k {
            _ if k >= m => return Err(10),
            0 => return Err(12),
            _ if n == 128 || m == 256 => return Err(11),
            _ => (),
        }
        let old_head = self.wires[k].1;
        self.wires[k].1 = n;
        self.wires.push((n, old_head));
        replace(&mut self.rings[old_head], k, m);
        self.rings.push(vec![k, m]);
        Ok(())
    }

    fn run(&mut self, a: usize, p: usize, b: usize, q: usize) -> Result<(), u8> {
        let (n, m) = (self.rings.len(), self.wires.len());
        if [a, b].iter().any(|&v| v >= n) || [p, q].iter().any(|&k| k >= m) {
            return Err(10);
        }
        if !self.rings[a].contains(&p) || !self.rings[b].contains(&q) {
            return Err(13);
        }
        if !self.corners_of_face(a, p).contains(&(b, q)) {
            return Err(13);
        }
        if self.reached_from(b).contains(&a) {
            return Err(14);
        }
        if m == 256 {
            return Err(11);
        }
        self.wires.push((a, b));
        insert_after(&mut self.rings[a], p, m);
        insert_after(&mut self.rings[b], q, m);
        Ok(())
    }

    fn out(&mut self, k: usize) -> Result<(), u8> {
        let m = self.wires.len();
        if k >= m {
            return Err(10);
        }
        if k == 0 {
            return Err(12);
        }
        let (tail, head) = self.wires[k];
        let outgoing = self.wires.iter().filter(|wire| wire.0 == tail).count();
        let incoming = self.wires.iter().filter(|wire| wire.1 == head).count();
        if m == 2 || outgoing == 1 || incoming == 1 {
            return Err(15);
        }
        self.rings[tail].retain(|&other| other != k);
        self.rings[head].retain(|&other| other != k);
        self.free_wire_number(k);
        Ok(())
    }

    fn off(&mut self, v: usize) -> Result<(), u8> {
        let n = self.rings.len();
        if v >= n {
            return Err(10);
        }
        let of = |ends: Vec<usize>| (0..ends.len()).filter(|&k| ends[k] == v).collect::<Vec<_>>();
        let incoming = of(self.wires.iter().map(|wire| wire.1).collect());
        let outgoing = of(self.wires.iter().map(|wire| wire.0).collect());
        if v < 2 || incoming.len() != 1 || outgoing.len() != 1 {
            return Err(16);
        }
        let head = self.wires[outgoing[0]].1;
        replace(&mut self.rings[head], outgoing[0], incoming[0]);
        self.wires[incoming[0]].1 = head;
        self.rings[v].clear();
        self.free_wire_number(outgoing[0]);
        self.rings.swap_remove(v);
        for wire in &mut self.wires {
            wire.0 = if wire.0 == n - 1 { v } else { wire.0 };
            wire.1 = if wire.1 == n - 1 { v } else { wire.1 };
        }
        Ok(())
    }

    fn free_wire_number(&mut self, k: usize) {
        self.wires.swap_remove(k);
        let last = self.wires.len();
        self.rings.iter_mut().for_each(|ring| replace(ring, last, k));
    }

    /// The corners (bar, wire arrived by) of the face whose walk arrives at bar a by wire p.
    fn corners_of_face(&self, a: usize, p: usize) -> BTreeSet<(usize, usize)> {
        let mut corners = BTreeSet::new();
        let (mut bar, mut wire) = (a, p);
        while corners.insert((bar, wire)) {
            let ring = &self.rings[bar];
            let place = ring.iter().position(|&k| k == wire).expect("in the ring");
            wire = ring[(place + 1) % ring.len()];
            let (tail, head) = self.wires[wire];
            bar = if bar == tail { head } else { tail };
        }
        corners
    }

    /// Bar b and all bars that a directed path leads to from it.
    fn reached_from(&self, b: usize) -> BTreeSet<usize> {
        let mut reached = BTreeSet::from([b]);
        loop {
            let before = reached.len();
            for &(tail, head) in &self.wires {
                if reached.contains(&tail) {
                    reached.insert(head);
                }
            }
            if reached.len() == before {
                return reached;
            }
        }
    }
}
