//! Links and rings as lists of numbers, and every choice of directions.

use reference::generate::{records::from_rings, Random};
use reference::Sheet;

#[derive(Clone, Debug, PartialEq, Eq)]
pub struct Net {
    pub links: Vec<(usize, usize)>,
    pub rings: Vec<Vec<usize>>,
}

impl Net {
    /// The given links, with rings in any order.
    pub fn new(random: &mut Random, bars: usize, links: &[(usize, usize)]) -> Net {
        let mut rings = vec![Vec::new(); bars];
        for (k, &(a, b)) in links.iter().enumerate() {
            rings[a].push(k);
            rings[b].push(k);
        }
        rings.iter_mut().for_each(|ring| random.shuffle(ring));
        Net { links: links.to_vec(), rings }
    }

    /// The links and rings of a text of links or of wires, to its last line.
    pub fn of_text(text: &[u8]) -> Net {
        let text = std::str::from_utf8(text).expect("text");
        let lists = |key: &str| -> Vec<Vec<usize>> {
            let lines = text.lines().filter_map(|line| line.strip_prefix(key));
            let numbers =
                |line: &str| line.split(',').map(|k| k.parse().expect("number")).collect();
            lines.map(numbers).collect()
        };
        let mut links = lists("link=");
        links.extend(lists("wire="));
        Net {
            links: links.iter().map(|link| (link[0], link[1])).collect(),
            rings: lists("around="),
        }
    }

    /// The text of these links.
    pub fn text(&self) -> Vec<u8> {
        let mut text = format!("bars={}\nwires={}\n", self.rings.len(), self.links.len());
        for (a, b) in &self.links {
            text += &format!("link={a},{b}\n");
        }
        for ring in &self.rings {
            let numbers: Vec<String> = ring.iter().map(usize::to_string).collect();
            text += &format!("around={}\n", numbers.join(","));
        }
        text.into_bytes()
    }

    /// The same net with the lower bar of each link first and each ring from its lowest wire: equal for
    /// two nets exactly where their links and rings are the same.
    pub fn plain(&self) -> Net {
        let mut net = self.clone();
        for (a, b) in &mut net.links {
            (*a, *b) = (*a.min(b), *a.max(b));
        }
        for ring in &mut net.rings {
            let lowest = (0..ring.len()).min_by_key(|&i| ring[i]).unwrap_or(0);
            ring.rotate_left(lowest);
        }
        net
    }

    /// The sheet in which those links are turned of which a bit is set.
    pub fn sheet(&self, turned: usize) -> Sheet {
        let direct = |(k, &(a, b)): (usize, &(usize, usize))| match turned >> k & 1 {
            0 => (a, b),
            _ => (b, a),
        };
        let wires: Vec<(usize, usize)> = self.links.iter().enumerate().map(direct).collect();
        from_rings(&wires, &self.rings)
    }

    /// The sheets of every choice of directions.
    pub fn every_choice(&self) -> impl Iterator<Item = Sheet> + '_ {
        (0..1 << self.links.len()).map(|turned| self.sheet(turned))
    }
}
