//! Line segments of the plane, in any direction, and what two of them share, in exact fractions.

/// A pair of whole numbers: a grid point, or the way from one to another.
pub type Pair = (i64, i64);

fn minus(one: Pair, other: Pair) -> Pair {
    (one.0 - other.0, one.1 - other.1)
}

fn dot(one: Pair, other: Pair) -> i64 {
    one.0 * other.0 + one.1 * other.1
}

/// 0 exactly for parallel ways.
fn cross(one: Pair, other: Pair) -> i64 {
    one.0 * other.1 - one.1 * other.0
}

/// The point (`x` / `over`, `y` / `over`) of the plane, where `over` is positive.
#[derive(Clone, Copy, Debug)]
pub struct Point {
    x: i64,
    y: i64,
    over: i64,
}

impl Point {
    pub fn is(&self, (x, y): Pair) -> bool {
        (self.x, self.y) == (x * self.over, y * self.over)
    }
}

impl PartialEq for Point {
    fn eq(&self, other: &Point) -> bool {
        (self.x * other.over, self.y * other.over) == (other.x * self.over, other.y * self.over)
    }
}

/// Every point of the plane between two grid points, both included; it may be one point.
#[derive(Clone, Copy, Debug)]
pub struct Segment {
    start: Pair,
    way: Pair,
}

impl Segment {
    pub fn between(start: Pair, end: Pair) -> Segment {
        Segment { start, way: minus(end, start) }
    }

    /// The point that is reached after `part` / `over` of the way.
    fn point(&self, part: i64, over: i64) -> Point {
        let along = |start: i64, way: i64| start * over + part * way;
        Point { x: along(self.start.0, self.way.0), y: along(self.start.1, self.way.1), over }
    }

    /// The two ends of what both have in common: every point between them, or one point that is both.
    pub fn shared(&self, other: &Segment) -> Option<[Point; 2]> {
        let over = cross(self.way, other.way);
        if over != 0 {
            self.crossing(other, over).map(|point| [point, point])
        } else if self.way == (0, 0) {
            other.stretch(self)
        } else {
            self.stretch(other)
        }
    }

    /// Of two that are not parallel: both equations of the lines solved, and both parts of the ways
    /// from 0 to 1.
    fn crossing(&self, other: &Segment, over: i64) -> Option<Point> {
        let gap = minus(other.start, self.start);
        let (own, others) = (cross(gap, other.way), cross(gap, self.way));
        let within = |part: i64| (0..=over.abs()).contains(&(part * over.signum()));
        (within(own) && within(others)).then(|| self.point(own * over.signum(), over.abs()))
    }

    /// Of two that are parallel, of which the other may be one point, or both are.
    fn stretch(&self, other: &Segment) -> Option<[Point; 2]> {
        let gap = minus(other.start, self.start);
        let length = dot(self.way, self.way);
        if length == 0 {
            return (gap == (0, 0)).then(|| [self.point(0, 1); 2]);
        }
        let start = dot(gap, self.way);
        let end = start + dot(other.way, self.way);
        let (low, high) = (start.min(end).max(0), start.max(end).min(length));
        let meet = cross(gap, self.way) == 0 && low <= high;
        meet.then(|| [self.point(low, length), self.point(high, length)])
    }
}

#[cfg(test)]
mod tests {
    use super::*;
    use crate::generate::Random;

    /// The ends of what is shared, whichever of the two is asked.
    fn shared(one: (Pair, Pair), other: (Pair, Pair)) -> Option<[Point; 2]> {
        let [one, other] = [one, other].map(|(start, end)| Segment::between(start, end));
        let found = one.shared(&other);
        let turned =
            other.shared(&one).map(|[a, b]| if found == Some([a, b]) { [a, b] } else { [b, a] });
        assert_eq!(found, turned);
        found
    }

    #[test]
    fn crossings() {
        let diagonal = ((0, 0), (3, 3));
        let half = Point { x: 3, y: 3, over: 2 };
        assert_eq!(shared(diagonal, ((0, 3), (3, 0))), Some([half, half]));
        assert!(shared(diagonal, ((3, 0), (3, 9))).is_some_and(|ends| ends[0].is((3, 3))));
        assert_eq!(shared(diagonal, ((4, 0), (4, 9))), None);
        assert_eq!(shared(diagonal, ((0, 1), (1, 2))), None);
        assert!(shared(((0, 5), (9, 5)), ((4, 0), (4, 5))).is_some_and(|ends| ends[1].is((4, 5))));
        assert_eq!(shared(((0, 5), (9, 5)), ((4, 0), (4, 4))), None);
        assert_eq!(shared(((5, 5), (9, 5)), ((4, 0), (4, 9))), None);
    }

    #[test]
    fn stretches_and_points() {
        let wire = ((2, 1), (2, 4));
        let ends = |found: Option<[Point; 2]>, from: Pair, to: Pair| {
            let [a, b] = found.expect("they meet");
            (a.is(from) && b.is(to)) || (a.is(to) && b.is(from))
        };
        assert!(ends(shared(wire, ((2, 3), (2, 9))), (2, 3), (2, 4)));
        assert!(ends(shared(wire, ((2, 9), (2, 0))), (2, 1), (2, 4)));
        assert!(ends(shared(wire, ((2, 4), (2, 5))), (2, 4), (2, 4)));
        assert_eq!(shared(wire, ((2, 5), (2, 6))), None);
        assert_eq!(shared(wire, ((3, 1), (3, 4))), None);
        assert!(ends(shared(wire, ((2, 2), (2, 2))), (2, 2), (2, 2)));
        assert_eq!(shared(wire, ((3, 2), (3, 2))), None);
        assert_eq!(shared(wire, ((2, 5), (2, 5))), None);
        assert!(ends(shared(((7, 7), (7, 7)), ((7, 7), (7, 7))), (7, 7), (7, 7)));
        assert_eq!(shared(((7, 7), (7, 7)), ((7, 8), (7, 8))), None);
    }

    /// Upright and level segments share the box of their coordinates, where it is not empty.
    #[test]
    fn upright_and_level_ones_share_a_box() {
        let random = &mut Random::new(161);
        let mut met = 0;
        for _ in 0..100_000 {
            let mut any = || {
                let [x, y, z] = [0; 3].map(|_| random.below(6) as i64);
                if random.one_in(2) {
                    ((x, y), (x, z))
                } else {
                    ((x, y), (z, y))
                }
            };
            let (one, other) = (any(), any());
            let [[x, right], [y, top]] = [|pair: Pair| pair.0, |pair: Pair| pair.1].map(|part| {
                let least = |(start, end): (Pair, Pair)| part(start).min(part(end));
                let most = |(start, end): (Pair, Pair)| part(start).max(part(end));
                [least(one).max(least(other)), most(one).min(most(other))]
            });
            let found = shared(one, other);
            assert_eq!(found.is_some(), x <= right && y <= top, "{one:?} {other:?}");
            if let Some(ends) = found {
                assert!(
                    ends.iter().any(|end| end.is((x, y)))
                        && ends.iter().any(|end| end.is((right, top)))
                );
                met += 1;
            }
        }
        assert!(met > 10_000 && met < 60_000, "{met}");
    }
}
