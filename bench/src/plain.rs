//! A plain implementation to time against: flat arrays, every pass linear, nothing found twice in a call.
//!
//! Bars are vertices, wires edges, ends darts (2k at the tail of edge k, 2k + 1 at its head). Answers are numbers, 0 for
//! acceptance. The tests below hold it to the reference implementation.

use proved::{LentMask, LentSegment};
use reference::{Edit, Sheet, MAX_DARTS, MAX_EDGES, MAX_SEGMENTS, MAX_VERTICES};

// This one of the reference is such code already.
pub use reference::trace;

/// Longer than any sheet's or drawing's text.
const TEXT: usize = 8192;

type Vertices = [u16; MAX_VERTICES];

/// The incoming and the outgoing edges of each vertex, its lowest dart, and the vertex of each dart.
struct Tally {
    into: Vertices,
    out: Vertices,
    first: Vertices,
    vertex: [u16; MAX_DARTS],
}

/// What the check finds out.
struct Survey {
    tally: Tally,
    rows: Vertices,
    faces: Faces,
}

/// How many faces there are, and the face of each dart's walk.
pub struct Faces {
    count: usize,
    pub of: [u16; MAX_DARTS],
}

pub fn next(s: &Sheet, dart: usize) -> usize {
    usize::from(s.nexts[dart])
}

/// `None` where an edge does not join two vertices.
fn tally(s: &Sheet) -> Option<Tally> {
    let mut tally = Tally { into: [0; MAX_VERTICES], out: [0; MAX_VERTICES], first: [0; MAX_VERTICES], vertex: [0; MAX_DARTS] };
    for k in (0..s.edges).rev() {
        let (tail, head) = (usize::from(s.tails[k]), usize::from(s.heads[k]));
        if tail >= s.vertices || head >= s.vertices || tail == head {
            return None;
        }
        tally.out[tail] += 1;
        tally.into[head] += 1;
        tally.first[tail] = 2 * k as u16;
        tally.first[head] = 2 * k as u16 + 1;
        tally.vertex[2 * k] = tail as u16;
        tally.vertex[2 * k + 1] = head as u16;
    }
    Some(tally)
}

fn poles(s: &Sheet, tally: &Tally) -> bool {
    (0..s.vertices).all(|v| (tally.into[v] == 0) == (v == 0) && (tally.out[v] == 0) == (v == 1))
}

/// The rows, and the number of vertices in topological order, less than all where there is a circle; `None` where a
/// vertex that is met has no ring of exactly its darts. Each ring is walked once; a dart at a head counts for nothing,
/// which takes no branch.
fn sweep(s: &Sheet, tally: &Tally) -> Option<(usize, Vertices)> {
    let (mut rows, mut queue, mut waiting) = ([0; MAX_VERTICES], [0u16; MAX_VERTICES + 1], tally.into);
    let (mut queued, mut done) = (0, 0);
    for v in 0..s.vertices {
        queue[queued] = v as u16;
        queued += usize::from(waiting[v] == 0);
    }
    while done < queued {
        let v = usize::from(queue[done]);
        done += 1;
        let start = usize::from(tally.first[v]);
        let degree = tally.into[v] + tally.out[v];
        let mut dart = start;
        for step in 1..=degree {
            let out = !dart as u16 & 1;
            let head = usize::from(tally.vertex[dart | 1]);
            rows[head] = rows[head].max(rows[v] + out);
            waiting[head] = waiting[head].wrapping_sub(out);
            queue[queued] = head as u16;
            queued += usize::from((waiting[head] == 0) & (out == 1));
            dart = next(s, dart);
            if dart >= 2 * s.edges || usize::from(tally.vertex[dart]) != v || (dart == start) != (step == degree) {
                return None;
            }
        }
    }
    Some((queued, rows))
}

/// The level of each node: the most edges on a path that ends there; `None` where there is a circle.
pub fn levels(nodes: usize, edges: usize, from: &[u16; 256], to: &[u16; 256]) -> Option<[u16; 256]> {
    const NONE: u16 = u16::MAX;
    let (mut first, mut after, mut waiting) = ([NONE; 256], [NONE; 256], [0u16; 256]);
    for k in 0..edges {
        let node = usize::from(from[k]);
        after[k] = first[node];
        first[node] = k as u16;
        waiting[usize::from(to[k])] += 1;
    }
    let (mut level, mut queue, mut queued, mut done) = ([0u16; 256], [0u16; 257], 0, 0);
    for node in 0..nodes {
        queue[queued] = node as u16;
        queued += usize::from(waiting[node] == 0);
    }
    while done < queued {
        let node = usize::from(queue[done]);
        done += 1;
        let mut edge = first[node];
        while edge != NONE {
            let target = usize::from(to[usize::from(edge)]);
            level[target] = level[target].max(level[node] + 1);
            waiting[target] -= 1;
            queue[queued] = target as u16;
            queued += usize::from(waiting[target] == 0);
            edge = after[usize::from(edge)];
        }
    }
    (queued == nodes).then_some(level)
}

fn faces(s: &Sheet) -> Faces {
    let mut faces = Faces { count: 0, of: [u16::MAX; MAX_DARTS] };
    for start in 0..2 * s.edges {
        if faces.of[start] == u16::MAX {
            let mut dart = start;
            loop {
                faces.of[dart] = faces.count as u16;
                dart = next(s, dart ^ 1);
                if dart == start {
                    break;
                }
            }
            faces.count += 1;
        }
    }
    faces
}

/// The check that every call on a sheet begins with.
fn survey(s: &Sheet) -> Option<Survey> {
    let (n, m) = (s.vertices, s.edges);
    if !(2..=MAX_VERTICES).contains(&n) || !(2..=MAX_EDGES).contains(&m) {
        return None;
    }
    let unused = s.tails[m..].iter().chain(&s.heads[m..]).chain(&s.nexts[2 * m..]);
    if s.tails[0] != 0 || s.heads[0] != 1 || unused.fold(0, |all, entry| all | entry) != 0 {
        return None;
    }
    let tally = tally(s)?;
    if !poles(s, &tally) {
        return None;
    }
    let (ordered, rows) = sweep(s, &tally)?;
    if ordered != n {
        return None;
    }
    let faces = faces(s);
    (n + faces.count == m + 2).then_some(Survey { tally, rows, faces })
}

pub fn is_sound(s: &Sheet) -> bool {
    survey(s).is_some()
}

pub fn trace_faces(s: &Sheet) -> (u16, [u16; MAX_DARTS]) {
    let mut table = [0; MAX_DARTS];
    let Some(survey) = survey(s) else { return (9, table) };
    let ends = 2 * s.edges;
    table[..ends].copy_from_slice(&survey.faces.of[..ends]);
    (0, table)
}

/// A text and the place in it.
pub struct Reader<'a> {
    text: &'a [u8],
    at: usize,
}

impl<'a> Reader<'a> {
    pub fn new(text: &'a [u8]) -> Reader<'a> {
        Reader { text, at: 0 }
    }

    pub fn is_at_end(&self) -> bool {
        self.at == self.text.len()
    }

    fn key(&mut self, key: &[u8]) -> Option<()> {
        let found = self.text[self.at..].starts_with(key);
        self.at += key.len();
        found.then_some(())
    }

    fn digit(&self) -> Option<usize> {
        let value = self.text.get(self.at)?.wrapping_sub(b'0');
        (value < 10).then_some(usize::from(value))
    }

    /// A digit after a leading 0 or after three digits is not read; then the byte that follows isn't the one expected.
    fn number(&mut self) -> Option<usize> {
        let mut value = self.digit()?;
        self.at += 1;
        if value == 0 {
            return Some(0);
        }
        for _ in 0..2 {
            match self.digit() {
                Some(digit) => value = 10 * value + digit,
                None => break,
            }
            self.at += 1;
        }
        Some(value)
    }

    fn byte(&mut self) -> Option<u8> {
        let byte = *self.text.get(self.at)?;
        self.at += 1;
        Some(byte)
    }

    /// The numbers of a line, and the byte after them.
    pub fn numbers<const COUNT: usize>(&mut self, key: &[u8]) -> Option<([usize; COUNT], u8)> {
        self.key(key)?;
        let mut numbers = [0; COUNT];
        for (i, number) in numbers.iter_mut().enumerate() {
            *number = self.number()?;
            if i + 1 < COUNT && self.byte()? != b',' {
                return None;
            }
        }
        Some((numbers, self.byte()?))
    }

    fn line<const COUNT: usize>(&mut self, key: &[u8]) -> Option<[usize; COUNT]> {
        let (numbers, last) = self.numbers(key)?;
        self.end(last)?;
        Some(numbers)
    }

    /// The rest of a line end that begins with the given byte: 10 alone, or 13 followed by 10.
    fn end(&mut self, first: u8) -> Option<()> {
        (first == b'\n' || (first == b'\r' && self.byte()? == b'\n')).then_some(())
    }

    /// An `around=` line of vertex v: whether it names the vertex's edges, each once.
    fn ring(&mut self, s: &mut Sheet, tally: &Tally, placed: &mut [bool; MAX_DARTS], v: usize) -> Option<bool> {
        self.key(b"around=")?;
        let (mut first, mut last, mut count, mut fits) = (0, 0, 0, true);
        loop {
            let k = self.number()?;
            let dart = 2 * k + usize::from(k < s.edges && usize::from(s.heads[k]) == v);
            if k >= s.edges || usize::from(tally.vertex[dart]) != v || placed[dart] {
                fits = false;
            } else {
                placed[dart] = true;
                if count == 0 {
                    first = dart;
                } else {
                    s.nexts[last] = dart as u16;
                }
                last = dart;
                count += 1;
            }
            match self.byte()? {
                b',' => {}
                byte => break self.end(byte)?,
            }
        }
        s.nexts[last] = first as u16;
        Some(fits && count == tally.into[v] + tally.out[v])
    }
}

fn read_sheet(text: &[u8]) -> Result<(Sheet, usize), u16> {
    if text.is_empty() {
        return Ok((Sheet::fresh(), 0));
    }
    let mut reader = Reader::new(text);
    let [n] = reader.line(b"bars=").ok_or(1u16)?;
    if !(2..=MAX_VERTICES).contains(&n) {
        return Err(2);
    }
    let [m] = reader.line(b"wires=").ok_or(1u16)?;
    if !(2..=MAX_EDGES).contains(&m) {
        return Err(2);
    }
    let mut s = Sheet::blank(n, m);
    for k in 0..m {
        let [tail, head] = reader.line(b"wire=").ok_or(1u16)?;
        if tail >= n || head >= n || tail == head {
            return Err(3);
        }
        s.tails[k] = tail as u16;
        s.heads[k] = head as u16;
    }
    let tally = tally(&s).ok_or(3u16)?;
    let mut placed = [false; MAX_DARTS];
    for v in 0..n {
        if !reader.ring(&mut s, &tally, &mut placed, v).ok_or(1u16)? {
            return Err(4);
        }
    }
    if s.tails[0] != 0 || s.heads[0] != 1 {
        return Err(5);
    }
    if levels(n, m, &s.tails, &s.heads).is_none() {
        return Err(6);
    }
    if !poles(&s, &tally) {
        return Err(7);
    }
    if n + faces(&s).count != m + 2 {
        return Err(8);
    }
    Ok((s, reader.at))
}

pub fn load(text: &[u8], present: &Sheet) -> (u16, Sheet, usize) {
    match read_sheet(text) {
        Ok((s, taken)) => (0, s, taken),
        Err(refusal) => (refusal, *present, 0),
    }
}

fn insert_after(s: &mut Sheet, dart: usize, new: usize) {
    s.nexts[new] = s.nexts[dart];
    s.nexts[dart] = new as u16;
}

fn remove(s: &mut Sheet, dart: usize) {
    let mut before = dart;
    while next(s, before) != dart {
        before = next(s, before);
    }
    s.nexts[before] = s.nexts[dart];
}

fn replace(s: &mut Sheet, old: usize, new: usize) {
    insert_after(s, old, new);
    remove(s, old);
}

/// The last edge gets number k, whose darts have left their rings.
fn fill_edge(s: &mut Sheet, k: usize) {
    let last = s.edges - 1;
    if k != last {
        s.tails[k] = s.tails[last];
        s.heads[k] = s.heads[last];
        replace(s, 2 * last, 2 * k);
        replace(s, 2 * last + 1, 2 * k + 1);
    }
    (s.tails[last], s.heads[last]) = (0, 0);
    (s.nexts[2 * last], s.nexts[2 * last + 1]) = (0, 0);
    s.edges = last;
}

/// Whether a path leads from b to a.
fn reaches(s: &Sheet, survey: &Survey, b: usize, a: usize) -> bool {
    if survey.rows[b] >= survey.rows[a] {
        return a == b;
    }
    let (mut met, mut queue) = ([false; MAX_VERTICES], [0u16; MAX_VERTICES]);
    let (mut queued, mut done) = (1, 0);
    queue[0] = b as u16;
    met[b] = true;
    while done < queued && !met[a] {
        let start = usize::from(survey.tally.first[usize::from(queue[done])]);
        done += 1;
        let mut dart = start;
        loop {
            let head = usize::from(s.heads[dart / 2]);
            if !met[head] && survey.rows[head] <= survey.rows[a] {
                met[head] = true;
                queue[queued] = head as u16;
                queued += 1;
            }
            dart = next(s, dart);
            if dart == start {
                break;
            }
        }
    }
    met[a]
}

/// The dart of edge p at vertex a.
fn dart_at(s: &Sheet, p: usize, a: usize) -> Result<usize, u16> {
    if usize::from(s.tails[p]) == a {
        Ok(2 * p)
    } else if usize::from(s.heads[p]) == a {
        Ok(2 * p + 1)
    } else {
        Err(13)
    }
}

fn put_in(s: &mut Sheet, k: usize) -> Result<(), u16> {
    let (n, m) = (s.vertices, s.edges);
    if k >= m {
        return Err(10);
    }
    if k == 0 {
        return Err(12);
    }
    if n == MAX_VERTICES || m == MAX_EDGES {
        return Err(11);
    }
    replace(s, 2 * k + 1, 2 * m + 1);
    s.tails[m] = n as u16;
    s.heads[m] = s.heads[k];
    s.heads[k] = n as u16;
    s.nexts[2 * k + 1] = 2 * m as u16;
    s.nexts[2 * m] = 2 * k as u16 + 1;
    (s.vertices, s.edges) = (n + 1, m + 1);
    Ok(())
}

fn run(s: &mut Sheet, survey: &Survey, [a, p, b, q]: [usize; 4]) -> Result<(), u16> {
    let (n, m) = (s.vertices, s.edges);
    if a >= n || b >= n || p >= m || q >= m {
        return Err(10);
    }
    let (at_a, at_b) = (dart_at(s, p, a)?, dart_at(s, q, b)?);
    if survey.faces.of[at_a ^ 1] != survey.faces.of[at_b ^ 1] {
        return Err(13);
    }
    if reaches(s, survey, b, a) {
        return Err(14);
    }
    if m == MAX_EDGES {
        return Err(11);
    }
    s.tails[m] = a as u16;
    s.heads[m] = b as u16;
    insert_after(s, at_a, 2 * m);
    insert_after(s, at_b, 2 * m + 1);
    s.edges = m + 1;
    Ok(())
}

fn take_out_edge(s: &mut Sheet, tally: &Tally, k: usize) -> Result<(), u16> {
    if k >= s.edges {
        return Err(10);
    }
    if k == 0 {
        return Err(12);
    }
    if s.edges == 2 || tally.out[usize::from(s.tails[k])] == 1 || tally.into[usize::from(s.heads[k])] == 1 {
        return Err(15);
    }
    remove(s, 2 * k);
    remove(s, 2 * k + 1);
    fill_edge(s, k);
    Ok(())
}

fn take_out_vertex(s: &mut Sheet, tally: &Tally, v: usize) -> Result<(), u16> {
    if v >= s.vertices {
        return Err(10);
    }
    if v < 2 || tally.into[v] != 1 || tally.out[v] != 1 {
        return Err(16);
    }
    let dart = usize::from(tally.first[v]);
    let (one, other) = (dart, next(s, dart));
    let (incoming, outgoing) = if one & 1 == 1 { (one, other) } else { (other, one) };
    replace(s, outgoing + 1, incoming);
    s.heads[incoming / 2] = s.heads[outgoing / 2];
    fill_edge(s, outgoing / 2);
    let (last, m) = (s.vertices - 1, s.edges);
    for end in s.tails[..m].iter_mut().chain(&mut s.heads[..m]) {
        if usize::from(*end) == last {
            *end = v as u16;
        }
    }
    s.vertices = last;
    Ok(())
}

/// The edit in place; a refused one changes nothing.
fn change(s: &mut Sheet, edit: Edit) -> Result<(), u16> {
    let survey = survey(s).ok_or(9u16)?;
    match edit {
        Edit::In(k) => put_in(s, k),
        Edit::Run(a, p, b, q) => run(s, &survey, [a, p, b, q]),
        Edit::Out(k) => take_out_edge(s, &survey.tally, k),
        Edit::Off(v) => take_out_vertex(s, &survey.tally, v),
    }
}

pub fn edit(s: &Sheet, edit: Edit) -> (u16, Sheet) {
    let mut new = *s;
    let answer = change(&mut new, edit);
    (answer.err().unwrap_or(0), new)
}

/// The digits of each number below 1000, and how many they are.
static DIGITS: [[u8; 4]; 1000] = digits();

const fn digits() -> [[u8; 4]; 1000] {
    let mut table = [[0; 4]; 1000];
    let mut i = 0;
    while i < 1000 {
        let (a, b, c) = (b'0' + (i / 100) as u8, b'0' + (i / 10 % 10) as u8, b'0' + (i % 10) as u8);
        table[i] = match i {
            0..=9 => [c, 0, 0, 1],
            10..=99 => [b, c, 0, 2],
            _ => [a, b, c, 3],
        };
        i += 1;
    }
    table
}

/// A text that grows, with more room than it needs.
struct Writer {
    bytes: [u8; TEXT],
    length: usize,
}

impl Writer {
    fn new() -> Writer {
        Writer { bytes: [0; TEXT], length: 0 }
    }

    fn put<const N: usize>(&mut self, bytes: &[u8; N]) {
        self.bytes[self.length..self.length + N].copy_from_slice(bytes);
        self.length += N;
    }

    /// A number and a byte after it.
    fn number(&mut self, number: u16, after: u8) {
        let digits = &DIGITS[usize::from(number)];
        self.bytes[self.length..self.length + 4].copy_from_slice(digits);
        self.length += usize::from(digits[3]);
        self.bytes[self.length] = after;
        self.length += 1;
    }

    fn lend(&self, buffer: &mut [u8]) -> (u16, usize) {
        if buffer.len() < self.length {
            return (17, 0);
        }
        buffer[..self.length].copy_from_slice(&self.bytes[..self.length]);
        (0, self.length)
    }
}

pub fn write_sheet(s: &Sheet, buffer: &mut [u8]) -> (u16, usize) {
    let Some(survey) = survey(s) else { return (9, 0) };
    let mut text = Writer::new();
    text.put(b"bars=");
    text.number(s.vertices as u16, b'\n');
    text.put(b"wires=");
    text.number(s.edges as u16, b'\n');
    for k in 0..s.edges {
        text.put(b"wire=");
        text.number(s.tails[k], b',');
        text.number(s.heads[k], b'\n');
    }
    for v in 0..s.vertices {
        text.put(b"around=");
        let start = usize::from(survey.tally.first[v]);
        let mut dart = start;
        loop {
            let k = dart as u16 / 2;
            dart = next(s, dart);
            if dart == start {
                text.number(k, b'\n');
                break;
            }
            text.number(k, b',');
        }
    }
    text.lend(buffer)
}

/// The column of each face: every edge but edge 0 leads from its left face to its right face.
fn columns(s: &Sheet, faces: usize, face: impl Fn(usize) -> u16) -> [u16; 256] {
    let (mut from, mut to) = ([0; MAX_EDGES], [0; MAX_EDGES]);
    for k in 0..s.edges {
        (from[k], to[k]) = (face(2 * k), face(2 * k + 1));
    }
    (from[0], to[0]) = (to[0], from[0]);
    levels(faces, s.edges, &from, &to).expect("no circle among the faces")
}

fn drawing(s: &Sheet, survey: &Survey, face: impl Fn(&Faces, usize) -> u16) -> Writer {
    let by_face = columns(s, survey.faces.count, |walk| face(&survey.faces, walk));
    // The column after the last of each vertex: that of the face to its right, which lies right of its upward edges.
    let (mut first, mut after, mut columns) = ([u16::MAX; MAX_VERTICES], [0; MAX_VERTICES], [0; MAX_EDGES]);
    for k in 0..s.edges {
        let [column, right] = [2 * k, 2 * k + 1].map(|walk| by_face[usize::from(survey.faces.of[walk])]);
        let (tail, head) = (usize::from(s.tails[k]), usize::from(s.heads[k]));
        columns[k] = column;
        first[tail] = first[tail].min(column);
        first[head] = first[head].min(column);
        after[tail] = after[tail].max(right);
    }
    // Vertices 0 and 1 end with edge 0.
    (after[0], after[1]) = (columns[0] + 1, columns[0] + 1);
    let rows = &survey.rows;
    let mut text = Writer::new();
    text.put(b"rows=");
    text.number(rows[1] + 1, b'\n');
    text.put(b"columns=");
    text.number(columns[0] + 1, b'\n');
    for v in 0..s.vertices {
        text.put(b"bar=");
        text.number(rows[v], b',');
        text.number(first[v], b',');
        text.number(after[v] - 1, b'\n');
    }
    for k in 0..s.edges {
        text.put(b"wire=");
        text.number(columns[k], b',');
        text.number(rows[usize::from(s.tails[k])], b',');
        text.number(rows[usize::from(s.heads[k])], b'\n');
    }
    text
}

pub fn write_drawing(s: &Sheet, buffer: &mut [u8]) -> (u16, usize) {
    write_drawing_by(s, buffer, |faces, walk| faces.of[walk])
}

/// The same, where `face` tells for the columns in which face a walk lies.
pub fn write_drawing_by(s: &Sheet, buffer: &mut [u8], face: impl Fn(&Faces, usize) -> u16) -> (u16, usize) {
    match survey(s) {
        Some(survey) => drawing(s, &survey, face).lend(buffer),
        None => (9, 0),
    }
}

/// The insulation mask, put into the lent one. Each face keeps the lowest and the highest row of the edges beside it.
pub fn insulation_mask(s: &Sheet, mask: &mut LentMask) -> u16 {
    let none = LentSegment { kind: 0, numbers: [0.0; 3] };
    let Some(survey) = survey(s) else {
        *mask = LentMask { count: 0, segments: [none; MAX_SEGMENTS], frame: [0.0; 4] };
        return 9;
    };
    let Survey { rows, faces, .. } = &survey;
    let by_face = columns(s, faces.count, |walk| faces.of[walk]);
    let x = by_face.map(|column| f32::from(column) - 0.5);
    let (mut low, mut high) = ([u16::MAX; MAX_EDGES], [0; MAX_EDGES]);
    let (uprights, levels) = mask.segments.split_at_mut(faces.count);
    for k in 1..s.edges {
        let row = rows[usize::from(s.tails[k])];
        let [left, right] = [2 * k, 2 * k + 1].map(|walk| usize::from(faces.of[walk]));
        for face in [left, right] {
            low[face] = low[face].min(row);
            high[face] = high[face].max(row);
        }
        levels[k - 1] = LentSegment { kind: 1, numbers: [f32::from(row) + 0.5, x[left], x[right]] };
    }
    levels[s.edges - 1..].fill(none);
    for (face, upright) in uprights.iter_mut().enumerate() {
        *upright = LentSegment { kind: 0, numbers: [x[face], f32::from(low[face]) + 0.5, f32::from(high[face]) + 0.5] };
    }
    mask.count = faces.count + s.edges - 1;
    // The first column and the last, that of the face left of edge 0; the row of vertex 0 and the last below vertex 1: an edge
    // but 0 leaves each.
    mask.frame = [-0.5, x[usize::from(faces.of[0])], 0.5, f32::from(rows[1]) - 0.5];
    0
}

/// The edit that a line reads as, its end taken off.
fn edit_of(line: &[u8]) -> Option<Edit> {
    let (key, numbers) = line.split_at(line.iter().position(|&byte| byte == b'=')? + 1);
    let mut reader = Reader::new(numbers);
    let mut values = [0; 4];
    let count = if key == b"run=" { 4 } else { 1 };
    for i in 0..count {
        values[i] = reader.number()?;
        if i + 1 < count && reader.byte()? != b',' {
            return None;
        }
    }
    let [a, p, b, q] = values;
    match key {
        _ if reader.at < numbers.len() => None,
        b"in=" => Some(Edit::In(a)),
        b"run=" => Some(Edit::Run(a, p, b, q)),
        b"out=" => Some(Edit::Out(a)),
        b"off=" => Some(Edit::Off(a)),
        _ => None,
    }
}

/// A line `refused=` in the buffer from `length` on; the length after it.
fn refuse(buffer: &mut [u8], length: usize, refusal: u16) -> usize {
    let digits = &DIGITS[usize::from(refusal)];
    let end = length + 8 + usize::from(digits[3]);
    buffer[length..length + 8].copy_from_slice(b"refused=");
    buffer[length + 8..end].copy_from_slice(&digits[..end - length - 8]);
    buffer[end] = b'\n';
    end + 1
}

/// What `plate` prints, in the front of the buffer, and its length; 17 for a buffer shorter than the longest output.
pub fn plate(input: &[u8], buffer: &mut [u8]) -> (u16, usize) {
    if buffer.len() < proved::LONGEST_OUTPUT {
        return (17, 0);
    }
    if input.len() > 16_384 {
        return (0, refuse(buffer, 0, 18));
    }
    let (mut s, taken) = match read_sheet(input) {
        Ok(read) => read,
        Err(refusal) => return (0, refuse(buffer, 0, refusal)),
    };
    let mut length = 0;
    for line in input[taken..].split_inclusive(|&byte| byte == b'\n') {
        let line = line.strip_suffix(b"\r\n").or(line.strip_suffix(b"\n")).unwrap_or(line);
        if let Err(refusal) = edit_of(line).ok_or(1).and_then(|edit| change(&mut s, edit)) {
            length = refuse(buffer, length, refusal);
        }
    }
    let (_, count) = write_drawing(&s, &mut buffer[length..]);
    (0, length + count)
}

#[cfg(test)]
mod tests {
    use super::*;
    use reference::generate::{any_edit, inputs_of_every_size, likely_edit, random_sheet, special_inputs, variation};
    use reference::generate::{Inputs, Random, Records};

    fn number(answer: reference::Answer) -> u16 {
        answer.map_or_else(u16::from, |()| 0)
    }

    /// Compares a writer's answer and buffer with a buffer of `room` bytes.
    fn same_text(ours: impl Fn(&mut [u8]) -> (u16, usize), theirs: impl Fn(&mut [u8]) -> (reference::Answer, usize), room: usize) {
        let (mut buffer, mut expected) = (vec![b'#'; room], vec![b'#'; room]);
        let (answer, count) = theirs(&mut expected);
        assert_eq!(ours(&mut buffer), (number(answer), count));
        assert!(buffer == expected);
    }

    #[test]
    fn records() {
        for s in Records::new(71).take(3_000) {
            assert_eq!(is_sound(&s), reference::is_sound(&s));
            let (answer, faces) = reference::trace_faces(&s);
            assert_eq!(trace_faces(&s), (number(answer), faces));
            let (answer, mask) = reference::insulation_mask(&s);
            let mut lent = LentMask::full();
            assert_eq!(insulation_mask(&s, &mut lent), number(answer));
            assert!(lent.mask().map(f32::to_bits) == mask.map(f32::to_bits));
            for room in [0, 3_000, TEXT] {
                same_text(|buffer| write_sheet(&s, buffer), |buffer| reference::write_sheet(&s, buffer), room);
                same_text(|buffer| write_drawing(&s, buffer), |buffer| reference::write_drawing(&s, buffer), room);
            }
        }
    }

    #[test]
    fn edits() {
        let random = &mut Random::new(72);
        let mut accepted = 0;
        for _ in 0..200 {
            let mut s = random_sheet(random);
            for _ in 0..40 {
                let one = if random.one_in(2) { likely_edit(random, &s) } else { any_edit(random, &s) };
                let (answer, after) = reference::apply(&s, one);
                assert!(edit(&s, one) == (number(answer), after), "{one:?}");
                accepted += u32::from(answer.is_ok());
                s = after;
            }
        }
        assert!(accepted > 1_500, "{accepted}");
    }

    #[test]
    fn inputs() {
        let random = &mut Random::new(73);
        let (mut buffer, mut present) = (vec![0; proved::LONGEST_OUTPUT], Sheet::fresh());
        let mut inputs = special_inputs();
        inputs.extend(inputs_of_every_size(random));
        for input in Inputs::new(74).take(300) {
            inputs.extend((0..10).map(|_| variation(random, &input)));
            inputs.push(input);
        }
        for input in inputs {
            let (answer, s, taken) = reference::load(&input, &present);
            assert!(load(&input, &present) == (number(answer), s, taken));
            present = s;
            let (answer, count) = plate(&input, &mut buffer);
            assert!(answer == 0 && buffer[..count] == reference::plate(&input));
        }
        assert_eq!(plate(b"", &mut [0; 9]), (17, 0));
    }
}
