//! Second, slow ways to what the reference implementation answers, and helpers for texts.
#![allow(dead_code)]

pub mod artwork;
pub mod geometry;
pub mod model;
pub mod net;
pub mod slow;

use std::path::{Path, PathBuf};

use reference::generate::{extreme_sheets, random_sheet, Random};
use reference::{
    draw, load, load_links, plate, write_drawing, write_sheet, Answer, Drawing, Sheet,
};

/// A text of the given words, each a line.
pub fn lines(words: &str) -> Vec<u8> {
    words.split_whitespace().flat_map(|word| [word, "\n"]).collect::<String>().into_bytes()
}

/// What `plate` prints for an input, its lines as words.
pub fn printed(input: &[u8]) -> String {
    let output = String::from_utf8(plate(input)).expect("plate prints text");
    assert!(output.ends_with('\n'), "each line ends in byte 10");
    assert!(!output.contains(' ') && !output.contains("\n\n"));
    output.lines().collect::<Vec<_>>().join(" ")
}

/// What `plate` prints for the given words.
pub fn plate_words(words: &str) -> String {
    printed(&lines(words))
}

/// One of the two loads.
type Load = fn(&[u8], &Sheet) -> (Answer, Sheet, usize);

/// The sheet of a text that must be accepted, to its last byte.
pub fn sheet_of(words: &str) -> Sheet {
    loaded(load, words)
}

/// The same by the second load.
pub fn links_of(words: &str) -> Sheet {
    loaded(load_links, words)
}

fn loaded(load: Load, words: &str) -> Sheet {
    let text = lines(words);
    let (answer, sheet, taken) = load(&text, &Sheet::fresh());
    assert_eq!((answer, taken), (Ok(()), text.len()), "{words}");
    sheet
}

/// The answer of load to a text; refused ones must hand back the present sheet and take nothing.
pub fn load_answer(text: &[u8]) -> Answer {
    answer_of(load, text)
}

/// The same of the second load.
pub fn links_answer(text: &[u8]) -> Answer {
    answer_of(load_links, text)
}

fn answer_of(load: Load, text: &[u8]) -> Answer {
    let mut present = Sheet::blank(77, usize::MAX);
    present.nexts[300] = 999;
    let (answer, sheet, taken) = load(text, &present);
    if answer.is_err() {
        assert_eq!((sheet, taken), (present, 0));
    }
    answer
}

/// The written sheet, its lines as words.
pub fn sheet_words(sheet: &Sheet) -> String {
    let mut buffer = [b'#'; 10_000];
    let (answer, count) = write_sheet(sheet, &mut buffer);
    words_in(answer, count, &buffer)
}

/// The written drawing, its lines as words.
pub fn drawing_words(sheet: &Sheet) -> String {
    let mut buffer = [b'#'; 10_000];
    let (answer, count) = write_drawing(sheet, &mut buffer);
    words_in(answer, count, &buffer)
}

fn words_in(answer: Answer, count: usize, buffer: &[u8]) -> String {
    assert_eq!(answer, Ok(()));
    assert!(buffer[count..].iter().all(|&byte| byte == b'#'));
    let text = std::str::from_utf8(&buffer[..count]).expect("text");
    assert!(text.ends_with('\n') && !text.contains('#'));
    text.lines().collect::<Vec<_>>().join(" ")
}

/// Sheets of all sizes, with their drawings.
pub fn drawn_sheets(seed: u64) -> Vec<(Sheet, Drawing)> {
    let random = &mut Random::new(seed);
    let mut sheets = extreme_sheets(random);
    sheets.extend((0..800).map(|_| random_sheet(random)));
    sheets.into_iter().map(|sheet| (sheet, draw(&sheet).1)).collect()
}

/// The inputs of the folder examples with the outputs beside them, which were worked out by hand.
pub fn examples() -> Vec<(PathBuf, Vec<u8>, Vec<u8>)> {
    examples_in("examples", "sheet")
}

/// The same of a folder, inputs having the given extension.
pub fn examples_in(folder: &str, extension: &str) -> Vec<(PathBuf, Vec<u8>, Vec<u8>)> {
    let folder = Path::new(env!("CARGO_MANIFEST_DIR")).join("..").join(folder);
    let entries = folder.read_dir().expect("the folder");
    let mut paths: Vec<PathBuf> = entries.map(|entry| entry.expect("a file").path()).collect();
    paths.retain(|path| path.extension().is_some_and(|found| found == extension));
    let read = |path: &Path| std::fs::read(path).expect("a file");
    paths.into_iter().map(|p| (p.clone(), read(&p), read(&p.with_extension("out")))).collect()
}

/// The fresh sheet as words.
pub const FRESH: &str = "bars=2 wires=2 wire=0,1 wire=0,1 around=0,1 around=0,1";

/// What `plate` prints for the fresh sheet (plate P1), by hand.
pub const FRESH_DRAWN: &str = "rows=2 columns=2 bar=0,0,1 bar=1,0,1 wire=1,0,1 wire=0,0,1";

/// Plate P4 as words.
pub const P4: &str = "bars=4 wires=6 wire=0,1 wire=0,2 wire=2,1 wire=0,3 wire=3,1 wire=2,3 \
    around=1,3,0 around=0,4,2 around=2,5,1 around=4,3,5";
