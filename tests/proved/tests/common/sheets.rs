//! Sheets and records on which a call on one sheet is compared with the reference. Each function is handed the comparison of one
//! record, which tells how large the answer is, or `None` where the record is refused.

use reference::generate::{any_edit, damaged_record, extreme_sheets, grown, likely_edit, random_sheet, renumbered, sheets, Random, Records};
use reference::{Edit, Sheet};
use std::path::Path;

/// How many records were refused, and how many accepted have few, some and many parts.
#[derive(Debug, Default)]
pub struct Sizes {
    pub refused: usize,
    pub few: usize,
    pub some: usize,
    pub many: usize,
}

/// Records of any kind, and some grown sheets, each with seven damaged ones; few and some parts are at most so many.
pub fn over_records(seed: u64, grown: usize, few: usize, some: usize, same: impl Fn(&Sheet, &str) -> Option<usize>) -> Sizes {
    let random = &mut Random::new(seed);
    let mut sizes = Sizes::default();
    let mut count = |parts: Option<usize>| match parts {
        None => sizes.refused += 1,
        Some(parts) if parts <= few => sizes.few += 1,
        Some(parts) if parts <= some => sizes.some += 1,
        Some(_) => sizes.many += 1,
    };
    for sheet in Records::new(seed + 1).take(4_000) {
        count(same(&sheet, "a record"));
    }
    for _ in 0..grown {
        let sheet = random_sheet(random);
        count(same(&sheet, "a grown sheet"));
        for _ in 0..7 {
            count(same(&damaged_record(random, &sheet), "a damaged sheet"));
        }
    }
    assert_eq!(sizes.refused + sizes.few + sizes.some + sizes.many, 4_000 + 8 * grown);
    sizes
}

/// The extreme sheets, each with some damaged ones, and a full sheet of every number of bars, whose answer is so large.
pub fn over_extremes(seed: u64, damaged: usize, same: impl Fn(&Sheet, &str) -> Option<usize>, full: impl Fn(usize) -> usize) {
    let random = &mut Random::new(seed);
    for sheet in extreme_sheets(random) {
        assert!(same(&sheet, "an extreme sheet").is_some());
        for _ in 0..damaged {
            same(&damaged_record(random, &sheet), "a damaged extreme sheet");
        }
    }
    for n in 2..=128 {
        let sheet = grown(random, n, 256);
        assert_eq!(same(&renumbered(random, &sheet), "a full sheet"), Some(full(n)));
    }
}

/// Counts outside their limits are refused, whatever else the record holds.
pub fn over_any_counts(same: impl Fn(&Sheet, &str) -> Option<usize>) {
    let counts = [0, 1, 2, 3, 127, 128, 129, 255, 256, 257, 511, 512, 513, 65_535, 65_536, 1 << 32, usize::MAX / 2, usize::MAX];
    for base in [Sheet::fresh(), sheets::parallel(256), sheets::path(128)] {
        for vertices in counts {
            for edges in counts {
                let sheet = Sheet { vertices, edges, ..base };
                let sound = (vertices, edges) == (base.vertices, base.edges);
                assert_eq!(same(&sheet, "a record of any counts").is_some(), sound);
            }
        }
    }
}

/// Each sheet along lists of edits, whose answer is so large; tells how often an edit is accepted, and how often it changes the
/// answer.
pub fn over_edits<Answer: PartialEq>(
    seed: u64,
    same: impl Fn(&Sheet, &str) -> Option<usize>,
    size: impl Fn(&Sheet) -> usize,
    answer: impl Fn(&Sheet) -> Answer,
) -> (usize, usize) {
    let random = &mut Random::new(seed);
    let (mut accepted, mut changed) = (0, 0);
    for list in 0..400 {
        let mut sheet = if list % 3 == 0 { Sheet::fresh() } else { random_sheet(random) };
        let mut before = answer(&sheet);
        for _ in 0..60 {
            let edit = if random.one_in(4) { any_edit(random, &sheet) } else { likely_edit(random, &sheet) };
            let (number, after) = proved::edit(&sheet, edit);
            assert_eq!(same(&after, "a sheet after an edit"), Some(size(&after)), "{edit:?}");
            let now = answer(&after);
            accepted += usize::from(number == 0);
            changed += usize::from(now != before);
            (sheet, before) = (after, now);
        }
    }
    (accepted, changed)
}

/// The sheet of every example that has one, and the sheets that its edit lines leave.
pub fn over_examples(same: impl Fn(&Sheet, &str) -> Option<usize>) {
    let folder = Path::new(env!("CARGO_MANIFEST_DIR")).join("../../examples");
    let (mut loaded, mut edited) = (0, 0);
    for entry in folder.read_dir().expect("the folder of examples") {
        let path = entry.expect("a file").path();
        if path.extension().is_none_or(|extension| extension != "sheet") {
            continue;
        }
        let (name, input) = (path.display().to_string(), std::fs::read(&path).expect("a file"));
        let (answer, mut sheet, taken) = reference::plate::load_input(&input, reference::load_links);
        if answer.is_err() {
            continue;
        }
        loaded += 1;
        assert!(same(&sheet, &name).is_some(), "{name}");
        let mut rest = &input[taken..];
        while !rest.is_empty() {
            let (edit, taken): (Result<Edit, u8>, usize) = reference::read_edit(rest);
            sheet = proved::edit(&sheet, edit.expect("an edit line")).1;
            assert!(same(&sheet, &name).is_some(), "{name}, after {edit:?}");
            rest = &rest[taken..];
            edited += 1;
        }
    }
    assert!(loaded >= 12 && edited >= 12, "{loaded} sheets, {edited} edits");
}
