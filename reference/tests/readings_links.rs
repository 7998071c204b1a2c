//! The readings of C-14: a second load, whose text has `link=a,b` lines and no directions.

mod common;

use common::{
    lines, links_answer, links_of, load_answer, plate_words, printed, sheet_of, sheet_words, FRESH,
    FRESH_DRAWN, P4,
};
use reference::generate::{truncations, Records};
use reference::{
    load, load_links, permitted, plate, plate_by, read_edit, same_links, Answer, Sheet,
};

/// The fresh sheet as links.
const FRESH_LINKS: &str = "bars=2 wires=2 link=0,1 link=1,0 around=0,1 around=1,0";

/// Plate P4 as links.
const P4_LINKS: &str = "bars=4 wires=6 link=0,1 link=2,0 link=1,2 link=0,3 link=1,3 link=3,2 \
    around=1,3,0 around=0,4,2 around=2,5,1 around=4,3,5";

const P4_DRAWN: &str = "rows=4 columns=4 bar=0,0,3 bar=3,0,3 bar=1,0,1 bar=2,1,2 wire=3,0,3 \
    wire=0,0,1 wire=0,1,3 wire=2,0,2 wire=1,2,3 wire=1,1,2";

/// The drawing of P4 with its wire 5 from bar 3 to bar 2, worked out by hand: bars 2 and 3 change
/// their rows, and the two inner faces their columns.
const P4_TURNED_DRAWN: &str = "rows=4 columns=4 bar=0,0,3 bar=3,0,3 bar=2,0,1 bar=1,1,2 \
    wire=3,0,3 wire=0,0,2 wire=0,2,3 wire=1,0,1 wire=2,1,3 wire=1,1,2";

/// Five bars and six links with one choice of directions: 0-2, 2-3, 2-4-3 and 3-1, beside link 0.
const ONE_CHOICE: &str = "bars=5 wires=6 link=0,1 link=2,0 link=3,2 link=2,4 link=3,4 link=1,3 \
    around=1,0 around=0,5 around=3,1,2 around=2,5,4 around=4,3";

/// The sheet of that choice, as it is written.
const ONE_CHOICE_WRITTEN: &str = "bars=5 wires=6 wire=0,1 wire=0,2 wire=2,3 wire=2,4 wire=4,3 \
    wire=3,1 around=0,1 around=0,5 around=1,2,3 around=2,5,4 around=3,4";

/// The two choices that there are for P4: its own, and wire 5 the other way.
fn choices_of_p4() -> [Sheet; 2] {
    [sheet_of(P4), sheet_of(&P4.replace("wire=2,3", "wire=3,2"))]
}

/// The answer of the second load to a text of the given words.
fn answer_to(words: &str) -> Answer {
    links_answer(&lines(words))
}

/// The answer to the head of 2 bars and 2 links, then the given bytes.
fn after_counts(rest: &str) -> Answer {
    links_answer(format!("bars=2\nwires=2\n{rest}").as_bytes())
}

#[test]
fn f12_the_third_line_tells_the_load() {
    assert_eq!(plate_words(FRESH_LINKS), FRESH_DRAWN);
    assert_eq!(plate_words(FRESH), FRESH_DRAWN);
    // `link=9,9` is refused 3 by the second load and 1 by the first.
    assert_eq!(printed(b"bars=2\nwires=2\nlink=9,9\n"), "refused=3");
    assert_eq!(printed(b"bars=2\r\nwires=2\r\nlink=9,9\r\nrubbish"), "refused=3");
    assert_eq!(load_answer(b"bars=2\nwires=2\nlink=9,9\n"), Err(1));
    for third in ["Link=9,9\n", " link=9,9\n", "\rlink=9,9\n", "links=9,9\n", "\nlink=9,9\n"] {
        assert_eq!(printed(format!("bars=2\nwires=2\n{third}").as_bytes()), "refused=1");
    }
    // The third line of the first load's text is a wire's, whatever follows.
    assert_eq!(printed(b"bars=2\nwires=2\nwire=9,9\nlink=9,9\n"), "refused=3");
    assert_eq!(plate_words("bars=2 wires=2 wire=0,1 link=0,0"), "refused=1");
    assert_eq!(plate_words(&format!("{FRESH} link=0,1")), format!("refused=1 {FRESH_DRAWN}"));
}

/// Which load is taken, seen by a second load that refuses all with a number of its own.
#[test]
fn f12_the_third_line_need_not_be_whole() {
    let takes_links = |input: &[u8]| {
        let output = plate_by(input, |_, present| (Err(99), *present, 0));
        output == b"refused=99\n"
    };
    for head in ["bars=2\nwires=2\n", "\n\n", "x\r\ny\n", "bars=129\n\r\n", "link=\nlink=\n"] {
        for third in ["link=", "link=0", "link=0,1", "link=0,1\n", "link=x\r\rwire=0,1", "link=="] {
            assert!(takes_links([head, third].concat().as_bytes()), "{head:?} {third:?}");
        }
        for third in ["", "link", "link\n=", "wire=0,1\nlink=0,1", "l", "\nlink=0,1", "=link="] {
            assert!(!takes_links([head, third].concat().as_bytes()), "{head:?} {third:?}");
        }
    }
    for input in ["", "link=0,1", "link=0,1\n", "bars=2\nlink=0,1\n", "a\nb\rlink=0,1\nc\n"] {
        assert!(!takes_links(input.as_bytes()), "{input:?}");
    }
}

/// Where line 1 or 2 is refused both loads answer alike.
#[test]
fn f12_a_damaged_head() {
    for (head, refusal) in [
        ("bars=129\nwires=2\n", 2),
        ("bars=2\nwires=257\n", 2),
        ("bars=2\nwires=1\n", 2),
        ("bars=02\nwires=2\n", 1),
        ("\nbars=2\n", 1),
        ("bars=2\n\n", 1),
        ("bars=2\rwires=2\n\n", 1),
    ] {
        let text = format!("{head}link=0,1\nlink=0,1\naround=0,1\naround=0,1\n");
        let text = text.as_bytes();
        assert_eq!([load_answer(text), links_answer(text)], [Err(refusal); 2], "{head:?}");
        assert_eq!(plate(text), format!("refused={refusal}\n").as_bytes());
    }
}

#[test]
fn f12_the_limit_of_an_input_comes_first() {
    let mut input = lines(P4_LINKS);
    input.resize(16_385, b'\n');
    assert_eq!(plate(&input), b"refused=18\n");
    input.pop();
    assert!(plate(&input).starts_with(b"refused=1\nrefused=1\n"));
    let mut refused = b"bars=2\nwires=2\nlink=9,9\n".to_vec();
    refused.resize(16_384, b'x');
    assert_eq!(plate(&refused), b"refused=3\n");
    refused.push(b'x');
    assert_eq!(plate(&refused), b"refused=18\n");
}

#[test]
fn f13_one_line_of_the_other_kind() {
    let [links, wires] = [P4_LINKS, P4].map(lines);
    for line in (15..69).step_by(9) {
        let with_key = |text: &[u8], key: &[u8]| [&text[..line], key, &text[line + 4..]].concat();
        assert_eq!(with_key(&links, b"link"), links);
        assert_eq!(links_answer(&with_key(&links, b"wire")), Err(1), "{line}");
        assert_eq!(load_answer(&with_key(&wires, b"link")), Err(1), "{line}");
    }
    assert_eq!(load_answer(&lines(P4_LINKS)), Err(1));
    assert_eq!(answer_to(P4), Err(1));
    // The line's own kind is looked at where it is reached, and before its bars.
    assert_eq!(answer_to("bars=2 wires=2 link=0,0 wire=0,1"), Err(3));
    assert_eq!(answer_to("bars=2 wires=2 link=0,1 wire=0,0"), Err(1));
    assert_eq!(load_answer(&lines("bars=2 wires=2 wire=0,1 link=0,0")), Err(1));
}

#[test]
fn f14_line_by_line() {
    // 1: shape first, a line that isn't there, a line without its end.
    for shape in
        ["link=0", "link=0,1,1", "link=,1", "link=0,", "link=9,x", "link=0,0,", "link=00,1"]
    {
        assert_eq!(after_counts(&format!("{shape}\n")), Err(1), "{shape:?}");
    }
    assert_eq!(after_counts("link=1000,0\n"), Err(1));
    assert_eq!(after_counts(""), Err(1));
    assert_eq!(after_counts("link=0,1\n"), Err(1));
    assert_eq!(after_counts("link=9,9"), Err(1));
    for front in truncations(&lines(P4_LINKS)).take(lines(P4_LINKS).len()).skip(1) {
        assert_eq!(links_answer(front), Err(1));
    }
    // 2.
    assert_eq!(links_answer(b"bars=129\n"), Err(2));
    assert_eq!(links_answer(b"bars=2\nwires=257\nlink=0,1\n"), Err(2));
    // 3: a bar that isn't in the sheet, or equal bars, and nothing after it looked at.
    for link in ["0,2", "2,0", "1,1", "0,0", "999,0"] {
        assert_eq!(after_counts(&format!("link=0,1\nlink={link}\nrubbish")), Err(3), "{link}");
    }
    // 4: the wires of the bar, each once.
    for rings in ["0,0", "0", "0,2", "0,1,0", "1"] {
        let text = format!("link=0,1\nlink=1,0\naround={rings}\nrubbish");
        assert_eq!(after_counts(&text), Err(4), "{rings}");
    }
    assert_eq!(after_counts("link=0,1\nlink=1,0\naround=\n"), Err(1));
    let lonely = "bars=3 wires=2 link=0,1 link=0,1 around=0,1 around=0,1";
    assert_eq!(answer_to(&format!("{lonely} around=")), Err(1));
    assert_eq!(answer_to(&format!("{lonely} around=0")), Err(4));
}

#[test]
fn f14_after_the_last_line() {
    // 5, 19 and 8, of each the least: bar 1 first; a bar on one link; three twisted links.
    assert_eq!(answer_to("bars=2 wires=2 link=1,0 link=0,1 around=0,1 around=0,1"), Err(5));
    let hanging = "bars=3 wires=3 link=0,1 link=0,1 link=0,2 around=0,1,2 around=0,1 around=2";
    assert_eq!(answer_to(hanging), Err(19));
    let twisted = "bars=2 wires=3 link=0,1 link=1,0 link=0,1 around=0,1,2 around=0,1,2";
    assert_eq!(answer_to(twisted), Err(8));
    assert_eq!(answer_to(&twisted.replace("0,1,2 around=0,1,2", "0,1,2 around=0,2,1")), Ok(()));
    // They wait for the last line: a later line is refused 3, 4 or 1 before them.
    assert_eq!(answer_to("bars=2 wires=2 link=1,0 link=0,0"), Err(3));
    assert_eq!(answer_to("bars=2 wires=2 link=1,0 link=0,1 around=0,1 around=0"), Err(4));
    assert_eq!(answer_to("bars=2 wires=2 link=1,0 link=0,1 around=0,1"), Err(1));
    assert_eq!(answer_to(&hanging.replace("around=2", "around=1")), Err(4));
    // 5 comes before 19 and before 8.
    assert_eq!(answer_to(&hanging.replacen("link=0,1", "link=1,0", 1)), Err(5));
    assert_eq!(answer_to(&twisted.replacen("link=0,1", "link=1,0", 1)), Err(5));
}

/// 6 and 7 are no answers of the second load: what is refused so with directions has others.
#[test]
fn f14_other_directions_than_those_refused_6_and_7() {
    let circle = "bars=2 wires=2 wire=0,1 wire=1,0 around=0,1 around=0,1";
    assert_eq!(load_answer(&lines(circle)), Err(6));
    assert_eq!(links_of(&circle.replace("wire=", "link=")), Sheet::fresh());
    let rule = "bars=3 wires=3 wire=0,1 wire=2,0 wire=2,1 around=0,1 around=0,2 around=1,2";
    assert_eq!(load_answer(&lines(rule)), Err(7));
    let sheet = links_of(&rule.replace("wire=", "link="));
    let written = "bars=3 wires=3 wire=0,1 wire=0,2 wire=2,1 around=0,1 around=0,2 around=1,2";
    assert_eq!(sheet_words(&sheet), written);
}

#[test]
fn f15_link_0_is_0_1_in_that_order() {
    let square = "around=0,3 around=0,1 around=1,2 around=2,3";
    let links =
        |first: &str, others: &str| format!("bars=4 wires=4 link={first} {others} {square}");
    assert_eq!(answer_to(&links("0,1", "link=1,2 link=2,3 link=3,0")), Ok(()));
    assert_eq!(answer_to(&links("1,0", "link=1,2 link=2,3 link=3,0")), Err(5));
    // Another link than 0 may join bars 0 and 1, but not in place of link 0.
    let second = "bars=3 wires=3 link=0,2 link=0,1 link=1,2 around=0,1 around=1,2 around=0,2";
    assert_eq!(answer_to(second), Err(5));
    // The other links name their bars in either order.
    let expected = links_of(&links("0,1", "link=1,2 link=2,3 link=3,0"));
    for turned in 0..8 {
        let link = |i: usize, a: usize, b: usize| match turned >> i & 1 {
            0 => format!("link={a},{b}"),
            _ => format!("link={b},{a}"),
        };
        let others = [link(0, 1, 2), link(1, 2, 3), link(2, 3, 0)].join(" ");
        assert_eq!(links_of(&links("0,1", &others)), expected);
    }
    let written = format!("bars=4 wires=4 wire=0,1 wire=2,1 wire=3,2 wire=0,3 {square}");
    assert_eq!(sheet_words(&expected), written);
}

#[test]
fn f16_both_19_and_8_is_19() {
    // Three links between bars 0 and 1, and bar 2 on one link.
    let hanging = |ring: &str| {
        format!(
            "bars=3 wires=4 link=0,1 link=0,1 link=0,1 link=0,2 \
            around=0,1,2,3 around={ring} around=3"
        )
    };
    assert_eq!(answer_to(&hanging("0,2,1")), Err(19));
    assert_eq!(answer_to(&hanging("0,1,2")), Err(19));
    // Without bar 2 the latter is 8, and where bar 2 has another link.
    let bar_2_on_two = "bars=3 wires=5 link=0,1 link=0,1 link=0,1 link=0,2 link=2,1 \
        around=0,1,2,3 around=0,1,2,4 around=3,4";
    assert_eq!(answer_to(bar_2_on_two), Err(8));
    assert_eq!(answer_to(&bar_2_on_two.replace("0,1,2,4", "4,2,1,0")), Ok(()));
    // A sheet in two pieces has 4 for bars less wires plus faces.
    let pieces = "bars=4 wires=4 link=0,1 link=0,1 link=2,3 link=3,2 \
        around=0,1 around=0,1 around=2,3 around=2,3";
    assert_eq!(answer_to(pieces), Err(19));
}

/// Two parts that are joined at one bar, whichever it is.
#[test]
fn no_choice_where_one_bar_joins_two_parts() {
    let at_0 = "bars=3 wires=4 link=0,1 link=0,1 link=0,2 link=2,0 \
        around=0,1,2,3 around=0,1 around=2,3";
    assert_eq!(answer_to(at_0), Err(19));
    let at_1 = "bars=3 wires=4 link=0,1 link=0,1 link=1,2 link=2,1 \
        around=0,1 around=0,1,2,3 around=2,3";
    assert_eq!(answer_to(at_1), Err(19));
    let at_2 = "bars=4 wires=5 link=0,1 link=0,2 link=1,2 link=2,3 link=2,3 \
        around=0,1 around=0,2 around=1,2,3,4 around=3,4";
    assert_eq!(answer_to(at_2), Err(19));
    // Bar 1 or bar 0 on link 0 alone.
    let bar_1 = "bars=3 wires=3 link=0,1 link=0,2 link=2,0 around=0,1,2 around=0 around=1,2";
    assert_eq!(answer_to(bar_1), Err(19));
    let bar_0 = "bars=3 wires=3 link=0,1 link=1,2 link=2,1 around=0 around=0,1,2 around=1,2";
    assert_eq!(answer_to(bar_0), Err(19));
    // The first of them with bar 2 joined to both: there is a choice.
    let both = "bars=3 wires=4 link=0,1 link=0,1 link=0,2 link=2,1 \
        around=0,1,2 around=0,3,1 around=2,3";
    assert_eq!(answer_to(both), Ok(()));
}

#[test]
fn f17_any_choice() {
    let sheet = links_of(P4_LINKS);
    let choices = choices_of_p4();
    assert!(choices.contains(&sheet));
    assert!(same_links(&choices[0], &choices[1]) && choices[0] != choices[1]);
    // Another's second load may choose either, and nothing else.
    let text = lines(P4_LINKS);
    let present = Sheet::blank(3, 3);
    for choice in choices {
        assert!(permitted(&text, &present, &(Ok(()), choice, text.len())));
        assert!(!permitted(&text, &present, &(Ok(()), choice, text.len() - 1)));
        assert!(!permitted(&text, &present, &(Err(19), choice, 0)));
        assert!(!permitted(&text, &present, &(Err(19), present, 0)));
        assert!(!permitted(&text, &present, &(Ok(()), choice.turned(|k| k == 4), text.len())));
    }
    assert!(!permitted(&text, &present, &(Ok(()), Sheet::fresh(), text.len())));
    assert!(!permitted(&text, &present, &(Ok(()), present, text.len())));
    let mirrored = reference::generate::sheets::mirrored(&choices[0]);
    assert!(!permitted(&text, &present, &(Ok(()), mirrored, text.len())));
}

/// "Edits that follow" fit the same choice as the drawing: a run from bar 3 to bar 2 closes a circle
/// under the one choice (plate P9) and is accepted under the other.
#[test]
fn f17_the_whole_output_fits_one_choice() {
    let input = lines(&format!("{P4_LINKS} run=3,5,2,2 out=6"));
    let [own, turned] = choices_of_p4().map(|choice| {
        let output = plate_by(&input, |text, _| {
            assert_eq!(text, input);
            (Ok(()), choice, lines(P4_LINKS).len())
        });
        String::from_utf8(output).expect("text").lines().collect::<Vec<_>>().join(" ")
    });
    assert_eq!(own, format!("refused=14 refused=10 {P4_DRAWN}"));
    assert_eq!(turned, P4_TURNED_DRAWN);
    let expected = if links_of(P4_LINKS) == choices_of_p4()[0] { own } else { turned };
    assert_eq!(printed(&input), expected);
    let written = sheet_words(&links_of(P4_LINKS));
    assert_eq!(plate_words(&format!("{written} run=3,5,2,2 out=6")), expected);
}

/// Nets with one choice: their drawings are those of the plates.
#[test]
fn f17_one_choice() {
    assert_eq!(links_of(FRESH_LINKS), Sheet::fresh());
    let three = "bars=2 wires=3 link=0,1 link=1,0 link=0,1 around=0,1,2 around=0,2,1";
    let p2 = "bars=2 wires=3 wire=0,1 wire=0,1 wire=0,1 around=0,1,2 around=0,2,1";
    assert_eq!(links_of(three), sheet_of(p2));
    let p3 = "bars=2 wires=3 link=0,1 link=1,0 link=0,1 around=0,1,2 around=0,1,2";
    assert_eq!(plate_words(p3), "refused=8");
    // P5 with its edits made: wires 0-1, 0-2, 2-1, 0-2.
    let p5 = "bars=3 wires=4 link=0,1 link=2,0 link=1,2 link=2,0 \
        around=0,1,3 around=2,0 around=1,2,3";
    let p5_drawn = "rows=3 columns=3 bar=0,0,2 bar=2,0,2 bar=1,0,1 wire=2,0,2 wire=0,0,1 \
        wire=0,1,2 wire=1,0,1";
    assert_eq!(plate_words(p5), p5_drawn);
    assert_eq!(plate_words(&format!("{p5} out=2")), format!("refused=15 {p5_drawn}"));
    assert_eq!(sheet_words(&links_of(ONE_CHOICE)), ONE_CHOICE_WRITTEN);
}

#[test]
fn f18_no_bytes() {
    for present in Records::new(211).take(500) {
        assert_eq!(load_links(b"", &present), (Ok(()), Sheet::fresh(), 0));
        for byte in [b'\n', b'\r', b' ', b'l', 0] {
            assert_eq!(load_links(&[byte], &present), (Err(1), present, 0));
        }
        assert!(permitted(b"", &present, &(Ok(()), Sheet::fresh(), 0)));
        assert!(!permitted(b"", &present, &(Err(1), present, 0)));
    }
    // `plate` can't get there: the first load answers, and alike.
    let output = plate_by(b"", |_, _| panic!("the second load"));
    assert_eq!(output, lines(FRESH_DRAWN));
}

#[test]
fn f19_a_sheet_from_links_is_written_with_wires() {
    assert_eq!(sheet_words(&links_of(ONE_CHOICE)), ONE_CHOICE_WRITTEN);
    assert_eq!(sheet_of(ONE_CHOICE_WRITTEN), links_of(ONE_CHOICE));
    assert_eq!(answer_to(ONE_CHOICE_WRITTEN), Err(1));
    assert_eq!(sheet_words(&links_of(FRESH_LINKS)), FRESH);
    let p4 = sheet_words(&links_of(P4_LINKS));
    assert_eq!(sheet_of(&p4), links_of(P4_LINKS));
    assert!(p4.contains(" wire=0,1 wire=0,2 wire=2,1 wire=0,3 wire=3,1 ") && !p4.contains("link"));
}

#[test]
fn f5_both_line_ends() {
    let words: Vec<&str> = FRESH_LINKS.split_whitespace().collect();
    for turned in 0..1 << words.len() {
        let end = |i: usize| if turned >> i & 1 == 1 { "\r\n" } else { "\n" };
        let text: String = (0..words.len()).flat_map(|i| [words[i], end(i)]).collect();
        let taken = 55 + (turned as u32).count_ones() as usize;
        let answer = load_links(text.as_bytes(), &Sheet::blank(0, 0));
        assert_eq!(answer, (Ok(()), Sheet::fresh(), taken), "{text:?}");
        assert_eq!(printed(text.as_bytes()), FRESH_DRAWN);
    }
    for end in ["\r", "\r\r\n", "\n\r", "\r \n"] {
        let text = FRESH_LINKS.replace(' ', end) + end;
        assert_eq!(links_answer(text.as_bytes()), Err(1), "{end:?}");
    }
}

/// As with the first load: what follows is not looked at, and the present sheet comes back.
#[test]
fn what_follows_and_the_present_sheet() {
    for rest in [&b""[..], b"\n", b"rubbish", b"\xff\0\xfe", b"in=1\n", b"link=0,1\n", b"\r"] {
        let text = [&lines(FRESH_LINKS), rest].concat();
        assert_eq!(load_links(&text, &Sheet::blank(0, 0)), (Ok(()), Sheet::fresh(), 55));
    }
    for present in Records::new(212).take(300) {
        assert_eq!(load_links(&lines(FRESH), &present), (Err(1), present, 0));
        assert_eq!(load_links(&lines(FRESH_LINKS), &present), (Ok(()), Sheet::fresh(), 55));
        let twisted = "bars=2 wires=3 link=0,1 link=1,0 link=0,1 around=0,1,2 around=0,1,2";
        assert_eq!(load_links(&lines(twisted), &present), (Err(8), present, 0));
    }
    // A line of a link is no edit.
    assert_eq!(read_edit(b"link=0,1\nin=1\n"), (Err(1), 9));
    let again = load(&lines(P4), &links_of(P4_LINKS));
    assert_eq!(again, (Ok(()), sheet_of(P4), lines(P4).len()));
}
