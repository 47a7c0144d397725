//! The unit that the command `mdf-convert` prints behind a number is that of the block that gave the number.
#[allow(dead_code)]
mod command_line;
#[allow(dead_code)]
mod image;

use command_line::{prints, run, run_with, Temporary};
use image::Image;

const UNIT: usize = 1;

/// A conversion that gives this number for every number, a range to value.
fn constant(image: &mut Image, number: f64, unit: u64) -> u64 {
    let block = image.block(6, &[], &[0.0, 0.0, number, number]);
    image.set_link(block, UNIT, unit);
    block
}

/// What the conversion answers for a value.
fn answer(image: &Image, block: u64, kind: &str, value: &str) -> String {
    let file = Temporary::new("unit", image);
    let ended = run(&[file.path(), &block.to_string(), kind, "--", value]);
    assert_eq!((ended.status, ended.error.as_str()), (0, ""));
    ended.out
}

#[test]
fn of_the_block_itself() {
    prints("528 signed -3", 0, "number -0.375 Nm\nchecked 1 applied 1\n");
    // Gives no number.
    prints("464 unsigned 3", 0, "unchanged\nchecked 1 applied 1\n");
    // Has no unit.
    prints("1272 unsigned 5", 0, "number 1\nchecked 1 applied 1\n");
    let mut image = Image::new();
    let (unit, key) = (image.text(b"lx"), image.text(b"on"));
    let lamp = image.block(9, &[key], &[2.0]);
    image.set_link(lamp, UNIT, unit);
    assert_eq!(answer(&image, lamp, "text", "on"), "number 2 lx\nchecked 1 applied 1\n");
}

#[test]
fn of_the_nested_block_that_was_taken() {
    prints("1824 unsigned 100", 0, "number 10 °C\nchecked 2 applied 2\n");
    let mut image = Image::new();
    let [a, b, own] = ["a", "b", "own"].map(|unit| image.text(unit.as_bytes()));
    // All give the same number, so that only the unit tells them apart.
    let nested = [a, b, 0].map(|unit| constant(&mut image, 5.0, unit));
    for (kind, values) in [(7, [1.0, 2.0].as_slice()), (8, &[1.0, 1.0, 2.0, 2.0])] {
        let root = image.block(kind, &nested, values);
        image.set_link(root, UNIT, own);
        for (value, unit) in [("1", " a"), ("2", " b"), ("3", "")] {
            assert_eq!(answer(&image, root, "signed", value), format!("number 5{unit}\nchecked 4 applied 2\n"));
        }
    }
}

#[test]
fn of_a_block_some_levels_below() {
    let mut image = Image::new();
    let [a, b] = ["a", "b"].map(|unit| image.text(unit.as_bytes()));
    let (left, right) = (constant(&mut image, 5.0, a), constant(&mut image, 5.0, b));
    let mut root = image.block(7, &[left, right], &[1.0]);
    for _ in 0..19 {
        root = image.block(8, &[root, root], &[]);
        image.set_link(root, UNIT, b);
        image.set_link(root, 5, left); // the second reference
    }
    let visits = "\nchecked 41 applied 21, odd range table\n";
    assert_eq!(answer(&image, root, "unsigned", "1"), format!("number 5 a{visits}"));
    assert_eq!(answer(&image, root, "unsigned", "2"), format!("number 5 b{visits}"));
}

#[test]
fn of_the_default_conversion() {
    let mut image = Image::new();
    let [first, last] = ["first", "last"].map(|unit| image.text(unit.as_bytes()));
    let (one, other) = (constant(&mut image, 5.0, first), constant(&mut image, 5.0, last));
    let metadata = image.metadata(b"<TX/>");
    // The second range leads to what is no text or conversion, and so does a value of no range.
    let root = image.block(8, &[one, metadata, metadata, other], &[1.0, 1.0, 2.0, 2.0]);
    for (value, unit) in [("1", "first"), ("2", "last"), ("3", "last")] {
        assert_eq!(answer(&image, root, "unsigned", value), format!("number 5 {unit}\nchecked 3 applied 2\n"));
    }
}

#[test]
fn beside_bit_groups_in_either_edition() {
    let mut image = Image::new();
    let [a, b, other, text] = ["a", "b", "other", "bits"].map(|text| image.text(text.as_bytes()));
    let groups = image.named(11, 0, &[text], &[1]);
    image.set_link(groups, UNIT, other);
    let nested = [constant(&mut image, 5.0, a), groups, constant(&mut image, 5.0, b)];
    for (kind, values) in [(7, [1.0, 2.0].as_slice()), (8, &[1.0, 1.0, 2.0, 2.0])] {
        let inner = image.block(kind, &nested, values);
        let root = image.block(7, &[inner], &[]);
        let file = Temporary::new("beside", &image);
        for (edition, between) in [("4.10", "unchanged"), ("4.20", "text bits")] {
            let ended = run_with(&[file.path(), &root.to_string(), "signed", "-", "--edition", edition], b"1\n2\n3\n2\n1\n");
            let printed = format!("number 5 a\n{between}\nnumber 5 b\n{between}\nnumber 5 a\n");
            assert_eq!((ended.status, ended.out), (0, printed), "{edition}");
        }
    }
}

#[test]
fn in_metadata_or_not_to_be_read() {
    let mut image = Image::new();
    let xml = image.metadata(b"<CCunit><TX>\xc2\xb0C</TX></CCunit>");
    let odd = image.text("a\u{202e}b\n".as_bytes());
    let empty = image.text(b"");
    let conversion = image.block(1, &[], &[]);
    let shown = [(xml, " MD \"<CCunit><TX>°C</TX></CCunit>\""), (odd, " a\\xe2\\x80\\xaeb\\n"), (empty, ""), (conversion, ""), (u64::MAX, "")];
    for (unit, behind) in shown {
        let block = constant(&mut image, 0.5, unit);
        assert_eq!(answer(&image, block, "float", "7"), format!("number 0.5{behind}\nchecked 1 applied 1\n"));
    }
}

/// Numbers that look as if drawn.
struct Draw(u64);

impl Draw {
    fn below(&mut self, end: usize) -> usize {
        self.0 = self.0.wrapping_mul(6364136223846793005).wrapping_add(1442695040888963407);
        (self.0 >> 33) as usize % end
    }
}

const LEAVES: usize = 6;

/// Conversions below one another: leaves that each give a number of their own, bit groups, and value to text and range to text blocks above them. The
/// last one.
fn drawn(image: &mut Image, draw: &mut Draw) -> u64 {
    let (text, metadata) = (image.text(b"text"), image.metadata(b"<TX/>"));
    let mut nested: Vec<u64> = Vec::new();
    for number in 0..LEAVES {
        let unit = image.text(format!("u{number}").as_bytes());
        nested.push(constant(image, number as f64, unit));
    }
    nested.push(image.named(11, 0, &nested, &[u64::MAX; LEAVES]));
    let mut root = 0;
    for _ in 0..5 {
        let mut refs: Vec<u64> = Vec::new();
        for _ in 0..1 + draw.below(6) {
            refs.push(match draw.below(10) {
                0 => 0,
                1 => text,
                2 => metadata,
                3 => u64::MAX,
                _ => nested[draw.below(nested.len())],
            });
        }
        let values: Vec<f64> = (0..draw.below(8)).map(|_| draw.below(8) as f64).collect();
        root = image.block(7 + draw.below(2) as u8, &refs, &values);
        image.set_link(root, UNIT, text);
        nested.push(root);
    }
    root
}

#[test]
fn of_every_number_in_drawn_trees() {
    let (mut draw, mut numbers, mut groups) = (Draw(12), 0, 0);
    let values: String = (-1..9).map(|value| format!("{value}\n")).collect();
    for _ in 0..100 {
        let mut image = Image::new();
        let root = drawn(&mut image, &mut draw);
        let file = Temporary::new("drawn", &image);
        for kind in ["signed", "float"] {
            let in_edition = |edition| run_with(&[file.path(), &root.to_string(), kind, "-", "--edition", edition], values.as_bytes());
            let (older, ended) = (in_edition("4.10"), in_edition("4.20"));
            assert_eq!((ended.status, ended.out.lines().count()), (0, 10));
            assert_eq!((older.status, older.out.lines().count()), (0, 10));
            for (older, line) in older.out.lines().zip(ended.out.lines()) {
                // Only a text of bit groups is not given in 4.10: every number is given in both editions.
                if older != line {
                    assert!(older.starts_with("unchanged") && line.starts_with("text "), "{older}, {line}");
                    groups += 1;
                }
                if !line.starts_with("number ") {
                    continue;
                }
                // A table of an odd length says so behind a tab.
                let answer = line.strip_suffix("\todd range table").unwrap_or(line);
                let number = answer.split(' ').nth(1).unwrap();
                assert_eq!(answer, format!("number {number} u{number}"));
                numbers += 1;
            }
        }
    }
    assert!(numbers > 400 && groups > 20, "{numbers}, {groups}");
}
