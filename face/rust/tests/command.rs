//! What the command `mdf-convert` answers.
#[allow(dead_code)]
mod command_line;
#[allow(dead_code)]
mod image;

use command_line::{complains, on_sample, prints, run, run_with, Temporary, SAMPLE};
use image::Image;

#[test]
fn answers() {
    prints("528 signed -3", 0, "number -0.375 Nm\nchecked 1 applied 1\n");
    prints("1048 unsigned 15", 0, "number 40 l\nchecked 1 applied 1\n");
    prints("688 unsigned 0", 0, "number 0.16666666666666666 l/h\nchecked 1 applied 1\n");
    prints("528 float 1e300", 0, "number 1.25e299 Nm\nchecked 1 applied 1\n");
    prints("528 float nan", 0, "number NaN Nm\nchecked 1 applied 1\n");
    prints("528 float -inf", 0, "number -inf Nm\nchecked 1 applied 1\n");
    prints("2488 unsigned 6", 0, "text Gear = Low|PTO\nchecked 2 applied 2\n");
    prints("2384 text E1", 0, "text oil pressure low\nchecked 1 applied 1\n");
    prints("464 unsigned 18446744073709551615", 0, "unchanged\nchecked 1 applied 1\n");
    prints("3264 text blue", 0, "unknown\nchecked 1 applied 1\n");
    prints("3152 unsigned 50", 0, "number -15 °C\nchecked 3 applied 2\n");
}

#[test]
fn addresses_are_decimal_or_hexadecimal() {
    prints("0x210 signed -9223372036854775808", 0, "number -1.152921504606847e18 Nm\nchecked 1 applied 1\n");
    prints("0x9B8 unsigned 0", 0, "text PTO\nchecked 2 applied 2\n");
    prints("0xffffffffffffffff unsigned 0", 3, "refused 1 Outside at 18446744073709551615\nchecked 0 applied 0\n");
}

#[test]
fn whole_numbers_are_decimal_or_hexadecimal() {
    for (words, number) in [
        ("unsigned 0xff", "31.875"),
        ("unsigned 0xFF", "31.875"),
        ("unsigned 0xffffffffffffffff", "2.305843009213694e18"),
        ("signed 0x10", "2"),
        ("signed -0x10", "-2"),
        ("signed +0x10", "2"),
        ("signed +5", "0.625"),
        ("signed -0x8000000000000000", "-1.152921504606847e18"),
        ("signed 0x7fffffffffffffff", "1.152921504606847e18"),
    ] {
        prints(&format!("528 {words}"), 0, &format!("number {number} Nm\nchecked 1 applied 1\n"));
    }
}

#[test]
fn no_digit_of_a_number_is_false() {
    let mut image = Image::new();
    let as_it_is = image.block(1, &[], &[0.0, 1.0]);
    let file = Temporary::new("digits", &image);
    for (value, number) in [
        ("2305843009213693952", "2.305843009213694e18"),
        ("-1e16", "-1e16"),
        ("9999999999999998", "9999999999999998"),
        ("9007199254740993", "9007199254740992"),
        ("0.00001", "0.00001"),
        ("0.0000099", "9.9e-6"),
        ("-5e-324", "-5e-324"),
        ("0.1", "0.1"),
    ] {
        let ended = run(&[file.path(), &as_it_is.to_string(), "float", value]);
        assert_eq!(ended.out, format!("number {number}\nchecked 1 applied 1\n"));
        assert_eq!(number.parse::<f64>(), value.parse::<f64>());
    }
}

#[test]
fn refusals() {
    prints("64 unsigned 1", 3, "refused 2 NotConversion at 64\nchecked 0 applied 0\n");
    prints("2488 unsigned 6 --limit 1", 3, "refused 3 Limit at 1664\nchecked 0 applied 0\n");
    prints("--limit 2 2488 unsigned 6", 0, "text Gear = Low|PTO\nchecked 2 applied 2\n");
    prints("2664 unsigned 7", 3, "refused 4 Short at 2856\nchecked 0 applied 0\n");
    prints("3424 text a", 3, "refused 6 Loop at 3424\nchecked 0 applied 0\n");
    prints("816 float 0.5", 3, "refused 7 Formula\nchecked 1 applied 1\n");
}

#[test]
fn an_odd_range_table_speaks_up() {
    prints("3688 unsigned 15", 0, "text slow\nchecked 1 applied 1, odd range table\n");
    prints("3688 float nan", 0, "text slow\nchecked 1 applied 1, odd range table\n");
    prints("3688 text slow", 0, "unchanged\nchecked 1 applied 1\n");
    prints("3688 unsigned 15 --limit 0", 3, "refused 3 Limit at 3688\nchecked 0 applied 0\n");
    let mut image = Image::new();
    let (text, linear, formula) = (image.text(b"a, odd range table"), image.block(1, &[], &[0.0, 2.0]), image.block(3, &[], &[]));
    let even = image.block(8, &[text], &[0.0, 9.0]);
    let odd = image.block(8, &[linear], &[1.0]);
    let stopped = image.block(8, &[formula], &[]);
    let key = image.block(7, &[odd, even, stopped], &[3.0, 4.0, 5.0]);
    let file = Temporary::new("odd", &image);
    for (value, status, printed) in [
        ("3", 0, "number 6\nchecked 6 applied 3, odd range table\n"),
        ("4", 0, "text a, odd range table\nchecked 6 applied 2\n"),
        ("5", 3, "refused 7 Formula\nchecked 6 applied 3, odd range table\n"),
        ("6", 0, "unchanged\nchecked 6 applied 1\n"),
    ] {
        let ended = run(&[file.path(), &key.to_string(), "unsigned", value]);
        assert_eq!((ended.status, ended.out.as_str()), (status, printed));
    }
    // Of many values, on the answer's own line, behind a tab, which no answer has.
    let lines = run_with(&[file.path(), &key.to_string(), "unsigned", "-"], b"3\n4\n5\n6\n");
    let printed = "number 6\todd range table\ntext a, odd range table\nrefused 7 Formula\todd range table\nunchanged\n";
    assert_eq!((lines.status, lines.out.as_str()), (3, printed));
}

/// Refused with 18: what is printed, status 3, and one line on standard error that names the block and what repairs it.
fn names_the_repair(words: &[&str], input: &[u8], out: &str, block: u64) {
    let ended = run_with(words, input);
    let error = format!("mdf-convert: the block at {block} has fewer than four links; the program repair_block writes it with four\n");
    assert_eq!((ended.status, ended.out.as_str(), ended.error), (3, out, error), "{words:?}");
}

#[test]
fn fewer_than_four_links() {
    let mut image = Image::new();
    let few = image.block(1, &[], &[0.0, 0.125]);
    let middle = image.block(7, &[few], &[]);
    let root = image.block(8, &[middle], &[]);
    for links in 0..4 {
        image.set_link_count(few, links);
        let file = Temporary::new("few", &image);
        let refused = format!("refused 18 FewLinks at {few}\n");
        for address in [few, middle, root].map(|address| address.to_string()) {
            for (kind, value) in [("unsigned", "1"), ("signed", "-1"), ("float", "0.5"), ("text", "on")] {
                let one = format!("{refused}checked 0 applied 0\n");
                names_the_repair(&[file.path(), &address, kind, value], b"", &one, few);
                names_the_repair(&[file.path(), &address, kind, value, "--width=4", "--edition=4.10"], b"", &one, few);
            }
            // Of many values once.
            names_the_repair(&[file.path(), &address, "signed", "-"], b"1\n-1\n0\n", &refused.repeat(3), few);
            let none = run_with(&[file.path(), &address, "signed", "-"], b"");
            assert_eq!((none.status, none.out.as_str(), none.error.as_str()), (0, "", ""));
        }
    }
    image.set_link_count(few, 4);
    let file = Temporary::new("four", &image);
    let ended = run(&[file.path(), &root.to_string(), "signed", "-3"]);
    assert_eq!((ended.status, ended.error.as_str()), (0, ""));
    assert_eq!(ended.out, "number -0.375\nchecked 3 applied 3, odd range table\n");
}

#[test]
fn fewer_than_four_links_among_the_fields() {
    let mut image = Image::new();
    let few = image.block(1, &[], &[0.0, 0.125]);
    image.set_link_count(few, 3);
    let (root, inverse) = (image.block(7, &[few], &[]), image.block(1, &[], &[]));
    image.set_link(inverse, 3, few);
    let file = Temporary::new("fields", &image);
    let refused = format!("refused 18 FewLinks at {few}\n");
    names_the_repair(&[file.path(), &few.to_string()], b"", &refused, few);
    let fields = format!(
        "{refused}type: 7 value to text\nname: none\nunit: none\ncomment: none\ninverse: none\nprecision: 0\nflags: 0\nrange: none\n\
        block length: 72\nlink count: 5\nreference count field: 1\nreferences: 1\n  0: conversion at {few}\nvalues: 0\n"
    );
    names_the_repair(&[file.path(), &root.to_string()], b"", &fields, few);
    // The inverse is shown and not walked.
    let ended = run(&[file.path(), &inverse.to_string()]);
    assert_eq!((ended.status, ended.error.as_str()), (0, ""));
    assert!(ended.out.contains(&format!("\ninverse: conversion at {few}\n")), "{}", ended.out);
}

#[test]
fn fewer_than_four_links_and_another_fault() {
    let mut image = Image::new();
    let few = image.block(1, &[], &[0.0, 0.125]);
    image.set_link_count(few, 3);
    let root = image.block(7, &[few], &[]);
    let file = Temporary::new("fault", &image);
    let root = root.to_string();
    for (words, printed) in [("--limit=1", format!("refused 3 Limit at {few}\n")), ("--width=65", "refused 11 Width\n".into())] {
        let ended = run(&[file.path(), &root, "unsigned", "1", words]);
        assert_eq!((ended.status, ended.out, ended.error.as_str()), (3, format!("{printed}checked 0 applied 0\n"), ""));
    }
    // A line that is no value ends the input, and is the one thing that is said.
    let lines = run_with(&[file.path(), &root, "unsigned", "-"], b"1\nx\n");
    assert_eq!((lines.status, lines.out), (2, format!("refused 18 FewLinks at {few}\n")));
    assert_eq!(lines.error, "mdf-convert: line 2 of standard input: \"x\" is no unsigned whole number\n");
}

#[test]
fn a_chain_too_deep() {
    let mut image = Image::new();
    let (root, last) = image.row(22, 1);
    let file = Temporary::new("deep", &image);
    let ended = run(&[file.path(), &root.to_string(), "unsigned", "1"]);
    assert_eq!((ended.status, ended.out), (3, format!("refused 5 Deep at {last}\nchecked 0 applied 0\n")));
}

#[test]
fn a_text_is_one_line_however_long() {
    let mut image = Image::new();
    let odd = image.text(b"a\\b\nc\x1b\xff");
    let long = image.text(&[b'x'; 5000]);
    let groups = image.named(11, 0, &[odd, long, odd], &[1, 1, 1]);
    let file = Temporary::new("long", &image);
    let ended = run(&[file.path(), &groups.to_string(), "unsigned", "1"]);
    let piece = "a\\\\b\\nc\\x1b\\xff";
    assert_eq!(ended.out, format!("text {piece}|{}|{piece}\nchecked 1 applied 1\n", "x".repeat(5000)));
}

#[test]
fn fields_in_words() {
    let torque = "accepted, visits 1\ntype: 1 linear\nname: \"Torque\" at 136\nunit: \"Nm\" at 168\ncomment: \"at the rear shaft\" at 200\n\
        inverse: conversion at 608\nprecision: 3\nflags: 1\nrange: none\nblock length: 80\nlink count: 4\nreference count field: 0\nreferences: 0\n\
        values: 2\n  0: 0\n  1: 0.125\n";
    prints("528", 0, torque);
    let groups = "accepted, visits 2\ntype: 11 bit groups\nname: \"Transmission\" at 1488\nunit: none\ncomment: none\ninverse: none\n\
        precision: 0\nflags: 0\nrange: none\nblock length: 96\nlink count: 6\nreference count field: 2\n\
        references: 2\n  0: conversion at 1664\n  1: \"PTO\" at 1456\nvalues: 2\n  0: mask 0x3\n  1: mask 0xc\n";
    prints("2488", 0, groups);
    assert!(run(&on_sample("688")).out.contains("\nrange: 0 to 60.5\n"));
}

#[test]
fn fields_of_a_refused_conversion() {
    let seat = run(&on_sample("3424"));
    assert_eq!(seat.status, 3);
    assert!(seat.out.starts_with("refused 6 Loop at 3424\ntype: 7 value to text\nname: \"Seat switch\" at 3112\n"));
    prints("2856", 3, "refused 4 Short at 2856\n");
    prints("0 --limit 0", 3, "refused 2 NotConversion at 0\n");
    let groups = run(&on_sample("2488 --limit 1"));
    assert!(groups.out.starts_with("refused 3 Limit at 1664\ntype: 11 bit groups\n"));
}

/// The fields of a linear conversion in a file of its own, with these lines of padding among them. The check accepts it.
fn shows_padding(image: &Image, block: u64, length: u64, padding: &str) {
    let file = Temporary::new("padding", image);
    let ended = run(&[file.path(), &block.to_string()]);
    let fields = format!(
        "accepted, visits 1\ntype: 1 linear\nname: none\nunit: none\ncomment: none\ninverse: none\nprecision: 0\nflags: 0\nrange: none\n\
        block length: {length}\nlink count: 4\nreference count field: 0\n{padding}references: 0\nvalues: 2\n  0: 0\n  1: 0.125\n"
    );
    assert_eq!((ended.status, ended.out, ended.error.as_str()), (0, fields, ""));
}

#[test]
fn padding_among_the_fields() {
    let mut image = Image::new();
    let block = image.block(1, &[], &[0.0, 0.125]);
    let passes = "excess: not kept, the block length passes the image end\n";
    shows_padding(&image, block, 80, "");
    image.set_block_len(block, 88);
    shows_padding(&image, block, 88, passes);
    image.bytes.extend([0; 7]);
    shows_padding(&image, block, 88, passes);
    image.bytes.push(0xff);
    shows_padding(&image, block, 88, "excess: 8\n");
    image.set_reserved(block, 0x04030201);
    shows_padding(&image, block, 88, "reserved bytes: 0x04030201\nexcess: 8\n");
    image.set_reserved(block, u32::MAX);
    image.set_block_len(block, 80);
    shows_padding(&image, block, 80, "reserved bytes: 0xffffffff\n");
    // Below the bytes read there is no excess.
    image.set_block_len(block, 24);
    shows_padding(&image, block, 24, "reserved bytes: 0xffffffff\n");
    // What passes the image end hides the reserved bytes, too: nothing is kept.
    image.set_block_len(block, 95);
    shows_padding(&image, block, 95, passes);
}

#[test]
fn padding_is_not_applied() {
    let mut image = Image::new();
    let block = image.block(1, &[], &[0.0, 0.125]);
    image.set_reserved(block, u32::MAX);
    for length in [80, 88, 95] {
        image.set_block_len(block, length);
        let file = Temporary::new("applied", &image);
        let ended = run(&[file.path(), &block.to_string(), "signed", "-3"]);
        assert_eq!((ended.status, ended.out.as_str()), (0, "number -0.375\nchecked 1 applied 1\n"));
    }
}

#[test]
fn help() {
    let ended = run(&["--help"]);
    assert_eq!((ended.status, ended.error.as_str()), (0, ""));
    for word in [
        "IMAGE-FILE ADDRESS KIND VALUE [--limit N] [--width N] [--edition E]",
        "\n  --edition E  the file's edition of MDF, 4.10 or 4.20, 4.20 if not given; also --edition=E",
        "11 Width",
        "KIND -",
        "unsigned, signed, float or text",
        "refused 5 Deep at 1234",
        "with the address that 1 to 6, 15 and 18 have, or the key that 12 to 14 have",
        "\n  18 FewLinks       the block has fewer than four links; the program repair_block writes it with four\n",
        "\n  checked 2 applied 2, odd range table\n  text slow\todd range table\n",
        "\n  reserved bytes: 0x04030201    the four bytes behind its id",
        "\n  excess: 8                     by how many bytes the block length exceeds what was read",
        "shows its fields; or shows a text\n",
        "\n  id: ##TX\n  text: \"Torque\"\n",
        "Exit status",
        "from 1e16 on and below 1e-5",
        "types 7 and 8",
    ] {
        assert!(ended.out.contains(word), "{word}");
    }
    for line in ["528 --help", "528 -h", "-h", "528 unsigned -h"] {
        assert_eq!(run(&on_sample(line)).out, ended.out, "{line}");
    }
}

#[test]
fn version() {
    let ended = run(&["--version"]);
    assert_eq!((ended.status, ended.out.as_str(), ended.error.as_str()), (0, concat!("mdf-convert ", env!("CARGO_PKG_VERSION"), "\n"), ""));
}

#[test]
fn a_limit_behind_a_blank_or_an_equals_sign() {
    for limit in ["--limit 1", "--limit=1"] {
        prints(&format!("2488 unsigned 6 {limit}"), 3, "refused 3 Limit at 1664\nchecked 0 applied 0\n");
        prints(&format!("{limit} 2488"), 3, &run(&on_sample(&format!("2488 {limit}"))).out);
    }
    prints("2488 unsigned 6 --limit=2", 0, "text Gear = Low|PTO\nchecked 2 applied 2\n");
    complains(&on_sample("528 --limit="), "--limit \"\" is no whole number from 0 to 4294967295");
    complains(&on_sample("528 --limit=-1"), "--limit \"-1\" is no whole number from 0 to 4294967295");
    complains(&on_sample("528 --limits=1"), "\"--limits=1\" is no option");
    complains(&on_sample("528 --help=1"), "\"--help=1\" is no option");
}

#[test]
fn a_signal_of_a_width() {
    let (narrow, wide) = ("Hitch = floating|Valve = open", "Hitch = floating|Valve = open|Alarm = overload");
    for width in ["--width 4", "--width=4"] {
        prints(&format!("4288 signed -1 {width}"), 0, &format!("text {narrow}\nchecked 4 applied 4\n"));
        prints(&format!("{width} 4288 unsigned 0xff"), 0, &format!("text {narrow}\nchecked 4 applied 4\n"));
    }
    for width in ["", "--width 64", "--width 6"] {
        prints(&format!("4288 signed -1 {width}"), 0, &format!("text {wide}\nchecked 4 applied 4\n"));
    }
    prints("528 signed -3 --width 4", 0, "number -0.375 Nm\nchecked 1 applied 1\n");
    let many = run_with(&on_sample("4288 signed - --width 4"), b"-1\n-5\n0\n");
    assert_eq!((many.status, many.out), (0, format!("text {narrow}\ntext Hitch = floating\ntext \n")));
}

#[test]
fn a_width_that_is_none() {
    for width in [0, 65, u32::MAX] {
        prints(&format!("4288 signed -1 --width {width}"), 3, "refused 11 Width\nchecked 0 applied 0\n");
        prints(&format!("64 signed -1 --limit 0 --width {width}"), 3, "refused 11 Width\nchecked 0 applied 0\n");
    }
    complains(&on_sample("528 signed -3 --width"), "--width needs a number");
    complains(&on_sample("528 signed -3 --width=4x"), "--width \"4x\" is no whole number from 0 to 4294967295");
    complains(&on_sample("528 signed -3 --width 4294967296"), "--width \"4294967296\" is no whole number from 0 to 4294967295");
    complains(&on_sample("4288 --width 4"), "--width goes with a KIND and a VALUE");
}

#[test]
fn a_file_of_an_edition() {
    for edition in ["--edition 4.10", "--edition=4.10", "--edition 4.20 --edition=4.10"] {
        for value in ["signed -1", "unsigned 0xff", "float 1", "text on", "signed -1 --width 4", "signed -1 --width=64"] {
            prints(&format!("4288 {value} {edition}"), 0, "unchanged\nchecked 4 applied 1\n");
            prints(&format!("{edition} 4288 {value}"), 0, "unchanged\nchecked 4 applied 1\n");
        }
        prints(&format!("528 signed -3 {edition}"), 0, "number -0.375 Nm\nchecked 1 applied 1\n");
        prints(&format!("4288 signed -1 --limit 3 {edition}"), 3, "refused 3 Limit at 4208\nchecked 0 applied 0\n");
    }
    for edition in ["--edition 4.20", "--edition=4.20", "--edition 4.10 --edition=4.20"] {
        for value in ["4288 signed -1", "4288 signed -1 --width 4", "2488 unsigned 6", "528 signed -3"] {
            let without = run(&on_sample(value));
            prints(&format!("{value} {edition}"), without.status, &without.out);
        }
    }
}

#[test]
fn many_values_in_an_edition() {
    for (words, printed) in [
        ("4288 signed - --edition 4.10", ["unchanged"; 3]),
        ("--edition=4.10 4288 signed - --width 4", ["unchanged"; 3]),
        ("4288 signed - --width 4 --edition 4.20", ["text Hitch = floating|Valve = open", "text Hitch = floating", "text "]),
        ("1744 signed - --edition 4.10", ["number -40.5 °C", "number -42.5 °C", "number -40 °C"]),
    ] {
        let ended = run_with(&on_sample(words), b"-1\n-5\n0\n");
        assert_eq!((ended.status, ended.out.lines().collect::<Vec<_>>()), (0, printed.to_vec()), "{words}");
    }
}

#[test]
fn an_edition_that_is_none() {
    for word in ["4.1", "4.2", "4.00", "4.11", "4.30", "410", "420", "4.100", "04.10", "4,10", "-4.10", "4.10 ", " 4.20", "MDF 4.10", ""] {
        let line = format!("--edition \"{word}\" is neither 4.10 nor 4.20");
        complains(&[SAMPLE, "4288", "signed", "-1", "--edition", word], &line);
        complains(&[SAMPLE, "4288", "signed", "-1", &format!("--edition={word}")], &line);
        complains(&[SAMPLE, "4288", "signed", "-1", "--edition", word, "--edition", "4.10", "--width", "65"], &line);
    }
    complains(&on_sample("528 signed -3 --edition"), "--edition needs 4.10 or 4.20");
    complains(&on_sample("528 signed -3 --edition --width 4"), "--edition \"--width\" is neither 4.10 nor 4.20");
    complains(&on_sample("528 signed -3 --editions=4.10"), "\"--editions=4.10\" is no option");
    complains(&on_sample("4288 --edition 4.10"), "--edition goes with a KIND and a VALUE");
    complains(&on_sample("4288 --edition 4.10 --width 4"), "--width goes with a KIND and a VALUE");
    for edition in ["4.10", "4.20"] {
        prints(&format!("4288 signed -1 --width 65 --edition {edition}"), 3, "refused 11 Width\nchecked 0 applied 0\n");
        prints(&format!("64 signed -1 --limit 0 --edition {edition} --width 0"), 3, "refused 11 Width\nchecked 0 applied 0\n");
    }
}

#[test]
fn missing_arguments() {
    complains(&[], "IMAGE-FILE is missing; mdf-convert --help shows the arguments");
    complains(&[SAMPLE], "ADDRESS is missing");
    complains(&on_sample("528 unsigned"), "VALUE is missing: a value, or - for standard input");
    complains(&on_sample("528 unsigned 1 --limit"), "--limit needs a number");
}

#[test]
fn bad_arguments() {
    complains(&on_sample("12x"), "ADDRESS \"12x\" is no number, decimal or hexadecimal after 0x");
    complains(&on_sample("-1"), "ADDRESS \"-1\" is no number, decimal or hexadecimal after 0x");
    complains(&on_sample("0x"), "ADDRESS \"0x\" is no number, decimal or hexadecimal after 0x");
    complains(&on_sample("0x10000000000000000"), "ADDRESS \"0x10000000000000000\" does not fit 64 bits");
    complains(&on_sample("528 integer 1"), "KIND \"integer\" is not unsigned, signed, float or text");
    complains(&on_sample("528 unsigned 1 2"), "\"2\" is one argument too many");
    complains(&on_sample("528 unsigned 1 --room 2"), "\"--room\" is no option");
    complains(&on_sample("528 unsigned 1 --limit -1"), "--limit \"-1\" is no whole number from 0 to 4294967295");
    complains(&on_sample("528 unsigned 1 --limit 4294967296"), "--limit \"4294967296\" is no whole number from 0 to 4294967295");
    complains(&[SAMPLE, "528", "unsigned", "1\n2"], "VALUE \"1\\n2\" is no unsigned whole number");
}

#[test]
fn values_that_do_not_parse_or_fit() {
    complains(&on_sample("528 unsigned -1"), "VALUE \"-1\" is no unsigned whole number");
    complains(&on_sample("528 unsigned 1.5"), "VALUE \"1.5\" is no unsigned whole number");
    complains(&[SAMPLE, "528", "unsigned", ""], "VALUE \"\" is no unsigned whole number");
    let largest = "VALUE \"18446744073709551616\" does not fit: unsigned numbers end at 18446744073709551615";
    complains(&on_sample("528 unsigned 18446744073709551616"), largest);
    complains(&on_sample("528 signed --1"), "\"--1\" is no option");
    complains(&on_sample("528 signed 1e3"), "VALUE \"1e3\" is no signed whole number");
    let bounds = "does not fit: signed numbers go from -9223372036854775808 to 9223372036854775807";
    complains(&on_sample("528 signed 9223372036854775808"), &format!("VALUE \"9223372036854775808\" {bounds}"));
    complains(&on_sample("528 signed -9223372036854775809"), &format!("VALUE \"-9223372036854775809\" {bounds}"));
    complains(&on_sample("528 unsigned 0x"), "VALUE \"0x\" is no unsigned whole number");
    complains(&on_sample("528 unsigned +1"), "VALUE \"+1\" is no unsigned whole number");
    complains(&on_sample("528 unsigned 0x10000000000000000"), &largest.replace("18446744073709551616", "0x10000000000000000"));
    complains(&on_sample("528 signed +-1"), "VALUE \"+-1\" is no signed whole number");
    complains(&on_sample("528 signed 0x-1"), "VALUE \"0x-1\" is no signed whole number");
    complains(&on_sample("528 signed 0x8000000000000000"), &format!("VALUE \"0x8000000000000000\" {bounds}"));
    complains(&on_sample("528 signed -0x8000000000000001"), &format!("VALUE \"-0x8000000000000001\" {bounds}"));
    complains(&on_sample("528 float one"), "VALUE \"one\" is no number");
    complains(&on_sample("528 float -1e999"), "VALUE \"-1e999\" does not fit: floats end at 1.7976931348623157e308");
}

#[test]
fn format_characters_are_escaped() {
    let mut image = Image::new();
    for (character, bytes) in [
        ('\u{ad}', "\\xc2\\xad"),
        ('\u{85}', "\\xc2\\x85"),
        ('\u{61c}', "\\xd8\\x9c"),
        ('\u{200b}', "\\xe2\\x80\\x8b"),
        ('\u{200f}', "\\xe2\\x80\\x8f"),
        ('\u{2028}', "\\xe2\\x80\\xa8"),
        ('\u{2029}', "\\xe2\\x80\\xa9"),
        ('\u{202a}', "\\xe2\\x80\\xaa"),
        ('\u{202e}', "\\xe2\\x80\\xae"),
        ('\u{2066}', "\\xe2\\x81\\xa6"),
        ('\u{2069}', "\\xe2\\x81\\xa9"),
        ('\u{feff}', "\\xef\\xbb\\xbf"),
        ('\u{e0041}', "\\xf3\\xa0\\x81\\x81"),
        ('\u{2010}', "\u{2010}"),
        ('é', "é"),
    ] {
        let text = image.text(format!("a{character}b").as_bytes());
        let root = image.named(8, text, &[text], &[0f64, 9.0].map(f64::to_bits));
        image.set_link(root, 1, text);
        image.set_link(root, 2, text);
        let file = Temporary::new("format", &image);
        let ended = run(&[file.path(), &root.to_string(), "unsigned", "1"]);
        assert_eq!(ended.out, format!("text a{bytes}b\nchecked 1 applied 1\n"));
        let shown = format!("\"a{bytes}b\" at {text}\n");
        let fields = run(&[file.path(), &root.to_string()]).out;
        for field in ["name: ", "unit: ", "comment: ", "  0: "] {
            assert!(fields.contains(&format!("\n{field}{shown}")), "{fields}");
        }
    }
}

#[test]
fn metadata_is_shown_as_a_unit_and_as_a_comment() {
    let mut image = Image::new();
    let unit = image.metadata(b"<CCunit><TX>Nm</TX></CCunit>");
    let comment = image.metadata(b"<CCcomment>\n<TX>\"rear\" shaft</TX></CCcomment>");
    let root = image.block(7, &[comment], &[]);
    for (place, link) in [(0, unit), (1, unit), (2, comment)] {
        image.set_link(root, place, link);
    }
    let file = Temporary::new("metadata", &image);
    let fields = run(&[file.path(), &root.to_string()]).out;
    for line in [
        format!("name: no text or conversion at {unit}"),
        format!("unit: MD \"<CCunit><TX>Nm</TX></CCunit>\" at {unit}"),
        format!("comment: MD \"<CCcomment>\\n<TX>\\\"rear\\\" shaft</TX></CCcomment>\" at {comment}"),
        format!("  0: no text or conversion at {comment}"),
    ] {
        assert!(fields.contains(&format!("\n{line}\n")), "{line} in {fields}");
    }
}

#[test]
fn links_that_lead_to_no_text() {
    let mut image = Image::new();
    let (short, other) = (image.text(b"short"), image.text(b"other"));
    image.bytes[short as usize + 8] = 23; // a block length below 24
    image.bytes[other as usize..][..4].copy_from_slice(b"##SI");
    let root = image.block(7, &[0, short, u64::MAX, other], &[]);
    let file = Temporary::new("links", &image);
    let ended = run(&[file.path(), &root.to_string()]);
    let shown = format!(
        "references: 4\n  0: none\n  1: no text or conversion at {short}\n  2: {}, outside the image\n  3: no text or conversion at {other}\n",
        u64::MAX
    );
    assert!(ended.out.contains(&shown), "{}", ended.out);
}

/// What an address alone prints, whatever the limit is.
fn describes(image: &Image, address: u64, status: i32, out: &str) {
    let file = Temporary::new("text", image);
    for words in [vec![], vec!["--limit=0"]] {
        let ended = run(&[&[file.path(), &address.to_string()], &words[..]].concat());
        assert_eq!((ended.status, ended.out.as_str(), ended.error.as_str()), (status, out, ""));
    }
}

#[test]
fn a_text_alone() {
    prints("136", 0, "id: ##TX\ntext: \"Torque\"\n");
    prints("0x88", 0, "id: ##TX\ntext: \"Torque\"\n");
    prints("1568", 0, "id: ##TX\ntext: \"°C\"\n");
    prints("2624", 0, "id: ##MD\ntext: \"<CCcomment/>\"\n");
    let texts = [(b"".as_slice(), ""), (b"a\\b\nc\x1b\xff\t\"d\"", "a\\\\b\\nc\\x1b\\xff\\t\\\"d\\\""), ("\u{202e}é".as_bytes(), "\\xe2\\x80\\xaeé")];
    for (text, shown) in texts {
        let mut image = Image::new();
        let (plain, metadata) = (image.text(text), image.metadata(text));
        describes(&image, plain, 0, &format!("id: ##TX\ntext: \"{shown}\"\n"));
        describes(&image, metadata, 0, &format!("id: ##MD\ntext: \"{shown}\"\n"));
    }
    // Address 0 is an address, and a text may be long and end without a zero.
    for (id, name) in [(b"##TX", "##TX"), (b"##MD", "##MD")] {
        let mut image = Image { bytes: id.to_vec() };
        image.bytes.extend([0; 20]);
        image.bytes.extend([b'x'; 5000]);
        image.set_block_len(0, 5024);
        describes(&image, 0, 0, &format!("id: {name}\ntext: \"{}\"\n", "x".repeat(5000)));
        image.set_link_count(0, u64::MAX);
        image.set_reserved(0, u32::MAX);
        image.bytes[24 + 3] = 0;
        describes(&image, 0, 0, &format!("id: {name}\ntext: \"xxx\"\n"));
    }
}

#[test]
fn a_text_that_is_refused() {
    let mut image = Image::new();
    let blocks = [image.text(b"before"), image.metadata(b"last")];
    let end = image.bytes.len() as u64;
    for block in blocks {
        for length in [0, 23, end - block + 1, 1 << 63, 0u64.wrapping_sub(block), u64::MAX] {
            image.set_block_len(block, length);
            describes(&image, block, 3, &format!("refused 4 Short at {block}\n"));
        }
        image.set_block_len(block, 24);
        let id = if block == blocks[0] { "##TX" } else { "##MD" };
        describes(&image, block, 0, &format!("id: {id}\ntext: \"\"\n"));
        // Of another id it is no text, whatever its length, and no conversion either.
        image.bytes[block as usize + 3] = b'Y';
        describes(&image, block, 3, &format!("refused 2 NotConversion at {block}\n"));
    }
    for address in [end - 23, end, u64::MAX] {
        describes(&image, address, 3, &format!("refused 1 Outside at {address}\n"));
    }
    // No value is converted by a text.
    for (address, value) in [("136", "unsigned 1"), ("136", "text Torque"), ("2624", "float 0.5"), ("136", "signed -1 --limit 0 --width 4")] {
        prints(&format!("{address} {value}"), 3, &format!("refused 2 NotConversion at {address}\nchecked 0 applied 0\n"));
    }
    let lines = run_with(&on_sample("136 text -"), b"a\nb\n");
    assert_eq!((lines.status, lines.out.as_str()), (3, "refused 2 NotConversion at 136\nrefused 2 NotConversion at 136\n"));
}

#[test]
fn a_value_may_look_like_an_option() {
    for text in ["--help", "-h", "--limit", "--limit=x", "--edition", "--edition=x", "--version", "--", "-", "-x"] {
        let ended = run(&[SAMPLE, "2384", "text", "--", text]);
        assert_eq!((ended.status, ended.out.as_str()), (0, "text fault not known\nchecked 1 applied 1\n"), "{text}");
    }
    prints("528 signed -- -3", 0, "number -0.375 Nm\nchecked 1 applied 1\n");
    prints("--limit=1 528 signed -- -3", 0, "number -0.375 Nm\nchecked 1 applied 1\n");
    complains(&on_sample("528 signed -- --3"), "VALUE \"--3\" is no signed whole number");
    complains(&on_sample("528 signed -- -3 --limit"), "\"--limit\" is one argument too many");
    // Only before VALUE does -- change what - means.
    let lines = run_with(&["--", SAMPLE, "528", "signed", "-"], b"-3\n");
    assert_eq!((lines.status, lines.out.as_str()), (0, "number -0.375 Nm\n"));
}
