//! The structs have the layout that a C compiler gives those of the header, the numbers are the header's, and the archive refuses what no safe
//! function can ask for.
use super::{Applied, Block, Checked, Inverted, Mode, Parsed, Shown, Text, Word, Written};
use crate::{Edition, Refusal, Stopped, TextId};
use core::mem::{align_of, offset_of, size_of};
use std::format;
use std::path::PathBuf;
use std::process::Command;
use std::string::String;
use std::vec::Vec;

// A struct's line as layout.c prints it.
macro_rules! line {
    ($name:literal, $type:ty, $($field:ident),+) => {
        format!("{} {} {}:", $name, size_of::<$type>(), align_of::<$type>())
            $(+ &format!(" {} {}", stringify!($field), offset_of!($type, $field)))+
            + "\n"
    };
}

fn structs_of_rust() -> String {
    line!("mdf_checked", Checked, refusal, visits, address)
        + &line!("mdf_applied", Applied, refusal, kind, number, length, address, checked, applied, malformed)
        + &line!("mdf_mode", Mode, width, edition)
        + &line!("mdf_shown", Shown, from_image, start, length)
        + &line!(
            "mdf_block",
            Block,
            length,
            links,
            name,
            unit,
            comment,
            inverse,
            range_min,
            range_max,
            min_word,
            max_word,
            excess,
            reserved,
            flags,
            ref_count,
            val_count,
            kind,
            precision,
            ranged
        )
        + &line!("mdf_parsed", Parsed, refusal, address, block)
        + &line!("mdf_word", Word, refusal, found, address, word)
        + &line!("mdf_written", Written, refusal, length)
        + &line!("mdf_text", Text, refusal, id, address, start, length)
        + &line!("mdf_inverted", Inverted, refusal, index, address, length)
}

fn numbers_of_rust() -> String {
    let numbers = [
        ("MDF_REFUSED_OUTSIDE", Refusal::Outside(0).number()),
        ("MDF_REFUSED_NOT_CONVERSION", Refusal::NotConversion(0).number()),
        ("MDF_REFUSED_LIMIT", Refusal::Limit(0).number()),
        ("MDF_REFUSED_SHORT", Refusal::Short(0).number()),
        ("MDF_REFUSED_DEEP", Refusal::Deep(0).number()),
        ("MDF_REFUSED_LOOP", Refusal::Loop(0).number()),
        ("MDF_REFUSED_FORMULA", Refusal::Formula(Stopped::default()).number()),
        ("MDF_REFUSED_ROOM", Refusal::Room(None).number()),
        ("MDF_REFUSED_COUNT", Refusal::Count.number()),
        ("MDF_REFUSED_WIDTH", Refusal::Width.number()),
        ("MDF_REFUSED_NOT_TEXT", Refusal::NotText(0).number()),
        ("MDF_REFUSED_REPEATED", Refusal::Repeated(0).number()),
        ("MDF_REFUSED_KEY", Refusal::Key(0).number()),
        ("MDF_REFUSED_WRONG_TYPE", Refusal::WrongType(0).number()),
        ("MDF_REFUSED_EDITION", Refusal::Edition.number()),
        ("MDF_REFUSED_FEW_LINKS", Refusal::FewLinks(0).number()),
        ("MDF_REFUSED_ZERO_BYTE", Refusal::ZeroByte.number()),
        ("MDF_REFUSED_NOT_TEXT_BLOCK", Refusal::NotTextBlock(0).number()),
        ("MDF_REFUSED_PADDING", Refusal::Padding.number()),
        ("MDF_EDITION_410", Edition::Mdf410.number()),
        ("MDF_EDITION_420", Edition::Mdf420.number()),
        ("MDF_TX", TextId::Tx as u32),
        ("MDF_MD", TextId::Md as u32),
    ];
    numbers.iter().map(|(name, number)| format!("{name} {number}\n")).collect()
}

fn lines_of_c() -> String {
    let package = PathBuf::from(env!("CARGO_MANIFEST_DIR"));
    let program = std::env::temp_dir().join(format!("mdf-conversion-layout-{}", std::process::id()));
    let compiler = std::env::var("CC").unwrap_or("cc".into());
    let built = Command::new(&compiler)
        .args(["-std=c11", "-Wall", "-Wextra", "-Wpedantic", "-Werror", "-I"])
        .arg(package.join("../c"))
        .arg(package.join("src/raw/layout.c"))
        .arg("-o")
        .arg(&program)
        .status();
    assert!(built.is_ok_and(|status| status.success()), "{compiler} does not compile layout.c");
    let printed = Command::new(&program).output().expect("the compiled program runs");
    std::fs::remove_file(&program).expect("the compiled program is removed");
    String::from_utf8(printed.stdout).expect("it prints ASCII")
}

#[test]
fn layouts_and_numbers_are_those_of_the_header() {
    assert_eq!(structs_of_rust() + &numbers_of_rust(), lines_of_c());
    assert_eq!((size_of::<Mode>(), offset_of!(Mode, width), offset_of!(Mode, edition)), (8, 0, 4));
    assert_eq!((size_of::<Block>(), offset_of!(Block, excess), offset_of!(Block, reserved)), (104, 80, 88));
    assert_eq!((size_of::<Text>(), offset_of!(Text, id), offset_of!(Text, start), offset_of!(Text, length)), (32, 4, 16, 24));
    assert_eq!((size_of::<Inverted>(), offset_of!(Inverted, index), offset_of!(Inverted, address), offset_of!(Inverted, length)), (24, 4, 8, 16));
}

const FILL: u8 = 0xa5;

// What the archive answers in this mode for a value of each kind. It may not touch its output.
fn applied_in(image: &[u8], address: u64, limit: u32, mode: Mode) -> Vec<Applied> {
    let (from, len, text) = (image.as_ptr(), image.len(), b"on");
    let mut buffer = [FILL; 64];
    let (to, room) = (buffer[16..48].as_mut_ptr(), 32);
    // SAFETY: each pointer and length are those of one slice, and the part of the buffer shares no byte with the others.
    let all = unsafe {
        [
            super::mdf_apply_mode_unsigned(from, len, address, limit, mode, 15, to, room),
            super::mdf_apply_mode_signed(from, len, address, limit, mode, -1, to, room),
            super::mdf_apply_mode_float(from, len, address, limit, mode, 0.5, to, room),
            super::mdf_apply_mode_text(from, len, address, limit, mode, text.as_ptr(), text.len(), to, room),
            super::mdf_apply_mode_other(from, len, address, limit, mode, to, room),
        ]
    };
    assert_eq!(buffer, [FILL; 64]);
    all.into()
}

// Raw torque, a linear conversion.
const FEW_LINKS: usize = 608;

// The sample image, in which that block has three links.
fn sample() -> Vec<u8> {
    let mut image = std::fs::read("../../samples/tractor.mdf").unwrap();
    image[FEW_LINKS + 16] = 3;
    image
}

// Whatever stands at the address, every kind of value is refused with this number, and all else is 0.
fn is_refused(image: &[u8], width: u32, edition: u32, refusal: Refusal) {
    // Bit groups, a linear conversion, a formula, a text, a block that is cut off, a loop, few links, and no place of the image.
    for address in [4288, 528, 816, 64, 2856, 3424, FEW_LINKS as u64, u64::MAX] {
        for applied in [0, 4096].into_iter().flat_map(|limit| applied_in(image, address, limit, Mode { width, edition })) {
            let Applied { refusal: number, kind, number: x, length, address, checked, applied, malformed } = applied;
            assert_eq!((number, kind, x.to_bits(), length), (refusal.number(), 0, 0, 0), "width {width} edition {edition}");
            assert_eq!((address, checked, applied, malformed), (0, 0, 0, 0), "width {width} edition {edition}");
            assert_eq!(Refusal::at(number, address), refusal);
        }
    }
}

const NO_WIDTHS: [u32; 3] = [0, 65, u32::MAX];

#[test]
fn an_edition_that_is_none_is_refused_before_the_width_and_the_check() {
    let image = sample();
    for edition in [0, 400, 409, 411, 419, 421, u32::MAX] {
        for width in [1, 4, 64].into_iter().chain(NO_WIDTHS) {
            is_refused(&image, width, edition, Refusal::Edition);
            is_refused(&[], width, edition, Refusal::Edition);
        }
    }
}

#[test]
fn a_width_that_is_none_is_refused_in_both_editions() {
    let image = sample();
    for edition in [410, 420] {
        for width in NO_WIDTHS {
            is_refused(&image, width, edition, Refusal::Width);
            is_refused(&[], width, edition, Refusal::Width);
        }
        for applied in applied_in(&image, u64::MAX, 4096, Mode { width: 64, edition }) {
            assert_eq!((applied.refusal, applied.address), (1, u64::MAX));
        }
    }
}

#[test]
fn few_links_are_refused_in_every_mode() {
    let image = sample();
    for mode in [410, 420].into_iter().flat_map(|edition| [1, 4, 64].map(|width| Mode { width, edition })) {
        for applied in applied_in(&image, FEW_LINKS as u64, 1, mode) {
            let Applied { refusal, kind, number, length, address, checked, applied, malformed } = applied;
            assert_eq!((refusal, address), (18, FEW_LINKS as u64));
            assert_eq!((kind, number.to_bits(), length, checked, applied, malformed), (0, 0, 0, 0, 0, 0));
        }
    }
}

// Every field of the answer, in the order of the struct. The archive may touch no byte outside the room that it is lent, and none where it refuses.
fn inverted(image: &[u8], address: u64, room: usize) -> (u32, u32, u64, u64) {
    let mut buffer = [FILL; 256];
    // SAFETY: each pointer and length are those of one slice, and the part of the buffer shares no byte with the image.
    let Inverted { refusal, index, address, length } =
        unsafe { super::mdf_invert(image.as_ptr(), image.len(), address, buffer[16..].as_mut_ptr(), room) };
    buffer[16..][..length as usize].fill(FILL);
    assert_eq!(buffer, [FILL; 256]);
    (refusal, index, address, length)
}

#[test]
fn inverting_fills_the_fields_that_apply_and_no_other() {
    let image = sample();
    // Gear, a value to text of one key, stands at 1664.
    assert_eq!(inverted(&image, 1664, 80), (0, 0, 0, 80));
    assert_eq!(inverted(&image, 1664, 200), (0, 0, 0, 80));
    for room in [0, 64, 80, 200] {
        assert_eq!(inverted(&image, u64::MAX, room), (1, 0, u64::MAX, 0));
        assert_eq!(inverted(&image, 64, room), (2, 0, 64, 0));
        assert_eq!(inverted(&image, 2856, room), (4, 0, 2856, 0));
        assert_eq!(inverted(&image, 528, room), (15, 0, 528, 0));
        assert_eq!(inverted(&image, FEW_LINKS as u64, room), (18, 0, FEW_LINKS as u64, 0));
        // Seat switch, a value to text whose reference leads to a conversion.
        assert_eq!(inverted(&image, 3424, room), (12, 0, 0, 0));
    }
    for room in [0, 64, 79] {
        assert_eq!(inverted(&image, 1664, room), (8, 0, 0, 0));
    }
}

// A value to text of two keys behind the sample, with the text of Gear's key and that of the second, which stands at 1456.
fn with_two_keys(refs: [u64; 2], keys: [f64; 2]) -> (Vec<u8>, u64) {
    let mut image = sample();
    let address = image.len();
    image.resize(address + 96, 0);
    let block = crate::ConversionBlock::new(crate::ConversionType::ValueToText);
    assert_eq!(block.write(&refs, &keys, &mut image[address..]), Ok(96));
    (image, address as u64)
}

#[test]
fn inverting_names_the_index_of_a_key_and_no_address() {
    let texts = [1424, 1456];
    for (refs, keys, refusal) in [(texts, [1.0, f64::NAN], 14), ([1424, 0], [1.0, 2.0], 12), ([1424, 1424], [1.0, 2.0], 13), (texts, [0.0, -0.0], 13)]
    {
        let (image, address) = with_two_keys(refs, keys);
        for room in [0, 95, 96, 200] {
            assert_eq!(inverted(&image, address, room), (refusal, 1, 0, 0));
        }
    }
    let (image, address) = with_two_keys(texts, [0.0, 1.0]);
    assert_eq!((inverted(&image, address, 96), inverted(&image, address, 95)), ((0, 0, 0, 96), (8, 0, 0, 0)));
}
