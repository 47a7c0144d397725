//! What a user of the crate holds in hand: values, answers and types.
#![deny(unfulfilled_lint_expectations)]
#[allow(dead_code)]
mod image;

use image::Image;
use mdf_conversion::{
    apply, apply_in, check, translate, Answer, Applied, ConversionBlock, ConversionType, Edition, Mode, Refusal, TextBlock, Value, Visits,
};

#[test]
fn the_text_of_an_answer() {
    let mut image = Image::new();
    let text = image.text(b"Gear = Low|PTO");
    let (shows, torque) = (image.block(8, &[text], &[]), image.block(1, &[], &[0.0, 0.125]));
    let mut out = [b'.'; 20];
    let applied = apply(&image.bytes, shows, 1, Value::from(6u64), &mut out).unwrap();
    assert_eq!(applied.text(&out), Some(b"Gear = Low|PTO".as_slice()));
    assert!(core::ptr::eq(applied.text(&out).unwrap(), &out[..14]));
    assert_eq!(applied.text(&out[..14]), Some(&out[..14]));
    // A buffer that cannot be the one that was lent.
    assert_eq!(applied.text(&out[..13]), None);
    assert_eq!(apply(&image.bytes, torque, 1, Value::from(6u64), &mut out).unwrap().text(&out), None);
    assert_eq!(apply(&image.bytes, torque, 1, Value::Other, &mut out).unwrap().text(&out), None);
    let visits = Visits { checked: 1, applied: 1 };
    assert_eq!(Applied { answer: Answer::Text(0), visits, malformed: true }.text(&[]), Some([].as_slice()));
    assert_eq!(Applied { answer: Answer::Unknown, visits, malformed: false }.text(&out), None);
}

#[test]
fn values_from_numbers() {
    assert_eq!(Value::from(u64::MAX), Value::UnsignedInteger(u64::MAX));
    assert_eq!(Value::from(i64::MIN), Value::SignedInteger(i64::MIN));
    assert_eq!(Value::from(-0.5), Value::Float(-0.5));
    let mut image = Image::new();
    let torque = image.block(1, &[], &[0.0, 0.125]);
    let answer = |value: Value<'_>| apply(&image.bytes, torque, 1, value, &mut []).unwrap().answer;
    assert_eq!(answer(3u64.into()), Answer::Number(0.375));
    assert_eq!(answer((-3i64).into()), Answer::Number(-0.375));
    assert_eq!(answer(0.5.into()), Answer::Number(0.0625));
}

#[test]
fn only_a_number_that_is_not_known_is_unknown() {
    for number in 0..=u8::MAX {
        let cc_type = ConversionType::from_u8(number);
        assert_eq!(cc_type.to_u8(), number);
        match cc_type {
            ConversionType::Unknown(unknown) => {
                assert!(number > 11);
                assert_eq!(unknown.to_u8(), number);
                assert_eq!(cc_type.to_string(), "unknown");
            }
            _ => assert!(number <= 11),
        }
    }
}

#[test]
fn editions_by_their_numbers() {
    for (edition, number) in [(Edition::Mdf410, 410), (Edition::Mdf420, 420)] {
        assert_eq!(edition.number(), number);
        assert_eq!(Edition::try_from(number), Ok(edition));
    }
    for number in [0, 4, 41, 400, 409, 411, 419, 421, 430, 410 + (1 << 16), u32::MAX] {
        assert_eq!(Edition::try_from(number), Err(Refusal::Edition));
    }
}

#[test]
fn modes_name_a_width_and_an_edition() {
    const OLDER: Mode = Mode::width(4).edition(Edition::Mdf410);
    assert_eq!((Mode::default(), Mode::STANDARD), (Mode::width(64), Mode::width(64)));
    assert_eq!(Edition::default(), Edition::Mdf420);
    assert_eq!(Mode::STANDARD.edition(Edition::Mdf420), Mode::STANDARD);
    assert_eq!(OLDER.edition(Edition::Mdf420), Mode::width(4));
    assert_ne!(OLDER, Mode::width(4));
    assert_ne!(OLDER, Mode::STANDARD.edition(Edition::Mdf410));
}

// Each expectation is an error of this file where the compiler does not warn of the answer that is dropped.
#[test]
fn an_answer_that_is_dropped_is_warned_of() {
    let image: &[u8] = &[];
    let (refusal, cc_type) = (Refusal::Count, ConversionType::from_u8(42));
    let applied = Applied { answer: Answer::Unknown, visits: Visits::default(), malformed: false };
    let (give, answer) = (|| applied, || applied.answer);
    #[expect(unused_must_use)]
    apply(image, 0, 1, Value::Other, &mut []);
    #[expect(unused_must_use)]
    apply_in(image, 0, 1, Mode::STANDARD, Value::Other, &mut []);
    #[expect(unused_must_use)]
    Mode::width(4);
    #[expect(unused_must_use)]
    Mode::STANDARD.edition(Edition::Mdf410);
    #[expect(unused_must_use)]
    Edition::Mdf410.number();
    #[expect(unused_must_use)]
    Edition::try_from(410);
    #[expect(unused_must_use)]
    check(image, 0, 1);
    #[expect(unused_must_use)]
    ConversionBlock::parse(image, 0);
    #[expect(unused_must_use)]
    ConversionBlock::parse_kept(image, 0);
    #[expect(unused_must_use)]
    ConversionBlock::invert(image, 0, &mut []);
    #[expect(unused_must_use)]
    TextBlock::new("E1");
    #[expect(unused_must_use)]
    TextBlock::new_empty();
    #[expect(unused_must_use)]
    TextBlock::read(image, 0);
    #[expect(unused_must_use)]
    TextBlock::new("E1").write(&mut []);
    #[expect(unused_must_use)]
    translate(image, 0, 1, b"E1");
    #[expect(unused_must_use)]
    give();
    #[expect(unused_must_use)]
    answer();
    #[expect(unused_must_use)]
    applied.text(image);
    #[expect(unused_must_use)]
    refusal.number();
    #[expect(unused_must_use)]
    refusal.name();
    #[expect(unused_must_use)]
    refusal.address();
    #[expect(unused_must_use)]
    refusal.index();
    #[expect(unused_must_use)]
    refusal.visits();
    #[expect(unused_must_use)]
    cc_type.to_u8();
    #[expect(unused_must_use)]
    ConversionType::from_u8(1);
    #[expect(unused_must_use)]
    ConversionBlock::new(cc_type);
    if let ConversionType::Unknown(unknown) = cc_type {
        #[expect(unused_must_use)]
        unknown.to_u8();
    }
}
