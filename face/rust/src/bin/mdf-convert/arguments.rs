//! What the command is asked for.
use crate::inverting::Target;
use crate::printing::brief;
use mdf_conversion::{Edition, Mode, Value};
use std::ffi::{OsStr, OsString};
use std::os::unix::ffi::OsStrExt;

const USUAL_LIMIT: u32 = 4096;

/// The kind of a value.
#[derive(Clone, Copy)]
pub enum Kind {
    Unsigned,
    Signed,
    Float,
    Text,
}

pub enum Task<'a> {
    /// Check the conversion and show its fields.
    Describe,
    ConvertOne(Value<'a>),
    /// Each line of standard input is a value.
    ConvertLines(Kind),
    /// Build the inverse of the conversion.
    Invert(Target<'a>),
}

pub struct Request<'a> {
    pub image_file: &'a OsStr,
    pub address: u64,
    pub limit: u32,
    pub mode: Mode,
    pub task: Task<'a>,
}

pub enum Arguments<'a> {
    Help,
    Version,
    Request(Request<'a>),
}

/// Reads the arguments, or says in one line which one is wrong.
pub fn read(words: &[OsString]) -> Result<Arguments<'_>, String> {
    let sorted = match sorted(words)? {
        Sorted::Help => return Ok(Arguments::Help),
        Sorted::Version => return Ok(Arguments::Version),
        Sorted::Places(sorted) => sorted,
    };
    let mut places = sorted.places.into_iter();
    let image_file = places.next().ok_or("IMAGE-FILE is missing; mdf-convert --help shows the arguments")?;
    let address = address_of(places.next().ok_or("ADDRESS is missing")?)?;
    let task = task_of(&mut places, sorted.before_dashes == Some(VALUE))?;
    if let Some(word) = places.next() {
        return Err(format!("{} is one argument too many", shown(word)));
    }
    let of_the_mode = sorted.width.map(|_| "--width").or(sorted.edition.map(|_| "--edition"));
    if let (Task::Describe, Some(option)) = (&task, of_the_mode) {
        return Err(format!("{option} goes with a KIND and a VALUE"));
    }
    let task = match (sorted.out_file, task) {
        (None, _) if sorted.force => return Err("--force goes with --invert".into()),
        (None, task) => task,
        (Some(_), Task::Describe) if sorted.limit.is_some() => return Err("--limit does not go with --invert, which checks nothing".into()),
        (Some(file), Task::Describe) => Task::Invert(Target { file, force: sorted.force }),
        (Some(_), _) => return Err("--invert does not go with a KIND and a VALUE".into()),
    };
    let mode = sorted.width.map_or(Mode::STANDARD, Mode::width).edition(sorted.edition.unwrap_or_default());
    Ok(Arguments::Request(Request { image_file, address, limit: sorted.limit.unwrap_or(USUAL_LIMIT), mode, task }))
}

// VALUE among the places.
const VALUE: usize = 3;

enum Sorted<'a> {
    Help,
    Version,
    Places(Places<'a>),
}

struct Places<'a> {
    /// The arguments that are no options.
    places: Vec<&'a OsStr>,
    limit: Option<u32>,
    width: Option<u32>,
    edition: Option<Edition>,
    out_file: Option<&'a OsStr>,
    force: bool,
    /// How many of the places stand before `--`.
    before_dashes: Option<usize>,
}

fn sorted(words: &[OsString]) -> Result<Sorted<'_>, String> {
    let mut sorted = Places { places: Vec::new(), limit: None, width: None, edition: None, out_file: None, force: false, before_dashes: None };
    let mut words = words.iter().map(OsString::as_os_str);
    while let Some(word) = words.next() {
        match option_of(word.as_encoded_bytes()) {
            (b"--help" | b"-h", None) => return Ok(Sorted::Help),
            (b"--version", None) => return Ok(Sorted::Version),
            (b"--limit", given) => sorted.limit = Some(number_of("--limit", given, &mut words)?),
            (b"--width", given) => sorted.width = Some(number_of("--width", given, &mut words)?),
            (b"--edition", given) => sorted.edition = Some(edition_of(given, &mut words)?),
            (b"--invert", given) => sorted.out_file = Some(out_file_of(given, &mut words)?),
            (b"--force", None) => sorted.force = true,
            (b"--", None) => {
                sorted.before_dashes = Some(sorted.places.len());
                sorted.places.extend(words.by_ref());
            }
            (name, _) if name.starts_with(b"--") => return Err(format!("{} is no option", shown(word))),
            _ => sorted.places.push(word),
        }
    }
    Ok(Sorted::Places(sorted))
}

// The name of an option, and what is given with it behind an equals sign.
fn option_of(word: &[u8]) -> (&[u8], Option<&[u8]>) {
    match word.iter().position(|byte| *byte == b'=') {
        Some(equals) if word.starts_with(b"--") => (&word[..equals], Some(&word[equals + 1..])),
        _ => (word, None),
    }
}

fn task_of<'a>(places: &mut impl Iterator<Item = &'a OsStr>, as_it_stands: bool) -> Result<Task<'a>, String> {
    let Some(kind) = places.next() else {
        return Ok(Task::Describe);
    };
    let kind = kind_of(kind)?;
    match places.next().map(OsStr::as_encoded_bytes) {
        None => Err("VALUE is missing: a value, or - for standard input".into()),
        Some(b"-") if !as_it_stands => Ok(Task::ConvertLines(kind)),
        Some(value) => value_of(kind, value).map(Task::ConvertOne).map_err(|why| format!("VALUE {why}")),
    }
}

fn shown(word: &OsStr) -> String {
    brief(word.as_encoded_bytes())
}

fn kind_of(word: &OsStr) -> Result<Kind, String> {
    match word.as_encoded_bytes() {
        b"unsigned" => Ok(Kind::Unsigned),
        b"signed" => Ok(Kind::Signed),
        b"float" => Ok(Kind::Float),
        b"text" => Ok(Kind::Text),
        _ => Err(format!("KIND {} is not unsigned, signed, float or text", shown(word))),
    }
}

fn address_of(word: &OsStr) -> Result<u64, String> {
    whole(word.as_encoded_bytes()).map_err(|why| match why {
        NoNumber::Unread => format!("ADDRESS {} is no number, decimal or hexadecimal after 0x", shown(word)),
        NoNumber::TooLarge => format!("ADDRESS {} does not fit 64 bits", shown(word)),
    })
}

// The number of an option: what is given with it, or the next word.
fn number_of<'a>(option: &str, given: Option<&'a [u8]>, words: &mut impl Iterator<Item = &'a OsStr>) -> Result<u32, String> {
    let bytes = given.or_else(|| words.next().map(OsStr::as_encoded_bytes)).ok_or(format!("{option} needs a number"))?;
    let number = digits(bytes, 10).ok().and_then(|number| u32::try_from(number).ok());
    number.ok_or(format!("{option} {} is no whole number from 0 to {}", brief(bytes), u32::MAX))
}

// The edition of an option, likewise.
fn edition_of<'a>(given: Option<&'a [u8]>, words: &mut impl Iterator<Item = &'a OsStr>) -> Result<Edition, String> {
    match given.or_else(|| words.next().map(OsStr::as_encoded_bytes)) {
        Some(b"4.10") => Ok(Edition::Mdf410),
        Some(b"4.20") => Ok(Edition::Mdf420),
        Some(bytes) => Err(format!("--edition {} is neither 4.10 nor 4.20", brief(bytes))),
        None => Err("--edition needs 4.10 or 4.20".into()),
    }
}

// The file of an option, likewise. A next word that begins as an option does is none: it would be a file that nobody meant.
fn out_file_of<'a>(given: Option<&'a [u8]>, words: &mut impl Iterator<Item = &'a OsStr>) -> Result<&'a OsStr, String> {
    let next = || words.next().filter(|word| !word.as_encoded_bytes().starts_with(b"--"));
    let file = given.map(OsStr::from_bytes).or_else(next).filter(|file| !file.is_empty());
    file.ok_or("--invert needs an OUT-FILE".into())
}

enum NoNumber {
    Unread,
    TooLarge,
}

// A whole number without a sign, decimal or hexadecimal after 0x.
fn whole(bytes: &[u8]) -> Result<u64, NoNumber> {
    match bytes.strip_prefix(b"0x") {
        Some(bytes) => digits(bytes, 16),
        None => digits(bytes, 10),
    }
}

// A number of digits and nothing else.
fn digits(bytes: &[u8], radix: u32) -> Result<u64, NoNumber> {
    let digits = std::str::from_utf8(bytes).map_err(|_| NoNumber::Unread)?;
    if digits.is_empty() || !digits.chars().all(|digit| digit.is_digit(radix)) {
        return Err(NoNumber::Unread);
    }
    u64::from_str_radix(digits, radix).map_err(|_| NoNumber::TooLarge)
}

/// Reads a value of this kind, or says what is wrong with it.
pub fn value_of(kind: Kind, bytes: &[u8]) -> Result<Value<'_>, String> {
    match kind {
        Kind::Unsigned => unsigned_of(bytes).map(Value::UnsignedInteger),
        Kind::Signed => signed_of(bytes).map(Value::SignedInteger),
        Kind::Float => float_of(bytes).map(Value::Float),
        Kind::Text => Ok(Value::Text(bytes)),
    }
}

fn unsigned_of(bytes: &[u8]) -> Result<u64, String> {
    whole(bytes).map_err(|why| match why {
        NoNumber::Unread => format!("{} is no unsigned whole number", brief(bytes)),
        NoNumber::TooLarge => format!("{} does not fit: unsigned numbers end at {}", brief(bytes), u64::MAX),
    })
}

fn signed_of(bytes: &[u8]) -> Result<i64, String> {
    let (sign, size) = match bytes {
        [b'-', size @ ..] => (-1, size),
        [b'+', size @ ..] => (1, size),
        size => (1, size),
    };
    let size = match whole(size) {
        Ok(size) => i128::from(size),
        Err(NoNumber::Unread) => return Err(format!("{} is no signed whole number", brief(bytes))),
        Err(NoNumber::TooLarge) => i128::MAX,
    };
    i64::try_from(sign * size).map_err(|_| format!("{} does not fit: signed numbers go from {} to {}", brief(bytes), i64::MIN, i64::MAX))
}

fn float_of(bytes: &[u8]) -> Result<f64, String> {
    let number = std::str::from_utf8(bytes).ok().and_then(|digits| digits.parse::<f64>().ok());
    match number {
        None => Err(format!("{} is no number", brief(bytes))),
        // Only digits can be too large: a value that is meant as infinite has none.
        Some(number) if number.is_infinite() && bytes.iter().any(u8::is_ascii_digit) => {
            Err(format!("{} does not fit: floats end at {:e}", brief(bytes), f64::MAX))
        }
        Some(number) => Ok(number),
    }
}
