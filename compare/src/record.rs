// Recorded answers for the program replay: values asked of images in the domain, with the crate's answers beside them. The two files are replay's
// stdin and stdout; crates/replay/src/main.rt says how they are laid out.
use crate::domain::{self, Place};
use crate::scene::{Ask, Scene};
use crate::side::Value;
use crate::theirs::{self, Outcome};
use oracle::parsing::decoder::DecodedValue;
use std::fs;

/// Images over this size are left out, so that the files stay small.
const LARGEST: usize = 512;

/// The room of each record; longer texts are left out.
const ROOM: usize = 600;

/// The root types that are recorded: all but formulas, and 12 for the unknown ones.
const TYPES: usize = 13;

/// The number of a value's kind, and its 64 bits.
fn spelled(value: Value) -> (u64, u64) {
    match value {
        Value::Unsigned(n) => (0, n),
        Value::Signed(n) => (1, n as u64),
        Value::Float(x) => (2, x.to_bits()),
        Value::Text => (3, 0),
        Value::Other(_) => (4, 0),
    }
}

fn put(out: &mut Vec<u8>, scene: &Scene, ask: &Ask, limit: u64) {
    let (kind, bits) = spelled(ask.value);
    let lengths = [ask.text.len() as u64, scene.image.len() as u64];
    for n in [scene.address, kind, bits, limit, ROOM as u64, lengths[0], lengths[1]] {
        out.extend_from_slice(&n.to_le_bytes());
    }
    out.extend_from_slice(&ask.text);
    out.extend_from_slice(&scene.image);
}

fn hex(bytes: &[u8]) -> String {
    bytes.iter().map(|b| format!("{b:02x}")).collect()
}

/// The crate's answer as replay writes it; all NaNs as one. None for a text that is too long.
fn line(value: Value, answer: &DecodedValue) -> Option<String> {
    Some(match answer {
        _ if matches!(value, Value::Other(_)) => "other".to_string(),
        DecodedValue::UnsignedInteger(n) => format!("unsigned {n:016x}"),
        DecodedValue::SignedInteger(n) => format!("signed {:016x}", *n as u64),
        DecodedValue::Float(x) if x.is_nan() => "float 7ff8000000000000".to_string(),
        DecodedValue::Float(x) => format!("float {:016x}", x.to_bits()),
        DecodedValue::String(t) if t.len() <= ROOM => format!("text {}", hex(t.as_bytes())),
        DecodedValue::String(_) => return None,
        _ => "unknown".to_string(),
    })
}

/// One value of a scene in the domain, if it can be recorded.
fn record(scene: &Scene, number: usize, stdin: &mut Vec<u8>, stdout: &mut String) -> Option<usize> {
    if scene.image.len() > LARGEST || !matches!(domain::place(&scene.image, scene.address, scene.limit), Place::Inside { .. }) {
        return None;
    }
    let Outcome::Answer(block) = theirs::resolved(&scene.image, scene.address) else { return None };
    let ask = &scene.asks[number % scene.asks.len()];
    let Outcome::Answer(answer) = theirs::applied(&block, theirs::decoded(ask.value, &ask.text)?, &scene.image) else { return None };
    let visits = theirs::tree_size(&block);
    let said = line(ask.value, &answer)?;
    put(stdin, scene, ask, visits + number as u64 % 3);
    stdout.push_str(&format!("{said} {visits}\n"));
    Some((block.cc_type.to_u8() as usize).min(TYPES - 1))
}

/// Records so many values of each root type into a folder; the number of records.
pub fn run(folder: &str, each: usize, seed: u64) -> usize {
    let (mut stdin, mut stdout) = (vec![0; 8], String::new());
    let (mut of_type, mut total) = ([0; TYPES], 0);
    for number in 0.. {
        let scene = Scene::new(seed, number);
        let (mut one, mut said) = (Vec::new(), String::new());
        let Some(kind) = record(&scene, number as usize, &mut one, &mut said) else { continue };
        if of_type[kind] < each {
            of_type[kind] += 1;
            total += 1;
            stdin.extend_from_slice(&one);
            stdout.push_str(&said);
        }
        if of_type.iter().enumerate().all(|(kind, n)| kind == 3 || *n >= each) {
            break;
        }
    }
    stdin[..8].copy_from_slice(&(total as u64).to_le_bytes());
    fs::write(format!("{folder}/stdin"), stdin).expect("the file stdin can be written");
    fs::write(format!("{folder}/stdout"), stdout).expect("the file stdout can be written");
    total
}
