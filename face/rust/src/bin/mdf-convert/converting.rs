//! Values converted, and their answers printed.
use crate::arguments::{value_of, Kind};
use crate::printing::{line, number};
use crate::units::Units;
use crate::Stop;
use mdf_conversion::{apply_in, Answer, Applied, Mode, Refusal, Value};
use std::io::{BufRead, BufReader, Read, Write};

const FIRST_ROOM: usize = 1 << 12;
const MOST_ROOM: usize = 1 << 28;

type Outcome = Result<Applied, Refusal>;

/// Applies one conversion. Its output buffer grows with the texts.
pub struct Converter<'a> {
    image: &'a [u8],
    address: u64,
    limit: u32,
    mode: Mode,
    out: Vec<u8>,
    units: Units<'a>,
}

impl<'a> Converter<'a> {
    pub fn new(image: &'a [u8], address: u64, limit: u32, mode: Mode) -> Converter<'a> {
        Converter { image, address, limit, mode, out: vec![0; FIRST_ROOM], units: Units::new(image, mode) }
    }

    fn convert(&mut self, value: Value<'_>) -> Outcome {
        loop {
            match apply_in(self.image, self.address, self.limit, self.mode, value, &mut self.out) {
                Err(Refusal::Room(_)) if self.out.len() < MOST_ROOM => self.out.resize(2 * self.out.len(), 0),
                outcome => return outcome,
            }
        }
    }

    // The line of the outcome of the last call, which was for this value.
    fn shown(&mut self, value: Value<'_>, outcome: &Outcome) -> String {
        match outcome {
            Err(refusal) => refusal.to_string(),
            Ok(applied) => match applied.answer {
                Answer::Number(x) => format!("number {}{}", number(x), self.units.behind(self.address, value, applied.visits.applied)),
                Answer::Text(_) => format!("text {}", line(applied.text(&self.out).unwrap_or_default())),
                Answer::Unchanged => "unchanged".into(),
                Answer::Unknown => "unknown".into(),
            },
        }
    }

    /// Prints the answer for one value, and on a second line the visits and whether a malformed table was consulted. Answers the refusal, if there is
    /// one.
    pub fn convert_one(mut self, value: Value<'_>, out: &mut impl Write) -> Result<Option<Refusal>, Stop> {
        let outcome = self.convert(value);
        let odd = if is_odd(&outcome) { ", odd range table" } else { "" };
        writeln!(out, "{}\n{}{odd}", self.shown(value, &outcome), visits(&outcome))?;
        Ok(outcome.err())
    }

    /// Prints the answer for each line of the input, up to a line that is no value, and behind a tab whether a malformed table was consulted: no answer
    /// has a tab of its own. Answers the first refusal, if there is one: a refusal of the check is the first, since the check knows no value.
    pub fn convert_lines(mut self, kind: Kind, input: impl Read, out: &mut impl Write) -> Result<Option<Refusal>, Stop> {
        let (mut input, mut first_refusal, mut count) = (BufReader::new(input), None, 0u64);
        while let Some(bytes) = next_line(&mut input, out)? {
            count += 1;
            let value = value_of(kind, &bytes).map_err(|why| Stop::Bad(format!("line {count} of standard input: {why}")))?;
            let outcome = self.convert(value);
            let odd = if is_odd(&outcome) { "\todd range table" } else { "" };
            writeln!(out, "{}{odd}", self.shown(value, &outcome))?;
            first_refusal = first_refusal.or(outcome.err());
        }
        Ok(first_refusal)
    }
}

// A refusal of the width or the check has no visits: 0 and 0.
fn visits(outcome: &Outcome) -> String {
    let visits = match outcome {
        Ok(applied) => applied.visits,
        Err(refusal) => refusal.visits().unwrap_or_default(),
    };
    format!("checked {} applied {}", visits.checked, visits.applied)
}

// Whether a malformed table of a range to text was consulted.
fn is_odd(outcome: &Outcome) -> bool {
    match outcome {
        Ok(applied) => applied.malformed,
        Err(refusal) => refusal.malformed(),
    }
}

// The next line without its end, which is a newline, or a carriage return and a newline. Before the input is waited for, the answers so far are
// handed on.
fn next_line(input: &mut BufReader<impl Read>, out: &mut impl Write) -> Result<Option<Vec<u8>>, Stop> {
    if !input.buffer().contains(&b'\n') {
        out.flush()?;
    }
    let mut bytes = Vec::new();
    let length = input.read_until(b'\n', &mut bytes).map_err(|error| Stop::Bad(format!("standard input: {error}")))?;
    for end in [b'\n', b'\r'] {
        if bytes.last() == Some(&end) {
            bytes.pop();
        }
    }
    Ok((length > 0).then_some(bytes))
}
