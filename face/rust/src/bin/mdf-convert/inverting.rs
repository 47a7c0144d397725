//! A value to text turned around: the text to value that matches it, behind the image in a file of its own.
use crate::printing::quoted;
use crate::{in_words, Stop};
use mdf_conversion::{ConversionBlock, Refusal};
use std::ffi::OsStr;
use std::fs::{self, File, OpenOptions};
use std::io::{self, ErrorKind, Write};

/// Where the image goes with the new block behind it.
pub struct Target<'a> {
    pub file: &'a OsStr,
    /// Whether a file that is there already is written over.
    pub force: bool,
}

// Blocks stand at multiples of it.
const STEP: usize = 8;

/// Writes the image with the new block behind it, and prints where that stands and how many keys it has. Answers the refusal, if there is one: then
/// nothing is written.
pub fn invert(mut image: Vec<u8>, address: u64, target: &Target<'_>, out: &mut impl Write) -> Result<Option<Refusal>, Stop> {
    // What cannot be parsed is refused below.
    let keys = ConversionBlock::parse(&image, address).map_or(0, |block| block.cc_val_count);
    let mut block = vec![0; 64 + 16 * usize::from(keys)];
    if let Err(refusal) = ConversionBlock::invert(&image, address, &mut block) {
        writeln!(out, "{refusal}")?;
        return Ok(Some(refusal));
    }
    image.resize(image.len().next_multiple_of(STEP), 0);
    let place = image.len();
    image.extend(block);
    write(target, &image).map_err(|why| Stop::Bad(format!("OUT-FILE {}{why}", quoted(target.file.as_encoded_bytes()))))?;
    writeln!(out, "text to value at {place}, keys {keys}")?;
    Ok(None)
}

// Writes the file, or says why it cannot be. A file that is there already keeps the bytes that are the same, so that one which is forced over itself is
// whole even if the rest cannot be written. A new one is removed where it cannot be whole.
fn write(target: &Target<'_>, bytes: &[u8]) -> Result<(), String> {
    let (mut file, is_new) = match OpenOptions::new().write(true).create_new(true).open(target.file) {
        Ok(file) => (file, true),
        Err(error) if error.kind() == ErrorKind::AlreadyExists => (already_there(target)?, false),
        Err(error) => return Err(format!(": {error}")),
    };
    let written = fill(&mut file, bytes);
    if written.is_err() && is_new {
        let _ = fs::remove_file(target.file);
    }
    written.map_err(|error| format!(": {error}"))
}

fn fill(file: &mut File, bytes: &[u8]) -> io::Result<()> {
    file.write_all(bytes)?;
    file.set_len(bytes.len() as u64)
}

// Looked at before it is opened: to open a fifo is to wait for its reader.
fn already_there(target: &Target<'_>) -> Result<File, String> {
    if !target.force {
        return Err(" is there already; --force writes over it".into());
    }
    let kind = fs::metadata(target.file).map_err(|error| format!(": {error}"))?.file_type();
    if !kind.is_file() {
        return Err(format!(" is {}, no regular file", in_words(kind)));
    }
    OpenOptions::new().write(true).open(target.file).map_err(|error| format!(": {error}"))
}
