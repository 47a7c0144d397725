//! Turns the value to text at address 1664 of the sample image around: behind the image's end the text to value that matches it, which gives the number
//! of a gear's name.
use mdf_conversion::{apply, Answer, ConversionBlock, Value};

fn main() -> Result<(), Box<dyn std::error::Error>> {
    let file = std::env::args().nth(1);
    let mut image = std::fs::read(file.as_deref().unwrap_or("samples/tractor.mdf"))?;
    let mut out = [0; 1024];
    image.resize(image.len().next_multiple_of(8), 0); // a block stands at a multiple of 8
    let back = image.len() as u64;
    let length = ConversionBlock::invert(&image, 1664, &mut out)?;
    image.extend(&out[..length]);
    let applied = apply(&image, back, 4096, Value::Text(b"Low"), &mut out)?;
    if let Answer::Number(number) = applied.answer {
        println!("number {number} for Low at {back}");
    }
    Ok(())
}
