//! Gives a conversion of the sample image a new name: behind the image's end a text block, and behind that the conversion at address 528 once more,
//! with its name link to the new text.
use mdf_conversion::{apply, Answer, ConversionBlock, TextBlock, Value};

fn main() -> Result<(), Box<dyn std::error::Error>> {
    let file = std::env::args().nth(1);
    let mut image = std::fs::read(file.as_deref().unwrap_or("samples/tractor.mdf"))?;
    let mut out = [0; 1024];
    image.resize(image.len().next_multiple_of(8), 0); // a block stands at a multiple of 8
    let text = image.len() as u64;
    let length = TextBlock::new("PTO torque").write(&mut out)?;
    image.extend(&out[..length]);
    let mut block = ConversionBlock::parse_kept(&image, 528)?;
    let refs: Vec<u64> = ConversionBlock::cc_ref(&image, 528)?.collect();
    let values: Vec<f64> = ConversionBlock::cc_val(&image, 528)?.collect();
    block.cc_tx_name = Some(text);
    let torque = image.len() as u64;
    let length = block.write(&refs, &values, &mut out)?;
    image.extend(&out[..length]);
    let name = ConversionBlock::parse(&image, torque)?.cc_tx_name;
    let name = TextBlock::read(&image, name.unwrap_or(0))?.text;
    println!("name {} at {text}", String::from_utf8_lossy(name));
    let applied = apply(&image, torque, 4096, Value::from(-3i64), &mut out)?;
    if let Answer::Number(number) = applied.answer {
        println!("number {number} at {torque}");
    }
    Ok(())
}
