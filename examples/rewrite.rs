//! Rewrites one value of a padded block: the block stays as long as it was, and no byte changes but those of the value.
use mdf_conversion::{ConversionBlock, Refusal};

/// A linear conversion, 0 + 0.125 * x, with reserved bytes that are not zero and 8 bytes behind its values.
fn image() -> Vec<u8> {
    let mut image = b"##CC\x01\x02\x03\x04".to_vec(); // id, reserved bytes
    let words = [88, 4, 0, 0, 0, 0]; // block length, link count, name, unit, comment, inverse
    image.extend(words.map(u64::to_le_bytes).concat());
    image.extend([1, 3, 0, 0, 0, 0, 2, 0]); // type, precision, flags, counts
    image.extend([0f64, 0.125].map(f64::to_le_bytes).concat());
    image.extend([0; 8]); // the excess
    image
}

fn main() -> Result<(), Refusal> {
    let image = image();
    let mut out = vec![0; image.len()];
    let block = ConversionBlock::parse_kept(&image, 0)?;
    let refs: Vec<u64> = ConversionBlock::cc_ref(&image, 0)?.collect();
    let mut values: Vec<f64> = ConversionBlock::cc_val(&image, 0)?.collect();
    values[1] = 2.1;
    let length = block.write(&refs, &values, &mut out)?;
    println!("reserved {:#010x}, excess {}", block.reserved, block.excess);
    println!("{} bytes before, {length} after", block.block_len);
    print!("changed:");
    for place in (0..length).filter(|place| out[*place] != image[*place]) {
        print!(" {place}");
    }
    println!();
    Ok(())
}
