//! The text that the bit groups at address 2488 of the sample image give for the value 6, and how many blocks were visited for it.
use mdf_conversion::{apply, Value};

fn main() -> Result<(), Box<dyn std::error::Error>> {
    let file = std::env::args().nth(1);
    let image = std::fs::read(file.as_deref().unwrap_or("samples/tractor.mdf"))?;
    let mut out = [0; 64];
    let applied = apply(&image, 2488, 4096, Value::from(6u64), &mut out)?;
    if let Some(text) = applied.text(&out) {
        println!("text {}", String::from_utf8_lossy(text));
    }
    let visits = applied.visits;
    println!("checked {} applied {}", visits.checked, visits.applied);
    Ok(())
}
