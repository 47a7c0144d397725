//! The check of a conversion tree.
use crate::raw;
use crate::refusal::Refusal;

/// Walks the conversion at `address` and every conversion under it, references in order, and begins at most `limit` visits.
///
/// Answers how many blocks it visited, a block that is reached twice counting twice.
///
/// # Errors
///
/// The first refusal met, of 1 to 6 and 18: at the root in the order 1, 2, 3, 18, 4, at a nested block 3, 18, 4, 5. A link to a block on the current
/// path is 6, and that block is not begun again.
///
/// ```
/// use mdf_conversion::{check, Refusal};
///
/// let image = std::fs::read("../../samples/tractor.mdf").unwrap();
///
/// // Coolant, at 3152, leads twice to the conversion at 1744.
/// assert_eq!(check(&image, 3152, 4096), Ok(3));
/// assert_eq!(check(&image, 3152, 2), Err(Refusal::Limit(1744)));
/// ```
pub fn check(image: &[u8], address: u64, limit: u32) -> Result<u32, Refusal> {
    // SAFETY: pointer and length are those of one slice.
    let checked = unsafe { raw::mdf_check(image.as_ptr(), image.len(), address, limit) };
    match checked.refusal {
        0 => Ok(checked.visits),
        number => Err(Refusal::at(number, checked.address)),
    }
}
