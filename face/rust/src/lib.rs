//! MDF 4 conversion blocks (##CC): checked, applied to values, parsed and written, and value to text turned into text to value; text blocks (##TX and
//! ##MD): read and written.
//!
//! Every call works on an image that is lent to it: the bytes of an MDF 4 file, or any bytes at all. An address is a place in the image, counted
//! from 0. No image, address, value or length makes a call misbehave or run on: a call answers, or it refuses with a number ([`Refusal`]).
//!
//! The work is done by an archive of proved code. This crate hands it slices and turns its answers into Rust's types: of the image it reads nothing
//! by itself, nor does its command `mdf-convert`. It has no dependencies, needs no standard library and no heap, and keeps nothing between calls.
//!
//! ```
//! use mdf_conversion::{apply, Answer, Refusal, Value};
//!
//! let image = std::fs::read("../../samples/tractor.mdf").unwrap();
//! let mut out = [0; 64];
//!
//! // Torque, a linear conversion, stands at 528.
//! let torque = apply(&image, 528, 4096, Value::from(-3i64), &mut out)?;
//! assert_eq!(torque.answer, Answer::Number(-0.375));
//!
//! // Transmission, bit groups, stands at 2488.
//! let transmission = apply(&image, 2488, 4096, Value::from(6u64), &mut out)?;
//! assert_eq!(transmission.text(&out), Some(b"Gear = Low|PTO".as_slice()));
//! # Ok::<(), Refusal>(())
//! ```
//!
//! [`apply_in`] is also told the [`Mode`]: how many bits the signal has, and the file's [`Edition`], 4.10 or 4.20. Bit groups depend on both.
//!
//! [`ConversionBlock::parse_kept`] also reads the padding of a block, so that the block can be written as long as it was.
//!
//! [`TextBlock`] reads and writes the texts that links lead to, such as the name of a conversion.
//!
//! [`ConversionBlock::invert`] builds from a value to text the conversion that turns a text back into its value.
//!
//! A call computes in the float environment that a program starts with: results round to nearest, and no subnormal number is flushed to zero. In a
//! program that has changed it, an answer can be another.
//!
//! # What a call can cost
//!
//! With S the bytes of the image, N the visits of the check, at most the limit, B the bytes of the largest block visited, and R the length of `out`,
//! [`check`] takes at most a constant times N * B, and [`apply`] and [`apply_in`] S + N * (B + R), for a text of Q bytes Q + r * (Q + 1) more, r being
//! the references of the block at the address. [`translate`] takes what the check and the keys take, and reads the text that it shows once. How long a
//! text is that is not needed plays no part, nor how many references lead to it. A reference that is the same as the last nested one of its block is
//! counted by the check and not walked again. [`ConversionBlock::parse`] and [`parse_kept`](ConversionBlock::parse_kept) take a constant, however
//! large the block and its excess; [`write`](ConversionBlock::write) takes what it writes. [`TextBlock::read`] looks once at each byte of the text,
//! up to its first zero byte, and [`TextBlock::write`] takes the text's bytes twice, and what it writes. [`ConversionBlock::invert`] of n keys takes at
//! most n * n / 2 comparisons of keys and as many short steps for the texts; for each 255 keys it runs through each text at most once; and it writes 16
//! bytes a key. There are at most 65,535 keys, and it never takes n * n times the length of a text, however alike the texts are.
//!
//! So the limit and the length of `out` are the caller's brake. Choose a limit well above the nested blocks that one conversion is expected to have:
//! 4096 is generous. Choose `out` as long as the longest text that can be shown: a longer one is [`Refusal::Room`] at no more cost. A call takes at
//! most 8,936 bytes of stack, and no heap.
#![no_std]
#![warn(missing_docs)]

// The archive has machine code, and the layouts in `raw` are those of this target alone. The build script says so, too, before it looks for the
// archive.
#[cfg(not(all(target_arch = "x86_64", target_os = "linux", target_pointer_width = "64")))]
compile_error!("the archive of the proved code is for x86-64 Linux");

#[cfg(test)]
extern crate std;

mod applying;
mod block;
mod checking;
mod mode;
mod raw;
mod refusal;
mod text;
mod types;

pub use applying::{apply, apply_in, translate, Answer, Applied, Value};
pub use block::{ConversionBlock, PhysicalRange};
pub use checking::check;
pub use mode::{Edition, Mode};
pub use refusal::{Refusal, Stopped, Visits};
pub use text::{TextBlock, TextId};
pub use types::{ConversionType, UnknownType};
