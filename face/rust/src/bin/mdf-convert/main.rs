//! `mdf-convert`: converts values by a conversion of an MDF 4 file, on the command line.
mod arguments;
mod converting;
mod describing;
mod inverting;
mod output;
mod printing;
mod texts;
mod units;

use arguments::{Arguments, Request, Task};
use converting::Converter;
use mdf_conversion::Refusal;
use std::ffi::{OsStr, OsString};
use std::fs::{self, FileType};
use std::io::{self, BufWriter, Write};
use std::os::unix::fs::FileTypeExt;
use std::process::ExitCode;

const HELP: &str = "\
mdf-convert: converts values by a conversion (##CC block) of an MDF 4 file

  mdf-convert IMAGE-FILE ADDRESS KIND VALUE [--limit N] [--width N] [--edition E]   converts one value
  mdf-convert IMAGE-FILE ADDRESS KIND - [--limit N] [--width N] [--edition E]       converts each line of standard input
  mdf-convert IMAGE-FILE ADDRESS [--limit N]                                        checks the conversion and shows its fields; or shows a text
  mdf-convert IMAGE-FILE ADDRESS --invert OUT-FILE [--force]                        writes the file with the inverse of a value to text behind it
  mdf-convert --help                                                                shows this text; so does -h
  mdf-convert --version                                                             shows the version

  IMAGE-FILE   the file, a regular one: it is read once, as a whole
  ADDRESS      where the conversion stands in the file, or the text: decimal, or hexadecimal after 0x
  KIND         unsigned, signed, float or text
  VALUE        a value of that kind: a whole number, decimal or hexadecimal after 0x, a signed one with - or + before it or no sign;
               a float such as 2.5, -1e3, inf or nan; or a text
  --limit N    the most conversions that the check may visit, 4096 if not given; also --limit=N
  --width N    how many bits the signal has, 1 to 64, 64 if not given; also --width=N: bit groups (type 11) see so many low bits of a whole
               number, so that -1 of a signal of 4 bits has no bit 4
  --edition E  the file's edition of MDF, 4.10 or 4.20, 4.20 if not given; also --edition=E: in 4.10 there are no bit groups, so that type 11
               leaves a value unchanged and passes nothing on
  --invert OUT-FILE
               builds the text to value (type 9) that matches the value to text (type 7) at ADDRESS and turns a text back into its key; writes
               all of IMAGE-FILE to OUT-FILE and behind it, at the next multiple of 8, the new block; also --invert=OUT-FILE
  --force      OUT-FILE is written over if it is there already; it may be IMAGE-FILE itself
  --           no option follows; a VALUE right behind it is taken as it stands, be it -h, --limit or -

A line of standard input ends with a newline, or with a carriage return and a newline: neither is part of the value.

One value gives two lines: the answer, then N and M, how many blocks were checked and applied. Standard input gives one answer a line.

  number -0.375 Nm          a number, and the unit of the block that gave it, if that has one
  text Gear = Low|PTO       a text
  unchanged                 the value stays as it is
  unknown                   the value has no counterpart
  refused 5 Deep at 1234    the number and name of a refusal, with the address that 1 to 6, 15 and 18 have, or the key that 12 to 14 have
  checked 2 applied 2       the second line: N and M

A range to text (type 8) that is applied to a number and has no, one or an odd number of values is malformed: its first reference decides, whatever
the number is. Where one was consulted, at ADDRESS or nested, the second line says so, and of many values the answer's own line, behind a tab:

  checked 2 applied 2, odd range table
  text slow\todd range table

With an address alone the fields have a line more for each padding that the block has:

  reserved bytes: 0x04030201    the four bytes behind its id, little-endian, if they are not zero
  excess: 8                     by how many bytes the block length exceeds what was read; or that it passes the end of the file

With the address of a text alone, a ##TX or ##MD block, the two lines are

  id: ##TX
  text: \"Torque\"

With --invert the one line says where the new block stands in OUT-FILE, and how many keys it has:

  text to value at 4400, keys 1

The new block has no default: a text that is no key's is unknown. With a refusal nothing is written; of the keys, counted from 0, the first that cannot
be turned around is named:

  refused 13 Repeated at key 4

A number has the fewest digits that read back the same float, and from 1e16 on and below 1e-5 an exponent: 2.305843009213694e18.

The unit is that of the conversion at ADDRESS, except where a value to text or a range to text (types 7 and 8) passes the value on to a nested
conversion: then it is that of the nested one, the last that the value was passed on to, and none if that has none. A unit or comment in a ##MD
block is XML; it is shown as it is, in quotation marks behind the letters MD.

In a text a backslash is written \\\\, a newline \\n and a tab \\t. Of any other control character, of a format character such as those that turn
the direction of writing, and of what is not UTF-8, each byte is written \\xNN.

  1 Outside         the address + 24 is beyond the file
  2 NotConversion   no ##CC block stands there
  3 Limit           a visit would exceed the limit
  4 Short           the file ends inside a ##CC block; or the length of the text's block is below 24 or passes the end of the file
  5 Deep            a block at depth 21
  6 Loop            a link back to a block on the current path
  7 Formula         applying reaches a formula with a number
  8 Room            the text has more than 268435456 bytes
  11 Width          the width is 0 or above 64; before all others
  12 NotText        --invert: the key has no text, or an empty one
  13 Repeated       --invert: the key or its text is equal to an earlier one; 0 and -0 are equal
  14 Key            --invert: the key is a NaN
  15 WrongType      --invert: the conversion is no value to text
  18 FewLinks       the block has fewer than four links; the program repair_block writes it with four

Exit status
  0  answered
  1  the answer cannot be written: standard output is closed, full or no longer read
  2  a bad argument, a file that cannot be read or written, is no regular file or is there already, or a line of standard input that is no value
  3  refused; of many values, at least one

With 1 and 2 one line on standard error says why. With 3, where the refusal is 18, one line there names the program that repairs the block.
";

const VERSION: &str = concat!("mdf-convert ", env!("CARGO_PKG_VERSION"), "\n");

const ANSWERED: u8 = 0;
const UNWRITTEN: u8 = 1;
const BAD: u8 = 2;
const REFUSED: u8 = 3;

/// Why the command stops before its answer is whole, in one line.
enum Stop {
    /// An argument, the file or a line of input is bad.
    Bad(String),
    /// Standard output cannot be written.
    Unwritten(String),
}

impl From<io::Error> for Stop {
    fn from(error: io::Error) -> Stop {
        unwritten(&error)
    }
}

fn unwritten(error: &io::Error) -> Stop {
    Stop::Unwritten(format!("standard output: {error}"))
}

// Looked at before it is opened: to open a fifo is to wait for its writer.
fn image_of(file: &OsStr) -> Result<Vec<u8>, Stop> {
    let bad = |why: String| Stop::Bad(format!("IMAGE-FILE {}{why}", printing::quoted(file.as_encoded_bytes())));
    let kind = fs::metadata(file).map_err(|error| bad(format!(": {error}")))?.file_type();
    if !kind.is_file() {
        return Err(bad(format!(" is {}, no regular file", in_words(kind))));
    }
    fs::read(file).map_err(|error| bad(format!(": {error}")))
}

fn in_words(kind: FileType) -> &'static str {
    if kind.is_dir() {
        "a directory"
    } else if kind.is_fifo() {
        "a fifo"
    } else if kind.is_socket() {
        "a socket"
    } else {
        "a device"
    }
}

// Answers the first refusal, if there is one.
fn carry_out(request: Request<'_>, out: &mut impl Write) -> Result<Option<Refusal>, Stop> {
    let image = image_of(request.image_file)?;
    let converter = || Converter::new(&image, request.address, request.limit, request.mode);
    match request.task {
        Task::Describe => describing::describe(&image, request.address, request.limit, out),
        Task::ConvertOne(value) => converter().convert_one(value, out),
        Task::ConvertLines(kind) => converter().convert_lines(kind, io::stdin(), out),
        Task::Invert(target) => inverting::invert(image, request.address, &target, out),
    }
}

fn run(words: &[OsString]) -> Result<Option<Refusal>, Stop> {
    let arguments = arguments::read(words).map_err(Stop::Bad)?;
    let mut out = BufWriter::new(output::given().as_ref().map_err(unwritten)?);
    let ended = match arguments {
        Arguments::Help => out.write_all(HELP.as_bytes()).map(|()| None).map_err(Stop::from),
        Arguments::Version => out.write_all(VERSION.as_bytes()).map(|()| None).map_err(Stop::from),
        Arguments::Request(request) => carry_out(request, &mut out),
    };
    out.flush().map_err(Stop::from).and(ended)
}

// The exit status, and on standard error the one line that says why there is no whole answer, or what repairs a block that is refused.
fn status_of(ended: Result<Option<Refusal>, Stop>) -> u8 {
    let (status, line) = match ended {
        Ok(None) => return ANSWERED,
        Ok(Some(Refusal::FewLinks(address))) => {
            (REFUSED, format!("the block at {address} has fewer than four links; the program repair_block writes it with four"))
        }
        Ok(Some(_)) => return REFUSED,
        Err(Stop::Unwritten(line)) => (UNWRITTEN, line),
        Err(Stop::Bad(line)) => (BAD, line),
    };
    // If that cannot be written either, the status still says it.
    let _ = writeln!(io::stderr(), "mdf-convert: {line}");
    status
}

fn main() -> ExitCode {
    let words: Vec<OsString> = std::env::args_os().skip(1).collect();
    ExitCode::from(status_of(run(&words)))
}
