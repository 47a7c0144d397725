//! The command `mdf-convert`, run as a user runs it.
use crate::image::Image;
use std::fs;
use std::io::Write;
use std::path::PathBuf;
use std::process::{Child, Command, Output, Stdio};
use std::sync::atomic::{AtomicU32, Ordering};

/// Where the machine cannot run what was built, the variable names a command that does.
pub const PROGRAM: &str = match option_env!("MDF_CONVERT") {
    Some(command) => command,
    None => env!("CARGO_BIN_EXE_mdf-convert"),
};
pub const SAMPLE: &str = "../../samples/tractor.mdf";

pub struct Ended {
    pub status: i32,
    pub out: String,
    pub error: String,
}

impl From<Output> for Ended {
    fn from(output: Output) -> Ended {
        Ended {
            status: output.status.code().expect("it ends by itself"),
            out: String::from_utf8(output.stdout).unwrap(),
            error: String::from_utf8(output.stderr).unwrap(),
        }
    }
}

pub fn start(words: &[&str], out: Stdio) -> Child {
    Command::new(PROGRAM).args(words).stdin(Stdio::piped()).stdout(out).stderr(Stdio::piped()).spawn().expect("the command starts")
}

pub fn run_with(words: &[&str], input: &[u8]) -> Ended {
    let mut child = start(words, Stdio::piped());
    // A command that does not read its input may have ended by now.
    let _ = child.stdin.take().unwrap().write_all(input);
    child.wait_with_output().expect("the command ends").into()
}

pub fn run(words: &[&str]) -> Ended {
    run_with(words, b"")
}

/// Words for the sample image, as a line of them.
pub fn on_sample(line: &str) -> Vec<&str> {
    std::iter::once(SAMPLE).chain(line.split_whitespace()).collect()
}

pub fn prints(line: &str, status: i32, out: &str) {
    let ended = run(&on_sample(line));
    assert_eq!((ended.status, ended.out.as_str(), ended.error.as_str()), (status, out, ""), "{line}");
}

/// One line on standard error, nothing on standard output, status 2.
pub fn complains(words: &[&str], line: &str) {
    let ended = run(words);
    assert_eq!((ended.status, ended.out.as_str(), ended.error), (2, "", format!("mdf-convert: {line}\n")), "{words:?}");
}

/// An image in a file, which is removed again.
pub struct Temporary(PathBuf);

impl Temporary {
    pub fn new(name: &str, image: &Image) -> Temporary {
        static COUNT: AtomicU32 = AtomicU32::new(0);
        let count = COUNT.fetch_add(1, Ordering::Relaxed);
        let path = std::env::temp_dir().join(format!("mdf-convert-{}-{count}-{name}.mdf", std::process::id()));
        fs::write(&path, &image.bytes).expect("the image is written");
        Temporary(path)
    }

    pub fn path(&self) -> &str {
        self.0.to_str().unwrap()
    }
}

impl Drop for Temporary {
    fn drop(&mut self) {
        let _ = fs::remove_file(&self.0);
    }
}
