//! Standard output, as it was handed to the command.
use std::fs::File;
use std::io;
use std::os::fd::AsFd;
use std::sync::OnceLock;

static GIVEN: OnceLock<io::Result<File>> = OnceLock::new();

// Before `main` runs, the standard library opens /dev/null in place of a standard output that is closed, and answers would vanish. So it is taken
// hold of before that, by a function that the loader runs.
#[used]
#[link_section = ".init_array"]
static BEFORE_MAIN: extern "C" fn() = take_hold;

extern "C" fn take_hold() {
    let _ = given();
}

/// Standard output, or why there is none. A file, since the library's own handle takes a write that fails for one that did not.
pub fn given() -> &'static io::Result<File> {
    GIVEN.get_or_init(|| io::stdout().as_fd().try_clone_to_owned().map(File::from))
}
