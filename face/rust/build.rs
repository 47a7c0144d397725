//! Links the archive of the proved code: `libgateway.a` in the project's `target/staticlib`, or in the folder that the variable below names.
use std::env;
use std::ffi::OsString;
use std::path::{Path, PathBuf};
use std::process::exit;

const FOLDER: &str = "MDF_ARCHIVE_DIR";

fn complain(lines: &[String]) -> ! {
    lines.iter().for_each(|line| eprintln!("{line}"));
    exit(1)
}

fn of_cargo(name: &str) -> OsString {
    env::var_os(name).unwrap_or_else(|| complain(&[format!("{name} is not set: cargo runs this")]))
}

fn is_for_the_target() -> bool {
    let target = ["CARGO_CFG_TARGET_ARCH", "CARGO_CFG_TARGET_OS", "CARGO_CFG_TARGET_POINTER_WIDTH"].map(of_cargo);
    target == ["x86_64", "linux", "64"]
}

// Where cargo was started. It runs this program in the package's folder and names no other, so the process is asked that runs it; where there is no
// such answer, the variable that a shell keeps.
fn caller_folder() -> Option<PathBuf> {
    #[cfg(unix)]
    let of_process = std::fs::read_link(format!("/proc/{}/cwd", std::os::unix::process::parent_id())).ok();
    #[cfg(not(unix))]
    let of_process = None;
    of_process.or_else(|| env::var_os("PWD").map(PathBuf::from)).filter(|folder| folder.is_absolute())
}

// The archive's folder, and why it is that one.
fn folder() -> (PathBuf, String) {
    let Some(named) = env::var_os(FOLDER).filter(|named| !named.is_empty()).map(PathBuf::from) else {
        let folder = Path::new(&of_cargo("CARGO_MANIFEST_DIR")).join("../../target/staticlib");
        return (folder, format!("{FOLDER} is not set."));
    };
    if named.is_absolute() {
        return (named, format!("{FOLDER} names that folder."));
    }
    println!("cargo:rerun-if-env-changed=PWD");
    match caller_folder() {
        Some(caller) => (caller.join(&named), format!("{FOLDER} is {named:?}, counted from {}, where cargo was started.", caller.display())),
        None => complain(&[format!("{FOLDER} is {named:?}, and it cannot be told where cargo was started: name the folder from / on.")]),
    }
}

fn main() {
    if !is_for_the_target() {
        complain(&["the archive of the proved code is for x86-64 Linux".into()]);
    }
    println!("cargo:rerun-if-env-changed={FOLDER}");
    let (folder, why) = folder();
    let archive = folder.join("libgateway.a");
    println!("cargo:rerun-if-changed={}", archive.display());
    if !archive.is_file() {
        let help = format!("Run `tools/archive` in the project's root, or name the archive's folder in the variable {FOLDER}.");
        complain(&[format!("no archive at {}", archive.display()), why, help]);
    }
    println!("cargo:rustc-link-search=native={}", folder.display());
    println!("cargo:rustc-link-lib=static=gateway");
}
