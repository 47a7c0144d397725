//! `mdf-convert FILE ADDRESS --invert OUT-FILE`: the file that is written, and when none is.
#[allow(dead_code)]
mod command_line;
#[allow(dead_code)]
mod image;

use command_line::{complains, on_sample, run, Ended, Temporary, PROGRAM, SAMPLE};
use image::Image;
use mdf_conversion::ConversionBlock;
use std::fs;
use std::os::unix::fs::symlink;
use std::os::unix::net::UnixListener;
use std::path::{Path, PathBuf};
use std::process::{Command, Stdio};
use std::sync::atomic::{AtomicU32, Ordering};

/// A folder for the files that are written, which is removed again.
struct Folder(PathBuf);

impl Folder {
    fn new() -> Folder {
        static COUNT: AtomicU32 = AtomicU32::new(0);
        let count = COUNT.fetch_add(1, Ordering::Relaxed);
        let folder = std::env::temp_dir().join(format!("mdf-convert-{}-inverted-{count}", std::process::id()));
        fs::create_dir(&folder).unwrap();
        Folder(folder)
    }

    fn file(&self, name: &str) -> String {
        self.0.join(name).to_str().unwrap().into()
    }

    fn names(&self) -> Vec<String> {
        let mut names: Vec<String> = fs::read_dir(&self.0).unwrap().map(|entry| entry.unwrap().file_name().into_string().unwrap()).collect();
        names.sort();
        names
    }
}

impl Drop for Folder {
    fn drop(&mut self) {
        let _ = fs::remove_dir_all(&self.0);
    }
}

fn sample() -> Vec<u8> {
    fs::read(SAMPLE).unwrap()
}

/// The image with the inverse of the block at an address behind it, at the next multiple of 8.
fn with_inverse(image: &[u8], address: u64) -> Vec<u8> {
    let mut block = vec![0; 1 << 16];
    let length = ConversionBlock::invert(image, address, &mut block).unwrap();
    let mut bytes = image.to_vec();
    bytes.resize(image.len().next_multiple_of(8), 0);
    bytes.extend(&block[..length]);
    bytes
}

/// Words for the conversion at 1664 of the sample image, Gear.
fn on_gear<'a>(words: &[&'a str]) -> Vec<&'a str> {
    [&[SAMPLE, "1664"], words].concat()
}

fn answers(words: &[&str], line: &str) {
    let ended = run(words);
    assert_eq!((ended.status, ended.out, ended.error.as_str()), (0, format!("{line}\n"), ""), "{words:?}");
}

#[test]
fn a_gear_name_is_asked_back() {
    let folder = Folder::new();
    let (a, b) = (folder.file("a"), folder.file("b"));
    for (words, file) in [(vec!["--invert", &a], &a), (vec![&*format!("--invert={b}")], &b)] {
        answers(&on_gear(&words), "text to value at 4400, keys 1");
        assert_eq!(fs::read(file).unwrap(), with_inverse(&sample(), 1664));
        answers(&[file, "4400", "text", "Low"], "number 2\nchecked 1 applied 1");
        answers(&[file, "4400", "text", "High"], "unknown\nchecked 1 applied 1");
        answers(&[file, "2488", "unsigned", "6"], "text Gear = Low|PTO\nchecked 2 applied 2");
    }
    // The option may stand before the places, and the address be hexadecimal.
    let file = folder.file("c");
    answers(&["--invert", &file, SAMPLE, "0x680"], "text to value at 4400, keys 1");
    assert_eq!(fs::read(&file).unwrap(), with_inverse(&sample(), 1664));
}

#[test]
fn many_keys_and_none() {
    let mut image = Image::new();
    let refs: Vec<u64> = (0..300).map(|i| image.text(format!("gear {i}").as_bytes())).collect();
    let values: Vec<f64> = (0..300).map(|i| f64::from(i) - 0.5).collect();
    for keys in [0, 1, 2, 300] {
        let block = image.block(7, &refs, &values[..keys]);
        let (input, folder) = (Temporary::new("keys", &image), Folder::new());
        let place = image.bytes.len();
        answers(&[input.path(), &block.to_string(), "--invert", &folder.file("out")], &format!("text to value at {place}, keys {keys}"));
        assert_eq!(fs::read(folder.file("out")).unwrap(), with_inverse(&image.bytes, block));
        for i in (0..keys).step_by(37) {
            let printed = format!("number {}\nchecked 1 applied 1", values[i]);
            answers(&[&folder.file("out"), &place.to_string(), "text", &format!("gear {i}")], &printed);
        }
        answers(&[&folder.file("out"), &place.to_string(), "text", &format!("gear {keys}")], "unknown\nchecked 1 applied 1");
    }
}

/// A block stands at a multiple of 8, however long the file is.
#[test]
fn a_file_of_any_length() {
    for more in 0..=16 {
        let mut image = Image::new();
        let text = image.text(b"Low");
        let block = image.block(7, &[text], &[2.0]);
        image.bytes.extend(vec![0xff; more]);
        let (input, folder) = (Temporary::new("length", &image), Folder::new());
        let place = image.bytes.len().div_ceil(8) * 8;
        answers(&[input.path(), &block.to_string(), "--invert", &folder.file("out")], &format!("text to value at {place}, keys 1"));
        let written = fs::read(folder.file("out")).unwrap();
        assert_eq!(written[..image.bytes.len()], image.bytes);
        assert!(written[image.bytes.len()..place].iter().all(|byte| *byte == 0));
        assert_eq!((written.len(), &written[place..place + 4]), (place + 80, b"##CC".as_slice()));
        answers(&[&folder.file("out"), &place.to_string(), "text", "Low"], "number 2\nchecked 1 applied 1");
    }
    // What the zeros up to there would make whole is refused all the same.
    let mut image = Image::new();
    let cut = image.bytes.len() as u64 + 80;
    let block = image.block(7, &[cut], &[2.0]);
    image.text(b"Low");
    image.bytes.pop();
    refuses(&image, block, "refused 12 NotText at key 0", "");
}

/// Status 3, the refusal, and no file, nor a change of one that is there, though it is forced.
fn refuses(image: &Image, address: u64, line: &str, error: &str) {
    let (input, folder) = (Temporary::new("refused", image), Folder::new());
    fs::write(folder.file("old"), "old").unwrap();
    for (out_file, force) in [("new", None), ("new", Some("--force")), ("old", None), ("old", Some("--force"))] {
        let (address, out_file) = (address.to_string(), folder.file(out_file));
        let words: Vec<&str> = [input.path(), &address, "--invert", &out_file].into_iter().chain(force).collect();
        let ended = run(&words);
        assert_eq!((ended.status, ended.out, ended.error.as_str()), (3, format!("{line}\n"), error));
    }
    assert_eq!((folder.names(), fs::read(folder.file("old")).unwrap()), (vec!["old".into()], b"old".to_vec()));
    assert_eq!(fs::read(input.path()).unwrap(), image.bytes);
}

#[test]
fn refusals() {
    let image = Image { bytes: sample() };
    refuses(&image, 4400, "refused 1 Outside at 4400", "");
    refuses(&image, 64, "refused 2 NotConversion at 64", "");
    refuses(&image, 2856, "refused 4 Short at 2856", "");
    refuses(&image, 3424, "refused 12 NotText at key 0", "");
    refuses(&image, 528, "refused 15 WrongType at 528", "");
    let mut image = Image::new();
    let [low, again, high] = [b"Low".as_slice(), b"Low", b"High"].map(|text| image.text(text));
    let block = image.block(7, &[low, high, again], &[0.0, 1.0, 2.0]);
    refuses(&image, block, "refused 13 Repeated at key 2", "");
    let block = image.block(7, &[low, high], &[0.0, -0.0]);
    refuses(&image, block, "refused 13 Repeated at key 1", "");
    let block = image.block(7, &[low, high], &[0.0, f64::NAN]);
    refuses(&image, block, "refused 14 Key at key 1", "");
    image.set_link_count(block, 3);
    let repair = format!("mdf-convert: the block at {block} has fewer than four links; the program repair_block writes it with four\n");
    refuses(&image, block, &format!("refused 18 FewLinks at {block}"), &repair);
}

#[test]
fn a_file_that_is_there_already() {
    let folder = Folder::new();
    let [old, link, nowhere] = ["old", "link", "nowhere"].map(|name| folder.file(name));
    fs::write(&old, "old").unwrap();
    symlink("old", &link).unwrap();
    symlink("not there", &nowhere).unwrap();
    let input = Temporary::new("itself", &Image { bytes: sample() });
    for file in [&*old, &*link, &*nowhere, input.path(), "/dev/null", folder.0.to_str().unwrap()] {
        complains(&[input.path(), "1664", "--invert", file], &format!("OUT-FILE \"{file}\" is there already; --force writes over it"));
    }
    assert_eq!((fs::read(&old).unwrap(), fs::read(input.path()).unwrap()), (b"old".to_vec(), sample()));
    assert_eq!(folder.names(), ["link", "nowhere", "old"]);
}

#[test]
fn a_file_that_is_forced() {
    let folder = Folder::new();
    let (old, link) = (folder.file("old"), folder.file("link"));
    symlink("old", &link).unwrap();
    let wanted = with_inverse(&sample(), 1664);
    // A new one, a shorter one, one of the same length, a longer one, and one that a link leads to.
    for (before, out_file) in [(None, &old), (Some(3), &old), (Some(4480), &old), (Some(9999), &old), (Some(9999), &link)] {
        let _ = fs::remove_file(&old);
        if let Some(length) = before {
            fs::write(&old, vec![0xff; length]).unwrap();
        }
        answers(&on_gear(&["--invert", out_file, "--force"]), "text to value at 4400, keys 1");
        assert_eq!(fs::read(&old).unwrap(), wanted);
    }
    assert!(fs::symlink_metadata(&link).unwrap().is_symlink());
}

/// Forced over itself, twice: the second block stands behind the first.
#[test]
fn a_file_that_is_forced_over_itself() {
    let input = Temporary::new("itself", &Image { bytes: sample() });
    answers(&["--force", input.path(), "1664", "--invert", input.path()], "text to value at 4400, keys 1");
    let once = with_inverse(&sample(), 1664);
    assert_eq!(fs::read(input.path()).unwrap(), once);
    answers(&["--force", input.path(), "4048", "--invert", input.path()], "text to value at 4480, keys 1");
    assert_eq!(fs::read(input.path()).unwrap(), with_inverse(&once, 4048));
    answers(&[input.path(), "4480", "text", "floating"], "number 3\nchecked 1 applied 1");
    answers(&[input.path(), "4400", "text", "Low"], "number 2\nchecked 1 applied 1");
}

#[test]
fn what_is_no_regular_file() {
    let folder = Folder::new();
    let [fifo, socket, nowhere] = ["fifo", "socket", "nowhere"].map(|name| folder.file(name));
    assert!(Command::new("mkfifo").arg(&fifo).status().unwrap().success());
    let _listener = UnixListener::bind(&socket).unwrap();
    symlink("not there", &nowhere).unwrap();
    let whats = [(folder.0.to_str().unwrap(), "a directory"), (&fifo, "a fifo"), (&socket, "a socket"), ("/dev/null", "a device")];
    for (file, what) in whats {
        complains(&on_gear(&["--force", "--invert", file]), &format!("OUT-FILE \"{file}\" is {what}, no regular file"));
    }
    let (not_there, no_folder) = ("No such file or directory (os error 2)", "Not a directory (os error 20)");
    complains(&on_gear(&["--force", "--invert", &nowhere]), &format!("OUT-FILE \"{nowhere}\": {not_there}"));
    for (name, why) in [("no such folder/out", not_there), ("fifo/out", no_folder)] {
        let file = folder.file(name);
        complains(&on_gear(&["--invert", &file]), &format!("OUT-FILE \"{file}\": {why}"));
        complains(&on_gear(&["--invert", &file, "--force"]), &format!("OUT-FILE \"{file}\": {why}"));
    }
    assert_eq!(folder.names(), ["fifo", "nowhere", "socket"]);
}

/// Runs the command where no file may grow beyond some hundred bytes, and a write that would is refused.
fn within_bounds(words: &[&str]) -> Ended {
    let line = "trap '' XFSZ; ulimit -f 1; exec \"$0\" \"$@\"";
    Command::new("sh").args(["-c", line, PROGRAM]).args(words).stdin(Stdio::null()).output().unwrap().into()
}

#[test]
fn a_write_that_fails() {
    let (folder, input) = (Folder::new(), Temporary::new("full", &Image { bytes: sample() }));
    let new = folder.file("new");
    let complaint = |file: &str| format!("mdf-convert: OUT-FILE \"{file}\": File too large (os error 27)\n");
    for force in [None, Some("--force")] {
        let words: Vec<&str> = [input.path(), "1664", "--invert", &new].into_iter().chain(force).collect();
        let ended = within_bounds(&words);
        assert_eq!((ended.status, ended.out.as_str(), ended.error), (2, "", complaint(&new)));
        // No half of a file stays.
        assert!(!Path::new(&new).exists());
    }
    // One that is forced over itself is as it was: of its own bytes none is another.
    let ended = within_bounds(&[input.path(), "1664", "--force", "--invert", input.path()]);
    assert_eq!((ended.status, ended.out.as_str(), ended.error), (2, "", complaint(input.path())));
    assert_eq!(fs::read(input.path()).unwrap(), sample());
}

/// Without a place for the answer nothing is written.
#[test]
fn an_output_that_is_closed() {
    let folder = Folder::new();
    let line = format!("exec \"$0\" {SAMPLE} 1664 --invert '{}' >&-", folder.file("out"));
    let ended: Ended = Command::new("sh").args(["-c", &line, PROGRAM]).stdin(Stdio::null()).output().unwrap().into();
    assert_eq!((ended.status, ended.error.as_str()), (1, "mdf-convert: standard output: Bad file descriptor (os error 9)\n"));
    assert_eq!(folder.names(), Vec::<String>::new());
}

#[test]
fn what_it_goes_with() {
    let folder = Folder::new();
    let out = folder.file("out");
    for (words, line) in [
        ("unsigned 2", "--invert does not go with a KIND and a VALUE"),
        ("text Low --width 4", "--invert does not go with a KIND and a VALUE"),
        ("unsigned -", "--invert does not go with a KIND and a VALUE"),
        ("unsigned", "VALUE is missing: a value, or - for standard input"),
        ("gear", "KIND \"gear\" is not unsigned, signed, float or text"),
        ("--width 4", "--width goes with a KIND and a VALUE"),
        ("--edition=4.10", "--edition goes with a KIND and a VALUE"),
        ("--limit 4096", "--limit does not go with --invert, which checks nothing"),
        ("--limit=1 --force", "--limit does not go with --invert, which checks nothing"),
        ("--force=yes", "\"--force=yes\" is no option"),
        ("--inverts=x", "\"--inverts=x\" is no option"),
    ] {
        let (words, with_file): (Vec<&str>, _) = (words.split_whitespace().collect(), format!("--invert={out}"));
        complains(&on_gear(&[&["--invert", &out], &words[..]].concat()), line);
        complains(&on_gear(&[&words[..], &[&with_file]].concat()), line);
    }
    complains(&["--invert", &out], "IMAGE-FILE is missing; mdf-convert --help shows the arguments");
    complains(&["--invert", &out, SAMPLE], "ADDRESS is missing");
    for words in ["528 --force", "528 signed -3 --force", "--force 2384 text E1"] {
        complains(&on_sample(words), "--force goes with --invert");
    }
    assert_eq!(folder.names(), Vec::<String>::new());
}

#[test]
fn an_out_file_that_is_none() {
    for words in [vec!["--invert"], vec!["--invert", ""], vec!["--invert="], vec!["--invert", "--force"], vec!["--invert", "--", "x"]] {
        complains(&on_gear(&words), "--invert needs an OUT-FILE");
    }
    assert!(!Path::new("--force").exists());
    // Behind an equals sign any name is one, and so is one that begins with a single dash. Of two the last is taken, as of any option.
    let folder = Folder::new();
    let named = |words: &[&str]| -> Ended {
        let sample = fs::canonicalize(SAMPLE).unwrap();
        Command::new(PROGRAM).arg(sample).arg("1664").args(words).current_dir(&folder.0).stdin(Stdio::null()).output().unwrap().into()
    };
    for words in [["--invert=--force"].as_slice(), &["--invert", "-"], &["--invert", "-x"], &["--invert=a", "--invert", "b"], &["--invert=c=d"]] {
        let ended = named(words);
        assert_eq!((ended.status, ended.out.as_str(), ended.error.as_str()), (0, "text to value at 4400, keys 1\n", ""), "{words:?}");
    }
    assert_eq!(folder.names(), ["-", "--force", "-x", "b", "c=d"]);
}

/// A file's name may be any bytes but zero, and is one line in a message.
#[test]
fn a_name_that_is_not_utf_8() {
    use std::os::unix::ffi::OsStrExt;
    let folder = Folder::new();
    let name = folder.0.join(std::ffi::OsStr::from_bytes(b"a\xff\nb"));
    let invert = |option: &[u8], last: &[&Path]| -> Ended {
        Command::new(PROGRAM).args([SAMPLE, "1664"]).arg(std::ffi::OsStr::from_bytes(option)).args(last).stdin(Stdio::null()).output().unwrap().into()
    };
    assert_eq!(invert(b"--invert", &[&name]).status, 0);
    assert_eq!(fs::read(&name).unwrap(), with_inverse(&sample(), 1664));
    let given = [b"--invert=".as_slice(), name.as_os_str().as_bytes()].concat();
    for ended in [invert(&given, &[]), invert(b"--invert", &[&name])] {
        let line = format!("mdf-convert: OUT-FILE \"{}/a\\xff\\nb\" is there already; --force writes over it\n", folder.0.display());
        assert_eq!((ended.status, ended.out.as_str(), ended.error), (2, "", line));
    }
}

#[test]
fn help_says_it() {
    let help = run(&["-h"]).out;
    for words in [
        "\n  mdf-convert IMAGE-FILE ADDRESS --invert OUT-FILE [--force]  ",
        "\n  --invert OUT-FILE\n",
        "also --invert=OUT-FILE",
        "\n  --force      OUT-FILE is written over if it is there already",
        "\n  text to value at 4400, keys 1\n",
        "\n  refused 13 Repeated at key 4\n",
        "\n  12 NotText  ",
        "\n  13 Repeated  ",
        "\n  14 Key  ",
        "\n  15 WrongType  ",
    ] {
        assert!(help.contains(words), "{words}");
    }
}
