//! What the command `mdf-convert` reads and where it writes: standard input, the file, standard output.
#[allow(dead_code)]
mod command_line;
#[allow(dead_code)]
mod image;

use command_line::{complains, on_sample, run_with, start, Ended, Temporary, PROGRAM, SAMPLE};
use image::Image;
use std::fs;
use std::io::{BufRead, BufReader, Write};
use std::os::unix::net::UnixListener;
use std::path::Path;
use std::process::{Child, Command, Stdio};
use std::sync::mpsc::{channel, Receiver};
use std::thread;
use std::time::Duration;

#[test]
fn many_values() {
    let groups = run_with(&on_sample("2488 unsigned -"), b"6\n0\n2");
    assert_eq!((groups.status, groups.out.as_str()), (0, "text Gear = Low|PTO\ntext PTO\ntext Gear = Low|PTO\n"));
    let faults = run_with(&on_sample("2384 text -"), b"E1\n\nE1 \n-\n");
    let rest = "text fault not known\n".repeat(3);
    assert_eq!((faults.status, faults.out), (0, format!("text oil pressure low\n{rest}")));
    let slip = run_with(&on_sample("816 float -"), b"1\n2\n");
    assert_eq!((slip.status, slip.out.as_str()), (3, "refused 7 Formula\nrefused 7 Formula\n"));
    let none = run_with(&on_sample("816 float -"), b"");
    assert_eq!((none.status, none.out.as_str(), none.error.as_str()), (0, "", ""));
    let hexadecimal = run_with(&on_sample("528 signed -"), b"+8\n-0x10\n");
    assert_eq!((hexadecimal.status, hexadecimal.out.as_str()), (0, "number 1 Nm\nnumber -2 Nm\n"));
}

#[test]
fn a_carriage_return_at_a_line_s_end_is_no_part_of_the_value() {
    let faults = run_with(&on_sample("2384 text -"), b"E1\r\nE1\nE1\r\r\n\rE1\r\nE1\r");
    let (low, other) = ("text oil pressure low\n", "text fault not known\n");
    assert_eq!((faults.status, faults.out), (0, [low, low, other, other, low].concat()));
    let torque = run_with(&on_sample("528 unsigned -"), b"8\r\n0x10\r\n");
    assert_eq!((torque.status, torque.out.as_str()), (0, "number 1 Nm\nnumber 2 Nm\n"));
    // In an argument it is as good as any other byte.
    let argument = run_with(&[SAMPLE, "2384", "text", "E1\r"], b"");
    assert_eq!(argument.out, "text fault not known\nchecked 1 applied 1\n");
}

#[test]
fn a_line_that_is_no_value_ends_the_input() {
    let ended = run_with(&on_sample("528 unsigned -"), b"8\nx\n16\n");
    let error = "mdf-convert: line 2 of standard input: \"x\" is no unsigned whole number\n";
    assert_eq!((ended.status, ended.out.as_str(), ended.error.as_str()), (2, "number 1 Nm\n", error));
}

#[test]
fn a_long_line_that_is_no_value_is_cut_in_the_message() {
    let sixty = "1234567890".repeat(6);
    for (kind, what) in [("unsigned", "unsigned whole number"), ("signed", "signed whole number"), ("float", "number")] {
        let ended = run_with(&on_sample(&format!("528 {kind} -")), format!("{sixty}{}\n", "x".repeat(4940)).as_bytes());
        let error = format!("mdf-convert: line 1 of standard input: \"{sixty}\"... (5000 bytes) is no {what}\n");
        assert_eq!((ended.status, ended.out.as_str(), ended.error), (2, "", error));
    }
    complains(&on_sample(&format!("528 unsigned {sixty}x")), &format!("VALUE \"{sixty}\"... (61 bytes) is no unsigned whole number"));
    let sixty = "é".repeat(60);
    complains(&on_sample(&format!("528 float {sixty}")), &format!("VALUE \"{sixty}\" is no number"));
    complains(&on_sample(&format!("528 float {sixty}é")), &format!("VALUE \"{sixty}\"... (122 bytes) is no number"));
    let odd = run_with(&on_sample("528 float -"), b"\x1b[2J\xe2\x80\xae\xff\t1\n");
    assert_eq!(odd.error, "mdf-convert: line 1 of standard input: \"\\x1b[2J\\xe2\\x80\\xae\\xff\\t1\" is no number\n");
}

/// The lines of the command's output, as they come.
fn lines_of(child: &mut Child) -> Receiver<String> {
    let (sender, lines) = channel();
    let out = BufReader::new(child.stdout.take().unwrap());
    thread::spawn(move || out.lines().for_each(|line| sender.send(line.unwrap()).unwrap_or_default()));
    lines
}

#[test]
fn an_answer_does_not_wait_for_the_next_value() {
    let mut child = start(&on_sample("528 unsigned -"), Stdio::piped());
    let mut input = child.stdin.take().unwrap();
    let lines = lines_of(&mut child);
    for (value, answer) in [("8\n1", "number 1 Nm"), ("6\n", "number 2 Nm")] {
        input.write_all(value.as_bytes()).unwrap();
        assert_eq!(lines.recv_timeout(Duration::from_secs(20)).as_deref(), Ok(answer));
    }
    drop(input);
    assert_eq!(child.wait().unwrap().code(), Some(0));
}

#[test]
fn a_file_that_cannot_be_read() {
    complains(&["no such file", "528", "unsigned", "1"], "IMAGE-FILE \"no such file\": No such file or directory (os error 2)");
}

/// Whether the command ends by itself within 20 seconds.
fn ends(child: &mut Child) -> bool {
    for _ in 0..400 {
        if child.try_wait().unwrap().is_some() {
            return true;
        }
        thread::sleep(Duration::from_millis(50));
    }
    child.kill().unwrap();
    false
}

#[test]
fn what_is_no_regular_file() {
    let folder = std::env::temp_dir().join(format!("mdf-convert-{}-files", std::process::id()));
    fs::create_dir(&folder).unwrap();
    let [fifo, socket, link] = ["fifo", "socket", "link"].map(|name| folder.join(name));
    assert!(Command::new("mkfifo").arg(&fifo).status().unwrap().success());
    let _listener = UnixListener::bind(&socket).unwrap();
    std::os::unix::fs::symlink(fs::canonicalize(SAMPLE).unwrap(), &link).unwrap();
    let whats = [(folder.as_path(), "a directory"), (&fifo, "a fifo"), (&socket, "a socket"), ("/dev/null".as_ref(), "a device")];
    for (path, what) in whats {
        let mut child = start(&[path.to_str().unwrap(), "528"], Stdio::piped());
        assert!(ends(&mut child), "{what} is waited for");
        let ended: Ended = child.wait_with_output().unwrap().into();
        let line = format!("mdf-convert: IMAGE-FILE \"{}\" is {what}, no regular file\n", path.display());
        assert_eq!((ended.status, ended.out.as_str(), ended.error), (2, "", line));
    }
    let linked = run_with(&[link.to_str().unwrap(), "528", "unsigned", "8"], b"");
    assert_eq!((linked.status, linked.out.as_str()), (0, "number 1 Nm\nchecked 1 applied 1\n"));
    fs::remove_dir_all(&folder).unwrap();
}

/// Runs the command under a shell that redirects it.
fn redirected(words: &str, redirection: &str) -> Ended {
    let line = format!("exec \"$0\" {words} {redirection}");
    Command::new("sh").args(["-c", &line, PROGRAM]).stdin(Stdio::null()).output().unwrap().into()
}

/// Each output has an error of its own. Without an error output to say it there is still the status.
fn cannot_be_written(redirection: &str, why: &str) {
    for words in [&format!("{SAMPLE} 528 unsigned 8"), &format!("{SAMPLE} 528"), &format!("{SAMPLE} 3424 unsigned 1"), "--help", "--version"] {
        let ended = redirected(words, redirection);
        let error = format!("mdf-convert: standard output: {why}\n");
        assert_eq!((ended.status, ended.out.as_str(), ended.error), (1, "", error), "{words} {redirection}");
        assert_eq!(redirected(words, &format!("{redirection} 2>&-")).status, 1);
    }
    assert_eq!(redirected(&format!("{SAMPLE} 528 unsigned x"), redirection).status, 2);
}

#[test]
fn an_output_that_is_closed_is_status_1() {
    for redirection in [">&-", "1</dev/null", "<&- >&-"] {
        cannot_be_written(redirection, "Bad file descriptor (os error 9)");
    }
    // One that is thrown away is not closed, whichever way it was opened.
    for redirection in [">/dev/null", "1<>/dev/null"] {
        let ended = redirected(&format!("{SAMPLE} 528 unsigned 8"), redirection);
        assert_eq!((ended.status, ended.error.as_str()), (0, ""));
    }
}

#[test]
fn an_output_that_is_full_is_status_1() {
    if !Path::new("/dev/full").exists() {
        return;
    }
    cannot_be_written(">/dev/full", "No space left on device (os error 28)");
    for (words, redirection, status) in [("528 unsigned 8", ">&- 2>/dev/full", 1), ("528 unsigned x", "2>/dev/full", 2)] {
        assert_eq!(redirected(&format!("{SAMPLE} {words}"), redirection).status, status);
    }
}

#[test]
fn an_output_that_is_no_longer_read_is_status_1() {
    let mut child = start(&on_sample("528 unsigned -"), Stdio::piped());
    drop(child.stdout.take());
    child.stdin.take().unwrap().write_all(b"8\n").unwrap();
    let ended: Ended = child.wait_with_output().unwrap().into();
    assert_eq!((ended.status, ended.error.as_str()), (1, "mdf-convert: standard output: Broken pipe (os error 32)\n"));
}

#[test]
fn a_line_that_cannot_be_written_leaves_the_status() {
    let mut image = Image::new();
    let few = image.block(1, &[], &[]);
    image.set_link_count(few, 3);
    let file = Temporary::new("few", &image);
    let words = format!("'{}' {few} unsigned 1", file.path());
    assert_eq!(redirected(&words, "2>&-").status, 3);
    // Without an answer only that is said.
    let ended = redirected(&words, ">&-");
    assert_eq!((ended.status, ended.error.as_str()), (1, "mdf-convert: standard output: Bad file descriptor (os error 9)\n"));
}
