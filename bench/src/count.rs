// Instructions, counted by callgrind: the benchmark runs itself under valgrind with two numbers of calls, so that what is not a call cancels out.
use std::env;
use std::process::{Command, Stdio};

/// Whether valgrind is at hand.
pub fn possible() -> bool {
    let version = Command::new("valgrind").arg("--version").stdout(Stdio::null()).stderr(Stdio::null()).status();
    version.is_ok_and(|status| status.success())
}

/// Instructions of the whole of `bench only WORDS CALLS`.
fn whole(words: &[&str], calls: usize) -> Option<u64> {
    let mut valgrind = Command::new("valgrind");
    valgrind.args(["--tool=callgrind", "--callgrind-out-file=/dev/null"]).arg(env::current_exe().ok()?);
    let ran = valgrind.arg("only").args(words).arg(calls.to_string()).output().ok()?;
    let told = String::from_utf8_lossy(&ran.stderr).into_owned();
    let line = told.lines().find(|l| l.contains("Collected :"))?;
    line.split_whitespace().last()?.parse().ok()
}

/// Instructions a call of `bench only WORDS`, from two numbers of calls.
pub fn a_call(words: &[&str], few: usize, many: usize) -> Option<f64> {
    let (few_cost, many_cost) = (whole(words, few)?, whole(words, many)?);
    Some(many_cost.saturating_sub(few_cost) as f64 / (many - few) as f64)
}
