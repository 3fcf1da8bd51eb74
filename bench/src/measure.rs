//! Measuring: samples of both sides in turn, or one go of one side for an instruction counter.

use crate::costs::costs;
use crate::lines::{Line, Side, lines};
use std::process::{Command, ExitCode};
use std::time::{Duration, Instant};
use std::{env, io};

const USAGE: &str = "\
bench times [WORDS]           the lines whose names have these words, or all: medians and ratios with quartiles
bench instructions [WORDS]    the same, counted by valgrind over one go of each side
bench once port|other NAME    one go of one side
bench costs [WORDS]           what costs most, each once, by the port alone: seconds
";

/// All lines are measured in so many rounds, some minutes apart, and their samples taken together.
const ROUNDS: usize = 3;

/// A sample is at least this long. In a round a line has at most so many, and ends at this time if it has a few.
const SAMPLE: Duration = Duration::from_millis(2);
const SAMPLES: usize = 51;
const LINE: Duration = Duration::from_secs(3);
const FEW: usize = 3;

pub fn main() -> ExitCode {
    let words: Vec<String> = env::args().skip(1).collect();
    let words: Vec<&str> = words.iter().map(String::as_str).collect();
    let chosen = |words: &[&str]| lines().into_iter().filter(|line| words.iter().all(|word| line.name.contains(word))).collect::<Vec<_>>();
    match words.as_slice() {
        ["times", words @ ..] => times(chosen(words)),
        ["instructions", words @ ..] => instructions(chosen(words)).unwrap(),
        ["once", side, name] => once(side, name),
        ["costs", words @ ..] => dear(words),
        _ => {
            eprint!("{USAGE}");
            return ExitCode::from(2);
        }
    }
    ExitCode::SUCCESS
}

fn times(lines: Vec<Line>) {
    let mut taken = vec![vec![]; lines.len()];
    for _ in 0..ROUNDS {
        for (line, taken) in lines.iter().zip(&mut taken) {
            let (mut port, mut other) = (line.sides)();
            taken.extend(samples(&mut port, other.as_mut()));
        }
    }
    println!("| line | port | against | takes | ratio | quartiles | samples |\n|---|---|---|---|---|---|---|");
    for (Line { name, against, .. }, taken) in lines.iter().zip(&taken) {
        let [port, takes] = [quartile(taken, 2, |pair| pair.0), quartile(taken, 2, |pair| pair.1)].map(time);
        let [low, middle, high] = [1, 2, 3].map(|which| ratio(quartile(taken, which, |pair| pair.1 / pair.0)));
        match taken[0].1 {
            0.0 => println!("| {name} | {port} | | | | | {} |", taken.len()),
            _ => println!("| {name} | {port} | {against} | {takes} | {middle} | {low} to {high} | {} |", taken.len()),
        }
    }
}

/// One go of each of what costs most, made ready before it is measured.
fn dear(words: &[&str]) {
    println!("| line | seconds |\n|---|---|");
    for (name, made_ready) in costs().into_iter().filter(|(name, _)| words.iter().all(|word| name.contains(word))) {
        println!("| {name} | {:.3} |", seconds(&mut made_ready(), 1));
    }
}

/// Seconds for one go of each side, in turn.
fn samples(port: &mut Side, mut other: Option<&mut Side>) -> Vec<(f64, f64)> {
    let goes = goes(port);
    let others = other.as_mut().map_or(1, |side| self::goes(side));
    let start = Instant::now();
    let mut taken = vec![];
    while taken.len() < SAMPLES && (taken.len() < FEW || start.elapsed() < LINE) {
        taken.push((seconds(port, goes), other.as_mut().map_or(0.0, |side| seconds(side, others))));
    }
    taken
}

/// How many goes fill a sample.
fn goes(side: &mut Side) -> u32 {
    let mut goes = 1;
    while seconds(side, goes) * f64::from(goes) < SAMPLE.as_secs_f64() {
        goes *= 2;
    }
    goes
}

fn seconds(side: &mut Side, goes: u32) -> f64 {
    let start = processor_time();
    (0..goes).for_each(|_| side());
    (processor_time() - start) / f64::from(goes)
}

/// Seconds that this thread has had a processor, so that others on the machine count little.
fn processor_time() -> f64 {
    #[repr(C)]
    struct Time {
        seconds: i64,
        nanoseconds: i64,
    }
    unsafe extern "C" {
        fn clock_gettime(clock: i32, time: *mut Time) -> i32;
    }
    const OF_THE_THREAD: i32 = 3;
    let mut time = Time { seconds: 0, nanoseconds: 0 };
    let failed = unsafe { clock_gettime(OF_THE_THREAD, &mut time) };
    assert_eq!(failed, 0);
    time.seconds as f64 + time.nanoseconds as f64 * 1e-9
}

/// The first, second (the median) or third quartile.
fn quartile(taken: &[(f64, f64)], which: usize, of: impl Fn(&(f64, f64)) -> f64) -> f64 {
    let mut values: Vec<f64> = taken.iter().map(of).collect();
    values.sort_by(f64::total_cmp);
    values[(values.len() - 1) * which / 4]
}

fn time(seconds: f64) -> String {
    match seconds {
        ..1e-4 => format!("{:.1} us", seconds * 1e6),
        ..1e-3 => format!("{:.0} us", seconds * 1e6),
        ..0.1 => format!("{:.1} ms", seconds * 1e3),
        _ => format!("{:.0} ms", seconds * 1e3),
    }
}

fn ratio(ratio: f64) -> String {
    if ratio < 10.0 { format!("{ratio:.2}") } else { format!("{ratio:.0}") }
}

/// What valgrind counts, by its name.
#[unsafe(no_mangle)]
#[inline(never)]
pub extern "C" fn measured(side: &mut Side) {
    side();
}

fn once(which: &str, name: &str) {
    let line = lines().into_iter().find(|line| line.name == name).expect("a line of that name");
    let (port, other) = (line.sides)();
    let side = if which == "port" { Some(port) } else { other };
    side.into_iter().for_each(|mut side| measured(&mut side));
}

fn instructions(lines: Vec<Line>) -> io::Result<()> {
    println!("| line | port | against | takes | ratio |\n|---|---|---|---|---|");
    for Line { name, against, .. } in lines.into_iter().filter(|line| line.against == "the Rust") {
        let (port, other) = (counted("port", &name)?, counted("other", &name)?);
        println!("| {name} | {port} | {against} | {other} | {} |", ratio(other as f64 / port as f64));
    }
    Ok(())
}

/// Instructions of one go, counted by callgrind.
fn counted(side: &str, name: &str) -> io::Result<u64> {
    let mut valgrind = Command::new("valgrind");
    valgrind.args(["--tool=callgrind", "--toggle-collect=measured", "--callgrind-out-file=/dev/null"]);
    // Else a block that one instruction clears or copies counts as one for each byte.
    valgrind.env("GLIBC_TUNABLES", "glibc.cpu.x86_rep_stosb_threshold=100000000:glibc.cpu.x86_rep_movsb_threshold=100000000");
    let said = valgrind.arg(env::current_exe()?).args(["once", side, name]).output()?;
    let said = String::from_utf8_lossy(&said.stderr).into_owned();
    let count = said.lines().find_map(|line| line.split_once("Collected : ")?.1.trim().parse().ok());
    count.ok_or_else(|| io::Error::other(said))
}
