//! Plays damaged traces through the programs `player` and `replay`, and compares what they write with the host's own reading of the same bytes and
//! its calls through the library; a tenth of the traces is whole, and so is one of more than a megabyte. A difference, another exit status than 0, a
//! word on standard error or a play without end is printed with its trace, and the exit status is 1.
//!
//!     cargo run --release --offline --bin damaged -- [TRACES [PLAYER [REPLAY]]]

use std::fmt;
use std::io::{Read, Write};
use std::path::{Path, PathBuf};
use std::process::{Child, Command, ExitCode, Stdio};
use std::sync::Mutex;
use std::sync::atomic::{AtomicBool, AtomicU64, Ordering};
use std::thread;
use std::time::{Duration, Instant};

use committer::record::{bench_calls, calls};
use runs::notation::hex;
use runs::play::{brief, full};
use runs::random::Random;
use runs::traces::{damaged_bytes, long, short};

const SEED: u64 = 5;
const TRACES: u64 = 100_000;
/// Every so many traces are whole.
const WHOLE: u64 = 10;
/// A play may take so long.
const LIMIT: Duration = Duration::from_secs(20);
/// Of the long trace.
const LONG_BYTES: usize = 1_100_000;
const BIN: &str = concat!(env!("CARGO_MANIFEST_DIR"), "/../target/bin");

fn main() -> ExitCode {
    let args: Vec<String> = std::env::args().skip(1).collect();
    let path = |n: usize, name: &str| args.get(n).map_or_else(|| Path::new(BIN).join(name), PathBuf::from);
    let programs = Programs { player: path(1, "player"), replay: path(2, "replay") };
    let Ok(traces) = args.first().map_or(Ok(TRACES), |text| text.parse()) else {
        eprintln!("usage: damaged [TRACES [PLAYER [REPLAY]]]; {TRACES} traces if left out");
        return ExitCode::from(2);
    };
    let begun = Instant::now();
    match played(&programs, traces) {
        Ok(counts) => {
            println!("{counts}, {:.0} s", begun.elapsed().as_secs_f64());
            ExitCode::SUCCESS
        }
        Err(why) => {
            println!("{why}");
            ExitCode::FAILURE
        }
    }
}

struct Programs {
    player: PathBuf,
    replay: PathBuf,
}

/// What was played.
#[derive(Default)]
struct Counts {
    traces: u64,
    whole: u64,
    bytes: u64,
    longest: usize,
    anchors: usize,
    refused: usize,
    bad: u64,
    unknown: u64,
    left_out: usize,
}

impl fmt::Display for Counts {
    fn fmt(&self, f: &mut fmt::Formatter<'_>) -> fmt::Result {
        write!(f, "{} traces, {} of them whole, {} bytes, ", self.traces, self.whole, self.bytes)?;
        write!(f, "the longest of {}; {} anchors, {} refusals, ", self.longest, self.anchors, self.refused)?;
        write!(f, "{} ended with 26, {} with 27; {} calls without a record", self.bad, self.unknown, self.left_out)
    }
}

impl Counts {
    /// Adds a trace for which `player` wrote this.
    fn add(&mut self, bytes: &[u8], whole: bool, text: &str) {
        self.traces += 1;
        self.whole += u64::from(whole);
        self.bytes += bytes.len() as u64;
        self.longest = self.longest.max(bytes.len());
        self.anchors += text.lines().filter(|line| line.starts_with("anchor ")).count();
        self.refused += text.lines().filter(|line| line.starts_with("refused ")).count();
        self.bad += u64::from(text.contains("refused 26\n"));
        self.unknown += u64::from(text.contains("refused 27\n"));
    }

    fn join(self, other: Counts) -> Counts {
        Counts {
            traces: self.traces + other.traces,
            whole: self.whole + other.whole,
            bytes: self.bytes + other.bytes,
            longest: self.longest.max(other.longest),
            anchors: self.anchors + other.anchors,
            refused: self.refused + other.refused,
            bad: self.bad + other.bad,
            unknown: self.unknown + other.unknown,
            left_out: self.left_out + other.left_out,
        }
    }
}

/// The long trace, then the others in two workers; a third looks after programs that don't end.
fn played(programs: &Programs, traces: u64) -> Result<Counts, String> {
    let watches = [Watch::default(), Watch::default()];
    let (next, stop, done) = (AtomicU64::new(0), AtomicBool::new(false), AtomicBool::new(false));
    thread::scope(|scope| {
        scope.spawn(|| watch_over(&watches, &done));
        let first = long_one(programs, &watches[0]);
        stop.store(first.is_err(), Ordering::Relaxed);
        let workers = watches.each_ref().map(|watch| {
            let (next, stop) = (&next, &stop);
            scope.spawn(move || {
                let given = work(programs, traces, next, stop, watch);
                stop.fetch_or(given.is_err(), Ordering::Relaxed);
                given
            })
        });
        let given = workers.map(|worker| worker.join().expect("a worker panics only by a fault of the harness"));
        done.store(true, Ordering::Relaxed);
        given.into_iter().fold(first, |all, its| Ok(all?.join(its?)))
    })
}

fn long_one(programs: &Programs, watch: &Watch) -> Result<Counts, String> {
    let trace = long(&mut Random::of(SEED, 1, 0), LONG_BYTES);
    // the calls themselves, not what is read from their records
    let direct = || trace.calls.iter().cloned().map(Ok);
    let text = compared(&programs.player, &trace.bytes, &brief(direct()), watch)?;
    compared(&programs.replay, &trace.bytes, &full(direct()), watch)?;
    let mut counts = Counts { left_out: trace.left_out, ..Counts::default() };
    counts.add(&trace.bytes, true, &text);
    Ok(counts)
}

fn work(
    programs: &Programs,
    traces: u64,
    next: &AtomicU64,
    stop: &AtomicBool,
    watch: &Watch,
) -> Result<Counts, String> {
    let mut counts = Counts::default();
    loop {
        let n = next.fetch_add(1, Ordering::Relaxed);
        if n >= traces || stop.load(Ordering::Relaxed) {
            return Ok(counts);
        }
        let mut random = Random::of(SEED, 2, n);
        let trace = short(&mut random);
        let whole = n.is_multiple_of(WHOLE);
        let bytes = if whole { trace.bytes.clone() } else { damaged_bytes(&trace, &mut random) };
        let direct = trace.calls.into_iter().map(Ok);
        let expected = if whole { brief(direct) } else { brief(calls(&bytes)) };
        let text = compared(&programs.player, &bytes, &expected, watch)?;
        compared(&programs.replay, &bytes, &full(bench_calls(&bytes)), watch)?;
        counts.left_out += trace.left_out;
        counts.add(&bytes, whole, &text);
    }
}

/// What the program writes for the trace, if it is what is expected.
fn compared(program: &Path, trace: &[u8], expected: &str, watch: &Watch) -> Result<String, String> {
    let given = run(program, trace, watch);
    if given.as_deref() == Ok(expected) {
        return given;
    }
    let said = given.unwrap_or_else(|why| why);
    let name = program.display();
    Err(format!("{name} writes:\n{said}\nand is expected to write:\n{expected}\nfor the trace:\n{}", hex(trace)))
}

// ---- running a program

/// A program that is running, and when it must have ended.
type Watch = Mutex<Option<(Child, Instant)>>;

const UNLOCKED: &str = "no worker panics while it holds the lock";

/// Kills programs that run too long.
fn watch_over(watches: &[Watch], done: &AtomicBool) {
    while !done.load(Ordering::Relaxed) {
        for watch in watches {
            if let Some((child, until)) = &mut *watch.lock().expect(UNLOCKED)
                && *until < Instant::now()
            {
                // it may have ended by now
                let _ = child.kill();
            }
        }
        thread::sleep(Duration::from_millis(50));
    }
}

/// What the program writes to standard output, or how it failed.
fn run(program: &Path, input: &[u8], watch: &Watch) -> Result<String, String> {
    let mut command = Command::new(program);
    command.stdin(Stdio::piped()).stdout(Stdio::piped()).stderr(Stdio::piped());
    let mut child = command.spawn().map_err(|why| format!("{why}"))?;
    let (mut stdin, mut stdout) = (child.stdin.take().expect("piped"), child.stdout.take().expect("piped"));
    let mut stderr = child.stderr.take().expect("piped");
    *watch.lock().expect(UNLOCKED) = Some((child, Instant::now() + LIMIT));
    let (mut out, mut err) = (Vec::new(), Vec::new());
    let read = thread::scope(|scope| {
        // a program may end before it has read all
        scope.spawn(move || stdin.write_all(input));
        stdout.read_to_end(&mut out).and_then(|_| stderr.read_to_end(&mut err))
    });
    let (mut child, until) = watch.lock().expect(UNLOCKED).take().expect("only its worker takes it");
    let status = child.wait().map_err(|why| format!("{why}"))?;
    let late = until < Instant::now();
    match read {
        Ok(_) if status.success() && err.is_empty() => String::from_utf8(out).map_err(|why| format!("{why}")),
        _ => Err(format!("{status}{}, standard error {:?}", if late { " after the time limit" } else { "" }, err)),
    }
}
