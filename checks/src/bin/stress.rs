//! Runs the commands that receive with all numbers of workers and all windows, over and over, and checks that the text is
//! always that of the vectors, that of a larger capture of sample frames what was sent, and that of the longest frames the
//! same with one worker and with many; and that no run holds too much memory. `checks/stress` says how.
use checks::program::{self, Room};
use checks::rates::Rate;
use checks::walking::{Format, Walk};
use checks::{expected, options, side_by_side};
use std::fs;
use std::sync::Mutex;
use std::time::Duration;

/// For how long runs are begun.
const TIME: Duration = Duration::from_secs(90);

const RUNS: u64 = 2_000;
const WORKERS: [u32; 6] = [1, 2, 3, 4, 7, 64];
const WINDOWS: [u32; 5] = [1, 2, 3, 256, 4096];

/// Small captures: one to four streams, both bandwidths and versions, ties and extremes, erased subcarriers.
const CAPTURES: [&str; 11] = [
    "jobs/even-mcs00",
    "jobs/extreme-mcs01",
    "jobs/small-mcs09",
    "rates/bw0-mcs00",
    "rates/bw0-mcs12",
    "rates/bw1-mcs20",
    "rates/bw1-mcs31",
    "version2/bw0-mcs18",
    "version2/bw1-mcs31",
    "worked/a5-pilots-alone",
    "worked/zz",
];

/// Captures of clause 18 frames, and bundles.
const OTHERS: [(&str, &str, &str); 8] = [
    ("lrx", "legacy/many-frames", "lgcp"),
    ("lrx", "legacy/rate0-1", "lgcp"),
    ("lrx", "legacy/rate7-1", "lgcp"),
    ("many", "worked/three", "htmb"),
    ("many", "worked/alike", "htmb"),
    ("many", "bundles/b1", "htmb"),
    ("many", "bundles/b5", "htmb"),
    ("many", "bundles/b9", "htmb"),
];

/// The larger capture: sample frames of a seed at 20 MHz, MCS 15, with noise. It is received with these workers and
/// windows.
const SEED: u64 = 42;
const FRAMES: u16 = 8;
const LENGTH: u16 = 1500;
const NOISE: u16 = 8;
const SAMPLE_WORKERS: [u32; 4] = [1, 2, 7, 64];
const SAMPLE_WINDOWS: [u32; 3] = [1, 2, 4096];

/// The captures of the longest frames: a number of frames of 65,535 octets at 20 MHz, MCS 7, with the diagonal 10 and all
/// samples 0. They are run with these workers and windows, and the text is that of the first.
const LONGEST: [(&str, u16); 3] = [("rx", 6), ("detect", 6), ("soft", 2)];
const LONGEST_PAIRS: [(u32, u32); 4] = [(1, 256), (4, 256), (64, 256), (64, 4096)];

/// The most memory that a run may hold, in kilobytes.
const MEMORY: u64 = 64 * 1024;

/// What is run: a command on a capture has to write the text.
struct Case {
    command: &'static str,
    capture: &'static str,
    octets: Vec<u8>,
    text: Vec<u8>,
}

fn cases() -> Vec<Case> {
    let file = |capture: &str, kind: &str| {
        let path = program::top().join(format!("vectors/{capture}.{kind}"));
        fs::read(&path).unwrap_or_else(|error| panic!("{}: {error}", path.display()))
    };
    let of = |capture| {
        ["detect", "rx", "soft"].map(|command| Case {
            command,
            capture,
            octets: file(capture, "htcp"),
            text: file(capture, command),
        })
    };
    let others = OTHERS.into_iter().map(|(command, capture, kind)| Case {
        command,
        capture,
        octets: file(capture, kind),
        text: file(capture, command),
    });
    CAPTURES.into_iter().flat_map(of).chain(others).collect()
}

/// The capture of sample frames, and what was sent in it: by the rules of docs/SIMULATOR.md, but for the symbols, which
/// `tx` makes.
fn samples(room: &mut Room) -> Case {
    let frames = expected::sample_frames(SEED, FRAMES, Rate::of(0, 15), LENGTH);
    let symbols = room.run(&["tx".to_string()], &frames).expect("the program can't be run").text;
    let (octets, sums) = expected::passed(&Walk::of(Format::Symbols, &symbols), &symbols, SEED, NOISE);
    let text = expected::returned(&Walk::of(Format::Frames, &frames), &frames, &sums).into_bytes();
    Case { command: "rx", capture: "sample frames", octets, text }
}

/// A capture of the longest frames, and what the command writes of it with the first workers and window.
fn longest(room: &mut Room, (command, frames): (&'static str, u16)) -> Case {
    let length = u16::MAX;
    let symbols = (16 + 8 * usize::from(length) + 6).div_ceil(260);
    let mut octets = [b"HTCP\x01".as_slice(), &frames.to_be_bytes()].concat();
    for _ in 0..frames {
        octets.extend([0, 7]);
        octets.extend(length.to_be_bytes());
        octets.extend([0, 10].repeat(56));
        octets.resize(octets.len() + symbols * 448, 0);
    }
    let (workers, window) = LONGEST_PAIRS[0];
    let words = options::received(command, workers, window);
    let text = room.run(&words, &octets).expect("the program can't be run").text;
    Case { command, capture: "the longest frames", octets, text }
}

/// Runs a case, and says what is wrong.
fn run(room: &mut Room, case: &Case, workers: u32, window: u32) -> Result<(), String> {
    let words = options::received(case.command, workers, window);
    let ran = room.run(&words, &case.octets).map_err(|error| error.to_string())?;
    let how = format!("`{}` on {} with {workers} workers and a window of {window}", case.command, case.capture);
    if ran.code() != Some(0) || ran.text != case.text || !ran.said.is_empty() {
        return Err(format!("{how}: {} and another text", ran.ended()));
    }
    if ran.memory > MEMORY {
        return Err(format!("{how}: {} kB of memory", ran.memory));
    }
    Ok(())
}

fn main() {
    let slot = Mutex::new(None);
    let mut room = Room::new(&program::path(), &std::env::temp_dir(), "checks-samples", &slot)
        .expect("the files of a room can't be made");
    let samples = samples(&mut room);
    let long = LONGEST.map(|case| longest(&mut room, case));
    let pairs = SAMPLE_WORKERS.into_iter().flat_map(|workers| SAMPLE_WINDOWS.map(|window| (workers, window)));
    let larger =
        pairs.map(|pair| (&samples, pair)).chain(long.iter().flat_map(|case| LONGEST_PAIRS.map(|pair| (case, pair))));
    let (mut received, mut wrong) = (0, Vec::new());
    for (place, (case, (workers, window))) in larger.enumerate() {
        match run(&mut room, case, workers, window) {
            Ok(()) => received += 1,
            Err(what) => wrong.push((place as u64, what)),
        }
    }
    let cases = cases();
    let count = std::env::args().nth(1).map_or(RUNS, |word| word.parse().expect("the number of runs"));
    let threads = side_by_side::processors();
    // One thread's runs have one processor for all their workers, and the next one's two; the others' have all.
    let prepare = |thread: usize| match thread % 4 {
        0 if threads > 2 => program::bind(0b1),
        1 if threads > 2 => program::bind(0b110),
        _ => {}
    };
    let case = |number: u64, room: &mut Room| {
        let case = &cases[number as usize % cases.len()];
        let pair = number as usize / cases.len();
        let (workers, window) = (WORKERS[pair % WORKERS.len()], WINDOWS[pair / WORKERS.len() % WINDOWS.len()]);
        run(room, case, workers, window)
    };
    let mut sum = side_by_side::run(threads, 0, count, TIME, prepare, case);
    sum.passed += received;
    sum.failed.append(&mut wrong);
    sum.runs += room.runs;
    sum.report("stress");
}
