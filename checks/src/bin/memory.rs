//! Runs the program with growth after growth of its memory refused, and checks what it writes. `checks/memory` says how.
use checks::program::{self, Ran, Room};
use checks::{options, side_by_side};
use std::collections::BTreeMap;
use std::fs;
use std::path::PathBuf;
use std::process::Command;
use std::sync::Mutex;
use std::time::Duration;

/// For how long cases are begun.
const TIME: Duration = Duration::from_secs(140);

/// How many octets beyond those mapped at its beginning a run may map, at most, where this is limited.
const BEYOND: u64 = 48 << 20;
const STEP: u64 = 512 << 10;

/// The commands with workers and an input, beside those that receive a capture.
const RECEIVING: [(&str, &str); 3] = [
    ("lrx", "vectors/legacy/rate0-0.lgcp"),
    ("many", "vectors/worked/three.htmb"),
    ("many", "vectors/worked/alike.htmb"),
];

/// The commands that receive a capture.
const OF_CAPTURES: [&str; 3] = ["rx", "detect", "soft"];

/// The commands of which a beginning of the text may stand where memory ran out.
const PIECEWISE: [&str; 8] = ["rx", "detect", "soft", "many", "certify", "check", "lchannel", "lrx"];

/// Whether a call starts threads. A thread that can't be started is a growth that a run can do without.
#[derive(Clone, Copy, PartialEq, Eq)]
enum Threads {
    One,
    Several,
}

/// A call of the program that needs no more memory than there is.
struct Call {
    words: Vec<String>,
    input: Vec<u8>,
    text: Vec<u8>,
    /// The status that it ends with.
    code: i32,
    threads: Threads,
    /// Whether a beginning of the text may stand where memory ran out.
    is_piecewise: bool,
    /// How many growths a run takes, at most.
    growths: u64,
}

impl Call {
    fn new(room: &mut Room, words: Vec<String>, input: Vec<u8>, code: i32, threads: Threads) -> Self {
        let usual = room.run(&words, &input).expect("the program can't be run");
        assert!(usual.code() == Some(code), "`{}`: {}, and not {code}", words.join(" "), usual.ended());
        let tell = std::env::temp_dir().join(format!("checks-{}-growths", std::process::id()));
        room.variables = vec![preload(), ("REFUSE_TELL".to_string(), tell.display().to_string())];
        // Threads may take turns, so the number isn't the same in each run.
        let count = |room: &mut Room| {
            room.again(&words).expect("the program can't be run");
            fs::read_to_string(&tell)
                .ok()
                .and_then(|text| text.trim().parse().ok())
                .expect("the growths weren't counted")
        };
        let growths = (0..5).map(|_| count(room)).max().unwrap_or(0);
        room.variables.clear();
        let is_piecewise = PIECEWISE.contains(&words[0].as_str());
        Call { words, input, code, threads, text: usual.text, is_piecewise, growths }
    }

    /// What became of the run: its end in a word, or what is wrong.
    fn judge(&self, ran: &Ran) -> Result<&'static str, String> {
        let may_stand = if self.is_piecewise { self.text.starts_with(&ran.text) } else { ran.text.is_empty() };
        match ran.code() {
            _ if !ran.said.is_empty() => Err(format!("it said '{}'", ran.said.trim_end())),
            Some(5) if may_stand => Ok("ended with status 5"),
            Some(code) if code == self.code && ran.text == self.text => Ok("ended as usual"),
            _ => Err(format!("{} and '{}'", ran.ended(), String::from_utf8_lossy(&ran.text))),
        }
    }
}

fn preload() -> (String, String) {
    ("LD_PRELOAD".to_string(), std::env::var("REFUSE").expect("REFUSE has to name the library that refuses memory"))
}

fn file(name: &str) -> Vec<u8> {
    let path: PathBuf = program::top().join(name);
    fs::read(&path).unwrap_or_else(|error| panic!("{}: {error}", path.display()))
}

/// The first vector without a fault of each command: the command and the path of its input.
fn first_vectors() -> Vec<(String, String)> {
    let listed = Command::new(program::top().join(".ci/vectors")).arg("--list").output();
    let listed = listed.expect("the vectors can't be listed").stdout;
    let mut firsts: Vec<(String, String)> = Vec::new();
    for line in String::from_utf8_lossy(&listed).lines() {
        let words: Vec<&str> = line.split(' ').collect();
        if let [command, "0", path, _, ..] = words[..] {
            if firsts.iter().all(|(known, _)| known != command) {
                firsts.push((command.to_string(), path.to_string()));
            }
        }
    }
    firsts
}

fn has_workers(command: &str) -> bool {
    OF_CAPTURES.contains(&command) || RECEIVING.iter().any(|(known, _)| *known == command)
}

/// The capture `z` with its frame twice.
fn two_frames() -> Vec<u8> {
    let mut octets = file("examples/z.htcp");
    octets[6] = 2;
    octets.extend_from_within(7..);
    octets
}

fn calls(room: &mut Room) -> Vec<Call> {
    let mut calls = Vec::new();
    for workers in [1, 4] {
        let threads = if workers > 1 { Threads::Several } else { Threads::One };
        let inputs = RECEIVING.map(|(command, path)| (command, file(path)));
        for (command, input) in OF_CAPTURES.map(|command| (command, two_frames())).into_iter().chain(inputs) {
            calls.push(Call::new(room, options::received(command, workers, 256), input, 0, threads));
        }
        calls.push(Call::new(room, options::demonstrated(workers), Vec::new(), 0, threads));
    }
    let mut alone = |words: &[&str], input, code| {
        let words = words.iter().map(|word| word.to_string()).collect();
        calls.push(Call::new(room, words, input, code, Threads::One));
    };
    for (command, path) in first_vectors() {
        if !has_workers(&command) {
            alone(&[&command], file(&path), 0);
        }
    }
    alone(&["tx"], file("vectors/worked/a5-bad-seed.httx"), 1);
    alone(&["rx", "rx"], Vec::new(), 2);
    calls
}

fn main() {
    let slot = Mutex::new(None);
    let mut room =
        Room::new(&program::path(), &std::env::temp_dir(), &format!("checks-{}-usual", std::process::id()), &slot)
            .expect("the files of a room can't be made");
    let calls = calls(&mut room);
    let mut cases = Vec::new();
    for (place, call) in calls.iter().enumerate() {
        for kind in ["REFUSE_ONE", "REFUSE_FROM"] {
            cases.extend((1..=call.growths).map(|number| (place, kind, number)));
        }
        cases.extend((0..=BEYOND / STEP).map(|steps| (place, "REFUSE_BEYOND", steps * STEP)));
    }
    let ends: Mutex<BTreeMap<(usize, &str, &str), u64>> = Mutex::new(BTreeMap::new());
    let mut sum = side_by_side::run(
        side_by_side::processors(),
        0,
        cases.len() as u64,
        TIME,
        |_| {},
        |number, room| {
            let (place, kind, at) = cases[number as usize];
            let call = &calls[place];
            room.variables = vec![preload(), (kind.to_string(), at.to_string())];
            let ran = room.run(&call.words, &call.input).map_err(|error| error.to_string())?;
            let end =
                call.judge(&ran).map_err(|wrong| format!("`{}` with {kind}={at}: {wrong}", call.words.join(" ")))?;
            *ends.lock().unwrap().entry((place, kind, end)).or_default() += 1;
            Ok(())
        },
    );
    let ends = ends.into_inner().unwrap();
    for (place, call) in calls.iter().enumerate() {
        let of = |kind: &str, end: &str| ends.get(&(place, kind, end)).copied().unwrap_or(0);
        let counts = |kind: &str| {
            format!("{} with status 5, {} as usual", of(kind, "ended with status 5"), of(kind, "ended as usual"))
        };
        println!(
            "memory: `{}`, {} growths. One refused: {}. All from one on: {}. Little to map: {}.",
            call.words.join(" "),
            call.growths,
            counts("REFUSE_ONE"),
            counts("REFUSE_FROM"),
            counts("REFUSE_BEYOND")
        );
        if call.threads == Threads::Several && of("REFUSE_ONE", "ended as usual") == 0 {
            let wrong = format!("`{}` gives up at growths that it can do without", call.words.join(" "));
            sum.failed.push((place as u64, wrong));
        }
    }
    sum.report("memory");
}
