//! Runs the program on files made and spoiled at random, and checks what it writes. `checks/inputs --help` says more.
use checks::expected::{self, Outcome, Sums};
use checks::program::{Ran, Room};
use checks::random::Random;
use checks::rates::{Point, Rate};
use checks::walking::{Format, Frame, Walk};
use checks::{bundles, certificates, legacy, making, options, side_by_side, spoiling};
use std::io::Write;
use std::time::Duration;

const HELP: &str = "\
usage: checks/inputs [--seed N] [--count N] [--from N] [--seconds N]
       checks/inputs [--seed N] --show N > FILE

Runs every command on files made and spoiled at random, from a seed (1), COUNT
of them (20000), the first of which has the number FROM (0), for at most SECONDS
(90). --show writes the input with a number, to try it by hand.
";

/// Of one input the most memory that a run may hold, in kilobytes.
const MEMORY: u64 = 64 * 1024;

/// The most searches of large grids by which a capture is received by weights.
const LARGEST: usize = 6_000;

/// An input: a valid file, and what became of it.
struct Input {
    format: Format,
    valid: Vec<u8>,
    octets: Vec<u8>,
    how: &'static str,
}

impl Input {
    fn numbered(seed: u64, number: u64) -> Self {
        let mut random = Random::of_input(seed, number);
        let formats = [Format::Capture, Format::Capture, Format::Capture, Format::Frames, Format::Symbols];
        let format = formats[number as usize % formats.len()];
        let rate = Rate::numbered(number as usize / formats.len());
        let valid = making::file(&mut random, format, rate);
        let (octets, how) = if random.once_in(4) {
            (valid.clone(), "whole")
        } else {
            let of_other = random.one_of(&[Format::Capture, Format::Frames, format]);
            let another = Rate::numbered(random.below(64));
            let other = making::file(&mut random, of_other, another);
            spoiling::spoil(&mut random, format, &valid, &other)
        };
        Input { format, valid, octets, how }
    }
}

/// Runs of one input.
struct Runs<'a, 'b> {
    room: &'a mut Room<'b>,
}

impl Runs<'_, '_> {
    /// Runs the words on the octets, and checks what holds of each run.
    fn run(&mut self, words: &[String], octets: &[u8]) -> Result<Ran, String> {
        let ran =
            self.room.run(words, octets).map_err(|error| format!("`{}` couldn't be run: {error}", words.join(" ")))?;
        let wrong = |what: String| Err(format!("`{}`: {what}", words.join(" ")));
        match ran.code() {
            Some(0 | 1) if !ran.said.is_empty() => wrong(format!("it said '{}'", ran.said.trim_end())),
            Some(0 | 1) if ran.memory > MEMORY => wrong(format!("it held {} kB", ran.memory)),
            Some(0 | 1) => Ok(ran),
            _ => wrong(ran.ended()),
        }
    }

    /// Runs the words on octets that are no file: the refused line alone has to come.
    fn refused(&mut self, words: &[String], octets: &[u8], walk: &Walk) -> Result<(), String> {
        let ran = self.run(words, octets)?;
        let wanted = walk.last_line();
        if ran.code() == Some(1) && ran.text == format!("{wanted}\n").as_bytes() {
            return Ok(());
        }
        Err(format!(
            "`{}`: {} and '{}' in place of '{wanted}'",
            words.join(" "),
            ran.ended(),
            String::from_utf8_lossy(&ran.text)
        ))
    }

    /// Runs the words on octets that are a file: what comes has to be the other file.
    fn made(&mut self, words: &[String], octets: &[u8], wanted: &[u8]) -> Result<(), String> {
        let ran = self.run(words, octets)?;
        if ran.code() == Some(0) && ran.text == wanted {
            Ok(())
        } else {
            Err(format!("`{}`: {} and another file", words.join(" "), ran.ended()))
        }
    }

    /// The text of a command that receives, on octets and once more with other workers on what they come to by `upgrade`.
    fn received(
        &mut self,
        command: &str,
        [first, second]: [(u32, u32); 2],
        octets: &[u8],
        upgraded: &[u8],
    ) -> Result<Ran, String> {
        let one = self.run(&options::received(command, first.0, first.1), octets)?;
        let other = self.run(&options::received(command, second.0, second.1), upgraded)?;
        if (one.code(), &one.text) == (other.code(), &other.text) {
            return Ok(one);
        }
        // Which of both is it?
        let same = self.run(&options::received(command, second.0, second.1), octets)?;
        let cause = if same.text == one.text { "after `upgrade`" } else { "with other workers and window" };
        Err(format!("`{command}` with {first:?} and {second:?}: another text {cause}"))
    }

    fn capture(&mut self, input: &Input) -> Result<(), String> {
        let octets = &input.octets;
        let walk = Walk::of(Format::Capture, octets);
        let is_whole = walk.fault.is_none();
        let upgraded = if is_whole { expected::upgraded(&walk, octets) } else { octets.clone() };
        let upgrade = ["upgrade".to_string()];
        if is_whole {
            self.made(&upgrade, octets, &upgraded)?
        } else {
            self.refused(&upgrade, octets, &walk)?
        }
        let listed = self.received("detect", [(1, 1), (4, 256)], octets, &upgraded)?;
        let found = expected::check_jobs(&walk, octets, &before_last(&listed, &walk)?)?;
        if is_whole {
            self.certified(input, &walk, &found.data)?
        } else {
            self.refused(&["certify".to_string()], octets, &walk)?
        }
        let received = self.received("rx", [(1, 256), (4, 1)], octets, &upgraded)?;
        let lines = before_last(&received, &walk)?;
        check_frames(&lines, &walk, &found.sums)?;
        self.weighed(input, &walk)?;
        self.beginning(input, &lines)
    }

    /// What `soft` writes of a capture. Of those with a large grid few are received, since each takes thousands of searches
    /// that leave out the nearest vector.
    fn weighed(&mut self, input: &Input, walk: &Walk) -> Result<(), String> {
        let mut random = Random::of_input(walk.count.into(), input.octets.len() as u64);
        let searches_of = |frame: &Frame| {
            let of_job = 2 * frame.rate.bits() * frame.rate.streams();
            frame.symbols as usize * frame.present().count() * of_job
        };
        let large = walk.frames.iter().filter(|frame| frame.rate.vectors() > making::CHEAP);
        let searches: usize = large.map(searches_of).sum();
        if !is_cheap(input, walk) || searches > LARGEST || searches > 0 && !random.once_in(3) {
            return Ok(());
        }
        self.written("soft", &mut random, &input.octets, &baseline::text_by_weights(&input.octets))
    }

    /// What `certify` makes of a whole capture, and what `check` says of that and of what becomes of it by spoiling.
    fn certified(&mut self, input: &Input, walk: &Walk, found: &[(u128, Vec<Point>)]) -> Result<(), String> {
        // Else a certificate may have millions of marks.
        if !is_cheap(input, walk) {
            return Ok(());
        }
        let octets = &input.octets;
        let file = certificates::certified(walk, octets, found);
        self.made(&["certify".to_string()], octets, &file)?;
        let mut random = Random::of_input(found.len() as u64, octets.len() as u64);
        for octets in [&spoiling::spoil_certificates(&mut random, &file), &file] {
            let (text, fault) = certificates::checked(octets);
            let ran = self.run(&["check".to_string()], octets)?;
            if ran.text != text.as_bytes() || ran.code() != Some(fault.is_some().into()) {
                return Err(format!("`check`: {} and another text", ran.ended()));
            }
        }
        Ok(())
    }

    /// The lines of the frames that end before the first octet that was changed are those of the valid file.
    fn beginning(&mut self, input: &Input, lines: &[&str]) -> Result<(), String> {
        let changed = input.valid.iter().zip(&input.octets).take_while(|(one, two)| one == two).count();
        let walk = Walk::of(Format::Capture, &input.valid);
        let before = walk.frames.iter().filter(|frame| frame.end <= changed).count();
        if before == 0 || input.how == "whole" || input.valid[5..7] != input.octets[5..7] {
            return Ok(());
        }
        let valid = self.run(&options::received("rx", 4, 256), &input.valid)?;
        let of_valid = before_last(&valid, &walk)?;
        if lines.len() >= before && of_valid[..before] == lines[..before] {
            Ok(())
        } else {
            Err("a line of a frame before the fault is another".to_string())
        }
    }

    fn frames(&mut self, input: &Input, seed: u64, noise: u16) -> Result<(), String> {
        let octets = &input.octets;
        let walk = Walk::of(Format::Frames, octets);
        let tx = ["tx".to_string()];
        if walk.fault.is_some() {
            return self.refused(&tx, octets, &walk);
        }
        let sent = self.run(&tx, octets)?;
        let symbols = Walk::of(Format::Symbols, &sent.text);
        let heads = |walk: &Walk| walk.frames.iter().map(|frame| (frame.rate, frame.length)).collect::<Vec<_>>();
        if sent.code() != Some(0) || symbols.fault.is_some() || heads(&walk) != heads(&symbols) {
            return Err(format!("`tx`: {} and no file of these frames' symbols", sent.ended()));
        }
        let (capture, sums) = expected::passed(&symbols, &sent.text, seed, noise);
        self.made(&options::passed("channel", seed, noise), &sent.text, &capture)?;
        let received = self.run(&options::received("rx", 4, 256), &capture)?;
        let lines = before_last(&received, &Walk::of(Format::Capture, &capture))?;
        if lines.len() != walk.whole() {
            return Err(format!("{} lines of frames in place of {}", lines.len(), walk.whole()));
        }
        for (number, ((frame, sums), line)) in walk.frames.iter().zip(&sums).zip(&lines).enumerate() {
            let hex: String = octets[frame.body..frame.end].iter().map(|octet| format!("{octet:02x}")).collect();
            if expected::frame_line(line, number, frame, sums) != Some((0, Outcome::Hex(&hex))) {
                return Err(format!("frame {number} came back as '{line}'"));
            }
        }
        Ok(())
    }

    fn symbols(&mut self, input: &Input, seed: u64, noise: u16) -> Result<(), String> {
        let walk = Walk::of(Format::Symbols, &input.octets);
        let channel = options::passed("channel", seed, noise);
        if walk.fault.is_some() {
            return self.refused(&channel, &input.octets, &walk);
        }
        let (capture, _) = expected::passed(&walk, &input.octets, seed, noise);
        self.made(&channel, &input.octets, &capture)
    }
}

impl Runs<'_, '_> {
    /// What `lchannel` makes of a file of clause 18 frames, or says of it where it is at fault.
    fn legacy(&mut self, random: &mut Random, seed: u64, noise: u16) -> Result<(), String> {
        let valid = legacy::file(random);
        let octets = if random.once_in(3) { valid } else { spoiling::spoil_legacy(random, &valid) };
        let words = options::passed("lchannel", seed, noise);
        match legacy::passed(&octets, seed, noise) {
            Ok(capture) => self.made(&words, &octets, &capture),
            Err(fault) => {
                self.refused(&words, &octets, &Walk { version: 1, count: 0, frames: Vec::new(), fault: Some(fault) })
            }
        }
    }
}

impl Runs<'_, '_> {
    /// Runs a command that receives with some number of workers and some window: exactly this text has to come. The last
    /// line of it says whether the input was refused; of a bundle the first one does.
    fn written(&mut self, command: &str, random: &mut Random, octets: &[u8], wanted: &[u8]) -> Result<(), String> {
        let (workers, window) = (random.one_of(&[1, 2, 4, 7]), random.one_of(&[1, 2, 3, 256, 4096]));
        let ran = self.run(&options::received(command, workers, window), octets)?;
        let lines: Vec<&[u8]> = wanted.split_inclusive(|octet| *octet == b'\n').collect();
        let told = if command == "many" { lines.first() } else { lines.last() };
        let is_refused = told.is_some_and(|line| line.starts_with(b"refused "));
        if ran.text == wanted && ran.code() == Some(is_refused.into()) {
            return Ok(());
        }
        let how = format!("`{command}` with {workers} workers and a window of {window}");
        Err(format!("{how}: {} and another text", ran.ended()))
    }

    /// What `lrx` writes of a capture of clause 18 frames.
    fn legacy_received(&mut self, random: &mut Random) -> Result<(), String> {
        let valid = legacy::capture(random);
        let octets = if random.once_in(2) { valid } else { spoiling::spoil_legacy(random, &valid) };
        self.written("lrx", random, &octets, &baseline::text_of_legacy(&octets))
    }

    /// What `many` writes of a bundle.
    fn bundled(&mut self, random: &mut Random) -> Result<(), String> {
        let valid = bundles::file(random);
        let octets = if random.once_in(3) { bundles::spoil(random, &valid) } else { valid };
        self.written("many", random, &octets, &baseline::text_of_bundle(&octets))
    }
}

/// Whether the walks of the jobs are short, also those that leave out the nearest vector: where no large grid was spoiled.
fn is_cheap(input: &Input, walk: &Walk) -> bool {
    input.how == "whole" || walk.frames.iter().all(|frame| frame.rate.vectors() <= making::CHEAP)
}

/// The lines before the last one, which has to be the right one with its status.
fn before_last<'a>(ran: &'a Ran, walk: &Walk) -> Result<Vec<&'a str>, String> {
    let mut lines = ran.lines()?;
    let last = lines.pop().unwrap_or_default();
    let status = i32::from(walk.fault.is_some());
    if last == walk.last_line() && ran.code() == Some(status) {
        return Ok(lines);
    }
    Err(format!("'{last}' with {} in place of '{}' with status {status}", ran.ended(), walk.last_line()))
}

fn check_frames(lines: &[&str], walk: &Walk, sums: &[Sums]) -> Result<(), String> {
    if lines.len() != walk.whole() {
        return Err(format!("{} lines of frames in place of {}", lines.len(), walk.whole()));
    }
    for (number, line) in lines.iter().enumerate() {
        if expected::frame_line(line, number, &walk.frames[number], &sums[number]).is_none() {
            return Err(format!("'{line}' doesn't fit to the jobs of frame {number}, {:?}", sums[number]));
        }
    }
    Ok(())
}

fn main() {
    let mut values = [("--seed", 1), ("--count", 20_000), ("--from", 0), ("--seconds", 90), ("--show", u64::MAX)];
    let words: Vec<String> = std::env::args().skip(1).collect();
    for pair in words.chunks(2) {
        let place = values.iter().position(|(name, _)| *name == pair[0]);
        match (place, pair.get(1).and_then(|word| word.parse().ok())) {
            (Some(place), Some(value)) => values[place].1 = value,
            _ => {
                print!("{HELP}");
                std::process::exit(2);
            }
        }
    }
    let [seed, count, first, seconds, shown] = values.map(|(_, value)| value);
    if shown != u64::MAX {
        let input = Input::numbered(seed, shown);
        eprintln!("input {shown}: {:?}, {}", input.format, input.how);
        std::io::stdout().write_all(&input.octets).expect("the input can't be written");
        return;
    }
    let case = |number: u64, room: &mut Room| {
        let input = Input::numbered(seed, number);
        let mut random = Random::of_input(!seed, number);
        let (of_channel, noise) = (random.draw(), random.below(9) as u16);
        let mut runs = Runs { room };
        let result = match input.format {
            Format::Capture => runs.capture(&input),
            Format::Frames => runs
                .frames(&input, of_channel, noise)
                .and_then(|()| runs.legacy(&mut random, of_channel, noise))
                .and_then(|()| runs.legacy_received(&mut random)),
            Format::Symbols => runs.symbols(&input, of_channel, noise).and_then(|()| runs.bundled(&mut random)),
        };
        result.map_err(|wrong| format!("{:?} {}: {wrong}", input.format, input.how))
    };
    println!("inputs: {count} from seed {seed}");
    side_by_side::run(side_by_side::processors(), first, count, Duration::from_secs(seconds), |_| {}, case)
        .report("inputs");
}
