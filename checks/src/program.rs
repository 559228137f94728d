//! The built program, and runs of it.
use crate::system;
use std::fs::File;
use std::io::{Read, Seek, SeekFrom, Write};
use std::os::unix::process::ExitStatusExt;
use std::path::{Path, PathBuf};
use std::process::{Command, ExitStatus, Stdio};
use std::sync::Mutex;
use std::time::{Duration, Instant};

/// How long a run may take.
pub const LIMIT: Duration = Duration::from_secs(30);

/// What a run came to.
pub struct Ran {
    pub status: ExitStatus,
    pub text: Vec<u8>,
    /// What it wrote on standard error.
    pub said: String,
    /// The most memory that it held, in kilobytes.
    pub memory: u64,
    pub time: Duration,
}

impl Ran {
    /// The exit status, where it ended by itself.
    pub fn code(&self) -> Option<i32> {
        self.status.code()
    }

    /// The text as lines, each without its line feed. An error where it isn't text of whole lines.
    pub fn lines(&self) -> Result<Vec<&str>, String> {
        let text = std::str::from_utf8(&self.text).map_err(|_| "the text isn't UTF-8")?;
        let whole = text.strip_suffix('\n').ok_or("the text doesn't end with a line feed")?;
        Ok(whole.split('\n').collect())
    }

    /// In words how it ended.
    pub fn ended(&self) -> String {
        match (self.status.code(), self.status.signal()) {
            (Some(code), _) => format!("status {code}"),
            (_, Some(9)) if self.time >= LIMIT => format!("ended by the check after {} s", LIMIT.as_secs()),
            (_, signal) => format!("signal {}", signal.unwrap_or(0)),
        }
    }
}

/// The child that runs at the moment and since when, or none.
pub type Slot = Mutex<Option<(i32, Instant)>>;

/// Ends the slot's child where it has run for longer than [`LIMIT`].
pub fn end_overdue(slot: &Slot) {
    if let Some((process, since)) = *slot.lock().unwrap()
        && since.elapsed() > LIMIT
    {
        system::end(process);
    }
}

/// Where one thread of a check runs the program, one run after another: the input and what is written are files.
pub struct Room<'a> {
    program: PathBuf,
    slot: &'a Slot,
    input: File,
    output: File,
    said: File,
    /// Variables that each run gets.
    pub variables: Vec<(String, String)>,
    pub runs: u64,
    pub most_memory: u64,
    pub longest: Duration,
}

impl<'a> Room<'a> {
    pub fn new(program: &Path, folder: &Path, name: &str, slot: &'a Slot) -> std::io::Result<Self> {
        // The files have no name any more once they are open, so none is left behind.
        let file = |kind: &str| {
            let path = folder.join(format!("{name}-{kind}"));
            let file = File::options().read(true).write(true).create_new(true).open(&path)?;
            std::fs::remove_file(&path).map(|()| file)
        };
        Ok(Room {
            program: program.to_path_buf(),
            slot,
            input: file("input")?,
            output: file("output")?,
            said: file("said")?,
            variables: Vec::new(),
            runs: 0,
            most_memory: 0,
            longest: Duration::ZERO,
        })
    }

    /// Runs the program with the words on the input.
    pub fn run(&mut self, words: &[String], input: &[u8]) -> std::io::Result<Ran> {
        fill(&mut self.input, input)?;
        self.again(words)
    }

    /// Runs the program with the words on the input of the last run.
    pub fn again(&mut self, words: &[String]) -> std::io::Result<Ran> {
        self.input.seek(SeekFrom::Start(0))?;
        fill(&mut self.output, &[])?;
        fill(&mut self.said, &[])?;
        let mut command = Command::new(&self.program);
        command.args(words).envs(self.variables.iter().map(|(name, value)| (name, value)));
        command.stdin(Stdio::from(self.input.try_clone()?));
        command.stdout(Stdio::from(self.output.try_clone()?)).stderr(Stdio::from(self.said.try_clone()?));
        let started = Instant::now();
        let process = command.spawn()?.id() as i32;
        *self.slot.lock().unwrap() = Some((process, started));
        system::wait(process);
        // From here on the number may be another child's.
        *self.slot.lock().unwrap() = None;
        let (status, memory) = system::collect(process);
        let time = started.elapsed();
        self.runs += 1;
        self.most_memory = self.most_memory.max(memory);
        self.longest = self.longest.max(time);
        let said = String::from_utf8_lossy(&content(&mut self.said)?).into_owned();
        Ok(Ran { status: ExitStatus::from_raw(status), text: content(&mut self.output)?, said, memory, time })
    }
}

fn fill(file: &mut File, octets: &[u8]) -> std::io::Result<()> {
    file.set_len(0)?;
    file.seek(SeekFrom::Start(0))?;
    file.write_all(octets)
}

fn content(file: &mut File) -> std::io::Result<Vec<u8>> {
    let mut octets = Vec::new();
    file.seek(SeekFrom::Start(0))?;
    file.read_to_end(&mut octets)?;
    Ok(octets)
}

/// The built program: what `MIZGAURE_RADIO` names, or that of this repository.
pub fn path() -> PathBuf {
    match std::env::var_os("MIZGAURE_RADIO") {
        Some(path) => path.into(),
        None => top().join("crates/ht_radio/out/ht_radio"),
    }
}

/// The top of the repository.
pub fn top() -> PathBuf {
    Path::new(env!("CARGO_MANIFEST_DIR")).parent().unwrap().to_path_buf()
}

/// Binds this thread, and the runs that it makes, to the processors whose bits are set, where the system lets it.
pub fn bind(processors: u64) {
    system::bind(processors);
}
