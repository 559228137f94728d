//! The options of a call, in one place.

/// The words of a call of a command that receives, with a number of workers and a window of a number of jobs.
pub fn received(command: &str, workers: u32, window: u32) -> Vec<String> {
    with(command, &[("workers", workers.into()), ("window", window.into())])
}

/// The words of a call of `channel` or `lchannel`.
pub fn passed(command: &str, seed: u64, noise: u16) -> Vec<String> {
    with(command, &[("seed", seed), ("noise", noise.into())])
}

fn with(command: &str, values: &[(&str, u64)]) -> Vec<String> {
    let mut words = vec![command.to_string()];
    words.extend(values.iter().flat_map(|(name, value)| [format!("--{name}"), value.to_string()]));
    words
}

/// The words of a short call of `demo`.
pub fn demonstrated(workers: u32) -> Vec<String> {
    with("demo", &[("frames", 1), ("length", 1), ("workers", workers.into())])
}
