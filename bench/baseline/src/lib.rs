//! The lines of `ht_bench` and the commands of `radio` in plain Rust, to compare with.
mod abreast;
mod bundling;
mod capturing;
mod certifying;
mod chain;
mod clean;
mod decoding;
mod detecting;
mod framing;
mod legacy;
mod listing;
mod random;
mod receiving;
mod results;
mod sending;
mod swift;
mod walking;
mod weighing;

pub use bundling::text as text_of_bundle;
use weighing::{Searches, Weighed};

/// What the words ask for: a command, or a line of `ht_bench`, of which the same checksum is printed.
pub fn run(words: &[String]) {
    if receiving::run(words) || certifying::run(words) || sending::run(words) || legacy::run(words) || bundling::run(words) || swift::run(words) {
        return;
    }
    let lines = [decoding::run, framing::run, detecting::run, capturing::run, abreast::run, clean::run, walking::run];
    match lines.iter().find_map(|line| line(words)) {
        Some(checksum) => println!("{checksum}"),
        None => println!("these words choose no line"),
    }
}

/// The text of `rx` for the octets of a capture.
pub fn text_of_capture(octets: &[u8]) -> Vec<u8> {
    let mut text = Vec::new();
    receiving::run_on(octets, results::Results::new(&mut text));
    text
}

/// The text of `soft` for the octets of a capture.
pub fn text_by_weights(octets: &[u8]) -> Vec<u8> {
    let mut text = Vec::new();
    receiving::run_on(octets, Weighed::new(&mut text, Searches::Other));
    text
}

/// The text of `lrx` for the octets of a capture of clause 18 frames.
pub fn text_of_legacy(octets: &[u8]) -> Vec<u8> {
    let mut text = Vec::new();
    legacy::receive_on(octets, &mut text);
    text
}

#[cfg(test)]
mod tests {
    use super::{text_by_weights, text_of_bundle, text_of_capture, text_of_legacy};
    use std::path::Path;

    /// The files of vectors/ of a kind, with the text that is due.
    pub fn vectors(ending: &str, text: &str) -> Vec<(String, Vec<u8>, Vec<u8>)> {
        let mut found = Vec::new();
        for folder in std::fs::read_dir(Path::new(env!("CARGO_MANIFEST_DIR")).join("../../vectors")).unwrap() {
            let Ok(files) = std::fs::read_dir(folder.unwrap().path()) else { continue };
            for file in files {
                let path = file.unwrap().path();
                let due = path.with_extension(text);
                if path.extension().is_some_and(|extension| extension == ending) && due.exists() {
                    let octets = std::fs::read(&path).unwrap();
                    // What refused to become a capture is none.
                    if !octets.starts_with(b"refused ") {
                        found.push((path.display().to_string(), octets, std::fs::read(due).unwrap()));
                    }
                }
            }
        }
        found
    }

    // What the checks compare with.
    fn compare(text: fn(&[u8]) -> Vec<u8>, ending: &str, command: &str) {
        let vectors = vectors(ending, command);
        assert!(!vectors.is_empty(), "{command}");
        for (name, octets, due) in vectors {
            assert!(text(&octets) == due, "{command} on {name}");
        }
    }

    #[test]
    fn plain_texts_are_those_of_the_vectors() {
        for ending in ["htcp", "upgraded"] {
            compare(text_of_capture, ending, "rx");
            compare(text_by_weights, ending, "soft");
        }
        compare(text_of_legacy, "lgcp", "lrx");
        compare(text_of_bundle, "htmb", "many");
    }
}
