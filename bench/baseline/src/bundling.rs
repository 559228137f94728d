//! What `radio many` writes, in plain Rust: a bundle read whole, and its captures received one after another.
use crate::receiving::{Fault, Input, run_on};
use crate::results::Results;
use crate::sending::{input, output};

/// The captures of a bundle.
fn captures(octets: &[u8]) -> Result<Vec<&[u8]>, Fault> {
    let mut head = Input { source: octets, at: 0 };
    for wanted in *b"HTMB" {
        head.octet("BadMagic", |octet| octet == wanted)?;
    }
    head.octet("BadVersion", |octet| octet == 1)?;
    let count = head.octet("BadCount", |octet| (1..=16).contains(&octet))?;
    let mut captures = Vec::new();
    for _ in 0..count {
        let mut size = [0; 4];
        head.fill(&mut size)?;
        let size = u32::from_be_bytes(size) as usize;
        let Some((capture, behind)) = head.source.split_at_checked(size) else {
            return Err(Fault::Bad("Truncated", octets.len() as u64));
        };
        captures.push(capture);
        head = Input { source: behind, at: head.at + size as u64 };
    }
    head.end()?;
    Ok(captures)
}

/// The text of `many` for the octets.
pub fn text(octets: &[u8]) -> Vec<u8> {
    match captures(octets) {
        Ok(captures) => {
            let mut text = Vec::new();
            for (number, capture) in captures.into_iter().enumerate() {
                text.extend_from_slice(format!("capture {number}\n").as_bytes());
                run_on(capture, Results::new(&mut text));
            }
            text
        }
        Err(Fault::Bad(kind, offset)) => format!("refused {kind} at {offset}\n").into_bytes(),
        Err(Fault::Read) => Vec::new(),
    }
}

pub fn run(words: &[String]) -> bool {
    if words.first().is_none_or(|word| word != "many") {
        return false;
    }
    output(&text(&input()));
    true
}
