//! Whole texts and files against those of `vectors/`, none of which was made by the library; and refusals. MIZGAURE_VECTORS names the
//! folder where this crate lies apart from the repository.
use mizgaure::*;
use std::path::PathBuf;

/// A vector, of which the name is that of its folder and its file.
fn vector(name: &str) -> Vec<u8> {
    let folder = std::env::var("MIZGAURE_VECTORS").map_or_else(|_| PathBuf::from(concat!(env!("CARGO_MANIFEST_DIR"), "/../../vectors")), PathBuf::from);
    std::fs::read(folder.join(name)).unwrap_or_else(|error| panic!("the vector {name} in {}: {error}", folder.display()))
}

type Written = fn(&[u8]) -> Result<Vec<u8>, Fault>;
type Into = fn(&[u8], &mut [u8]) -> Result<usize, Fault>;
type Size = fn(&[u8]) -> u64;

#[test]
fn texts() {
    let calls: [(Written, &str, &str); 15] = [
        (detect, "worked/a5.htcp", "worked/a5.detect"),
        (detect, "worked/two-streams.htcp", "worked/two-streams.detect"),
        (rx, "worked/a5.htcp", "worked/a5.rx"),
        (rx, "rates/bw1-mcs31.htcp", "rates/bw1-mcs31.rx"),
        (soft, "worked/a5-ten-one-wrong.htcp", "worked/a5-ten-one-wrong.soft"),
        (soft, "version2/bw0-mcs09.htcp", "version2/bw0-mcs09.soft"),
        (lrx, "legacy/a5.lgcp", "legacy/a5.lrx"),
        (lrx, "legacy/annex-l1.lgcp", "legacy/annex-l1.lrx"),
        (many, "worked/three.htmb", "worked/three.many"),
        (certify, "worked/z.htcp", "worked/z.htct"),
        (check, "worked/z.htct", "worked/z.check"),
        (check, "certificates/rates-bw0-mcs21-spoiled.htct", "certificates/rates-bw0-mcs21-spoiled.check"),
        (tx, "worked/a5.httx", "worked/a5.htsy"),
        (tx, "rates/bw1-mcs31.httx", "rates/bw1-mcs31.htsy"),
        (upgrade, "worked/z.htcp", "worked/z.upgraded"),
    ];
    for (call, input, wanted) in calls {
        assert!(call(&vector(input)).unwrap() == vector(wanted), "{input}");
    }
    assert!(pass(42, 0, &vector("worked/a5.htsy")).unwrap() == vector("worked/a5.channel"));
    assert!(legacy_pass(42, 0, &vector("legacy/a5.lgtx")).unwrap() == vector("legacy/a5.lgcp"));
    // With the words of the call beside the file.
    for (name, passed, sent, call) in [
        ("rates/bw0-mcs09", "htcp", "htsy", pass as fn(u64, u16, &[u8]) -> Result<Vec<u8>, Fault>),
        ("legacy/rate7-2", "lgcp", "lgtx", legacy_pass),
    ] {
        let words = String::from_utf8(vector(&format!("{name}.words"))).unwrap();
        let numbers: Vec<u64> = words.split_whitespace().filter_map(|word| word.parse().ok()).collect();
        let made = call(numbers[0], numbers[1] as u16, &vector(&format!("{name}.{sent}"))).unwrap();
        assert!(made == vector(&format!("{name}.{passed}")), "{name}");
    }
}

#[test]
fn texts_in_a_slice() {
    let calls: [(Into, Size, &str, &str); 6] = [
        (detect_into, detect_size, "worked/z.htcp", "worked/z.detect"),
        (rx_into, rx_size, "worked/z.htcp", "worked/z.rx"),
        (soft_into, soft_size, "worked/z.htcp", "worked/z.soft"),
        (lrx_into, lrx_size, "legacy/a5.lgcp", "legacy/a5.lrx"),
        (many_into, many_size, "worked/alike.htmb", "worked/alike.many"),
        (check_into, check_size, "worked/z.htct", "worked/z.check"),
    ];
    for (call, size, input, wanted) in calls {
        let (input, wanted) = (vector(input), vector(wanted));
        let mut room = vec![85; size(&input) as usize];
        assert_eq!(call(&input, &mut room), Ok(wanted.len()));
        assert!(room.starts_with(&wanted) && room[wanted.len()..].iter().all(|octet| *octet == 85));
        let mut short = vec![85; wanted.len() - 1];
        assert_eq!(call(&input, &mut short), Err(Fault::NoRoom { size: wanted.len() as u64 }));
        assert!(short.iter().all(|octet| *octet == 85));
    }
}

/// As the header says them: of the version and the number of frames alone.
#[test]
fn sizes() {
    let (capture, newer) = ([0; 101], b"HTCP\x02\x00\x01");
    assert_eq!([detect_size, rx_size, soft_size, lrx_size].map(|size| size(&capture)), [606, 82, 82, 82]);
    assert_eq!([many_size(&capture), check_size(&capture)], [17 * 101, 16 + 2 * 101]);
    assert_eq!([rx_size, soft_size].map(|size| size(newer)), [32 + 17 * 7; 2]);
    assert_eq!(rx_size(&[&newer[..], &[0; 10000]].concat()), 32 + 131177);
}

#[test]
fn refusals() {
    let calls: [Written; 7] = [detect, rx, soft, certify, check, many, upgrade];
    for call in calls {
        assert_eq!(call(b"HT"), Err(Fault::Refused { kind: Kind::Truncated, offset: 2 }));
    }
    assert_eq!(lrx(b"HT"), Err(Fault::Refused { kind: Kind::BadMagic, offset: 0 }));
    assert_eq!(legacy_pass(1, 0, b"HT"), Err(Fault::Refused { kind: Kind::BadMagic, offset: 0 }));
    assert_eq!(pass(1, 0, b"HTC"), Err(Fault::Refused { kind: Kind::BadMagic, offset: 2 }));
    assert_eq!(tx(b""), Err(Fault::Refused { kind: Kind::Truncated, offset: 0 }));
    // The kind and the offset are those of the line that ends the program's text.
    for (call, input, line) in [
        (rx as Written, "worked/z-bad-bandwidth.htcp", "worked/z-bad-bandwidth.rx"), (rx, "worked/z-bad-length.htcp", "worked/z-bad-length.rx"),
        (detect, "worked/z-bad-magic.htcp", "worked/z-bad-magic.detect"), (detect, "worked/z-bad-version.htcp", "worked/z-bad-version.detect"),
        (soft, "worked/z-bad-longer.htcp", "worked/z-bad-longer.soft"), (rx, "worked/zz-bad-mcs.htcp", "worked/zz-bad-mcs.rx"),
        (rx, "worked/a5-bad-erased.htcp", "worked/a5-bad-erased.rx"), (many, "worked/no-captures.htmb", "worked/no-captures.many"),
        (tx, "worked/a5-bad-seed.httx", "worked/a5-bad-seed.htsy"),
        (check, "certificates/rates-bw0-mcs09-spoiled.htct", "certificates/rates-bw0-mcs09-spoiled.check"),
    ] {
        let wanted = String::from_utf8(vector(line)).unwrap();
        let said = call(&vector(input)).unwrap_err();
        assert_eq!(Some(said.to_string().as_str()), wanted.lines().last(), "{input}");
    }
    for name in ["a5-bad-pilot", "a5-bad-point"] {
        let wanted = String::from_utf8(vector(&format!("worked/{name}.channel"))).unwrap();
        let said = pass(42, 0, &vector(&format!("worked/{name}.htsy"))).unwrap_err();
        assert_eq!(Some(said.to_string().as_str()), wanted.lines().last(), "{name}");
    }
}

/// The numbers of the names are their places, as in `mizgaure.h`.
#[test]
fn names() {
    assert!((1..).zip(Kind::ALL).all(|(k, kind)| kind as u32 == k));
    assert!((1..).zip(Flaw::ALL).all(|(k, flaw)| flaw as u32 == k));
    assert_eq!(Fault::NotCertified { flaw: Flaw::WrongDistance, at: 65 }.to_string(), "WrongDistance at 65");
    assert_eq!(Fault::NoRate.to_string(), "NoRate");
}
