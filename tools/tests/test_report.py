"""Packets, frames, the report and merged sweeps as a user meets them."""

import hashlib
import html.parser
import json
import re
import tarfile

import numpy as np
import pytest
from conftest import TOP, VECTORS

import mizgaure
from mizgaure import Rate, SymbolsFrame, read_htsy, read_httx, write_htsy
from mizgaure.packets import aggregate, take_apart, with_fcs
from mizgaure.tracing import program_facts, recorded

MPDUS = ["88010000020000000001020000000002020000000003100000006869", "b400000002000000000102:00:00:00:00:02"]


@pytest.fixture
def sent(here, tmp_path):
    """A capture of MPDUs, one of which is spoiled by its channel, and an A-MPDU of both."""
    (tmp_path / "mpdus").write_text("# two MPDUs\n" + "\n".join(MPDUS) + "\n")
    assert here("frames", "mpdus", "-o", "single.httx", "--mcs", 9).returncode == 0
    assert here("frames", "mpdus", "-o", "both.httx", "--aggregate", 2, "--mcs", 4, "--bandwidth", 40, "--seed", 93).returncode == 0
    return tmp_path


def receive(radio, octets: bytes) -> bytes:
    """Symbols through the program's own channel without noise."""
    with radio.text("tx", octets) as symbols:
        made = symbols.read()
    with radio.text("channel", made) as capture:
        return capture.read()


def test_frames_are_made_of_lines(sent):
    octets = [with_fcs(bytes.fromhex(line.replace(":", ""))) for line in MPDUS]
    single, both = list(read_httx(sent / "single.httx")), list(read_httx(sent / "both.httx"))
    assert [frame.octets for frame in single] == octets and [frame.seed for frame in single] == [1, 2]
    assert [str(frame.rate)[:13] for frame in single] == ["20 MHz, MCS 9"] * 2
    assert both[0].octets == aggregate(octets) and (both[0].seed, both[0].rate.mcs, both[0].rate.bandwidth, len(both)) == (93, 4, 40, 1)


def test_packets_of_a_capture(sent, here, radio, tmp_path):
    if not radio.knows("channel"):
        pytest.skip("the program has no command channel")
    octets = (tmp_path / "single.httx").read_bytes()
    (tmp_path / "one.htcp").write_bytes(receive(radio, octets))
    done = here("packets", "one.htcp", "-o", "one.pcap", "--csv", "one.csv", "--json", "one.json")
    assert done.stderr == b"" and done.stdout.decode().splitlines() == [
        "frame 0: MPDU of 32 octets, FCS good, QoS Data, BSSID 02:00:00:00:00:01, SA 02:00:00:00:00:02, DA 02:00:00:00:00:03, sequence 1",
        "frame 1: MPDU of 20 octets, FCS good, RTS, RA 02:00:00:00:00:01, TA 02:00:00:00:00:02",
        "2 frames, 2 MPDUs: 2 with a good FCS"]
    rows = (tmp_path / "one.csv").read_text().splitlines()
    assert rows[0].startswith("frame,bandwidth,mcs,aggregated,mpdu,offset,octets,fcs,type,sequence,RA,TA")
    assert rows[2].startswith("1,20,9,false,0,0,20,good,RTS,,02:")
    records = [json.loads(line) for line in (tmp_path / "one.json").read_text().splitlines()]
    assert records[0]["sequence"] == 1 and records[1]["RA"] == "02:00:00:00:00:01" and records[1]["DA"] is None
    # What is in the pcap file is sent as it was.
    assert here("frames", "one.pcap", "-o", "again.httx").returncode == 0 and (tmp_path / "again.httx").read_bytes() == octets
    # Kept lines do, with the capture and without.
    lines = here("answers", "one.htcp", "--command", "rx").stdout
    (tmp_path / "lines").write_bytes(lines)
    assert here("packets", "one.htcp", "--answers", "lines").stdout == done.stdout == here("packets", "lines").stdout
    assert here("packets", "-", given=lines).stdout == done.stdout
    (tmp_path / "others").write_bytes(b"end 0 frames\n")
    other = here("packets", "one.htcp", "--answers", "others", "-o", "other.pcap")
    assert other.returncode == 2 and other.stderr.endswith(b", and in these answers 0\n") and not (tmp_path / "other.pcap").exists()


@pytest.fixture
def both(sent):
    """The octets of the A-MPDU, the same with one bit wrong in it, and lines of both and of a frame whose seed is zero."""
    psdu = next(iter(read_httx((sent / "both.httx").read_bytes()))).octets
    spoiled = bytearray(psdu)
    spoiled[20] ^= 1
    lines = b"".join(b"frame %d data 0 pilot 0 code 0 octets %b\n" % (n, each.hex().encode()) for n, each in enumerate((psdu, bytes(spoiled))))
    return psdu, bytes(spoiled), lines + b"frame 2 data 0 pilot 0 code 0 seed zero\nend 3 frames\n"


def test_packets_of_an_a_mpdu(both, here, tmp_path):
    psdu, spoiled, lines = both
    done = here("packets", "-", "-o", "both.pcap", given=lines)
    said = done.stdout.decode().splitlines()
    assert said[0] == "frame 0: A-MPDU of 60 octets, 2 MPDUs, 2 with a good FCS" and said[3].endswith("2 MPDUs, 1 with a good FCS")
    assert said[4].startswith("frame 1 MPDU 0: 32 octets, FCS bad, QoS Data") and said[6] == "frame 2: no octets, since the scrambler's seed is zero"
    assert said[7] == "3 frames, 4 MPDUs: 3 with a good FCS; 1 without octets"
    assert here("frames", "both.pcap", "-o", "again.httx").returncode == 0
    again = list(read_httx(tmp_path / "again.httx"))
    assert [frame.octets for frame in again] == [psdu, aggregate([part.octets for part in take_apart(spoiled).mpdus])]
    forced = here("packets", "-", "--aggregated", "no", given=lines).stdout.decode().splitlines()
    assert forced[0].startswith("frame 0: MPDU of 60 octets, FCS bad")


def test_wireshark_reads_an_a_mpdu(both, here, tshark, tmp_path):
    assert here("packets", "-", "-o", "both.pcap", given=both[2]).returncode == 0
    fields = ("-e", "radiotap.ampdu.reference", "-e", "radiotap.flags.badfcs")
    assert tshark("-r", tmp_path / "both.pcap", "-T", "fields", *fields) == ["0\t0", "0\t0", "1\t1", "1\t0"]


def bad_words():
    """Words and the one sentence that they get."""
    yield ["frames", "-", "-o", "x"], b"12 34\nxyz\n", "standard input: line 2 isn't hexadecimal digits, two for each octet"
    yield ["frames", "-", "-o", "x", "--fcs", "there"], b"00112233445566\n", "standard input: line 1 doesn't end with its FCS"
    yield ["frames", "-", "-o", "x", "--seed", "128"], b"00\n", "the seed is 128, and only 1 to 127 are known"
    yield ["frames", "-", "-o", "x", "--mcs", "32"], b"00\n", "standard input: the MCS is 32, and only 0 to 31 are known"
    yield ["frames", "-", "-o", "x", "--aggregate", "1"], b"00" * 4092 + b"\n", "standard input: an MPDU has 4096 octets, and in an A-MPDU it has at most 4095"
    yield ["packets", "-"], b"something", "standard input: refused BadMagic at 0"
    yield ["packets", "-"], b"job 0 0 0 1 1 0\nend 1 frames\n", "standard input: these are lines of radio detect, and those of radio rx are asked for"
    yield ["packets", "-"], b"frame 0 data 0 pilot 0 code 0 octets 00\n", "standard input: the lines of radio rx have no end"
    yield ["merge", VECTORS / "README.md"], b"", f"{VECTORS / 'README.md'}: this isn't the output of a sweep (JSONDecodeError)"
    yield ["report", "-", "-o", "x"], b"", "a report reads its captures twice, and so not from standard input"
    yield ["answers", "-", "--part", "2/1"], b"", None
    yield ["sweep", "--resume"], b"", "--resume goes on with a file, which --output names"
    yield ["sweep", "--channel", "none"], b"", "the channel is one of exponential, flat, tapped, tgn-b, tgn-d, awgn or a function as FILE.py:NAME, and not none"
    yield ["sweep", "--detector", "zf"], b"", "a detector is given as NAME=FILE.py:FUNCTION or NAME=COMMAND, and not as zf"


@pytest.mark.parametrize("words, given, said", [pytest.param(*case, id=f"{n}-{case[0][0]}") for n, case in enumerate(bad_words())])
def test_bad_input_gets_one_sentence(here, words, given, said, tmp_path):
    done = here(*words, given=given)
    text = done.stderr.decode()
    assert done.returncode == 2 and "Traceback" not in text and (said is None or text == f"mizgaure: {said}\n")
    assert [path.name for path in tmp_path.iterdir()] == []


class Page(html.parser.HTMLParser):
    """The tags of a page that are open, what it refers to, and its text."""

    def __init__(self):
        super().__init__()
        self.open, self.sources, self.text, self.images = [], [], "", 0

    def handle_starttag(self, tag, attributes):
        found = dict(attributes)
        self.sources += [value for name, value in attributes if name in ("src", "href", "srcset", "action")]
        self.images += tag == "img"
        assert tag != "img" or found["alt"]
        if tag not in ("meta", "img", "br"):
            self.open.append(tag)

    def handle_endtag(self, tag):
        assert self.open.pop() == tag

    def handle_data(self, data):
        self.text += data


def test_a_report_is_one_page_that_needs_no_net(here, tmp_path):
    pytest.importorskip("matplotlib")
    path = VECTORS / "jobs" / "small-mcs09.htcp"
    (tmp_path / "<&.htcp").write_bytes(path.read_bytes())
    (tmp_path / "theirs").write_bytes(here("zero-forcing", path).stdout)
    done = here("report", "<&.htcp", TOP / "examples" / "z.htcp", "-o", "made.html", "--theirs", "theirs", "--theirs", "theirs")
    assert done.returncode == 0 and "56 misplaced" in (tmp_path / "made.html").read_text()  # the second capture has other jobs
    done = here("report", "<&.htcp", "-o", "made.html", "--theirs", "theirs", "--title", "Ours & theirs", "--force")
    assert done.returncode == 0 and done.stdout == done.stderr == b""
    made = (tmp_path / "made.html").read_text()
    page = Page()
    page.feed(made)
    page.close()
    assert page.open == [] and page.images == 4 and all(source.startswith("data:image/png;base64,") for source in page.sources)
    assert '<span class="open">EVM of 1 frame at' in made  # one frame has no verdict
    assert "url(" not in made and "<script" not in made and "@import" not in made
    assert "Ours & theirs" in page.text and "<&.htcp" in page.text and "14 same, 1 tie, 41 worse" in page.text and "tested and not proved" in page.text
    assert here("report", "<&.htcp", "-o", "made.html").returncode == 2
    assert here("report", "<&.htcp", "-o", "made.html", "--force", "--pictures", 0).returncode == 0
    assert "<img" not in (tmp_path / "made.html").read_text()


def test_a_sweep_in_parts_as_a_cluster_does_it(here, tmp_path):
    words = ["sweep", "--mcs", 0, "--length", 5, "--snr", "2,8", "--frames", 34, "--channel", "awgn", "--processes", 1, "--detector", "zf=zero-forcing"]
    whole = here(*words, "-o", "whole.json", "--csv", "whole.csv")
    assert whole.returncode == 0 and whole.stdout.count(b"zf: SER") == 2
    for part in (1, 2):
        assert here(*words, "--part", f"{part}/2", "-o", f"part{part}.json").returncode == 0
    done = here("merge", "part1.json", "part2.json", "-o", "merged.json", "--csv", "merged.csv")
    assert done.stdout == whole.stdout and (tmp_path / "merged.csv").read_text() == (tmp_path / "whole.csv").read_text()
    assert (tmp_path / "merged.json").read_text() == (tmp_path / "whole.json").read_text()
    assert b"34 of 68 frames are missing" in here("merge", "part1.json").stdout or b"frames are missing" in here("merge", "part1.json").stdout
    # What is missing is done, and nothing else.
    (tmp_path / "some.json").write_text("".join((tmp_path / "whole.json").read_text().splitlines(keepends=True)[:4]))
    assert here(*words, "-o", "some.json", "--resume").stdout == whole.stdout
    assert (tmp_path / "some.json").read_text() == (tmp_path / "whole.json").read_text()
    assert re.match(rb"mizgaure: some.json is there already", here(*words, "-o", "some.json").stderr)


def test_answers_in_parts_and_by_processes(here, command):
    path = VECTORS / "rates" / "bw0-mcs00.htcp"
    whole = here("answers", path).stdout
    assert whole == path.with_suffix(".detect").read_bytes()
    assert here("answers", path, "--processes", 2).stdout == whole
    assert b"".join(here("answers", path, "--part", f"{part}/3").stdout for part in (1, 2, 3)) == whole
    assert command("answers", "-", given=path.read_bytes()).stdout == whole
    assert here("answers", path, "--part", "1/2", "-o", "x.npz").stderr == b"mizgaure: a part has lines and no arrays: join the parts first\n"
    assert [frame.length for frame in read_htsy(path.with_suffix(".htsy"))]


def test_a_report_that_can_be_traced(here, tmp_path, radio):
    """Date, versions, command line and digests; a recording with its tests and pictures, a sweep, and a line to sign."""
    pytest.importorskip("matplotlib")
    (tmp_path / "sent.htsy").write_bytes((VECTORS / "worked" / "a5.htsy").read_bytes())
    assert here("waveform", "sent.htsy", "-o", "air", "--offset", 7).returncode == 0
    assert here("sweep", "--length", 5, "--snr", "9", "--frames", 2, "--processes", 1, "-o", "sweep.json", "--seed", 41).returncode == 0
    words = ["report", "air", VECTORS / "jobs" / "small-mcs09.htcp", "--sweep", "sweep.json", "-o", "it.html", "--pictures", 0, "--reference-ppm", 1]
    done = here(*words)
    assert done.returncode == 0 and done.stdout == done.stderr == b""
    page = Page()
    page.feed((tmp_path / "it.html").read_text())
    page.close()
    assert page.open == [] and page.images == 8 + 1
    assert re.search(r"made\s*20\d\d-\d\d-\d\d \d\d:\d\d:\d\d UTC", page.text)
    assert f"mizgaure tools {mizgaure.__version__}" in page.text and f"mizgaure {' '.join(map(str, words))}" in page.text
    for path in ("air.sigmf-meta", "air.sigmf-data", "sweep.json", VECTORS / "jobs" / "small-mcs09.htcp", radio.path):
        assert hashlib.sha256((tmp_path / path).read_bytes()).hexdigest() in page.text
    for test in ("spectral mask", "spectral flatness", "centre frequency", "symbol clock", "centre frequency leakage", "constellation error"):
        assert test in page.text
    assert "no verdict: 1 of 20 frames" in page.text and "signature" in page.text and "noise of a subcarrier" in page.text
    assert "0 of 6 pass; 6 without a verdict (spectral mask, spectral flatness, " in page.text
    assert "instants of 1 antenna, cf32_le" in page.text
    assert "wrong by at most 1 ppm" in page.text and "Figure 9: error rates" in page.text and "from memory of the standard" in page.text
    assert "device under test" in page.text and page.text.index("spectral mask") < page.text.index("Frames")  # what is signed comes first
    assert '<span class="open">' in (tmp_path / "it.html").read_text()
    assert here("report", TOP / "examples" / "z.htcp", "-o", "other.html", "--reference-ppm", 1).stderr == (
        b"mizgaure: --reference-ppm does nothing here: it is said of recordings, and there is none\n")


def test_a_report_of_recordings_alone(here, tmp_path, radio):
    """The program has no part in it: none is named, and none is asked for; what isn't measured is counted, and the constellation has its error."""
    pytest.importorskip("matplotlib")
    frames = [SymbolsFrame(Rate(20, 9), 300, random_points(Rate(20, 9), 300, seed)) for seed in range(3)]
    write_htsy("sent.htsy", frames)
    octets = b""
    for words in (["--stbc", 1], ["--error", "-20", "--offset", 3]):
        assert here("waveform", "sent.htsy", "-o", "part", "--raw", "--force", "--antennas", 3, *words).returncode == 0
        octets += (tmp_path / "part").read_bytes()
    assert here("waveform", "sent.htsy", "-o", "air", "--antennas", 3).returncode == 0
    (tmp_path / "air.sigmf-data").write_bytes(octets + b"abc")
    done = here("report", "air", "-o", "it.html", "--reference-ppm", 0.5)
    assert done.returncode == 0 and done.stdout == done.stderr == b""
    page = Page()
    page.feed((tmp_path / "it.html").read_text())
    page.close()
    assert '<span class="open">no verdict: 3 of 20 frames</span>' in (tmp_path / "it.html").read_text()
    assert "Recordings, measured" in page.text and "the program takes no part in it" in page.text and "tested and not proved" in page.text
    assert "radio found" not in page.text and "SHA-256 of the program" not in page.text and radio.path not in page.text
    assert "3 measured; 3 packets aren't measured: 3 with STBC" in page.text and "3 octets at its end are no whole sample" in page.text
    pictures = re.findall(r"Figure \d+: ([^,]+)", page.text)
    assert pictures == ["the spectrum and the mask", "spectral flatness", "errors over subcarriers", "errors over symbols", "the channel over subcarriers",
                        "the channel over delays", "the phase of symbols", "the constellation of MCS 9", "the constellation of MCS 9"] and page.images == 9
    for words, said in ((["--radio", radio.path], "--radio does nothing here: recordings and sweeps are looked at without it"),
                        (["--pictures", 1], "--pictures does nothing here: the frames of captures are drawn, and there is none"),
                        (["--theirs", "x"], "--theirs comes once for each capture: captures 0, --theirs 1"),
                        (["--shift", "8e6"], "air.sigmf-data: a shift of 8 MHz leaves the 20 MHz that were recorded")):
        refused = here("report", "air", "-o", "other.html", *words)
        assert (refused.returncode, refused.stderr.decode()) == (2, f"mizgaure: {said}\n")
    for name in ("--frequency", "--shift", "--reference-ppm"):
        refused = here("report", TOP / "examples" / "z.htcp", "-o", "other.html", name, 1)
        assert refused.stderr.decode() == f"mizgaure: {name} does nothing here: it is said of recordings, and there is none\n"
    with tarfile.open("arch.sigmf", "w") as archive:
        for name in ("air.sigmf-meta", "air.sigmf-data"):
            archive.add(name, f"air/{name}")
    assert here("report", "arch.sigmf", "-o", "arch.html").returncode == 0
    assert hashlib.sha256((tmp_path / "arch.sigmf").read_bytes()).hexdigest() in (tmp_path / "arch.html").read_text()
    (tmp_path / "air.sigmf-data").rename(tmp_path / "samples")
    meta = json.loads((tmp_path / "air.sigmf-meta").read_text())
    meta["global"]["core:dataset"] = "samples"
    (tmp_path / "air.sigmf-meta").write_text(json.dumps(meta))
    assert here("report", "air", TOP / "examples" / "z.htcp", "-o", "both.html", "--pictures", 0).returncode == 0
    both = (tmp_path / "both.html").read_text()
    assert "Captures and recordings, measured" in both and "radio found" in both and "takes no part in it" in both and radio.path in both
    for name in ("samples", "air.sigmf-meta"):
        assert f"<dt>SHA-256 of {name}</dt><dd><code>{hashlib.sha256((tmp_path / name).read_bytes()).hexdigest()}" in both


def random_points(rate, length, seed):
    """The points of a frame of random bits."""
    random = np.random.default_rng(seed)
    points = rate.points[random.integers(0, rate.points.size, (rate.symbols(length), rate.subcarriers, rate.streams))]
    points[:, rate.is_pilot] = rate.pilot_signs(len(points))
    return points


def test_what_the_program_says_of_itself(tmp_path):
    told = tmp_path / "radio"
    told.write_text("#!/bin/sh\necho mizgaure 1234\necho kit 9\n")
    told.chmod(0o755)
    assert dict(program_facts(str(told))) == {"program": str(told), "SHA-256 of the program": hashlib.sha256(told.read_bytes()).hexdigest(),
                                              "version and toolchain of the program": "mizgaure 1234, kit 9"}
    behind = tmp_path / "crates" / "ht_radio" / "out" / "ht_radio"
    behind.parent.mkdir(parents=True)
    behind.write_bytes(b"the program")
    assert dict(program_facts(str(told)))["SHA-256 of crates/ht_radio/out/ht_radio"] == hashlib.sha256(b"the program").hexdigest()
    told.write_text("#!/bin/sh\nexit 2\n")
    assert dict(program_facts(str(told)))["version and toolchain of the program"] == "not known: this program doesn't say it, as the script radio does"


def test_what_a_recording_says_of_itself(tmp_path):
    """Who made it, with what and when, where its metadata have that; what isn't text is passed over."""
    meta = {"global": {"core:datatype": "cf32_le", "core:version": "1.0.0", "core:author": "A. Tester", "core:hw": "a receiver and a cable",
                       "core:recorder": 7},
            "captures": [{"core:sample_start": 0, "core:datetime": "2026-01-31T12:00:00Z"}, {"core:sample_start": 9}]}
    (tmp_path / "it.sigmf-meta").write_text(json.dumps(meta))
    said = [("recorded by", "A. Tester"), ("hardware", "a receiver and a cable"), ("taken", "2026-01-31T12:00:00Z")]
    assert recorded(str(tmp_path / "it.sigmf-meta")) == said
    assert recorded(str(tmp_path / "none.sigmf-meta")) == []
