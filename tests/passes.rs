//! Whether a report says that the table passes: of reports whole and damaged, of texts about the line, and at the longest length.

use crate::bench::Bench;
use crate::calls::Request;
use crate::document::REPORTS;
use crate::inputs::Rng;
use crate::reference::{self, REPORT_BYTES};

const LINE: &[u8] = b"verdict passes";

/// Texts, and whether they say so.
const TEXTS: &[(&str, bool)] = &[
    ("", false),
    ("\n", false),
    ("\n\n", false),
    ("verdict passes", true),
    ("verdict passes\n", true),
    ("\nverdict passes", true),
    ("\nverdict passes\n", true),
    ("\n\nverdict passes\n\n", true),
    ("verdict passes\nverdict passes", true),
    ("verdict passes\nverdict passes\n", true),
    ("verdict passes\nverdict late\n", true),
    ("verdict late\nverdict passes", true),
    ("verdict passes\r", false),
    ("verdict passes\r\n", false),
    ("\rverdict passes\n", false),
    ("tasks 1\rverdict passes\ridle 1\n", false),
    (" verdict passes\n", false),
    ("\tverdict passes\n", false),
    ("verdict passes \n", false),
    ("verdict  passes\n", false),
    ("verdict\tpasses\n", false),
    ("verdict\npasses\n", false),
    ("verdictpasses\n", false),
    ("verdict passe\n", false),
    ("erdict passes\n", false),
    ("verdict passess\n", false),
    ("vverdict passes\n", false),
    ("verdict passesverdict passes\n", false),
    ("verdict passes verdict passes\n", false),
    ("verdict verdict passes\n", false),
    ("the verdict passes all\n", false),
    ("verdict passe\nverdict passes\n", true),
    ("verdict passess\nverdict passes", true),
    ("verdict passes\0\n", false),
    ("\0verdict passes\n", false),
    ("verdict passes\0", false),
    ("Verdict passes\n", false),
    ("verdict PASSES\n", false),
    ("verdict overload\n", false),
    ("verdict late\n", false),
    ("verdict undecided\n", false),
    ("verdict refused\n", false),
    ("passes\n", false),
    ("verdict\n", false),
    ("verdict \n", false),
    ("quick pass\n", false),
];

/// Of texts made up at random, so many of a thousand at least give each answer.
const OFTEN: u64 = 20;

fn request(text: &[u8]) -> Request {
    Request::passes(text.to_vec(), text.len() as u64)
}

fn told(bench: &mut Bench, text: &[u8], passes: bool) {
    bench.ask_knowing(request(text), (u64::from(passes), Vec::new()));
}

/// Each text alone, and as lines among others.
pub fn by_hand(bench: &mut Bench) {
    for &(text, passes) in TEXTS {
        told(bench, text.as_bytes(), passes);
        told(bench, format!("tasks 1\n{text}").as_bytes(), passes);
        told(bench, format!("{text}\nidle 1\n").as_bytes(), passes);
        told(bench, format!("load 1/1\n{text}\nsettled 2\n").as_bytes(), passes);
    }
    for &(_, _, report) in REPORTS {
        told(bench, report.as_bytes(), report.contains("\nverdict passes\n"));
    }
    bench.end_group("reports and texts that say passes, by hand");
}

fn every_byte_changed(bench: &mut Bench, report: &[u8]) {
    for place in 0..report.len() {
        let others = [1, 2, 4, 8, 16, 32, 64, 128, 255].map(|change| report[place] ^ change);
        for byte in others.into_iter().chain(*b"\n\r \0sv") {
            let mut changed = report.to_vec();
            changed[place] = byte;
            bench.ask(request(&changed));
        }
    }
}

/// A byte left out or put in, and all up to it or from it on.
fn every_cut(bench: &mut Bench, report: &[u8]) {
    for place in 0..=report.len() {
        let (front, back) = report.split_at(place);
        bench.ask(request(front));
        bench.ask(request(back));
        bench.ask(request(&[front, back.get(1..).unwrap_or_default()].concat()));
        for byte in *b"\n\r \t\0sv" {
            bench.ask(request(&[front, &[byte], back].concat()));
        }
    }
}

/// A line left out, twice, first, last, with a blank before it, or with a carriage return behind it.
fn every_line(bench: &mut Bench, report: &str) {
    let lines: Vec<&str> = report.split_inclusive('\n').collect();
    for (place, line) in lines.iter().enumerate() {
        let (before, after) = (lines[..place].concat(), lines[place + 1..].concat());
        let bare = line.trim_end();
        let texts = [
            format!("{before}{after}"),
            format!("{before}{line}{line}{after}"),
            format!("{line}{before}{after}"),
            format!("{before}{after}{line}"),
            format!("{before}{after}{bare}"),
            format!("{before} {line}{after}"),
            format!("{before}{bare}\r\n{after}"),
            format!("{before}{bare}{after}"),
        ];
        texts.iter().for_each(|text| bench.ask(request(text.as_bytes())));
    }
}

pub fn damaged(bench: &mut Bench) {
    for &(_, _, report) in REPORTS {
        every_byte_changed(bench, report.as_bytes());
        every_cut(bench, report.as_bytes());
        every_line(bench, report);
        bench.ask(request(report.replace('\n', "\r\n").as_bytes()));
        bench.ask(request(report.replace('\n', "\r").as_bytes()));
    }
    bench.end_group("damaged reports, whether they say passes");
}

/// The line in a text of this length, between two fillings.
fn padded(length: usize, before: usize, filling: u8) -> Vec<u8> {
    let mut text = vec![filling; length];
    let end = before + LINE.len();
    text[before..end].copy_from_slice(LINE);
    text[..before].last_mut().into_iter().for_each(|byte| *byte = b'\n');
    text[end..].first_mut().into_iter().for_each(|byte| *byte = b'\n');
    text
}

/// The line first, in the middle, last before a line feed, and last; then texts without it.
fn of_length(bench: &mut Bench, length: usize) {
    let spare = length - LINE.len();
    for before in [0, spare / 2, spare - 1, spare] {
        told(bench, &padded(length, before, b'\n'), length <= REPORT_BYTES);
        told(bench, &padded(length, before, b'x'), length <= REPORT_BYTES);
    }
    told(bench, &vec![b'\n'; length], false);
    told(bench, &LINE.repeat(length)[..length], false);
}

/// A report that passes, and nothing at all, with a refusal for the length.
fn refusals(bench: &mut Bench) {
    for number in 1..=66 {
        for place in [0, 1, 14, 1_023, 1_024, 65_535] {
            let refusal = reference::Refusal { number, place }.result();
            for buffer in [Vec::new(), padded(REPORT_BYTES, 0, b'x')] {
                bench.ask_knowing(Request::passes(buffer, refusal), (0, Vec::new()));
            }
        }
    }
}

/// The line is told up to 1,024 bytes, and of none more.
pub fn lengths(bench: &mut Bench) {
    for length in (LINE.len() + 1..=REPORT_BYTES + 80).chain([65_535, 65_536, 70_000]) {
        of_length(bench, length);
    }
    refusals(bench);
    bench.end_group("reports of every length, and refusals for a length");
}

/// Parts of the line and what comes between lines; or letters of the line alone.
fn made_up(rng: &mut Rng) -> Vec<u8> {
    const PARTS: &[&str] =
        &["verdict passes", "\n", "\n", "verdict ", "passes", "verdict passe", "s", "\r", " ", "late", "\0"];
    const LETTERS: &[u8] = b"verdict pas\n\n\r";
    let most = rng.pick(&[4, 8, 20, 300]);
    let parts = 0..rng.below(most);
    if rng.chance(80) {
        parts.flat_map(|_| rng.pick(PARTS).bytes()).collect()
    } else {
        parts.map(|_| rng.pick(LETTERS)).collect()
    }
}

pub fn at_random(bench: &mut Bench, rng: &mut Rng, count: u64) {
    let mut passed = 0;
    for _ in 0..count {
        let asked = request(&made_up(rng));
        let said = reference::answer(&asked);
        passed += said.0;
        bench.ask_knowing(asked, said);
    }
    println!("texts that say passes: {passed} of {count}");
    let least = count * OFTEN / 1_000;
    bench.count(passed >= least && count - passed >= least, || format!("{passed} of {count} texts say passes"));
    bench.end_group("texts at random, whether they say passes");
}

/// A report, the longest texts, of many lines and of few, and what is not looked at.
pub fn hard_ones() -> Vec<Request> {
    let longest =
        |filling| [0, 500, REPORT_BYTES - LINE.len()].map(|before| request(&padded(REPORT_BYTES, before, filling)));
    let mut requests = [longest(b'x'), longest(b'\n')].concat();
    requests.extend([b"", REPORTS[1].2.as_bytes(), &[b'\n'; REPORT_BYTES], &[b'v'; REPORT_BYTES + 1]].map(request));
    requests.push(Request::passes(padded(REPORT_BYTES, 0, b'x'), 65_536));
    requests
}
