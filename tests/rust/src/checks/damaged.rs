//! Input that no operator means to give: bytes cut, doubled and replaced, lines of megabytes, no last line feed, thousands of lines.
//! The model says what is answered.

use crate::Checks;
use crate::known::LISTING;
use waitfield_checks::model::Model;
use waitfield_checks::random::Random;
use waitfield_checks::script::Script;

/// A session with every form in it. The first layer touches red 1 and blue 2 twice.
pub const EVERY_FORM: &str = "(circuit 2)
(layer (ccz 1 2 1) (cz (g 2) (r 1)) (cnot b 2 1))
(layer (ccz 1 2 1) (cz (g 2) (r 2)) (z (b 1)))
(layer (cnot b 2 1) (cz (g 2) (r 1)))
(cz (r 1) (b 2))
(z (r 2))
(cnot r 1 2)
(ccz 2 2 2)
(undo 1)
(start 01 10 00)
(terms)
(part b 10 01)
(step 3)
(step 1)
(one g 01)
(step 3)
(step 2)
(amp g 00 11 01)
(step 2)
(drop)
(amp r 01 10 00)
(step 65536)
";

/// Bytes that are put in the place of another: allowed ones that change the form, and ones that are refused by 3.
const REPLACEMENTS: &[u8] = b"\n (0129ag)\0\r\t-Z\x7f\x80\xff";

fn listing() -> String {
    LISTING.map(|(line, _)| format!("{line}\n")).concat()
}

/// The text with the byte at a place cut, doubled and replaced in turn. A `(drop)` before each ends what the last one left open.
fn damaged_at(text: &[u8], place: usize) -> Vec<u8> {
    let (before, after) = (&text[..place], &text[place + 1..]);
    let byte = &text[place..=place];
    let mut all = Vec::new();
    let mut add = |middle: &[u8]| {
        all.extend_from_slice(b"\n(drop)\n");
        all.extend_from_slice(&[before, middle, after].concat());
    };
    add(b"");
    add(&[byte, byte].concat());
    REPLACEMENTS.iter().for_each(|other| add(&[*other]));
    all.push(b'\n');
    all
}

fn every_place(checks: &mut Checks) {
    for text in [listing(), EVERY_FORM.to_string()] {
        let mut script = Script::default();
        let mut model = Model::default();
        for place in 0..text.len() {
            script.case(format!("byte {place} of {text:.11}.. damaged"));
            script.bytes(&mut model, &damaged_at(text.as_bytes(), place));
        }
        checks.run(&script);
    }
}

/// Every byte value at every place of a line of each form.
fn every_byte(checks: &mut Checks) {
    let mut script = Script::default();
    let mut model = Model::default();
    for line in EVERY_FORM.lines() {
        for place in 0..line.len() {
            script.case(format!("every byte at place {place} of {line}"));
            script.bytes(&mut model, b"(circuit 2)\n");
            for byte in 0..=255 {
                let mut changed = line.as_bytes().to_vec();
                changed[place] = byte;
                changed.push(b'\n');
                script.bytes(&mut model, &changed);
            }
            script.bytes(&mut model, b"(drop)\n");
        }
    }
    checks.run(&script);
}

fn long_lines(checks: &mut Checks) {
    let mut script = Script::default();
    let mut model = Model::default();
    let lengths = [
        1022,
        1023,
        1024,
        1025,
        4095,
        4096,
        4097,
        8192,
        65535,
        65536,
        65537,
        1 << 20,
        3 << 20,
    ];
    for length in lengths {
        script.case(format!("lines of {length} bytes"));
        for byte in b"1( a\0\r\xff" {
            let line = [b"(circuit 1)", &vec![*byte; length][..], b"\n(circuit 1)\n"].concat();
            script.bytes(&mut model, &line);
            let line = [&vec![*byte; length][..], b"\n(ccz 1 1 1)\n"].concat();
            script.bytes(&mut model, &line);
        }
    }
    script.case("the circuit after long lines");
    script.bytes(&mut model, b"(terms)\n(amp g 1 1 1)\n(step 2)\n");
    checks.run(&script);
}

/// Whole inputs, one process each.
fn inputs() -> Vec<(&'static str, Vec<u8>)> {
    let lines = |line: &str, count: usize| line.repeat(count).into_bytes();
    let open = "(circuit 3)\n(ccz 3 2 1)\n(amp b 111 000 101)\n";
    vec![
        ("no input", Vec::new()),
        ("one line feed", lines("\n", 1)),
        ("two line feeds", lines("\n", 2)),
        ("100,000 line feeds", lines("\n", 100_000)),
        ("no last line feed", lines("(circuit 1)", 1)),
        ("no last line feed in a refused line", lines("(circuit 1)\n(terms", 1)),
        (
            "no last line feed after an empty line",
            lines("(circuit 1)\n\n(terms)", 1),
        ),
        ("no last line feed, one byte", lines("x", 1)),
        ("no last line feed, NUL", vec![0]),
        ("no last line feed, 1,024 bytes", lines("x", 1024)),
        ("no last line feed, 1,025 bytes", lines("x", 1025)),
        ("no last line feed, a megabyte", lines("x", 1 << 20)),
        (
            "no last line feed in a listing",
            lines("(circuit 1)\n(ccz 1 1 1)\n(terms)", 1),
        ),
        ("a sum left open", open.into()),
        ("a sum left open after a step", format!("{open}(step 3)").into()),
        (
            "empty lines in a sum",
            format!("{open}\n\n(step 3)\n\n\n(step 5)\n\n").into(),
        ),
        ("CR LF", LISTING.map(|(line, _)| format!("{line}\r\n")).concat().into()),
        ("LF CR", LISTING.map(|(line, _)| format!("{line}\n\r")).concat().into()),
        ("CR only", LISTING.map(|(line, _)| format!("{line}\r")).concat().into()),
        ("a byte order mark", format!("\u{feff}{}", listing()).into()),
        ("no line feeds at all", LISTING.map(|(line, _)| line).concat().into()),
        (
            "20,000 lines",
            [lines("(circuit 2)\n", 1), lines("(ccz 1 2 1)\n(undo 1)\n", 10_000)].concat(),
        ),
        (
            "10,000 Z gates and what they leave",
            [
                lines("(circuit 2)\n", 1),
                lines("(z (r 2))\n(cnot r 1 2)\n(undo 1)\n(undo 1)\n", 10_000),
                lines("(z (r 2))\n(z (r 2))\n", 2_000),
                lines("(z (g 1))\n(terms)", 1),
            ]
            .concat(),
        ),
        ("20,000 refused lines", lines("(step 1)\nNO\n", 10_000)),
        (
            "5,000 sums",
            lines("(circuit 1)\n(part r 1 0)\n(step 1)\n(step 1)\n", 5_000),
        ),
        (
            "5,000 new circuits",
            lines(
                "(circuit 16)\n(ccz 16 16 16)\n(circuit 1)\n(ccz 1 1 1)\n(terms)\n",
                1_000,
            ),
        ),
        ("zeros", vec![0; 10_000]),
        ("high bytes", vec![0xff; 10_000]),
    ]
}

fn whole_inputs(checks: &mut Checks) {
    for (name, input) in inputs() {
        let mut script = Script::default();
        script.case(name);
        script.bytes(&mut Model::default(), &input);
        checks.run(&script);
    }
}

/// The same input in pieces: a read may end anywhere in a line.
fn pieces(checks: &mut Checks) {
    let long = format!("(circuit 1{})\n", "0".repeat(1030));
    let input = [&listing(), EVERY_FORM, &long, EVERY_FORM, "(terms)"].concat();
    for size in [1, 2, 3, 5, 7, 11, 64, 1000, 1023, 1024, 1025] {
        let mut script = Script::default();
        script.case(format!("pieces of {size}"));
        script.bytes(&mut Model::default(), input.as_bytes());
        script.run_in_pieces(&checks.program, &mut checks.tally, size);
    }
}

/// Lines of random bytes, all values or allowed ones only.
fn random_bytes(checks: &mut Checks, seed: u64) {
    let mut random = Random::new(seed);
    let mut script = Script::default();
    let mut model = Model::default();
    script.case(format!("random bytes, seed {seed}"));
    for _ in 0..500 {
        let length = random.pick(&[1, 2, 10, 30, 100, 1020, 1030, 3000]);
        let line: Vec<u8> = match random.below(3) {
            0 => (0..length).map(|_| random.draw() as u8).collect(),
            1 => (0..length).map(|_| random.pick(b"() 01r\n")).collect(),
            _ => (0..length).map(|_| random.pick(b"() 0123456789abcgnoprstz")).collect(),
        };
        script.bytes(&mut model, &[&line[..], b"\n(circuit 3)\n"].concat());
    }
    checks.run(&script);
}

pub fn check(checks: &mut Checks) {
    every_place(checks);
    every_byte(checks);
    long_lines(checks);
    whole_inputs(checks);
    pieces(checks);
    for seed in checks.seeds.clone() {
        random_bytes(checks, seed);
    }
}
