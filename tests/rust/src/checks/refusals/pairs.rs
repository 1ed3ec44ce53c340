//! Lines that two refusals fit, for every pair that can meet; the place higher up wins, and in a place the number that
//! is tried first, the lower one but for 14 before 11. 3 stands here beside what the line would get without the byte.
//! Pairs that are not here never meet: 9 and 11, 6 and 7, 7 and 8, 6 and 13 in a program that lends 4,096 places, 5 or
//! 8 beside what only other forms get, and any two of 11, 12, 13 and 14 but 14 and 13.

use super::Moment::{Fresh, Full, FullOpen, Held, OneOpen, Open};
use super::{GATE, MOMENTS, Moment, Refused, Z, refused};
use waitfield_checks::gates::{Colour::Red, Gate, cnot, cz, z};
use waitfield_checks::layers::layer;

/// The refusal, the one it wins over, the moments, and the line.
type Pair = (u32, u32, &'static [Moment], &'static str);

const ANY: &[Moment] = &MOMENTS;
const NO_SUM: &[Moment] = &[Held, Full];
const SUM: &[Moment] = &[Open, OneOpen, FullOpen];

const PAIRS: &[Pair] = &[
    (3, 4, ANY, "(term)\r"),
    (3, 4, ANY, "(Terms )"),
    (3, 4, ANY, "(one r 02)\r"),
    (3, 4, ANY, "(z r 1)\r"),
    (3, 4, ANY, "(layer (Z r 1))"),
    (3, 5, ANY, "(cz (r 1) (r 1))\r"),
    (3, 6, &[Fresh], "(terms)\r"),
    (3, 6, &[Fresh], "(one r 00)\r"),
    (3, 6, &[Fresh], "(z (r 1))\r"),
    (3, 7, SUM, "(z (r 1))\r"),
    (3, 7, SUM, "(terms)\r"),
    (3, 7, SUM, "(one r 00)\r"),
    (3, 8, NO_SUM, "(drop)\r"),
    (3, 9, NO_SUM, "(undo 0)\r"),
    (3, 9, NO_SUM, "(z (r 3))\r"),
    (3, 10, NO_SUM, "(cnot r 1 1)\r"),
    (3, 11, NO_SUM, "(start 0 0 0)\r"),
    (3, 11, NO_SUM, "(one r 0)\r"),
    (3, 12, &[Held], "(undo 4096)\r"),
    (3, 13, &[Full], "(ccz 1 1 1)\r"),
    (3, 13, &[Full], "(z (b 1))\r"),
    (3, 14, NO_SUM, "(layer (z (b 1)) (z (b 1)))\r"),
    (3, 14, NO_SUM, "(layer (ccz 1 1 1) (ccz 1 2 2))\r"),
    (3, 14, NO_SUM, "(layer (cnot r 1 2) (CNOT r 1 2))"),
    (4, 5, ANY, "(layer (cz (r 1) (r 2)) (ccz 1 1))"),
    (4, 5, ANY, "(layer (ccz 01 1 1) (cz (r 1) (r 2)))"),
    (4, 5, ANY, "(layer (cz (r 1) (r 2)) (undo 1))"),
    (4, 5, ANY, "(layer (cz (r 1) (r 2)) (z r 1))"),
    (4, 5, ANY, "(layer (z (r 1) (r 2)) (cz (r 1) (r 2)))"),
    (4, 5, ANY, "(cz (r 1) (r 01))"),
    (4, 5, ANY, "(cz (r 1) (r 1) )"),
    (4, 6, &[Fresh], "(undo 01)"),
    (4, 6, &[Fresh], "(z (r 01))"),
    (4, 6, &[Fresh], "(layer (z (r)))"),
    (4, 6, &[Fresh], "(start 0 0 2)"),
    (4, 6, &[Fresh], "(one r 2)"),
    (4, 7, SUM, "(circuit 01)"),
    (4, 7, SUM, "(z 1)"),
    (4, 7, SUM, "(layer (z (b 1)) (z b 2))"),
    (4, 7, SUM, "(amp r 00 00 02)"),
    (4, 7, SUM, "(one r 02)"),
    (4, 7, SUM, "(one r 00 00)"),
    (4, 8, NO_SUM, "(step 00)"),
    (4, 8, NO_SUM, "(drop 1)"),
    (4, 9, NO_SUM, "(ccz 3 1 01)"),
    (4, 9, NO_SUM, "(layer (ccz 0 0 0) (ccz 0 0))"),
    (4, 9, NO_SUM, "(z (r 3) (b 1))"),
    (4, 9, NO_SUM, "(z r 0)"),
    (4, 9, NO_SUM, "(layer (z (r 0)) (z 0))"),
    (4, 10, NO_SUM, "(layer (cnot r 1 1) (z r 1))"),
    (4, 10, NO_SUM, "(layer (cnot r 1 1) (cnot r 1))"),
    (4, 11, NO_SUM, "(start 0 2 0)"),
    (4, 11, NO_SUM, "(amp r 0 00 03)"),
    (4, 11, NO_SUM, "(part r 2 00000)"),
    (4, 11, NO_SUM, "(one r 002)"),
    (4, 11, NO_SUM, "(one x 0)"),
    (4, 11, NO_SUM, "(one r 0 000)"),
    (4, 12, &[Held], "(undo 0999)"),
    (4, 13, &[Full], "(layer (ccz 1 1 1) (ccz 2 2 2) )"),
    (4, 13, &[Full], "(z (r 1) )"),
    (4, 13, &[Full], "(layer (z (r 1)) (z (b 1)) (z))"),
    (4, 14, NO_SUM, "(layer (z (r 1)) (z (r 1)) (z r 1))"),
    (4, 14, NO_SUM, "(layer (z (r 1)) (z (r 1)) )"),
    (4, 14, NO_SUM, "(layer (z (r 1) (r 1)))"),
    (4, 14, NO_SUM, "(layer (ccz 1 1 1) (ccz 1 2 2) )"),
    (4, 14, NO_SUM, "(layer (ccz 1 1 1) (ccz 1 2 2)"),
    (4, 14, NO_SUM, "(layer (ccz 1 1 1) (ccz 1 2 2) (ccz 2 2))"),
    (4, 14, NO_SUM, "(layer (undo 1) (ccz 1 1 1) (ccz 1 2 2))"),
    (5, 6, &[Fresh], "(cz (r 1) (r 2))"),
    (5, 7, SUM, "(cz (r 1) (r 2))"),
    (5, 9, NO_SUM, "(cz (r 3) (r 0))"),
    (5, 9, NO_SUM, "(layer (ccz 3 1 1) (cz (b 1) (b 2)))"),
    (5, 9, NO_SUM, "(layer (z (r 3)) (cz (b 1) (b 2)))"),
    (5, 9, NO_SUM, "(layer (cz (b 1) (b 2)) (z (b 0)))"),
    (5, 10, NO_SUM, "(layer (cnot r 1 1) (cz (b 1) (b 2)))"),
    (5, 13, &[Full], "(cz (g 1) (g 2))"),
    (5, 13, &[Full], "(layer (z (r 1)) (cz (g 1) (g 2)))"),
    (5, 14, NO_SUM, "(layer (z (r 1)) (z (r 1)) (cz (g 1) (g 2)))"),
    (5, 14, NO_SUM, "(layer (cz (r 1) (r 2)) (z (r 1)))"),
    (5, 14, NO_SUM, "(layer (cz (r 1) (r 1)))"),
    (5, 14, NO_SUM, "(layer (cz (b 1) (b 2)) (ccz 1 1 1) (ccz 1 2 2))"),
    (5, 14, NO_SUM, "(layer (ccz 1 1 1) (cz (b 1) (b 2)) (ccz 1 2 2))"),
    (5, 14, NO_SUM, "(layer (ccz 1 1 1) (ccz 1 2 2) (cz (g 1) (g 1)))"),
    (6, 8, &[Fresh], "(step 1)"),
    (6, 8, &[Fresh], "(drop)"),
    (6, 9, &[Fresh], "(step 0)"),
    (6, 9, &[Fresh], "(step 65537)"),
    (6, 9, &[Fresh], "(undo 0)"),
    (6, 9, &[Fresh], "(undo 4097)"),
    (6, 9, &[Fresh], "(layer)"),
    (6, 9, &[Fresh], "(ccz 0 1 1)"),
    (6, 9, &[Fresh], "(cz (r 17) (g 17))"),
    (6, 9, &[Fresh], "(z (r 0))"),
    (6, 9, &[Fresh], "(z (g 17))"),
    (6, 9, &[Fresh], "(layer (z (b 99999999999999999999999)))"),
    (6, 10, &[Fresh], "(cnot r 1 1)"),
    (6, 10, &[Fresh], "(layer (cnot r 1 1))"),
    (6, 11, &[Fresh], "(start 00000000000000000 0 00)"),
    (6, 11, &[Fresh], "(part b 0 00)"),
    (6, 11, &[Fresh], "(one b 00000000000000000)"),
    (6, 12, &[Fresh], "(undo 1)"),
    (6, 14, &[Fresh], "(layer (ccz 1 1 1) (ccz 1 2 2))"),
    (6, 14, &[Fresh], "(layer (cnot r 16 1) (cnot r 16 1))"),
    (6, 14, &[Fresh], "(layer (z (g 16)) (z (g 16)))"),
    (7, 9, SUM, "(circuit 0)"),
    (7, 9, SUM, "(circuit 17)"),
    (7, 9, SUM, "(ccz 0 1 1)"),
    (7, 9, SUM, "(z (r 0))"),
    (7, 9, SUM, "(z (b 3))"),
    (7, 9, SUM, "(layer (z (g 1)) (z (g 17)))"),
    (7, 9, SUM, "(undo 0)"),
    (7, 9, SUM, "(undo 4097)"),
    (7, 9, SUM, "(layer)"),
    (7, 10, SUM, "(cnot r 1 1)"),
    (7, 10, SUM, "(layer (cnot r 1 2) (cnot g 2 2))"),
    (7, 11, SUM, "(start 0 00 00)"),
    (7, 11, SUM, "(amp r 0 0 0)"),
    (7, 11, SUM, "(part r 000 00)"),
    (7, 11, SUM, "(one r 0)"),
    (7, 11, SUM, "(one g 000)"),
    (7, 12, &[Open, OneOpen], "(undo 3)"),
    (7, 12, &[Open, OneOpen], "(undo 4096)"),
    (7, 13, &[FullOpen], "(ccz 1 1 1)"),
    (7, 13, &[FullOpen], "(layer (ccz 1 1 1) (ccz 2 2 2))"),
    (7, 13, &[FullOpen], "(z (r 1))"),
    (7, 13, &[FullOpen], "(layer (z (b 1)) (z (b 2)))"),
    (7, 14, SUM, "(layer (z (r 2)) (z (r 2)))"),
    (7, 14, SUM, "(layer (ccz 1 1 1) (ccz 1 2 2))"),
    (7, 14, SUM, "(layer (cz (r 1) (b 1)) (cnot b 2 1))"),
    (7, 14, SUM, "(layer (cnot g 1 2) (cnot g 1 2))"),
    (8, 9, NO_SUM, "(step 0)"),
    (8, 9, NO_SUM, "(step 65537)"),
    (8, 9, NO_SUM, "(step 99999999999999999999999)"),
    (9, 10, NO_SUM, "(cnot r 3 3)"),
    (9, 10, NO_SUM, "(cnot g 0 0)"),
    (9, 10, NO_SUM, "(cnot b 18446744073709551617 18446744073709551617)"),
    (9, 10, NO_SUM, "(layer (cnot r 1 1) (ccz 3 1 1))"),
    (9, 10, NO_SUM, "(layer (ccz 1 1 0) (cnot r 1 1))"),
    (9, 10, NO_SUM, "(layer (cnot r 1 1) (z (r 3)))"),
    (9, 10, NO_SUM, "(layer (z (b 0)) (cnot r 2 2))"),
    (9, 12, NO_SUM, "(undo 4097)"),
    (9, 12, NO_SUM, "(undo 99999999999999999999999)"),
    (9, 13, &[Full], "(ccz 1 1 3)"),
    (9, 13, &[Full], "(layer (ccz 1 1 1) (cz (r 2) (g 0)))"),
    (9, 13, &[Full], "(z (r 3))"),
    (9, 13, &[Full], "(layer (z (r 1)) (z (b 0)))"),
    (9, 14, NO_SUM, "(layer (z (r 3)) (z (r 3)))"),
    (9, 14, NO_SUM, "(layer (z (r 0)) (z (r 0)))"),
    (9, 14, NO_SUM, "(layer (z (r 1)) (z (r 1)) (z (g 3)))"),
    (9, 14, NO_SUM, "(layer (ccz 1 1 1) (z (b 0)) (z (r 1)))"),
    (9, 14, NO_SUM, "(layer (cnot r 1 2) (z (r 2)) (cz (b 1) (g 3)))"),
    (9, 14, NO_SUM, "(layer (ccz 3 1 1) (ccz 1 2 2) (ccz 1 1 2))"),
    (9, 14, NO_SUM, "(layer (ccz 1 1 1) (ccz 2 2 0) (ccz 1 2 2))"),
    (9, 14, NO_SUM, "(layer (ccz 1 1 1) (ccz 1 2 2) (cnot g 3 1))"),
    (9, 14, NO_SUM, "(layer (ccz 1 1 1) (cz (r 1) (b 3)))"),
    (9, 14, NO_SUM, "(layer (cnot r 0 1) (cnot r 1 2))"),
    (9, 14, NO_SUM, "(layer (ccz 3 1 1) (ccz 3 2 2))"),
    (9, 14, NO_SUM, "(layer (cz (r 0) (b 1)) (cz (g 1) (r 0)))"),
    (
        9,
        14,
        NO_SUM,
        "(layer (ccz 1 1 18446744073709551617) (ccz 2 2 18446744073709551617))",
    ),
    (10, 13, &[Full], "(cnot r 2 2)"),
    (10, 13, &[Full], "(layer (ccz 1 1 1) (cnot b 2 2))"),
    (10, 13, &[Full], "(layer (z (r 1)) (cnot b 2 2))"),
    (10, 14, NO_SUM, "(layer (z (r 1)) (z (r 1)) (cnot b 2 2))"),
    (10, 14, NO_SUM, "(layer (z (b 2)) (cnot b 2 2))"),
    (10, 14, NO_SUM, "(layer (cnot g 1 1) (z (b 2)) (ccz 1 2 2))"),
    (10, 14, NO_SUM, "(layer (cnot r 2 2))"),
    (10, 14, NO_SUM, "(layer (ccz 1 1 1) (cnot b 1 1))"),
    (10, 14, NO_SUM, "(layer (cnot g 2 2) (ccz 1 1 1) (ccz 1 2 2))"),
    (10, 14, NO_SUM, "(layer (ccz 1 1 1) (cnot g 2 2) (ccz 1 2 2))"),
    (10, 14, NO_SUM, "(layer (ccz 1 1 1) (ccz 1 2 1) (cnot g 2 2))"),
    (10, 14, NO_SUM, "(layer (cnot r 1 2) (cnot r 1 2) (cnot b 1 1))"),
    (14, 13, &[Full], "(layer (ccz 1 1 1) (ccz 1 2 2))"),
    (14, 13, &[Full], "(layer (cz (r 2) (g 1)) (cnot g 1 2))"),
    (14, 13, &[Full], "(layer (cnot b 1 2) (cnot b 2 1))"),
    (14, 13, &[Full], "(layer (z (b 1)) (z (b 1)))"),
    (14, 13, &[Full], "(layer (z (g 1)) (ccz 1 1 1))"),
    (14, 13, &[Full], "(layer (cz (r 2) (g 1)) (z (r 2)))"),
    (14, 13, &[Full], "(layer (cnot r 1 2) (z (r 1)))"),
    (14, 13, &[Full], "(layer (z (r 2)) (cnot r 1 2))"),
];

/// A layer of so many gates, all the same but one.
fn with(count: usize, gate: Gate, place: usize) -> String {
    let mut gates = vec![GATE; count];
    gates[place] = gate;
    layer(&gates)
}

/// Layers of 49 gates, one of them also refused by another number.
fn too_many_gates() -> Vec<Refused> {
    let onto_itself = cnot(Red, 1, 1);
    let mut lines = Vec::new();
    for place in [0, 24, 47, 48] {
        let twice = with(49, cz(Red, 1, Red, 2), place);
        lines.push(refused(twice, ANY, 5, "over 9, 49 gates"));
        lines.push(refused(with(49, onto_itself, place), NO_SUM, 9, "over 10, 49 gates"));
        let malformed = with(49, onto_itself, place).replace("(cnot r 1 1)", "(cnot r 1)");
        lines.push(refused(malformed, ANY, 4, "over 9, 49 gates"));
        let malformed = with(49, Z, place).replace("(z (b 1))", "(z b 1)");
        lines.push(refused(malformed, ANY, 4, "over 9, 49 gates"));
        lines.push(refused(with(49, z(Red, 3), place), SUM, 7, "over 9, 49 gates"));
    }
    lines.push(refused(layer(&[GATE; 49]), &[Fresh], 6, "over 9, 49 gates"));
    lines.push(refused(layer(&[GATE; 49]), SUM, 7, "over 9, 49 gates"));
    lines.push(refused(layer(&[GATE; 49]), &[Full], 9, "over 13, 49 gates"));
    lines.push(refused(layer(&[GATE; 49]), &[Held], 9, "over 14, 49 gates"));
    lines.push(refused(layer(&[Z; 49]), &[Fresh], 6, "over 9, 49 Z gates"));
    lines.push(refused(layer(&[Z; 49]), SUM, 7, "over 9, 49 Z gates"));
    lines.push(refused(layer(&[Z; 49]), &[Full], 9, "over 13, 49 Z gates"));
    lines.push(refused(layer(&[Z; 49]), &[Held], 9, "over 14, 49 Z gates"));
    lines
}

/// Layers of 48 gates, which touch a position many times, one of them also refused by another number.
fn most_gates() -> Vec<Refused> {
    let mut lines = Vec::new();
    for place in [0, 24, 47] {
        let twice = with(48, cz(Red, 1, Red, 2), place);
        let malformed = twice.replace("(cz (r 1) (r 2))", "(cz (r 1))");
        lines.push(refused(malformed, ANY, 4, "over 14, 48 gates"));
        lines.push(refused(twice, ANY, 5, "over 14, 48 gates"));
        lines.push(refused(
            with(48, cnot(Red, 1, 3), place),
            NO_SUM,
            9,
            "over 14, 48 gates",
        ));
        lines.push(refused(
            with(48, cnot(Red, 1, 1), place),
            NO_SUM,
            10,
            "over 14, 48 gates",
        ));
        lines.push(refused(with(48, z(Red, 3), place), NO_SUM, 9, "over 14, 48 gates"));
        let malformed = with(48, Z, place).replace("(z (b 1))", "(z (b 1) (r 1))");
        lines.push(refused(malformed, ANY, 4, "over 14, 48 gates"));
    }
    lines.push(refused(layer(&[GATE; 48]), &[Fresh], 6, "over 14, 48 gates"));
    lines.push(refused(layer(&[GATE; 48]), SUM, 7, "over 14, 48 gates"));
    lines.push(refused(layer(&[GATE; 48]), &[Full], 14, "over 13, 48 gates"));
    lines.push(refused(layer(&[Z; 48]), &[Fresh], 6, "over 14, 48 Z gates"));
    lines.push(refused(layer(&[Z; 48]), SUM, 7, "over 14, 48 Z gates"));
    lines.push(refused(layer(&[Z; 48]), &[Full], 14, "over 13, 48 Z gates"));
    lines
}

/// Lines of more than 1,024 bytes that any other number fits.
fn too_long() -> Vec<Refused> {
    let (ones, zeros) = ("1".repeat(1100), "0".repeat(1100));
    vec![
        refused("A".repeat(1025), ANY, 2, "over 3"),
        refused([b"(terms)".to_vec(), vec![0; 1018]].concat(), ANY, 2, "over 3"),
        refused("x".repeat(1025), ANY, 2, "over 4"),
        refused(format!("(z r {ones})"), ANY, 2, "over 4"),
        refused(format!("(cz (r 1) (r {ones}))"), ANY, 2, "over 5"),
        refused(format!("(undo {ones})"), &[Fresh], 2, "over 6"),
        refused(format!("(undo {ones})"), SUM, 2, "over 7"),
        refused(format!("(step {ones})"), NO_SUM, 2, "over 8"),
        refused(format!("(step {ones})"), SUM, 2, "over 9"),
        refused(format!("(circuit {ones})"), NO_SUM, 2, "over 9"),
        refused(layer(&[GATE; 100]), NO_SUM, 2, "over 9"),
        refused(layer(&[Z; 110]), NO_SUM, 2, "over 9"),
        refused(format!("(z (r {ones}))"), NO_SUM, 2, "over 9"),
        refused(format!("(z (r {ones}))"), SUM, 2, "over 7"),
        refused(format!("(z (r {ones}))"), &[Fresh], 2, "over 6"),
        refused(format!("(cnot r {ones} {ones})"), NO_SUM, 2, "over 10"),
        refused(format!("(start {zeros} 00 00)"), NO_SUM, 2, "over 11"),
        refused(format!("(one r {zeros})"), NO_SUM, 2, "over 11"),
        refused(format!("(one r {zeros})"), SUM, 2, "over 7"),
        refused(format!("(undo {ones})"), &[Held], 2, "over 12"),
        refused(layer(&[GATE; 90]), &[Full], 2, "over 13"),
        refused(layer(&[GATE; 90]), &[Held], 2, "over 14"),
        refused(format!("(layer (ccz 1 1 1) (ccz 1 2 {ones}))"), NO_SUM, 2, "over 14"),
    ]
}

pub fn table() -> Vec<Refused> {
    let pair = |&(number, over, moments, line): &Pair| refused(line, moments, number, &format!("over {over}"));
    let mut lines: Vec<Refused> = PAIRS.iter().map(pair).collect();
    lines.extend(too_many_gates());
    lines.extend(most_gates());
    lines.extend(too_long());
    lines
}
