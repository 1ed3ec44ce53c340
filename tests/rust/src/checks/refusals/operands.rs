//! Refusals 6 to 14 at the edges of their ranges.

use super::Moment::{Fresh, Full, FullOpen, Held, OneOpen, Open};
use super::{GATE, Refused, Z, refused};
use waitfield_checks::layers::layer;

/// Every form but `circuit`, `step` and `drop`, with operands that a circuit of two positions takes.
const TAKEN: &[&str] = &[
    "(ccz 1 1 1)",
    "(cz (r 1) (b 1))",
    "(cz (g 2) (b 1))",
    "(cnot r 1 2)",
    "(z (r 1))",
    "(z (b 2))",
    "(z (g 2))",
    "(layer (ccz 1 1 1))",
    "(layer (z (b 1)))",
    "(layer (z (r 1)) (z (b 1)) (z (g 1)) (z (g 2)))",
    "(undo 1)",
    "(start 00 00 00)",
    "(start 10 11 01)",
    "(amp r 00 00 00)",
    "(part r 00 00)",
    "(one r 00)",
    "(one b 11)",
    "(one g 01)",
    "(terms)",
];

const ON_SUM: &[&str] = &["(step 1)", "(step 65536)", "(drop)"];

const OUT_OF_RANGE: &[&str] = &[
    "(circuit 0)",
    "(circuit 17)",
    "(circuit 257)",
    "(circuit 65537)",
    "(circuit 4294967297)",
    "(circuit 18446744073709551617)",
    "(circuit 340282366920938463463374607431768211457)",
    "(ccz 0 1 1)",
    "(ccz 1 0 1)",
    "(ccz 1 1 0)",
    "(ccz 3 1 1)",
    "(ccz 1 3 1)",
    "(ccz 1 1 3)",
    "(ccz 4294967297 1 1)",
    "(ccz 1 18446744073709551617 1)",
    "(ccz 1 1 65537)",
    "(cz (r 0) (b 1))",
    "(cz (r 1) (b 0))",
    "(cz (r 3) (b 1))",
    "(cz (g 1) (b 3))",
    "(cz (g 1) (b 18446744073709551617))",
    "(cnot r 0 1)",
    "(cnot r 1 0)",
    "(cnot b 3 1)",
    "(cnot g 1 3)",
    "(cnot g 1 18446744073709551617)",
    "(z (r 0))",
    "(z (b 0))",
    "(z (g 0))",
    "(z (r 3))",
    "(z (b 3))",
    "(z (g 3))",
    "(z (r 16))",
    "(z (b 17))",
    "(z (g 18))",
    "(z (r 257))",
    "(z (b 65537))",
    "(z (g 4294967297))",
    "(z (r 18446744073709551617))",
    "(z (b 340282366920938463463374607431768211457))",
    "(layer (z (r 0)))",
    "(layer (z (g 3)))",
    "(layer (z (r 1)) (z (b 3)))",
    "(layer (z (r 0)) (z (b 1)))",
    "(layer (ccz 1 1 1) (z (r 18446744073709551618)))",
    "(layer (z (b 4294967298)) (cnot r 1 2))",
    "(layer)",
    "(layer (ccz 3 1 1))",
    "(layer (ccz 1 1 1) (ccz 2 2 3))",
    "(layer (ccz 1 0 1) (ccz 2 1 2))",
    "(undo 0)",
    "(undo 4097)",
    "(undo 65537)",
    "(undo 4294967297)",
    "(undo 18446744073709551617)",
];

const STEP_OUT_OF_RANGE: &[&str] = &[
    "(step 0)",
    "(step 65537)",
    "(step 131072)",
    "(step 4294967297)",
    "(step 18446744073709551615)",
    "(step 18446744073709551616)",
    "(step 18446744073709551617)",
    "(step 99999999999999999999999999999999999999999999999999)",
];

const ONTO_ITSELF: &[&str] = &[
    "(cnot r 1 1)",
    "(cnot b 2 2)",
    "(cnot g 1 1)",
    "(layer (cnot r 1 1))",
    "(layer (ccz 1 1 1) (cnot b 2 2))",
    "(layer (cnot b 2 2) (cnot r 1 2))",
    "(layer (z (b 1)) (cnot b 2 2))",
    "(layer (cnot g 1 1) (z (r 2)))",
];

const OTHER_LENGTH: &[&str] = &[
    "(start 0 00 00)",
    "(start 00 0 00)",
    "(start 00 00 0)",
    "(start 000 00 00)",
    "(start 00 000 00)",
    "(start 00 00 000)",
    "(start 0 0 0)",
    "(start 11 11 1)",
    "(start 10 101 01)",
    "(amp r 1 00 00)",
    "(amp b 00 1 00)",
    "(amp g 00 00 1)",
    "(amp r 000 00 00)",
    "(amp b 00 000 00)",
    "(amp g 00 00 000)",
    "(part r 0 00)",
    "(part b 00 0)",
    "(part g 000 00)",
    "(part r 00 000)",
    "(one r 0)",
    "(one b 1)",
    "(one g 0)",
    "(one r 000)",
    "(one b 111)",
    "(one g 0000000000000000)",
];

const TOUCHED_TWICE: &[&str] = &[
    "(layer (ccz 1 2 1) (ccz 1 2 1))",
    "(layer (ccz 1 1 1) (ccz 1 2 2))",
    "(layer (ccz 1 1 1) (ccz 2 1 2))",
    "(layer (ccz 1 1 1) (ccz 2 2 1))",
    "(layer (cz (r 1) (b 1)) (cz (r 1) (b 1)))",
    "(layer (cz (r 1) (b 1)) (cz (b 1) (r 1)))",
    "(layer (cz (r 1) (b 1)) (cz (r 1) (g 1)))",
    "(layer (cz (r 1) (b 1)) (cz (g 2) (r 1)))",
    "(layer (cnot r 1 2) (cnot r 1 2))",
    "(layer (cnot r 1 2) (cnot r 2 1))",
    "(layer (ccz 2 1 1) (cz (b 2) (r 2)))",
    "(layer (cz (g 1) (b 2)) (ccz 1 2 2))",
    "(layer (ccz 1 1 1) (cnot g 1 2))",
    "(layer (ccz 1 1 1) (cnot g 2 1))",
    "(layer (cnot b 1 2) (ccz 1 1 1))",
    "(layer (cnot b 2 1) (ccz 1 1 1))",
    "(layer (cz (g 2) (r 1)) (cnot g 1 2))",
    "(layer (cnot g 2 1) (cz (r 1) (g 2)))",
    "(layer (cnot r 1 2) (cnot b 1 2) (cnot g 1 2) (ccz 1 1 1))",
    "(layer (cz (r 1) (b 1)) (cz (g 1) (r 2)) (cz (b 2) (g 1)))",
    "(layer (z (r 1)) (z (r 1)))",
    "(layer (z (b 2)) (z (b 2)))",
    "(layer (z (g 1)) (z (b 1)) (z (g 1)))",
    "(layer (z (r 1)) (ccz 1 2 2))",
    "(layer (ccz 1 2 2) (z (b 2)))",
    "(layer (z (g 2)) (ccz 1 2 2))",
    "(layer (z (r 1)) (cz (r 1) (b 1)))",
    "(layer (z (b 1)) (cz (r 1) (b 1)))",
    "(layer (cz (g 2) (r 1)) (z (g 2)))",
    "(layer (cz (g 2) (r 1)) (z (r 1)))",
    "(layer (z (r 1)) (cnot r 1 2))",
    "(layer (z (r 2)) (cnot r 1 2))",
    "(layer (cnot b 2 1) (z (b 2)))",
    "(layer (cnot b 2 1) (z (b 1)))",
    "(layer (z (g 1)) (z (r 1)) (z (r 2)) (z (b 1)) (z (b 2)) (z (g 2)) (z (g 1)))",
];

fn all(lines: &[&str], moments: &[super::Moment], number: u32, why: &str) -> Vec<Refused> {
    lines.iter().map(|line| refused(*line, moments, number, why)).collect()
}

/// Numbers of hundreds of digits and bit strings of hundreds of bits have the form.
fn long_operands() -> Vec<Refused> {
    let mut lines = Vec::new();
    for length in [17, 18, 32, 33, 64, 66, 128, 258, 300, 1000] {
        let (number, bits) = ("9".repeat(length), "0".repeat(length));
        lines.push(refused(format!("(undo {number})"), &[Held, Full], 9, "a long number"));
        lines.push(refused(format!("(z (g {number}))"), &[Held, Full], 9, "a long number"));
        lines.push(refused(
            format!("(circuit 1{bits})"),
            &[Fresh, Held],
            9,
            "a long number",
        ));
        lines.push(refused(
            format!("(step {number})"),
            &[Open, OneOpen, FullOpen],
            9,
            "a long number",
        ));
        lines.push(refused(
            format!("(amp r {bits} 00 00)"),
            &[Held, Full],
            11,
            "a long string",
        ));
        lines.push(refused(
            format!("(start 00 {bits} 00)"),
            &[Held, Full],
            11,
            "a long string",
        ));
        lines.push(refused(
            format!("(part g 00 {bits})"),
            &[Held, Full],
            11,
            "a long string",
        ));
        lines.push(refused(format!("(one g {bits})"), &[Held, Full], 11, "a long string"));
    }
    lines
}

pub fn table() -> Vec<Refused> {
    let no_sum = [Held, Full];
    let sum = [Open, OneOpen, FullOpen];
    let mut lines = vec![
        refused("(circuit 1)", &sum, 7, "a sum is open"),
        refused("(circuit 16)", &sum, 7, "a sum is open"),
        refused("(undo 3)", &[Held], 12, "more than held"),
        refused("(undo 4095)", &[Held], 12, "more than held"),
        refused("(undo 4096)", &[Held], 12, "more than held"),
        refused(layer(&[GATE; 49]), &no_sum, 9, "49 gates"),
        refused(layer(&[GATE; 60]), &no_sum, 9, "60 gates"),
        refused(layer(&[Z; 49]), &no_sum, 9, "49 Z gates"),
        refused(layer(&[Z; 90]), &no_sum, 9, "90 Z gates"),
        refused(GATE.to_string(), &[Full], 13, "no free place"),
        refused("(cz (r 1) (b 1))", &[Full], 13, "no free place"),
        refused("(cnot r 1 2)", &[Full], 13, "no free place"),
        refused("(z (r 1))", &[Full], 13, "no free place"),
        refused("(z (g 2))", &[Full], 13, "no free place"),
        refused("(layer (z (b 2)))", &[Full], 13, "no free place"),
        refused("(layer (z (b 2)) (z (r 1)))", &[Full], 13, "no free place"),
        refused("(layer (ccz 1 2 1) (z (b 1)))", &[Full], 13, "no free place"),
        refused("(layer (ccz 1 2 1))", &[Full], 13, "no free place"),
        refused("(layer (ccz 1 2 1) (ccz 2 1 2))", &[Full], 13, "no free place"),
        refused(
            "(layer (cnot r 1 2) (cnot b 2 1) (cnot g 1 2))",
            &[Full],
            13,
            "no free place",
        ),
    ];
    lines.extend(all(TAKEN, &[Fresh], 6, "no circuit"));
    lines.extend(all(ON_SUM, &[Fresh], 6, "no circuit"));
    lines.extend(all(TAKEN, &sum, 7, "a sum is open"));
    lines.extend(all(ON_SUM, &no_sum, 8, "no sum is open"));
    lines.extend(all(OUT_OF_RANGE, &no_sum, 9, "out of range"));
    lines.extend(all(&OUT_OF_RANGE[..7], &[Fresh], 9, "out of range"));
    lines.extend(all(STEP_OUT_OF_RANGE, &sum, 9, "out of range"));
    lines.extend(all(ONTO_ITSELF, &no_sum, 10, "control is target"));
    lines.extend(all(OTHER_LENGTH, &no_sum, 11, "not m long"));
    lines.extend(all(TOUCHED_TWICE, &no_sum, 14, "a position twice"));
    for count in [2, 3, 24, 25, 47, 48] {
        lines.push(refused(layer(&vec![GATE; count]), &no_sum, 14, "one gate many times"));
        lines.push(refused(layer(&vec![Z; count]), &no_sum, 14, "one Z many times"));
    }
    lines.extend(long_operands());
    lines
}
