//! Refusals 2 to 5. They stand above every moment: the line gets the same number whatever has gone before.

use super::{MOMENTS, Refused, refused};
use crate::known::long_circuit;

#[rustfmt::skip]
const NO_FORM: &[&str] = &[
    "(", ")", "()", "(())", " ", "  ", "a", "0", "1", "r", "ok", "(ok)", "(a)", "(1)", "(no 4)",
    // circuit
    "circuit", "circuit 1", "(circuit)", "(circuit )", "( circuit 1)", "(circuit 1 )", "(circuit  1)", "(circuit 1",
    "circuit 1)", "((circuit 1))", "(circuit 1))", "((circuit 1)", "(circuit 1)(circuit 1)", "(circuit 1) (circuit 1)",
    " (circuit 1)", "(circuit 1) ", "(circuit 01)", "(circuit 00)", "(circuit 1 1)", "(circuit a)", "(circuit 1a)",
    "(circuit a1)", "(circuit r)", "(circuits 1)", "(circui 1)", "(circuit1)", "(circuit (1))", "(circuit 1 (", "(1 circuit)",
    // ccz
    "(ccz)", "(ccz 1)", "(ccz 1 1)", "(ccz 1 1 1 1)", "(ccz 1 1 01)", "(ccz 1 00 1)", "(ccz 01 1 1)", "(ccz 1 1 r)",
    "(ccz r 1 1)", "(ccz (r 1) (b 1) (g 1))", "(ccz 1  1 1)", "(ccz 1 1 1 )", "(ccz1 1 1)", "(cc 1 1 1)", "(cczz 1 1 1)",
    "(ccz 1 1 1)x", "(ccz 1 1 1", "ccz 1 1 1", "(ccz 1 1 1))",
    // cz
    "(cz)", "(cz (r 1))", "(cz (r 1) (b 1) (g 1))", "(cz r 1 b 1)", "(cz (r 1)(b 1))", "(cz (r 1)  (b 1))",
    "(cz ( r 1) (b 1))", "(cz (r 1 ) (b 1))", "(cz (r  1) (b 1))", "(cz (1 r) (b 1))", "(cz (r 01) (b 1))",
    "(cz (x 1) (b 1))", "(cz (rr 1) (b 1))", "(cz (r) (b 1))", "(cz (r 1 1) (b 1))", "(cz (r 1) b 1)", "(cz (r1) (b 1))",
    "(cz (r 1) (b 1)", "(cz (r 1) (b 1) )", "(cz ((r 1) (b 1)))", "(cz (0 1) (1 1))", "(cz(r 1) (b 1))", "(cz () (b 1))",
    // cnot
    "(cnot)", "(cnot r)", "(cnot r 1)", "(cnot r 1 2 3)", "(cnot 1 2)", "(cnot 1 2 r)", "(cnot (r 1) (r 2))",
    "(cnot x 1 2)", "(cnot red 1 2)", "(cnot r 01 2)", "(cnot r 1 02)", "(cnot r  1 2)", "(cnot rb 1 2)", "(cnotr 1 2)",
    "(cnot r 1 2 )", "(cno r 1 2)", "(cnot (r) 1 2)", "(cnot r 1 (2))",
    // z
    "(z)", "(z )", "( z)", "z", "(z r 1)", "(z 1)", "(z r)", "(z 1 r)", "(z (r))", "(z (1))", "(z ())", "(z (1 r))",
    "(z (r 1) (b 1))", "(z (r 1) (r 1))", "(z (r 1) 1)", "(z (r 1 1))", "(z (r b 1))", "(z (r (1)))", "(z ((r 1)))",
    "(z (x 1))", "(z (rr 1))", "(z (red 1))", "(z (0 1))", "(z (r 01))", "(z (r 00))", "(z (r a))", "(z (r 1a))",
    "(z (r1))", "(z(r 1))", "(z  (r 1))", "(z ( r 1))", "(z (r 1 ))", "(z (r  1))", "(z (r 1) )", "( z (r 1))",
    " (z (r 1))", "(z (r 1)) ", "(z (r 1)", "(z r 1))", "z (r 1)", "(z (r 1)))", "((z (r 1)))", "(z (r 1))z",
    "(z (r 1))(z (r 1))", "(z (r 1)) (z (r 1))", "(zz (r 1))", "(cz (r 1) )", "(czz (r 1))", "(x (r 1))", "(y (r 1))",
    "(s (r 1))", "(t (r 1))", "(h (r 1))", "(2 (r 1))", "(z z)", "(z (z 1))", "(z (r z))",
    "(layer (z))", "(layer (z ))", "(layer z)", "(layer z (r 1))", "(layer (z r 1))", "(layer (z 1))",
    "(layer (z (r)))", "(layer (z ()))", "(layer (z (1 r)))", "(layer (z (r 1) (b 1)))", "(layer (z (r 1 1)))",
    "(layer (z ((r 1))))", "(layer (z (x 1)))", "(layer (z (r 01)))", "(layer (z (r 1)", "(layer (z (r 1))",
    "(layer (z (r 1)) )", "(layer (z (r 1))(z (b 1)))", "(layer (z (r 1))  (z (b 1)))", "(layer (z (r 1)) z)",
    "(layer (zz (r 1)))", "(layer (z  (r 1)))", "(layer (z(r 1)))", "(layer ( z (r 1)))", "(layer (z (r 1) ))",
    "(layer(z (r 1)))", "(layer (z (r 1)) (z r 1))", "(layer (z r 1) (z (r 1)))", "(layer (ccz 1 1 1) (z (r 2) (b 2)))",
    "(layer (z (r 1)) (undo 1))", "(layer (z (r 1)) (layer (z (b 1))))", "(layer ((z (r 1))))", "(layer (z (r 1))))",
    "(layer (x (r 1)))", "(layer (cz (r 1)))", "(layer (z (g 1)) (cz (r 1)))", "(layer (ccz 1 1 1) (z))",
    // layer
    "(layer )", "(layer 1)", "(layer ccz 1 1 1)", "(layer (undo 1))", "(layer (circuit 1))",
    "(layer (layer (ccz 1 1 1)))", "(layer (terms))", "(layer (step 1))", "(layer (amp r 00 00 00))", "(layer ())",
    "(layer (ccz 1 1 1)(ccz 1 1 1))", "(layer (ccz 1 1 1)  (ccz 1 1 1))", "(layer (ccz 1 1 1) )", "(layer (ccz 1 1 1)",
    "(layer  (ccz 1 1 1))", "(layer(ccz 1 1 1))", "(layer (ccz 1 1 1) x)", "(layer (ccz 1 1 1) (ccz 1 1))",
    "(layer (ccz 1 1) (ccz 1 1 1))", "(layers (ccz 1 1 1))", "(layer ((ccz 1 1 1)))", "(layer (ccz 1 1 1)))",
    // undo, step
    "(undo)", "(undo )", "(undo 01)", "(undo 1 1)", "(undo r)", "(undo all)", "(und 1)", "(undo (1))", "(undo1)",
    "(step)", "(step )", "(step 01)", "(step 1 1)", "(step r)", "(steps 1)", "(step 1)1", "(ste 1)", "(step1)", "step 1",
    // start
    "(start)", "(start 00 00)", "(start 00 00 00 00)", "(start 00 00 02)", "(start 02 00 00)", "(start 00 20 00)",
    "(start 00 00 0a)", "(start r 00 00)", "(start 00  00 00)", "(start (00) 00 00)", "(start 00 00 00 )", "(star 00 00 00)",
    // amp
    "(amp)", "(amp r)", "(amp r 00 00)", "(amp 00 00 00)", "(amp r 00 00 00 00)", "(amp x 00 00 00)", "(amp 0 00 00 00)",
    "(amp r 00 20 00)", "(amp r 00 00 09)", "(amp r 00 00 00 )", "(amp (r) 00 00 00)", "(amp rb 00 00 00)", "(amp r000000)",
    // part
    "(part)", "(part r)", "(part r 00)", "(part r 00 00 00)", "(part 00 00)", "(part r 03 00)", "(part x 00 00)",
    "(part r 00 00 )", "(part r  00 00)", "(parts r 00 00)", "(part rr 00 00)",
    // one
    "(one)", "(one )", "(one r)", "(one r )", "(one 00)", "(one 00 r)", "(one r 00 00)", "(one r 00 00 00)",
    "(one x 00)", "(one 0 00)", "(one rr 00)", "(one rb 00)", "(one r b 00)", "(one red 00)", "(one (r) 00)",
    "(one (r 00))", "(one r (00))", "(one r 02)", "(one r 20)", "(one r 0a)", "(one r r)", "(one r 00 )", "(one r  00)",
    "(one  r 00)", "( one r 00)", " (one r 00)", "(one r 00) ", "(one r00)", "(oner 00)", "(ones r 00)", "(on r 00)",
    "(one r 00", "one r 00", "(one r 00))", "((one r 00))", "(one r 00)0", "(one r 00)(one r 00)", "(layer (one r 00))",
    "(1 r 00)", "(one 12 4)",
    // drop, terms
    "(drop )", "( drop)", "(drop 1)", "drop", "(drop", "(drop)(drop)", "(dropp)", "(dro)", "(drop) (terms)",
    "(terms )", "( terms)", "(terms 1)", "(term)", "terms", "(terms) ", "(termss)", "((terms))",
    // Forms of another program.
    "(shot r 00 00)", "(score)",
];

const ONE_COLOUR_TWICE: &[&str] = &[
    "(cz (r 1) (r 1))",
    "(cz (r 1) (r 2))",
    "(cz (b 1) (b 2))",
    "(cz (g 2) (g 1))",
    "(cz (r 0) (r 0))",
    "(cz (b 17) (b 99999999999999999999999999999999999999999))",
    "(layer (cz (r 1) (r 2)))",
    "(layer (ccz 1 1 1) (cz (b 1) (b 1)))",
    "(layer (cz (b 1) (b 1)) (ccz 1 1 1))",
    "(layer (cnot r 1 1) (cz (g 1) (g 2)))",
    "(layer (ccz 99 0 1) (cz (g 1) (g 2)))",
    "(layer (z (r 1)) (cz (g 1) (g 2)))",
    "(layer (cz (g 1) (g 2)) (z (g 1)))",
    "(layer (z (r 0)) (cz (b 2) (b 1)) (z (r 99)))",
];

#[rustfmt::skip]
const OTHER_BYTES: &[&[u8]] = &[
    b"\0", b"\r", b"\t", b"\x0b", b"\x0c", b"\x1b", b"-", b"A", b"\x7f", b"\x80", b"\xff", b"(terms)\r", b"\r(terms)",
    b"(terms)\0", b"\0(terms)", b"(step\t1)", b"(step -1)", b"(step +1)", b"(step 1.0)", b"(Step 1)", b"(STEP 1)",
    b"(Z (r 1))", b"(z (R 1))", b"(z (r 1))\r", b"(z (r -1))", b"(z\t(r 1))", b"(layer (Z (r 1)))", b"(z [r 1])",
    b"[step 1]", b"(step 1);", b"(step '1')", b"(circuit 1_0)", b"(circuit 1,0)", b"(circuit 0x1)X", b"{terms}", b"(terms`)",
    b"(terms/)", b"(terms:)", b"(terms@)", b"(terms!)", b"(terms*)", b"\xef\xbb\xbf(terms)", b"(terms\xc2\xa0)",
    "(cz (r 1) (b \u{0661}))".as_bytes(), "(terms\u{3000})".as_bytes(),
];

/// Lines on both sides of 1,024 bytes; the shorter ones have the number that they would get without the length.
fn long_lines() -> Vec<Refused> {
    let mut lines = Vec::new();
    for length in [1020, 1021, 1022, 1023, 1024] {
        lines.push(refused("x".repeat(length), &MOMENTS, 4, "1,024 bytes at most"));
        lines.push(refused("1".repeat(length), &MOMENTS, 4, "1,024 bytes at most"));
        lines.push(refused("(".repeat(length), &MOMENTS, 4, "1,024 bytes at most"));
        lines.push(refused(" ".repeat(length), &MOMENTS, 4, "1,024 bytes at most"));
        lines.push(refused(vec![0; length], &MOMENTS, 3, "1,024 bytes at most"));
        lines.push(refused("A".repeat(length), &MOMENTS, 3, "1,024 bytes at most"));
    }
    for length in [1025, 1026, 1027, 1280, 2047, 2048, 2049, 4096, 5000, 65536, 65537] {
        lines.push(refused(long_circuit(length), &MOMENTS, 2, "more than 1,024 bytes"));
        lines.push(refused("(".repeat(length), &MOMENTS, 2, "more than 1,024 bytes"));
        lines.push(refused(vec![0; length], &MOMENTS, 2, "more than 1,024 bytes"));
        let spaces = format!("(terms){}", " ".repeat(length - 7));
        lines.push(refused(spaces, &MOMENTS, 2, "more than 1,024 bytes"));
    }
    lines
}

pub fn table() -> Vec<Refused> {
    let mut lines = long_lines();
    for line in NO_FORM {
        lines.push(refused(*line, &MOMENTS, 4, "no form"));
    }
    for line in ONE_COLOUR_TWICE {
        lines.push(refused(*line, &MOMENTS, 5, "one colour twice"));
    }
    for line in OTHER_BYTES {
        lines.push(refused(*line, &MOMENTS, 3, "another byte"));
    }
    for byte in (0..=255u8).filter(|&byte| byte != b'\n') {
        let allowed = byte.is_ascii_digit() || byte.is_ascii_lowercase() || b"( )".contains(&byte);
        let number = if allowed { 4 } else { 3 };
        let line = [b"(drop", &[byte][..], b")"].concat();
        lines.push(refused(line, &MOMENTS, number, "a byte too many"));
    }
    lines
}
