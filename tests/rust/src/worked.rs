//! The worked examples in the folder examples/. Seven inputs are written by hand, two are made here.

use crate::circuits::{full_rank, hypercube};
use crate::gates::{COLOURS, Colour, Strings, added, digits, spelled};
use crate::layers::circuit;

pub const NAMES: [&str; 9] = [
    "handover",
    "hypercube",
    "layers",
    "one-colour",
    "readout",
    "session",
    "start",
    "terms",
    "z",
];

/// Positions of a colour in the made examples: 48 qubits.
const M: usize = 16;

fn amplitude(sliced: Colour, output: Strings) -> [String; 2] {
    let opened = format!("(amp {sliced} {})", spelled(M, output));
    [opened, "(step 65536)".into()]
}

/// A circuit whose slices on red all have rank 16, so that each is 2^-16 of the largest: an amplitude that is lost where slices are
/// scaled down before they are added. Every colour is sliced.
fn handover() -> Vec<String> {
    let mut lines = circuit(M, &full_rank(M, 48));
    for output in [[0; 3], [0x8001, 0x0f0f, 0x3c3c]] {
        lines.extend(COLOURS.into_iter().flat_map(|colour| amplitude(colour, output)));
    }
    lines
}

/// The bits of the output string that the Z gates of the hypercube's 16 blocks turn: all of green, and those of red and
/// blue in the blocks whose number less 1 has an even number of ones.
pub const TURNED: Strings = [0x9669, 0x9669, 0xffff];

/// The circuit of source document 001 on 16 blocks, with some amplitudes and a readout count. All but the first are
/// asked for with the bits turned, so they are those of zeros and some other strings without the Z gates.
fn hypercube_session() -> Vec<String> {
    let mut lines = circuit(M, &hypercube(4));
    lines.extend(amplitude(Colour::Red, [0; 3]));
    for output in [[0; 3], [0x0001, 0, 0], [0x8001, 0x8001, 0], [0xffff; 3]] {
        lines.extend(amplitude(Colour::Red, added(output, TURNED)));
    }
    let [red, blue, _] = TURNED.map(|word| digits(M, word));
    lines.push(format!("(part g {red} {blue})"));
    lines.push("(step 65536)".into());
    lines
}

/// The names and inputs of the made examples.
pub fn generated() -> [(&'static str, String); 2] {
    let text = |lines: Vec<String>| lines.iter().map(|line| format!("{line}\n")).collect();
    [("handover", text(handover())), ("hypercube", text(hypercube_session()))]
}
