//! Sums in steps of every size and place: the program works 64 slices at a time, and a step may begin and end anywhere
//! in such a block. Each kind of sum, against the independent elimination.

use crate::Checks;
use crate::large::circuit;
use waitfield_checks::elimination::{one_colour, totals};
use waitfield_checks::gates::{COLOURS, Colour, Strings, digits, spelled};
use waitfield_checks::layers::layers;
use waitfield_checks::model::Circuit;
use waitfield_checks::random::Random;
use waitfield_checks::script::Script;

/// Gates of a circuit: dense, so that nearly every slice counts.
const GATES: usize = 300;

/// The first step's size, and that of all others.
const STEPS: [[usize; 2]; 12] = [
    [1, 64],
    [63, 64],
    [64, 64],
    [65, 64],
    [1, 63],
    [7, 65],
    [100, 128],
    [2, 1000],
    [64, 4096],
    [4095, 4096],
    [1, 65536],
    [65535, 1],
];

/// Circuits of so many positions are gone through slice by slice too.
const ONE_BY_ONE: usize = 8;

/// The line that opens a sum, and the answer that ends it.
type Asked = [String; 2];

fn in_steps(script: &mut Script, m: usize, [line, answer]: &Asked, [first, other]: [usize; 2]) {
    let mut left = 1 << m;
    script.line(line, format!("(left {left})"));
    let mut k = first;
    while k < left {
        left -= k;
        script.line(format!("(step {k})"), format!("(left {left})"));
        k = other;
    }
    script.line(format!("(step {k})"), answer.clone());
}

/// An amplitude, a readout count and a count of one colour, all sliced on the same colour.
fn sums(circuit: &Circuit, sliced: Colour, output: Strings) -> [Asked; 3] {
    let m = circuit.m;
    let polynomial = circuit.polynomial();
    let all = totals(&polynomial, sliced, output);
    let [x, y] = sliced.others().map(|colour| digits(m, output[colour.number()]));
    // The first of the two unread colours is sliced.
    let read = sliced.others()[1];
    let string = output[read.number()];
    let one = one_colour(&polynomial, read, sliced, string);
    [
        [
            format!("(amp {sliced} {})", spelled(m, output)),
            format!("(amp {} {})", all.amplitude, 3 * m),
        ],
        [
            format!("(part {sliced} {x} {y})"),
            format!("(part {} {})", all.readout, 3 * m),
        ],
        [
            format!("(one {read} {})", digits(m, string)),
            format!("(one {one} {})", 2 * m),
        ],
    ]
}

fn size(checks: &mut Checks, random: &mut Random, m: usize) {
    let gates = random.gates(m, GATES);
    let start = [0; 3];
    let mut script = Script::default();
    script.case(format!("m = {m}: circuit"));
    circuit(&mut script, m, &layers(&gates));
    let held = Circuit { m, gates, start };
    let output = random.strings(m);
    for sliced in COLOURS {
        for asked in &sums(&held, sliced, output) {
            for steps in STEPS {
                script.case(format!("m = {m}: {} in steps of {steps:?}", asked[0]));
                in_steps(&mut script, m, asked, steps);
            }
            if m <= ONE_BY_ONE {
                in_steps(&mut script, m, asked, [1, 1]);
            }
        }
    }
    checks.run(&script);
}

pub fn check(checks: &mut Checks) {
    for seed in checks.seeds.clone() {
        let mut random = Random::new(seed);
        (1..=16).for_each(|m| size(checks, &mut random, m));
    }
}
