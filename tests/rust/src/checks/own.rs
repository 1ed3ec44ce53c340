//! The reference, the elimination and the model against documents 01 and 02 and against each other, without the
//! program.

use crate::Checks;
use crate::known::{LISTING, ONE_COLOUR, known_sums};
use crate::listings::every_term;
use crate::starts::{carried, started, with_cnots};
use crate::z_gates::{flushed, without_z};
use std::fmt::Debug;
use waitfield_checks::elimination::{Polynomial, one_colour, totals};
use waitfield_checks::gates::{COLOURS, Colour, Gate, Spot, strings};
use waitfield_checks::layers::{layers, touches_twice};
use waitfield_checks::model::{Answer, Circuit, Model, listing};
use waitfield_checks::random::Random;
use waitfield_checks::reference::{FullSum, joined};
use waitfield_checks::script::{Expected, answers};

/// Circuits for a seed at each m. The full sum at m = 5 and 6 takes its time.
const CIRCUITS: [(usize, usize); 6] = [(1, 25), (2, 25), (3, 25), (4, 25), (5, 10), (6, 2)];

/// The largest m at which all readout counts of the full sum are added up.
const READOUTS: usize = 3;

/// "The third colour beside two others is 3 less both" (01).
fn third_colours(checks: &mut Checks) {
    for colour in COLOURS {
        for other in colour.others() {
            let name = format!("the third colour beside {colour} and {other}");
            let number = 3 - (colour.number() + other.number());
            checks.tally.equal(&name, colour.third(other).number(), number);
        }
    }
}

fn known(checks: &mut Checks) {
    for known in known_sums() {
        let start = known.start.map_or([0; 3], strings);
        let full = FullSum::started(known.m, start, &known.gates);
        for &(output, s) in known.sums {
            let name = format!("the full sum at {output} after {start:?} {:?}", known.gates);
            checks.tally.equal(&name, full.amplitude(strings(output)), s);
        }
    }
    let mut model = Model::default();
    for (line, answer) in LISTING {
        let found = model.answer(line.as_bytes()).map(|answer| answer.first);
        checks
            .tally
            .equal(&format!("the model on {line}"), found.as_deref(), Some(answer));
    }
}

/// The model on a circuit with one CCZ at m = 1.
fn known_one_colour(checks: &mut Checks) {
    for (start, read, count) in ONE_COLOUR {
        let lines = format!("(circuit 1)\n(ccz 1 1 1)\n(start {start})\n(one g {read})\n(step 1)\n(step 1)\n");
        let answers = Model::session(lines.as_bytes()).into_iter().map(|answer| answer.first);
        let last: Vec<String> = answers.skip(3).collect();
        let expected = ["(left 2)".into(), "(left 1)".into(), format!("(one {count} 2)")];
        let name = format!("the model on (one g {read}) started at {start}");
        checks.tally.equal(&name, last, expected.to_vec());
    }
}

/// The answer to `(terms)` with these terms in this order.
fn listed_as(terms: &[Gate]) -> Expected {
    Expected {
        line: b"(terms)".to_vec(),
        answer: Answer::of_terms(terms),
    }
}

/// The order of a listing against the loops of document 02's sentence.
fn order_of_terms(checks: &mut Checks, random: &mut Random, seed: u64) {
    for m in [1, 2, 3, 16] {
        let terms = every_term(m);
        let shuffled = random.shuffled(&terms).into_iter();
        let given: Vec<Gate> = shuffled.map(|term| random.either_way(term)).collect();
        let name = format!("every term listed in order, seed {seed}, m = {m}");
        checks
            .tally
            .check(&name, listed_as(&terms).compare(Some(listing(&given))));
    }
}

/// Output with two lines of a listing exchanged, or a CZ turned, is another answer; the message has the first line that
/// differs.
fn lines_in_order(checks: &mut Checks) {
    let terms = every_term(2);
    let mut differs = |place: usize, changed: &[Gate]| {
        let (line, found, term) = (place + 1, changed[place], terms[place]);
        let name = format!("a listing that differs from line {line} on");
        let message = format!(
            "(terms) was answered (terms 26), expected (terms 26); line {line} of the listing {found}, expected {term}"
        );
        let output = Answer::of_terms(changed).to_string();
        let (answers, _) = answers(output.as_bytes());
        let outcome = listed_as(&terms).compare(answers.into_iter().next());
        checks.tally.equal(&name, outcome, Err(message));
    };
    for place in 0..terms.len() - 1 {
        let mut exchanged = terms.clone();
        exchanged.swap(place, place + 1);
        differs(place, &exchanged);
    }
    // Eight CCZ terms stand before the twelve CZ terms.
    for (place, term) in terms.iter().enumerate().skip(8).take(12) {
        let mut turned = terms.clone();
        turned[place] = term.turned();
        differs(place, &turned);
    }
}

/// Whether two gates of a list touch the same position, or one of them touches one twice: place by place, without a
/// set.
fn any_shared(gates: &[Gate]) -> bool {
    let spots: Vec<Spot> = gates.iter().flat_map(Gate::spots).collect();
    (1..spots.len()).any(|place| spots[..place].contains(&spots[place]))
}

/// Random gates cut into layers: the same gates, none of the layers touches a position twice, and none could take the
/// next gate as well.
fn cut(random: &mut Random, m: usize) -> Result<(), String> {
    let gates = random.gates(m, 100);
    let layers = layers(&gates);
    same("the gates of the layers and all gates", layers.concat(), gates)?;
    for pair in layers.windows(2) {
        let more = [&pair[0][..], &pair[1][..1]].concat();
        let found = [&pair[0], &more].map(|gates| (any_shared(gates), touches_twice(gates)));
        same("a layer, and with the next gate", found, [(false, false), (true, true)])?;
    }
    Ok(())
}

/// A random circuit under a start by the full sum and by elimination: terms, amplitudes of every sliced colour, readout
/// counts.
fn agreement(random: &mut Random, m: usize) -> Result<(), String> {
    let count = random.below(40);
    let circuit = started(random, m, count);
    let (full, polynomial) = (circuit.full_sum(), circuit.polynomial());
    // Those of the gates alone, and with the signs of the start among them.
    let both = [
        (FullSum::of(m, &circuit.gates).terms(), circuit.terms()),
        (full.terms(), polynomial.terms()),
    ];
    for (in_full, expanded) in both {
        let in_full = listing(&in_full.ok_or("a term of another kind")?);
        same("terms in full and by expansion", in_full, listing(&expanded))
            .map_err(|difference| format!("{difference} after {circuit:?}"))?;
    }
    for _ in 0..4 {
        let output = random.strings(m);
        for colour in COLOURS {
            let read = colour.others().map(|other| output[other.number()]);
            let s = full.amplitude(output);
            let squares = full.readout(colour, read);
            let sliced = totals(&polynomial, colour, output);
            let found = (sliced.amplitude, Some(sliced.readout));
            if found != (s, squares) {
                return Err(format!(
                    "{found:?}, in full {s} and {squares:?}, at {output:?} on {colour} after {circuit:?}"
                ));
            }
        }
    }
    Ok(())
}

/// A random circuit at every output string s: the full sum of a start is that of zeros at s with the carried start
/// added. Whether the gates have moved the start.
fn started_sums(random: &mut Random, m: usize) -> Result<bool, String> {
    let count = random.below(40);
    let circuit = started(random, m, count);
    let ends = carried(circuit.start, &circuit.gates);
    let zeros = FullSum::of(m, &circuit.gates).amplitudes();
    let shifted = (0..zeros.len()).map(|s| zeros[s ^ joined(m, ends) as usize]);
    same(
        "S of a start, and of zeros with the start carried",
        circuit.full_sum().amplitudes(),
        shifted.collect(),
    )
    .map_err(|difference| format!("{difference} after {circuit:?}"))?;
    Ok(ends != circuit.start)
}

/// A random circuit at every output string s: its full sum is that of the circuit without its Z gates at s with these
/// added, once they are flushed to the end. Whether CNOTs have moved them on the way.
fn flushed_sums(random: &mut Random, m: usize) -> Result<bool, String> {
    let count = random.below(40);
    let mut circuit = started(random, m, count);
    if m > 1 {
        circuit.gates.extend(with_cnots(random, m, 10));
    }
    let ends = flushed(&circuit.gates);
    let without = Circuit {
        gates: without_z(&circuit.gates),
        ..circuit.clone()
    };
    let sums = without.full_sum().amplitudes();
    let shifted = (0..sums.len()).map(|s| sums[s ^ joined(m, ends) as usize]);
    same(
        "S with Z gates, and without at the string with them added",
        circuit.full_sum().amplitudes(),
        shifted.collect(),
    )
    .map_err(|difference| format!("{difference} after {circuit:?}"))?;
    let mut alone = circuit.gates;
    alone.retain(|gate| matches!(gate, Gate::Z(_)));
    Ok(ends != flushed(&alone))
}

/// The law by which document 001 has Z gates as bit flips, on the full sum.
fn flushed_z_gates(checks: &mut Checks, random: &mut Random, seed: u64) {
    for m in 1..=4 {
        let mut moved = 0;
        for number in 0..25 {
            let outcome = flushed_sums(random, m);
            moved += usize::from(outcome == Ok(true));
            let name = format!("Z gates flushed to the end, seed {seed}, m = {m}, circuit {number}");
            checks.tally.check(&name, outcome.map(|_| ()));
        }
        let name = format!("Z gates that CNOTs have moved, seed {seed}, m = {m}");
        checks.tally.equal(&name, moved >= 5, m > 1);
    }
}

/// The law by which the program opens sums, on the full sum.
fn carried_starts(checks: &mut Checks, random: &mut Random, seed: u64) {
    for m in 1..=4 {
        let mut moved = 0;
        for number in 0..25 {
            let outcome = started_sums(random, m);
            moved += usize::from(outcome == Ok(true));
            let name = format!("a start carried to the end, seed {seed}, m = {m}, circuit {number}");
            checks.tally.check(&name, outcome.map(|_| ()));
        }
        let name = format!("starts that gates have moved, seed {seed}, m = {m}");
        checks.tally.equal(&name, moved >= 5, m > 1);
    }
}

/// The sums of T over the strings of the third colour, for each string of the one colour that is read.
fn sums_of_readouts(full: &FullSum, m: usize, read: Colour, unread: Colour) -> Option<Vec<u64>> {
    let sum = |string: u32| {
        let readout = |third: u32| full.readout(unread, unread.beside(read, string, third));
        (0..1 << m).map(readout).sum()
    };
    (0..1 << m).map(sum).collect()
}

fn same<T: PartialEq + Debug>(ways: &str, found: T, expected: T) -> Result<(), String> {
    match found == expected {
        true => Ok(()),
        false => Err(format!("{ways}: {found:?} and {expected:?}")),
    }
}

/// The counts with one colour read: by the squares of all amplitudes, by the forms left over, by elimination on either
/// unread colour, and where that is quick by the readout counts of the full sum.
fn ways_to_one_colour(full: &FullSum, polynomial: &Polynomial, m: usize, read: Colour) -> Result<(), String> {
    let squares = full.one_colour(read).ok_or("squares that are no multiple of 2^(4m)")?;
    same("the total and 2^(2m)", squares.iter().sum(), 1u64 << (2 * m))?;
    same("forms and squares", full.one_colour_by_forms(read), squares.clone())?;
    for other in read.others() {
        let eliminated = (0..1 << m).map(|string| one_colour(polynomial, read, other, string));
        same("elimination and squares", eliminated.collect(), squares.clone())?;
        if m <= READOUTS {
            let sums = sums_of_readouts(full, m, read, other).ok_or("squares that are no multiple of 2^(3m)")?;
            let counts = squares.iter().map(|count| count << m).collect();
            same("readouts and squares", sums, counts)?;
        }
    }
    Ok(())
}

/// A random circuit under a start with every colour read in turn.
fn one_colour_agreement(random: &mut Random, m: usize) -> Result<(), String> {
    let count = random.below(40);
    let circuit = started(random, m, count);
    let (full, polynomial) = (circuit.full_sum(), circuit.polynomial());
    let output = random.strings(m);
    let s = full.amplitudes()[joined(m, output) as usize];
    same("S of all strings and of one", s, full.amplitude(output))
        .and_then(|()| {
            let mut colours = COLOURS.into_iter();
            colours.try_for_each(|read| ways_to_one_colour(&full, &polynomial, m, read))
        })
        .map_err(|difference| format!("{difference} after {circuit:?}"))
}

pub fn check(checks: &mut Checks) {
    third_colours(checks);
    known(checks);
    known_one_colour(checks);
    lines_in_order(checks);
    for seed in checks.seeds.clone() {
        order_of_terms(checks, &mut Random::new(seed), seed);
        let mut random = Random::new(seed);
        for m in 1..=16 {
            let name = format!("gates cut into layers, seed {seed}, m = {m}");
            checks.tally.check(&name, cut(&mut random, m));
        }
        for (m, circuits) in CIRCUITS {
            for number in 0..circuits {
                let name = format!("full sum and elimination, seed {seed}, m = {m}, circuit {number}");
                checks.tally.check(&name, agreement(&mut random, m));
            }
        }
        for (m, circuits) in CIRCUITS {
            for number in 0..circuits {
                let name = format!("one colour read, seed {seed}, m = {m}, circuit {number}");
                checks.tally.check(&name, one_colour_agreement(&mut random, m));
            }
        }
        carried_starts(checks, &mut random, seed);
        flushed_z_gates(checks, &mut random, seed);
    }
}
