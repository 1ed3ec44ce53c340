//! A line taken apart as one of the twelve forms of document 01, or as `one` or `z` of document 02. The line is first
//! read as nested brackets with items one space apart, then the items are matched.

use crate::gates::{Colour, Gate, Spot};

pub enum Form {
    Circuit(usize),
    Gate(Gate),
    Layer(Vec<Gate>),
    Undo(usize),
    /// The digits of three bit strings.
    Start([String; 3]),
    Amp(Colour, [String; 3]),
    Part(Colour, [String; 2]),
    One(Colour, String),
    Step(usize),
    Drop,
    Terms,
}

enum Item<'a> {
    Word(&'a str),
    List(Vec<Item<'a>>),
}

use Item::{List, Word};

/// The item at the front of the text, and what follows it.
fn item(text: &str) -> Option<(Item<'_>, &str)> {
    let Some(mut rest) = text.strip_prefix('(') else {
        let end = text
            .find(|c: char| !c.is_ascii_digit() && !c.is_ascii_lowercase())
            .unwrap_or(text.len());
        return (end > 0).then(|| (Word(&text[..end]), &text[end..]));
    };
    let mut items = Vec::new();
    loop {
        let (next, after) = item(rest)?;
        items.push(next);
        if let Some(closed) = after.strip_prefix(')') {
            return Some((List(items), closed));
        }
        rest = after.strip_prefix(' ')?;
    }
}

/// A number of any length; one that is too long is held as the largest there is, which is outside every range.
fn number(item: &Item) -> Option<usize> {
    let Word(word) = item else { return None };
    let digits = word.bytes().all(|byte| byte.is_ascii_digit());
    let leading_zero = word.len() > 1 && word.starts_with('0');
    (digits && !leading_zero).then(|| word.parse().unwrap_or(usize::MAX))
}

fn bits(item: &Item) -> Option<String> {
    let Word(word) = item else { return None };
    let binary = word.bytes().all(|byte| byte == b'0' || byte == b'1');
    binary.then(|| word.to_string())
}

fn colour(item: &Item) -> Option<Colour> {
    match item {
        Word("r") => Some(Colour::Red),
        Word("b") => Some(Colour::Blue),
        Word("g") => Some(Colour::Green),
        _ => None,
    }
}

fn spot(item: &Item) -> Option<Spot> {
    let List(items) = item else { return None };
    let [c, position] = &items[..] else { return None };
    Some(Spot {
        colour: colour(c)?,
        position: number(position)?,
    })
}

fn gate(item: &Item) -> Option<Gate> {
    let List(items) = item else { return None };
    match &items[..] {
        [Word("ccz"), red, blue, green] => Some(Gate::Ccz {
            red: number(red)?,
            blue: number(blue)?,
            green: number(green)?,
        }),
        [Word("cz"), first, second] => Some(Gate::Cz(spot(first)?, spot(second)?)),
        [Word("cnot"), c, control, target] => Some(Gate::Cnot {
            colour: colour(c)?,
            control: number(control)?,
            target: number(target)?,
        }),
        [Word("z"), turned] => Some(Gate::Z(spot(turned)?)),
        _ => None,
    }
}

impl Form {
    pub fn read(line: &str) -> Option<Form> {
        let (whole, "") = item(line)? else { return None };
        if let Some(gate) = gate(&whole) {
            return Some(Form::Gate(gate));
        }
        let List(items) = whole else { return None };
        match &items[..] {
            [Word("circuit"), m] => Some(Form::Circuit(number(m)?)),
            [Word("layer"), gates @ ..] => Some(Form::Layer(gates.iter().map(gate).collect::<Option<_>>()?)),
            [Word("undo"), k] => Some(Form::Undo(number(k)?)),
            [Word("start"), r, b, g] => Some(Form::Start([bits(r)?, bits(b)?, bits(g)?])),
            [Word("amp"), c, r, b, g] => Some(Form::Amp(colour(c)?, [bits(r)?, bits(b)?, bits(g)?])),
            [Word("part"), c, x, y] => Some(Form::Part(colour(c)?, [bits(x)?, bits(y)?])),
            [Word("one"), c, x] => Some(Form::One(colour(c)?, bits(x)?)),
            [Word("step"), k] => Some(Form::Step(number(k)?)),
            [Word("drop")] => Some(Form::Drop),
            [Word("terms")] => Some(Form::Terms),
            _ => None,
        }
    }

    /// The gates of a gate line or a layer.
    pub fn gates(&self) -> &[Gate] {
        match self {
            Form::Gate(gate) => std::slice::from_ref(gate),
            Form::Layer(gates) => gates,
            _ => &[],
        }
    }

    /// The bit strings of the line.
    pub fn strings(&self) -> &[String] {
        match self {
            Form::Start(strings) | Form::Amp(_, strings) => strings,
            Form::Part(_, strings) => strings,
            Form::One(_, string) => std::slice::from_ref(string),
            _ => &[],
        }
    }
}
