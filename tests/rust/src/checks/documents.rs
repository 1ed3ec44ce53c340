//! The sessions printed in the documents: indented blocks of two columns, lines as they are typed and their answers.

use crate::Checks;
use std::fs;
use waitfield_checks::model::{Answer, Model};
use waitfield_checks::program::repository;

const DOCUMENTS: [&str; 2] = ["docs/MANUAL.md", "README.md"];

#[derive(Default)]
struct Session {
    typed: String,
    answered: String,
}

/// The blocks of lines that are indented by four spaces, each with the number of its first line, from 1.
fn blocks(document: &str) -> Vec<(usize, Vec<&str>)> {
    let mut blocks: Vec<(usize, Vec<&str>)> = Vec::new();
    let mut inside = false;
    for (number, line) in document.lines().enumerate() {
        let Some(text) = line.strip_prefix("    ") else {
            inside = false;
            continue;
        };
        if !inside {
            blocks.push((number + 1, Vec::new()));
        }
        inside = true;
        blocks.last_mut().expect("one was begun").1.push(text);
    }
    blocks
}

/// Where the second column begins: behind the first gap of two spaces and more.
fn second_column(first_line: &str) -> Option<usize> {
    let gap = first_line.find("  ")?;
    let answer = first_line[gap..].find(|c| c != ' ')?;
    Some(gap + answer)
}

/// A block whose first line begins with a bracket, taken apart. A row without a typed line is a later line of the answer
/// above it.
fn session(rows: &[&str]) -> Result<Session, String> {
    let column = second_column(rows[0]).ok_or(format!("no second column: {}", rows[0]))?;
    let mut session = Session::default();
    for row in rows {
        let (typed, answer) = row
            .split_at_checked(column)
            .filter(|(typed, answer)| typed.ends_with(' ') && answer.starts_with('('))
            .ok_or(format!("not in two columns: {row}"))?;
        let typed = typed.trim_end();
        if !typed.is_empty() {
            session.typed += &format!("{typed}\n");
        }
        session.answered += &format!("{answer}\n");
    }
    Ok(session)
}

fn document(checks: &mut Checks, name: &str) {
    let text = match fs::read_to_string(repository().join(name)) {
        Ok(text) => text,
        Err(error) => return checks.tally.check(name, Err(error.to_string())),
    };
    let blocks = blocks(&text);
    let sessions = blocks.iter().filter(|(_, rows)| rows[0].starts_with('('));
    let mut count = 0;
    for (begins, rows) in sessions {
        let name = format!("the session at {name}:{begins}");
        let Session { typed, answered } = match session(rows) {
            Ok(session) => session,
            Err(error) => {
                checks.tally.check(&name, Err(error));
                continue;
            }
        };
        count += 1;
        let answers = Model::session(typed.as_bytes());
        let model: String = answers.iter().map(Answer::to_string).collect();
        checks.tally.equal(&format!("{name}: the model"), &model, &answered);
        let found = checks.program.run(typed.as_bytes());
        let found = found.map(|output| String::from_utf8_lossy(&output).into_owned());
        checks.tally.equal(&name, found, Ok(answered));
    }
    let some = (count > 0).then_some(()).ok_or("none found".to_string());
    checks.tally.check(&format!("sessions printed in {name}"), some);
}

pub fn check(checks: &mut Checks) {
    DOCUMENTS.iter().for_each(|name| document(checks, name));
}
