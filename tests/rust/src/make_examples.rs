//! Writes the made inputs of the folder examples/, and the expected output of every example by the model.

use std::fs;
use std::io;
use waitfield_checks::model::{Answer, Model};
use waitfield_checks::program::repository;
use waitfield_checks::worked::{NAMES, generated};

fn main() -> io::Result<()> {
    let folder = repository().join("examples");
    for (name, input) in generated() {
        fs::write(folder.join(name).with_extension("in"), input)?;
    }
    for name in NAMES {
        let path = folder.join(name);
        let answers = Model::session(&fs::read(path.with_extension("in"))?);
        let output: String = answers.iter().map(Answer::to_string).collect();
        fs::write(path.with_extension("out"), output)?;
    }
    Ok(())
}
