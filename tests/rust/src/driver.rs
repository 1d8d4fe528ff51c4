//! Builds an input while the model follows it, so that the next line can be
//! picked to be accepted or refused.

use crate::session::start_rows;
use crate::table::Row;
use crate::text::{Command, Machine, Outcome};

pub struct Driver {
    pub machine: Machine,
    pub text: Vec<u8>,
}

impl Driver {
    /// Opens an input with the rows of a table, which must be admitted.
    pub fn new(rows: &[Row]) -> Self {
        let session = start_rows(rows).expect("a driver needs an admitted table");
        Driver {
            machine: Machine::new(session),
            text: table_text(rows),
        }
    }

    /// Appends a line and lets the model perform it.
    pub fn push(&mut self, command: Command) -> Outcome {
        command.write(&mut self.text);
        self.machine.execute(command)
    }
}

/// The T lines of a table, admitted or not.
pub fn table_text(rows: &[Row]) -> Vec<u8> {
    let mut text = Vec::new();
    for row in rows {
        Command::Row(*row).write(&mut text);
    }
    text
}
