//! Command line options of the form `--name value`.

use std::collections::HashMap;
use std::process::exit;
use std::str::FromStr;

pub struct Options {
    values: HashMap<String, String>,
}

impl Options {
    /// Reads the command line; an unknown name ends the process.
    pub fn read(known: &[&str]) -> Self {
        let mut values = HashMap::new();
        let mut arguments = std::env::args().skip(1);
        while let Some(name) = arguments.next() {
            match arguments.next() {
                Some(value) if known.contains(&name.as_str()) => values.insert(name, value),
                _ => fail(&format!(
                    "{name}: expected {} and a value",
                    known.join(", ")
                )),
            };
        }
        Options { values }
    }

    pub fn text(&self, name: &str) -> Option<&str> {
        self.values.get(name).map(String::as_str)
    }

    /// The value of an option that must be given.
    pub fn required(&self, name: &str) -> &str {
        self.text(name)
            .unwrap_or_else(|| fail(&format!("{name} is missing")))
    }

    pub fn number<T: FromStr>(&self, name: &str, default: T) -> T {
        self.text(name).map_or(default, |text| {
            text.parse()
                .unwrap_or_else(|_| fail(&format!("{name}: {text} is no such number")))
        })
    }
}

/// Ends the process for a reason that is no finding about the program.
pub fn fail(reason: &str) -> ! {
    eprintln!("{reason}");
    exit(2)
}
