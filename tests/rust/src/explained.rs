//! The program `explained` as a function from input bytes to output bytes: what `shuffle`
//! prints, and after each accepted choice the text of its explanation.

use crate::explanation::{explain_sound, Explained};
use crate::explanation_text::text_of;
use crate::text::{run_watched, Command, Machine};

/// The output for an input.
pub fn run(input: &[u8]) -> Vec<u8> {
    run_told(input, |_, _| {})
}

/// The output for an input; `watch` sees each explanation, and the machine before the
/// choice.
pub fn run_told(input: &[u8], mut watch: impl FnMut(&Machine, &Explained)) -> Vec<u8> {
    let mut texts = Vec::new();
    let answers = run_watched(input, |machine, command| {
        if command != Command::Choose {
            return;
        }
        // The session began from an admitted table, so it is sound.
        if let Ok(explained) = explain_sound(&machine.session, &machine.words) {
            watch(machine, &explained);
            texts.push(text_of(&explained.explanation));
        }
    });
    with_texts(&answers, texts)
}

/// The lines of `shuffle`, with the next text after each accepted choice.
fn with_texts(answers: &[u8], texts: Vec<Vec<u8>>) -> Vec<u8> {
    let mut texts = texts.into_iter();
    let mut output = Vec::new();
    for line in answers.split_inclusive(|byte| *byte == b'\n') {
        output.extend(line);
        if is_accepted_choice(line) {
            output.extend(texts.next().expect("each accepted choice is explained"));
        }
    }
    output
}

/// Whether the letter of a line is `G`, and its number 0.
fn is_accepted_choice(line: &[u8]) -> bool {
    let mut fields = line.split(|byte| *byte == b'\t').skip(1);
    fields.next() == Some(b"G") && fields.next() == Some(b"0")
}
