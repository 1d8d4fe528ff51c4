//! The text of an explanation, written into a lent buffer; nothing is allocated on the
//! way. The phrases are those of docs/EXPLANATIONS.md.

use crate::calls::Answer;
use crate::explanation::{explain, Cause, Explained, Explanation, JobPart, IDLE_PART};
use crate::session::Session;

/// A shorter buffer is refused, also where the text would fit.
pub const BUFFER_LEAST: usize = 2_048;
/// The most bytes of the line of a job.
const JOB_MOST: usize = 106;
/// The most bytes of all other lines together.
const OTHERS_MOST: usize = 36 + 90 + 64 + 65;

/// Explains a choice in a session of any content, and writes the text to the start of a
/// lent buffer. Accepted, the first value is the text's length. Refused, nothing is
/// written: as a choice is, and then with 15 if the buffer is too short.
pub fn explain_into(session: &Session, words: &[u32], buffer: &mut [u8]) -> Answer {
    let Explained {
        explanation,
        words_used,
    } = match explain(session, words) {
        Ok(explained) => explained,
        Err(refusal) => return refusal,
    };
    if buffer.len() < BUFFER_LEAST {
        return Answer::refused(15, buffer.len() as u64, 0);
    }
    let length = compose(&explanation, buffer);
    Answer {
        words_used,
        ..Answer::accepted(length as u64, 0)
    }
}

/// Writes the text of an explanation to the start of a buffer in which it fits, and
/// gives its length.
pub fn compose(explanation: &Explanation, buffer: &mut [u8]) -> usize {
    let mut writer = Writer { buffer, length: 0 };
    writer.put(b"Waiting jobs: ");
    writer.put_number(explanation.jobs.len() as u64);
    writer.put(b".\n");
    for job in &explanation.jobs {
        writer.put_job(job);
    }
    if let Some(deadline) = explanation.brittle {
        writer.put(b"Brittle deadline ");
        writer.put_number(deadline);
        writer.put(b": of the candidates only the first may be due later.\n");
    }
    writer.put_choice(explanation.chosen, explanation.word);
    writer.put_span(explanation.span, explanation.cause);
    writer.length
}

/// The text as a value of its own, of any number of jobs: for the tools.
pub fn text_of(explanation: &Explanation) -> Vec<u8> {
    let mut text = vec![0; OTHERS_MOST + JOB_MOST * explanation.jobs.len()];
    let length = compose(explanation, &mut text);
    text.truncate(length);
    text
}

struct Writer<'a> {
    buffer: &'a mut [u8],
    length: usize,
}

impl Writer<'_> {
    fn put(&mut self, bytes: &[u8]) {
        let end = self.length + bytes.len();
        self.buffer[self.length..end].copy_from_slice(bytes);
        self.length = end;
    }

    /// The digits come from the last to the first, so they are put into a place of their
    /// own before; 64 bits have 20 at most.
    fn put_number(&mut self, number: u64) {
        let mut digits = [0; 20];
        let mut start = digits.len();
        let mut rest = number;
        loop {
            start -= 1;
            digits[start] = b'0' + (rest % 10) as u8;
            rest /= 10;
            if rest == 0 {
                break;
            }
        }
        self.put(&digits[start..]);
    }

    fn put_job(&mut self, job: &JobPart) {
        self.put(b"Row ");
        self.put_number(job.row);
        self.put(b", due at ");
        self.put_number(job.due);
        self.put(b", budget ");
        self.put_number(job.budget);
        if job.budget == 0 {
            self.put(b" (holds later jobs back)");
        }
        self.put(if job.is_candidate {
            b": candidate.\n"
        } else {
            b": not a candidate.\n"
        });
    }

    fn put_choice(&mut self, chosen: u64, word: Option<u64>) {
        self.put(b"Chosen: ");
        if chosen == IDLE_PART {
            self.put(b"idle");
        } else {
            self.put(b"row ");
            self.put_number(chosen);
        }
        match word {
            None => self.put(b", no word decided.\n"),
            Some(word) => {
                self.put(b", by word ");
                self.put_number(word);
                self.put(b".\n");
            }
        }
    }

    fn put_span(&mut self, span: u64, cause: Cause) {
        self.put(b"Span ");
        self.put_number(span);
        self.put(match cause {
            Cause::Remaining => b": its remaining ticks.\n",
            Cause::Word => b": set by a word.\n",
            Cause::LackOfWord => b": the most allowed, for lack of a word.\n",
            Cause::NothingWaits => b": nothing waits.\n",
        });
    }
}
