//! A strict reader of the text of an explanation. It shares no phrase with the writer, so
//! that a slip in one of them shows.

use crate::explanation::{Cause, Explanation, JobPart, IDLE_PART};

/// The most jobs of a text.
const JOBS_MOST: u64 = 16;

/// The parts of the explanation whose text these bytes are, from first to last; none if
/// they are no such text.
pub fn read(text: &[u8]) -> Option<Explanation> {
    let mut reader = Reader { rest: text };
    let jobs = reader.jobs()?;
    let brittle = match reader.rest.first() {
        Some(b'B') => Some(reader.brittle()?),
        _ => None,
    };
    let chosen = reader.chosen()?;
    let word = match reader.skips(", by word ") {
        true => Some(reader.number()?),
        false => {
            reader.skip(", no word decided")?;
            None
        }
    };
    reader.skip(".\n")?;
    reader.skip("Span ")?;
    let span = reader.number()?;
    let cause = reader.cause()?;
    reader.rest.is_empty().then_some(Explanation {
        jobs,
        brittle,
        chosen,
        word,
        span,
        cause,
    })
}

/// What is still to be read.
struct Reader<'a> {
    rest: &'a [u8],
}

impl Reader<'_> {
    /// Reads this phrase; none if another one stands here.
    fn skip(&mut self, phrase: &str) -> Option<()> {
        self.rest = self.rest.strip_prefix(phrase.as_bytes())?;
        Some(())
    }

    /// Reads this phrase if it stands here.
    fn skips(&mut self, phrase: &str) -> bool {
        self.skip(phrase).is_some()
    }

    /// Reads the digits that stand here: a number of 64 bits without leading zeros.
    fn number(&mut self) -> Option<u64> {
        let is_digit = |byte: &&u8| byte.is_ascii_digit();
        let length = self.rest.iter().take_while(is_digit).count();
        let (digits, rest) = self.rest.split_at(length);
        let has_leading_zero = length > 1 && digits[0] == b'0';
        if length == 0 || has_leading_zero {
            return None;
        }
        self.rest = rest;
        digits.iter().try_fold(0u64, |number, digit| {
            number.checked_mul(10)?.checked_add(u64::from(digit - b'0'))
        })
    }

    /// The first line, and as many lines of jobs as it says.
    fn jobs(&mut self) -> Option<Vec<JobPart>> {
        self.skip("Waiting jobs: ")?;
        let count = self.number().filter(|count| *count <= JOBS_MOST)?;
        self.skip(".\n")?;
        (0..count).map(|_| self.job()).collect()
    }

    fn job(&mut self) -> Option<JobPart> {
        self.skip("Row ")?;
        let row = self.number()?;
        self.skip(", due at ")?;
        let due = self.number()?;
        self.skip(", budget ")?;
        let budget = self.number()?;
        // The bracket stands after a budget of 0, always, and after no other.
        if budget == 0 {
            self.skip(" (holds later jobs back)")?;
        }
        self.skip(": ")?;
        let is_candidate = !self.skips("not a ");
        self.skip("candidate.\n")?;
        Some(JobPart {
            row,
            due,
            budget,
            is_candidate,
        })
    }

    fn brittle(&mut self) -> Option<u64> {
        self.skip("Brittle deadline ")?;
        let deadline = self.number()?;
        self.skip(": of the candidates only the first may be due later.\n")?;
        Some(deadline)
    }

    /// The chosen row up to its comma. Idle is row 16 as a part, so no text says
    /// `row 16` here: two texts of one explanation there are not.
    fn chosen(&mut self) -> Option<u64> {
        self.skip("Chosen: ")?;
        if self.skips("idle") {
            return Some(IDLE_PART);
        }
        self.skip("row ")?;
        self.number().filter(|row| *row != IDLE_PART)
    }

    /// What set the span, from the colon to the end of the line.
    fn cause(&mut self) -> Option<Cause> {
        let phrases = [
            (": its remaining ticks.\n", Cause::Remaining),
            (": set by a word.\n", Cause::Word),
            (
                ": the most allowed, for lack of a word.\n",
                Cause::LackOfWord,
            ),
            (": nothing waits.\n", Cause::NothingWaits),
        ];
        let found = phrases.into_iter().find(|(phrase, _)| self.skips(phrase));
        found.map(|(_, cause)| cause)
    }
}
