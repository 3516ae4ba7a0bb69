//! Calls made of the part and of the model, and what differed.

use crate::part::{hex, number_of, retries_of, value_of};
use crate::part::{Call, Caller, Entry, Model, Part};

/// How many numbers an answer can have: 0 where accepted, and the refusals'.
const NUMBERS: usize = 14;

/// The part beside the model, and the count of what was compared.
pub struct Comparison<'a> {
    part: Caller<'a>,
    model: Caller<'a>,
    /// The entries that the part has.
    entries: &'a [Entry],
    /// After so many differences nothing more is compared.
    limit: u64,
    quiet: bool,
    pub passed: u64,
    pub failed: u64,
    /// The refusals seen since the last reset; 0 stands for an accepted call.
    seen: [bool; NUMBERS],
}

impl<'a> Comparison<'a> {
    pub fn new(part: &'a dyn Part, entries: &'a [Entry]) -> Comparison<'a> {
        Comparison {
            part: Caller::new(part),
            model: Caller::new(&Model),
            entries,
            limit: 10,
            quiet: false,
            passed: 0,
            failed: 0,
            seen: [false; NUMBERS],
        }
    }

    /// The same, printing nothing and stopping at the first difference.
    pub fn silent(part: &'a dyn Part, entries: &'a [Entry]) -> Comparison<'a> {
        Comparison {
            limit: 1,
            quiet: true,
            ..Comparison::new(part, entries)
        }
    }

    /// The part, for what is asked of it alone.
    pub fn part(&self) -> &'a dyn Part {
        self.part.part
    }

    pub fn has(&self, entry: Entry) -> bool {
        self.entries.contains(&entry)
    }

    pub fn stopped(&self) -> bool {
        self.failed >= self.limit
    }

    pub fn say(&self, line: &str) {
        if !self.quiet {
            println!("{line}");
        }
    }

    /// Counts a claim, and says what it was where it fails.
    pub fn claim(&mut self, holds: bool, what: impl FnOnce() -> String) {
        if holds {
            self.passed += 1;
        } else {
            self.failed += 1;
            self.say(&format!("FAILED: {}", what()));
        }
    }

    /// Makes a call of both; answer, lent bytes and all bytes around must be
    /// equal. An entry that the part lacks is made of the model alone. Gives
    /// the model's answer.
    pub fn compare(&mut self, call: &Call) -> u64 {
        let answer = self.model.call(call);
        self.seen[usize::from(number_of(answer))] = true;
        if !self.has(call.entry) || self.stopped() {
            return answer;
        }
        let got = self.part.call(call);
        let kept = self.part.kept_the_rest(call);
        if got == answer && kept && self.part.lent() == self.model.lent() {
            self.passed += 1;
            return answer;
        }
        let after = hex(self.model.lent());
        let found = hex(self.part.lent());
        self.failed += 1;
        self.say(&difference(call, (answer, &after), (got, &found), kept));
        answer
    }

    /// Holds the model, and the part where it has the entry, to an answer and
    /// the lent bytes after it.
    pub fn expect(&mut self, name: &str, call: &Call, answer: u64, after: &[u8]) {
        let got = self.model.call(call);
        let found = self.model.lent();
        let wrong = (got != answer || found != after)
            .then(|| difference(call, (answer, &hex(after)), (got, &hex(found)), true));
        self.claim(wrong.is_none(), || {
            format!("{name}: the model\n{}", wrong.unwrap_or_default())
        });
        if self.has(call.entry) && !self.stopped() {
            let got = self.part.call(call);
            let kept = self.part.kept_the_rest(call);
            let found = self.part.lent();
            let wrong = (got != answer || !kept || found != after)
                .then(|| difference(call, (answer, &hex(after)), (got, &hex(found)), kept));
            self.claim(wrong.is_none(), || {
                format!("{name}: the part\n{}", wrong.unwrap_or_default())
            });
        }
    }

    /// The lent bytes after the last call, as the model left them.
    pub fn lent(&self) -> &[u8] {
        self.model.lent()
    }

    pub fn reset_seen(&mut self) {
        self.seen = [false; NUMBERS];
    }

    /// Claims that since the last reset an entry accepted a call and gave each
    /// of its refusals.
    pub fn all_seen(&mut self, entry: Entry) {
        let seen = self.seen;
        for number in [0].into_iter().chain(entry.refusals().iter().copied()) {
            self.claim(seen[usize::from(number)], || {
                format!("{} never answered {number}", entry.name())
            });
        }
    }
}

fn answer_words(answer: u64) -> String {
    match number_of(answer) {
        0 => match retries_of(answer) {
            0 => format!("accepted {}", value_of(answer)),
            retries => format!("accepted {} with retries {retries}", value_of(answer)),
        },
        number => format!("refused {number} {}", value_of(answer)),
    }
}

fn difference(call: &Call, right: (u64, &str), got: (u64, &str), kept: bool) -> String {
    let cut = |text: &str| text.chars().take(2000).collect::<String>();
    let mut text = format!("{}\n", cut(&call.words()));
    text += &format!("  expected: {} {}\n", answer_words(right.0), cut(right.1));
    text += &format!("  answered: {} {}", answer_words(got.0), cut(got.1));
    if !kept {
        text += "\n  and wrote to bytes that it was not lent";
    }
    text
}
