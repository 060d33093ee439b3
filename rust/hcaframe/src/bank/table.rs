//! What a bank's run came to: a table for a person, and a report with a row a take.
use super::takes::Take;
use super::work::{Numbers, Outcome, State};
use crate::stop::shown;
use crate::text::Text;
use std::fmt::Write;

/// The table has the worst of them; the report has all.
const STARVED: usize = 20;

/// The numbers of all takes together.
#[derive(Debug, Default)]
pub struct Totals {
    pub done: u64,
    pub skipped: u64,
    /// Refused, or failed.
    pub refused: u64,
    pub frames: u64,
    pub bytes: u64,
    /// The highest level, and the first take that has it.
    pub highest: Option<(u32, usize)>,
    /// Takes that were made with other words before, and one such words.
    pub anew: u64,
    pub former: Option<String>,
    /// Pairs removed, by take.
    pub starved: Vec<(u32, usize)>,
    pub status: u8,
}

impl Totals {
    pub fn add(&mut self, index: usize, outcome: &Outcome) {
        match &outcome.state {
            State::Done(numbers, former) => {
                self.done += 1;
                self.count(index, numbers);
                if former.is_some() {
                    self.anew += 1;
                    self.former = former.clone();
                }
            }
            State::Skipped(numbers) => {
                self.skipped += 1;
                self.count(index, numbers);
            }
            State::Stopped(status, _) => {
                self.refused += 1;
                self.status = self.status.max(*status);
            }
        }
    }

    fn count(&mut self, index: usize, numbers: &Numbers) {
        self.frames += numbers.frames;
        self.bytes += numbers.bytes;
        let is_higher = |(level, at): (u32, usize)| level < numbers.level || (level == numbers.level && index < at);
        if self.highest.map_or(true, is_higher) {
            self.highest = Some((numbers.level, index));
        }
        if 0 < numbers.pairs {
            self.starved.push((numbers.pairs, index));
        }
    }

    /// The table.
    pub fn say(&mut self, text: &mut Text, takes: &[Take]) {
        let name = |index: usize| shown(&takes[index].name);
        text.say(format_args!("done     {}\nskipped  {}\nrefused  {}\n", self.done, self.skipped, self.refused));
        if let Some(words) = &self.former {
            text.say(format_args!("anew     {} of them, made with other words before: {words}\n", self.anew));
        }
        text.say(format_args!("frames   {}\nbytes    {}\n", self.frames, self.bytes));
        if let Some((level, index)) = self.highest {
            text.say(format_args!("level    {level} is the highest: {}\n", name(index)));
        }
        text.say(format_args!("starved  {} takes, of which bands were removed\n", self.starved.len()));
        self.starved.sort_by_key(|&(pairs, index)| (u32::MAX - pairs, index));
        for &(pairs, index) in self.starved.iter().take(STARVED) {
            text.say(format_args!("{pairs:7}  {}\n", name(index)));
        }
        if STARVED < self.starved.len() {
            text.say(format_args!("         and {} more, with fewer removed or the same\n", self.starved.len() - STARVED));
        }
    }
}

/// The report: a row a take, in the order of their names.
pub fn report(takes: &[Take], outcomes: &[Option<Outcome>]) -> String {
    let mut text = "name\tstate\tframes\tbytes\tlevel\tpairs\ttext\n".to_string();
    for (take, outcome) in takes.iter().zip(outcomes) {
        let Some(outcome) = outcome else { continue };
        let (state, numbers, told) = match &outcome.state {
            State::Done(numbers, Some(words)) => ("done", Some(numbers), format!("made with other words before: {words}")),
            State::Done(numbers, None) => ("done", Some(numbers), String::new()),
            State::Skipped(numbers) => ("skipped", Some(numbers), String::new()),
            State::Stopped(1, why) => ("refused", None, why.clone()),
            State::Stopped(_, why) => ("failed", None, why.clone()),
        };
        let columns = numbers.map_or("\t\t\t".to_string(), |n| format!("{}\t{}\t{}\t{}", n.frames, n.bytes, n.level, n.pairs));
        let parts: Vec<String> =
            Some(told).into_iter().chain(outcome.notes.iter().cloned()).filter(|part| !part.is_empty()).collect();
        let _ = writeln!(text, "{}\t{state}\t{columns}\t{}", shown(&take.name), parts.join("; "));
    }
    text
}

#[cfg(test)]
mod tests {
    use super::*;
    use std::path::PathBuf;

    fn numbers(level: u32, pairs: u32) -> Numbers {
        Numbers { frames: 2, bytes: 500, level, pairs }
    }

    fn outcome(state: State) -> Outcome {
        Outcome { state, notes: Vec::new() }
    }

    #[test]
    fn totals() {
        let mut all = Totals::default();
        let states = [
            State::Done(numbers(7, 0), None),
            State::Skipped(numbers(9, 3)),
            State::Done(numbers(9, 5), Some("w".into())),
            State::Stopped(1, "no".into()),
        ];
        for (index, state) in states.into_iter().enumerate().rev() {
            all.add(index, &outcome(state));
        }
        assert_eq!((all.done, all.skipped, all.refused, all.frames, all.bytes, all.status), (2, 1, 1, 6, 1500, 1));
        assert_eq!((all.highest, all.anew), (Some((9, 1)), 1));
        all.starved.sort_unstable();
        assert_eq!(all.starved, [(3, 1), (5, 2)]);
    }

    #[test]
    fn rows() {
        let takes = ["a.wav", "b\tc.wav"].map(|name| Take { name: PathBuf::from(name), bytes: 1 });
        let refused = Outcome { state: State::Stopped(1, "refusal 22: none".into()), notes: vec!["a note".into()] };
        let text = report(&takes, &[Some(outcome(State::Done(numbers(4, 0), None))), Some(refused)]);
        let expected = "name\tstate\tframes\tbytes\tlevel\tpairs\ttext\na.wav\tdone\t2\t500\t4\t0\t\nb\\tc.wav\trefused\t\t\t\t\trefusal 22: none; a note\n";
        assert_eq!(text, expected);
    }
}
