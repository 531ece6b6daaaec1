//! How often each call was compared, and what it said: counted, and put into a table.

use std::collections::BTreeMap;

/// What a call says, as far as it is counted.
pub enum Said {
    Yes,
    No,
    Done,
    Refused(u32),
}

/// Of a call that tells no more than the number of its refusal, 0 where there is none.
impl From<u32> for Said {
    fn from(number: u32) -> Said {
        if number == 0 {
            Said::Done
        } else {
            Said::Refused(number)
        }
    }
}

/// Of a call that says yes or no.
impl From<Result<bool, independent::Refusal>> for Said {
    fn from(outcome: Result<bool, independent::Refusal>) -> Said {
        match outcome {
            Ok(yes) => yes.into(),
            Err(refusal) => Said::Refused(refusal.number),
        }
    }
}

impl From<bool> for Said {
    fn from(yes: bool) -> Said {
        if yes {
            Said::Yes
        } else {
            Said::No
        }
    }
}

/// A call of the C header, by its name without the library's, and the form that it is for, 0 where there is none.
struct Row {
    call: &'static str,
    form: u32,
    yes: u64,
    no: u64,
    done: u64,
    refused: BTreeMap<u32, u64>,
}

impl Row {
    fn all(&self) -> u64 {
        self.yes + self.no + self.done + self.refused.values().sum::<u64>()
    }
}

/// A row for each call and form, the calls in the order in which they came first, and the forms of a call rising.
#[derive(Default)]
pub struct Tally {
    rows: Vec<Row>,
}

impl Tally {
    pub fn count(&mut self, call: &'static str, form: u32, said: impl Into<Said>) {
        let first = self.rows.iter().position(|row| row.call == call).unwrap_or(self.rows.len());
        let at = first + self.rows[first..].iter().take_while(|row| row.call == call && row.form < form).count();
        if self.rows.get(at).is_none_or(|row| (row.call, row.form) != (call, form)) {
            self.rows.insert(at, Row { call, form, yes: 0, no: 0, done: 0, refused: BTreeMap::new() });
        }
        let row = &mut self.rows[at];
        match said.into() {
            Said::Yes => row.yes += 1,
            Said::No => row.no += 1,
            Said::Done => row.done += 1,
            Said::Refused(number) => *row.refused.entry(number).or_insert(0) += 1,
        }
    }

    /// How often the calls were compared, all together.
    pub fn all(&self) -> u64 {
        self.rows.iter().map(Row::all).sum()
    }

    /// How often these calls were.
    pub fn of(&self, calls: &[&str]) -> u64 {
        self.rows.iter().filter(|row| calls.contains(&row.call)).map(Row::all).sum()
    }

    pub fn print(&self) {
        println!("| call | form | compared | yes | no | done | refused, by number |\n|---|---:|---:|---:|---:|---:|---|");
        for row in &self.rows {
            let form = if row.form == 0 { String::new() } else { row.form.to_string() };
            let [yes, no, done] = [row.yes, row.no, row.done].map(|count| if count == 0 { String::new() } else { grouped(count) });
            let refused: Vec<String> = row.refused.iter().map(|(number, &count)| format!("{number}: {}", grouped(count))).collect();
            println!("| `drobisten_{}` | {form} | {} | {yes} | {no} | {done} | {} |", row.call, grouped(row.all()), refused.join(", "));
        }
    }
}

/// A number with a comma before every three digits.
pub fn grouped(number: u64) -> String {
    let digits = number.to_string();
    let comma = |i: usize| i > 0 && (digits.len() - i) % 3 == 0;
    digits.char_indices().map(|(i, digit)| if comma(i) { format!(",{digit}") } else { digit.to_string() }).collect()
}
