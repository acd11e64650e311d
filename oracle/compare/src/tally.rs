//! Counts the requests and the answers of their calls, by kind of request.

use crate::request::{Kind, KINDS};

/// Acceptance and the numbers that exported calls give.
const NUMBERS: usize = 12;

#[derive(Default)]
pub struct Tally {
    requests: [u64; KINDS.len()],
    answers: [[u64; NUMBERS]; KINDS.len()],
}

impl Tally {
    pub fn request(&mut self, kind: Kind) {
        self.requests[kind as usize] += 1;
    }

    /// Counts an answer. A number that no exported call gives is a difference and has no column.
    pub fn answer(&mut self, kind: Kind, number: u64) {
        if let Some(count) = self.answers[kind as usize].get_mut(number as usize) {
            *count += 1;
        }
    }

    /// The numbers that no answer had.
    #[cfg(test)]
    pub fn missing(&self) -> Vec<usize> {
        let never = |number: &usize| self.answers.iter().all(|row| row[*number] == 0);
        (0..NUMBERS).filter(never).collect()
    }

    pub fn print(&self) {
        let heads = (1..NUMBERS).map(|number| number.to_string());
        let heads = ["requests".to_string(), "ok".to_string()]
            .into_iter()
            .chain(heads);
        print_row("kind", heads);
        for kind in KINDS {
            let answers = self.answers[kind as usize];
            let name = format!("{kind:?}").to_lowercase();
            let row = [self.requests[kind as usize]].into_iter().chain(answers);
            print_row(&name, row.map(|count| count.to_string()));
        }
        let sum = |number| self.answers.iter().map(|row| row[number]).sum();
        let row = [self.requests.iter().sum::<u64>()]
            .into_iter()
            .chain((0..NUMBERS).map(sum));
        print_row("all", row.map(|count| count.to_string()));
    }
}

fn print_row(name: &str, cells: impl Iterator<Item = String>) {
    let cells: String = cells.map(|cell| format!("{cell:>9}")).collect();
    println!("{name:<8}{cells}");
}
