//! Counts what passed and failed, and shows the first failure in full.

use crate::backends::Answers;
use crate::judge::{judge, Verdict};
use crate::plain;

#[derive(Default)]
pub struct Tally {
    pub passed: u64,
    pub failed: u64,
    /// How many texts each refusal number was due for; in place 0, how many a result.
    due: [u64; 25],
}

impl Tally {
    /// Puts one text to the backend and counts the verdict.
    pub fn ask(&mut self, backend: &mut dyn Answers, text: &[u8]) {
        let answer = backend.answer(text);
        self.count(text, &answer, judge(text, &answer));
    }

    pub fn count(&mut self, text: &[u8], answer: &[u8], verdict: Verdict) {
        match verdict {
            Ok(refusal) => {
                self.passed += 1;
                self.due[refusal.map_or(0, |refusal| usize::from(refusal.number))] += 1;
            }
            Err(what) => {
                self.failed += 1;
                if self.failed == 1 {
                    println!("FAILED: {what}\nthe text:");
                    show(text);
                    println!("its answer:");
                    show(answer);
                    println!("the plain answer:");
                    show(&plain::answer(text));
                }
            }
        }
    }

    /// Where every text passed, each of the numbers that was due for none of them fails.
    pub fn expect(&mut self, numbers: &[u8]) {
        if self.failed > 0 {
            return;
        }
        for number in numbers.iter().filter(|&&number| self.due[usize::from(number)] == 0) {
            self.failed += 1;
            println!("FAILED: refusal {number} was due for no text");
        }
    }

    /// Two closing lines; true when nothing failed.
    pub fn close(&self) -> bool {
        print!("{} results", self.due[0]);
        for (number, count) in self.due.iter().enumerate().skip(1).filter(|(_, &count)| count > 0) {
            print!(", {count} of refusal {number}");
        }
        println!("\n{} passed, {} failed", self.passed, self.failed);
        self.failed == 0
    }
}

/// A text line by line, with bytes that do not print spelled out.
fn show(text: &[u8]) {
    for line in text.split_inclusive(|&byte| byte == b'\n') {
        match line.strip_suffix(b"\n") {
            Some(line) => println!("    {}", line.escape_ascii()),
            None => println!("    {} (no line feed)", line.escape_ascii()),
        }
    }
}

#[cfg(test)]
mod tests {
    use super::*;
    use crate::rules::Refusal;

    #[test]
    fn a_number_that_never_came_fails() {
        let mut tally = Tally::default();
        tally.count(b"", b"", Ok(Some(Refusal::at_line(3, 1))));
        tally.expect(&[3, 21]);
        assert_eq!((tally.passed, tally.failed), (1, 1));
    }
}
