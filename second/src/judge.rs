//! One text and one answer to it: right or wrong. The answer is held against the refusal table, the
//! best delays, the definition of a legal clustering, and the plain labelling byte by byte.

use crate::backends::Answers;
use crate::best::{self, Best};
use crate::printed::{self, Printed};
use crate::rules::{self, Network, Refusal};
use crate::{legal, plain};

/// The refusal that was due, or none where a result was; or what is wrong with the answer.
pub type Verdict = Result<Option<Refusal>, String>;

pub fn judge(text: &[u8], answer: &[u8]) -> Verdict {
    match rules::read(text) {
        Err(refusal) => refused(answer, refusal),
        Ok(network) => judge_network(&network, answer),
    }
}

/// The same for a text that spells this network.
pub fn judge_network(network: &Network, answer: &[u8]) -> Verdict {
    let best = best::delays(network);
    if let Some(refusal) = network.too_heavy() {
        nothing_holds(refusal.line - 2, &best)?;
        return refused(answer, refusal);
    }
    let printed = printed::read(answer, network.gates.len())?;
    unbeaten(network, &best, &printed)?;
    legal::check(network, &printed)?;
    if answer != plain::result(network) {
        return Err("the plain labelling prints another result".into());
    }
    Ok(None)
}

/// The same for a network that is handed over in its row, where its text's verdict is this: it is answered as its text is,
/// and a row of labels with fewer places than gates is then refused too.
pub fn judge_row(backend: &mut dyn Answers, network: &Network, due: Option<Refusal>) -> Verdict {
    let gates = network.gates.len();
    for places in [gates, gates.saturating_sub(1)] {
        if let Some(answer) = backend.labels(network, places) {
            let expected = match due {
                Some(refusal) => Err(refusal),
                None if places < gates => Err(Refusal::NO_ROOM),
                None => plain::labels(network, places),
            };
            if answer != expected {
                return Err(format!("in its row, for {places} places: {answer:?}, not {expected:?}"));
            }
        }
    }
    Ok(due)
}

fn refused(answer: &[u8], refusal: Refusal) -> Verdict {
    if answer == refusal.answer() {
        Ok(Some(refusal))
    } else {
        let Refusal { number, line, column } = refusal;
        Err(format!("refusal {number} at line {line}, column {column} is due"))
    }
}

/// Refusal 9 names the first gate that no cluster can hold. The subsets say so too.
fn nothing_holds(gate: usize, best: &[Best]) -> Result<(), String> {
    let early = best[..gate].contains(&Best::Impossible);
    if early || matches!(best[gate], Best::Delay(_)) {
        return Err(format!("gate {gate} is not the first that no cluster holds"));
    }
    Ok(())
}

/// The printed labels and output delay against the best delays.
fn unbeaten(network: &Network, best: &[Best], printed: &Printed) -> Result<(), String> {
    for (gate, (best, &label)) in best.iter().zip(&printed.labels).enumerate() {
        match *best {
            Best::Delay(delay) if delay == label => {}
            Best::Untried => {}
            _ => return Err(format!("gate {gate} has label {label}, but {best:?}")),
        }
    }
    match best::output_delay(network, best) {
        Some(delay) if delay != printed.output_delay => Err(format!("the best output delay is {delay}")),
        _ => Ok(()),
    }
}
