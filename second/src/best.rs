//! The best delay of each gate, by trying every subset of its cone as the cluster that holds it. No
//! pulls, no order, no growth: only the definition of a copy's delay.

use crate::rules::Network;

/// A cone of this many gates has 2048 subsets that hold its gate; larger cones are left untried.
pub const LARGEST_CONE: usize = 12;

#[derive(Clone, Copy, Debug, PartialEq, Eq)]
pub enum Best {
    Delay(u64),
    /// No subset that holds the gate is light enough.
    Impossible,
    /// The cone is too large.
    Untried,
}

/// The best delay of every gate.
pub fn delays(network: &Network) -> Vec<Best> {
    let mut trial = Trial { network, best: Vec::with_capacity(network.gates.len()), inside: Vec::new() };
    trial.inside.resize(network.gates.len(), None);
    for gate in 0..network.gates.len() {
        let best = match cone(network, gate) {
            None => Best::Untried,
            Some(cone) => trial.least(&cone, 0).map_or(Best::Impossible, Best::Delay),
        };
        trial.best.push(best);
    }
    trial.best
}

/// The largest best delay of a primary output, when it is known of all of them.
pub fn output_delay(network: &Network, best: &[Best]) -> Option<u64> {
    let mut largest = 0;
    for (output, best) in network.outputs().into_iter().zip(best) {
        match best {
            Best::Delay(delay) if output => largest = largest.max(*delay),
            _ if output => return None,
            _ => {}
        }
    }
    Some(largest)
}

/// The gates of a cone by rising number, the gate itself last; none if they are too many.
fn cone(network: &Network, gate: usize) -> Option<Vec<usize>> {
    let mut cone = Vec::with_capacity(LARGEST_CONE);
    cone.push(gate);
    let mut next = 0;
    while let Some(&reader) = cone.get(next) {
        for fanin in network.gates[reader].fanins() {
            if !cone.contains(&fanin) {
                if cone.len() == LARGEST_CONE {
                    return None;
                }
                cone.push(fanin);
            }
        }
        next += 1;
    }
    cone.sort_unstable();
    Some(cone)
}

struct Trial<'a> {
    network: &'a Network,
    /// Of the gates before the one on trial.
    best: Vec<Best>,
    /// For each gate that the subset on trial holds, the delay of its copy.
    inside: Vec<Option<u64>>,
}

impl Trial<'_> {
    /// The least delay of the cone's last gate over all subsets that agree with `inside` on the gates
    /// already decided and leave the rest open: each of `cone` in turn is in or out, the last is in.
    fn least(&mut self, cone: &[usize], weight: u64) -> Option<u64> {
        let (&gate, rest) = cone.split_first()?;
        let with = self.joined(gate, weight);
        if rest.is_empty() {
            return with.map(|(_, delay)| delay);
        }
        let without = self.least(rest, weight);
        let (weight, delay) = match with {
            Some(joined) => joined,
            None => return without,
        };
        self.inside[gate] = Some(delay);
        let with = self.least(rest, weight);
        self.inside[gate] = None;
        match (with, without) {
            (Some(with), Some(without)) => Some(with.min(without)),
            (with, without) => with.or(without),
        }
    }

    /// The subset's weight and the gate's delay with the gate in it; none if that is too heavy or one
    /// of its fan-ins can be had nowhere.
    fn joined(&self, gate: usize, weight: u64) -> Option<(u64, u64)> {
        let gate = &self.network.gates[gate];
        let weight = weight + u64::from(gate.weight);
        if weight > u64::from(self.network.capacity) {
            return None;
        }
        let mut arrival = 0;
        for fanin in gate.fanins() {
            arrival = arrival.max(match (self.inside[fanin], self.best[fanin]) {
                (Some(delay), _) => delay,
                (None, Best::Delay(delay)) => delay + u64::from(self.network.hop),
                _ => return None,
            });
        }
        Some((weight, arrival + u64::from(gate.delay)))
    }
}
