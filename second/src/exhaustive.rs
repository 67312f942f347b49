//! Every network of up to 4 gates with weights 0 to 2, delays 0 to 2, every rising fan-in set, M 0 to 5
//! and D 0 to 2. Nothing is left out.

use crate::backends::Answers;
use crate::judge::judge_network;
use crate::rules::{self, Gate, Network};
use crate::tally::Tally;

pub const MOST_GATES: usize = 4;
const WEIGHTS: u64 = 3;
const DELAYS: u64 = 3;
const CAPACITIES: u64 = 6;
const HOPS: u64 = 3;

/// How many networks have so many gates: gate v has 2^v fan-in sets.
pub fn with_gates(gates: usize) -> u64 {
    (0..gates).map(|gate| (WEIGHTS * DELAYS) << gate).product::<u64>() * CAPACITIES * HOPS
}

/// How many networks have up to so many gates.
pub fn up_to(gates: usize) -> u64 {
    (1..=gates).map(with_gates).sum()
}

/// Makes `network` the `index`-th network: `index` is taken apart into digits, one for each choice.
pub fn set(network: &mut Network, mut index: u64) {
    let mut gates = 1;
    while index >= with_gates(gates) {
        index -= with_gates(gates);
        gates += 1;
    }
    let mut choose = |from: u64| {
        let choice = index % from;
        index /= from;
        choice as u16
    };
    network.hop = choose(HOPS);
    network.capacity = choose(CAPACITIES).into();
    network.gates.resize_with(gates, Gate::default);
    for (number, gate) in network.gates.iter_mut().enumerate() {
        gate.weight = choose(WEIGHTS);
        gate.delay = choose(DELAYS);
        let set = choose(1 << number);
        gate.fanins.clear();
        gate.fanins.extend((0..number as u16).filter(|fanin| set >> fanin & 1 == 1));
    }
}

/// Tries the `part`-th of `parts` (from 1) of the networks of up to `gates` gates.
pub fn run(backend: &mut dyn Answers, gates: usize, part: u64, parts: u64) -> Tally {
    let mut tally = Tally::default();
    let mut network = Network::default();
    let mut index = part - 1;
    while index < up_to(gates) {
        set(&mut network, index);
        let text = network.text();
        let read = rules::read(&text).expect("a network's own text");
        assert!(read == network, "written and read are not the same");
        let answer = backend.answer(&text);
        tally.count(&text, &answer, judge_network(&read, &answer));
        index += parts;
    }
    tally
}

#[cfg(test)]
mod tests {
    use super::*;
    use crate::backends::Plain;
    use std::collections::HashSet;

    #[test]
    fn counts() {
        let counts: Vec<_> = (1..=MOST_GATES).map(with_gates).collect();
        assert_eq!(counts, [162, 2_916, 104_976, 7_558_272]);
        assert_eq!(up_to(MOST_GATES), 7_666_326);
    }

    #[test]
    fn no_network_comes_twice() {
        let mut network = Network::default();
        let mut texts = HashSet::new();
        for index in 0..up_to(3) {
            set(&mut network, index);
            assert!(texts.insert(network.text()));
        }
    }

    #[test]
    fn up_to_three_gates_in_parts() {
        let parts: Vec<_> = (1..=3).map(|part| run(&mut Plain, 3, part, 3)).collect();
        assert!(parts.iter().all(|tally| tally.failed == 0));
        assert_eq!(parts.iter().map(|tally| tally.passed).sum::<u64>(), up_to(3));
    }
}
