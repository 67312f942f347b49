//! Random networks: many shapes, many ties, numbers at both ends of their ranges.

use crate::backends::Answers;
use crate::judge::{judge, judge_row};
use crate::rng::Rng;
use crate::rules::{Gate, Network, MOST_FANINS, MOST_GATES};
use crate::tally::Tally;

/// Tries `count` networks of up to 40 gates, `large` of them of up to 512 instead, spread evenly.
pub fn run(backend: &mut dyn Answers, count: u64, large: u64, seed: u64) -> Tally {
    let mut rng = Rng::new(seed);
    let mut tally = Tally::default();
    for index in 0..count {
        let gates = if (index + 1) * large / count > index * large / count {
            rng.between(41, MOST_GATES)
        } else {
            let most = *rng.pick(&[6, 12, 24, 40]);
            rng.between(1, most)
        };
        let network = network(&mut rng, gates);
        let text = network.text();
        let answer = backend.answer(&text);
        let verdict = judge(&text, &answer).and_then(|due| judge_row(backend, &network, due));
        tally.count(&text, &answer, verdict);
    }
    tally
}

/// A random network of so many gates.
pub fn network(rng: &mut Rng, gates: usize) -> Network {
    let weights = *rng.pick(&[(1, 1), (1, 1), (0, 2), (1, 9), (0, 0), (0, 65_535), (65_535, 65_535)]);
    let delays = *rng.pick(&[(1, 1), (0, 0), (0, 2), (0, 2), (1, 20), (0, 65_535), (65_535, 65_535)]);
    let most = rng.between(1, MOST_FANINS);
    let reach = *rng.pick(&[1, 2, 4, 8, 16, gates, gates]);
    let mut network = Network::default();
    for number in 0..gates {
        network.gates.push(Gate {
            weight: rng.between(weights.0, weights.1) as u16,
            delay: rng.between(delays.0, delays.1) as u16,
            fanins: fanins(rng, number, most, reach),
        });
    }
    network.capacity = capacity(rng, &network);
    network.hop = match rng.below(5) {
        0 => 0,
        1 | 2 => rng.between(1, 4),
        3 => rng.between(0, 65_535),
        _ => 65_535,
    } as u16;
    network
}

/// At most `most` rising fan-ins from the last `reach` gates before gate `number`.
fn fanins(rng: &mut Rng, number: usize, most: usize, reach: usize) -> Vec<u16> {
    let lowest = number.saturating_sub(reach);
    let count = if number == 0 { 0 } else { rng.between(0, most) };
    let mut fanins: Vec<_> = (0..count).map(|_| rng.between(lowest, number - 1) as u16).collect();
    fanins.sort_unstable();
    fanins.dedup();
    fanins
}

/// Mostly from the heaviest gate to the whole network; seldom too little, or all there is.
fn capacity(rng: &mut Rng, network: &Network) -> u32 {
    let weights = || network.gates.iter().map(|gate| usize::from(gate.weight));
    let (heaviest, total) = (weights().max().unwrap_or(0), weights().sum());
    let capacity = match rng.below(16) {
        0 => heaviest.saturating_sub(1),
        1 => heaviest,
        2 => total,
        3 => u32::MAX as usize,
        4..=9 => rng.between(heaviest, (heaviest * 4).min(total)),
        _ => rng.between(heaviest, total),
    };
    capacity as u32
}
