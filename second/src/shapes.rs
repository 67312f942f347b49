//! The networks that speed is measured on, and the times of the two baselines on them.

use std::time::{Duration, Instant};

#[cfg(feature = "bench")]
use crate::library;
use crate::rng::Rng;
use crate::rules::{Gate, Network, MOST_FANINS, MOST_GATES};
use crate::steps::{InRow, PLACES};
use crate::{sorted, steps};

#[derive(Clone, Copy, Debug)]
pub enum Shape {
    /// Each gate reads the one before it.
    Chain,
    /// Each gate reads the 8 before it.
    Last8,
    /// Each gate reads up to 8 of all before it.
    Random,
}

pub const SHAPES: [Shape; 3] = [Shape::Chain, Shape::Last8, Shape::Random];

/// M of one gate, of about a hundred, of all: every gate weighs 1.
pub const CAPACITIES: [u32; 3] = [1, 100, 512];

/// Gates of weight 1, delays from 1 to 100, D 50.
pub fn network(shape: Shape, gates: usize, capacity: u32) -> Network {
    let mut rng = Rng::new(512);
    let mut network = Network { capacity, hop: 50, gates: Vec::new() };
    for number in 0..gates {
        let lowest = match shape {
            Shape::Chain => number.saturating_sub(1),
            Shape::Last8 => number.saturating_sub(MOST_FANINS),
            Shape::Random => 0,
        };
        let mut fanins: Vec<_> = (lowest..number).map(|fanin| fanin as u16).collect();
        while fanins.len() > MOST_FANINS {
            fanins.swap_remove(rng.below(fanins.len()));
        }
        fanins.sort_unstable();
        network.gates.push(Gate { weight: 1, delay: rng.between(1, 100) as u16, fanins });
    }
    network
}

/// A network in its row, as the baselines and the library take it.
pub struct Owned {
    capacity: u32,
    hop: u16,
    gates: usize,
    row: Vec<u16>,
}

impl Owned {
    /// A gate with more than 8 fan-ins keeps its count, and has places for the first 8.
    pub fn of(network: &Network) -> Owned {
        let mut row = vec![0; PLACES * network.gates.len()];
        for (gate, block) in network.gates.iter().zip(row.chunks_exact_mut(PLACES)) {
            block[0] = gate.weight;
            block[1] = gate.delay;
            block[2] = gate.fanins.len() as u16;
            block[3..].iter_mut().zip(&gate.fanins).for_each(|(place, &fanin)| *place = fanin);
        }
        Owned { capacity: network.capacity, hop: network.hop, gates: network.gates.len(), row }
    }

    pub fn in_row(&self) -> InRow<'_> {
        InRow { capacity: self.capacity, hop: self.hop, gates: self.gates, row: &self.row }
    }
}

type Label = fn(&InRow, &mut [u32]);

/// The labels that a baseline gives a network in its row.
pub fn labels(label: Label, network: &InRow) -> [u32; MOST_GATES] {
    let mut labels = [0; MOST_GATES];
    label(network, &mut labels);
    labels
}

/// The same value, which the compiler cannot know to be the same: what it is used for is not left out.
pub fn opaque<T: Copy>(value: T) -> T {
    // A read of a value that is there and may be copied.
    unsafe { std::ptr::read_volatile(&value) }
}

fn time(label: Label, network: &InRow) -> Duration {
    let start = Instant::now();
    opaque(labels(label, &opaque(*network)));
    start.elapsed()
}

/// The labelling under test, linked from the static library.
#[cfg(feature = "bench")]
fn proved(network: &InRow, labels: &mut [u32]) {
    assert_eq!(library::label(network, labels), Ok(()), "an accepted network");
}

/// The labellings that are timed: the baselines and, if it is linked, the proved one.
fn timed() -> Vec<(&'static str, Label)> {
    #[allow(unused_mut)]
    let mut timed = vec![("steps", steps::label as Label), ("sorted", sorted::label)];
    #[cfg(feature = "bench")]
    timed.push(("proved", proved));
    timed
}

/// A table of times in microseconds for 64 to 512 gates; of the proved labelling's time by each baseline's; and, at 512
/// gates, of its time by its own at 64. Without the proved labelling only the times.
pub fn times() -> String {
    let timed = timed();
    let mut table = format!("{:>8} {:>5} {:>5}", "shape", "M", "gates");
    for (name, _) in &timed {
        table += &format!(" {name:>10}");
    }
    if timed.len() > 2 {
        table += &format!(" {:>12} {:>13} {:>6}", "proved/steps", "proved/sorted", "512/64");
    }
    table += "\n";
    for shape in SHAPES {
        for capacity in CAPACITIES {
            let mut first = None;
            for gates in [64, 128, 256, 512] {
                let times = labelled(&timed, &Owned::of(&network(shape, gates, capacity)));
                table += &format!("{:>8} {capacity:>5} {gates:>5}", format!("{shape:?}"));
                for time in &times {
                    table += &format!(" {time:>10.1}");
                }
                if let [steps, sorted, proved] = times[..] {
                    table += &format!(" {:>12.2} {:>13.2}", proved / steps, proved / sorted);
                    let first = *first.get_or_insert(proved);
                    if gates == 512 {
                        table += &format!(" {:>6.0}", proved / first);
                    }
                }
                table += "\n";
            }
        }
    }
    table
}

/// The time of each labelling of a network, in microseconds: the shortest of many runs, taken in turns. All have to give
/// the same labels.
fn labelled(timed: &[(&str, Label)], owned: &Owned) -> Vec<f64> {
    let expected = labels(steps::label, &owned.in_row());
    for (name, label) in timed {
        assert_eq!(labels(*label, &owned.in_row()), expected, "{name} gives other labels");
    }
    let mut best = vec![Duration::MAX; timed.len()];
    for _ in 0..50 {
        for ((_, label), best) in timed.iter().zip(&mut best) {
            *best = time(*label, &owned.in_row()).min(*best);
        }
    }
    best.iter().map(|time| time.as_secs_f64() * 1e6).collect()
}

#[cfg(test)]
mod tests {
    use super::*;
    use crate::{plain, random};

    fn all_agree(network: &Network) {
        let owned = Owned::of(network);
        let plain = plain::labelling(network).labels;
        for label in [steps::label as Label, sorted::label] {
            let labels = labels(label, &owned.in_row());
            assert!(labels.iter().zip(&plain).all(|(&label, &plain)| label as usize == plain));
        }
    }

    #[test]
    fn baselines_label_shapes_as_the_plain_reading_does() {
        for shape in SHAPES {
            for capacity in CAPACITIES {
                all_agree(&network(shape, MOST_GATES, capacity));
            }
        }
    }

    #[test]
    fn baselines_label_random_networks_as_the_plain_reading_does() {
        let mut rng = Rng::new(4);
        for _ in 0..2_000 {
            let gates = rng.between(1, 60);
            let network = random::network(&mut rng, gates);
            if network.too_heavy().is_none() {
                all_agree(&network);
            }
        }
    }
}
