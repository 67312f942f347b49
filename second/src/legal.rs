//! The printed clusters against the definition of a legal clustering and of the delay of a copy.
//!
//! The copies are the pairs (root, member). A copy's feeder for a fan-in is its own cluster's copy of
//! it, if there is one, otherwise the root of the fan-in's own cluster.

use crate::printed::{Cluster, Printed};
use crate::rules::Network;

/// What is wrong with the clusters, if anything.
pub fn check(network: &Network, printed: &Printed) -> Result<(), String> {
    let copies = Copies::of(network, printed);
    for (at, cluster) in printed.clusters.iter().enumerate() {
        let weight: u64 = cluster.members.iter().map(|&m| u64::from(network.gates[m].weight)).sum();
        if weight > u64::from(network.capacity) {
            return Err(format!("cluster {} weighs {weight}", cluster.root));
        }
        if !cluster.members.contains(&cluster.root) {
            return Err(format!("cluster {} does not hold its root", cluster.root));
        }
        if let Some(member) = dead_copy(network, &copies, at, cluster) {
            return Err(format!("in cluster {}, {member} does not reach the root", cluster.root));
        }
    }
    let outputs = network.outputs();
    for gate in (0..outputs.len()).filter(|&gate| outputs[gate]) {
        let count = (0..printed.clusters.len()).filter(|&at| copies.held(at, gate)).count();
        if count != 1 {
            return Err(format!("primary output {gate} has {count} copies"));
        }
    }
    let delays = delays(network, printed, &copies)?;
    compare(printed, &copies, &outputs, &delays)?;
    needed(network, printed, &copies, &outputs)
}

/// Which cluster holds which gate, and which cluster is the gate's own.
struct Copies {
    gates: usize,
    held: Vec<bool>,
    own: Vec<Option<usize>>,
}

impl Copies {
    fn of(network: &Network, printed: &Printed) -> Copies {
        let gates = network.gates.len();
        let mut held = vec![false; gates * printed.clusters.len()];
        let mut own = vec![None; gates];
        for (at, cluster) in printed.clusters.iter().enumerate() {
            for &member in &cluster.members {
                held[at * gates + member] = true;
            }
            if let Some(own) = own.get_mut(cluster.root) {
                *own = Some(at);
            }
        }
        Copies { gates, held, own }
    }

    fn held(&self, at: usize, gate: usize) -> bool {
        self.held[at * self.gates + gate]
    }

    /// The cluster of the copy that feeds a member of cluster `at` with `fanin`.
    fn feeder(&self, at: usize, fanin: usize) -> Option<usize> {
        if self.held(at, fanin) {
            Some(at)
        } else {
            self.own[fanin]
        }
    }
}

/// The delay of every copy, in the places of `Copies::held`. Feeders are copies of lower gates, so by
/// rising gate each copy's feeders come before it; a path that starts above the primary inputs
/// could be made longer, so the largest total over all paths is the one from the primary inputs.
fn delays(network: &Network, printed: &Printed, copies: &Copies) -> Result<Vec<u64>, String> {
    let mut delays = vec![0; copies.held.len()];
    for (number, gate) in network.gates.iter().enumerate() {
        for at in (0..printed.clusters.len()).filter(|&at| copies.held(at, number)) {
            let mut arrival = 0;
            for fanin in gate.fanins() {
                let feeder = copies.feeder(at, fanin).ok_or_else(|| {
                    let root = printed.clusters[at].root;
                    format!("in cluster {root}, nothing feeds {number} with {fanin}")
                })?;
                let hop = if feeder == at { 0 } else { u64::from(network.hop) };
                arrival = arrival.max(delays[feeder * copies.gates + fanin] + hop);
            }
            delays[at * copies.gates + number] = arrival + u64::from(gate.delay);
        }
    }
    Ok(delays)
}

/// The printed labels and output delay against the delays of the copies.
fn compare(printed: &Printed, copies: &Copies, outputs: &[bool], delays: &[u64]) -> Result<(), String> {
    let mut largest = 0;
    for (at, cluster) in printed.clusters.iter().enumerate() {
        let delay = delays[at * copies.gates + cluster.root];
        if delay != printed.labels[cluster.root] {
            return Err(format!("root {} has delay {delay}, not its label", cluster.root));
        }
        for &member in cluster.members.iter().filter(|&&member| outputs[member]) {
            largest = largest.max(delays[at * copies.gates + member]);
        }
    }
    if largest != printed.output_delay {
        return Err(format!("the clustering has delay {largest}, not the printed one"));
    }
    Ok(())
}

/// "The tie rule makes every member reach v inside the cluster": a member that does not.
fn dead_copy(network: &Network, copies: &Copies, at: usize, cluster: &Cluster) -> Option<usize> {
    let mut reaches = vec![false; copies.gates];
    reaches[cluster.root] = true;
    for &member in cluster.members.iter().rev() {
        if !reaches[member] {
            return Some(member);
        }
        for fanin in network.gates[member].fanins().filter(|&fanin| copies.held(at, fanin)) {
            reaches[fanin] = true;
        }
    }
    None
}

/// "Nothing else is drawn": every cluster is a primary output's or that of another's input.
fn needed(network: &Network, printed: &Printed, copies: &Copies, outputs: &[bool]) -> Result<(), String> {
    let mut needed = outputs.to_vec();
    for (at, cluster) in printed.clusters.iter().enumerate() {
        for &member in &cluster.members {
            for fanin in network.gates[member].fanins().filter(|&fanin| !copies.held(at, fanin)) {
                needed[fanin] = true;
            }
        }
    }
    match printed.clusters.iter().find(|cluster| !needed[cluster.root]) {
        Some(cluster) => Err(format!("cluster {} is drawn for nothing", cluster.root)),
        None => Ok(()),
    }
}
