//! The rules of `docs/RULES.md` as they are written there, in plain code: pulls, order, growth, selection, frames.

use crate::hex;
use crate::rules::{self, Network, Refusal};

/// The whole answer to a text.
pub fn answer(text: &[u8]) -> Vec<u8> {
    match rules::read(text) {
        Err(refusal) => refusal.answer(),
        Ok(network) => match network.too_heavy() {
            Some(refusal) => refusal.answer(),
            None => result(&network),
        },
    }
}

/// The result frames of a network without a gate heavier than M.
pub fn result(network: &Network) -> Vec<u8> {
    let outputs = network.outputs();
    let Labelling { labels, clusters } = labelling(network);
    let drawn = drawn(network, &outputs, &clusters);
    let delay = (0..labels.len()).filter(|&gate| outputs[gate]).map(|gate| labels[gate]).max();
    let mut text = Vec::with_capacity(256);
    line(&mut text, 0x11, &[(delay.unwrap_or(0), 4), (drawn.len(), 2)]);
    for (gate, &label) in labels.iter().enumerate() {
        line(&mut text, 0x12, &[(gate, 2), (label, 4)]);
    }
    for root in drawn {
        let members = &clusters[root];
        hex::push(&mut text, 0x13, 1);
        hex::push(&mut text, root, 2);
        hex::push(&mut text, members.len(), 2);
        members.iter().for_each(|&member| hex::push(&mut text, member, 2));
        text.push(b'\n');
    }
    line(&mut text, 0x1F, &[(labels.len(), 2)]);
    text
}

fn line(text: &mut Vec<u8>, kind: usize, numbers: &[(usize, usize)]) {
    hex::push(text, kind, 1);
    for &(number, width) in numbers {
        hex::push(text, number, width);
    }
    text.push(b'\n');
}

/// The labels of a network in its row, for a row of so many places: the network answers as its text does.
pub fn labels(network: &Network, places: usize) -> Result<Vec<u32>, Refusal> {
    let network = rules::read(&network.text())?;
    if let Some(refusal) = network.too_heavy() {
        return Err(refusal);
    }
    if places < network.gates.len() {
        return Err(Refusal::NO_ROOM);
    }
    Ok(labelling(&network).labels.into_iter().map(|label| label as u32).collect())
}

pub struct Labelling {
    pub labels: Vec<usize>,
    /// The members of each gate's cluster, by rising number.
    pub clusters: Vec<Vec<usize>>,
}

pub fn labelling(network: &Network) -> Labelling {
    let onward = onward(network);
    let gates = network.gates.len();
    let (mut labels, mut clusters) = (Vec::with_capacity(gates), Vec::with_capacity(gates));
    for (gate, onward) in onward.iter().enumerate() {
        let (label, cluster) = if network.gates[gate].is_input() {
            (network.gates[gate].delay.into(), vec![gate])
        } else {
            grow(network, gate, &by_pull(&labels, onward))
        };
        labels.push(label);
        clusters.push(cluster);
    }
    Labelling { labels, clusters }
}

/// `[v][u]` is the onward delay from u to v, none where no path leads from u to v. A path to v is a
/// path to one of its fan-ins, or none, and then v.
fn onward(network: &Network) -> Vec<Vec<Option<usize>>> {
    let mut onward: Vec<Vec<Option<usize>>> = Vec::with_capacity(network.gates.len());
    for (number, gate) in network.gates.iter().enumerate() {
        let delay = usize::from(gate.delay);
        let mut row = vec![None; number];
        for fanin in gate.fanins() {
            row[fanin] = row[fanin].max(Some(delay));
            for (entry, before) in row.iter_mut().zip(&onward[fanin]) {
                *entry = (*entry).max(before.map(|before| before + delay));
            }
        }
        onward.push(row);
    }
    onward
}

/// The pull and the number of each gate in the cone, larger pulls first, equal pulls larger number
/// first.
fn by_pull(labels: &[usize], onward: &[Option<usize>]) -> Vec<(usize, usize)> {
    let pull = |(gate, onward): (usize, &Option<usize>)| onward.map(|o| (labels[gate] + o, gate));
    let mut order: Vec<_> = onward.iter().enumerate().filter_map(pull).collect();
    order.sort_by(|a, b| b.cmp(a));
    order
}

/// The label of a gate and its cluster.
fn grow(network: &Network, root: usize, order: &[(usize, usize)]) -> (usize, Vec<usize>) {
    let mut cluster = vec![root];
    let mut weight = u64::from(network.gates[root].weight);
    let mut label = 0;
    for &(pull, gate) in order {
        weight += u64::from(network.gates[gate].weight);
        if weight > u64::from(network.capacity) {
            label = label.max(pull + usize::from(network.hop));
            break;
        }
        cluster.push(gate);
        if network.gates[gate].is_input() {
            label = label.max(pull);
        }
    }
    cluster.sort_unstable();
    (label, cluster)
}

/// The roots of the drawn clusters, rising.
fn drawn(network: &Network, outputs: &[bool], clusters: &[Vec<usize>]) -> Vec<usize> {
    let mut drawn = outputs.to_vec();
    let mut waiting: Vec<_> = (0..outputs.len()).filter(|&gate| outputs[gate]).collect();
    while let Some(root) = waiting.pop() {
        let cluster = &clusters[root];
        for fanin in cluster.iter().flat_map(|&member| network.gates[member].fanins()) {
            if cluster.binary_search(&fanin).is_err() && !drawn[fanin] {
                drawn[fanin] = true;
                waiting.push(fanin);
            }
        }
    }
    (0..outputs.len()).filter(|&gate| drawn[gate]).collect()
}
