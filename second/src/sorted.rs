//! The other baseline for speed: a labelling that sorts with the standard library.

use crate::rules::MOST_GATES;
use crate::steps::InRow;

pub fn label(network: &InRow, labels: &mut [u32]) {
    let mut order: Vec<(u64, usize)> = Vec::with_capacity(MOST_GATES);
    let mut onward: Vec<Option<u32>> = Vec::with_capacity(MOST_GATES);
    for root in 0..network.gates {
        if network.is_input(root) {
            labels[root] = network.delay(root).into();
            continue;
        }
        onward.clear();
        onward.resize(root, None);
        onward.push(Some(0));
        order.clear();
        for gate in (0..=root).rev() {
            let delay = match onward[gate] {
                Some(delay) => delay,
                None => continue,
            };
            let through = Some(delay + u32::from(network.delay(gate)));
            for &fanin in network.fanins(gate) {
                let entry = &mut onward[usize::from(fanin)];
                *entry = (*entry).max(through);
            }
            if gate < root {
                order.push((u64::from(labels[gate]) + u64::from(delay), gate));
            }
        }
        order.sort_unstable_by(|a, b| b.cmp(a));
        let mut weight = u64::from(network.weight(root));
        let mut largest = 0;
        for &(pull, gate) in &order {
            weight += u64::from(network.weight(gate));
            if weight > u64::from(network.capacity) {
                largest = largest.max(pull + u64::from(network.hop));
                break;
            }
            if network.is_input(gate) {
                largest = largest.max(pull);
            }
        }
        labels[root] = largest as u32;
    }
}
