//! A printed result taken apart, and whether its frames have the order and the counts they must have.

use crate::hex;

pub struct Cluster {
    pub root: usize,
    pub members: Vec<usize>,
}

pub struct Printed {
    pub output_delay: u64,
    pub labels: Vec<u64>,
    pub clusters: Vec<Cluster>,
}

/// What an answer prints about a network of so many gates, or what is wrong with its form.
pub fn read(answer: &[u8], gates: usize) -> Result<Printed, String> {
    let mut lines = Lines { rest: answer, number: 0, frame: Vec::new() };
    let result = lines.next(0x11, 6)?;
    let output_delay = hex::number(&result[..4]) as u64;
    let drawn = hex::number(&result[4..]);
    let mut labels = Vec::with_capacity(gates);
    for gate in 0..gates {
        let label = lines.next(0x12, 6)?;
        if hex::number(&label[..2]) != gate {
            return lines.wrong("not the label of the next gate");
        }
        labels.push(hex::number(&label[2..]) as u64);
    }
    let mut clusters: Vec<Cluster> = Vec::with_capacity(gates);
    for _ in 0..drawn {
        let cluster = match cluster(lines.next(0x13, 4)?) {
            Some(cluster) => cluster,
            None => return lines.wrong("not as many members as counted"),
        };
        if matches!(clusters.last(), Some(last) if last.root >= cluster.root) {
            return lines.wrong("roots do not rise");
        }
        let rising = cluster.members.windows(2).all(|pair| pair[0] < pair[1]);
        if !rising || cluster.members.iter().any(|&member| member >= gates) {
            return lines.wrong("members do not rise, or are no gates");
        }
        clusters.push(cluster);
    }
    if hex::number(lines.next(0x1F, 2)?) != gates {
        return lines.wrong("not the number of gates");
    }
    if !lines.rest.is_empty() {
        return lines.wrong("more follows the result's end");
    }
    Ok(Printed { output_delay, labels, clusters })
}

/// Root and members; none where the members are not as many as counted.
fn cluster(body: &[u8]) -> Option<Cluster> {
    let count = hex::number(&body[2..4]);
    let members = body[4..].chunks(2).map(hex::number).collect();
    (body.len() == 4 + 2 * count).then_some(Cluster { root: hex::number(&body[..2]), members })
}

struct Lines<'a> {
    rest: &'a [u8],
    number: usize,
    frame: Vec<u8>,
}

impl Lines<'_> {
    fn wrong<T>(&self, what: &str) -> Result<T, String> {
        Err(format!("line {} of the answer: {what}", self.number))
    }

    /// The bytes after the type of the next line, which must have that type and that many of them;
    /// those of a cluster, 13, may be more.
    fn next(&mut self, kind: u8, length: usize) -> Result<&[u8], String> {
        self.number += 1;
        let end = match self.rest.iter().position(|&byte| byte == b'\n') {
            Some(end) => end,
            None => return self.wrong("no line"),
        };
        let (line, rest) = (&self.rest[..end], &self.rest[end + 1..]);
        self.rest = rest;
        if hex::decode(line, &mut self.frame).is_err() {
            return self.wrong("not a line of hexadecimal");
        }
        let fits = self.frame.len() == 1 + length || kind == 0x13 && self.frame.len() > length;
        if self.frame[0] != kind || !fits {
            return self.wrong(&format!("not a frame {kind:02X} of its length"));
        }
        Ok(&self.frame[1..])
    }
}

#[cfg(test)]
mod tests {
    use super::*;

    const CHAIN: &str = "11000000010002\n12000000000000\n12000100000001\n13000000010000\n\
                         130001000200000001\n1F0002\n";

    fn reads(from: &str, to: &str) -> bool {
        assert!(CHAIN.contains(from));
        read(CHAIN.replace(from, to).as_bytes(), 2).is_ok()
    }

    #[test]
    fn order_and_counts() {
        assert!(reads("", ""));
        assert!(!reads("11000000010002", "11000000010001"));
        assert!(!reads("11000000010002", "11000000010003"));
        assert!(!reads("12000000000000\n", ""));
        assert!(!reads("120001", "120000"));
        assert!(!reads("1300010002", "1300010001"));
        assert!(!reads("1300010002", "1300010003"));
        assert!(!reads("1300010002", "1300000002"));
        assert!(!reads("00000001\n1F", "00010000\n1F"));
        assert!(!reads("00000001\n1F", "00000002\n1F"));
        assert!(!reads("1F0002", "1F0001"));
        assert!(!reads("1F0002\n", "1F0002"));
        assert!(!reads("1F0002\n", "1F0002\n\n"));
    }
}
