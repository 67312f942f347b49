//! The worked rows P1 to P24 of `docs/RULES.md`, and texts at the ceilings, which are only run.

use crate::backends::Answers;
use crate::judge::judge;
use crate::printed;
use crate::rules::{Gate, Network, Refusal};
use crate::tally::Tally;

pub enum Outcome {
    /// Output delay and roots.
    Drawn(u64, &'static [usize]),
    /// The same, and what the last root holds.
    Holds(u64, &'static [usize], &'static [usize]),
    /// Number, line and column.
    Refused(u8, usize, usize),
    /// The whole answer.
    Whole(&'static str),
    /// A result, whichever is right.
    Read,
}

use Outcome::{Drawn, Holds, Read, Refused, Whole};

pub struct Case {
    pub name: &'static str,
    pub text: Vec<u8>,
    pub outcome: Outcome,
}

pub fn run(backend: &mut dyn Answers) -> Tally {
    let mut tally = Tally::default();
    for case in cases() {
        let answer = backend.answer(&case.text);
        let verdict = judge(&case.text, &answer).and_then(|due| match meets(&case, &answer, due) {
            true => Ok(due),
            false => Err(format!("{} has another outcome", case.name)),
        });
        tally.count(&case.text, &answer, verdict);
    }
    tally
}

fn meets(case: &Case, answer: &[u8], due: Option<Refusal>) -> bool {
    if let Refused(number, line, column) = case.outcome {
        // Spelled here once more: otherwise the frame of a refusal would only be compared with itself.
        let frame = format!("1E{number:02X}{line:04X}{column:04X}\n");
        return due == Some(Refusal { number, line, column }) && answer == frame.as_bytes();
    }
    let gates = case.text.split(|&byte| byte == b'\n').count() - 3;
    let printed = match printed::read(answer, gates) {
        Ok(printed) => printed,
        Err(_) => return false,
    };
    let drawn = |delay, roots: &[usize]| {
        printed.output_delay == delay && printed.clusters.iter().map(|c| &c.root).eq(roots)
    };
    match case.outcome {
        Drawn(delay, roots) => drawn(delay, roots),
        Holds(delay, roots, members) => {
            drawn(delay, roots) && matches!(printed.clusters.last(), Some(last) if last.members == members)
        }
        Whole(whole) => answer == whole.as_bytes(),
        Refused(..) | Read => due.is_none(),
    }
}

const A: &str = "01000000030004\n020001000100\n020001000200\n02000100030200000001\n\
                 0200010001010001\n02000100020200020003\n0F0005\n";

const A_ANSWER: &str = "110000000A0003\n12000000000001\n12000100000002\n12000200000005\n\
                        12000300000003\n1200040000000A\n13000000010000\n130003000200010003\n\
                        1300040003000100020004\n1F0005\n";

/// Network A with another M and D.
fn a(capacity: u32, hop: u16) -> Vec<u8> {
    A.replace("01000000030004", &format!("01{capacity:08X}{hop:04X}")).into()
}

/// Network A with so many of its lines, from a place on, replaced by others.
fn a_with(at: usize, lines: usize, others: &str) -> Vec<u8> {
    let mut text: Vec<&str> = A.split_inclusive('\n').collect();
    text.splice(at - 1..at - 1 + lines, [others]);
    text.concat().into()
}

/// The lines of network A's header and of what follows it.
fn header_and(rest: &str) -> Vec<u8> {
    format!("01000000030004\n{rest}").into()
}

fn chain_of_three() -> Vec<u8> {
    let gate = |fanins| Gate { weight: 1, delay: 0, fanins };
    Network { capacity: 2, hop: 1, gates: vec![gate(vec![]), gate(vec![0]), gate(vec![1])] }.text()
}

fn lone_gates(count: usize) -> Vec<u8> {
    let lone = Gate { weight: 1, delay: 1, fanins: vec![] };
    Network { capacity: 3, hop: 4, gates: vec![lone; count] }.text()
}

/// A gate that reads all before it.
fn reads_all(fanins: u16) -> Vec<u8> {
    let mut gates = vec![Gate { weight: 1, delay: 1, fanins: vec![] }; fanins.into()];
    gates.push(Gate { weight: 1, delay: 1, fanins: (0..fanins).collect() });
    Network { capacity: 4, hop: 2, gates }.text()
}

/// Network A and then, in line 8, as many digits as make up so many bytes.
fn as_long_as(bytes: usize) -> Vec<u8> {
    let mut text = a(3, 4);
    text.resize(bytes - 1, b'0');
    text.push(b'\n');
    text
}

/// One line of so many bytes, not ended, the last of which is no digit.
fn bad_at(bytes: usize) -> Vec<u8> {
    let mut text = vec![b'0'; bytes - 1];
    text.push(b'x');
    text
}

fn weighing(weight: u16) -> Vec<u8> {
    Network { capacity: 7, hop: 1, gates: vec![Gate { weight, delay: 1, fanins: vec![] }] }.text()
}

pub fn cases() -> Vec<Case> {
    let case = |name, text, outcome| Case { name, text, outcome };
    vec![
        case("network A, whole", a(3, 4), Whole(A_ANSWER)),
        case("P1", a(3, 4), Drawn(10, &[0, 3, 4])),
        case("P2", a(1, 4), Drawn(15, &[0, 1, 2, 3, 4])),
        case("P3", a(2, 4), Drawn(11, &[0, 1, 3, 4])),
        case("P4", a(4, 4), Drawn(9, &[3, 4])),
        case("P5", a(5, 4), Drawn(7, &[4])),
        case("P6", a(1, 0), Drawn(7, &[0, 1, 2, 3, 4])),
        case("P7", a(0, 4), Refused(9, 2, 0)),
        case("P8", b"01000000000000\n020000000000\n0F0001\n".to_vec(), Drawn(0, &[0])),
        case("P9", chain_of_three(), Holds(1, &[0, 2], &[1, 2])),
        case("P10", Vec::new(), Refused(3, 1, 0)),
        case("P11", header_and("0F0000\n"), Refused(8, 2, 0)),
        case("P12", header_and("0F0001\n"), Refused(7, 2, 0)),
        case("P13", header_and("0200000000010000\n0F0001\n"), Refused(6, 2, 0)),
        case("P14", a_with(1, 1, "0100000003000g\n"), Refused(21, 1, 14)),
        case("P15", a_with(3, 1, "02000100020x0y\n"), Refused(21, 3, 12)),
        case("P16", a_with(2, 1, "020001000100\r\n"), Refused(21, 2, 13)),
        case("P17", a_with(4, 1, "0200010003020000001\n"), Refused(22, 4, 0)),
        case("P18", a_with(3, 0, "\n"), Refused(23, 3, 0)),
        case("P19", b"\n".to_vec(), Refused(23, 1, 0)),
        case("P20", a_with(7, 1, "0F0005"), Refused(24, 7, 0)),
        case("P21", b"0".to_vec(), Refused(22, 1, 0)),
        case("P22", b"x".to_vec(), Refused(21, 1, 1)),
        case("P23", header_and("FF"), Refused(24, 2, 0)),
        case("P24", header_and("FFFg\n"), Refused(21, 2, 4)),
        case("512 gates", lone_gates(512), Read),
        case("513 gates", lone_gates(513), Refused(5, 514, 0)),
        case("8 fan-ins", reads_all(8), Read),
        case("9 fan-ins", reads_all(9), Refused(4, 11, 0)),
        case("weight M", weighing(7), Drawn(1, &[0])),
        case("weight M + 1", weighing(8), Refused(9, 2, 0)),
        case("24,576 bytes", as_long_as(24_576), Refused(3, 8, 0)),
        case("24,577 bytes", as_long_as(24_577), Refused(1, 0, 0)),
        case("byte 24,576 no digit", bad_at(24_576), Refused(21, 1, 24_576)),
    ]
}

#[cfg(test)]
mod tests {
    use super::*;
    use crate::backends::Plain;

    #[test]
    fn every_case() {
        for case in cases() {
            let answer = Plain.answer(&case.text);
            let due = judge(&case.text, &answer).unwrap_or_else(|what| panic!("{}: {what}", case.name));
            assert!(meets(&case, &answer, due), "{}", case.name);
        }
    }
}
