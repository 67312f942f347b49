//! Texts: how a network is spelled, and the refusal table. Number 10 of it speaks of lent rows, which only
//! the library has.

use crate::hex::{self, Misspelt};

pub const LONGEST_TEXT: usize = 24_576;
pub const MOST_GATES: usize = 512;
pub const MOST_FANINS: usize = 8;

pub const HEADER: u8 = 0x01;
pub const GATE: u8 = 0x02;
pub const END: u8 = 0x0F;
pub const REFUSAL: u8 = 0x1E;

/// Every number that a text can be refused with: that of the whole text, those of a line's form, those of its frame,
/// and that of the network.
pub const NUMBERS: [u8; 12] = [1, 21, 22, 23, 24, 3, 4, 5, 6, 7, 8, 9];

#[derive(Clone, Debug, Default, PartialEq, Eq)]
pub struct Gate {
    pub weight: u16,
    pub delay: u16,
    pub fanins: Vec<u16>,
}

/// A network with its capacity M and its hop delay D.
#[derive(Clone, Debug, Default, PartialEq, Eq)]
pub struct Network {
    pub capacity: u32,
    pub hop: u16,
    pub gates: Vec<Gate>,
}

#[derive(Clone, Copy, Debug, PartialEq, Eq)]
pub struct Refusal {
    pub number: u8,
    pub line: usize,
    /// With 21 the place, from 1, of the line's first bad digit; with all others 0.
    pub column: usize,
}

impl Refusal {
    /// A lent row is too short.
    pub const NO_ROOM: Refusal = Refusal::at_line(10, 0);

    pub const fn at_line(number: u8, line: usize) -> Refusal {
        Refusal { number, line, column: 0 }
    }

    /// The whole answer to a refused text.
    pub fn answer(self) -> Vec<u8> {
        let mut text = Vec::new();
        hex::push(&mut text, REFUSAL.into(), 1);
        hex::push(&mut text, self.number.into(), 1);
        hex::push(&mut text, self.line, 2);
        hex::push(&mut text, self.column, 2);
        text.push(b'\n');
        text
    }
}

impl Gate {
    pub fn fanins(&self) -> impl Iterator<Item = usize> + '_ {
        self.fanins.iter().map(|&fanin| usize::from(fanin))
    }

    pub fn is_input(&self) -> bool {
        self.fanins.is_empty()
    }

    /// Appends this gate's line.
    pub fn push(&self, text: &mut Vec<u8>) {
        hex::push(text, GATE.into(), 1);
        hex::push(text, self.weight.into(), 2);
        hex::push(text, self.delay.into(), 2);
        hex::push(text, self.fanins.len(), 1);
        for fanin in self.fanins() {
            hex::push(text, fanin, 2);
        }
        text.push(b'\n');
    }
}

impl Network {
    /// For each gate, whether it is a primary output: read by no gate.
    pub fn outputs(&self) -> Vec<bool> {
        let mut unread = vec![true; self.gates.len()];
        for gate in &self.gates {
            for fanin in gate.fanins() {
                unread[fanin] = false;
            }
        }
        unread
    }

    pub fn text(&self) -> Vec<u8> {
        let mut text = Vec::with_capacity(32 * (self.gates.len() + 1));
        hex::push(&mut text, HEADER.into(), 1);
        hex::push(&mut text, self.capacity as usize, 4);
        hex::push(&mut text, self.hop.into(), 2);
        text.push(b'\n');
        for gate in &self.gates {
            gate.push(&mut text);
        }
        hex::push(&mut text, END.into(), 1);
        hex::push(&mut text, self.gates.len(), 2);
        text.push(b'\n');
        text
    }

    /// Refusal 9, if a gate is heavier than M. The header is line 1, so gate 0 stands in line 2.
    pub fn too_heavy(&self) -> Option<Refusal> {
        let heavy = |gate: &Gate| u32::from(gate.weight) > self.capacity;
        self.gates.iter().position(heavy).map(|gate| Refusal::at_line(9, gate + 2))
    }
}

/// The network that a text spells, or its refusal, which is any but 9 and 10.
pub fn read(text: &[u8]) -> Result<Network, Refusal> {
    if text.len() > LONGEST_TEXT {
        return Err(Refusal::at_line(1, 0));
    }
    let mut network = Network::default();
    let mut ended = false;
    let mut lines = 0;
    let mut frame = Vec::with_capacity(32);
    for line in text.split_inclusive(|&byte| byte == b'\n') {
        lines += 1;
        let digits = line.strip_suffix(b"\n").unwrap_or(line);
        let fed = digits.len() < line.len();
        let fault = match hex::decode(digits, &mut frame) {
            Err(Misspelt::Empty) => Some((23, 0)),
            Err(Misspelt::BadDigit(column)) => Some((21, column)),
            Err(Misspelt::Odd) => Some((22, 0)),
            Ok(()) if !fed => Some((24, 0)),
            Ok(()) => fault(&frame, lines, network.gates.len(), ended).map(|number| (number, 0)),
        };
        if let Some((number, column)) = fault {
            return Err(Refusal { number, line: lines, column });
        }
        ended = frame[0] == END;
        take(&frame, &mut network);
    }
    if !ended {
        return Err(Refusal::at_line(3, lines + 1));
    }
    Ok(network)
}

/// The lowest number from 3 to 8 that a line deserves whose form is in order. `gates` and `ended`
/// tell what the lines before it held: how many gates, and whether an end.
fn fault(frame: &[u8], line: usize, gates: usize, ended: bool) -> Option<u8> {
    let (kind, body) = (frame[0], &frame[1..]);
    let placed = match kind {
        HEADER => line == 1,
        GATE | END => line > 1 && !ended,
        _ => false,
    };
    if !placed {
        return Some(3);
    }
    let right_length = match kind {
        HEADER => body.len() == 6,
        GATE => body.len() >= 5 && counted(body),
        _ => body.len() == 2,
    };
    if !right_length {
        return Some(4);
    }
    match kind {
        GATE if gates == MOST_GATES => Some(5),
        GATE if !rising_below(&body[5..], gates) => Some(6),
        END if hex::number(body) != gates => Some(7),
        END if gates == 0 => Some(8),
        _ => None,
    }
}

fn counted(gate: &[u8]) -> bool {
    let count = usize::from(gate[4]);
    count <= MOST_FANINS && gate.len() == 5 + 2 * count
}

/// Whether the fan-ins rise strictly and the last of them, so each, is below the gate.
fn rising_below(fanins: &[u8], gate: usize) -> bool {
    let mut least = 0;
    for fanin in fanins.chunks(2).map(hex::number) {
        if fanin < least {
            return false;
        }
        least = fanin + 1;
    }
    least <= gate
}

/// Adds what a faultless line says.
fn take(frame: &[u8], network: &mut Network) {
    let body = &frame[1..];
    let short = |at: usize| hex::number(&body[at..at + 2]) as u16;
    match frame[0] {
        HEADER => {
            network.capacity = hex::number(&body[..4]) as u32;
            network.hop = short(4);
        }
        GATE => network.gates.push(Gate {
            weight: short(0),
            delay: short(2),
            fanins: (5..body.len()).step_by(2).map(short).collect(),
        }),
        _ => {}
    }
}

#[cfg(test)]
mod tests {
    use super::*;

    const A: &str = "01000000030004\n020001000100\n020001000200\n02000100030200000001\n\
                     0200010001010001\n02000100020200020003\n0F0005\n";

    fn refusal(text: &[u8]) -> Refusal {
        match read(text) {
            Err(refusal) => refusal,
            Ok(network) => network.too_heavy().expect("refused"),
        }
    }

    /// Number and line of a refusal that has no column.
    fn refused(text: &str) -> (u8, usize) {
        let refusal = refusal(text.as_bytes());
        assert_eq!(refusal.column, 0);
        (refusal.number, refusal.line)
    }

    /// Line and column of a refusal 21.
    fn bad_digit(text: &[u8]) -> (usize, usize) {
        let refusal = refusal(text);
        assert_eq!(refusal.number, 21);
        (refusal.line, refusal.column)
    }

    #[test]
    fn network_a_is_read_and_written_again() {
        let network = read(A.as_bytes()).unwrap();
        assert_eq!((network.capacity, network.hop, network.gates.len()), (3, 4, 5));
        assert_eq!(network.gates[4], Gate { weight: 1, delay: 2, fanins: vec![2, 3] });
        assert_eq!(network.outputs(), [false, false, false, false, true]);
        assert_eq!(network.text(), A.as_bytes());
    }

    #[test]
    fn one_fault() {
        assert_eq!(refused(""), (3, 1));
        assert_eq!(refused("\n"), (23, 1));
        assert_eq!(refused("01000000030004"), (24, 1));
        assert_eq!(refused("01000000030004\n"), (3, 2));
        assert_eq!(bad_digit(b"01000000030004\r\n"), (1, 15));
        assert_eq!(refused("0100000003000\n"), (22, 1));
        assert_eq!(bad_digit(A.replace('F', "f").as_bytes()), (7, 2));
        assert_eq!(refused(&A[..A.len() - 1]), (24, 7));
        assert_eq!(refused(&format!("{A}\n")), (23, 8));
        assert_eq!(refused(&format!("{A}0F0005\n")), (3, 8));
        assert_eq!(refused(&format!("{A}020001000100\n")), (3, 8));
        assert_eq!(refused(&A[..A.len() - 7]), (3, 7));
        assert_eq!(refused(&A[15..]), (3, 1));
        assert_eq!(refused(&format!("01000000030004\n{A}")), (3, 2));
        assert_eq!(refused(&A.replace("0F0005", "1F0005")), (3, 7));
        assert_eq!(refused(&A.replace("0F0005", "0F05")), (4, 7));
        assert_eq!(refused(&A.replace("0F0005", "0F000005")), (4, 7));
        assert_eq!(refused(&A.replace("0001010001", "000101")), (4, 5));
        assert_eq!(refused("0100000003\n"), (4, 1));
        assert_eq!(refused("01000000030004\n02\n"), (4, 2));
        assert_eq!(refused(&A.replace("0200000001", "0200010000")), (6, 4));
        assert_eq!(refused(&A.replace("0200000001", "0200010001")), (6, 4));
        assert_eq!(refused(&A.replace("0200000001", "0200010002")), (6, 4));
        assert_eq!(refused(&A.replace("0F0005", "0F0006")), (7, 7));
        assert_eq!(refused("01000000030004\n0F0000\n"), (8, 2));
        assert_eq!(refused(&A.replace("00000003", "00000000")), (9, 2));
        assert_eq!(refused(&A.replace("020001000200", "020004000200")), (9, 3));
    }

    #[test]
    fn every_byte_that_is_no_digit_at_every_place() {
        let line = 15..27;
        for byte in (0..=255).filter(|byte| !b"0123456789ABCDEF\n".contains(byte)) {
            for place in line.clone() {
                let mut text = A.as_bytes().to_vec();
                text[place] = byte;
                assert_eq!(bad_digit(&text), (2, place - line.start + 1));
            }
        }
    }

    #[test]
    fn the_form_before_the_frame_and_in_it_21_22_24() {
        assert_eq!(refused("FF0\n"), (22, 1));
        assert_eq!(bad_digit(b"FFFG\n"), (1, 4));
        assert_eq!(bad_digit(b"FFG\n"), (1, 3));
        assert_eq!(bad_digit(b"0g0h\n"), (1, 2));
        assert_eq!(bad_digit(b"\r\n"), (1, 1));
        assert_eq!(bad_digit(b"FFG"), (1, 3));
        assert_eq!(bad_digit(b"FFFG"), (1, 4));
        assert_eq!(refused("0"), (22, 1));
        assert_eq!(refused("FF"), (24, 1));
        assert_eq!(refused("01000000030004\n0F0001"), (24, 2));
        assert_eq!(refused("01000000030004\n\n"), (23, 2));
        assert_eq!(refused("01000000030004\n\n0"), (23, 2));
    }

    #[test]
    fn the_first_faulty_line_decides_and_in_it_the_lowest_number() {
        assert_eq!(refused("01000000030004\n0F0001\n"), (7, 2));
        assert_eq!(refused("02\n"), (3, 1));
        assert_eq!(refused("01000000030004\n03\n0\n"), (3, 2));
        assert_eq!(refused("01000000030004\n0\nx\n"), (22, 2));
        assert_eq!(refused("01000000030004\n03\nx"), (3, 2));
        assert_eq!(refused("01000000030004\n020000000001\n0\n"), (4, 2));
        assert_eq!(refused("01000000000004\n020001000100\n0F0002\n"), (7, 3));
        assert_eq!(refused("01000000000004\n020001000100\n"), (3, 3));
        let nine = "0000".repeat(9);
        assert_eq!(refused(&format!("01000000030004\n020000000009{nine}\n")), (4, 2));
    }

    #[test]
    fn gates_and_bytes_at_their_ceilings() {
        let full = format!("01000000030004\n{}", "020001000100\n".repeat(512));
        assert!(read(format!("{full}0F0200\n").as_bytes()).is_ok());
        assert_eq!(refused(&format!("{full}020001000100\n0F0201\n")), (5, 514));
        assert_eq!(refused(&format!("{full}020001000109\n")), (4, 514));
        assert_eq!(refused(&format!("{full}0200010001010200\n")), (5, 514));
        assert_eq!(refused(&"\n".repeat(24_576)), (23, 1));
        assert_eq!(refused(&"\n".repeat(24_577)), (1, 0));
        assert_eq!(bad_digit(format!("{}x", "0".repeat(24_575)).as_bytes()), (1, 24_576));
    }
}
