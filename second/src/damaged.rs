//! Damaged texts. Some damages have a refusal that is known beforehand, so they try the second reading
//! of the table too; the others are piled on each other, and that reading says what is due.

use crate::backends::Answers;
use crate::judge::{judge, judge_row, Verdict};
use crate::rng::Rng;
use crate::rules::{self, Gate, Network, Refusal};
use crate::tally::Tally;
use crate::{hex, random};

/// Tries `count` damaged texts, every third with a refusal known beforehand. Those damages take turns, and where each has
/// had its turn so has every number.
pub fn run(backend: &mut dyn Answers, count: u64, seed: u64) -> Tally {
    let mut rng = Rng::new(seed);
    let mut tally = Tally::default();
    for index in 0..count {
        let mut network = base(&mut rng);
        if index % 3 != 0 {
            tally.ask(backend, &piled(&mut rng, &network));
            continue;
        }
        match &KNOWN[index as usize / 3 % KNOWN.len()] {
            OfText(damage) => {
                let (text, refusal) = damage(&mut rng, network);
                let answer = backend.answer(&text);
                tally.count(&text, &answer, foreseen(&text, &answer, refusal));
            }
            OfNetwork(damage) => {
                let refusal = damage(&mut rng, &mut network);
                let text = network.text();
                let answer = backend.answer(&text);
                let verdict =
                    foreseen(&text, &answer, refusal).and_then(|due| judge_row(backend, &network, due));
                tally.count(&text, &answer, verdict);
            }
        }
    }
    if count >= 3 * KNOWN.len() as u64 {
        tally.expect(&rules::NUMBERS);
    }
    tally
}

fn foreseen(text: &[u8], answer: &[u8], due: Refusal) -> Verdict {
    match judge(text, answer) {
        Ok(verdict) if verdict != Some(due) => Err(format!("{due:?} was foreseen, not {verdict:?}")),
        verdict => verdict,
    }
}

fn base(rng: &mut Rng) -> Network {
    let most = *rng.pick(&[2, 4, 8, 8, 8, 12, 12, 60]);
    let gates = if rng.once_in(200) { 512 } else { rng.between(1, most) };
    random::network(rng, gates)
}

/// The lines of a text, each with its line feed.
type Lines = Vec<Vec<u8>>;

fn lines(text: &[u8]) -> Lines {
    text.split_inclusive(|&byte| byte == b'\n').map(<[u8]>::to_vec).collect()
}

fn frame(kind: u8, body: &[u8]) -> Vec<u8> {
    let mut line = Vec::new();
    hex::push(&mut line, kind.into(), 1);
    body.iter().for_each(|&byte| hex::push(&mut line, byte.into(), 1));
    line.push(b'\n');
    line
}

/// A byte that is no digit and no line feed, mostly one that looks like a digit or an end of line.
fn no_digit(rng: &mut Rng) -> u8 {
    loop {
        let common = *rng.pick(b"abcdefGgxXO/:@`\r\t \0\x0B\x7F\x80\xB0\xC1\xFF");
        let byte = if rng.once_in(2) { common } else { rng.any() as u8 };
        if byte != b'\n' && !hex::DIGITS.contains(&byte) {
            return byte;
        }
    }
}

// Damages with a refusal known beforehand.

enum Known {
    OfText(fn(&mut Rng, Network) -> (Vec<u8>, Refusal)),
    /// The network's row has it too.
    OfNetwork(fn(&mut Rng, &mut Network) -> Refusal),
}

use Known::{OfNetwork, OfText};

const KNOWN: [Known; 20] = [
    OfText(too_long),
    OfText(bad_digit),
    OfText(carriage_return),
    OfText(far_digit),
    OfText(odd_digits),
    OfText(empty_line),
    OfText(last_feed_lost),
    OfText(broken_off),
    OfText(malformed),
    OfText(misplaced_type),
    OfText(no_end),
    OfText(after_the_end),
    OfText(wrong_length),
    OfNetwork(nine_fanins),
    OfNetwork(gate_513),
    OfNetwork(fanins_fall),
    OfText(wrong_count),
    OfText(lost_gates),
    OfNetwork(no_gates),
    OfNetwork(heavy_gate),
];

fn due(text: Lines, number: u8, line: usize) -> (Vec<u8>, Refusal) {
    (text.concat(), Refusal::at_line(number, line))
}

fn due_at(text: Lines, line: usize, column: usize) -> (Vec<u8>, Refusal) {
    (text.concat(), Refusal { number: 21, line, column })
}

fn too_long(rng: &mut Rng, network: Network) -> (Vec<u8>, Refusal) {
    let mut text = network.text();
    let length = rules::LONGEST_TEXT + rng.between(1, 64);
    let filler = *rng.pick(b"0\nx");
    text.resize(length, filler);
    due(vec![text], 1, 0)
}

/// Puts a bad digit among others, often at their beginning or end, and often a second one behind it; the first one's
/// column.
fn spoil(rng: &mut Rng, digits: &mut [u8]) -> usize {
    let last = digits.len() - 1;
    let place = match rng.below(4) {
        0 => 0,
        1 => last,
        _ => rng.between(0, last),
    };
    digits[place] = no_digit(rng);
    if place < last && rng.once_in(2) {
        digits[rng.between(place + 1, last)] = no_digit(rng);
    }
    place + 1
}

fn bad_digit(rng: &mut Rng, network: Network) -> (Vec<u8>, Refusal) {
    let mut text = lines(&network.text());
    let at = rng.below(text.len());
    let end = text[at].len() - 1;
    let column = spoil(rng, &mut text[at][..end]);
    due_at(text, at + 1, column)
}

fn carriage_return(rng: &mut Rng, network: Network) -> (Vec<u8>, Refusal) {
    let mut text = lines(&network.text());
    let first = rng.below(text.len());
    let column = text[first].len();
    for line in &mut text[first..] {
        let end = line.len() - 1;
        line.insert(end, b'\r');
    }
    due_at(text, first + 1, column)
}

/// A bad digit in a line as long as a text may be, or shorter, that is the only one or stands behind the end.
fn far_digit(rng: &mut Rng, network: Network) -> (Vec<u8>, Refusal) {
    let mut text = if rng.once_in(2) { Lines::new() } else { lines(&network.text()) };
    let most = rules::LONGEST_TEXT - text.concat().len();
    let mut line = vec![b'0'; if rng.once_in(2) { most } else { rng.between(1, most) }];
    let column = spoil(rng, &mut line);
    if line.len() < most && rng.once_in(2) {
        line.push(b'\n');
    }
    text.push(line);
    let at = text.len();
    due_at(text, at, column)
}

/// A digit less or more.
fn odd_digits(rng: &mut Rng, network: Network) -> (Vec<u8>, Refusal) {
    let mut text = lines(&network.text());
    let at = rng.below(text.len());
    let place = rng.below(text[at].len() - 1);
    if rng.once_in(2) {
        text[at].remove(place);
    } else {
        text[at].insert(place, *rng.pick(hex::DIGITS));
    }
    due(text, 22, at + 1)
}

fn empty_line(rng: &mut Rng, network: Network) -> (Vec<u8>, Refusal) {
    let mut text = lines(&network.text());
    let at = rng.between(0, text.len());
    text.insert(at, b"\n".to_vec());
    due(text, 23, at + 1)
}

fn last_feed_lost(_: &mut Rng, network: Network) -> (Vec<u8>, Refusal) {
    let mut text = network.text();
    text.pop();
    due(vec![text], 24, network.gates.len() + 2)
}

/// Nothing behind some digit of a line, or behind a line feed, where it is the end that is missing.
fn broken_off(rng: &mut Rng, network: Network) -> (Vec<u8>, Refusal) {
    let mut text = lines(&network.text());
    let at = rng.below(text.len());
    let left = rng.below(text[at].len());
    text.truncate(at + 1);
    text[at].truncate(left);
    let number = match left {
        0 => 3,
        _ if left % 2 == 1 => 22,
        _ => 24,
    };
    due(text, number, at + 1)
}

/// A line of the network, or of any digits, with one to three faults of form. The first of 21, 22 and 24 is due, whatever
/// its frame is worth and whatever follows.
fn malformed(rng: &mut Rng, network: Network) -> (Vec<u8>, Refusal) {
    let mut text = lines(&network.text());
    let at = rng.below(text.len());
    text.truncate(at + 1);
    let mut line = text.remove(at);
    line.pop();
    if rng.once_in(2) {
        line = (0..2 * rng.between(1, 16)).map(|_| *rng.pick(hex::DIGITS)).collect();
    }
    let faults = rng.between(1, 7);
    let (bad, odd, unended) = (faults & 1 != 0, faults & 2 != 0, faults & 4 != 0);
    if odd {
        line.pop();
    }
    let column = if bad { spoil(rng, &mut line) } else { 0 };
    text.push(line);
    if !unended {
        text.push(rng.pick(&[&b"\n"[..], b"\n\n", b"\nx", b"\n0", b"\n0F0001\n"]).to_vec());
    }
    match (bad, odd) {
        (true, _) => due_at(text, at + 1, column),
        (_, true) => due(text, 22, at + 1),
        _ => due(text, 24, at + 1),
    }
}

/// A type that no place of a network has, or a header that is not the first line, or a first line
/// that is no header.
fn misplaced_type(rng: &mut Rng, network: Network) -> (Vec<u8>, Refusal) {
    let mut text = lines(&network.text());
    let at = rng.below(text.len());
    let fitting: &[u8] = if at == 0 { &[0x01] } else { &[0x02, 0x0F] };
    let kind = loop {
        let common = *rng.pick(&[0x01, 0x02, 0x0F, 0x11, 0x12, 0x13, 0x1E, 0x1F]);
        let kind = if rng.once_in(2) { common } else { rng.any() as u8 };
        if !fitting.contains(&kind) {
            break kind;
        }
    };
    let digits = frame(kind, &[]);
    text[at][..2].copy_from_slice(&digits[..2]);
    due(text, 3, at + 1)
}

fn no_end(_: &mut Rng, network: Network) -> (Vec<u8>, Refusal) {
    let mut text = lines(&network.text());
    text.pop();
    let after = text.len() + 1;
    due(text, 3, after)
}

fn after_the_end(rng: &mut Rng, network: Network) -> (Vec<u8>, Refusal) {
    let mut text = lines(&network.text());
    let again = rng.pick(&text).clone();
    text.push(again);
    let last = text.len();
    due(text, 3, last)
}

fn wrong_length(rng: &mut Rng, network: Network) -> (Vec<u8>, Refusal) {
    let mut text = lines(&network.text());
    let at = rng.below(text.len());
    let end = text[at].len() - 1;
    if rng.once_in(2) {
        text[at].drain(end - 2..end);
    } else {
        text[at].splice(end..end, *b"00");
    }
    due(text, 4, at + 1)
}

/// More than 8 fan-ins in a gate that is otherwise in order.
fn nine_fanins(rng: &mut Rng, network: &mut Network) -> Refusal {
    let gate = rng.below(network.gates.len());
    let count = if rng.once_in(2) { 9 } else { rng.between(9, 255) as u16 };
    network.gates[gate].fanins = (0..count).collect();
    Refusal::at_line(4, gate + 2)
}

fn gate_513(rng: &mut Rng, network: &mut Network) -> Refusal {
    let gates = rng.between(513, 600);
    network.gates.resize_with(gates, Gate::default);
    Refusal::at_line(5, 514)
}

fn fanins_fall(rng: &mut Rng, network: &mut Network) -> Refusal {
    let number = rng.below(network.gates.len());
    let fanins = &mut network.gates[number].fanins;
    match rng.below(3) {
        0 if fanins.len() > 1 => {
            let at = rng.below(fanins.len() - 1);
            fanins.swap(at, at + 1);
        }
        1 if fanins.len() > 1 => {
            let at = rng.below(fanins.len() - 1);
            fanins[at + 1] = fanins[at];
        }
        _ => {
            fanins.truncate(7);
            let high = if rng.once_in(2) { number } else { rng.between(number, 65_535) };
            fanins.push(high as u16);
        }
    }
    Refusal::at_line(6, number + 2)
}

fn wrong_count(rng: &mut Rng, network: Network) -> (Vec<u8>, Refusal) {
    let gates = network.gates.len();
    let mut text = lines(&network.text());
    text.pop();
    let wrong = match rng.below(3) {
        0 => gates - 1,
        1 => gates + 1,
        _ => gates ^ (1 << rng.below(16)),
    };
    text.push(frame(rules::END, &(wrong as u16).to_be_bytes()));
    due(text, 7, gates + 2)
}

/// An end that counts gates, and none before it.
fn lost_gates(rng: &mut Rng, mut network: Network) -> (Vec<u8>, Refusal) {
    network.gates.clear();
    let mut text = lines(&network.text());
    text[1] = frame(rules::END, &(rng.between(1, 65_535) as u16).to_be_bytes());
    due(text, 7, 2)
}

fn no_gates(_: &mut Rng, network: &mut Network) -> Refusal {
    network.gates.clear();
    Refusal::at_line(8, 2)
}

/// M below a gate and not below those before it.
fn heavy_gate(rng: &mut Rng, network: &mut Network) -> Refusal {
    let heavy = rng.below(network.gates.len());
    let weight = rng.between(1, 65_535);
    let capacity = if rng.once_in(2) { weight - 1 } else { rng.below(weight) };
    for gate in &mut network.gates[..heavy] {
        gate.weight = gate.weight.min(capacity as u16);
    }
    network.gates[heavy].weight = weight as u16;
    network.capacity = capacity as u32;
    Refusal::at_line(9, heavy + 2)
}

// Damages that may do anything, one upon the other.

type Piled = fn(&mut Rng, &mut Lines);

const PILED: [Piled; 16] = [
    flip_bit,
    set_byte,
    set_digit,
    set_digit,
    lose_byte,
    insert_byte,
    double_line,
    lose_line,
    swap_lines,
    insert_frame,
    change_body,
    change_body,
    lower_case,
    cut_short,
    lose_last_byte,
    lengthen,
];

fn piled(rng: &mut Rng, network: &Network) -> Vec<u8> {
    let mut text = lines(&network.text());
    for _ in 0..rng.between(1, 3) {
        rng.pick(&PILED)(rng, &mut text);
        // A damage may have joined, split or emptied lines.
        text = lines(&text.concat());
    }
    text.concat()
}

/// A random line and a random place in it, its line feed included.
fn somewhere<'a>(rng: &mut Rng, text: &'a mut Lines) -> Option<(&'a mut Vec<u8>, usize)> {
    if text.is_empty() {
        return None;
    }
    let at = rng.below(text.len());
    let place = rng.below(text[at].len());
    Some((&mut text[at], place))
}

fn flip_bit(rng: &mut Rng, text: &mut Lines) {
    if let Some((line, place)) = somewhere(rng, text) {
        line[place] ^= 1 << rng.below(8);
    }
}

fn set_byte(rng: &mut Rng, text: &mut Lines) {
    if let Some((line, place)) = somewhere(rng, text) {
        line[place] = if rng.once_in(4) { b'\n' } else { no_digit(rng) };
    }
}

fn set_digit(rng: &mut Rng, text: &mut Lines) {
    if let Some((line, place)) = somewhere(rng, text) {
        line[place] = *rng.pick(hex::DIGITS);
    }
}

fn lose_byte(rng: &mut Rng, text: &mut Lines) {
    if let Some((line, place)) = somewhere(rng, text) {
        line.remove(place);
    }
}

fn insert_byte(rng: &mut Rng, text: &mut Lines) {
    if let Some((line, place)) = somewhere(rng, text) {
        let byte = match rng.below(3) {
            0 => b'\n',
            1 => b'0',
            _ => no_digit(rng),
        };
        line.insert(place, byte);
    }
}

fn double_line(rng: &mut Rng, text: &mut Lines) {
    if !text.is_empty() {
        let line = rng.pick(text).clone();
        let at = rng.between(0, text.len());
        text.insert(at, line);
    }
}

fn lose_line(rng: &mut Rng, text: &mut Lines) {
    if !text.is_empty() {
        let at = rng.below(text.len());
        text.remove(at);
    }
}

fn swap_lines(rng: &mut Rng, text: &mut Lines) {
    if !text.is_empty() {
        let (one, other) = (rng.below(text.len()), rng.below(text.len()));
        text.swap(one, other);
    }
}

fn insert_frame(rng: &mut Rng, text: &mut Lines) {
    let kind = *rng.pick(&[0x01, 0x02, 0x02, 0x02, 0x0F, 0x0F, 0x11, 0x12, 0x13, 0x1E, 0x1F, 0x00, 0x03]);
    let length = *rng.pick(&[0, 1, 2, 3, 5, 5, 6, 7, 7, 9, 21, 23]);
    let body: Vec<u8> = (0..length).map(|_| rng.below(4) as u8).collect();
    let at = rng.between(0, text.len());
    text.insert(at, frame(kind, &body));
}

/// Another byte in the middle of a frame: a count, a fan-in, M, the number of gates.
fn change_body(rng: &mut Rng, text: &mut Lines) {
    if let Some((line, place)) = somewhere(rng, text) {
        let place = place / 2 * 2;
        if place + 2 < line.len() {
            let byte = *rng.pick(&[0, 0, 1, 2, 3, 7, 8, 9, 10, 255]);
            line[place..place + 2].copy_from_slice(&frame(byte, &[])[..2]);
        }
    }
}

fn lower_case(rng: &mut Rng, text: &mut Lines) {
    if rng.once_in(2) {
        text.iter_mut().for_each(|line| line.make_ascii_lowercase());
    } else if let Some((line, _)) = somewhere(rng, text) {
        line.make_ascii_lowercase();
    }
}

fn cut_short(rng: &mut Rng, text: &mut Lines) {
    let mut whole = text.concat();
    whole.truncate(rng.between(0, whole.len()));
    *text = vec![whole];
}

fn lose_last_byte(_: &mut Rng, text: &mut Lines) {
    if let Some(line) = text.last_mut() {
        line.pop();
    }
}

/// To about the longest a text may be: 24,576 bytes, or one less or more.
fn lengthen(rng: &mut Rng, text: &mut Lines) {
    let length = rules::LONGEST_TEXT - 1 + rng.below(3);
    let mut whole = text.concat();
    let filler = *rng.pick(&[&b"020001000100\n"[..], b"0", b"\n", b"0F0000\n"]);
    let short = length.saturating_sub(whole.len());
    whole.extend(filler.iter().cycle().take(short));
    *text = vec![whole];
}

#[cfg(test)]
mod tests {
    use super::*;
    use crate::backends::Plain;

    #[test]
    fn what_was_foreseen_is_what_the_table_says() {
        let tally = run(&mut Plain, 20_000, 6);
        assert_eq!((tally.passed, tally.failed), (20_000, 0));
    }
}
