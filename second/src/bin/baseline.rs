//! The whole program in plain Rust, for its time from start to end: reads one text from standard input, labels it by
//! `steps`, draws by a walk for each drawn root, and prints blocks of lines, with another walk for each cluster's line. Like
//! the proved program it looks at the row before it labels, before it draws and before each block; with the word `lean` it
//! never does.

use std::io::{self, Read, Write};

use second::rules::{self, Network, LONGEST_TEXT, MOST_GATES};
use second::shapes::{labels, opaque, Owned};
use second::{hex, steps};

/// The bytes of a block, as many whole lines as have room.
const BLOCK: usize = 8_192;

fn main() -> io::Result<()> {
    let mut text = Vec::with_capacity(LONGEST_TEXT + 1);
    io::stdin().take(LONGEST_TEXT as u64 + 1).read_to_end(&mut text)?;
    let lean = std::env::args().nth(1).as_deref() == Some("lean");
    answer(&text, lean, io::stdout().lock())
}

fn answer(text: &[u8], lean: bool, mut out: impl Write) -> io::Result<()> {
    match rules::read(text) {
        Err(refusal) => out.write_all(&refusal.answer()),
        Ok(network) => match network.too_heavy() {
            Some(refusal) => out.write_all(&refusal.answer()),
            None => result(&network, lean, out),
        },
    }
}

fn result(network: &Network, lean: bool, out: impl Write) -> io::Result<()> {
    let owned = Owned::of(network);
    let in_row = owned.in_row();
    let look = || {
        if !lean {
            assert!(steps::stand(&opaque(in_row)), "the row of a network that was read");
        }
    };
    look();
    let labels = labels(steps::label, &in_row);
    let mut local = steps::Local::new();
    let mut drawn = [false; MOST_GATES];
    look();
    steps::draw(&in_row, &labels, &mut local, &mut drawn);
    let mut blocks = Blocks { out, look, block: Vec::with_capacity(BLOCK), line: Vec::with_capacity(2_059) };

    let outputs = network.outputs();
    let delay = (0..in_row.gates).filter(|&gate| outputs[gate]).map(|gate| labels[gate]).max();
    let clusters = drawn.iter().filter(|&&drawn| drawn).count();
    blocks.print(0x11, &[(delay.unwrap_or(0) as usize, 4), (clusters, 2)])?;
    for (gate, &label) in labels[..in_row.gates].iter().enumerate() {
        blocks.print(0x12, &[(gate, 2), (label as usize, 4)])?;
    }
    for root in (0..in_row.gates).filter(|&root| drawn[root]) {
        let joined = steps::cluster(&in_row, &labels, root, &mut local);
        let inside = steps::members(root, joined);
        let members = (0..=root).filter(|&gate| inside[gate]);
        blocks.start(0x13, &[(root, 2), (joined.len() + 1, 2)]);
        members.for_each(|member| hex::push(&mut blocks.line, member, 2));
        blocks.end()?;
    }
    blocks.print(0x1F, &[(in_row.gates, 2)])?;
    blocks.flush()
}

struct Blocks<W, L> {
    out: W,
    look: L,
    block: Vec<u8>,
    line: Vec<u8>,
}

impl<W: Write, L: Fn()> Blocks<W, L> {
    fn print(&mut self, kind: usize, numbers: &[(usize, usize)]) -> io::Result<()> {
        self.start(kind, numbers);
        self.end()
    }

    fn start(&mut self, kind: usize, numbers: &[(usize, usize)]) {
        self.line.clear();
        hex::push(&mut self.line, kind, 1);
        numbers.iter().for_each(|&(number, width)| hex::push(&mut self.line, number, width));
    }

    fn end(&mut self) -> io::Result<()> {
        self.line.push(b'\n');
        if self.block.len() + self.line.len() > BLOCK {
            self.flush()?;
        }
        self.block.extend_from_slice(&self.line);
        Ok(())
    }

    fn flush(&mut self) -> io::Result<()> {
        (self.look)();
        self.out.write_all(&self.block)?;
        self.block.clear();
        Ok(())
    }
}
