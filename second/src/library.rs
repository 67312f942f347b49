//! The library under test, linked in: its two functions, as a program in C sees them.

use crate::rules::Refusal;
use crate::steps::InRow;

/// A refusal's number, line and column and length 0, or three times 0 and the length of the line written.
#[repr(C)]
struct Answer {
    number: u8,
    line: usize,
    column: usize,
    length: usize,
}

impl Answer {
    fn length(self) -> Result<usize, Refusal> {
        match self {
            Answer { number: 0, line: 0, column: 0, length } => Ok(length),
            Answer { number, line, column, length: 0 } => Err(Refusal { number, line, column }),
            Answer { number, line, column, length } => {
                panic!("number {number}, line {line}, column {column} and length {length}")
            }
        }
    }
}

extern "C" {
    fn lykophene_label(
        capacity: u32,
        hop: u16,
        gates: usize,
        row: *const u16,
        row_len: usize,
        labels: *mut u32,
        labels_len: usize,
    ) -> Answer;

    fn lykophene_line(text: *const u8, text_len: usize, index: usize, out: *mut u8, out_len: usize)
        -> Answer;
}

/// Writes the label of each gate of the network in its row to the front of `labels`.
pub fn label(network: &InRow, labels: &mut [u32]) -> Result<(), Refusal> {
    let InRow { capacity, hop, gates, row } = *network;
    // SAFETY: both pointers go with the lengths of what they point to, and the two do not overlap. The function requires
    // nothing else of its arguments.
    let answer = unsafe {
        lykophene_label(capacity, hop, gates, row.as_ptr(), row.len(), labels.as_mut_ptr(), labels.len())
    };
    answer.length().map(|length| assert_eq!(length, 0, "labels are no line"))
}

/// Writes the `index`-th line of the answer to a text, its line feed included, to the front of `out`; its length, 0 past
/// the last line.
pub fn line(text: &[u8], index: usize, out: &mut [u8]) -> Result<usize, Refusal> {
    // SAFETY: as for `label`.
    unsafe { lykophene_line(text.as_ptr(), text.len(), index, out.as_mut_ptr(), out.len()) }.length()
}
