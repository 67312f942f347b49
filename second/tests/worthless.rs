//! The comparisons find worthless builds out: the four of rule T5, and an answer with any byte changed.

use second::backends::{Answers, Plain};
use second::judge::judge;
use second::rng::Rng;
use second::rules::{Network, Refusal};
use second::{damaged, exhaustive, plain, random, table};

/// Gives an answer made of the text and the right answer.
struct Build(fn(&[u8], Vec<u8>) -> Vec<u8>);

impl Answers for Build {
    fn answer(&mut self, text: &[u8]) -> Vec<u8> {
        self.0(text, plain::answer(text))
    }
}

fn refuses_all(_: &[u8], _: Vec<u8>) -> Vec<u8> {
    b"1E0300010000\n".to_vec()
}

fn prints_one_result(_: &[u8], _: Vec<u8>) -> Vec<u8> {
    plain::answer(b"01000000030004\n020001000100\n0F0001\n")
}

fn writes_nothing(_: &[u8], _: Vec<u8>) -> Vec<u8> {
    Vec::new()
}

/// The labels of all gates but the first are as found: 0.
fn labels_the_first(_: &[u8], mut answer: Vec<u8>) -> Vec<u8> {
    for line in answer.split_mut(|&byte| byte == b'\n') {
        if line.starts_with(b"12") && !line.starts_with(b"120000") {
            line[6..].fill(b'0');
        }
    }
    answer
}

#[test]
fn worthless_builds_fail() {
    for build in [refuses_all, prints_one_result, writes_nothing, labels_the_first] {
        assert!(exhaustive::run(&mut Build(build), 2, 1, 1).failed > 0);
        assert!(random::run(&mut Build(build), 500, 0, 1).failed > 0);
        assert!(damaged::run(&mut Build(build), 500, 1).failed > 0);
        assert!(table::run(&mut Build(build)).failed > 0);
    }
}

/// The line of a refusal with some of its bytes replaced by others; a result as it is.
fn refused_with(mut answer: Vec<u8>, bytes: std::ops::Range<usize>, others: &[u8]) -> Vec<u8> {
    if answer.starts_with(b"1E") {
        answer.splice(bytes, others.iter().copied());
    }
    answer
}

fn leaves_the_column_out(_: &[u8], answer: Vec<u8>) -> Vec<u8> {
    refused_with(answer, 8..12, b"")
}

fn tells_column_0(_: &[u8], answer: Vec<u8>) -> Vec<u8> {
    refused_with(answer, 8..12, b"0000")
}

fn tells_a_column_with_all(_: &[u8], answer: Vec<u8>) -> Vec<u8> {
    if answer.ends_with(b"0000\n") {
        refused_with(answer, 8..12, b"0001")
    } else {
        answer
    }
}

fn cuts_the_column_to_a_byte(_: &[u8], answer: Vec<u8>) -> Vec<u8> {
    refused_with(answer, 8..10, b"00")
}

fn tells_bad_digits_at_line_1(_: &[u8], answer: Vec<u8>) -> Vec<u8> {
    if answer.starts_with(b"1E15") {
        refused_with(answer, 4..8, b"0001")
    } else {
        answer
    }
}

fn knows_number_2_alone(_: &[u8], answer: Vec<u8>) -> Vec<u8> {
    if answer.starts_with(b"1E1") {
        refused_with(answer, 2..4, b"02")
    } else {
        answer
    }
}

#[test]
fn worthless_refusals_fail() {
    for build in [
        leaves_the_column_out,
        tells_column_0,
        tells_a_column_with_all,
        cuts_the_column_to_a_byte,
        tells_bad_digits_at_line_1,
        knows_number_2_alone,
    ] {
        assert!(damaged::run(&mut Build(build), 500, 1).failed > 0);
        assert!(table::run(&mut Build(build)).failed > 0);
    }
    assert_eq!(damaged::run(&mut Build(|_, answer| answer), 500, 1).failed, 0);
}

#[test]
fn no_changed_byte_passes() {
    let mut rng = Rng::new(2);
    for _ in 0..200 {
        let gates = rng.between(1, 8);
        let text = random::network(&mut rng, gates).text();
        let answer = Plain.answer(&text);
        for at in 0..answer.len() {
            let mut changed = answer.clone();
            changed[at] ^= 1 << rng.below(8);
            assert!(judge(&text, &changed).is_err());
        }
    }
}

type Labelled = Result<Vec<u32>, Refusal>;

/// Gives the right answer to every text, and one made of the right answer to a network in its row.
struct Rows(fn(Labelled) -> Labelled);

impl Answers for Rows {
    fn answer(&mut self, text: &[u8]) -> Vec<u8> {
        plain::answer(text)
    }

    fn labels(&mut self, network: &Network, places: usize) -> Option<Labelled> {
        Some(self.0(plain::labels(network, places)))
    }
}

fn drops_the_line(labelled: Labelled) -> Labelled {
    labelled.map_err(|refusal| Refusal { line: 0, ..refusal })
}

fn points_at_a_column(labelled: Labelled) -> Labelled {
    labelled.map_err(|refusal| Refusal { column: 1, ..refusal })
}

fn refuses_with_10(labelled: Labelled) -> Labelled {
    labelled.map_err(|_| Refusal::NO_ROOM)
}

#[test]
fn worthless_answers_to_rows_fail() {
    for rows in [drops_the_line, points_at_a_column, refuses_with_10] {
        assert!(random::run(&mut Rows(rows), 500, 0, 1).failed > 0);
        assert!(damaged::run(&mut Rows(rows), 500, 1).failed > 0);
    }
    let labels_a_row_too_short = |labelled: Labelled| match labelled {
        Err(Refusal::NO_ROOM) => Ok(Vec::new()),
        other => other,
    };
    assert!(random::run(&mut Rows(labels_a_row_too_short), 500, 0, 1).failed > 0);
    assert_eq!(random::run(&mut Rows(|labelled| labelled), 500, 0, 1).failed, 0);
}
