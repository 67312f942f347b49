//! `second COMMAND OPTIONS BACKEND`: holds an implementation of the rules against this one.
//!
//! Commands: `table`, `exhaustive [--part I/K]`, `random --count N --seed S [--large L]`,
//! `damaged --count N --seed S`. Backends: `--program PATH`, `--staticlib`, `--self`. The last line says
//! how many texts passed and failed; the exit status is 1 if any failed, 2 if the words make no sense.
//! `shapes` times the plain baselines and, if it is linked, the proved labelling; `whole` times two programs from start
//! to end; `text` prints one of the networks that they are timed on.

use std::process::ExitCode;

use second::backends::{Answers, Plain, Program};
use second::tally::Tally;
use second::{damaged, exhaustive, random, shapes, table, whole};

const USAGE: &str = "usage: second table BACKEND
       second exhaustive [--part I/K] BACKEND
       second random --count N --seed S [--large L] BACKEND
       second damaged --count N --seed S BACKEND
       second shapes
       second whole PROVED PLAIN
       second text Chain|Last8|Random GATES M
BACKEND: --program PATH | --staticlib | --self";

fn main() -> ExitCode {
    let words: Vec<String> = std::env::args().skip(1).collect();
    if let Some(done) = speed(&words) {
        print!("{done}");
        return ExitCode::SUCCESS;
    }
    match run(&words) {
        Some(tally) if tally.close() => ExitCode::SUCCESS,
        Some(_) => ExitCode::from(1),
        None => {
            eprintln!("{USAGE}");
            ExitCode::from(2)
        }
    }
}

/// What the commands about speed print.
fn speed(words: &[String]) -> Option<String> {
    match words.iter().map(String::as_str).collect::<Vec<_>>()[..] {
        ["shapes"] => Some(shapes::times()),
        ["whole", proved, plain] => match whole::ratios(proved.as_ref(), plain.as_ref()) {
            Ok(table) => Some(table),
            Err(error) => Some(format!("{proved}, {plain}: {error}\n")),
        },
        ["text", shape, gates, capacity] => {
            let shape = shapes::SHAPES.into_iter().find(|known| format!("{known:?}") == shape)?;
            let network = shapes::network(shape, gates.parse().ok()?, capacity.parse().ok()?);
            String::from_utf8(network.text()).ok()
        }
        _ => None,
    }
}

fn run(words: &[String]) -> Option<Tally> {
    let (command, words) = words.split_first()?;
    let options = Options::read(words)?;
    let mut backend = options.backend?;
    let backend = backend.as_mut();
    match command.as_str() {
        "table" => Some(table::run(backend)),
        "exhaustive" => {
            let (part, parts) = options.part;
            let gates = exhaustive::MOST_GATES;
            let all = exhaustive::up_to(gates);
            println!("{all} networks of up to {gates} gates, part {part} of {parts}");
            Some(exhaustive::run(backend, gates, part, parts))
        }
        "random" => {
            let (count, seed) = (options.count?, options.seed?);
            let large = options.large.unwrap_or(count / 1000).min(count);
            println!("{count} random networks, {large} of them of 41 to 512 gates, seed {seed}");
            Some(random::run(backend, count, large, seed))
        }
        "damaged" => {
            let (count, seed) = (options.count?, options.seed?);
            println!("{count} damaged texts, seed {seed}");
            Some(damaged::run(backend, count, seed))
        }
        _ => None,
    }
}

struct Options {
    backend: Option<Box<dyn Answers>>,
    part: (u64, u64),
    count: Option<u64>,
    seed: Option<u64>,
    large: Option<u64>,
}

impl Options {
    fn read(words: &[String]) -> Option<Options> {
        let mut options = Options { backend: None, part: (1, 1), count: None, seed: None, large: None };
        let mut words = words.iter();
        while let Some(word) = words.next() {
            match word.as_str() {
                "--self" => options.backend = Some(Box::new(Plain)),
                "--staticlib" => options.backend = Some(library()?),
                "--program" => options.backend = Some(Box::new(Program { path: words.next()?.into() })),
                "--part" => options.part = part(words.next()?)?,
                "--count" => options.count = Some(words.next()?.parse().ok()?),
                "--seed" => options.seed = Some(words.next()?.parse().ok()?),
                "--large" => options.large = Some(words.next()?.parse().ok()?),
                _ => return None,
            }
        }
        Some(options)
    }
}

/// I/K, with I from 1 to K.
fn part(word: &str) -> Option<(u64, u64)> {
    let (part, parts) = word.split_once('/')?;
    let (part, parts) = (part.parse().ok()?, parts.parse().ok()?);
    (1 <= part && part <= parts).then_some((part, parts))
}

#[cfg(feature = "staticlib")]
fn library() -> Option<Box<dyn Answers>> {
    Some(Box::new(second::backends::Library::new()))
}

#[cfg(not(feature = "staticlib"))]
fn library() -> Option<Box<dyn Answers>> {
    eprintln!("built without the feature staticlib");
    None
}
