//! Whole programs, timed from the start of the process to its end on texts of 512 gates: the proved one beside the plain
//! one that takes the same steps, and beside the plain one that is lean.

use std::fs::File;
use std::io;
use std::path::{Path, PathBuf};
use std::process::{Command, Stdio};
use std::time::{Duration, Instant};

use crate::rules::MOST_GATES;
use crate::shapes::{network, CAPACITIES, SHAPES};

/// A program and its words.
struct Timed<'a> {
    path: &'a Path,
    words: &'a [&'a str],
}

impl Timed<'_> {
    fn on(&self, text: &Path) -> io::Result<Command> {
        let mut command = Command::new(self.path);
        command.args(self.words).stdin(File::open(text)?);
        Ok(command)
    }

    fn answer(&self, text: &Path) -> io::Result<Vec<u8>> {
        Ok(self.on(text)?.output()?.stdout)
    }

    fn time(&self, text: &Path) -> io::Result<Duration> {
        let mut command = self.on(text)?;
        command.stdout(Stdio::null());
        let start = Instant::now();
        let status = command.status()?;
        let time = start.elapsed();
        assert!(status.success(), "{} ends well", self.path.display());
        Ok(time)
    }
}

/// A table of the proved program's time by the other two's, each the shortest of many runs, taken in turns.
pub fn ratios(proved: &Path, plain: &Path) -> io::Result<String> {
    let programs = [
        Timed { path: proved, words: &[] },
        Timed { path: plain, words: &[] },
        Timed { path: plain, words: &["lean"] },
    ];
    let file: PathBuf = std::env::temp_dir().join(format!("lykophene-{}", std::process::id()));
    let mut table = format!(
        "{:>8} {:>5} {:>6} {:>8} {:>8} {:>8} {:>12} {:>11}\n",
        "shape", "M", "bytes", "proved", "same", "lean", "proved/same", "proved/lean"
    );
    for shape in SHAPES {
        for capacity in CAPACITIES {
            let text = network(shape, MOST_GATES, capacity).text();
            std::fs::write(&file, &text)?;
            let expected = programs[0].answer(&file)?;
            let mut best = [Duration::MAX; 3];
            for program in &programs[1..] {
                assert_eq!(program.answer(&file)?, expected, "the plain program answers alike");
            }
            for _ in 0..100 {
                for (program, best) in programs.iter().zip(&mut best) {
                    *best = program.time(&file)?.min(*best);
                }
            }
            let [proved, same, lean] = best.map(|time| time.as_secs_f64() * 1e3);
            table += &format!(
                "{:>8} {capacity:>5} {:>6} {proved:>8.2} {same:>8.2} {lean:>8.2} {:>12.2} {:>11.2}\n",
                format!("{shape:?}"),
                text.len(),
                proved / same,
                proved / lean
            );
        }
    }
    std::fs::remove_file(&file)?;
    Ok(table)
}
