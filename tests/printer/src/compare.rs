//! Runs the launcher over random job files and holds what it writes to what is expected.
use crate::jobs::Printed;
use crate::random::Random;
use crate::tools::Tool;
use std::io::{Read, Write};
use std::process::{Command, Stdio};

pub struct Comparison {
    pub tool: &'static Tool,
    pub launcher: String,
    pub seed: u64,
    pub jobs: usize,
}

#[derive(Default)]
struct Count {
    files: usize,
    jobs: usize,
    lines: usize,
    answers: [usize; 13],
    reasons: [usize; 8],
}

/// Adds count by count.
fn add_to<const N: usize>(all: &mut [usize; N], some: [usize; N]) {
    all.iter_mut().zip(some).for_each(|(all, some)| *all += some);
}

/// How often each number from 1 on occurs that does.
fn told(counts: &[usize], what: &str) -> String {
    let occurring = counts.iter().enumerate().skip(1).filter(|(_, count)| **count > 0);
    occurring.map(|(number, count)| format!(", {count} {what} {number}")).collect()
}

impl Count {
    fn add(&mut self, file: &Printed) {
        self.files += 1;
        self.jobs += file.jobs;
        self.lines += file.bytes.iter().filter(|byte| **byte == b'\n').count();
        add_to(&mut self.answers, file.answers);
        add_to(&mut self.reasons, file.reasons);
    }

    fn answers(&self) -> String {
        format!("{} accepted{}", self.answers[0], told(&self.answers, "refused"))
    }
}

/// What the program writes, given its input in pieces of uneven sizes. It may end before it has read all of it.
fn written(launcher: &str, input: &[u8], random: &mut Random) -> Result<Vec<u8>, String> {
    let said = |error: std::io::Error| format!("{launcher}: {error}");
    let mut program = Command::new(launcher).stdin(Stdio::piped()).stdout(Stdio::piped()).spawn().map_err(said)?;
    let mut stdin = program.stdin.take().expect("a pipe");
    let mut stdout = program.stdout.take().expect("a pipe");
    let largest = [usize::MAX, 5000, 700, 65_536][random.below(4)];
    let mut bytes = vec![];
    std::thread::scope(|scope| {
        scope.spawn(move || {
            let mut rest = input;
            while !rest.is_empty() {
                let size = rest.len().min(random.between(1, largest.min(rest.len())));
                if stdin.write_all(&rest[..size]).is_err() {
                    return;
                }
                rest = &rest[size..];
            }
        });
        stdout.read_to_end(&mut bytes)
    })
    .map_err(said)?;
    let status = program.wait().map_err(said)?;
    if status.success() {
        Ok(bytes)
    } else {
        Err(format!("{launcher}: {status}"))
    }
}

fn difference(expected: &[u8], got: &[u8]) -> String {
    let lines = |bytes: &[u8]| bytes.split_inclusive(|byte| *byte == b'\n').map(|line| line.escape_ascii().to_string()).collect::<Vec<_>>();
    let (expected, got) = (lines(expected), lines(got));
    let at = (0..).find(|at| expected.get(*at) != got.get(*at)).unwrap_or(0);
    let shown = |lines: &[String]| lines.get(at).cloned().unwrap_or("nothing".to_string());
    format!("output line {}: expected {}, got {}", at + 1, shown(&expected), shown(&got))
}

/// Compares until enough jobs have been judged. The answer is the summary, or the first difference.
pub fn compare(comparison: &Comparison) -> Result<String, String> {
    let Comparison { tool, launcher, seed, jobs } = comparison;
    println!("printer: seed {seed}, machine {}, launcher {launcher}", std::env::consts::ARCH);
    let mut random = Random(*seed);
    let mut cuts = Random(!seed);
    let mut count = Count::default();
    while count.jobs < *jobs {
        let input = random.file();
        let expected = (tool.expected)(&input);
        count.add(&expected);
        let result = written(launcher, &input, &mut cuts);
        let fault = match result {
            Ok(got) if got == expected.bytes => continue,
            Ok(got) => difference(&expected.bytes, &got),
            Err(said) => said,
        };
        let kept = std::env::temp_dir().join(format!("printer-{seed}-{}.jobs", count.files));
        let place = std::fs::write(&kept, &input).map_or("nowhere".to_string(), |_| kept.display().to_string());
        return Err(format!("DIFFERENT: seed {seed}, file {}: {fault}; the job file is kept in {place}", count.files));
    }
    let answers = count.answers();
    let Count { files, jobs, lines, reasons, .. } = count;
    let (machine, rows) = (std::env::consts::ARCH, told(&reasons, "rows for reason"));
    Ok(format!("all the same on {machine}: seed {seed}, {files} files, {jobs} jobs ({answers}), {lines} lines compared{rows}"))
}
