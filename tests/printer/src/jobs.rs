//! A job file as every program over it takes it: its header, its defaults line, the refusals of a line and of a formula, and the `no` lines.
//! What an accepted job prints is the program's own, in tables.rs and explained.rs.
use crate::formula::{number, read, Refusal, Tree};

const LONGEST_LINE: usize = 4096;
const MOST_POINTS: u64 = 4096;
const HEADER: &[u8] = b"chain-jobs\t1";

/// What a program writes for a whole input, how many jobs it judged, and what it came by.
#[derive(Default)]
pub struct Printed {
    pub bytes: Vec<u8>,
    pub jobs: usize,
    /// How often each refusal number was given to a job; at 0, how many jobs were accepted.
    pub answers: [usize; 13],
    /// How often each reason was printed for a row, by its number.
    pub reasons: [usize; 8],
}

impl Printed {
    pub fn line(&mut self, fields: &[&dyn std::fmt::Display]) {
        let fields: Vec<String> = fields.iter().map(|field| field.to_string()).collect();
        self.bytes.extend_from_slice((fields.join("\t") + "\n").as_bytes());
    }

    fn refuse(&mut self, job: usize, (number, place): Refusal) {
        self.line(&[&"no", &job, &number, &place]);
    }
}

/// An accepted job: its number, its formula's text and tree, and its grid.
pub struct Job<'a> {
    pub number: usize,
    pub text: &'a [u8],
    pub tree: Tree,
    pub grid: Grid,
}

pub struct Grid {
    pub start: u64,
    pub step: u64,
    pub count: u64,
}

/// The lines of the input: a line is what stands before a line feed, and so are the bytes after the last one, if any.
fn lines(input: &[u8]) -> Vec<&[u8]> {
    let mut lines: Vec<&[u8]> = input.split(|byte| *byte == b'\n').collect();
    if lines.last().is_some_and(|last| last.is_empty()) {
        lines.pop();
    }
    lines
}

fn fields(line: &[u8]) -> Option<[&[u8]; 4]> {
    if line.len() > LONGEST_LINE {
        return None;
    }
    line.split(|byte| *byte == b'\t').collect::<Vec<_>>().try_into().ok()
}

/// The three numbers of a line; else the number of the first field that is bad.
fn grid(fields: [&[u8]; 4]) -> Result<Grid, usize> {
    let start = number(fields[1]).ok_or(2usize)?;
    let step = number(fields[2]).ok_or(3usize)?;
    let count = number(fields[3]).filter(|count| *count <= MOST_POINTS).ok_or(4usize)?;
    Ok(Grid { start, step, count })
}

fn defaults_of(line: Option<&&'_ [u8]>) -> Result<(), usize> {
    let fields = fields(line.ok_or(0usize)?).ok_or(0usize)?;
    match fields.iter().position(|field| field.is_empty()) {
        Some(before) => Err(before + 1),
        None => grid(fields).map(|_| ()),
    }
}

fn job<'a>(number: usize, line: &'a [u8], defaults: [&'a [u8]; 4]) -> Result<Job<'a>, Refusal> {
    let own = fields(line).ok_or((11, 0))?;
    let taken = [0, 1, 2, 3].map(|field| if own[field].is_empty() { defaults[field] } else { own[field] });
    let grid = grid(taken).map_err(|place| (11, place))?;
    Ok(Job { number, text: taken[0], tree: read(taken[0])?, grid })
}

/// What a program writes that prints this for an accepted job.
pub fn run(input: &[u8], print: impl Fn(&mut Printed, &Job)) -> Printed {
    let mut out = Printed::default();
    let lines = lines(input);
    if lines.first() != Some(&HEADER) {
        out.refuse(0, (12, 0));
        return out;
    }
    if let Err(place) = defaults_of(lines.get(1)) {
        out.refuse(0, (11, place));
        return out;
    }
    let defaults = fields(lines[1]).expect("four fields");
    for (number, line) in (1..).zip(&lines[2..]) {
        let judged = job(number, line, defaults);
        out.jobs += 1;
        out.answers[judged.as_ref().map_or_else(|refusal| refusal.0 as usize, |_| 0)] += 1;
        match judged {
            Ok(job) => print(&mut out, &job),
            Err(refusal) => out.refuse(number, refusal),
        }
    }
    out
}
