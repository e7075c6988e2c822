//! An independent table printer and row explainer. `expected` reads a job file on standard input and prints what the tool of that name must
//! write; `compare` makes random job files and compares; `cases` writes the files under cases/.
use printer::tools::Tool;
use printer::{cases, compare};
use std::io::{Read, Write};
use std::path::PathBuf;
use std::process::ExitCode;

const USAGE: &str = "usage: printer expected TOOL < JOBS > OUTPUT
       printer compare TOOL [--launcher PATH] [--seed NUMBER] [--jobs NUMBER]
       printer cases
TOOL is tables or explain";
const JOBS: usize = 12_000;

/// This package's folder where cargo runs the program, else the folder that it is run in.
fn package() -> PathBuf {
    std::env::var("CARGO_MANIFEST_DIR").unwrap_or(".".to_string()).into()
}

fn tool(name: &str) -> Result<&'static Tool, String> {
    Tool::named(name).ok_or(USAGE.to_string())
}

fn expected(tool: &Tool) -> Result<String, String> {
    let mut input = vec![];
    std::io::stdin().read_to_end(&mut input).map_err(|error| error.to_string())?;
    std::io::stdout().write_all(&(tool.expected)(&input).bytes).map_err(|error| error.to_string())?;
    Ok(String::new())
}

fn seed_of_the_clock() -> u64 {
    let since = std::time::SystemTime::now().duration_since(std::time::UNIX_EPOCH);
    since.map_or(1, |time| time.as_nanos() as u64 % 1_000_000_000_000)
}

fn comparison(tool: &'static Tool, words: &[&str]) -> Result<compare::Comparison, String> {
    let launcher = package().join("../..").join(tool.launcher).display().to_string();
    let mut asked = compare::Comparison { tool, launcher, seed: seed_of_the_clock(), jobs: JOBS };
    for pair in words.chunks(2) {
        let [name, value] = pair else { return Err(USAGE.to_string()) };
        let number = value.parse::<u64>().map_err(|_| USAGE.to_string());
        match *name {
            "--launcher" => asked.launcher = value.to_string(),
            "--seed" => asked.seed = number?,
            "--jobs" => asked.jobs = number? as usize,
            _ => return Err(USAGE.to_string()),
        }
    }
    Ok(asked)
}

fn run(words: &[String]) -> Result<String, String> {
    let words: Vec<&str> = words.iter().map(String::as_str).collect();
    match words[..] {
        ["expected", name] => expected(tool(name)?),
        ["compare", name, ref asked @ ..] => compare::compare(&comparison(tool(name)?, asked)?),
        ["cases"] => cases::write(&package().join("cases")),
        _ => Err(USAGE.to_string()),
    }
}

fn main() -> ExitCode {
    let words: Vec<String> = std::env::args().skip(1).collect();
    match run(&words) {
        Ok(said) if said.is_empty() => ExitCode::SUCCESS,
        Ok(said) => {
            println!("printer: {said}");
            ExitCode::SUCCESS
        }
        Err(said) => {
            eprintln!("printer: {said}");
            ExitCode::FAILURE
        }
    }
}
