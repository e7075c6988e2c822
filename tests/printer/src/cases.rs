//! The case files: a larger job file with every refusal and limit of a job line, one with every reason why a row stays, and small ones for
//! what ends a run.
use crate::tools::TOOLS;
use std::path::Path;

/// Four fields; an empty one takes the default.
fn job(formula: impl AsRef<[u8]>, start: &str, step: &str, count: &str) -> Vec<u8> {
    [formula.as_ref(), start.as_bytes(), step.as_bytes(), count.as_bytes()].join(&b'\t')
}

/// A line with just a formula, its grid being the default.
fn formula(text: impl AsRef<[u8]>) -> Vec<u8> {
    job(text, "", "", "")
}

fn line(text: &str) -> Vec<u8> {
    text.as_bytes().to_vec()
}

/// A sum of x of so many bytes, and then the rest of the line.
fn long(bytes: usize, rest: &str) -> Vec<u8> {
    let sum: String = "x+".chars().cycle().take(bytes - rest.len() - 1).collect();
    (sum + "x" + rest).into_bytes()
}

fn joined(times: usize, part: &str, joint: &str) -> String {
    vec![part; times].join(joint)
}

fn around(depth: usize, inside: &str) -> String {
    "(".repeat(depth) + inside + &")".repeat(depth)
}

/// Document 01's example, and each default taken by itself and beside others.
fn fields_and_defaults() -> Vec<Vec<u8>> {
    let taken = [
        ["x", "7", "3", "2"],
        ["", "7", "3", "2"],
        ["x", "", "3", "2"],
        ["x", "7", "", "2"],
        ["x", "7", "3", ""],
        ["", "", "3", "2"],
        ["", "7", "", "2"],
        ["", "7", "3", ""],
        ["x", "", "", "2"],
        ["x", "", "3", ""],
        ["x", "7", "", ""],
        ["", "", "", "2"],
        ["", "", "3", ""],
        ["", "7", "", ""],
        ["x", "", "", ""],
        ["", "", "", ""],
    ];
    let first = [job("x^2", "0", "1", "3"), job("", "", "", ""), job("x+3^(x)", "0", "1", "2"), job("2^(x)", "", "", "")];
    [first.to_vec(), taken.map(|[text, start, step, count]| job(text, start, step, count)).to_vec()].concat()
}

/// Refusals 2 to 8, each beside the last text that is not refused so.
fn formulas() -> Vec<Vec<u8>> {
    let of_1024 = "1000000000000000000+".repeat(51) + "3000";
    let sized = [of_1024.clone(), of_1024 + "0", "-".repeat(1024), "-".repeat(1025)];
    let deep = [around(32, "x"), around(33, "x"), ")".to_string() + &around(33, "x"), "x".to_string() + &"(".repeat(33)];
    let raises = ["3^("; 32].concat() + "x" + &")".repeat(32);
    let grammar = ["01", "1-", "x^2^3", "x^", "x^()", "()", "x)", "2x", "x+*2", "+x", "99999999999999999999+("];
    let numbers = ["18446744073709551615", "18446744073709551616", "x^99999999999999999999", "x^65+99999999999999999999", "x^64", "x^65", "0^0"];
    let nodes = [joined(64, "x", "+"), joined(65, "x", "+"), joined(64, "x", "*") + "^2", "-".repeat(126) + "x^17", "-".repeat(127) + "x^17"];
    let bases = ["2^(x)", "x^(2)", "2^(3)", "2^(2^(x))", "3^(2^(x))", "0^(0)", "(x^0)^(2)", "(0*x+3)^(2)", "(-3)^(x)", "-3^(x)", "3^(2)"];
    let texts = [sized.to_vec(), deep.to_vec(), vec![raises], grammar.map(String::from).to_vec(), numbers.map(String::from).to_vec()].concat();
    [texts, nodes.to_vec(), bases.map(String::from).to_vec()].concat().iter().map(formula).collect()
}

/// Bytes outside the grammar: carriage return, NUL, blank, 127, 128 and up.
fn strange_bytes() -> Vec<Vec<u8>> {
    let texts: [&[u8]; 11] = [b"x\r", b"\r", b"x\0", b"\0", b"x +1", b"\x7f", b"1+\x80", b"\xff", b"\xce\xbe", b"(x\xb2)", b"x^\xb2"];
    let mut lines: Vec<Vec<u8>> = texts.iter().map(formula).collect();
    lines.extend([line("x\t0\t1\t2\r"), line("x\t0\0\t1\t2"), line("x\t0\t1\u{a0}\t2"), line("\r"), line("\0"), line(" ")]);
    lines
}

/// Refusal 11 at each of its places, also where several things are bad at once.
fn lines() -> Vec<Vec<u8>> {
    let mut lines = ["", "x", "x\t0\t1", "x\t0\t1\t2\t", "x\t0\t1\t2\t3", "\t\t", "\t\t\t\t"].map(line).to_vec();
    lines.extend([long(4096, "\t0\t1\t2"), long(4097, "\t0\t1\t2"), long(4096, ""), long(4097, ""), long(20_000, "\t0\t1\t2")]);
    lines.extend([job("x", &"1".repeat(4090), "1", "2"), job("x", &"1".repeat(4091), "1", "2"), job("x", "", &"0".repeat(4093), "")]);
    for bad in ["01", "18446744073709551616", "-1", "+1", "1 ", "x"] {
        lines.extend([job("x", bad, "1", "2"), job("x", "0", bad, "2"), job("x", "0", "1", bad)]);
    }
    lines.extend([job("x^^", "y", "y", "y"), job("x^^", "", "y", "y"), job("x^^", "", "", "y"), job("x^^", "", "", "")]);
    lines
}

/// Counts at both ends, grids that wrap, and one formula of each row kind.
fn points() -> Vec<Vec<u8>> {
    let mut lines: Vec<Vec<u8>> = ["0", "1", "4096", "4097", "04096", "18446744073709551616"].map(|count| job("x", "0", "1", count)).to_vec();
    lines.push(job("3^(x)*x^17", "18446744073709551615", "9223372036854775809", "20"));
    let texts = ["7", "x", "3^(x)", "x+3^(x)", "3^(x)-x", "x*3^(x)", "-(x+3^(x))", "x^17", "3^(3^(x))", "0-x^17", "x^8*x^8", "x^8*x^9"];
    let folds = ["x*x-x^2+7", "(2*3^(x))^64", "(9223372036854775809^(x))^2", "1^(3^(x))", "(x^17)^1", "(x^17)^0", "x^16", "-x^2"];
    let neutral = ["x^17+0", "0+x^17", "x^17-0", "1*x^17", "x^17*1", "0*x^17", "x^17*0", "--x^17", "x^17-x^17"];
    let products = ["-3^(x)", "0-3^(x)", "5*3^(x^2)", "3^(x^2)*5", "3^(x)*5^(x^2)", "3^(x^2)*5^(x)", "(3^(x^2))^5", "3^(x)+1"];
    let grids = [("0", "1"), ("5", "2"), ("1", "0"), ("4294967296", "4294967296"), ("18446744073709551615", "9223372036854775808")];
    for text in texts.into_iter().chain(folds).chain(neutral).chain(products) {
        lines.extend(grids.map(|(start, step)| job(text, start, step, "4")));
    }
    lines
}

/// Each operator over operands of every sort, of both hands: a constant, sum chains, product chains, a row of each kind.
fn operators() -> Vec<String> {
    let sorts = ["7", "x", "x^9", "3^(x)", "5^(x^2)", "x^17"];
    let rows = ["(x+3^(x))", "(3^(x)-x)", "x^9*x^9", "-x^17", "(x^2+1)^9", "3^(3^(x))"];
    let mut texts = vec![];
    for operator in ["+", "-", "*"] {
        texts.extend(sorts.iter().flat_map(|a| sorts.map(|b| format!("{a}{operator}{b}"))));
        texts.extend(rows.map(|row| format!("{row}{operator}3^(x)")));
        texts.extend(rows.map(|row| format!("x{operator}({row})")));
    }
    for operand in sorts.iter().chain(&rows) {
        texts.extend([format!("-({operand})"), format!("({operand})^2"), format!("({operand})^17"), format!("3^({operand})")]);
    }
    texts
}

/// Rows to explain: every operator, a 0 or 1 that a rule drops, rows under rows, and other grids; and job lines that are refused.
fn reasons() -> Vec<u8> {
    let dropped = ["0+x^17", "x^17-0", "0-x^17", "1*(x^17)", "x^17*1", "0*x^17", "(x^17)^1", "(x^17)^0", "(x-x)+x*3^(x)", "x^0*(x^17+1)"];
    let lengths = ["x^8*x^8", "x^8*x^9", "x^16*x", "x^6*x^6*x^6", "(x^4)^4", "(x^4)^5", "(x+1)^16", "(x+1)^17", "x^64", "(x^3)^6"];
    let under = [joined(43, "x^17", "+"), "-".repeat(126) + "x^17", "3^(".repeat(32) + "x" + &")".repeat(32), around(32, "x^17")];
    let grids = [("5", "0"), ("1", "9223372036854775808"), ("0", "4294967296"), ("18446744073709551615", "18446744073709551615")];
    let mut lines = vec![line("chain-jobs\t1"), line("x^8*x^9+3^(x)\t0\t1\t2"), job("", "", "", ""), job("", "", "0", "")];
    lines.extend(operators().iter().map(formula));
    lines.extend(dropped.iter().chain(&lengths).map(formula));
    lines.extend(under.iter().map(formula));
    for text in ["x^8*x^9", "x^17", "x+3^(x)", "3^(x)-5^(x)", "3^(3^(x))", "x*3^(x)*x"] {
        lines.extend(grids.map(|(start, step)| job(text, start, step, "")));
    }
    let bad = [job("x^17", "01", "", ""), job("x^17", "", "-1", ""), job("x^17", "", "", "4097"), line(""), line("x\t0\t1")];
    lines.extend(["2^(x)", "x^2^3", "x^65", "18446744073709551616", "x^17+", "(x))"].map(formula));
    lines.extend(bad);
    lines.extend([job("x^17", "", "", "0"), long(1025, "\t\t\t"), job(joined(65, "x", "+"), "", "", "")]);
    file(&lines)
}

fn file(lines: &[Vec<u8>]) -> Vec<u8> {
    [lines.join(&b'\n'), vec![b'\n']].concat()
}

/// Every refusal and limit of a job line; the last line has no line feed.
fn all() -> Vec<u8> {
    let start = vec![line("chain-jobs\t1"), line("x^2+1\t5\t2\t3")];
    let mut lines = [start, fields_and_defaults(), formulas(), strange_bytes(), lines(), points()].concat();
    lines.push(job("x-1", "", "", "2"));
    lines.join(&b'\n')
}

/// What the first line may be, and what comes of it: a name, and the input.
fn headers() -> Vec<(&'static str, Vec<u8>)> {
    let rest = "\nx\t0\t1\t3\n\t\t\t\n";
    let with = |header: &str| (header.to_string() + rest).into_bytes();
    vec![
        ("empty", vec![]),
        ("header-empty-line", b"\n".to_vec()),
        ("header-version-2", with("chain-jobs\t2")),
        ("header-carriage-return", with("chain-jobs\t1\r")),
        ("header-blank-for-tab", with("chain-jobs 1")),
        ("header-tab-after", with("chain-jobs\t1\t")),
        ("header-nul-after", with("chain-jobs\t1\0")),
        ("header-cut-short", line("chain-jobs\t")),
        ("header-left-out", line("x\t0\t1\t3\n\t\t\t\n")),
        ("header-over-long", with(&("chain-jobs\t1".to_string() + &"1".repeat(5000)))),
    ]
}

/// The same for the defaults line.
fn defaults() -> Vec<(&'static str, Vec<u8>)> {
    let with = |defaults: Vec<u8>| file(&[line("chain-jobs\t1"), defaults, job("x", "0", "1", "3"), job("", "", "", "")]);
    vec![
        ("defaults-absent", line("chain-jobs\t1\n")),
        ("defaults-absent-no-line-feed", line("chain-jobs\t1")),
        ("defaults-empty-line", line("chain-jobs\t1\n\n")),
        ("defaults-three-fields", with(line("x\t0\t1"))),
        ("defaults-five-fields", with(line("x\t0\t1\t3\t"))),
        ("defaults-4096-bytes", with(long(4096, "\t0\t1\t2"))),
        ("defaults-4097-bytes", with(long(4097, "\t0\t1\t2"))),
        ("defaults-no-formula", with(job("", "0", "1", "3"))),
        ("defaults-no-start", with(job("x", "", "1", "3"))),
        ("defaults-no-step", with(job("x", "0", "", "3"))),
        ("defaults-no-count", with(job("x", "0", "1", ""))),
        ("defaults-all-empty", with(job("", "", "", ""))),
        ("defaults-bad-start", with(job("x", "-1", "-1", "3"))),
        ("defaults-bad-step", with(job("x", "0", "18446744073709551616", "4097"))),
        ("defaults-bad-count", with(job("x", "0", "1", "4097"))),
        ("defaults-empty-ahead-of-bad", with(job("x", "01", "", "2"))),
        ("defaults-bad-formula", with(job("x^2^3", "0", "1", "3"))),
        ("defaults-and-no-jobs", file(&[line("chain-jobs\t1"), job("x", "0", "1", "3")])),
        ("defaults-no-line-feed", [line("chain-jobs\t1\n"), job("x", "0", "1", "3")].concat()),
        ("empty-job-line-last", [with(job("x", "0", "1", "3")), vec![b'\n']].concat()),
    ]
}

/// Writes NAME.jobs for every case, and beside it what each tool must write.
pub fn write(folder: &Path) -> Result<String, String> {
    let cases = [vec![("all", all()), ("reasons", reasons())], headers(), defaults()].concat();
    std::fs::create_dir_all(folder).map_err(|error| error.to_string())?;
    for (name, input) in &cases {
        let put = |ending: &str, bytes: &[u8]| std::fs::write(folder.join(format!("{name}.{ending}")), bytes).map_err(|error| error.to_string());
        put("jobs", input)?;
        for tool in &TOOLS {
            put(tool.ending, &(tool.expected)(input).bytes)?;
        }
    }
    Ok(format!("{} cases written", cases.len()))
}
