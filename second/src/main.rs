//! The command line of the second program.

use std::path::Path;
use std::process::ExitCode;

use second::{answer, batch, samples};

const USAGE: &str = "usage: second answer CASES | second generate --seed N --count K [--operations 1,2,..] OUT | \
second traces --seed N --count K OUT | second exchanges --seed N --count K OUT | second compare CASES ANSWERS | \
second samples DIR\n\
operations: 1 read, 2 write, 3 update, 4 listing, 9 month, 11 reply, 12 take, 13 tell";

fn main() -> ExitCode {
    let words: Vec<String> = std::env::args().skip(1).collect();
    let words: Vec<&str> = words.iter().map(String::as_str).collect();
    let outcome = match words.as_slice() {
        ["answer", cases] => answered(cases),
        ["generate", "--seed", seed, "--count", count, out] => generated(seed, count, &batch::OPERATIONS, out),
        ["generate", "--seed", seed, "--count", count, "--operations", some, out] => {
            operations(some).and_then(|some| generated(seed, count, &some, out))
        }
        ["traces", "--seed", seed, "--count", count, out] => traced(seed, count, out),
        ["exchanges", "--seed", seed, "--count", count, out] => exchanged(seed, count, out),
        ["compare", cases, answers] => compared(cases, answers),
        ["samples", folder] => sampled(folder),
        _ => Err(USAGE.to_string()),
    };
    outcome.unwrap_or_else(|message| {
        eprintln!("second: {message}");
        ExitCode::from(2)
    })
}

type Outcome = Result<ExitCode, String>;

fn cases_of(path: &str) -> Result<Vec<batch::Case>, String> {
    let bytes = std::fs::read(path).map_err(|e| format!("{path}: {e}"))?;
    batch::unframed(&bytes).map_err(|n| format!("{path}: case {n} is no whole case"))
}

fn answered(path: &str) -> Outcome {
    use std::io::Write;
    let cases = cases_of(path)?;
    let mut out = std::io::BufWriter::new(std::io::stdout().lock());
    for some in cases.chunks(64) {
        for answered in answer::all(some) {
            writeln!(out, "{}", answer::line(&answered)).map_err(|e| e.to_string())?;
        }
    }
    Ok(ExitCode::SUCCESS)
}

/// Operations with commas between them.
fn operations(words: &str) -> Result<Vec<u8>, String> {
    let one = |word: &str| word.parse().ok().filter(|operation| batch::OPERATIONS.contains(operation));
    words.split(',').map(|word| one(word).ok_or(format!("{word}: no operation"))).collect()
}

fn generated(seed: &str, count: &str, operations: &[u8], out: &str) -> Outcome {
    let (seed, count) = seeded(seed, count)?;
    written(&second::generate::corpus(seed, count, operations), out)
}

/// The calls of so many displays.
fn traced(seed: &str, count: &str, out: &str) -> Outcome {
    let (seed, count) = seeded(seed, count)?;
    let cases: Vec<batch::Case> = (0..count).flat_map(|n| second::generate::trace(seed, n).calls).collect();
    written(&cases, out)
}

/// The calls of so many bridges.
fn exchanged(seed: &str, count: &str, out: &str) -> Outcome {
    let (seed, count) = seeded(seed, count)?;
    let steps = (0..count).flat_map(|n| second::generate::exchanges(seed, n).steps);
    written(&steps.map(|step| step.case).collect::<Vec<_>>(), out)
}

fn seeded(seed: &str, count: &str) -> Result<(u64, usize), String> {
    let seed = seed.parse().map_err(|_| format!("{seed}: no seed"))?;
    let count = count.parse().map_err(|_| format!("{count}: no count"))?;
    Ok((seed, count))
}

fn written(cases: &[batch::Case], out: &str) -> Outcome {
    std::fs::write(out, batch::framed(cases)).map_err(|e| format!("{out}: {e}"))?;
    Ok(ExitCode::SUCCESS)
}

/// How many differences are shown.
const SHOWN: usize = 10;

fn compared(cases: &str, answers: &str) -> Outcome {
    let cases = cases_of(cases)?;
    let text = std::fs::read_to_string(answers).map_err(|e| format!("{answers}: {e}"))?;
    let theirs: Vec<&str> = text.lines().collect();
    if cases.is_empty() {
        return Err("there are no cases to compare".to_string());
    }
    if theirs.len() != cases.len() {
        return Err(format!("{} cases, but {} answers", cases.len(), theirs.len()));
    }
    let mut differences = 0;
    for (start, some) in cases.chunks(64).enumerate() {
        for (n, ours) in answer::all(some).iter().enumerate() {
            let number = start * 64 + n;
            let ours = answer::line(ours);
            if ours != theirs[number] {
                differences += 1;
                if differences <= SHOWN {
                    println!("case {} (operation {}):", number + 1, cases[number].operation);
                    println!("  here   {ours}\n  there  {}", theirs[number]);
                }
            }
        }
    }
    println!("{} cases, {differences} differences", cases.len());
    Ok(if differences == 0 { ExitCode::SUCCESS } else { ExitCode::from(1) })
}

fn sampled(folder: &str) -> Outcome {
    for (name, bytes) in samples::samples() {
        let path = Path::new(folder).join(name);
        std::fs::write(&path, bytes).map_err(|e| format!("{}: {e}", path.display()))?;
    }
    Ok(ExitCode::SUCCESS)
}
