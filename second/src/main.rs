//! The command: the four operations over files and streams, and the generator of cases.

use second::checks::{all_lines, all_packed, full_inputs, packed};
use second::compare;
use second::dump::dump;
use second::generate::{cases, Kind};
use second::json::json;
use second::layout_table::encode_table;
use second::operations::{main_table, resolve, run, translate};
use second::refusal::Refusal;
use second::store::Store;
use second::wave::{wave, wave_for_jsonnet, worst};
use std::hint::black_box;
use std::io::{self, Read, Write};
use std::process::ExitCode;

const USAGE: &str = "usage:
  second translate < description > list
  second run LIST TABLE > table
  second main < table > main-table
  second resolve < description > main-table
  second generate translate|run|main|resolve SEED COUNT [MAXBYTES]
  second compare-cases SEED COUNT [MAXBYTES] > calls
  second compare-sample input|output
  second dump < table > text
  second json < table > text
  second wave VARIABLES PROTOTYPE SEED > description
  second wave-for-jsonnet VARIABLES PROTOTYPE SEED > jsonnet
  second worst takes|siblings|paths|scopes > description
  second rounds TRANSLATES RUNS MAINS RESOLVES < description
  second check-inputs > inputs
  second check-lines > lines
  second check-full 0|1|2 > input";

fn main() -> ExitCode {
    let words: Result<Vec<String>, _> = std::env::args_os()
        .skip(1)
        .map(|word| word.into_string())
        .collect();
    let words = words.unwrap_or_default();
    let words: Vec<&str> = words.iter().map(String::as_str).collect();
    match command(&words) {
        None => usage(),
        Some(Ok(())) => ExitCode::SUCCESS,
        Some(Err(fault)) => {
            eprintln!("second: {fault}");
            ExitCode::FAILURE
        }
    }
}

/// Nothing where the words are no command.
fn command(words: &[&str]) -> Option<Done> {
    match words {
        ["translate"] => Some(over_input(translate)),
        ["main"] => Some(over_input(main_table)),
        ["resolve"] => Some(over_input(resolve)),
        ["run", list, table] => Some(run_files(list, table)),
        ["check-inputs"] => Some(write_out(&all_packed())),
        ["check-lines"] => Some(write_out((all_lines().join("\n") + "\n").as_bytes())),
        ["check-full", which] => full_inputs()
            .get(which.parse::<usize>().ok()?)
            .map(check_full),
        ["generate", wanted @ ..] => read_wanted(wanted).map(generate),
        ["dump"] => Some(over_input(dump)),
        ["json"] => Some(over_input(json)),
        ["wave", sizes @ ..] => write_wave(wave, sizes),
        ["wave-for-jsonnet", sizes @ ..] => write_wave(wave_for_jsonnet, sizes),
        ["worst", name] => worst(name).map(|text| write_out(text.as_bytes())),
        ["rounds", times @ ..] => {
            let times: Option<Vec<usize>> = times.iter().map(|word| word.parse().ok()).collect();
            Some(rounds(times?.try_into().ok()?))
        }
        ["compare-cases", wanted @ ..] => compare_cases(wanted),
        ["compare-sample", "input"] => Some(write_out(&compare::stream(&compare::sample()))),
        ["compare-sample", "output"] => {
            Some(write_out(compare::lines(&compare::sample()).as_bytes()))
        }
        _ => None,
    }
}

fn usage() -> ExitCode {
    eprintln!("{USAGE}");
    ExitCode::from(2)
}

type Done = Result<(), String>;

fn over_input(operation: fn(&[u8]) -> Result<Vec<u8>, Refusal>) -> Done {
    write_answer(operation(&read_input()?))
}

fn read_input() -> Result<Vec<u8>, String> {
    let mut input = Vec::new();
    let read = io::stdin().lock().read_to_end(&mut input);
    read.map_err(|error| format!("cannot read standard input: {error}"))?;
    Ok(input)
}

fn write_wave(make: fn(usize, usize, u64) -> Option<String>, sizes: &[&str]) -> Option<Done> {
    let [variables, prototype, seed] = sizes else {
        return None;
    };
    let (variables, prototype) = (variables.parse().ok()?, prototype.parse().ok()?);
    make(variables, prototype, seed.parse().ok()?).map(|text| write_out(text.as_bytes()))
}

/// The same work so many times over, so that one time is the difference of two counts.
fn rounds([translates, runs, mains, resolves]: [usize; 4]) -> Done {
    let source = read_input()?;
    let table = encode_table(&Store::default());
    repeat(translates, || translate(black_box(&source)))?;
    let list = translate(&source).unwrap_or_default();
    repeat(runs, || run(black_box(&list), &table))?;
    // A run may take long, so the whole table is made only where it is used.
    let whole = if mains > 0 {
        run(&list, &table).unwrap_or_default()
    } else {
        Vec::new()
    };
    repeat(mains, || main_table(black_box(&whole)))?;
    repeat(resolves, || resolve(black_box(&source)))
}

fn repeat(times: usize, operation: impl Fn() -> Result<Vec<u8>, Refusal>) -> Done {
    for _ in 0..times {
        write_length(&black_box(operation()))?;
    }
    Ok(())
}

fn write_length(answer: &Result<Vec<u8>, Refusal>) -> Done {
    let length = answer
        .as_ref()
        .map(|output| format!("done {}", output.len()));
    let line = length.unwrap_or_else(|refusal| refusal.to_string());
    write_out(format!("{line}\n").as_bytes())
}

fn run_files(list: &str, table: &str) -> Done {
    let list = read_file(list)?;
    let table = read_file(table)?;
    write_answer(run(&list, &table))
}

fn read_file(path: &str) -> Result<Vec<u8>, String> {
    std::fs::read(path).map_err(|error| format!("cannot read {path}: {error}"))
}

fn write_answer(answer: Result<Vec<u8>, Refusal>) -> Done {
    match answer {
        Ok(output) => write_out(&output),
        Err(refusal) => write_out(format!("{refusal}\n").as_bytes()),
    }
}

fn write_out(bytes: &[u8]) -> Done {
    let mut out = io::stdout().lock();
    let written = out.write_all(bytes).and_then(|()| out.flush());
    written.map_err(|error| format!("cannot write: {error}"))
}

/// One input at the bounds, as the program reads it.
fn check_full(input: &Vec<u8>) -> Done {
    let mut bytes = 1u32.to_le_bytes().to_vec();
    bytes.extend(packed(std::slice::from_ref(input), false));
    write_out(&bytes)
}

struct Wanted {
    kind: Kind,
    seed: u64,
    count: usize,
    cap: usize,
}

fn read_wanted(words: &[&str]) -> Option<Wanted> {
    let (kind, seed, count, cap) = match words {
        [kind, seed, count] => (kind, seed, count, usize::MAX),
        [kind, seed, count, cap] => (kind, seed, count, cap.parse().ok()?),
        _ => return None,
    };
    Some(Wanted {
        kind: Kind::from_word(kind)?,
        seed: seed.parse().ok()?,
        count: count.parse().ok()?,
        cap,
    })
}

/// Nothing where the words are not two or three numbers.
fn compare_cases(words: &[&str]) -> Option<Done> {
    let [seed, count, rest @ ..] = words else {
        return None;
    };
    let cap = match rest {
        [] => usize::MAX,
        [cap] => cap.parse().ok()?,
        _ => return None,
    };
    let count: u32 = count.parse().ok()?;
    let all = count.checked_mul(4)?;
    Some(stream_calls(
        all as usize,
        compare::calls(seed.parse().ok()?, count as usize, cap),
    ))
}

fn stream_calls(count: usize, calls: impl Iterator<Item = compare::Call>) -> Done {
    let mut out = io::BufWriter::with_capacity(1 << 16, io::stdout().lock());
    let mut write = |bytes: &[u8]| {
        let written = out.write_all(bytes);
        written.map_err(|error| format!("cannot write: {error}"))
    };
    write(&compare::stream_head(count))?;
    for call in calls {
        write(&call.bytes())?;
    }
    out.flush()
        .map_err(|error| format!("cannot write: {error}"))
}

fn generate(wanted: Wanted) -> Done {
    let mut out = io::BufWriter::new(io::stdout().lock());
    for case in cases(wanted.kind, wanted.seed, wanted.cap).take(wanted.count) {
        let written = writeln!(out, "{}", case.line());
        written.map_err(|error| format!("cannot write: {error}"))?;
    }
    out.flush()
        .map_err(|error| format!("cannot write: {error}"))
}
