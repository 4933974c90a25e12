//! The program `compare`: runs the plan and says what it saw.

use comparison::form::Form;
use comparison::plan;
use comparison::section::Section;
use comparison::sides;
use comparison::tally::Tally;
use comparison::whole;
use std::process::ExitCode;
use std::thread;
use std::time::Instant;

const HELP: &str = "\
Compares the port with MartyPC's own Rust, function to function.

use: compare [--full] [--seed N]
     compare --all [--from N]
  --full    everything at 8 bits, and far more at 16; several minutes on two cores
  --seed N  a decimal number that changes what is drawn; 1 if nothing is said
  --all     every 16-bit sum, difference and product, in blocks; an hour on two cores
  --from N  go on with block N, where an interrupted run stopped

exit: 0 all the same, 1 something differs or the full form never met a refusal of a divide,
2 the command is not understood
";

/// More would take the machine from whoever shares it.
const MOST_THREADS: usize = 2;

fn main() -> ExitCode {
    match read(std::env::args().skip(1)) {
        Ok(Job::Compare(form)) => compare(form),
        Ok(Job::All(from)) => compare_all(from),
        Ok(Job::Help) => {
            print!("{HELP}");
            ExitCode::SUCCESS
        }
        Err(wrong) => {
            eprintln!("compare: {wrong}\nTry `compare --help`.");
            ExitCode::from(2)
        }
    }
}

/// What is asked for.
enum Job {
    Help,
    Compare(Form),
    /// Every pair of 16 bits, from a block on.
    All(u64),
}

fn read(mut arguments: impl Iterator<Item = String>) -> Result<Job, String> {
    let mut form = Form {
        full: false,
        seed: 1,
    };
    let (mut all, mut from, mut drawn) = (false, None, false);
    while let Some(option) = arguments.next() {
        match option.as_str() {
            "--help" | "-h" => return Ok(Job::Help),
            "--full" => form.full = true,
            "--all" => all = true,
            "--seed" => (form.seed, drawn) = (number(&option, arguments.next())?, true),
            "--from" => from = Some(number(&option, arguments.next())?),
            _ => return Err(format!("unknown option `{option}`")),
        }
    }
    match (all, from) {
        (false, None) => Ok(Job::Compare(form)),
        (false, Some(_)) => Err("--from goes with --all".into()),
        (true, _) if form.full || drawn => Err("--all goes with --from alone".into()),
        (true, Some(block)) if block >= whole::blocks() => {
            Err(format!("--from takes a block below {}", whole::blocks()))
        }
        (true, from) => Ok(Job::All(from.unwrap_or(0))),
    }
}

fn number(option: &str, text: Option<String>) -> Result<u64, String> {
    let text = text.ok_or_else(|| format!("{option} needs a value"))?;
    text.parse()
        .map_err(|_| format!("{option} takes a decimal number, not `{text}`"))
}

/// Every 16-bit sum, difference and product, on all cores.
fn compare_all(from: u64) -> ExitCode {
    let threads = thread::available_parallelism().map_or(1, |cores| cores.get());
    let blocks = whole::blocks();
    println!(
        "compare: every pair of 16 bits, blocks {from} to {}, threads {threads}",
        blocks - 1
    );
    let sum = whole::run(
        from,
        threads,
        Tally::new(sides::ours),
        |next, seen, left| {
            let seen = format!(
                "{} requests, {} differ",
                grouped(seen.compared),
                grouped(seen.differing)
            );
            println!(
                "{next} of {blocks} blocks, {seen}, about {} min left",
                left.as_secs().div_ceil(60)
            );
            if next < blocks {
                println!(
                    "    to go on from here after an interruption: ./compare --all --from {next}"
                );
            }
        },
    );
    for difference in &sum.shown {
        println!("DIFFERENT: {difference}");
    }
    println!(
        "compare: {} requests, {} differ",
        grouped(sum.compared),
        grouped(sum.differing)
    );
    ExitCode::from(u8::from(sum.differing > 0))
}

fn compare(form: Form) -> ExitCode {
    let cores = thread::available_parallelism().map_or(1, |cores| cores.get());
    let threads = form.choose(cores.min(MOST_THREADS), 1);
    let name = form.choose("full", "quick");
    println!(
        "compare: {name} form, seed {}, threads {threads}",
        form.seed
    );
    let start = Instant::now();
    let mut sum = Tally::new(sides::ours);
    let mut units = [("requests", 0), ("calls", 0)];
    for section in plan::sections(form) {
        let tally = timed(&section, threads, &sum);
        for unit in units.iter_mut().filter(|unit| unit.0 == section.unit) {
            unit.1 += tally.compared;
        }
        sum.add(tally);
    }
    let [requests, calls] = units.map(|unit| grouped(unit.1));
    let seconds = start.elapsed().as_secs_f64();
    println!("compare: {requests} requests and {calls} calls in {seconds:.1} s");
    conclude(form, &sum)
}

/// Runs one section and says how it went.
fn timed(section: &Section, threads: usize, sum: &Tally) -> Tally {
    let start = Instant::now();
    let tally = section.run(threads, sum);
    println!(
        "{:<42} {:>13} {:<8} {:>7.1} s",
        section.name,
        grouped(tally.compared),
        section.unit,
        start.elapsed().as_secs_f64()
    );
    if tally.divides.all() > 0 {
        println!("    {}", tally.divides);
    }
    tally
}

fn conclude(form: Form, sum: &Tally) -> ExitCode {
    for difference in &sum.shown {
        println!("DIFFERENT: {difference}");
    }
    println!("compare: {} differ", grouped(sum.differing));
    let unmet = form.choose(sum.unmet(), Vec::new());
    for what in &unmet {
        println!("compare: {what}");
    }
    ExitCode::from(u8::from(!unmet.is_empty() || sum.differing > 0))
}

/// A number with its thousands apart.
fn grouped(number: u64) -> String {
    let digits = number.to_string();
    let groups = digits.as_bytes().rchunks(3).rev();
    let groups: Vec<_> = groups.map(String::from_utf8_lossy).collect();
    groups.join(",")
}
