//! Compares Counter (through host/probe) with the original Rust (through the oracle): both are
//! fed the same images and calls, and every answer, refusal and image byte is compared. What the
//! two differ in is sorted into the entries of docs/DIFFERENCES.md; a difference that is on no
//! list ends the run with a replay.

mod calls;
mod child;
mod clearing;
mod clearing_rules;
mod codec;
mod features;
mod judge;
mod ledger;
mod masters;
mod maxima;
mod names;
mod pair_rules;
mod pairs;
mod programs;
mod random;
mod records;
mod rules;
mod run;
mod sample;
mod shape_rules;
mod shapes;
mod sheet_rules;
mod sheets;
mod step_rules;
mod steps;
mod suites;
mod teams;
mod wish_rules;
mod wishes;

use judge::CLASSES;
use run::{Counts, Run};
use sample::Sample;
use std::process::exit;
use std::time::Instant;

const SUITES: [&str; 17] = [
    "limits", "numbers", "fills", "records", "teams", "steps", "sheets", "pairs", "maxima",
    "programs", "names", "tables", "shapes", "trees", "wishes", "runs", "random",
];

struct Options {
    probe: String,
    oracle: String,
    list: String,
    seed: u64,
    images: u64,
    faults: usize,
    suites: Vec<String>,
    inserts: bool,
    fills: bool,
    maxima: bool,
    sample: Option<String>,
}

fn options() -> Options {
    let mut options = Options {
        probe: "host/target/release/probe".into(),
        oracle: "oracle/target/release/oracle".into(),
        list: "docs/DIFFERENCES.md".into(),
        seed: 1,
        images: 100_000,
        faults: run::FAULTS,
        suites: vec![],
        inserts: true,
        fills: false,
        maxima: false,
        sample: None,
    };
    let mut words = std::env::args().skip(1);
    while let Some(word) = words.next() {
        let mut value = || words.next().unwrap_or_else(|| usage());
        match word.as_str() {
            "--probe" => options.probe = value(),
            "--oracle" => options.oracle = value(),
            "--list" => options.list = value(),
            "--seed" => options.seed = value().parse().unwrap_or_else(|_| usage()),
            "--images" => options.images = value().parse().unwrap_or_else(|_| usage()),
            "--faults" => options.faults = value().parse().unwrap_or_else(|_| usage()),
            "--sample" => options.sample = Some(value()),
            "--no-inserts" => options.inserts = false,
            "--fills" => options.fills = true,
            "--maxima" => options.maxima = true,
            name if SUITES.contains(&name) => options.suites.push(word),
            _ => usage(),
        }
    }
    if options.suites.is_empty() {
        options.suites = SUITES.map(String::from).to_vec();
    }
    options
}

fn usage() -> ! {
    eprintln!(
        "compare [--probe PROGRAM] [--oracle PROGRAM] [--list DIFFERENCES.md] [--seed N] \
         [--images N] [--faults N] [{}]\n\
         compare [--oracle PROGRAM] [--seed N] [--images N] [--fills] [--maxima] --sample FILE",
        SUITES.join("] [")
    );
    exit(2)
}

/// The first cells of the tables in docs/DIFFERENCES.md.
fn listed(path: &str) -> Vec<String> {
    let text = std::fs::read_to_string(path).unwrap_or_else(|error| {
        eprintln!("{path}: {error}");
        exit(2)
    });
    text.lines()
        .filter_map(|line| line.strip_prefix("| "))
        .filter_map(|line| line.split(" |").next())
        .map(|cell| cell.trim().to_string())
        .collect()
}

fn report(counts: &Counts) {
    println!("\n{} calls over {} images", counts.total(), counts.images);
    println!(
        "({} of the images are refused at opening; edits made {} images more; {} random ones are left out)",
        counts.refused_images, counts.states, counts.left_out
    );
    println!("\n| Call | Calls | Accepted | Refused, by number |\n|---|---|---|---|");
    for (call, (calls, accepted)) in &counts.calls {
        let refusals: Vec<String> = counts
            .refusals
            .iter()
            .filter(|((name, _), _)| name == call)
            .map(|((_, number), count)| format!("{number}: {count}"))
            .collect();
        println!("| `{call}` | {calls} | {accepted} | {} |", refusals.join(", "));
    }
    println!("\n| Boundary | Met |\n|---|---|");
    for (feature, count) in &counts.features {
        println!("| {feature} | {count} |");
    }
    println!("\n| Difference | Met | In |\n|---|---|---|");
    for (class, entry) in CLASSES {
        let of: Vec<_> = counts.differences.iter().filter(|((c, _), _)| *c == class).collect();
        let total: u64 = of.iter().map(|(_, count)| **count).sum();
        let calls: Vec<String> =
            of.iter().map(|((_, call), count)| format!("`{call}` {count}")).collect();
        println!("| {entry} | {total} | {} |", calls.join(", "));
    }
    if !counts.wrong.is_empty() {
        println!("\n| Fault | Met |\n|---|---|");
    }
    for (what, count) in &counts.wrong {
        println!("| {what} | {count} |");
    }
}

/// Writes a sample of the original's answers for host/replay.
fn write_sample(options: &Options, path: &str) -> std::io::Result<()> {
    let sample = Sample::new(&options.oracle, options.inserts, options.fills, options.maxima)?;
    let (script, sample) = sample.make(options.seed, options.images);
    std::fs::write(path, &script)?;
    let numbers: Vec<String> =
        sample.numbers.iter().map(|(number, count)| format!("{number}: {count}")).collect();
    println!(
        "{path}: {} bytes, {} calls over {} images",
        script.len(),
        sample.calls,
        options.images
    );
    println!("by number: {}", numbers.join(", "));
    sample.finish();
    Ok(())
}

fn main() {
    let options = options();
    if let Some(path) = &options.sample {
        if let Err(error) = write_sample(&options, path) {
            eprintln!("{path}: {error}");
            exit(2);
        }
        return;
    }
    let begun = Instant::now();
    let place = std::env::temp_dir().join(format!("compare-{}", std::process::id()));
    let run = Run::new(&options.probe, &options.oracle, &place, options.inserts);
    let mut run = run.unwrap_or_else(|error| {
        eprintln!("{} or {}: {error}", options.probe, options.oracle);
        exit(2)
    });
    run.faults = options.faults;
    for suite in &options.suites {
        if run.over() {
            break;
        }
        eprintln!("{suite}, after {} s", begun.elapsed().as_secs());
        match suite.as_str() {
            "limits" => suites::limits(&mut run),
            "numbers" => suites::numbers(&mut run),
            "fills" => suites::fills(&mut run),
            "records" => records::records(&mut run),
            "teams" => teams::teams(&mut run, options.seed, options.images),
            "steps" => steps::steps(&mut run, options.seed, options.images),
            "sheets" => sheets::sheets(&mut run, options.seed, options.images),
            "pairs" => pairs::pairs(&mut run, options.seed, options.images),
            "maxima" => maxima::maxima(&mut run),
            "programs" => programs::programs(&mut run),
            "names" => names::names(&mut run),
            "tables" => suites::tables(&mut run),
            "shapes" => shapes::shapes(&mut run),
            "trees" => suites::trees(&mut run),
            "wishes" => wishes::wishes(&mut run, options.seed, options.images),
            "runs" => clearing::clearing(&mut run, options.seed, options.images),
            _ => run.random(options.seed, options.images),
        }
    }
    let counts = run.finish();
    report(&counts);
    let listed = listed(&options.list);
    let mut missing = 0;
    for (class, entry) in CLASSES {
        let met = counts.differences.keys().any(|(c, _)| *c == class);
        if met && !listed.iter().any(|cell| cell == entry) {
            println!("\nFAULT: on no list in {}: {entry}", options.list);
            missing += 1;
        }
    }
    println!("\n{} faults, {} s", counts.faults + missing, begun.elapsed().as_secs());
    exit(i32::from(counts.faults + missing > 0));
}
