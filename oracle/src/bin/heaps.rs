//! The program `heaps`: prints what the program `heap_calls` must print, each call held to the real crate.

use frame_oracle::line_language::LONGEST_LINE;
use frame_oracle::line_reader::next_line;
use frame_oracle::program::{arguments, end, Stop};
use heap_oracle::judge::Judge;
use heap_oracle::line_language;
use heap_oracle::listing::listing;
use heap_oracle::random_run::{self, Trace};
use std::io::{self, BufWriter, Write};
use std::process::ExitCode;

const USAGE: &str =
    "usage: heaps [--clauses] < LINES | heaps --random SEED CALLS [--lines] | heaps --help";

const HELP: &str = "
Reads one line for each call and prints what heap_calls prints:
heap ORDER WORDS LEDGER   makes a heap over WORDS zeroed words and LEDGER words
remake ORDER              makes it again over the same words, arena untouched
add S E    init S N    alloc SIZE ALIGN    free ADDR SIZE ALIGN
zero ADDR SIZE ALIGN      list CLASS       stats
write I W    setledger I W    sethead K V    setcount V    setuser V
setallocated V    settotal V    setorder V     put a word past every rule
--clauses    after each answer the clauses of soundness that memory breaks
--random     makes CALLS lines from SEED and prints only whether all went well
--lines      with --random: the made lines on standard output, the rest on error
Exit status: 0 done, 1 crate and document part, 2 wrong use or broken input/output.";

#[derive(Default)]
struct Options {
    clauses: bool,
    random: Option<(u64, u64)>,
    lines: bool,
    help: bool,
}

fn main() -> ExitCode {
    let Some(options) = read_options(&arguments()) else {
        eprintln!("{USAGE}");
        return ExitCode::from(2);
    };
    let mut output = BufWriter::new(io::stdout().lock());
    let result = match (options.help, options.random) {
        (true, _) => writeln!(output, "{USAGE}\n{HELP}").map_err(Stop::from),
        (_, Some((seed, calls))) => run_random(&options, seed, calls, &mut output),
        (_, None) => answer_lines(&options, &mut output),
    };
    end("heaps", result, &mut output)
}

fn read_options(arguments: &[Option<String>]) -> Option<Options> {
    let mut options = Options::default();
    let mut words = arguments.iter();
    while let Some(word) = words.next() {
        match word.as_deref()? {
            "--clauses" => options.clauses = true,
            "--lines" => options.lines = true,
            "--help" => options.help = true,
            "--random" => {
                let seed = words.next()?.as_deref()?.parse().ok()?;
                let calls = words.next()?.as_deref()?.parse().ok()?;
                options.random = Some((seed, calls));
            }
            _ => return None,
        }
    }
    let random = options.random.is_some();
    let fits_together = if random {
        !options.clauses
    } else {
        !options.lines
    };
    (fits_together || options.help).then_some(options)
}

/// Reads lines to the end of the input, answers each, and lists the memory.
fn answer_lines(options: &Options, output: &mut impl Write) -> Result<(), Stop> {
    let mut input = io::stdin().lock();
    let mut judge = Judge::new();
    let mut line_number = 0u64;
    // One byte more than a line may have shows that it is too long.
    while let Some(line) = next_line(&mut input, LONGEST_LINE + 1)? {
        line_number += 1;
        match line_language::parse(&line) {
            None => writeln!(output, "bad line")?,
            Some(call) => match judge.call(call) {
                Ok(answer) => writeln!(output, "{answer}")?,
                Err(parting) => return Err(Stop::Parted(format!("line {line_number}: {parting}"))),
            },
        }
        if options.clauses {
            writeln!(output, "broken {:?}", judge.broken())?;
        }
    }
    let lists = judge.sound().map(|reading| reading.lists.as_slice());
    output.write_all(listing(judge.memory(), lists).as_bytes())?;
    Ok(())
}

fn run_random(
    options: &Options,
    seed: u64,
    calls: u64,
    output: &mut impl Write,
) -> Result<(), Stop> {
    let mut shown = Ok(());
    let result = random_run::run(seed, calls, |call| {
        if options.lines && shown.is_ok() {
            shown = writeln!(output, "{call}");
        }
    });
    shown?;
    let verdict = match result {
        Ok(tally) => format!(
            "{}\nseed {seed}\n{calls} calls, crate and document agree",
            tally.text()
        ),
        Err(trace) => return Err(tell_trace(options, seed, trace, output)?),
    };
    match options.lines {
        true => eprintln!("{verdict}"),
        false => writeln!(output, "{verdict}")?,
    }
    Ok(())
}

/// The lines to replay on standard output, unless `--lines` put them there, and where it parted.
fn tell_trace(
    options: &Options,
    seed: u64,
    trace: Trace,
    output: &mut impl Write,
) -> io::Result<Stop> {
    let line_number = trace.lines.len();
    if !options.lines {
        for call in &trace.lines {
            writeln!(output, "{call}")?;
        }
    }
    let (call_number, parting) = (trace.call_number, trace.parting);
    Ok(Stop::Parted(format!(
        "seed {seed} call {call_number} (line {line_number} of the replay): {parting}"
    )))
}
