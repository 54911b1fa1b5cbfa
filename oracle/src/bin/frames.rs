//! The program `frames`: prints what the program `calls` must print, each call held to the real crate.

use frame_oracle::call::Call;
use frame_oracle::judge::Judge;
use frame_oracle::line_language::{self, LONGEST_LINE};
use frame_oracle::line_reader::next_line;
use frame_oracle::program::{arguments, end, Stop};
use frame_oracle::random_run::{self, Trace, Wish};
use frame_oracle::words;
use std::io::{self, BufWriter, Write};
use std::process::ExitCode;

const USAGE: &str = "usage: frames [--words N] [--hex] [--all-calls] < LINES \
| frames --random SEED CALLS [--words N] [--all-calls] [--lines] | frames --help";

const HELP: &str = "
Reads order N, add S E, alloc N, at S N, free S N and prints what calls prints.
--words N    a table of N words, 1 to 65536 (4096 without it; random runs vary it)
--hex        after each input line's answer one line: the table's words in hex up
             to the last that is not zero; every word left out is zero
--all-calls  knows also insert S E, alloc_aligned N A, free_aligned S N A, summary
--random     makes CALLS lines from SEED and prints only whether all went well
--lines      with --random: the made lines on standard output, the rest on error
Exit status: 0 done, 1 crate and document part, 2 wrong use or broken input/output.";

#[derive(Default)]
struct Options {
    words: Option<usize>,
    hex: bool,
    all_calls: bool,
    random: Option<(u64, u64)>,
    lines: bool,
    help: bool,
}

fn main() -> ExitCode {
    let Some(options) = read_options(&arguments()) else {
        eprintln!("{USAGE}");
        return ExitCode::from(2);
    };
    let mut output = BufWriter::new(io::stdout().lock());
    let result = match (options.help, options.random) {
        (true, _) => writeln!(output, "{USAGE}\n{HELP}").map_err(Stop::from),
        (_, Some((seed, calls))) => run_random(&options, seed, calls, &mut output),
        (_, None) => answer_lines(&options, &mut output),
    };
    end("frames", result, &mut output)
}

fn read_options(arguments: &[Option<String>]) -> Option<Options> {
    let mut options = Options::default();
    let mut words = arguments.iter();
    while let Some(word) = words.next() {
        match word.as_deref()? {
            "--words" => options.words = Some(table_length(words.next()?.as_deref()?)?),
            "--hex" => options.hex = true,
            "--all-calls" => options.all_calls = true,
            "--lines" => options.lines = true,
            "--help" => options.help = true,
            "--random" => {
                let seed = words.next()?.as_deref()?.parse().ok()?;
                let calls = words.next()?.as_deref()?.parse().ok()?;
                options.random = Some((seed, calls));
            }
            _ => return None,
        }
    }
    let random = options.random.is_some();
    let fits_together = if random { !options.hex } else { !options.lines };
    (fits_together || options.help).then_some(options)
}

fn table_length(word: &str) -> Option<usize> {
    word.parse()
        .ok()
        .filter(|length| (1..=65_536).contains(length))
}

/// Reads lines to the end of the input, answers each, and lists the table.
fn answer_lines(options: &Options, output: &mut impl Write) -> Result<(), Stop> {
    let mut input = io::stdin().lock();
    let mut judge = Judge::new(options.words.unwrap_or(4_096), 33).expect("a length in range");
    let mut line_number = 0u64;
    // One byte more than a line may have shows that it is too long.
    while let Some(line) = next_line(&mut input, LONGEST_LINE + 1)? {
        line_number += 1;
        match line_language::parse(&line, options.all_calls) {
            None => writeln!(output, "bad line")?,
            Some(call) => match judge.call(call) {
                Ok(answer) => writeln!(output, "{answer}")?,
                Err(parting) => return Err(Stop::Parted(format!("line {line_number}: {parting}"))),
            },
        }
        if options.hex {
            writeln!(output, "{}", words::hex(&judge.words()))?;
        }
    }
    list_table(&judge, output)?;
    Ok(())
}

fn list_table(judge: &Judge, output: &mut impl Write) -> io::Result<()> {
    writeln!(
        output,
        "order {} records {}",
        judge.order(),
        judge.blocks().len()
    )?;
    for block in judge.blocks() {
        let mark = if block.granted { "granted" } else { "free" };
        writeln!(output, "{} {} {mark}", block.start, block.class)?;
    }
    Ok(())
}

fn run_random(
    options: &Options,
    seed: u64,
    calls: u64,
    output: &mut impl Write,
) -> Result<(), Stop> {
    let wish = Wish {
        seed,
        calls,
        words: options.words,
        all_calls: options.all_calls,
    };
    let mut shown = Ok(());
    let result = random_run::run(&wish, |call: Call| {
        if options.lines && shown.is_ok() {
            shown = writeln!(output, "{call}");
        }
    });
    shown?;
    let verdict = match result {
        Ok(tally) => format!(
            "{}\nseed {seed}\n{calls} calls, crate and document agree",
            tally.text()
        ),
        Err(trace) => return Err(tell_trace(options, seed, trace, output)?),
    };
    match options.lines {
        true => eprintln!("{verdict}"),
        false => writeln!(output, "{verdict}")?,
    }
    Ok(())
}

/// The lines to replay on standard output, unless `--lines` put them there, and where it parted.
fn tell_trace(
    options: &Options,
    seed: u64,
    trace: Trace,
    output: &mut impl Write,
) -> io::Result<Stop> {
    let line_number = trace.lines.len();
    if !options.lines {
        for call in &trace.lines {
            writeln!(output, "{call}")?;
        }
    }
    let more = if options.all_calls {
        " --all-calls"
    } else {
        ""
    };
    Ok(Stop::Parted(format!(
        "seed {seed} call {} (line {line_number} of the replay, --words {}{more}): {}",
        trace.call_number, trace.words, trace.parting
    )))
}
