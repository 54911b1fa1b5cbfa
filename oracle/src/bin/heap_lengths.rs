//! The longest arena and ledger, which no line can lend: calls with the answers that the rules give, held to the crate too.

use heap_oracle::call::Call;
use heap_oracle::judge::Judge;
use std::process::ExitCode;

const ARENA: usize = 1_048_576;
const LEDGER: usize = 65_535;

fn make(order: u64, words: usize, ledger: usize) -> Call {
    Call::Make {
        order,
        words,
        ledger,
    }
}

fn alloc(size: u64, align: u64) -> Call {
    Call::Alloc { size, align }
}

fn free(address: u64, size: u64) -> Call {
    Call::Free {
        address,
        size,
        align: 1,
    }
}

/// One word to either side of the lengths that are in range, and one byte of the ranges.
fn lengths() -> Vec<(Call, &'static str)> {
    let (start, bytes) = (8, ARENA as u64 * 8);
    vec![
        (make(24, ARENA + 1, 1), "2 0"),
        (make(24, 2, LEDGER + 1), "2 0"),
        (make(24, 1, LEDGER), "2 0"),
        (make(24, 2, LEDGER), "0 0"),
        (make(24, ARENA, LEDGER), "0 0"),
        (
            Call::Add {
                start,
                end: bytes + 1,
            },
            "4 0",
        ),
        (Call::Init { start, size: bytes }, "4 0"),
        (
            Call::Init {
                start,
                size: bytes - 8,
            },
            "0 0",
        ),
    ]
}

/// The largest blocks that such an arena has, and its longest list.
fn blocks() -> Vec<(Call, &'static str)> {
    let (start, end) = (8, ARENA as u64 * 8);
    vec![
        (Call::List { class: 22 }, "0 1 4194304"),
        (Call::List { class: 23 }, "0 0"),
        (alloc(4_194_305, 1), "9 0"),
        (alloc(4_194_304, 1), "0 4194304"),
        (alloc(1, 1_048_576), "0 1048576"),
        (alloc(1_048_577, 1), "0 2097152"),
        (Call::Stats, "0 5242882 7340032 8388600"),
        (free(4_194_304, 4_194_303), "10 0"),
        (free(4_194_304, 4_194_304), "0 1"),
        (alloc(9, 1), "0 16"),
        (alloc(8, 1), "0 8"),
        (alloc(8, 1), "0 32"),
        (free(32, 8), "0 5"),
        (make(4, ARENA, LEDGER), "0 0"),
        (Call::Add { start, end }, "0 0"),
        (alloc(8, 8), "0 8388600"),
        (free(8_388_600, 8), "0 0"),
    ]
}

fn main() -> ExitCode {
    let mut judge = Judge::new();
    for (call, expected) in lengths().into_iter().chain(blocks()) {
        match judge.call(call) {
            Ok(answer) if answer.to_string() == expected => println!("{call}: {answer}"),
            Ok(answer) => {
                println!("{call}: {answer}, and not {expected}");
                return ExitCode::from(1);
            }
            Err(parting) => {
                println!("{parting}");
                return ExitCode::from(1);
            }
        }
    }
    ExitCode::SUCCESS
}
