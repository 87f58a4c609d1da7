//! The reference as a program. The first argument is a command, standard input its bytes.

use std::io::{self, Read, Write};
use std::process::ExitCode;

use reference::{best_choice, check_sheet, printed, read_plate, run_script, Sheet};

const USAGE: &str = "usage: reference COMMAND < BYTES
check   a sheet: `accepted` or `refused K`
best    a sheet: its best count, or `refused K` (also called list-best-count)
list    a sheet: the listing of its best plate, or `refused K`
read    a plate: `accepted I` and the inside positions, or `refused K`
desk    a script of loads, with rank lists or without, and marks: one line for each call
";

fn main() -> ExitCode {
    let command = std::env::args().nth(1).unwrap_or_default();
    let answer: fn(&[u8]) -> String = match command.as_str() {
        "check" => check,
        "best" | "list-best-count" => best,
        "list" => printed,
        "read" => read,
        "desk" => run_script,
        _ => {
            // If even this can't be written there is nothing left to say.
            let _ = io::stderr().write_all(USAGE.as_bytes());
            return ExitCode::from(2);
        }
    };
    let mut bytes = Vec::new();
    if io::stdin().read_to_end(&mut bytes).is_err() {
        return ExitCode::FAILURE;
    }
    match io::stdout().write_all(answer(&bytes).as_bytes()) {
        Ok(()) => ExitCode::SUCCESS,
        Err(_) => ExitCode::FAILURE,
    }
}

fn check(sheet: &[u8]) -> String {
    match check_sheet(sheet) {
        0 => "accepted\n".to_string(),
        number => format!("refused {number}\n"),
    }
}

fn best(sheet: &[u8]) -> String {
    match Sheet::read(sheet).map(|sheet| best_choice(&sheet)) {
        Ok(Some(choice)) => format!("{}\n", choice.0.count_ones()),
        Ok(None) => "refused 61\n".to_string(),
        Err(number) => format!("refused {number}\n"),
    }
}

fn read(plate: &[u8]) -> String {
    let reading = read_plate(plate);
    if reading.number != 0 {
        return format!("refused {}\n", reading.number);
    }
    let mut line = format!("accepted {}", reading.inside.len());
    for position in reading.inside {
        line.push_str(&format!(" {position}"));
    }
    line.push('\n');
    line
}
