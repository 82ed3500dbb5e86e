#![forbid(unsafe_code)]

use reference::{compare::compare, generate, script};
use std::io::{Read, Write};
use std::process::ExitCode;

const USE: &str = "reference run < SCRIPT
reference generate SEED
reference coverage N [FIRST_SEED]
reference compare PROGRAM N [FIRST_SEED]";

fn main() -> ExitCode {
    let arguments: Vec<String> = std::env::args().skip(1).collect();
    let words: Vec<&str> = arguments.iter().map(String::as_str).collect();
    match act(&words) {
        Some(true) => ExitCode::SUCCESS,
        Some(false) => ExitCode::FAILURE,
        None => {
            eprintln!("{USE}");
            ExitCode::from(2)
        }
    }
}

/// None if the words are not understood, false if it went wrong.
fn act(words: &[&str]) -> Option<bool> {
    let print = |bytes: Vec<u8>| std::io::stdout().lock().write_all(&bytes).is_ok();
    let number = |word: &str| word.parse::<u64>().ok();
    Some(match words {
        ["run"] => {
            let mut input = Vec::new();
            std::io::stdin().lock().read_to_end(&mut input).is_ok() && print(script::run(&input))
        }
        ["generate", seed] => print(generate::script(number(seed)?)),
        ["coverage", count] => compare(None, number(count)?, 0),
        ["coverage", count, first] => compare(None, number(count)?, number(first)?),
        ["compare", program, count] => compare(Some(program), number(count)?, 0),
        ["compare", program, count, first] => {
            compare(Some(program), number(count)?, number(first)?)
        }
        _ => return None,
    })
}
