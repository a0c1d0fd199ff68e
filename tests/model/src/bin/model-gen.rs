//! Prints scripts for a comparison of `console` with `model-console`.
//!
//! `model-gen script N` prints a random script of N lines by SEED.
//! `model-gen limits` lists the scripts at the limits, `model-gen limits I`
//! prints one of them.

use model::gen::{self, Rng};
use std::io::Write;
use std::process::ExitCode;

fn main() -> ExitCode {
    let arguments: Vec<String> = std::env::args().skip(1).collect();
    let arguments: Vec<&str> = arguments.iter().map(String::as_str).collect();
    let limits = gen::limit_scripts();
    let out = match arguments[..] {
        ["script", n] => n.parse().ok().map(|n| gen::script(&mut Rng::new(Rng::seed_or(1)), n)),
        ["limits"] => {
            let names = limits.iter().enumerate().map(|(i, (what, _))| format!("{i} {what}\n"));
            Some(names.collect::<String>().into_bytes())
        }
        ["limits", i] => {
            i.parse().ok().and_then(|i: usize| limits.get(i)).map(|(_, script)| script.clone())
        }
        _ => None,
    };
    match out {
        Some(bytes) if std::io::stdout().lock().write_all(&bytes).is_ok() => ExitCode::SUCCESS,
        Some(_) => ExitCode::FAILURE,
        None => {
            eprintln!("usage: model-gen script N | limits [I]");
            ExitCode::FAILURE
        }
    }
}
