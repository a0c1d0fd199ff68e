//! The program `console` on the model: a script on standard input, replies
//! on standard output.

use model::script;
use std::io::{Read, Write};

fn main() -> std::io::Result<()> {
    let mut input = Vec::new();
    std::io::stdin().lock().read_to_end(&mut input)?;
    std::io::stdout().lock().write_all(&script::run(&input))
}
