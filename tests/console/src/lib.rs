//! The program `console` on scripts, held to the independent implementation.
use std::io::Write;
use std::process::{Command, Stdio};

/// What target/bin/console writes for a script on its standard input.
pub fn console(script: &[u8]) -> Vec<u8> {
    let program = concat!(env!("CARGO_MANIFEST_DIR"), "/../../target/bin/console");
    let mut run = Command::new(program).stdin(Stdio::piped()).stdout(Stdio::piped()).spawn().expect("run 'bash tools/build console' first");
    let mut input = run.stdin.take().unwrap();
    let script = script.to_vec();
    let writer = std::thread::spawn(move || input.write_all(&script));
    let output = run.wait_with_output().unwrap();
    writer.join().unwrap().expect("the whole script is read");
    assert!(output.status.success(), "{:?}", output.status);
    output.stdout
}
