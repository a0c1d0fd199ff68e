//! Registers a few names and modules, looks them up and completes them: `cargo run --example session`.
use name_console::{Filter, Item, Kind, Output, Refusal, Symbol, Table};
use std::io::{self, Write};

/// What the session writes.
pub fn session(to: &mut impl Write) -> io::Result<()> {
    let mut table = Table::new(200, 4000);
    let registered = |r: Result<(), Refusal>| r.map_err(io::Error::other);
    registered(table.insert("Saved.", "offset", Item::register(1)))?;
    registered(table.register_include("Live.", "Saved."))?;
    registered(table.insert("Saved.", "late", Item::register(2)))?;
    registered(table.insert("Live.", "offset", Item::register(3)))?;
    registered(table.insert("", "tick", Item::timer(5)))?;
    registered(table.register_module(false, "IO.Bus.", "io/bus"))?;
    writeln!(to, "{} records, {} bytes of text", table.records_used(), table.text_used())?;

    for query in ["Live.offset.", "Live.late.", "Live.offset"] {
        match table.find(query) {
            Ok(Some(item)) => writeln!(to, "{query} is {item}")?,
            Ok(None) => writeln!(to, "{query} is not there")?,
            Err(refusal) => writeln!(to, "{query} is refused: {refusal}")?,
        }
    }

    let mut output = Output::new(20, 1000);
    for (what, kind) in [("all kinds", None), ("timers", Some(Kind::Timer))] {
        writeln!(to, "{what}:")?;
        for line in table.complete(kind, "", 4096, &mut output).map_err(io::Error::other)?.iter() {
            writeln!(to, "{} {} [{}]", line.candidate.escape_ascii(), line.item, line.annotation.escape_ascii())?;
        }
    }
    for line in table.complete_modules(Filter::All, "I.", 4096, &mut output).map_err(io::Error::other)?.iter() {
        write!(to, "{} {}", line.candidate.escape_ascii(), line.annotation.escape_ascii())?;
        match line.item {
            Symbol::Module { path, .. } => writeln!(to, " {}", path.escape_ascii())?,
            Symbol::Namespace { .. } => writeln!(to)?,
        }
    }
    Ok(())
}

#[allow(dead_code)] // tests/session.rs has its own
fn main() -> io::Result<()> {
    session(&mut io::stdout())
}
