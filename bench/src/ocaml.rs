//! The source's own code in OCaml (source.ml), built by OCaml's compiler and timed by source_main.ml, on the product's work. The source lists last
//! holders: its lines are held to the listing by these (tests/model), which is the product's where no name has two holders, as in all that is timed.
use crate::measure::Row;
use crate::source::word_of;
use model::layout::{decode, Memory};
use model::model::{Ask, Item, Registration};
use model::naive::source_lines;
use product::{item, Output};
use std::fmt::Write as _;
use std::io::{ErrorKind, Write as _};
use std::process::{Command, Stdio};
use std::sync::OnceLock;

/// Options of the compiler. -O3 counts where it was built with flambda.
const OPTIONS: [&str; 4] = ["-O3", "-unsafe", "-inline", "100"];

/// The integers that the source's code is built with.
#[derive(Clone, Copy)]
pub enum Integers {
    /// OCaml's own.
    Machine,
    /// F*'s, by the library Zarith (package libzarith-ocaml-dev).
    Zarith,
}

impl Integers {
    fn file(self) -> &'static str {
        match self {
            Integers::Machine => "prims_ocaml.ml",
            Integers::Zarith => "prims_zarith.ml",
        }
    }

    fn library(self) -> &'static [&'static str] {
        match self {
            Integers::Machine => &[],
            Integers::Zarith => &["-I", "+zarith", "zarith.cmxa"],
        }
    }

    /// What to say where they are not at hand.
    pub fn missing(self) -> &'static str {
        match self {
            Integers::Machine => "There is no ocamlopt on the PATH (apt-get install --no-install-recommends ocaml-nox)",
            Integers::Zarith => "There is no ocamlopt with Zarith, F*'s integers (apt-get install --no-install-recommends ocaml-nox libzarith-ocaml-dev)",
        }
    }

    /// Whether OCaml's compiler and the library are there.
    fn at_hand(self) -> bool {
        match Command::new("ocamlopt").arg("-where").output() {
            Err(e) if e.kind() == ErrorKind::NotFound => false,
            Err(e) => panic!("ocamlopt -where: {e}"),
            Ok(at) => {
                let at = String::from_utf8(at.stdout).expect("a path");
                matches!(self, Integers::Machine) || std::path::Path::new(at.trim()).join("zarith/zarith.cmxa").exists()
            }
        }
    }
}

/// How many names were found or lines listed, and a hash of all of them.
#[derive(Default, Debug, PartialEq)]
struct Sum {
    count: u32,
    hash: u32,
}

impl Sum {
    fn number(&mut self, n: u32) {
        self.hash = self.hash.wrapping_mul(31).wrapping_add(n);
    }

    fn text(&mut self, text: &[u8]) {
        self.number(text.len() as u32);
        text.iter().for_each(|b| self.number(*b as u32));
    }

    fn item(&mut self, item: Item) {
        self.number(item.kind.number());
        self.number(item.number);
    }

    /// The product's look-up.
    fn find(&mut self, m: &Memory, query: &[u8]) {
        // SAFETY: the memory is sound.
        match unsafe { product::find_sound(m, query) }.expect("found or none") {
            None => self.number(0),
            Some(item) => {
                self.count += 1;
                self.number(1);
                self.item(item);
            }
        }
    }

    /// The source's lines.
    fn complete(&mut self, m: &Memory, query: &[u8]) {
        for line in source_lines(&decode(m).names, query) {
            self.count += 1;
            self.text(&line.candidate);
            self.text(&line.annotation);
            self.number(line.match_length as u32);
            self.item(line.item);
        }
    }
}

/// Whether the product lists what the source does.
fn alike(m: &Memory, query: &[u8]) -> bool {
    let mut out = Output::with_room(32768, 1 << 20);
    // SAFETY: the memory is sound.
    let (lines, _) = unsafe { product::complete_sound(m, Ask::Names(None), query, u32::MAX, &mut out) }.expect("listed");
    (0..lines as usize).map(|k| out.line(k, item)).eq(source_lines(&decode(m).names, query))
}

/// Work for source_main.ml, from the empty table on, and the sums of the results, one for each row.
#[derive(Default)]
pub struct Script {
    lines: String,
    sums: Vec<Sum>,
    /// Listings that the product has alike, and otherwise.
    pub listings: [usize; 2],
}

impl Script {
    fn registrations(&mut self, calls: &[Registration]) {
        let text = String::from_utf8_lossy;
        for call in calls {
            match call {
                Registration::Name { host, id, item } => writeln!(self.lines, "name {} {} {}", text(host), text(id), word_of(*item)),
                Registration::Include { host, included } => writeln!(self.lines, "include {} {}", text(host), text(included)),
                Registration::OpenNamespace { host, included } => writeln!(self.lines, "open n {} {}", text(host), text(included)),
                Registration::OpenModule { host, included } => writeln!(self.lines, "open m {} {}", text(host), text(included)),
                Registration::Alias { key, host, included } => writeln!(self.lines, "alias {} {} {}", text(key), text(host), text(included)),
                Registration::Module { .. } => panic!("no name: {call:?}"),
            }
            .unwrap();
        }
    }

    /// Registrations that are not timed.
    pub fn apart(&mut self, calls: &[Registration]) {
        self.lines += "apart\n";
        self.registrations(calls);
    }

    /// A row of registrations; the memory after them.
    pub fn register(&mut self, calls: &[Registration], after: &Memory) {
        self.lines += "row\n";
        self.registrations(calls);
        let mut sum = Sum::default();
        sum.complete(after, b"");
        self.sums.push(sum);
        self.listings[usize::from(!alike(after, b""))] += 1;
    }

    fn queries(&mut self, word: &str, m: &Memory, queries: &[&[u8]], call: fn(&mut Sum, &Memory, &[u8])) {
        self.lines += "row\n";
        let mut sum = Sum::default();
        for q in queries {
            writeln!(self.lines, "{word} {}", String::from_utf8_lossy(q)).unwrap();
            call(&mut sum, m, q);
        }
        self.sums.push(sum);
    }

    /// A row of look-ups.
    pub fn find(&mut self, m: &Memory, queries: &[&[u8]]) {
        self.queries("find", m, queries, Sum::find);
    }

    /// A row of completions.
    pub fn complete(&mut self, m: &Memory, queries: &[&[u8]]) {
        self.queries("complete", m, queries, Sum::complete);
        queries.iter().for_each(|q| self.listings[usize::from(!alike(m, q))] += 1);
    }

    /// Nanoseconds a call of each row, in the least of so many turns and in their mean, or none where OCaml's compiler or the integers' library is missing.
    /// Other results than these end the program.
    pub fn run(&self, integers: Integers, turns: usize) -> Option<Vec<[f64; 2]>> {
        let mut program = Command::new(built(integers)?).arg(turns.to_string()).stdin(Stdio::piped()).stdout(Stdio::piped()).spawn().expect("the OCaml program");
        program.stdin.take().unwrap().write_all(self.lines.as_bytes()).expect("its input");
        let answer = program.wait_with_output().expect("its output");
        assert!(answer.status.success(), "the OCaml program failed");
        let answer = String::from_utf8(answer.stdout).unwrap();
        let rows: Vec<([f64; 2], Sum)> = answer.lines().map(parse).collect();
        assert!(rows.iter().map(|r| &r.1).eq(&self.sums), "OCaml has other results: {rows:?}, not {:?}", self.sums);
        Some(rows.into_iter().map(|r| r.0).collect())
    }
}

/// Times, count and hash.
fn parse(line: &str) -> ([f64; 2], Sum) {
    let words: Vec<&str> = line.split(' ').collect();
    let [least, mean, count, hash] = words[..] else { panic!("{line}") };
    ([least, mean].map(|t| t.parse().unwrap()), Sum { count: count.parse().unwrap(), hash: hash.parse().unwrap() })
}

/// The OCaml program, built once, or none where something is missing.
fn built(integers: Integers) -> Option<&'static str> {
    static PROGRAMS: [OnceLock<Option<String>>; 2] = [OnceLock::new(), OnceLock::new()];
    PROGRAMS[integers as usize].get_or_init(|| build(integers)).as_deref()
}

fn build(integers: Integers) -> Option<String> {
    if !integers.at_hand() {
        return None;
    }
    let here = env!("CARGO_MANIFEST_DIR");
    let to = format!("{here}/target/{}", integers.file());
    std::fs::create_dir_all(&to).expect(&to);
    // The compiler leaves its files beside the sources.
    let files = [("clock.c", "clock.c"), (integers.file(), "prims.ml"), ("source.ml", "source.ml"), ("source_main.ml", "source_main.ml")];
    for (file, name) in files {
        std::fs::copy(format!("{here}/{file}"), format!("{to}/{name}")).expect(file);
    }
    let status = Command::new("ocamlopt").current_dir(&to).args(OPTIONS).args(integers.library()).args(files.map(|f| f.1)).args(["-o", "source"]).status();
    assert!(status.expect("ocamlopt").success(), "ocamlopt failed");
    Some(format!("{to}/source"))
}

/// The compiler, as it says.
fn compiler() -> String {
    let config = Command::new("ocamlopt").arg("-config").output().expect("ocamlopt -config").stdout;
    let config = String::from_utf8_lossy(&config);
    let of = |key: &str| config.lines().find_map(|l| l.strip_prefix(key)).unwrap_or("unknown").trim().to_string();
    format!("Built by `ocamlopt {}`, version {}, flambda {}.\n", OPTIONS.join(" "), of("version:"), of("flambda:"))
}

/// The calls, with the product's times and OCaml's: with its own integers and, where they are at hand, with F*'s.
pub fn table(rows: &[Row], alone: &[f64], machine: &[[f64; 2]], zarith: Option<&[[f64; 2]]>) -> String {
    let head = ["call", "proved callers, ns", "F*'s integers, least turn", "mean", "OCaml's integers, least turn", "mean", "F*'s mean / proved", "OCaml's mean / proved"];
    let mut all = format!("| {} |\n|{}\n", head.join(" | "), "---|".repeat(head.len()));
    let number = |t: Option<f64>, digits: usize| t.map_or("not measured".to_string(), |t| format!("{t:.digits$}"));
    for (k, (row, proved)) in rows.iter().zip(alone).enumerate() {
        let ([least, mean], exact) = (machine[k], zarith.map(|z| z[k]));
        let [exact_least, exact_mean] = [0, 1].map(|i| exact.map(|t| t[i]));
        writeln!(
            all,
            "| {} | {proved:.0} | {} | {} | {least:.0} | {mean:.0} | {} | {:.2} |",
            row.what,
            number(exact_least, 0),
            number(exact_mean, 0),
            number(exact_mean.map(|t| t / proved), 2),
            mean / proved
        )
        .unwrap();
    }
    all + "\n" + &compiler()
}

#[cfg(test)]
mod tests {
    use super::*;
    use crate::calls::fresh;
    use crate::slices;
    use model::gen::{completion_query, full_name, registration, Rng};

    /// Names, includes, opens and aliases at random.
    #[test]
    fn ocaml_does_the_same_work() {
        let mut rng = Rng::new(4);
        let mut listings = [0; 2];
        for _ in 0..20 {
            let mut m = fresh();
            let calls: Vec<Registration> = (0..30).map(|_| registration(&mut rng, &[4, 2, 1, 1, 0])).filter(|call| product::register(&mut m, call) == 0).collect();
            let mut script = Script::default();
            script.register(&calls, &m);
            let names: Vec<Vec<u8>> = (0..100).map(|_| full_name(&mut rng)).filter(|q| product::find(&m, q).is_ok()).collect();
            script.find(&m, &slices(&names));
            let begun: Vec<Vec<u8>> = (0..30).map(|_| completion_query(&mut rng)).collect();
            script.complete(&m, &slices(&begun));
            (0..2).for_each(|k| listings[k] += script.listings[k]);
            for integers in [Integers::Machine, Integers::Zarith] {
                if script.run(integers, 1).is_none() {
                    println!("{}", integers.missing());
                }
            }
        }
        assert!(listings.iter().all(|&n| 0 < n), "{listings:?}");
    }

    #[test]
    fn ocaml_does_the_same_on_the_modules() {
        for integers in [Integers::Machine, Integers::Zarith] {
            if crate::Work::new().script().run(integers, 1).is_none() {
                println!("{}", integers.missing());
            }
        }
    }
}
