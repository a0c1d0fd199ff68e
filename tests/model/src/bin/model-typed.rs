//! What tests/typed expects: the script of its program (tests/typed.d) on the
//! model, and what that program has to print.

use model::layout::Memory;
use model::model::*;
use std::io::{Read, Write};

/// Line structs that there are; a completion is lent the first of them.
const STRUCTS: usize = 16;
const PANE: usize = 300;
const PANE_FILL: u8 = b'~';
const LINE_BYTES: usize = 48;

fn number(field: &[u8]) -> u32 {
    std::str::from_utf8(field).unwrap().parse().expect("a number")
}

fn loaded(l: bool) -> &'static str {
    if l {
        "loaded"
    } else {
        "unloaded"
    }
}

/// An item of either root as it is printed.
trait Printed: Clone {
    fn print(&self, out: &mut Vec<u8>);
}

impl Printed for Item {
    fn print(&self, out: &mut Vec<u8>) {
        out.extend(self.to_string().bytes());
    }
}

impl Printed for ModSymbol {
    fn print(&self, out: &mut Vec<u8>) {
        match self {
            ModSymbol::Module { mod_name, mod_path, mod_loaded } => {
                out.extend([b"module[", &mod_name[..], b"][", mod_path, b"]"].concat());
                out.extend(loaded(*mod_loaded).bytes());
            }
            ModSymbol::Namespace { ns_name, ns_loaded } => {
                out.extend([b"namespace[", &ns_name[..], b"]"].concat());
                out.extend(loaded(*ns_loaded).bytes());
            }
        }
    }
}

/// The completion, and what is printed of it and of all that was lent.
fn complete<A: Printed>(
    out: &mut Vec<u8>,
    room: usize,
    pane_lent: usize,
    blank: A,
    run: impl FnOnce(&mut [Line<A>], &mut [u8]) -> Result<Listed, Refusal>,
) {
    let nothing = Span { start: 0, length: 0 };
    let line = Line { match_length: 0, item: blank, candidate: nothing, annotation: nothing };
    let mut lines = vec![line; room];
    let mut pane = vec![PANE_FILL; PANE];
    let answer = run(&mut lines, &mut pane[..pane_lent]);
    match answer {
        Ok(l) => out.extend(format!("listed {} entered {}\n", l.lines, l.entered).bytes()),
        Err(x) => out.extend(format!("refused {}\n", x.number()).bytes()),
    }
    let listed = answer.map_or(0, |l| l.lines as usize);
    for (i, l) in lines[..listed].iter().enumerate() {
        out.extend(format!("{i} {} ", l.match_length).bytes());
        l.item.print(out);
        for s in [l.candidate, l.annotation] {
            out.extend(format!(" {}+{}", s.start, s.length).bytes());
        }
        out.push(b'\n');
    }
    out.extend(format!("{} structs kept\n", STRUCTS - listed).bytes());
    let used = pane.iter().rposition(|&b| b != PANE_FILL).map_or(0, |last| last + 1);
    out.extend([b"text ", &pane[..used], b"\nwork bytes kept\ntable kept\n"].concat());
}

fn completion(out: &mut Vec<u8>, memory: &Memory, fields: &[&[u8]]) {
    let choice = number(fields[2]) as usize;
    let budget = number(fields[3]);
    let [lines, work, pane] = [4, 5, 6].map(|k| number(fields[k]) as usize);
    let room = lines.min(work / LINE_BYTES);
    let query = fields[7];
    if fields[1] == b"n" {
        let kind = [None, Some(Kind::Timer), Some(Kind::Port), Some(Kind::Register)][choice];
        complete(out, room, pane, Item::timer(0), |lines, text| {
            complete_names(&memory.table()?, query, kind, budget, lines, text)
        });
    } else {
        let filter =
            [Filter::All, Filter::Loaded, Filter::ModulesOnly, Filter::NamespacesOnly][choice];
        let blank = ModSymbol::Namespace { ns_name: b""[..].into(), ns_loaded: false };
        complete(out, room, pane, blank, |lines, text| {
            complete_modules(&memory.table()?, query, filter, budget, lines, text)
        });
    }
}

fn registration(fields: &[&[u8]]) -> Option<Registration> {
    let text = |k: usize| fields[k].to_vec();
    Some(match fields[0] {
        b"n" => Registration::Name {
            host: text(1),
            id: text(2),
            item: Item::from_numbers(number(fields[3]), number(fields[4])).expect("a kind"),
        },
        b"i" => Registration::Include { host: text(1), included: text(2) },
        b"o" => Registration::OpenNamespace { host: text(1), included: text(2) },
        b"O" => Registration::OpenModule { host: text(1), included: text(2) },
        b"a" => Registration::Alias { key: text(3), host: text(1), included: text(2) },
        b"l" => Registration::Module { loaded: true, query: text(1), path: text(2) },
        b"u" => Registration::Module { loaded: false, query: text(1), path: text(2) },
        _ => return None,
    })
}

/// The word, byte or field of the header that a command changes.
fn place<'a>(memory: &'a mut Memory, fields: &[&[u8]]) -> Box<dyn FnMut(u32) -> u32 + 'a> {
    let at = number(fields[1]) as usize;
    match fields[0] {
        b"w" | b"W" => Box::new(move |v| std::mem::replace(&mut memory.words[at], v)),
        b"b" | b"B" => Box::new(move |v| std::mem::replace(&mut memory.text[at], v as u8).into()),
        b"h" | b"H" => {
            let h = &mut memory.header;
            let field = [&mut h.names, &mut h.modules, &mut h.records, &mut h.text]
                .into_iter()
                .nth(at)
                .expect("a field");
            Box::new(move |v| std::mem::replace(field, v))
        }
        _ => panic!("no such command"),
    }
}

fn main() -> std::io::Result<()> {
    let mut input = Vec::new();
    std::io::stdin().lock().read_to_end(&mut input)?;
    let mut memory = Memory::with_room(300, 1_000);
    let mut spare = 0;
    let mut out = Vec::new();
    for line in model::script::lines(&input) {
        out.extend([line, b"\n"].concat());
        let fields: Vec<&[u8]> = line.split(|&b| b == b' ').collect();
        if fields[0] == b"#" {
            continue;
        } else if fields[0] == b"c" {
            completion(&mut out, &memory, &fields);
        } else if let Some(call) = registration(&fields) {
            match memory.register(&call) {
                Ok(_) => out.extend(b"accepted\n"),
                Err(x) => out.extend(format!("refused {}\n", x.number()).bytes()),
            }
        } else if fields[0][0].is_ascii_lowercase() {
            spare = place(&mut memory, &fields)(number(fields[2]));
        } else {
            place(&mut memory, &fields)(spare);
        }
    }
    std::io::stdout().lock().write_all(&out)
}
