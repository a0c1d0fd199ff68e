//! The thirteen cases of docs/REQUIREMENTS.md, run on the product. Every expected number and line is printed there.
use model::layout::Memory;
use model::model::{Ask, Filter, Item, Registration};
use product::{complete, find, item, register, Output};

/// The cases speak of Registers.
const R1: Item = Item::register(1);
const R2: Item = Item::register(2);
const R3: Item = Item::register(3);

fn name(host: &[u8], id: &[u8], number: u32) -> Registration {
    Registration::Name { host: host.to_vec(), id: id.to_vec(), item: Item::register(number) }
}

fn include(host: &[u8], included: &[u8]) -> Registration {
    Registration::Include { host: host.to_vec(), included: included.to_vec() }
}

/// The fresh table with room for so many records and bytes.
fn fresh(records: usize, text: usize) -> Memory {
    Memory::with_room(records, text)
}

/// The calls, each accepted.
fn made(calls: &[Registration]) -> Memory {
    let mut m = fresh(1365, 32768);
    calls.iter().for_each(|c| assert_eq!(register(&mut m, c), 0, "{c:?}"));
    m
}

/// Table T.
fn t() -> [Registration; 4] {
    [name(b"Saved.", b"offset", 1), include(b"Live.", b"Saved."), name(b"Saved.", b"late", 2), name(b"Live.", b"offset", 3)]
}

/// The lines of a completion as (match length, what `read` makes of the words, annotation, candidate), and the tries entered.
fn listed<A>(m: &Memory, ask: Ask, query: &[u8], read: impl Fn(&[u32]) -> A) -> (Vec<(i32, A, String, String)>, u32) {
    let mut out = Output::with_room(512, 32768);
    let (lines, entered) = complete(m, ask, query, 4096, &mut out).expect("listed");
    let text = |s: &[u8]| String::from_utf8(s.to_vec()).unwrap();
    let line = |k| {
        let l = out.line(k, &read);
        (l.match_length, l.item, text(&l.annotation), text(&l.candidate))
    };
    ((0..lines as usize).map(line).collect(), entered)
}

fn lines<A: Copy>(all: &[(i32, A, &str, &str)]) -> Vec<(i32, A, String, String)> {
    all.iter().map(|&(l, i, a, c)| (l, i, a.to_string(), c.to_string())).collect()
}

/// A completion of names of all kinds.
fn names(m: &Memory, query: &[u8]) -> (Vec<(i32, Item, String, String)>, u32) {
    listed(m, Ask::Names(None), query, item)
}

#[test]
fn case_1_a_fresh_table() {
    assert_eq!(made(&[name(b"", b"tick", 5)]).header.records, 3);
}

#[test]
fn case_2_table_t() {
    let h = made(&t()).header;
    assert_eq!((h.records, h.text), (26, 44));
}

#[test]
fn cases_3_and_4_look_ups() {
    let m = made(&t());
    assert_eq!(find(&m, b"Live.late."), Ok(None));
    assert_eq!(find(&m, b"Saved.late."), Ok(Some(R2)));
    assert_eq!(find(&m, b"Live.offset."), Ok(Some(R3)));
}

#[test]
fn cases_5_6_and_7_completions() {
    let m = made(&t());
    assert_eq!(names(&m, b"Live.off."), (lines(&[(8, R3, "", "Live.offset")]), 2));
    let all = |l| lines(&[(l, R3, "", "Live.offset"), (l, R2, "", "Saved.late"), (l, R1, "", "Saved.offset")]);
    assert_eq!(names(&m, b""), (all(-1), 3));
    assert_eq!(names(&m, b".").0, all(0));
}

#[test]
fn case_8_an_alias() {
    let mut m = made(&t());
    let alias = Registration::Alias { key: b"K".to_vec(), host: b"Live.".to_vec(), included: b"Saved.".to_vec() };
    assert_eq!(register(&mut m, &alias), 0);
    assert_eq!(m.header.records, 35);
    assert_eq!(find(&m, b"Live.K.late."), Ok(Some(R2)));
}

#[test]
fn case_9_an_annotation() {
    let mut m = made(&t());
    assert_eq!(register(&mut m, &include(b"", b"Saved.")), 0);
    assert_eq!(names(&m, b"off.").0, lines(&[(3, R1, "Saved", "offset")]));
}

#[test]
fn case_10_modules() {
    let m = made(&[Registration::Module { loaded: false, query: b"IO.Bus.".to_vec(), path: b"io/bus".to_vec() }]);
    assert_eq!(m.header.records, 10);
    let sort = |w: &[u32]| w[5];
    assert_eq!(listed(&m, Ask::Modules(Filter::All), b"I.", sort), (lines(&[(1, 1, "(ns)", "IO"), (1, 0, "(mod)", "IO.Bus")]), 3));
}

#[test]
fn case_11_lengths() {
    let of = |segments: usize| b"h.".repeat(segments);
    let answer = |call| register(&mut fresh(1365, 32768), &call);
    assert_eq!(answer(name(b"", &[b'n'; 31], 1)), 0);
    assert_eq!(answer(name(b"", &[b'n'; 32], 1)), 4);
    assert_eq!(answer(name(&of(16), b"n", 1)), 0);
    assert_eq!(answer(name(&of(17), b"n", 1)), 6);
    assert_eq!(answer(name(&of(18), b"n", 1)), 4);
}

#[test]
fn case_12_room() {
    let answer = |records, text| register(&mut fresh(records, text), &name(b"", b"tick", 5));
    assert_eq!(answer(2, 100), 7);
    assert_eq!(answer(3, 100), 0);
    assert_eq!(answer(100, 3), 8);
    assert_eq!(answer(100, 4), 0);
}

#[test]
fn case_13_budget_and_lines() {
    let m = made(&t());
    let answer = |budget, lines| complete(&m, Ask::Names(None), b"Live.off.", budget, &mut Output::with_room(lines, 100));
    assert_eq!(answer(1, 10), Err(9));
    assert_eq!(answer(2, 10), Ok((1, 2)));
    assert_eq!(answer(2, 0), Err(10));
}

#[test]
fn damaged_tables_are_unsound() {
    let mut m = made(&t());
    m.words[(m.header.names as usize - 1) * 12] = 99;
    assert_eq!(find(&m, b"Saved.late."), Err(1));
    assert_eq!(register(&mut m, &name(b"", b"tick", 5)), 1);
    assert_eq!(complete(&m, Ask::Names(None), b"", 4096, &mut Output::with_room(10, 100)), Err(1));
}
