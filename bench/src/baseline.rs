//! The baselines written by hand in C.
use crate::source::Source;
use model::gen::{completion_query, damaged_query, damaged_registration, damages, full_name, registered_memory, registration, sound_memory, Rng};
use model::layout::{decode, same_table, Header, Memory};
use model::model::{autocomplete_lid, find as independent_find, register as independent_register, Item, Kind, Registration};
use model::naive::source_lines;
use product::{item, Output};

#[rustfmt::skip]
extern "C" {
    fn c_sound(words: *const u32, nwords: usize, text: *const u8, ntext: usize, names: u32, modules: u32, records: u32, used: u32) -> bool;
    fn c_complete(words: *const u32, text: *const u8, root: u32, kind: u32, query: *const u8, nquery: usize, budget: u32,
        lines: *mut u8, nlines: usize, out: *mut u8, nout: usize) -> i64;
    fn c_shared(lines: *const u8, n: usize, out: *const u8) -> u32;
    fn c_insert(words: *mut u32, nwords: usize, text: *mut u8, ntext: usize, header: *mut [u32; 4],
        host: *const u8, nhost: usize, id: *const u8, nid: usize, kind: u32, number: u32) -> u32;
    fn c_find(words: *const u32, text: *const u8, root: u32, query: *const u8, nquery: usize, item: *mut [u32; 2]) -> u32;
}

/// The same soundness conditions by hand in C.
pub fn sound(m: &Memory) -> bool {
    let h = m.header;
    unsafe { c_sound(m.words.as_ptr(), m.words.len(), m.text.as_ptr(), m.text.len(), h.names, h.modules, h.records, h.text) }
}

/// Completion of names by hand in C, of all kinds or of one, in a memory that is sound and for a query that is well formed: lines, or the refusal.
pub fn complete(m: &Memory, kind: Option<Kind>, query: &[u8], budget: u32, out: &mut Output) -> Result<u32, u32> {
    let (lines, text, kind) = (&mut out.lines, &mut out.text, kind.map_or(0, Kind::number));
    #[rustfmt::skip]
    let answer = unsafe {
        c_complete(m.words.as_ptr(), m.text.as_ptr(), m.header.names, kind, query.as_ptr(), query.len(), budget,
            lines.as_mut_ptr(), lines.len(), text.as_mut_ptr(), text.len())
    };
    u32::try_from(answer).map_err(|_| -answer as u32)
}

/// The same of all kinds with the bytes that all candidates begin with, read back from the lines.
pub fn complete_shared(m: &Memory, query: &[u8], budget: u32, out: &mut Output) -> Result<(u32, u32), u32> {
    complete(m, None, query, budget, out).map(|n| (n, unsafe { c_shared(out.lines.as_ptr(), n as usize, out.text.as_ptr()) }))
}

/// Registration of a name by hand in C, in a memory that is sound: 0 or the refusal.
pub fn insert(m: &mut Memory, host: &[u8], id: &[u8], item: Item) -> u32 {
    let mut h = [m.header.names, m.header.modules, m.header.records, m.header.text];
    #[rustfmt::skip]
    let answer = unsafe {
        c_insert(m.words.as_mut_ptr(), m.words.len(), m.text.as_mut_ptr(), m.text.len(), &mut h, host.as_ptr(), host.len(), id.as_ptr(), id.len(),
            item.kind.number(), item.number)
    };
    m.header = Header { names: h[0], modules: h[1], records: h[2], text: h[3] };
    answer
}

/// Look-up of a name by hand in C, in a memory that is sound.
pub fn find(m: &Memory, query: &[u8]) -> Result<Option<Item>, u32> {
    let mut item = [0; 2];
    match unsafe { c_find(m.words.as_ptr(), m.text.as_ptr(), m.header.names, query.as_ptr(), query.len(), &mut item) } {
        0 => Ok(Some(Item::from_numbers(item[1], item[0]).expect("a kind"))),
        11 => Ok(None),
        n => Err(n),
    }
}

/// Holds the baselines to the independent implementation, so that they do the same work. The source's lines are held to its own listing by last holders.
pub fn check() {
    registrations_and_look_ups(&mut Rng::new(1));
    soundness(&mut Rng::new(2));
    completions(&mut Rng::new(3));
}

fn registrations_and_look_ups(rng: &mut Rng) {
    let mut answers = [0; 9];
    for round in 0..30 {
        let mut m = registered_memory(rng, 30, [60, 300, 2000][round % 3], [200, 900, 400][round % 3]);
        for _ in 0..60 {
            let mix = [1, 0, 0, 0, 0];
            let call = if rng.one_in(5) { damaged_registration(rng, &mix) } else { registration(rng, &mix) };
            let Registration::Name { host, id, item } = &call else { unreachable!() };
            let (before, expected) = (m.clone(), independent_register(&decode(&m), m.lent(), &call));
            let answer = insert(&mut m, host, id, *item);
            answers[answer as usize] += 1;
            match expected {
                Err(r) => assert!(answer == r.number() && m == before, "{call:?}"),
                Ok(new) => {
                    assert!(answer == 0 && m.is_sound() && same_table(&decode(&m), &new), "{call:?}");
                    let by_source = Source::new(&before).begin().insert(host, id, *item).lines(b"");
                    assert!(by_source == source_lines(&new.names, b""), "{call:?}");
                }
            }
            let query = if rng.one_in(5) { damaged_query(rng) } else { full_name(rng) };
            let expected = independent_find(&decode(&m).names, &query).map_err(|r| r.number());
            assert_eq!(find(&m, &query), expected, "{query:?}");
            if let Ok(item) = expected {
                assert_eq!(Source::new(&m).begin().find(&query), item, "{query:?}");
            }
        }
    }
    assert!([0, 2, 3, 4, 7, 8].iter().all(|&n| 0 < answers[n]), "{answers:?}");
}

fn soundness(rng: &mut Rng) {
    let mut verdicts = [0; 2];
    for _ in 0..4 {
        let m = registered_memory(rng, 10, 300, 900);
        for damage in damages(rng, &m) {
            let mut m = m.clone();
            damage.apply(&mut m);
            assert_eq!(sound(&m), m.is_sound(), "{damage:?}");
            verdicts[m.is_sound() as usize] += 1;
        }
    }
    assert!(verdicts.iter().all(|&n| 0 < n), "{verdicts:?}");
}

fn completions(rng: &mut Rng) {
    // Listed, of all kinds and of one; spent; too little room.
    let mut answers = [0; 4];
    // Listings that the source has alike, and otherwise.
    let mut sources = [0; 2];
    for round in 0..60 {
        let m = if round % 2 == 0 { registered_memory(rng, 30, 1000, 6000) } else { sound_memory(rng, 60) };
        let (table, source) = (decode(&m), Source::new(&m));
        for _ in 0..10 {
            let (query, budget, room) = (completion_query(rng), 1 + rng.below(30) as u32, rng.below(30));
            let kind = if rng.one_in(2) { Some(*rng.pick(&Kind::ALL)) } else { None };
            let mut out = Output::with_room(room, 10_000);
            let before = out.clone();
            let answer = complete(&m, kind, &query, budget, &mut out);
            match autocomplete_lid(&table, &query, kind, budget) {
                Err(r) => assert!(answer == Err(r.number()) && out == before, "{query:?}"),
                Ok((lines, _)) if room < lines.len() => assert!(answer == Err(10) && out == before, "{query:?}"),
                Ok((lines, _)) => {
                    assert_eq!(answer, Ok(lines.len() as u32), "{query:?}");
                    assert!((0..lines.len()).all(|k| out.line(k, item) == lines[k]), "{query:?}");
                    let by_source = source.begin().lines(&query);
                    assert!(by_source == source_lines(&table.names, &query), "{query:?}");
                    sources[usize::from(!by_source.into_iter().filter(|l| kind.is_none_or(|k| l.item.kind == k)).eq(lines))] += 1;
                }
            }
            answers[match answer { Ok(_) if kind.is_none() => 0, Ok(_) => 1, Err(9) => 2, Err(_) => 3 }] += 1;
        }
    }
    assert!(answers.iter().chain(&sources).all(|&n| 0 < n), "{answers:?} {sources:?}");
}

#[test]
fn the_baselines_do_the_same_work() {
    check();
}
