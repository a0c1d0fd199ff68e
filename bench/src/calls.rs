//! One call by the product, by hand in C and by the source's functions, all held to the independent implementation (tests/model). The source lists
//! last holders, so its lines are held to the listing by these, and have the product's candidates in all that is timed.
use crate::baseline;
use crate::measure::{compare, least, Row};
use crate::source::Source;
use model::layout::{decode, same_table, Memory};
use model::model::{autocomplete_lid, find, register, Ask, Item, Registration};
use model::naive::source_lines;
use product::{item, Output};
use std::cell::RefCell;
use std::hint::black_box;

/// A name to register, and the query that looks it up.
#[derive(Clone)]
pub struct Name {
    pub host: Vec<u8>,
    pub id: Vec<u8>,
    pub item: Item,
    pub query: Vec<u8>,
}

impl Name {
    pub fn new(host: Vec<u8>, id: Vec<u8>, item: Item) -> Name {
        let query = [&host[..], &id[..], b"."].concat();
        Name { host, id, item, query }
    }

    pub fn call(&self) -> Registration {
        Registration::Name { host: self.host.clone(), id: self.id.clone(), item: self.item }
    }
}

/// Room for as many records and bytes as may be used.
pub fn fresh() -> Memory {
    Memory::with_room(65536, 65536)
}

/// A memory with these names.
pub fn made(names: &[Name]) -> Memory {
    let mut m = fresh();
    for n in names {
        // SAFETY: the fresh memory is sound, and a registration keeps it so.
        assert_eq!(unsafe { product::insert_sound(&mut m, &n.host, &n.id, n.item) }, 0);
    }
    m
}

/// Some names registered one after another, from the memory on; nanoseconds for each name.
pub fn registrations(what: &str, memory: &Memory, names: &[Name]) -> Row {
    let calls: Vec<Registration> = names.iter().map(Name::call).collect();
    let header = memory.header;
    let [proved, any, c] = [(); 3].map(|()| RefCell::new(memory.clone()));
    let all = |m: &RefCell<Memory>, f: &dyn Fn(&mut Memory, &Name, &Registration) -> u32| {
        let m = &mut m.borrow_mut();
        m.header = header;
        names.iter().zip(&calls).all(|(n, call)| f(m, n, call) == 0)
    };
    let any_ns = least(|| all(&any, &|m, _, call| product::register(m, call)));
    let source = Source::new(memory);
    let by_source = || names.iter().fold(source.begin(), |root, n| root.insert(&n.host, &n.id, n.item));
    let times = compare([
        // SAFETY: the memory is sound.
        &mut || all(&proved, &|m, n, _| unsafe { product::insert_sound(m, &n.host, &n.id, n.item) }),
        &mut || all(&c, &|m, n, _| baseline::insert(m, &n.host, &n.id, n.item)),
        &mut || {
            black_box(by_source());
            true
        },
    ]);
    let expected = calls.iter().fold(decode(memory), |t, call| register(&t, memory.lent(), call).expect("room"));
    for m in [&proved, &any, &c] {
        assert!(same_table(&decode(&m.borrow()), &expected), "another table: {what}");
    }
    assert!(by_source().lines(b"") == source_lines(&expected.names, b""), "another table: {what}");
    let now = proved.borrow().header;
    let bytes = (now.records - header.records) as usize * 48 + (now.text - header.text) as usize;
    row(what, None, any_ns, times, names.len(), bytes)
}

/// Look-ups, each with its result; nanoseconds for each.
pub fn look_ups(what: &str, memory: &Memory, asked: &[(&[u8], Option<Item>)]) -> Row {
    let root = decode(memory).names;
    let all = |f: &dyn Fn(&[u8]) -> Result<Option<Item>, u32>| asked.iter().all(|(q, item)| f(q) == Ok(*item));
    assert!(all(&|q| find(&root, q).map_err(|r| r.number())), "{what}");
    let any = least(|| all(&|q| product::find(memory, q)));
    let source = Source::new(memory);
    let times = compare([
        // SAFETY: the memory is sound.
        &mut || all(&|q| unsafe { product::find_sound(memory, q) }),
        &mut || all(&|q| baseline::find(memory, q)),
        &mut || {
            let root = source.begin();
            all(&|q| Ok(root.find(q)))
        },
    ]);
    let bytes = asked.iter().map(|(q, _)| way(memory, q) * 48 + q.len()).sum();
    row(what, None, any, times, asked.len(), bytes)
}

/// Completions one after another, each with a line or more; nanoseconds for each.
pub fn completions(what: &str, memory: &Memory, queries: &[&[u8]]) -> Row {
    let table = decode(memory);
    let (room, bytes) = (32768, 1 << 20);
    let [proved, any, c] = [(); 3].map(|()| RefCell::new(Output::with_room(room, bytes)));
    let source = Source::new(memory);
    let mut written = (0, 0);
    for q in queries {
        let (expected, entered) = autocomplete_lid(&table, q, None, u32::MAX).expect("listed");
        for o in [&proved, &any, &c] {
            *o.borrow_mut() = Output::with_room(room, bytes);
        }
        let out = &mut proved.borrow_mut();
        // SAFETY: the memory is sound.
        assert_eq!(unsafe { product::complete_sound(memory, Ask::Names(None), q, u32::MAX, out) }, Ok((expected.len() as u32, entered)), "{what}");
        assert_eq!(product::complete(memory, Ask::Names(None), q, u32::MAX, &mut any.borrow_mut()), Ok((expected.len() as u32, entered)), "{what}");
        assert_eq!(baseline::complete(memory, None, q, u32::MAX, &mut c.borrow_mut()), Ok(expected.len() as u32), "{what}");
        assert!(**out == *any.borrow() && **out == *c.borrow(), "other lines: {what}");
        let by_source = source.begin().lines(q);
        assert!(by_source == source_lines(&table.names, q), "other lines: {what}");
        assert!(by_source.iter().map(|l| &l.candidate).eq(expected.iter().map(|l| &l.candidate)), "other candidates: {what}");
        for (k, line) in expected.iter().enumerate() {
            assert_eq!(&out.line(k, item), line, "{what}");
            written = (written.0 + 1, written.1 + line.candidate.len() + line.annotation.len());
        }
    }
    let any = least(|| queries.iter().all(|q| product::complete(memory, Ask::Names(None), q, u32::MAX, &mut any.borrow_mut()).is_ok()));
    let times = compare([
        // SAFETY: the memory is sound.
        &mut || queries.iter().all(|q| unsafe { product::complete_sound(memory, Ask::Names(None), q, u32::MAX, &mut proved.borrow_mut()) }.is_ok()),
        &mut || queries.iter().all(|q| baseline::complete(memory, None, q, u32::MAX, &mut c.borrow_mut()).is_ok()),
        &mut || queries.iter().all(|q| source.begin().complete(q)),
    ]);
    row(what, Some(written.0 / queries.len()), any, times, queries.len(), written.0 * 48 + written.1)
}

fn row(what: &str, lines: Option<usize>, any: f64, [proved, c, source]: [f64; 3], calls: usize, bytes: usize) -> Row {
    let n = calls as f64;
    Row { what: what.into(), lines, proved: proved / n, any: any / n, c: c / n, source: source / n, bytes: bytes / calls }
}

/// How many records a look-up by first holders reads.
fn way(m: &Memory, query: &[u8]) -> usize {
    fn holder(m: &Memory, mut list: u32, key: &[u8], read: &mut usize) -> u32 {
        let word = |link: u32, k: usize| m.words[(link as usize - 1) * 12 + k];
        while list != 0 {
            *read += 1;
            let mut at = word(list, 3);
            if word(list, 5) == 1 {
                at = holder(m, at, key, read);
            } else {
                while at != 0 {
                    *read += 1;
                    let start = word(at, 1) as usize;
                    match key.cmp(&m.text[start..start + word(at, 2) as usize]) {
                        std::cmp::Ordering::Equal => break,
                        std::cmp::Ordering::Less => at = word(at, 3),
                        std::cmp::Ordering::Greater => at = word(at, 4),
                    }
                }
            }
            if at != 0 {
                return at;
            }
            list = word(list, 4);
        }
        0
    }
    let (mut trie, mut read) = (m.header.names, 0);
    let segments: Vec<&[u8]> = query[..query.len() - 1].split(|&b| b == b'.').collect();
    for (i, segment) in segments.iter().enumerate() {
        if trie == 0 {
            break;
        }
        read += 1;
        let list = m.words[(trie as usize - 1) * 12 + if i + 1 < segments.len() { 4 } else { 3 }];
        let at = holder(m, list, segment, &mut read);
        trie = if at == 0 { 0 } else { m.words[(at as usize - 1) * 12 + 5] };
        if i + 1 == segments.len() {
            break;
        }
    }
    read
}
