//! The requirements' refusals, each at its limit and just inside it, for any
//! implementation of the calls. Every table, number and answer here is written
//! by hand from docs/REQUIREMENTS.md, section 6, and docs/LAYOUT.md.

use crate::layout::{Header, Memory, Record};
use crate::model::{Ask, Filter, Item, Kind, Registration};
use crate::written::record;

pub const UNSOUND: u32 = 1;
pub const MALFORMED: u32 = 2;
pub const EMPTY: u32 = 3;
pub const TOO_LONG: u32 = 4;
pub const CROWDED: u32 = 5;
pub const DEEP: u32 = 6;
pub const FULL: u32 = 7;
pub const TEXT_FULL: u32 = 8;
pub const SPENT: u32 = 9;
pub const LINES: u32 = 10;

/// The calls of one implementation on a lent memory. A call that answers with
/// a refusal's number has changed nothing that is lent.
pub trait Calls {
    /// Records past these count as not lent.
    const MOST_RECORDS: usize;

    /// 0, or the number of the refusal.
    fn register(memory: &mut Memory, call: &Registration) -> u32;

    /// An item of the names root or none, or the number of the refusal.
    fn find(memory: &Memory, query: &[u8]) -> Result<Option<Item>, u32>;

    /// Lines and tries entered of what is asked, with so many lines and bytes of
    /// output lent; or the number of the refusal.
    fn complete(
        memory: &Memory,
        ask: Ask,
        query: &[u8],
        budget: u32,
        room: (usize, usize),
    ) -> Result<(u32, u32), u32>;
}

/// A test for each of the functions named.
#[macro_export]
macro_rules! at_limits {
    ($calls:ty: $($refusal:ident)*) => {
        $(#[test]
        fn $refusal() {
            $crate::limits::$refusal::<$calls>();
        })*
    };
}

// ------------------------------------------------------------------ calls

/// A call with its arguments; a completion has budget and room enough.
#[derive(Clone, Debug)]
pub enum Call {
    Register(Registration),
    Find(Vec<u8>),
    Complete(Ask, Vec<u8>),
}

const PLENTY: (usize, usize) = (200, 20_000);

/// A name with a Register.
fn name(host: &[u8], id: &[u8], number: u32) -> Registration {
    named(host, id, Item::register(number))
}

fn named(host: &[u8], id: &[u8], item: Item) -> Registration {
    Registration::Name { host: host.into(), id: id.into(), item }
}

fn include(host: &[u8], included: &[u8]) -> Registration {
    Registration::Include { host: host.into(), included: included.into() }
}

fn open_namespace(host: &[u8], included: &[u8]) -> Registration {
    Registration::OpenNamespace { host: host.into(), included: included.into() }
}

fn open_module(host: &[u8], included: &[u8]) -> Registration {
    Registration::OpenModule { host: host.into(), included: included.into() }
}

fn alias(key: &[u8], host: &[u8], included: &[u8]) -> Registration {
    Registration::Alias { key: key.into(), host: host.into(), included: included.into() }
}

fn module(loaded: bool, query: &[u8], path: &[u8]) -> Registration {
    Registration::Module { loaded, query: query.into(), path: path.into() }
}

/// The calls with this id or key.
fn names(n: &[u8]) -> Vec<Call> {
    [name(b"", n, 1), alias(n, b"", b"")].map(Call::Register).into()
}

/// The calls with this host, but for the alias, which goes one deeper.
fn hosts(q: &[u8]) -> Vec<Call> {
    let opens = [open_module(q, b""), open_namespace(q, b"")];
    let others = [name(q, b"i", 1), include(q, b""), module(true, q, b"p")];
    opens.into_iter().chain(others).map(Call::Register).collect()
}

fn alias_host(q: &[u8]) -> Vec<Call> {
    vec![Call::Register(alias(b"k", q, b""))]
}

/// The calls with this included query.
fn included(q: &[u8]) -> Vec<Call> {
    let opens = [open_module(b"", q), open_namespace(b"", q)];
    let others = [include(b"", q), alias(b"k", b"", q)];
    opens.into_iter().chain(others).map(Call::Register).collect()
}

fn registrations(q: &[u8]) -> Vec<Call> {
    [hosts(q), alias_host(q), included(q)].concat()
}

fn look_ups(q: &[u8]) -> Vec<Call> {
    vec![Call::Find(q.into())]
}

fn completions(q: &[u8]) -> Vec<Call> {
    Ask::ALL.map(|ask| Call::Complete(ask, q.into())).into()
}

/// The calls with this query, at every place that has one.
fn queries(q: &[u8]) -> Vec<Call> {
    [registrations(q), look_ups(q), completions(q)].concat()
}

/// The calls with this path; with no segment it is looked at too.
fn paths(p: &[u8]) -> Vec<Call> {
    [module(true, b"A.", p), module(false, b"", p)].map(Call::Register).into()
}

/// The refusal's number of a call, or 0.
fn answer<C: Calls>(memory: &Memory, call: &Call) -> u32 {
    match call {
        Call::Register(call) => {
            let mut now = memory.clone();
            let answer = C::register(&mut now, call);
            assert!(answer == 0 || now == *memory, "a refused call changed something: {call:?}");
            answer
        }
        Call::Find(query) => C::find(memory, query).err().unwrap_or(0),
        Call::Complete(ask, query) => {
            C::complete(memory, *ask, query, u32::MAX, PLENTY).err().unwrap_or(0)
        }
    }
}

/// Each of the calls, on the memory, answers so.
fn each<C: Calls>(memory: &Memory, calls: Vec<Call>, expected: u32) {
    assert!(!calls.is_empty());
    for call in calls {
        assert_eq!(answer::<C>(memory, &call), expected, "{call:?}");
    }
}

fn on_fresh<C: Calls>(calls: Vec<Call>, expected: u32) {
    each::<C>(&Memory::with_room(200, 4000), calls, expected);
}

/// The memory after these calls, each accepted, with so much lent.
fn made<C: Calls>(records: usize, text: usize, calls: &[Registration]) -> Memory {
    let mut memory = Memory::with_room(records, text);
    for call in calls {
        assert_eq!(C::register(&mut memory, call), 0, "{call:?}");
    }
    memory
}

/// The requirements' table T: 26 records, 44 text bytes.
fn table_t() -> [Registration; 4] {
    [
        name(b"Saved.", b"offset", 1),
        include(b"Live.", b"Saved."),
        name(b"Saved.", b"late", 2),
        name(b"Live.", b"offset", 3),
    ]
}

// -------------------------------------------------------------- 1 Unsound

/// A memory of these records, all used, over this text, all used.
fn written(records: &[Record], text: &[u8]) -> Memory {
    let (used, length) = (records.len() as u32, text.len() as u32);
    let header = Header { records: used, text: length, ..Header::default() };
    Memory { words: records.concat(), text: text.into(), header }
}

/// A bindings branch of the names table with a key of one byte; its item is r0.
fn branch(at: u32, left: u32, right: u32) -> Record {
    record(&[(0, 1), (1, at), (2, 1), (3, left), (4, right), (6, 3)])
}

/// A bindings list of so many collections, each an empty tree.
fn list(weight: u32) -> Vec<Record> {
    (1..=weight).map(|w| record(&[(0, 3), (4, w - 1), (10, w)])).collect()
}

/// A trie of this depth; its last record is the trie.
fn trie(depth: u32) -> Vec<Record> {
    let mut all = vec![record(&[(0, 5)])];
    for d in 1..=depth {
        let below = all.len() as u32;
        all.push(record(&[(0, 2), (2, 1), (5, below), (11, d)]));
        all.push(record(&[(0, 4), (3, below + 1), (10, 1), (11, d)]));
        all.push(record(&[(0, 5), (4, below + 2), (11, d)]));
    }
    all
}

fn with(mut records: Vec<Record>, more: Record) -> Vec<Record> {
    records.push(more);
    records
}

/// Memories at the limits of Sound, and whether they are sound.
fn memories(most_records: usize) -> Vec<(&'static str, Memory, bool)> {
    let mut all = Vec::new();
    let n = [b'n'; 600];
    let mut add = |what, records: &[Record], text: &[u8], sound: bool| {
        all.push((what, written(records, text), sound));
    };
    for (kind, sound) in [(0, false), (5, true), (10, true), (11, false), (u32::MAX, false)] {
        add("kind", &[record(&[(0, kind)])], b"", sound);
    }
    for (length, sound) in [(0, false), (1, true), (31, true), (32, false)] {
        add("key length", &[record(&[(0, 1), (2, length), (6, 3)])], &n, sound);
    }
    for (byte, sound) in NAME_BYTES {
        add("key byte", &[branch(0, 0, 0)], &[byte], sound);
    }
    add("key byte", &[branch(0, 0, 0)], b".", false);
    for (start, sound) in [(2, true), (3, false), (u32::MAX, false)] {
        add("span", &[branch(start, 0, 0)], b"abc", sound);
    }
    for (text, sound) in [(b"ab", true), (b"aa", false), (b"ba", false)] {
        add("left key", &[branch(0, 0, 0), branch(1, 1, 0)], text, sound);
    }
    for (text, sound) in [(b"ba", true), (b"aa", false), (b"ab", false)] {
        add("right key", &[branch(0, 0, 0), branch(1, 0, 1)], text, sound);
    }
    // The left side is a with the first key to its right.
    for (text, sound) in [(b"bac", true), (b"bab", false), (b"cab", false)] {
        let three = [branch(0, 0, 0), branch(1, 0, 1), branch(2, 2, 0)];
        add("far key", &three, text, sound);
    }
    for (link, sound) in [(0, true), (1, true), (2, false), (3, false)] {
        add("earlier link", &[branch(0, 0, 0), branch(1, link, 0)], b"ab", sound);
    }
    add("link of another kind", &[record(&[(0, 5)]), branch(0, 1, 0)], b"a", false);
    for (kind, sound) in
        [(0, false), (1, true), (2, true), (3, true), (4, false), (256, false), (u32::MAX, false)]
    {
        add("kind of an item", &[record(&[(0, 1), (2, 1), (6, kind)])], b"n", sound);
    }
    for number in [1, u32::MAX] {
        add("number of an item", &[record(&[(0, 1), (2, 1), (5, number), (6, 1)])], b"n", true);
    }
    for (sort, sound) in [(0, true), (1, true), (2, false)] {
        add("sort of a collection", &[record(&[(0, 3), (5, sort), (10, 1)])], b"", sound);
        add("sort of an item", &[record(&[(0, 6), (2, 1), (5, sort), (7, 1)])], b"n", sound);
    }
    for (length, sound) in [(0, true), (543, true), (544, false)] {
        add("label", &[record(&[(0, 3), (2, length), (5, 1), (10, 1)])], &n, sound);
    }
    for (length, sound) in [(0, false), (1, true), (543, true), (544, false)] {
        add("full name", &[record(&[(0, 6), (2, 1), (5, 1), (7, length)])], &n, sound);
    }
    for (length, sound) in [(0, true), (120, true), (121, false)] {
        add("path", &[record(&[(0, 6), (2, 1), (7, 1), (9, length)])], &n, sound);
    }
    for (loaded, sound) in [(0, true), (1, true), (2, false)] {
        add("loaded", &[record(&[(0, 6), (2, 1), (7, 1), (10, loaded)])], b"n", sound);
    }
    for (weight, sound) in [(96, true), (97, false)] {
        add("weight", &list(weight), b"", sound);
        let imported = record(&[(0, 3), (3, weight - 1), (5, 1), (10, weight)]);
        add("weight of an import", &with(list(weight - 1), imported), b"", sound);
    }
    for (stored, sound) in [(0, false), (1, true), (2, false)] {
        add("stored weight", &[record(&[(0, 3), (10, stored)])], b"", sound);
    }
    for (depth, sound) in [(16, true), (17, false)] {
        add("depth", &trie(depth), b"n", sound);
    }
    for (stored, sound) in [(1, false), (2, true), (3, false)] {
        let mut three = trie(2);
        three[6][11] = stored;
        add("stored depth", &three, b"n", sound);
    }
    for (root, sound) in [(0, true), (1, true), (2, false), (3, false)] {
        let two = [record(&[(0, 5)]), record(&[(0, 3), (10, 1)])];
        let mut memory = written(&two, b"");
        memory.header.names = root;
        all.push(("names root", memory, sound));
    }
    for (root, sound) in [(0, true), (1, false), (2, true), (3, false)] {
        let mut memory = written(&[record(&[(0, 5)]), record(&[(0, 10)])], b"");
        memory.header.modules = root;
        all.push(("modules root", memory, sound));
    }
    for (words, sound) in [(24, true), (23, false)] {
        let mut memory = written(&[record(&[(0, 5)]); 2], b"");
        memory.words.truncate(words);
        all.push(("records lent", memory, sound));
    }
    for (lent, sound) in [(3, true), (2, false)] {
        let mut memory = written(&[], b"abc");
        memory.text.truncate(lent);
        all.push(("text lent", memory, sound));
    }
    for (used, sound) in [(most_records, true), (most_records + 1, false)] {
        let mut memory = written(&vec![record(&[(0, 5)]); most_records + 1], b"");
        memory.header.records = used as u32;
        all.push(("records used", memory, sound));
    }
    for (used, sound) in [(65_536, true), (65_537, false)] {
        let mut memory = written(&[], &[b'n'; 65_537]);
        memory.header.text = used;
        all.push(("text used", memory, sound));
    }
    all
}

pub fn unsound<C: Calls>() {
    for (what, memory, sound) in memories(C::MOST_RECORDS) {
        let calls = [
            Call::Register(name(b"", b"i", 1)),
            Call::Register(include(b"", b"")),
            Call::Register(open_module(b"", b"")),
            Call::Register(open_namespace(b"", b"")),
            Call::Register(alias(b"k", b"", b"")),
            Call::Register(module(true, b"", b"")),
            Call::Register(module(false, b"A.", b"p")),
        ];
        for call in calls.into_iter().chain(look_ups(b"z.")).chain(completions(b"z.")) {
            let answer = answer::<C>(&memory, &call);
            assert_eq!(answer != UNSOUND, sound, "{what}: {call:?} {:?}", memory.header);
        }
    }
}

// ------------------------------------------------------------ 2 Malformed

/// Bytes around the name bytes, 21 to 7E without 2E, 5B and 5D, and whether
/// they are name bytes. The dot is left out.
const NAME_BYTES: [(u8, bool); 15] = [
    (0x00, false),
    (0x20, false),
    (0x21, true),
    (0x2D, true),
    (0x2F, true),
    (0x5A, true),
    (0x5B, false),
    (0x5C, true),
    (0x5D, false),
    (0x5E, true),
    (0x7E, true),
    (0x7F, false),
    (0x80, false),
    (0xC3, false),
    (0xFF, false),
];

pub fn malformed<C: Calls>() {
    for (byte, allowed) in NAME_BYTES {
        let expected = if allowed { 0 } else { MALFORMED };
        on_fresh::<C>(names(&[b'a', byte]), expected);
        on_fresh::<C>(queries(&[byte, b'.']), expected);
        on_fresh::<C>(queries(&[b'a', b'.', b'b', byte, b'.']), expected);
    }
    on_fresh::<C>(names(b"a.b"), MALFORMED);
    on_fresh::<C>(names(b"."), MALFORMED);
    for (query, expected) in [(&b"a"[..], MALFORMED), (b"a.", 0), (b"a.b", MALFORMED)] {
        on_fresh::<C>(queries(query), expected);
    }
    // Bytes of a path are 20 to 7E.
    let path_bytes = [
        (0x1F, MALFORMED),
        (0x20, 0),
        (0x2E, 0),
        (0x5B, 0),
        (0x5D, 0),
        (0x7E, 0),
        (0x7F, MALFORMED),
        (0x80, MALFORMED),
    ];
    for (byte, expected) in path_bytes {
        on_fresh::<C>(paths(&[b'p', byte]), expected);
    }
}

// ---------------------------------------------------------------- 3 Empty

pub fn empty<C: Calls>() {
    on_fresh::<C>(names(b""), EMPTY);
    on_fresh::<C>(names(b"a"), 0);
    for (query, expected) in
        [(&b""[..], 0), (b".", EMPTY), (b"a..", EMPTY), (b".a.", EMPTY), (b"a.", 0)]
    {
        on_fresh::<C>(registrations(query), expected);
        on_fresh::<C>(look_ups(query), if query.is_empty() { EMPTY } else { expected });
        on_fresh::<C>(completions(query), 0);
    }
    on_fresh::<C>(paths(b""), 0);
}

// -------------------------------------------------------------- 4 TooLong

pub fn too_long<C: Calls>() {
    for (length, expected) in [(31, 0), (32, TOO_LONG)] {
        let long = vec![b'n'; length];
        on_fresh::<C>(names(&long), expected);
        on_fresh::<C>(queries(&[&long[..], b"."].concat()), expected);
        on_fresh::<C>(queries(&[b"a.", &long[..], b".b."].concat()), expected);
    }
    for (segments, expected) in [(17, 0), (18, TOO_LONG)] {
        let query = b"s.".repeat(segments);
        on_fresh::<C>(included(&query), expected);
        on_fresh::<C>(look_ups(&query), expected);
        on_fresh::<C>(completions(&query), expected);
        on_fresh::<C>(completions(&vec![b'.'; segments]), expected);
    }
    // A host of 17 segments is not too long, but too deep.
    on_fresh::<C>(hosts(&b"s.".repeat(16)), 0);
    for (segments, expected) in [(17, DEEP), (18, TOO_LONG)] {
        let query = b"s.".repeat(segments);
        on_fresh::<C>([hosts(&query), alias_host(&query)].concat(), expected);
    }
    for (length, expected) in [(120, 0), (121, TOO_LONG)] {
        on_fresh::<C>(paths(&vec![b'p'; length]), expected);
    }
}

// -------------------------------------------------------------- 5 Crowded

pub fn crowded<C: Calls>() {
    // Each include of nothing weighs one and takes two records at the root.
    let includes = |n: usize| vec![include(b"", b"x."); n];
    for (weight, expected) in [(95, 0), (96, CROWDED)] {
        let memory = made::<C>(250, 2000, &includes(weight));
        // One more collection; a label with the whole list; a tree in front.
        let calls = [
            include(b"", b"x."),
            open_module(b"", b"x."),
            include(b"h.", b""),
            alias(b"k", b"", b""),
            name(b"", b"i", 1),
        ];
        each::<C>(&memory, calls.map(Call::Register).into(), expected);
        // Namespaces are another list.
        each::<C>(&memory, vec![Call::Register(open_namespace(b"", b"x."))], 0);
    }
    for (weight, expected) in [(95, 0), (96, CROWDED)] {
        let memory = made::<C>(250, 2000, &vec![open_namespace(b"", b"x."); weight]);
        let calls = [
            open_namespace(b"", b"x."),
            open_namespace(b"h.", b""),
            name(b"h.", b"i", 1),
            alias(b"k", b"", b""),
        ];
        // The host h. is put in front of the opened ones, too.
        each::<C>(&memory, calls.map(Call::Register).into(), expected);
    }
    // Where a tree leads the list, a name adds no weight.
    let mut memory = made::<C>(250, 2000, &includes(95));
    assert_eq!(C::register(&mut memory, &name(b"", b"a", 1)), 0);
    assert_eq!(C::register(&mut memory, &name(b"", b"b", 2)), 0);
    each::<C>(&memory, vec![Call::Register(include(b"", b"x."))], CROWDED);
}

// ----------------------------------------------------------------- 6 Deep

pub fn deep<C: Calls>() {
    let s = |n: usize| b"s.".repeat(n);
    let fresh = Memory::with_room(200, 4000);
    for (segments, expected) in [(16, 0), (17, DEEP)] {
        each::<C>(&fresh, hosts(&s(segments)), expected);
        each::<C>(&fresh, alias_host(&s(segments - 1)), expected);
    }
    // Opening the root below t makes it one deeper.
    for (segments, expected) in [(15, 0), (16, DEEP)] {
        let memory = made::<C>(200, 4000, &[name(&s(segments), b"i", 1)]);
        let below = Call::Register(open_namespace(b"t.", b""));
        each::<C>(&memory, vec![below], expected);
        // Bindings have no depth.
        each::<C>(&memory, vec![Call::Register(include(b"t.", b""))], 0);
    }
}

// ----------------------------------------------------------------- 7 Full

/// Calls in a row, and the records and text bytes that they take together:
/// from the printed session and cases 1, 2, 8 and 10, and by counting the
/// root's collection and trie record for the last two.
fn sizes() -> Vec<(Vec<Registration>, usize, usize)> {
    let t = table_t().to_vec();
    let session: Vec<Registration> = [&t[..2], &t[3..]].concat();
    let after = |call: Registration| t.iter().cloned().chain([call]).collect::<Vec<_>>();
    vec![
        (vec![name(b"", b"tick", 5)], 3, 4),
        (t[..1].to_vec(), 6, 12),
        (t[..2].to_vec(), 12, 23),
        (session, 19, 34),
        (t.clone(), 26, 44),
        (after(alias(b"K", b"Live.", b"Saved.")), 35, 56),
        (vec![module(false, b"IO.Bus.", b"io/bus")], 10, 13),
        (after(include(b"", b"Saved.")), 28, 50),
        (after(open_namespace(b"", b"Saved.")), 28, 50),
    ]
}

pub fn full<C: Calls>() {
    for (calls, records, text) in sizes() {
        let used = made::<C>(records, text, &calls).header;
        assert_eq!((used.records as usize, used.text as usize), (records, text), "{calls:?}");
        let (last, first) = calls.split_last().unwrap();
        let memory = made::<C>(records - 1, text, first);
        each::<C>(&memory, vec![Call::Register(last.clone())], FULL);
    }
    // However many are lent, no more than these are used.
    for (free, expected) in [(3, 0), (2, FULL)] {
        let mut memory = written(&vec![record(&[(0, 5)]); C::MOST_RECORDS + 50], b"");
        memory.header.records = (C::MOST_RECORDS - free) as u32;
        memory.text = vec![0; 100];
        each::<C>(&memory, vec![Call::Register(name(b"", b"tick", 5))], expected);
    }
    // A module call with no segment takes no record.
    let call = Call::Register(module(true, b"", b"p"));
    each::<C>(&Memory::with_room(0, 1), vec![call], 0);
}

// ------------------------------------------------------------- 8 TextFull

pub fn text_full<C: Calls>() {
    for (calls, records, text) in sizes() {
        let (last, first) = calls.split_last().unwrap();
        let memory = made::<C>(records, text - 1, first);
        each::<C>(&memory, vec![Call::Register(last.clone())], TEXT_FULL);
    }
    for (text, expected) in [(120, 0), (119, TEXT_FULL)] {
        let call = Call::Register(module(true, b"", &[b'p'; 120]));
        each::<C>(&Memory::with_room(0, text), vec![call], expected);
    }
    // However much is lent, no more than 65,536 bytes are used.
    for (used, expected) in [(65_532, 0), (65_533, TEXT_FULL)] {
        let mut memory = Memory::with_room(3, 70_000);
        memory.header.text = used;
        each::<C>(&memory, vec![Call::Register(name(b"", b"tick", 5))], expected);
    }
}

// ------------------------------------------------------- 9 Spent, 10 Lines

/// Completions of the requirements, and of tables with two holders of a name: the
/// table, what is asked, lines, the bytes of their texts, and tries entered.
#[allow(clippy::type_complexity)]
fn listings() -> Vec<(Vec<Registration>, Ask, &'static [u8], usize, usize, u32)> {
    use Ask::{Modules, Names};
    let t = table_t().to_vec();
    let at_root = t.iter().cloned().chain([include(b"", b"Saved.")]).collect();
    let kinds = vec![
        named(b"", b"a", Item::timer(1)),
        named(b"io.", b"bb", Item::port(1)),
        named(b"io.", b"ccc", Item::timer(2)),
        include(b"", b"io."),
    ];
    let bus = vec![module(false, b"IO.Bus.", b"io/bus")];
    let bound_twice = vec![
        name(b"Saved.", b"offset", 1),
        include(b"", b"Saved."),
        named(b"", b"offset", Item::timer(3)),
    ];
    let held_twice = vec![
        name(b"m.s.", b"y", 2),
        open_namespace(b"n.", b"m."),
        named(b"n.s.", b"w", Item::timer(4)),
        name(b"n.s.t.", b"v", 5),
    ];
    vec![
        (vec![], Names(None), b"", 0, 0, 1),
        (vec![], Names(Some(Kind::Timer)), b"", 0, 0, 1),
        (vec![], Modules(Filter::All), b".", 0, 0, 1),
        // Live.offset
        (t.clone(), Names(None), b"Live.off.", 1, 11, 2),
        // Live.offset, Saved.late, Saved.offset
        (t.clone(), Names(None), b"", 3, 11 + 10 + 12, 3),
        (t.clone(), Names(Some(Kind::Register)), b".", 3, 33, 3),
        (t.clone(), Names(Some(Kind::Port)), b".", 0, 0, 3),
        (t, Names(None), b".", 3, 33, 3),
        // offset, Saved
        (at_root, Names(None), b"off.", 1, 6 + 5, 1),
        // a; bb and ccc, io; io.bb, io.ccc
        (kinds.clone(), Names(None), b"", 5, 1 + 2 + 2 + 3 + 2 + 5 + 6, 2),
        (kinds.clone(), Names(Some(Kind::Timer)), b"", 3, 1 + 3 + 2 + 6, 2),
        (kinds.clone(), Names(Some(Kind::Port)), b"", 2, 2 + 2 + 5, 2),
        (kinds, Names(Some(Kind::Register)), b"", 0, 0, 2),
        // offset, of the tree in front and not of the label Saved
        (bound_twice.clone(), Names(None), b"off.", 1, 6, 1),
        (bound_twice.clone(), Names(Some(Kind::Timer)), b"off.", 1, 6, 1),
        (bound_twice, Names(Some(Kind::Register)), b"off.", 0, 0, 1),
        // n.s.w, n.s.y, n.s.t.v: of the copy in front and not of m's
        (held_twice.clone(), Names(None), b"n.", 3, 5 + 5 + 7, 4),
        (held_twice, Names(Some(Kind::Timer)), b"n.", 1, 5, 4),
        // IO (ns), IO.Bus (mod)
        (bus.clone(), Modules(Filter::All), b"I.", 2, 2 + 4 + 6 + 5, 3),
        (bus.clone(), Modules(Filter::NamespacesOnly), b"I.", 1, 2 + 4, 3),
        (bus.clone(), Modules(Filter::ModulesOnly), b"I.", 1, 6 + 5, 3),
        (bus, Modules(Filter::Loaded), b"I.", 0, 0, 3),
    ]
}

pub fn spent<C: Calls>() {
    for (calls, ask, query, lines, bytes, entered) in listings() {
        let memory = made::<C>(100, 1000, &calls);
        let listed = |budget, room| C::complete(&memory, ask, query, budget, room);
        for budget in [entered, entered + 1, u32::MAX] {
            assert_eq!(listed(budget, (lines, bytes)), Ok((lines as u32, entered)), "{query:?}");
        }
        // Spent comes before Lines.
        for budget in 0..entered {
            assert_eq!(listed(budget, (lines, bytes)), Err(SPENT), "{query:?}");
            assert_eq!(listed(budget, (0, 0)), Err(SPENT), "{query:?}");
        }
    }
}

pub fn lines<C: Calls>() {
    let mut refused = 0;
    for (calls, ask, query, lines, bytes, entered) in listings() {
        let memory = made::<C>(100, 1000, &calls);
        let listed = |room| C::complete(&memory, ask, query, entered, room);
        for room in [(lines, bytes), (lines + 1, bytes), (lines, bytes + 1)] {
            assert_eq!(listed(room), Ok((lines as u32, entered)), "{query:?}");
        }
        if lines > 0 {
            assert_eq!(listed((lines - 1, bytes + 9)), Err(LINES), "{query:?}");
            assert_eq!(listed((lines + 9, bytes - 1)), Err(LINES), "{query:?}");
            refused += 1;
        }
    }
    assert_eq!(refused, 15);
}

// ------------------------------------------------------------------- order

/// Calls that every refusal applies to, mended row by row.
pub fn lowest_first<C: Calls>() {
    let mut crowded = made::<C>(192, 192, &vec![open_namespace(b"", b"x."); 96]);
    assert_eq!((crowded.header.records, crowded.header.text), (192, 192));
    let long = [b'n'; 32];
    let deep = b"s.".repeat(17);
    let rows = [
        (name(b".", &[&long[..], b"."].concat(), 1), MALFORMED),
        (name(b".", &long, 1), EMPTY),
        (name(&deep, &long, 1), TOO_LONG),
        (name(&deep, b"i", 1), CROWDED),
    ];
    for (call, expected) in &rows {
        each::<C>(&crowded, vec![Call::Register(call.clone())], *expected);
    }
    crowded.words[0] = 0;
    for (call, _) in rows {
        each::<C>(&crowded, vec![Call::Register(call)], UNSOUND);
    }
    // 16 hosts and the root, three records each.
    let high = name(&b"s.".repeat(16), b"i", 1);
    let answers = [
        (name(&deep, b"i", 1), 0, 0, DEEP),
        (high.clone(), 50, 0, FULL),
        (high.clone(), 51, 32, TEXT_FULL),
        (high, 51, 33, 0),
    ];
    for (call, records, text, expected) in answers {
        let memory = Memory::with_room(records, text);
        each::<C>(&memory, vec![Call::Register(call)], expected);
    }
    let mut t = made::<C>(26, 44, &table_t());
    let none =
        |t: &Memory, query: &[u8], budget| C::complete(t, Ask::Names(None), query, budget, (0, 0));
    let too_long = [b'.'; 18];
    assert_eq!(none(&t, &[&too_long[..], b"a"].concat(), 0), Err(MALFORMED));
    assert_eq!(none(&t, &too_long, 0), Err(TOO_LONG));
    assert_eq!(none(&t, b"", 2), Err(SPENT));
    assert_eq!(none(&t, b"", 3), Err(LINES));
    assert_eq!(C::find(&t, b".a"), Err(MALFORMED));
    assert_eq!(C::find(&t, &too_long), Err(EMPTY));
    assert_eq!(C::find(&t, &b"s.".repeat(18)), Err(TOO_LONG));
    t.words[0] = 0;
    assert_eq!(none(&t, &[&too_long[..], b"a"].concat(), 0), Err(UNSOUND));
    assert_eq!(C::find(&t, b".a"), Err(UNSOUND));
}
