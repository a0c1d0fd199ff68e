//! This build beside that of another commit, turn by turn on the same input (bench/before).
use crate::calls::{fresh, made, Name};
use crate::layer::table;
use crate::measure::compare;
use crate::merged_table;
use layer::Bytes;
use model::layout::Memory;
use product::{Listing, Looked, Output, Reply};
use std::cell::RefCell;

/// A library's calls for proved callers, and the C layer's registrations of a name and of a module.
struct Library {
    insert: fn(&mut Memory, &Name) -> bool,
    find: fn(&Memory, &Name) -> bool,
    complete: fn(&Memory, &[u8], &mut Output) -> bool,
    console_insert: fn(&mut Bytes, &Name) -> u32,
    console_module: fn(&mut Bytes, &[u8], &[u8]) -> u32,
}

/// The library whose calls have these names, take these numbers for an item and reply so to a look-up. Nothing checks them against crates
/// screen_tests and screen, of either commit.
macro_rules! library {
    ($library:ident($($item:ident),*) -> $looked:ty: $insert:ident, $find:ident, $complete:ident, $console_insert:ident, $console_module:ident) => {
        #[rustfmt::skip]
        extern "C" {
            fn $insert(words: *mut u32, nwords: usize, text: *mut u8, ntext: usize, names: u32, modules: u32, records: u32, used: u32,
                host: *const u8, nhost: usize, id: *const u8, nid: usize, $($item: u32),*) -> Reply;
            fn $find(words: *const u32, nwords: usize, text: *const u8, ntext: usize, names: u32, modules: u32, records: u32, used: u32,
                query: *const u8, nquery: usize) -> $looked;
            fn $complete(words: *const u32, nwords: usize, text: *const u8, ntext: usize, names: u32, modules: u32, records: u32, used: u32,
                ask: u32, query: *const u8, nquery: usize, budget: u32, lines: *mut u8, nlines: usize, out: *mut u8, nout: usize) -> Listing;
            fn $console_insert(state: *mut u8, nstate: usize, words: *mut u8, nwords: usize, text: *mut u8, ntext: usize,
                host: *const u8, nhost: usize, id: *const u8, nid: usize, $($item: u32),*) -> u32;
            fn $console_module(state: *mut u8, nstate: usize, words: *mut u8, nwords: usize, text: *mut u8, ntext: usize,
                loaded: u32, query: *const u8, nquery: usize, path: *const u8, npath: usize) -> u32;
        }

        // SAFETY, of all: the memory is sound, and a pointer goes with its own length.
        #[rustfmt::skip]
        const $library: Library = Library {
            insert: |m, n| {
                let h = m.header;
                let r = unsafe { $insert(m.words.as_mut_ptr(), m.words.len(), m.text.as_mut_ptr(), m.text.len(), h.names, h.modules, h.records, h.text,
                    n.host.as_ptr(), n.host.len(), n.id.as_ptr(), n.id.len(), $($item(n)),*) };
                m.header = r.header();
                r.refusal == 0
            },
            find: |m, n| {
                let h = m.header;
                let r = unsafe { $find(m.words.as_ptr(), m.words.len(), m.text.as_ptr(), m.text.len(), h.names, h.modules, h.records, h.text,
                    n.query.as_ptr(), n.query.len()) };
                r.result() == Ok(Some(n.item))
            },
            complete: |m, query, out| {
                let h = m.header;
                let r = unsafe { $complete(m.words.as_ptr(), m.words.len(), m.text.as_ptr(), m.text.len(), h.names, h.modules, h.records, h.text,
                    0, query.as_ptr(), query.len(), u32::MAX, out.lines.as_mut_ptr(), out.lines.len(), out.text.as_mut_ptr(), out.text.len()) };
                r.result().is_ok()
            },
            console_insert: |t, n| unsafe {
                $console_insert(t.state.as_mut_ptr(), t.state.len(), t.words.as_mut_ptr(), t.words.len(), t.text.as_mut_ptr(), t.text.len(),
                    n.host.as_ptr(), n.host.len(), n.id.as_ptr(), n.id.len(), $($item(n)),*)
            },
            console_module: |t, query, path| unsafe {
                $console_module(t.state.as_mut_ptr(), t.state.len(), t.words.as_mut_ptr(), t.words.len(), t.text.as_mut_ptr(), t.text.len(),
                    0, query.as_ptr(), query.len(), path.as_ptr(), path.len())
            },
        };
    };
}

fn kind(n: &Name) -> u32 {
    n.item.kind.number()
}

fn number(n: &Name) -> u32 {
    n.item.number
}

library!(NOW(kind, number) -> Looked: name_table_insert_sound, name_table_find_sound, name_table_complete_sound,
    name_console_insert_item, name_console_module);
// The commit before E9: the same calls, but of equal names the last holder is listed.
library!(BEFORE(kind, number) -> Looked: before_name_table_insert_sound, before_name_table_find_sound, before_name_table_complete_sound,
    before_name_console_insert_item, before_name_console_module);

/// One and the other in turn, on the same memory. Not one of them twice in a turn: the processor then foresees its branches, a tenth to a quarter of 1,000 names.
fn row(what: &str, calls: usize, run: impl Fn(&Library) -> bool) {
    let [before, now] = compare([&mut || run(&BEFORE), &mut || run(&NOW)]).map(|t| t / calls as f64);
    println!("| {what} | {before:.1} | {now:.1} | {:.3} |", now / before);
}

/// Both leave the same behind, by what is looked at: of a registration header and text, since the words of new records are open.
fn same<T: Clone, S: PartialEq>(what: &str, start: &T, run: impl Fn(&Library, &mut T) -> bool, seen: impl Fn(T) -> S) {
    let [now, before] = [&NOW, &BEFORE].map(|library| {
        let mut left = start.clone();
        assert!(run(library, &mut left), "refused: {what}");
        seen(left)
    });
    assert!(now == before, "another result: {what}");
}

fn registrations(what: &str, memory: &Memory, names: &[Name]) {
    let all = |library: &Library, m: &mut Memory| {
        m.header = memory.header;
        names.iter().all(|n| (library.insert)(m, n))
    };
    same(what, memory, all, |m| (m.header, m.text));
    let changed = RefCell::new(memory.clone());
    row(what, names.len(), |library| all(library, &mut changed.borrow_mut()));
}

pub fn run(sizes: &[usize], names: impl Fn(usize) -> Vec<Name>) {
    println!("| call | before, ns | now, ns | now / before |\n|---|---|---|---|");
    registrations("register 1,000 names", &fresh(), &names(1000));
    for &count in sizes {
        let names = names(count + 10);
        let m = made(&names[..count]);
        registrations(&format!("register a name, {count} names"), &m, &names[count..]);
        row(&format!("look a name up, {count} names"), count, |library| names[..count].iter().all(|n| (library.find)(&m, n)));
        let listing = |library: &Library, out: &mut Output| (library.complete)(&m, b"", out);
        let what = format!("list all names, {count} names");
        let out = Output::with_room(32768, 1 << 20);
        same(&what, &out, listing, |out| out);
        let out = RefCell::new(out);
        row(&what, 1, |library| listing(library, &mut out.borrow_mut()));
    }
    for (what, own, shared) in [("500 lines of 10 lists", 50, 0), ("10 lists, 250 names in each", 0, 250)] {
        let m = merged_table(10, own, shared);
        let listing = |library: &Library, out: &mut Output| (library.complete)(&m, b".", out);
        let out = Output::with_room(32768, 1 << 20);
        // Of names in several lists each library has another label.
        if shared == 0 {
            same(what, &out, listing, |out| out);
        }
        let out = RefCell::new(out);
        row(what, 1, |library| listing(library, &mut out.borrow_mut()));
    }
    let (memory, more) = table(&names(1000));
    console("register a name, C layer, 1,024 records", &Bytes::of(&memory), |library, t| (library.console_insert)(t, &more));
    let mut start = Bytes::of(&Memory::with_room(40, 100));
    let module = |library: &Library, t: &mut Bytes| (library.console_module)(t, b"IO.Bus.", b"io/bus");
    assert_eq!(module(&NOW, &mut start), 0);
    console("register a module again, C layer, 10 records", &start, module);
}

/// A registration by the C layer, on the same bytes each time.
fn console(what: &str, start: &Bytes, call: impl Fn(&Library, &mut Bytes) -> u32) {
    let one = |library: &Library, t: &mut Bytes| {
        t.state.copy_from_slice(&start.state);
        call(library, t) == 0
    };
    same(what, start, one, |t| (t.state, t.text));
    let changed = RefCell::new(start.clone());
    row(what, 1, |library| one(library, &mut changed.borrow_mut()));
}
