//! The source's functions compiled natively (source.c), on the trees that a memory reads as.
use model::layout::Memory;
use model::model::{CompletionResult, Item, Str};
use std::ffi::c_void;

/// Blocks of source.c: a string, a list cell and a line.
#[repr(C)]
struct Text {
    header: usize,
    len: usize,
    at: [u8; 0],
}

#[repr(C)]
struct List {
    header: usize,
    head: *const Found,
    tail: *const List,
}

#[repr(C)]
struct Found {
    header: usize,
    match_length: i64,
    candidate: *const Text,
    annotation: *const Text,
    item: usize,
}

#[rustfmt::skip]
extern "C" {
    fn s_mark() -> *mut c_void;
    fn s_forget(mark: *mut c_void);
    fn s_load(words: *const u32, text: *const u8, records: u32, root: u32) -> *const c_void;
    fn s_insert(trie: *const c_void, host: *const u8, nhost: usize, id: *const u8, nid: usize, item: u64) -> *const c_void;
    fn s_find(trie: *const c_void, query: *const u8, n: usize, item: *mut u64) -> bool;
    fn s_complete(trie: *const c_void, query: *const u8, n: usize) -> *const List;
}

/// An item as one word: its kind above its number.
pub fn word_of(item: Item) -> u64 {
    u64::from(item.kind.number()) << 32 | u64::from(item.number)
}

fn item_of(word: u64) -> Item {
    Item::from_numbers((word >> 32) as u32, word as u32).expect("a kind")
}

/// A names root. All of them share an arena, so the last one made goes first.
pub struct Source {
    root: *const c_void,
    /// The arena before this one, and what a run may forget.
    begin: *mut c_void,
    mark: *mut c_void,
}

impl Drop for Source {
    fn drop(&mut self) {
        unsafe { s_forget(self.begin) }
    }
}

impl Source {
    /// The memory is sound.
    pub fn new(m: &Memory) -> Source {
        unsafe {
            let begin = s_mark();
            let root = s_load(m.words.as_ptr(), m.text.as_ptr(), m.header.records, m.header.names);
            Source { root, begin, mark: s_mark() }
        }
    }

    /// Begins a run: what earlier ones built is gone.
    pub fn begin(&self) -> Root {
        unsafe { s_forget(self.mark) }
        Root(self.root)
    }
}

/// A root, until the next run begins. Queries are well formed.
#[derive(Clone, Copy)]
pub struct Root(*const c_void);

impl Root {
    pub fn insert(self, host: &[u8], id: &[u8], item: Item) -> Root {
        Root(unsafe { s_insert(self.0, host.as_ptr(), host.len(), id.as_ptr(), id.len(), word_of(item)) })
    }

    pub fn find(self, query: &[u8]) -> Option<Item> {
        let mut item = 0;
        unsafe { s_find(self.0, query.as_ptr(), query.len(), &mut item) }.then(|| item_of(item))
    }

    /// Whether a completion has a line.
    pub fn complete(self, query: &[u8]) -> bool {
        unsafe { !s_complete(self.0, query.as_ptr(), query.len()).is_null() }
    }

    /// Its lines.
    pub fn lines(self, query: &[u8]) -> Vec<CompletionResult<Item>> {
        unsafe { lines(s_complete(self.0, query.as_ptr(), query.len())) }
    }
}

unsafe fn lines(mut at: *const List) -> Vec<CompletionResult<Item>> {
    let text = |t: *const Text| Str::from(unsafe { std::slice::from_raw_parts((*t).at.as_ptr(), (*t).len) });
    let mut all = Vec::new();
    while let Some(cell) = unsafe { at.as_ref() } {
        let f = unsafe { &*cell.head };
        let (candidate, annotation) = (text(f.candidate), text(f.annotation));
        all.push(CompletionResult { match_length: f.match_length as i32, item: item_of(f.item as u64), candidate, annotation });
        at = cell.tail;
    }
    all
}
