//! The product's calls, from the static library that `tools/build screen_tests` writes.
//! Nothing checks these declarations against crates/screen_tests: keep them few.
use model::layout::{Header, Memory};
use model::listings::{both, Shared};
use model::model::{Ask, CompletionResult, Filter, Item, ModSymbol, Registration, Str};

/// A registration's reply: 0 or the number of the refusal, and the header.
#[repr(C)]
pub struct Reply {
    pub refusal: u32,
    names: u32,
    modules: u32,
    records: u32,
    text: u32,
}

impl Reply {
    pub fn header(&self) -> Header {
        Header { names: self.names, modules: self.modules, records: self.records, text: self.text }
    }
}

/// The answer none.
const NONE: u32 = u32::MAX;

/// A look-up's reply: 0 for an item, NONE for none, else the number of the refusal; the item's kind and number.
#[repr(C)]
pub struct Looked {
    pub answer: u32,
    pub kind: u32,
    pub number: u32,
}

/// A completion's reply: 0 or the number of the refusal, lines and tries entered.
#[repr(C)]
pub struct Listing {
    answer: u32,
    lines: u32,
    entered: u32,
}

/// The same with the length that the candidates share.
#[repr(C)]
pub struct SharedListing {
    answer: u32,
    lines: u32,
    entered: u32,
    shared: u32,
}

type Words = *mut u32;
type Bytes = *const u8;

#[rustfmt::skip]
extern "C" {
    fn name_table_sound(words: *const u32, nwords: usize, text: Bytes, ntext: usize, names: u32, modules: u32, records: u32, used: u32) -> bool;
    fn name_table_insert(words: Words, nwords: usize, text: *mut u8, ntext: usize, names: u32, modules: u32, records: u32, used: u32,
        host: Bytes, nhost: usize, id: Bytes, nid: usize, kind: u32, number: u32) -> Reply;
    fn name_table_include(words: Words, nwords: usize, text: *mut u8, ntext: usize, names: u32, modules: u32, records: u32, used: u32,
        host: Bytes, nhost: usize, query: Bytes, nquery: usize) -> Reply;
    fn name_table_open_namespace(words: Words, nwords: usize, text: *mut u8, ntext: usize, names: u32, modules: u32, records: u32, used: u32,
        host: Bytes, nhost: usize, query: Bytes, nquery: usize) -> Reply;
    fn name_table_open_module(words: Words, nwords: usize, text: *mut u8, ntext: usize, names: u32, modules: u32, records: u32, used: u32,
        host: Bytes, nhost: usize, query: Bytes, nquery: usize) -> Reply;
    fn name_table_alias(words: Words, nwords: usize, text: *mut u8, ntext: usize, names: u32, modules: u32, records: u32, used: u32,
        key: Bytes, nkey: usize, host: Bytes, nhost: usize, query: Bytes, nquery: usize) -> Reply;
    fn name_table_module(words: Words, nwords: usize, text: *mut u8, ntext: usize, names: u32, modules: u32, records: u32, used: u32,
        loaded: bool, query: Bytes, nquery: usize, path: Bytes, npath: usize) -> Reply;
    fn name_table_find(words: *const u32, nwords: usize, text: Bytes, ntext: usize, names: u32, modules: u32, records: u32, used: u32,
        query: Bytes, nquery: usize) -> Looked;
    fn name_table_insert_sound(words: Words, nwords: usize, text: *mut u8, ntext: usize, names: u32, modules: u32, records: u32, used: u32,
        host: Bytes, nhost: usize, id: Bytes, nid: usize, kind: u32, number: u32) -> Reply;
    fn name_table_find_sound(words: *const u32, nwords: usize, text: Bytes, ntext: usize, names: u32, modules: u32, records: u32, used: u32,
        query: Bytes, nquery: usize) -> Looked;
    fn name_table_complete(words: *const u32, nwords: usize, text: Bytes, ntext: usize, names: u32, modules: u32, records: u32, used: u32,
        ask: u32, query: Bytes, nquery: usize, budget: u32, lines: *mut u8, nlines: usize, out: *mut u8, nout: usize) -> Listing;
    fn name_table_complete_sound(words: *const u32, nwords: usize, text: Bytes, ntext: usize, names: u32, modules: u32, records: u32, used: u32,
        ask: u32, query: Bytes, nquery: usize, budget: u32, lines: *mut u8, nlines: usize, out: *mut u8, nout: usize) -> Listing;
    fn name_table_complete_shared(words: *const u32, nwords: usize, text: Bytes, ntext: usize, names: u32, modules: u32, records: u32, used: u32,
        ask: u32, query: Bytes, nquery: usize, budget: u32, lines: *mut u8, nlines: usize, out: *mut u8, nout: usize) -> SharedListing;
    fn name_table_complete_shared_sound(words: *const u32, nwords: usize, text: Bytes, ntext: usize, names: u32, modules: u32, records: u32, used: u32,
        ask: u32, query: Bytes, nquery: usize, budget: u32, lines: *mut u8, nlines: usize, out: *mut u8, nout: usize) -> SharedListing;
}

/// The soundness test.
pub fn sound(m: &Memory) -> bool {
    let h = m.header;
    unsafe { name_table_sound(m.words.as_ptr(), m.words.len(), m.text.as_ptr(), m.text.len(), h.names, h.modules, h.records, h.text) }
}

/// A registration for whatever is lent: 0 if it is accepted, else the number of the refusal.
pub fn register(m: &mut Memory, call: &Registration) -> u32 {
    let h = m.header;
    let (w, nw, t, nt) = (m.words.as_mut_ptr(), m.words.len(), m.text.as_mut_ptr(), m.text.len());
    #[rustfmt::skip]
    let r = unsafe {
        match call {
            Registration::Name { host, id, item } => name_table_insert(w, nw, t, nt, h.names, h.modules, h.records, h.text,
                host.as_ptr(), host.len(), id.as_ptr(), id.len(), item.kind.number(), item.number),
            Registration::Include { host, included } => name_table_include(w, nw, t, nt, h.names, h.modules, h.records, h.text,
                host.as_ptr(), host.len(), included.as_ptr(), included.len()),
            Registration::OpenNamespace { host, included } => name_table_open_namespace(w, nw, t, nt, h.names, h.modules, h.records, h.text,
                host.as_ptr(), host.len(), included.as_ptr(), included.len()),
            Registration::OpenModule { host, included } => name_table_open_module(w, nw, t, nt, h.names, h.modules, h.records, h.text,
                host.as_ptr(), host.len(), included.as_ptr(), included.len()),
            Registration::Alias { key, host, included } => name_table_alias(w, nw, t, nt, h.names, h.modules, h.records, h.text,
                key.as_ptr(), key.len(), host.as_ptr(), host.len(), included.as_ptr(), included.len()),
            Registration::Module { loaded, query, path } => name_table_module(w, nw, t, nt, h.names, h.modules, h.records, h.text,
                *loaded, query.as_ptr(), query.len(), path.as_ptr(), path.len()),
        }
    };
    m.header = r.header();
    r.refusal
}

/// Look-up of a name for whatever is lent: the item or none, or the number of the refusal.
pub fn find(m: &Memory, query: &[u8]) -> Result<Option<Item>, u32> {
    let h = m.header;
    #[rustfmt::skip]
    let r = unsafe {
        name_table_find(m.words.as_ptr(), m.words.len(), m.text.as_ptr(), m.text.len(), h.names, h.modules, h.records, h.text,
            query.as_ptr(), query.len())
    };
    r.result()
}

impl Looked {
    pub fn result(&self) -> Result<Option<Item>, u32> {
        if self.answer == 0 {
            return Ok(Some(Item::from_numbers(self.kind, self.number).expect("a kind")));
        }
        assert_eq!((self.kind, self.number), (0, 0));
        if self.answer == NONE { Ok(None) } else { Err(self.answer) }
    }
}

/// A name registered in a memory that is sound, without the test.
///
/// # Safety
/// The memory is sound.
pub unsafe fn insert_sound(m: &mut Memory, host: &[u8], id: &[u8], item: Item) -> u32 {
    let h = m.header;
    #[rustfmt::skip]
    let r = name_table_insert_sound(m.words.as_mut_ptr(), m.words.len(), m.text.as_mut_ptr(), m.text.len(), h.names, h.modules, h.records, h.text,
        host.as_ptr(), host.len(), id.as_ptr(), id.len(), item.kind.number(), item.number);
    m.header = r.header();
    r.refusal
}

/// Look-up of a name in a memory that is sound, without the test.
///
/// # Safety
/// The memory is sound.
pub unsafe fn find_sound(m: &Memory, query: &[u8]) -> Result<Option<Item>, u32> {
    let h = m.header;
    #[rustfmt::skip]
    let r = name_table_find_sound(m.words.as_ptr(), m.words.len(), m.text.as_ptr(), m.text.len(), h.names, h.modules, h.records, h.text,
        query.as_ptr(), query.len());
    r.result()
}

/// What a completion asks, by its number.
fn number(ask: Ask) -> u32 {
    match ask {
        Ask::Names(None) => 0,
        Ask::Names(Some(kind)) => kind.number(),
        Ask::Modules(Filter::All) => 4,
        Ask::Modules(Filter::Loaded) => 5,
        Ask::Modules(Filter::ModulesOnly) => 6,
        Ask::Modules(Filter::NamespacesOnly) => 7,
    }
}

/// The output lent for a completion.
#[derive(Clone, PartialEq)]
pub struct Output {
    pub lines: Vec<u8>,
    pub text: Vec<u8>,
}

impl Listing {
    pub fn result(&self) -> Result<(u32, u32), u32> {
        match self.answer {
            0 => Ok((self.lines, self.entered)),
            n => Err(n),
        }
    }
}

impl SharedListing {
    pub fn result(&self) -> Shared {
        match self.answer {
            0 => Ok((self.lines, self.entered, self.shared)),
            n => {
                assert_eq!((self.lines, self.entered, self.shared), (0, 0, 0));
                Err(n)
            }
        }
    }
}

/// A completion for whatever is lent: lines and tries entered, or the number of the refusal.
pub fn complete(m: &Memory, ask: Ask, query: &[u8], budget: u32, out: &mut Output) -> Result<(u32, u32), u32> {
    let h = m.header;
    #[rustfmt::skip]
    let r = unsafe {
        name_table_complete(m.words.as_ptr(), m.words.len(), m.text.as_ptr(), m.text.len(), h.names, h.modules, h.records, h.text,
            number(ask), query.as_ptr(), query.len(), budget, out.lines.as_mut_ptr(), out.lines.len(), out.text.as_mut_ptr(), out.text.len())
    };
    r.result()
}

/// A completion in a memory that is sound, without the test.
///
/// # Safety
/// The memory is sound.
pub unsafe fn complete_sound(m: &Memory, ask: Ask, query: &[u8], budget: u32, out: &mut Output) -> Result<(u32, u32), u32> {
    let h = m.header;
    #[rustfmt::skip]
    let r = name_table_complete_sound(m.words.as_ptr(), m.words.len(), m.text.as_ptr(), m.text.len(), h.names, h.modules, h.records, h.text,
        number(ask), query.as_ptr(), query.len(), budget, out.lines.as_mut_ptr(), out.lines.len(), out.text.as_mut_ptr(), out.text.len());
    r.result()
}

/// A completion with its shared length, for whatever is lent.
pub fn complete_shared(m: &Memory, ask: Ask, query: &[u8], budget: u32, out: &mut Output) -> Shared {
    let h = m.header;
    #[rustfmt::skip]
    let r = unsafe {
        name_table_complete_shared(m.words.as_ptr(), m.words.len(), m.text.as_ptr(), m.text.len(), h.names, h.modules, h.records, h.text,
            number(ask), query.as_ptr(), query.len(), budget, out.lines.as_mut_ptr(), out.lines.len(), out.text.as_mut_ptr(), out.text.len())
    };
    r.result()
}

/// A completion with its shared length in a memory that is sound, without the test.
///
/// # Safety
/// The memory is sound.
pub unsafe fn complete_shared_sound(m: &Memory, ask: Ask, query: &[u8], budget: u32, out: &mut Output) -> Shared {
    let h = m.header;
    #[rustfmt::skip]
    let r = name_table_complete_shared_sound(m.words.as_ptr(), m.words.len(), m.text.as_ptr(), m.text.len(), h.names, h.modules, h.records, h.text,
        number(ask), query.as_ptr(), query.len(), budget, out.lines.as_mut_ptr(), out.lines.len(), out.text.as_mut_ptr(), out.text.len());
    r.result()
}

/// Both completions for whatever is lent, held to each other.
pub fn complete_both(m: &Memory, ask: Ask, query: &[u8], budget: u32, out: &mut Output) -> Shared {
    let plain = |o: &mut Output| complete(m, ask, query, budget, o);
    both(&(ask, query, budget), out, plain, |o| complete_shared(m, ask, query, budget, o))
}

/// The same in a memory that is sound, without the test.
///
/// # Safety
/// The memory is sound.
pub unsafe fn complete_both_sound(m: &Memory, ask: Ask, query: &[u8], budget: u32, out: &mut Output) -> Shared {
    let plain = |o: &mut Output| complete_sound(m, ask, query, budget, o);
    both(&(ask, query, budget), out, plain, |o| complete_shared_sound(m, ask, query, budget, o))
}

impl Output {
    /// Room for so many lines and bytes, filled with what a call must leave where it writes nothing.
    pub fn with_room(lines: usize, bytes: usize) -> Output {
        Output { lines: vec![0xA5; lines * 48], text: vec![0x5A; bytes] }
    }

    /// The twelve words of line `k`, each four bytes, lowest first.
    pub fn words(&self, k: usize) -> [u32; 12] {
        std::array::from_fn(|i| u32::from_le_bytes(self.lines[k * 48 + i * 4..][..4].try_into().unwrap()))
    }

    /// Line `k`, its item read by `item` from the twelve words.
    pub fn line<A>(&self, k: usize, item: impl Fn(&[u32]) -> A) -> CompletionResult<A> {
        let w = &self.words(k)[..];
        let part = |start: u32, len: u32| Str::from(&self.text[start as usize..(start + len) as usize]);
        CompletionResult { match_length: w[0] as i32, item: item(w), candidate: part(w[1], w[2]), annotation: part(w[3], w[4]) }
    }
}

/// The item in a line's words.
pub fn item(w: &[u32]) -> Item {
    Item::from_numbers(w[6], w[5]).expect("a kind")
}

/// The mod symbol in a line's words.
pub fn symbol(text: &[u8], w: &[u32]) -> ModSymbol {
    let part = |start: u32, len: u32| Str::from(&text[start as usize..(start + len) as usize]);
    match w[5] {
        0 => ModSymbol::Module { mod_name: part(w[6], w[7]), mod_path: part(w[8], w[9]), mod_loaded: w[10] == 1 },
        _ => ModSymbol::Namespace { ns_name: part(w[6], w[7]), ns_loaded: w[10] == 1 },
    }
}
