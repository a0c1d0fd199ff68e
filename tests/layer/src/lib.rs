//! The C layer's calls (bindings/rust) on the independent implementation's terms.
use model::layout::{Header, Memory};
use model::listings::{both, Shared};
use model::model::{Ask, CompletionResult, Filter, Item, Kind, ModSymbol, Registration, Str};
use name_console::{bytes as calls, sys};

/// A table as bytes.
#[derive(Clone, PartialEq)]
pub struct Bytes {
    pub state: Vec<u8>,
    pub words: Vec<u8>,
    pub text: Vec<u8>,
}

fn bytes(words: &[u32]) -> Vec<u8> {
    words.iter().flat_map(|w| w.to_le_bytes()).collect()
}

fn words(bytes: &[u8]) -> Vec<u32> {
    bytes.chunks_exact(4).map(|b| u32::from_le_bytes(b.try_into().unwrap())).collect()
}

impl Bytes {
    pub fn of(m: &Memory) -> Bytes {
        let h = m.header;
        Bytes { state: bytes(&[h.names, h.modules, h.records, h.text]), words: bytes(&m.words), text: m.text.clone() }
    }

    /// What the layer counts as lent: whole records, at most 1,024. None where the state is no state.
    pub fn memory(&self) -> Option<Memory> {
        let h: [u32; 4] = words(&self.state).try_into().ok().filter(|_| self.state.len() == 16)?;
        let records = (self.words.len() / 48).min(1024);
        let header = Header { names: h[0], modules: h[1], records: h[2], text: h[3] };
        Some(Memory { words: words(&self.words[..records * 48]), text: self.text.clone(), header })
    }

    /// Puts the bytes in a memory of the same size.
    pub fn put_in(&self, m: &mut Memory) {
        let h = words(&self.state);
        m.header = Header { names: h[0], modules: h[1], records: h[2], text: h[3] };
        m.words.copy_from_slice(&words(&self.words));
        m.text.copy_from_slice(&self.text);
    }
}

/// The number of the choice that a registration has: a kind, or a yes or no.
pub fn choice(call: &Registration) -> Option<u32> {
    match call {
        Registration::Name { item, .. } => Some(item.kind.number()),
        Registration::Module { loaded, .. } => Some(*loaded as u32),
        _ => None,
    }
}

/// A registration; `odd` in the place of its choice, where it has one.
pub fn register(t: &mut Bytes, call: &Registration, odd: Option<u32>) -> u32 {
    let (s, w, x) = (&mut t.state[..], &mut t.words[..], &mut t.text[..]);
    let choice = odd.or(choice(call)).unwrap_or(0);
    match call {
        Registration::Name { host, id, item } => calls::insert_item(s, w, x, host, id, choice, item.number),
        Registration::Include { host, included } => calls::include(s, w, x, host, included),
        Registration::OpenNamespace { host, included } => calls::open_namespace(s, w, x, host, included),
        Registration::OpenModule { host, included } => calls::open_module(s, w, x, host, included),
        Registration::Alias { key, host, included } => calls::alias(s, w, x, key, host, included),
        Registration::Module { query, path, .. } => calls::module(s, w, x, choice, query, path),
    }
}

/// The calls, each accepted, on a fresh table of 100 records and 100 bytes.
pub fn made(calls: &[Registration]) -> Bytes {
    let mut t = Bytes::of(&Memory::with_room(100, 100));
    calls.iter().for_each(|c| assert_eq!(register(&mut t, c, None), 0, "{c:?}"));
    t
}

pub fn find(t: &Bytes, q: &[u8]) -> Result<Option<Item>, u32> {
    let r = calls::find_item(&t.state, &t.words, &t.text, q);
    if r.answer == 0 {
        return Ok(Some(Item::from_numbers(r.kind, r.number).expect("a kind")));
    }
    assert_eq!((r.kind, r.number), (0, 0));
    if r.answer == sys::NONE { Ok(None) } else { Err(r.answer) }
}

fn part(text: &[u8], span: [u32; 2]) -> Str {
    Str::from(&text[span[0] as usize..(span[0] + span[1]) as usize])
}

fn symbol(text: &[u8], sort: u32, name: [u32; 2], path: [u32; 2], loaded: u32) -> ModSymbol {
    match sort {
        0 => ModSymbol::Module { mod_name: part(text, name), mod_path: part(text, path), mod_loaded: loaded == 1 },
        _ => ModSymbol::Namespace { ns_name: part(text, name), ns_loaded: loaded == 1 },
    }
}

pub fn find_module(t: &Bytes, q: &[u8]) -> Result<Option<ModSymbol>, u32> {
    let r = calls::find_module(&t.state, &t.words, &t.text, q);
    match r.answer {
        0 => Ok(Some(symbol(&t.text, r.sort, [r.name_start, r.name_len], [r.path_start, r.path_len], r.loaded))),
        sys::NONE => Ok(None),
        n => Err(n),
    }
}

/// The output lent: lines as bytes, 48 to a line, and text.
#[derive(Clone, PartialEq)]
pub struct Output {
    pub lines: Vec<u8>,
    pub text: Vec<u8>,
}

/// What a completion asks for, by the number of a kind or of a filter. It may stand for none.
#[derive(Clone, Copy, Debug)]
pub enum Asked {
    Names(u32),
    Modules(u32),
}

impl From<Ask> for Asked {
    fn from(ask: Ask) -> Asked {
        match ask {
            Ask::Names(kind) => Asked::Names(kind.map_or(0, Kind::number)),
            Ask::Modules(Filter::All) => Asked::Modules(0),
            Ask::Modules(Filter::Loaded) => Asked::Modules(1),
            Ask::Modules(Filter::ModulesOnly) => Asked::Modules(2),
            Ask::Modules(Filter::NamespacesOnly) => Asked::Modules(3),
        }
    }
}

/// A completion.
pub fn complete(t: &Bytes, asked: impl Into<Asked>, q: &[u8], budget: u32, out: &mut Output) -> Result<(u32, u32), u32> {
    let (lines, text) = (&mut out.lines, &mut out.text);
    let r = match asked.into() {
        Asked::Names(kind) => calls::complete_names(&t.state, &t.words, &t.text, kind, q, budget, lines, text),
        Asked::Modules(f) => calls::complete_modules(&t.state, &t.words, &t.text, f, q, budget, lines, text),
    };
    match r.answer {
        0 => Ok((r.lines, r.entered)),
        n => {
            assert_eq!((r.lines, r.entered), (0, 0));
            Err(n)
        }
    }
}

/// The same with its shared length.
pub fn complete_shared(t: &Bytes, asked: impl Into<Asked>, q: &[u8], budget: u32, out: &mut Output) -> Shared {
    let (lines, text) = (&mut out.lines, &mut out.text);
    let r = match asked.into() {
        Asked::Names(kind) => calls::complete_names_shared(&t.state, &t.words, &t.text, kind, q, budget, lines, text),
        Asked::Modules(f) => calls::complete_modules_shared(&t.state, &t.words, &t.text, f, q, budget, lines, text),
    };
    match r.answer {
        0 => Ok((r.lines, r.entered, r.shared)),
        n => {
            assert_eq!((r.lines, r.entered, r.shared), (0, 0, 0));
            Err(n)
        }
    }
}

/// Both, held to each other.
pub fn complete_both(t: &Bytes, asked: impl Into<Asked>, q: &[u8], budget: u32, out: &mut Output) -> Shared {
    let asked = asked.into();
    let plain = |o: &mut Output| complete(t, asked, q, budget, o);
    both(&(asked, q, budget), out, plain, |o| complete_shared(t, asked, q, budget, o))
}

impl Output {
    pub fn with_room(lines: usize, text: usize) -> Output {
        Output { lines: vec![0xC3; lines * 48], text: vec![0x3C; text] }
    }

    /// The words of line `k`.
    pub fn words(&self, k: usize) -> Vec<u32> {
        words(&self.lines[k * 48..k * 48 + 48])
    }

    /// Line `k` of a completion of names.
    pub fn name(&self, k: usize) -> CompletionResult<Item> {
        self.line(k, |w| Item::from_numbers(w[6], w[5]).expect("a kind"))
    }

    /// Line `k` of a completion of modules, its texts in the table's text.
    pub fn module(&self, table: &[u8], k: usize) -> CompletionResult<ModSymbol> {
        self.line(k, |w| symbol(table, w[5], [w[6], w[7]], [w[8], w[9]], w[10]))
    }

    /// Line `k`, its item read from its words.
    fn line<A>(&self, k: usize, item: impl Fn(&[u32]) -> A) -> CompletionResult<A> {
        let w = self.words(k);
        CompletionResult { match_length: w[0] as i32, item: item(&w), candidate: part(&self.text, [w[1], w[2]]), annotation: part(&self.text, [w[3], w[4]]) }
    }
}
