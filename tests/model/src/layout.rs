//! The record memory: *Sound*, decoding into model tables, and an encoder
//! that registers by path copying.
//!
//! Twelve words a record. Link 0 is none, link l is record l - 1. Kinds 1 to
//! 5 are the names table's, 6 to 10 the module table's:
//!
//! | word | bindings branch 1/6 | namespaces branch 2/7 | collection 3,4/8,9 | trie 5/10 |
//! |---|---|---|---|---|
//! | 0 | kind | kind | kind (3/8 bindings, 4/9 namespaces) | kind |
//! | 1, 2 | key | key | label, if imported | |
//! | 3, 4 | left, right | left, right | tree or own list, rest | bindings, namespaces |
//! | 5 | item's number; modules: 0 Module, 1 Namespace | trie | 0 tree, 1 imported | |
//! | 6 | item's kind | | | |
//! | 6, 7 | modules: full name | | | |
//! | 8, 9 | modules: path, of a Module | | | |
//! | 10 | modules: loaded | | weight | |
//! | 11 | | depth | depth (4/9) | depth |

use crate::model::{self, *};
use std::collections::HashSet;
use std::rc::Rc;

pub type Record = [u32; WORDS_A_RECORD];

pub const BINDINGS_BRANCH: u32 = 1;
pub const NAMESPACES_BRANCH: u32 = 2;
pub const BINDINGS_LIST: u32 = 3;
pub const NAMESPACES_LIST: u32 = 4;
pub const TRIE: u32 = 5;
/// Added to a kind of the names table, it gives that of the module table.
pub const MODULES: u32 = 5;

/// The table by value.
#[derive(Clone, Copy, Debug, Default, PartialEq, Eq)]
pub struct Header {
    pub names: u32,
    pub modules: u32,
    pub records: u32,
    pub text: u32,
}

/// Lent words and text with their header.
#[derive(Clone, Debug, PartialEq, Eq)]
pub struct Memory {
    pub words: Vec<u32>,
    pub text: Vec<u8>,
    pub header: Header,
}

/// The record's words. The record is used.
pub fn record(words: &[u32], number: usize) -> Record {
    let at = number * WORDS_A_RECORD;
    words[at..at + WORDS_A_RECORD].try_into().unwrap()
}

// ----------------------------------------------------------------- Sound

/// *Sound* of the requirements, over whatever is lent.
pub fn sound(
    words: &[u32],
    text: &[u8],
    names: u32,
    modules: u32,
    records: u32,
    text_used: u32,
) -> bool {
    let records = records as usize;
    let text_used = text_used as usize;
    if records > MOST_RECORDS || records * WORDS_A_RECORD > words.len() {
        return false;
    }
    if text_used > MOST_TEXT || text_used > text.len() {
        return false;
    }
    let mut looked = Looked {
        words,
        text: &text[..text_used],
        records: 0,
        least: Vec::new(),
        greatest: Vec::new(),
    };
    while looked.records < records {
        if !looked.next_is_sound() {
            return false;
        }
        looked.records += 1;
    }
    looked.is_link(names, TRIE) && looked.is_link(modules, TRIE + MODULES)
}

/// The records that were looked at and found sound. Their stored weights and
/// depths are the defined ones.
struct Looked<'a> {
    words: &'a [u32],
    text: &'a [u8],
    records: usize,
    /// For a branch, the number of the record with the least key of the tree
    /// that begins there. For other records it means nothing.
    least: Vec<usize>,
    /// The same for the greatest key.
    greatest: Vec<usize>,
}

impl<'a> Looked<'a> {
    fn word(&self, number: usize, word: usize) -> u32 {
        self.words[number * WORDS_A_RECORD + word]
    }

    /// None, or a record looked at of this kind.
    fn is_link(&self, link: u32, kind: u32) -> bool {
        link == 0 || (link as usize <= self.records && self.word(link as usize - 1, 0) == kind)
    }

    /// A word of the record that a link leads to; 0 for none.
    fn word_at(&self, link: u32, word: usize) -> u32 {
        if link == 0 {
            0
        } else {
            self.word(link as usize - 1, word)
        }
    }

    /// The text of a span, if it is in the used part.
    fn text_of(&self, start: u32, length: u32) -> Option<&'a [u8]> {
        let end = u64::from(start) + u64::from(length);
        if end > self.text.len() as u64 {
            return None;
        }
        Some(&self.text[start as usize..end as usize])
    }

    fn text_keeps(
        &self,
        start: u32,
        length: u32,
        least: usize,
        most: usize,
        allowed: fn(u8) -> bool,
    ) -> bool {
        match self.text_of(start, length) {
            None => false,
            Some(text) => (least..=most).contains(&text.len()) && text.iter().all(|&b| allowed(b)),
        }
    }

    fn key(&self, number: usize) -> &'a [u8] {
        self.text_of(self.word(number, 1), self.word(number, 2)).unwrap()
    }

    /// Looks at the record after those looked at.
    fn next_is_sound(&mut self) -> bool {
        let number = self.records;
        // A branch replaces these below.
        self.least.push(number);
        self.greatest.push(number);
        let kind = self.word(number, 0);
        match kind {
            1 | 6 => self.branch_is_sound(number) && self.item_is_sound(number),
            2 | 7 => self.branch_is_sound(number) && self.namespace_is_sound(number),
            3 | 4 | 8 | 9 => self.collection_is_sound(number),
            5 | 10 => self.trie_is_sound(number),
            _ => false,
        }
    }

    /// Key and sides of a branch.
    fn branch_is_sound(&mut self, number: usize) -> bool {
        let [kind, start, length, left, right, ..] = record(self.words, number);
        if !self.text_keeps(start, length, 1, MOST_NAME, is_name_byte) {
            return false;
        }
        if !self.is_link(left, kind) || !self.is_link(right, kind) {
            return false;
        }
        if left != 0 {
            let left = left as usize - 1;
            if string_compare(self.key(self.greatest[left]), self.key(number)) >= 0 {
                return false;
            }
            self.least[number] = self.least[left];
        }
        if right != 0 {
            let right = right as usize - 1;
            if string_compare(self.key(number), self.key(self.least[right])) >= 0 {
                return false;
            }
            self.greatest[number] = self.greatest[right];
        }
        true
    }

    /// What a bindings branch holds. An item may have any number.
    fn item_is_sound(&self, number: usize) -> bool {
        let r = record(self.words, number);
        if r[0] == BINDINGS_BRANCH {
            return Kind::from_number(r[6]).is_some();
        }
        let (sort, loaded) = (r[5], r[10]);
        sort <= 1
            && loaded <= 1
            && self.text_keeps(r[6], r[7], 1, MOST_FULL_NAME, is_full_name_byte)
            && (sort == 1 || self.text_keeps(r[8], r[9], 0, MOST_PATH, is_path_byte))
    }

    /// What a namespaces branch holds, and its depth.
    fn namespace_is_sound(&self, number: usize) -> bool {
        let [kind, _, _, left, right, trie, .., depth] = record(self.words, number);
        self.is_link(trie, kind + (TRIE - NAMESPACES_BRANCH))
            && depth
                == (1 + self.word_at(trie, 11))
                    .max(self.word_at(left, 11))
                    .max(self.word_at(right, 11))
    }

    fn collection_is_sound(&self, number: usize) -> bool {
        let [kind, start, length, first, rest, sort, _, _, _, _, weight, depth] =
            record(self.words, number);
        let is_namespaces = kind == NAMESPACES_LIST || kind == NAMESPACES_LIST + MODULES;
        let first_kind = match sort {
            0 => kind - (BINDINGS_LIST - BINDINGS_BRANCH),
            1 => kind,
            _ => return false,
        };
        if sort == 1 && !self.text_keeps(start, length, 0, MOST_FULL_NAME, is_full_name_byte) {
            return false;
        }
        if !self.is_link(first, first_kind) || !self.is_link(rest, kind) {
            return false;
        }
        let own_weight = if sort == 1 { self.word_at(first, 10) } else { 0 };
        weight == 1 + own_weight + self.word_at(rest, 10)
            && weight <= MOST_WEIGHT
            && (!is_namespaces || depth == self.word_at(first, 11).max(self.word_at(rest, 11)))
    }

    fn trie_is_sound(&self, number: usize) -> bool {
        let [kind, _, _, bindings, namespaces, .., depth] = record(self.words, number);
        self.is_link(bindings, kind - (TRIE - BINDINGS_LIST))
            && self.is_link(namespaces, kind - (TRIE - NAMESPACES_LIST))
            && depth == self.word_at(namespaces, 11)
            && depth <= MOST_DEPTH
    }
}

/// A byte of a label or a full name.
pub fn is_full_name_byte(b: u8) -> bool {
    is_name_byte(b) || b == DOT
}

// -------------------------------------------------------------- decoding

/// What a used record means, read as a record of one of the two tables.
pub enum Meaning<A> {
    Bindings(Tree<A>),
    Namespaces(Tree<Trie<A>>),
    BindingsList(Names<A>),
    NamespacesList(Names<Trie<A>>),
    Trie(Trie<A>),
    /// Of no known kind, or of the other table.
    Other,
}

impl<A> Meaning<A> {
    fn bindings(&self) -> Tree<A> {
        match self {
            Meaning::Bindings(it) => it.clone(),
            _ => None,
        }
    }

    fn namespaces(&self) -> Tree<Trie<A>> {
        match self {
            Meaning::Namespaces(it) => it.clone(),
            _ => None,
        }
    }

    fn bindings_list(&self) -> Names<A> {
        match self {
            Meaning::BindingsList(it) => it.clone(),
            _ => None,
        }
    }

    fn namespaces_list(&self) -> Names<Trie<A>> {
        match self {
            Meaning::NamespacesList(it) => it.clone(),
            _ => None,
        }
    }

    fn trie(&self) -> Trie<A> {
        match self {
            Meaning::Trie(it) => it.clone(),
            _ => None,
        }
    }
}

/// The text of a span; empty if it is not in the text.
pub fn text_at(text: &[u8], start: u32, length: u32) -> Str {
    let start = start as usize;
    match text.get(start..start.saturating_add(length as usize)) {
        Some(part) => part.into(),
        None => Str::from(&b""[..]),
    }
}

/// The meaning of each used record, in order. Any memory whose used words
/// are lent can be read: a link that is not earlier or not of the wanted
/// kind reads as none. `base` is 0 or `MODULES`.
pub fn meanings<A: Value>(
    memory: &Memory,
    base: u32,
    item: &dyn Fn(&Record, &[u8]) -> A,
) -> Vec<Meaning<A>> {
    let text = &memory.text;
    let mut all: Vec<Meaning<A>> = Vec::new();
    // Decoding builds nothing that counts.
    let built = &mut Built::default();
    for number in 0..memory.header.records as usize {
        let r = record(&memory.words, number);
        let none = Meaning::Other;
        let earlier = |link: u32| -> &Meaning<A> {
            match link {
                0 => &none,
                l => all.get(l as usize - 1).unwrap_or(&none),
            }
        };
        let key = || text_at(text, r[1], r[2]);
        let meaning = match r[0].wrapping_sub(base) {
            BINDINGS_BRANCH => {
                let (left, right) = (earlier(r[3]).bindings(), earlier(r[4]).bindings());
                Meaning::Bindings(branch(built, key(), item(&r, text), left, right))
            }
            NAMESPACES_BRANCH => {
                let (left, right) = (earlier(r[3]).namespaces(), earlier(r[4]).namespaces());
                Meaning::Namespaces(branch(built, key(), earlier(r[5]).trie(), left, right))
            }
            BINDINGS_LIST => {
                let first = match r[5] {
                    0 => Collection::Names(earlier(r[3]).bindings()),
                    _ => Collection::ImportedNames(key(), earlier(r[3]).bindings_list()),
                };
                Meaning::BindingsList(put(built, first, earlier(r[4]).bindings_list()))
            }
            NAMESPACES_LIST => {
                let first = match r[5] {
                    0 => Collection::Names(earlier(r[3]).namespaces()),
                    _ => Collection::ImportedNames(key(), earlier(r[3]).namespaces_list()),
                };
                Meaning::NamespacesList(put(built, first, earlier(r[4]).namespaces_list()))
            }
            TRIE => {
                let (b, n) = (earlier(r[3]).bindings_list(), earlier(r[4]).namespaces_list());
                Meaning::Trie(trie_record(built, b, n))
            }
            _ => Meaning::Other,
        };
        all.push(meaning);
    }
    all
}

/// The item of a names branch. A kind that is none, which is not sound, reads
/// as Register.
pub fn item_of(r: &Record, _text: &[u8]) -> Item {
    Item::from_numbers(r[6], r[5]).unwrap_or(Item::register(r[5]))
}

/// The item of a module branch.
pub fn symbol_of(r: &Record, text: &[u8]) -> ModSymbol {
    let name = text_at(text, r[6], r[7]);
    if r[5] == 0 {
        let mod_path = text_at(text, r[8], r[9]);
        ModSymbol::Module { mod_name: name, mod_path, mod_loaded: r[10] != 0 }
    } else {
        ModSymbol::Namespace { ns_name: name, ns_loaded: r[10] != 0 }
    }
}

/// The model table that a memory means.
pub fn decode(memory: &Memory) -> Table {
    let header = memory.header;
    let names = meanings(memory, 0, &item_of);
    let modules = meanings(memory, MODULES, &symbol_of);
    Table {
        names: names.get((header.names as usize).wrapping_sub(1)).and_then(Meaning::trie),
        modules: modules.get((header.modules as usize).wrapping_sub(1)).and_then(Meaning::trie),
        records: header.records,
        text: header.text,
    }
}

// ------------------------------------------------------- equality of tables

/// Pairs of records that were found equal.
type Equal = HashSet<(usize, usize)>;

/// Values that can be compared, tries included.
pub trait Same {
    fn same(&self, other: &Self, equal: &mut Equal) -> bool;
}

impl Same for Item {
    fn same(&self, other: &Self, _: &mut Equal) -> bool {
        self == other
    }
}

impl Same for ModSymbol {
    fn same(&self, other: &Self, _: &mut Equal) -> bool {
        self == other
    }
}

/// An absent trie and a trie record without collections are the same value.
impl<A: Same> Same for Trie<A> {
    fn same(&self, other: &Self, equal: &mut Equal) -> bool {
        same_names(&bindings(self), &bindings(other), equal)
            && same_names(&namespaces(self), &namespaces(other), equal)
    }
}

fn same_names<V: Same>(a: &Names<V>, b: &Names<V>, equal: &mut Equal) -> bool {
    let (a, b) = match (a, b) {
        (None, None) => return true,
        (Some(a), Some(b)) => (a, b),
        _ => return false,
    };
    let pair = (Rc::as_ptr(a) as usize, Rc::as_ptr(b) as usize);
    if equal.contains(&pair) {
        return true;
    }
    let first = match (&a.first, &b.first) {
        (Collection::Names(s), Collection::Names(t)) => same_tree(s, t, equal),
        (Collection::ImportedNames(l, s), Collection::ImportedNames(m, t)) => {
            l == m && same_names(s, t, equal)
        }
        _ => false,
    };
    let same = first && same_names(&a.rest, &b.rest, equal);
    if same {
        equal.insert(pair);
    }
    same
}

fn same_tree<V: Same>(a: &Tree<V>, b: &Tree<V>, equal: &mut Equal) -> bool {
    let (a, b) = match (a, b) {
        (None, None) => return true,
        (Some(a), Some(b)) => (a, b),
        _ => return false,
    };
    let pair = (Rc::as_ptr(a) as usize, Rc::as_ptr(b) as usize);
    if equal.contains(&pair) {
        return true;
    }
    let same = a.key == b.key
        && a.value.same(&b.value, equal)
        && same_tree(&a.left, &b.left, equal)
        && same_tree(&a.right, &b.right, equal);
    if same {
        equal.insert(pair);
    }
    same
}

/// The same roots, as values of the source, and the same use of records and
/// text.
pub fn same_table(a: &Table, b: &Table) -> bool {
    let equal = &mut Equal::new();
    a.records == b.records
        && a.text == b.text
        && a.names.same(&b.names, equal)
        && a.modules.same(&b.modules, equal)
}

// --------------------------------------------------------------- encoder

/// A start and a length in the table's text.
#[derive(Clone, Copy, Debug)]
struct Text {
    start: u32,
    length: u32,
}

/// What a registration does where the host's path ends, or on the way.
enum Change {
    Name { id: Text, item: Item },
    Include { label: Text, list: u32 },
    Open { label: Text, list: u32 },
    Alias { key: Text, label: Text, list: u32 },
    Module { loaded: bool, path: Text },
}

impl Memory {
    /// A fresh table over lent words and text with arbitrary content.
    pub fn fresh(words: Vec<u32>, text: Vec<u8>) -> Memory {
        Memory { words, text, header: Header::default() }
    }

    /// A fresh table with room for so many records and bytes.
    pub fn with_room(records: usize, text: usize) -> Memory {
        Memory::fresh(vec![0; records * WORDS_A_RECORD], vec![0; text])
    }

    pub fn is_sound(&self) -> bool {
        let h = self.header;
        sound(&self.words, &self.text, h.names, h.modules, h.records, h.text)
    }

    pub fn lent(&self) -> Lent {
        Lent { words: self.words.len(), text: self.text.len() }
    }

    fn of(&self, link: u32) -> Record {
        assert!(link != 0);
        record(&self.words, link as usize - 1)
    }

    fn word_of(&self, link: u32, word: usize) -> u32 {
        if link == 0 {
            0
        } else {
            self.of(link)[word]
        }
    }

    fn bytes(&self, at: Text) -> &[u8] {
        &self.text[at.start as usize..(at.start + at.length) as usize]
    }

    fn append(&mut self, r: Record) -> u32 {
        let at = self.header.records as usize * WORDS_A_RECORD;
        self.words[at..at + WORDS_A_RECORD].copy_from_slice(&r);
        self.header.records += 1;
        self.header.records
    }

    fn lay(&mut self, text: &[u8]) -> Text {
        let start = self.header.text as usize;
        self.text[start..start + text.len()].copy_from_slice(text);
        self.header.text += text.len() as u32;
        Text { start: start as u32, length: text.len() as u32 }
    }

    /// The segments of a query that was laid.
    fn segments(&self, query: Text) -> Vec<Text> {
        let mut all = Vec::new();
        let mut start = query.start;
        for at in query.start..query.start + query.length {
            if self.text[at as usize] == DOT {
                all.push(Text { start, length: at - start });
                start = at + 1;
            }
        }
        all
    }

    /// Appends a branch; a namespaces branch gets its depth.
    fn branch(&mut self, mut r: Record) -> u32 {
        if r[0] == NAMESPACES_BRANCH || r[0] == NAMESPACES_BRANCH + MODULES {
            r[11] = (1 + self.word_of(r[5], 11))
                .max(self.word_of(r[3], 11))
                .max(self.word_of(r[4], 11));
        }
        self.append(r)
    }

    /// `value` goes to the words 5 to 10.
    fn tree_insert(&mut self, kind: u32, tree: u32, key: Text, value: [u32; 6]) -> u32 {
        let mut r: Record;
        if tree == 0 {
            r = [kind, key.start, key.length, 0, 0, 0, 0, 0, 0, 0, 0, 0];
            r[5..11].copy_from_slice(&value);
        } else {
            r = self.of(tree);
            let here = Text { start: r[1], length: r[2] };
            match string_compare(self.bytes(key), self.bytes(here)) {
                0 => r[5..11].copy_from_slice(&value),
                c if c < 0 => r[3] = self.tree_insert(kind, r[3], key, value),
                _ => r[4] = self.tree_insert(kind, r[4], key, value),
            }
        }
        self.branch(r)
    }

    /// Puts a collection in front of a list: a tree, or an imported list
    /// with its label.
    fn put(&mut self, kind: u32, label: Option<Text>, first: u32, rest: u32) -> u32 {
        let own_weight = if label.is_some() { self.word_of(first, 10) } else { 0 };
        let mut r: Record = [0; WORDS_A_RECORD];
        r[0] = kind;
        if let Some(label) = label {
            (r[1], r[2], r[5]) = (label.start, label.length, 1);
        }
        (r[3], r[4]) = (first, rest);
        r[10] = 1 + own_weight + self.word_of(rest, 10);
        if kind == NAMESPACES_LIST || kind == NAMESPACES_LIST + MODULES {
            r[11] = self.word_of(first, 11).max(self.word_of(rest, 11));
        }
        self.append(r)
    }

    /// `kind` is that of the list.
    fn names_insert(&mut self, kind: u32, list: u32, key: Text, value: [u32; 6]) -> u32 {
        let (tree, rest) = match list {
            0 => (0, 0),
            _ if self.of(list)[5] == 0 => (self.of(list)[3], self.of(list)[4]),
            _ => (0, list),
        };
        let tree = self.tree_insert(kind - (BINDINGS_LIST - BINDINGS_BRANCH), tree, key, value);
        self.put(kind, None, tree, rest)
    }

    fn trie(&mut self, base: u32, bindings: u32, namespaces: u32) -> u32 {
        let mut r: Record = [0; WORDS_A_RECORD];
        (r[0], r[3], r[4]) = (TRIE + base, bindings, namespaces);
        r[11] = self.word_of(namespaces, 11);
        self.append(r)
    }

    /// The branch of the first holder of a key.
    fn names_find(&self, list: u32, key: Text) -> Option<Record> {
        let mut list = list;
        while list != 0 {
            let place = self.of(list);
            let found = if place[5] == 0 {
                self.tree_find(place[3], key)
            } else {
                self.names_find(place[3], key)
            };
            if found.is_some() {
                return found;
            }
            list = place[4];
        }
        None
    }

    fn tree_find(&self, tree: u32, key: Text) -> Option<Record> {
        let mut tree = tree;
        while tree != 0 {
            let r = self.of(tree);
            match string_compare(self.bytes(key), self.bytes(Text { start: r[1], length: r[2] })) {
                0 => return Some(r),
                c if c < 0 => tree = r[3],
                _ => tree = r[4],
            }
        }
        None
    }

    /// The trie at the end of a walk by first holders; none if there is none.
    fn descend(&self, root: u32, query: &[Text]) -> u32 {
        let mut trie = root;
        for &segment in query {
            trie = self.names_find(self.word_of(trie, 4), segment).map_or(0, |r| r[5]);
        }
        trie
    }

    /// `query` are all segments of the host or the module query, of which
    /// `passed` lead to this trie.
    fn mutate(
        &mut self,
        base: u32,
        trie: u32,
        query: &[Text],
        passed: usize,
        change: &Change,
    ) -> u32 {
        let (bindings, namespaces) = (self.word_of(trie, 3), self.word_of(trie, 4));
        if passed == query.len() {
            return self.leaf(base, trie, bindings, namespaces, change);
        }
        let key = query[passed];
        let below = self.names_find(namespaces, key).map_or(0, |r| r[5]);
        let below = self.mutate(base, below, query, passed + 1, change);
        let namespaces =
            self.names_insert(NAMESPACES_LIST + base, namespaces, key, [below, 0, 0, 0, 0, 0]);
        let bindings = match change {
            Change::Module { loaded, path } => {
                self.insert_symbol(bindings, query, passed, *loaded, *path)
            }
            _ => bindings,
        };
        self.trie(base, bindings, namespaces)
    }

    fn leaf(
        &mut self,
        base: u32,
        trie: u32,
        bindings: u32,
        namespaces: u32,
        change: &Change,
    ) -> u32 {
        match *change {
            Change::Name { id, item } => {
                let value = [item.number, item.kind.number(), 0, 0, 0, 0];
                let bindings = self.names_insert(BINDINGS_LIST + base, bindings, id, value);
                self.trie(base, bindings, namespaces)
            }
            Change::Include { label, list } => {
                let bindings = self.put(BINDINGS_LIST + base, Some(label), list, bindings);
                self.trie(base, bindings, namespaces)
            }
            Change::Open { label, list } => {
                let namespaces = self.put(NAMESPACES_LIST + base, Some(label), list, namespaces);
                self.trie(base, bindings, namespaces)
            }
            Change::Alias { key, label, list } => {
                let own = self.put(BINDINGS_LIST + base, Some(label), list, 0);
                let fresh = self.trie(base, own, 0);
                let value = [fresh, 0, 0, 0, 0, 0];
                let namespaces = self.names_insert(NAMESPACES_LIST + base, namespaces, key, value);
                self.trie(base, bindings, namespaces)
            }
            Change::Module { .. } => trie,
        }
    }

    /// The bindings of a module trie after the segment `query[passed]`.
    fn insert_symbol(
        &mut self,
        bindings: u32,
        query: &[Text],
        passed: usize,
        loaded: bool,
        path: Text,
    ) -> u32 {
        let id = query[passed];
        let start = query[0].start;
        let length = id.start + id.length - start;
        let held = self.names_find(bindings, id);
        let value = if passed + 1 == query.len() {
            let kept = held.is_some_and(|r| r[5] == 0 && r[10] == 1);
            [0, start, length, path.start, path.length, (loaded || kept).into()]
        } else {
            if held.is_some_and(|r| !(r[5] == 1 && r[10] == 0 && loaded)) {
                return bindings;
            }
            [1, start, length, 0, 0, loaded.into()]
        };
        self.names_insert(BINDINGS_LIST + MODULES, bindings, id, value)
    }

    /// Writes a registration that is known to be accepted.
    fn write(&mut self, call: &Registration) {
        let label_of =
            |query: Text| Text { start: query.start, length: query.length.saturating_sub(1) };
        let root = self.header.names;
        let (host, change) = match call {
            Registration::Name { host, id, item } => {
                (self.lay(host), Change::Name { id: self.lay(id), item: *item })
            }
            Registration::Include { host, included }
            | Registration::OpenModule { host, included } => {
                let (host, included) = (self.lay(host), self.lay(included));
                let found = self.descend(root, &self.segments(included));
                let list = self.word_of(found, 3);
                (host, Change::Include { label: label_of(included), list })
            }
            Registration::OpenNamespace { host, included } => {
                let (host, included) = (self.lay(host), self.lay(included));
                let found = self.descend(root, &self.segments(included));
                let list = self.word_of(found, 4);
                (host, Change::Open { label: label_of(included), list })
            }
            Registration::Alias { key, host, included } => {
                let key = self.lay(key);
                let (host, included) = (self.lay(host), self.lay(included));
                let found = self.descend(root, &self.segments(included));
                let list = self.word_of(found, 3);
                (host, Change::Alias { key, label: label_of(included), list })
            }
            Registration::Module { loaded, query, path } => {
                let query = self.lay(query);
                (query, Change::Module { loaded: *loaded, path: self.lay(path) })
            }
        };
        let query = self.segments(host);
        if let Change::Module { .. } = change {
            self.header.modules = self.mutate(MODULES, self.header.modules, &query, 0, &change);
        } else {
            self.header.names = self.mutate(0, root, &query, 0, &change);
        }
    }

    /// A registration on whatever is lent: rows 1 to 8. The header and the
    /// memory change only when it is accepted. The words of the new records
    /// are one choice; others make the same table.
    pub fn register(&mut self, call: &Registration) -> Result<u32, Refusal> {
        let table = self.table()?;
        model::register(&table, self.lent(), call)?;
        self.write(call);
        Ok(self.header.records)
    }

    /// Row 1, then the model table.
    pub fn table(&self) -> Result<Table, Refusal> {
        if self.is_sound() {
            Ok(decode(self))
        } else {
            Err(Refusal::Unsound)
        }
    }
}
