//! Sound tables written record by record (docs/LAYOUT.md), of shapes that calls
//! may not make.

use crate::layout::*;
use crate::model::{Kind, WORDS_A_RECORD};

/// A record with these words at these places, and 0 at the others.
pub fn record(words: &[(usize, u32)]) -> Record {
    let mut r = Record::default();
    words.iter().for_each(|&(at, word)| r[at] = word);
    r
}

/// A start and a length in the text.
pub type Key = (u32, u32);

/// A table in the making: of names, or of modules where the base is `MODULES`.
/// Each function gives the link of the record that it writes.
#[derive(Clone, Default)]
pub struct Written {
    pub base: u32,
    pub records: Vec<Record>,
    pub text: Vec<u8>,
}

impl Written {
    fn put(&mut self, words: &[(usize, u32)]) -> u32 {
        let mut r = record(words);
        r[0] += self.base;
        self.records.push(r);
        self.records.len() as u32
    }

    /// A word of the record that a link leads to; 0 for none.
    pub fn word(&self, link: u32, at: usize) -> u32 {
        match link {
            0 => 0,
            l => self.records[l as usize - 1][at],
        }
    }

    pub fn key(&mut self, key: &str) -> Key {
        let start = self.text.len() as u32;
        self.text.extend(key.bytes());
        (start, key.len() as u32)
    }

    /// A bindings branch: of names the item r1, of modules a Namespace that is
    /// not loaded.
    pub fn leaf(&mut self, key: Key, left: u32, right: u32) -> u32 {
        let sides = [(0, BINDINGS_BRANCH), (1, key.0), (2, key.1), (3, left), (4, right)];
        let held = match self.base {
            MODULES => vec![(5, 1), (6, key.0), (7, key.1)],
            _ => vec![(5, 1), (6, Kind::Register.number())],
        };
        self.put(&[&sides[..], &held].concat())
    }

    /// The branch of a Module without sides; its full name is its key.
    pub fn module(&mut self, key: Key, path: Key, loaded: bool) -> u32 {
        let link = self.leaf(key, 0, 0);
        let r = &mut self.records[link as usize - 1];
        (r[5], r[8], r[9], r[10]) = (0, path.0, path.1, loaded.into());
        link
    }

    /// A namespaces branch.
    pub fn space(&mut self, key: Key, left: u32, right: u32, trie: u32) -> u32 {
        let below = 1 + self.word(trie, 11);
        let depth = below.max(self.word(left, 11)).max(self.word(right, 11));
        let sides = [(0, NAMESPACES_BRANCH), (1, key.0), (2, key.1), (3, left), (4, right)];
        self.put(&[&sides[..], &[(5, trie), (11, depth)]].concat())
    }

    /// A tree in front of the rest of a list. `kind` is that of the list.
    pub fn tree(&mut self, kind: u32, tree: u32, rest: u32) -> u32 {
        self.collection(kind, 0, tree, rest)
    }

    /// An imported list with the empty label in front of the rest of a list.
    pub fn import(&mut self, kind: u32, own: u32, rest: u32) -> u32 {
        self.collection(kind, 1, own, rest)
    }

    fn collection(&mut self, kind: u32, sort: u32, own: u32, rest: u32) -> u32 {
        let weight = 1 + sort * self.word(own, 10) + self.word(rest, 10);
        let depth = match kind {
            NAMESPACES_LIST => self.word(own, 11).max(self.word(rest, 11)),
            _ => 0,
        };
        self.put(&[(0, kind), (3, own), (4, rest), (5, sort), (10, weight), (11, depth)])
    }

    pub fn trie(&mut self, bindings: u32, namespaces: u32) -> u32 {
        let depth = self.word(namespaces, 11);
        self.put(&[(0, TRIE), (3, bindings), (4, namespaces), (11, depth)])
    }

    /// A balanced tree of ascending keys; `branch` writes each of them.
    pub fn balanced(
        &mut self,
        keys: &[Key],
        branch: &dyn Fn(&mut Written, Key, u32, u32) -> u32,
    ) -> u32 {
        if keys.is_empty() {
            return 0;
        }
        let middle = keys.len() / 2;
        let left = self.balanced(&keys[..middle], branch);
        let right = self.balanced(&keys[middle + 1..], branch);
        branch(self, keys[middle], left, right)
    }

    /// Ascending keys one below another: from the root on, the k-th has the
    /// others to its left or to its right.
    pub fn chain(
        &mut self,
        keys: &[Key],
        left: impl Fn(usize) -> bool,
        branch: &dyn Fn(&mut Written, Key, u32, u32) -> u32,
    ) -> u32 {
        let mut rest = keys;
        let from_root: Vec<(Key, bool)> = (0..keys.len())
            .map(|k| {
                // What is above all others has them to its left.
                let (key, others) =
                    if left(k) { rest.split_last() } else { rest.split_first() }.unwrap();
                rest = others;
                (*key, left(k))
            })
            .collect();
        from_root.into_iter().rev().fold(0, |below, (key, left)| match left {
            true => branch(self, key, below, 0),
            false => branch(self, key, 0, below),
        })
    }

    /// The memory with this root, whose records and text are used; it is sound.
    pub fn memory(self, root: u32) -> Memory {
        let (records, text) = (self.records.len() as u32, self.text.len() as u32);
        let (names, modules) = if self.base == 0 { (root, 0) } else { (0, root) };
        let header = Header { names, modules, records, text };
        let memory = Memory { words: self.records.concat(), text: self.text, header };
        assert!(memory.is_sound());
        memory
    }
}

/// Adds free records and text up to so many.
pub fn with_free(mut memory: Memory, records: usize, text: usize) -> Memory {
    assert!(memory.header.records as usize <= records && memory.header.text as usize <= text);
    memory.words.resize(records * WORDS_A_RECORD, 0);
    memory.text.resize(text, 0);
    memory
}
