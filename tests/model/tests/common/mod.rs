//! Shared by the tests. Not every test file uses all of it.
#![allow(dead_code)]

use model::layout::*;
use model::model::*;

pub fn named(host: &str, id: &str, item: Item) -> Registration {
    Registration::Name { host: host.into(), id: id.into(), item }
}

/// A name with a Register.
pub fn name(host: &str, id: &str, number: u32) -> Registration {
    named(host, id, r(number))
}

pub fn t(number: u32) -> Item {
    Item::timer(number)
}

pub fn p(number: u32) -> Item {
    Item::port(number)
}

pub fn r(number: u32) -> Item {
    Item::register(number)
}

pub fn include(host: &str, included: &str) -> Registration {
    Registration::Include { host: host.into(), included: included.into() }
}

pub fn open_namespace(host: &str, included: &str) -> Registration {
    Registration::OpenNamespace { host: host.into(), included: included.into() }
}

pub fn open_module(host: &str, included: &str) -> Registration {
    Registration::OpenModule { host: host.into(), included: included.into() }
}

pub fn alias(key: &str, host: &str, included: &str) -> Registration {
    Registration::Alias { key: key.into(), host: host.into(), included: included.into() }
}

pub fn module(loaded: bool, query: &str, path: &str) -> Registration {
    Registration::Module { loaded, query: query.into(), path: path.into() }
}

/// The model's table and the encoder's memory, kept side by side.
pub struct Both {
    pub table: Table,
    pub memory: Memory,
}

impl Both {
    /// Fresh, with something in the free part.
    pub fn fresh(records: usize, text: usize) -> Both {
        let words = (0..records * WORDS_A_RECORD).map(|i| i as u32 * 77).collect();
        let text = (0..text).map(|i| i as u8).collect();
        Both { table: Table::default(), memory: Memory::fresh(words, text) }
    }

    /// The requirements' table T.
    pub fn t() -> Both {
        let mut both = Both::fresh(100, 1000);
        for call in [
            name("Saved.", "offset", 1),
            include("Live.", "Saved."),
            name("Saved.", "late", 2),
            name("Live.", "offset", 3),
        ] {
            both.register(&call).unwrap();
        }
        both
    }

    /// Registers in both and compares: the answer, the table that the memory
    /// means, and the words and bytes outside of the part taken. Gives the
    /// records used.
    pub fn register(&mut self, call: &Registration) -> Result<u32, Refusal> {
        let before = self.memory.clone();
        let expected = register(&self.table, self.memory.lent(), call);
        let answer = self.memory.register(call);
        match expected {
            Err(refusal) => {
                assert_eq!(answer, Err(refusal), "{call:?}");
                assert!(self.memory == before, "refused call changed the memory: {call:?}");
            }
            Ok(table) => {
                assert_eq!(answer, Ok(table.records), "{call:?}");
                self.table = table;
                assert!(self.memory.is_sound(), "{call:?}");
                assert!(same_table(&decode(&self.memory), &self.table), "{call:?}");
                let (h, now) = (before.header, self.memory.header);
                let stays = |old: &[u32], new: &[u32], from: u32, to: u32| {
                    let (from, to) = (from as usize * 12, to as usize * 12);
                    old[..from] == new[..from] && old[to..] == new[to..]
                };
                assert!(stays(&before.words, &self.memory.words, h.records, now.records));
                let (from, to) = (h.text as usize, now.text as usize);
                assert_eq!(before.text[..from], self.memory.text[..from]);
                assert_eq!(before.text[to..], self.memory.text[to..]);
            }
        }
        answer
    }

    /// Look-up of a name.
    pub fn find(&self, query: &str) -> Result<Option<Item>, u32> {
        find(&self.table.names, query.as_bytes()).map_err(Refusal::number)
    }

    /// Lines of a completion of names of all kinds: text, item, match length,
    /// annotation; and tries entered.
    #[allow(clippy::type_complexity)]
    pub fn complete(&self, query: &str) -> Result<(Vec<(String, Item, i32, String)>, u32), u32> {
        self.names(query, None)
    }

    /// The same of all kinds or of one.
    #[allow(clippy::type_complexity)]
    pub fn names(
        &self,
        query: &str,
        kind: Option<Kind>,
    ) -> Result<(Vec<(String, Item, i32, String)>, u32), u32> {
        let (lines, entered) =
            autocomplete_lid(&self.table, query.as_bytes(), kind, 4096).map_err(Refusal::number)?;
        let lines = lines
            .into_iter()
            .map(|l| (string(&l.candidate), l.item, l.match_length, string(&l.annotation)))
            .collect();
        Ok((lines, entered))
    }

    /// The same of modules, with m or n for the item.
    #[allow(clippy::type_complexity)]
    pub fn modules(
        &self,
        query: &str,
        filter: Filter,
    ) -> Result<(Vec<(String, char, i32, String)>, u32), u32> {
        let (lines, entered) = autocomplete_mod_or_ns(&self.table, query.as_bytes(), filter, 4096)
            .map_err(Refusal::number)?;
        let letter = |symbol: &ModSymbol| if symbol.is_module() { 'm' } else { 'n' };
        let lines = lines
            .into_iter()
            .map(|l| (string(&l.candidate), letter(&l.item), l.match_length, string(&l.annotation)))
            .collect();
        Ok((lines, entered))
    }
}

pub fn string(bytes: &[u8]) -> String {
    String::from_utf8(bytes.to_vec()).unwrap()
}

/// So many lines that are told from written ones.
pub fn blank_lines<A: Clone>(count: usize, item: A) -> Vec<Line<A>> {
    let span = Span { start: 9999, length: 9999 };
    vec![Line { match_length: -77, item, candidate: span, annotation: span }; count]
}

/// Runs with a large stack, for tables with long chains.
pub fn with_large_stack(test: fn()) {
    std::thread::Builder::new().stack_size(512 << 20).spawn(test).unwrap().join().unwrap();
}
