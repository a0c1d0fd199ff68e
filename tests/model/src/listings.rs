//! What a suite holds the completions of any implementation to, and which of
//! them it has met.

use crate::model::{segments, shared_length, Ask, CompletionResult, Item, Kind, Trie};
use crate::naive::{listing, Holder, Symbol};
use std::fmt::Debug;

/// Lines, tries entered and shared length, or the number of the refusal.
pub type Shared = Result<(u32, u32, u32), u32>;

/// A completion and the one with its shared length, each on such an output:
/// they answer alike and leave the same, and all as it was where they refuse.
pub fn both<O: Clone + PartialEq>(
    what: &dyn Debug,
    out: &mut O,
    complete: impl FnOnce(&mut O) -> Result<(u32, u32), u32>,
    complete_shared: impl FnOnce(&mut O) -> Shared,
) -> Shared {
    let before = out.clone();
    let mut other = out.clone();
    let answer = complete(out);
    let shared = complete_shared(&mut other);
    assert_eq!(shared.map(|(lines, entered, _)| (lines, entered)), answer, "{what:?}");
    assert!(other == *out, "another output: {what:?}");
    assert!(answer.is_ok() || *out == before, "a refused completion changed something: {what:?}");
    shared
}

/// Completions by answer, 0 for listed, and listings by what they share.
#[derive(Debug, Default)]
pub struct Tally {
    pub answers: [u64; 11],
    pub no_line: u64,
    pub one_line: u64,
    /// Several lines that share nothing.
    pub nothing: u64,
    /// Several that share a part of the first candidate.
    pub part: u64,
    /// Several that share the whole of it.
    pub whole: u64,
    /// By kind: listings of names of which asking for it keeps all lines, some,
    /// and none.
    pub kept: [[u64; 3]; 3],
    /// Listings of everything that the source has otherwise, since it keeps
    /// last holders: of names, and of modules.
    pub otherwise: [u64; 2],
}

impl Tally {
    pub fn refused(&mut self, number: u32) {
        self.answers[number as usize] += 1;
    }

    pub fn listed<A>(&mut self, results: &[CompletionResult<A>]) {
        self.answers[0] += 1;
        let shared = shared_length(results) as usize;
        let sort = match results {
            [] => &mut self.no_line,
            [_] => &mut self.one_line,
            [..] if shared == 0 => &mut self.nothing,
            [first, ..] if shared < first.candidate.len() => &mut self.part,
            [..] => &mut self.whole,
        };
        *sort += 1;
    }

    /// A listing of names of all kinds, of which each kind is asked for too. One
    /// without a line counts for none.
    pub fn all_kinds(&mut self, results: &[CompletionResult<Item>]) {
        if results.is_empty() {
            return;
        }
        for ([all, some, none], kind) in self.kept.iter_mut().zip(Kind::ALL) {
            match results.iter().filter(|r| r.item.kind == kind).count() {
                0 => *none += 1,
                n if n < results.len() => *some += 1,
                _ => *all += 1,
            }
        }
    }

    /// A listing of everything on this root.
    pub fn beside_the_source<A: Symbol>(
        &mut self,
        root: &Trie<A>,
        query: &[u8],
        results: &[CompletionResult<A>],
    ) {
        let theirs = listing(root, &segments(query), 3_000, Holder::Last);
        let modules = usize::from(matches!(A::ASKS[0], Ask::Modules(_)));
        self.otherwise[modules] += u64::from(theirs.is_some_and(|l| l.lines != results));
    }

    /// Each of these answers came up, and each sort of listing.
    pub fn has(&self, answers: &[usize]) -> bool {
        let sorts = [self.no_line, self.one_line, self.nothing, self.part, self.whole];
        answers.iter().map(|&n| self.answers[n]).chain(sorts).all(|count| 0 < count)
    }

    /// Each kind kept all lines of a listing, some, and none.
    pub fn has_kinds(&self) -> bool {
        self.kept.as_flattened().iter().all(|&count| 0 < count)
    }
}
