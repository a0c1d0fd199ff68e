//! The pane shows what Enter takes: look-up and completions of any
//! implementation, held to each other, and which names they were tried on.

use crate::gen::{self, Rng};
use crate::layout::Memory;
use crate::model::*;
use crate::naive::*;
use std::collections::BTreeSet;

/// Names that look-up and completions were held to each other on.
#[derive(Debug, Default)]
pub struct Met {
    /// Completions that were listed, and that were refused with 9 or 10.
    pub listed: u64,
    pub refused: u64,
    /// Lines of listings of everything, each looked up.
    pub lines: u64,
    /// Names that look-up finds, and that it does not find.
    pub found: u64,
    pub none: u64,
    /// Names found that were listed when they were asked for in full.
    pub in_full: u64,
    /// Names with several holders: at the last step, in bindings, and at an
    /// earlier one, in namespaces.
    pub in_bindings: u64,
    pub in_namespaces: u64,
    /// Names found that begin with another label by the last holder.
    pub labels: u64,
    /// Names found that have another item by last holders, and of them those
    /// of another kind, or that another filter keeps.
    pub items: u64,
    pub kinds: u64,
    /// Names that are found by first holders alone, and by last holders alone.
    pub by_first: u64,
    pub by_last: u64,
}

impl Met {
    /// Names that are found, that are not, and that are asked for in full.
    pub fn has_names(&self) -> bool {
        [self.listed, self.lines, self.found, self.none, self.in_full].iter().all(|&n| 0 < n)
    }

    /// No name has two holders.
    pub fn is_single(&self) -> bool {
        self.in_bindings == 0 && self.in_namespaces == 0
    }

    /// Names in each place where the first and the last holder differ.
    pub fn has_holders(&self) -> bool {
        let places = [self.in_bindings, self.in_namespaces, self.labels, self.items, self.kinds];
        places.iter().chain(&[self.by_first, self.by_last]).all(|&n| 0 < n)
    }

    fn take<A: Symbol>(&mut self, first: &Walk<A>, last: &Walk<A>) {
        let count = |number: &mut u64, holds: bool| *number += u64::from(holds);
        count(&mut self.in_bindings, first.in_bindings > 1);
        count(&mut self.in_namespaces, first.in_namespaces > 1);
        match (&first.end, &last.end) {
            (None, end) => {
                self.none += 1;
                count(&mut self.by_last, end.is_some());
            }
            (Some(item), end) => {
                self.found += 1;
                count(&mut self.labels, first.label != last.label);
                count(&mut self.by_first, end.is_none());
                let other = |a: &A| A::ASKS.iter().any(|&ask| a.kept_by(ask) != item.kept_by(ask));
                count(&mut self.items, end.as_ref().is_some_and(|end| end != item));
                count(&mut self.kinds, end.as_ref().is_some_and(other));
            }
        }
    }
}

/// A look-up: the item or none, or the number of the refusal.
pub type Find<'f, A> = &'f dyn Fn(&[u8]) -> Result<Option<A>, u32>;
/// A completion: its lines, or the number of the refusal.
pub type Complete<'f, A> = &'f dyn Fn(Ask, &[u8]) -> Result<Vec<CompletionResult<A>>, u32>;

/// The query of a full name.
fn query_of(text: &[u8]) -> Vec<u8> {
    [text, &[DOT]].concat()
}

/// Holds look-up and completions on one root of a sound table to each other,
/// on names that some holders lead to and on others.
pub fn hold<A: Symbol>(
    root: &Trie<A>,
    rng: &mut Rng,
    find: Find<A>,
    complete: Complete<A>,
    met: &mut Met,
) {
    let listed = |met: &mut Met, ask, query: &[u8]| match complete(ask, query) {
        Ok(lines) => {
            met.listed += 1;
            Some(lines)
        }
        Err(refusal) => {
            assert!(refusal == 9 || refusal == 10, "{refusal}: {ask:?} {query:?}");
            met.refused += 1;
            None
        }
    };
    // Each line is what look-up finds, and no two have one text.
    for query in [vec![], gen::completion_query(rng)] {
        let mut texts = BTreeSet::new();
        for line in listed(met, A::ASKS[0], &query).unwrap_or_default() {
            met.lines += 1;
            assert_eq!(find(&query_of(&line.candidate)), Ok(Some(line.item)), "{query:?}");
            assert!(texts.insert(line.candidate), "{query:?}");
        }
    }
    // What look-up finds is a line, and there is no other of that text.
    let known = full_names(root, 200);
    let several: Vec<_> =
        known.iter().filter(|n| walk(root, n, Holder::First).meets_several()).collect();
    for _ in 0..12 {
        let full_name = match rng.below(4) {
            0 | 1 if !several.is_empty() => rng.pick(&several).to_vec(),
            0..=2 if !known.is_empty() => rng.pick(&known).clone(),
            _ => segments(&gen::full_name(rng)),
        };
        let text = concat_dots(&full_name);
        let in_full = query_of(&text);
        let found = match find(&in_full) {
            Ok(found) => found,
            Err(refusal) => {
                assert!(refusal == 4 && full_name.len() > MOST_SEGMENTS, "{refusal}: {text:?}");
                continue;
            }
        };
        let first = walk(root, &full_name, Holder::First);
        assert_eq!(found, first.end, "{text:?}");
        met.take(&first, &walk(root, &full_name, Holder::Last));
        let any = [gen::covering_query(rng, &full_name), gen::covering_query(rng, &full_name)];
        for query in [&in_full, &vec![], &any[0], &any[1]] {
            assert!(covers(&segments(query), &full_name), "{query:?} {text:?}");
            for ask in A::ASKS {
                let Some(lines) = listed(met, ask, query) else { continue };
                let its: Vec<_> = lines.iter().filter(|l| l.candidate == text).collect();
                let its: Vec<_> = its.iter().map(|l| (&l.item, l.annotation.clone())).collect();
                let kept = found.iter().filter(|item| item.kept_by(ask));
                let kept: Vec<_> = kept.map(|i| (i, i.annotation(&first.label))).collect();
                assert_eq!(its, kept, "{ask:?} {query:?} {text:?}");
            }
        }
        // A name that is found is listed when it is asked for in full.
        if let (Some(item), Some(lines)) = (&found, listed(met, A::ASKS[0], &in_full)) {
            assert!(lines.iter().any(|l| l.candidate == text && l.item == *item), "{text:?}");
            met.in_full += 1;
        }
    }
}

/// Holds both roots of a sound table; the names first.
pub type HoldBoth<'f> = &'f dyn Fn(&mut Rng, &Memory, &mut [Met; 2]);

/// On tables that registrations make.
pub fn on_registered_tables(seed: u64, hold_both: HoldBoth) {
    let rng = &mut Rng::new(Rng::seed_or(seed));
    let mut met = <[Met; 2]>::default();
    for round in 0..150 {
        let memory = gen::registered_memory(rng, [10, 40, 100][round % 3], 1000, 8000);
        hold_both(rng, &memory, &mut met);
    }
    println!("registered tables, names and modules: {met:?}; 0 disagreements");
    assert!(met[0].has_names() && met[0].has_holders(), "{met:?}");
    // No call puts a second holder among the modules.
    assert!(met[1].has_names() && met[1].is_single(), "{met:?}");
}

/// On sound tables of any shape.
pub fn on_written_tables(seed: u64, hold_both: HoldBoth) {
    let rng = &mut Rng::new(Rng::seed_or(seed));
    let mut met = <[Met; 2]>::default();
    for _ in 0..400 {
        let memory = gen::sound_memory(rng, 80);
        hold_both(rng, &memory, &mut met);
    }
    println!("written tables, names and modules: {met:?}; 0 disagreements");
    assert!(met.iter().all(|m| m.has_names() && m.has_holders()), "{met:?}");
}
