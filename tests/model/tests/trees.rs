//! Trees against sorted maps; weight, depth and records against the naive
//! definitions.

mod common;
use common::*;
use model::gen::{self, Rng};
use model::model::*;
use model::naive::*;
use std::collections::BTreeMap;

#[test]
fn trees_are_sorted_maps() {
    let rng = &mut Rng::new(Rng::seed_or(21));
    let (mut found, mut replaced) = (0, 0);
    for _ in 0..200 {
        let mut tree: Tree<Item> = None;
        let mut map: BTreeMap<Vec<u8>, Item> = BTreeMap::new();
        for _ in 0..rng.below(40) {
            let (key, item) = (gen::name(rng), gen::item(rng));
            let built = &mut Built::default();
            let steps = branches_on_the_way(&tree, &key);
            tree = btree_insert_replace(built, &tree, &key.as_slice().into(), item);
            let old = map.insert(key, item);
            replaced += old.is_some() as usize;
            // A replaced branch is built anew, a new one is one more.
            assert_eq!(built.records, steps + old.is_none() as u64);
        }
        let all: Vec<(Vec<u8>, Item)> = map.clone().into_iter().collect();
        let plain = |list: List<(PrefixMatch, Item)>| -> Vec<(Vec<u8>, Item)> {
            list.into_iter().map(|(m, item)| (m.completion.to_vec(), item)).collect()
        };
        assert_eq!(plain(btree_find_all(&None, &tree)), all);
        for _ in 0..20 {
            let key = gen::name(rng);
            assert_eq!(btree_find_exact(&tree, &key), map.get(&key).copied());
            found += map.contains_key(&key) as usize;
            let prefix: Str = key[..rng.below(key.len() + 1)].into();
            let begun: Vec<_> =
                all.iter().filter(|(k, _)| k.starts_with(&prefix)).cloned().collect();
            let matches = btree_find_prefix(&tree, &prefix);
            assert!(matches.iter().all(|(m, _)| m.prefix.as_ref() == Some(&prefix)));
            assert_eq!(plain(matches), begun);
        }
    }
    assert!(found > 500 && replaced > 500, "{found} {replaced}");
}

/// Branches from the root to the key's place, the key's own included.
fn branches_on_the_way(mut tree: &Tree<Item>, key: &[u8]) -> u64 {
    let mut steps = 0;
    while let Some(b) = tree {
        steps += 1;
        tree = match key.cmp(&b.key) {
            std::cmp::Ordering::Less => &b.left,
            std::cmp::Ordering::Greater => &b.right,
            std::cmp::Ordering::Equal => break,
        };
    }
    steps
}

#[test]
fn weight_and_depth_are_the_defined_ones() {
    let rng = &mut Rng::new(Rng::seed_or(22));
    let (mut heavy, mut deep) = (0, 0);
    for round in 0..60 {
        let mix = &gen::MIXES[round % 3];
        let mut table = Table::default();
        for _ in 0..14 {
            let call = gen::registration(rng, mix);
            let (names, modules, built) = build(&table, &call);
            assert_eq!(trie_depth(&names), depth_of(&names));
            assert_eq!(trie_depth(&modules), depth_of(&modules));
            let heaviest = heaviest_of(&names).max(heaviest_of(&modules));
            let before = heaviest_of(&table.names).max(heaviest_of(&table.modules));
            // The lists built are lists of the new table, and a list over 96
            // can only have been built now.
            assert!(built.heaviest <= heaviest);
            assert!(heaviest <= built.heaviest.max(before));
            heavy = heavy.max(heaviest);
            deep = deep.max(depth_of(&names));
            let lent = Lent { words: 12 * MOST_RECORDS, text: MOST_TEXT };
            match register(&table, lent, &call) {
                Err(refusal) => {
                    let expected = if heaviest > 96 { Refusal::Crowded } else { Refusal::Deep };
                    assert_eq!(refusal, expected);
                    assert!(heaviest > 96 || depth_of(&names).max(depth_of(&modules)) > 16);
                }
                Ok(new) => {
                    assert!(heaviest <= 96 && depth_of(&names).max(depth_of(&modules)) <= 16);
                    table = new;
                }
            }
        }
    }
    assert!(heavy > 6 && deep > 6, "{heavy} {deep}");
}

#[test]
fn records_worked_out_by_hand() {
    let mut both = Both::fresh(200, 500);
    let mut used = 0;
    let mut takes = |both: &mut Both, call, records: u32| {
        used += records;
        assert_eq!(both.register(&call), Ok(used), "{call:?}");
    };
    // Trie and collection.
    takes(&mut both, include("", ""), 2);
    // A tree in front of the imported list: trie, collection, branch.
    takes(&mut both, name("", "b", 1), 3);
    // The tree leads the list: the branch b is copied.
    takes(&mut both, name("", "a", 2), 4);
    // Replaced: the branches b and a are built anew.
    takes(&mut both, name("", "a", 3), 4);
    // Leaf: trie, collection. Root: trie, collection, branch.
    takes(&mut both, open_namespace("x.", "nowhere."), 5);
    // Below x the list does not begin with a tree. Leaf: trie, collection,
    // branch. x: trie, collection, branch. Root: trie, collection, branch.
    takes(&mut both, name("x.y.", "i", 4), 9);
    // The fresh trie and its collection; root: trie, collection, branch x,
    // branch k.
    takes(&mut both, alias("k", "", "x.y."), 6);
    // No segment: text only.
    let text = both.table.text;
    takes(&mut both, module(true, "", "path"), 0);
    assert_eq!(both.table.text, text + 4);
    // A: bindings 2, namespaces 2, trie 1.
    takes(&mut both, module(true, "A.", ""), 5);
    // B below A: 5. Root: ins_ns keeps the Module A; namespaces 2, trie 1.
    takes(&mut both, module(false, "A.B.", ""), 8);
    // Root: the Module A again, bindings 2, namespaces 2, trie 1; the leaf
    // returns the trie itself.
    takes(&mut both, module(false, "A.", "p"), 5);
}
