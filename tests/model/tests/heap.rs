//! Text, heap and merge against other ways to say the same.

use model::gen::{self, Rng};
use model::model::*;
use std::collections::BTreeMap;

#[test]
fn compare_and_prefix() {
    let rng = &mut Rng::new(Rng::seed_or(11));
    let mut seen = [0; 3];
    for _ in 0..5_000 {
        let (a, b) = (gen::name(rng), gen::name(rng));
        assert_eq!(string_compare(&a, &b).signum(), a.cmp(&b) as i64);
        assert_eq!(starts_with(&a, &b), a.starts_with(&b));
        seen[(a.cmp(&b) as i64 + 1) as usize] += 1;
    }
    assert!(seen.iter().all(|&n| n > 100), "{seen:?}");
    assert_eq!(string_compare(b"", b"a"), -1);
    assert_eq!(string_compare(b"a\x7F", b"a\x80"), -1);
    assert_eq!(string_compare(b"\xFF", b"a"), 1);
    assert!(starts_with(b"", b"") && starts_with(b"a", b"") && !starts_with(b"", b"a"));
}

#[test]
fn segments_of_queries() {
    let split = |q: &[u8]| segments(q).iter().map(|s| s.to_vec()).collect::<Vec<_>>();
    assert_eq!(split(b""), Vec::<Vec<u8>>::new());
    assert_eq!(split(b"."), [b""]);
    assert_eq!(split(b"a.bc."), [&b"a"[..], b"bc"]);
    assert_eq!(split(b"a..b."), [&b"a"[..], b"", b"b"]);
    let join = |q: &[u8]| concat_dots(&segments(q)).to_vec();
    assert_eq!(join(b"a.bc."), b"a.bc");
    assert_eq!(join(b""), b"");
}

#[test]
fn name_and_path_bytes() {
    let names: Vec<u8> = (0..=255).filter(|&b| is_name_byte(b)).collect();
    assert_eq!(names.len(), 0x7E - 0x21 + 1 - 3);
    assert!(names.iter().all(|b| (0x21..=0x7E).contains(b) && !b".[]".contains(b)));
    let paths: Vec<u8> = (0..=255).filter(|&b| is_path_byte(b)).collect();
    assert_eq!(paths, (0x20..=0x7E).collect::<Vec<u8>>());
}

fn heap_values(mut heap: Heap<u64>) -> Vec<u64> {
    let cmp = |a: &u64, b: &u64| *a as i64 - *b as i64;
    let mut all = Vec::new();
    while let Some((value, rest)) = heap_pop(&cmp, heap) {
        all.push(value);
        heap = rest;
    }
    all
}

#[test]
fn heap_sorts() {
    let rng = &mut Rng::new(Rng::seed_or(12));
    for _ in 0..500 {
        let values: Vec<u64> = (0..rng.below(97)).map(|_| rng.below(40) as u64).collect();
        let cmp = |a: &u64, b: &u64| *a as i64 - *b as i64;
        let heap = heap_from_list(&cmp, values.iter().copied().collect());
        let mut sorted = values;
        sorted.sort();
        assert_eq!(heap_values(heap), sorted);
    }
}

/// The shape of a heap, to compare with one worked out by hand.
fn shape(heap: &Heap<u64>) -> String {
    match heap {
        Heap::EmptyHeap => "-".into(),
        Heap::Heap(v, hh) => {
            format!("{v}({})", hh.iter().map(shape).collect::<Vec<_>>().join(" "))
        }
    }
}

#[test]
fn heap_shapes() {
    let cmp = |a: &u64, b: &u64| *a as i64 - *b as i64;
    let heap = heap_from_list(&cmp, List::from([5, 3, 8, 1, 9]));
    assert_eq!(shape(&heap), "1(9() 3(8() 5()))");
    let (least, heap) = heap_pop(&cmp, heap).unwrap();
    assert_eq!((least, shape(&heap)), (1, "3(9() 8() 5())".into()));
    // Of equal values the second stays above.
    let two = heap_merge(&|_, _| 0, Heap::Heap(1, List::new()), Heap::Heap(2, List::new()));
    assert_eq!(shape(&two), "2(1())");
}

/// A key and where it came from.
type Entry = (Str, usize);

fn key_of(entry: &Entry) -> Str {
    entry.0.clone()
}

#[test]
fn merge_keeps_the_earliest_list() {
    let rng = &mut Rng::new(Rng::seed_or(13));
    let mut doubled = 0;
    for round in 0..600 {
        let count = if round % 10 == 0 { 96 } else { rng.below(9) };
        let mut lists: List<List<Entry>> = List::new();
        for from in 0..count {
            let mut keys: Vec<Vec<u8>> = (0..rng.below(8)).map(|_| gen::name(rng)).collect();
            keys.sort();
            keys.dedup();
            lists.push_back(keys.into_iter().map(|k| (k.into(), from)).collect());
        }
        // Later lists first, so that earlier ones replace them.
        let mut naive: BTreeMap<Vec<u8>, usize> = BTreeMap::new();
        for list in lists.iter().rev() {
            for (key, from) in list {
                doubled += naive.insert(key.to_vec(), *from).is_some() as usize;
            }
        }
        let merged: Vec<(Vec<u8>, usize)> = merge_increasing_lists_rev(&key_of, lists)
            .into_iter()
            .map(|(key, from)| (key.to_vec(), from))
            .collect();
        let expected: Vec<(Vec<u8>, usize)> = naive.into_iter().rev().collect();
        assert_eq!(merged, expected);
    }
    assert!(doubled > 1000);
}

#[test]
fn priorities_and_push() {
    let list: List<char> = "abc".chars().collect();
    let with = add_priorities(0, List::new(), list);
    assert_eq!(Vec::from(with), [(2, 'c'), (1, 'b'), (0, 'a')]);
    let entry = |key: &str, n| (Str::from(key.as_bytes()), n);
    let list = push_nodup(&key_of, entry("a", 1), List::new());
    let list = push_nodup(&key_of, entry("a", 2), list);
    let list = push_nodup(&key_of, entry("b", 3), list);
    let list = push_nodup(&key_of, entry("a", 4), list);
    assert_eq!(Vec::from(list), [entry("a", 4), entry("b", 3), entry("a", 1)]);
}
