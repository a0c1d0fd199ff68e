//! *Sound*: on tables that registrations make, on others, and on damage.

mod common;
use common::*;
use model::gen::{self, Damage, Rng};
use model::layout::*;
use model::model::*;
use model::naive::sound_naive;

/// A table with every kind of record.
fn all_kinds() -> Memory {
    let mut memory = Memory::with_room(80, 200);
    for call in [
        named("m.", "b", t(1)),
        named("m.", "a", p(2)),
        named("m.", "c", r(3)),
        include("h.", "m."),
        open_namespace("h.", ""),
        alias("k", "h.", "m."),
        module(true, "A.B.", "p q"),
        module(false, "A.C.", ""),
    ] {
        memory.register(&call).unwrap();
    }
    assert!(memory.is_sound() && sound_naive(&memory));
    memory
}

/// The last record of this kind with this sort, if a sort is asked.
fn last_of(memory: &Memory, kind: u32, sort: Option<u32>) -> usize {
    (0..memory.header.records as usize)
        .rev()
        .find(|&n| {
            let r = record(&memory.words, n);
            r[0] == kind && sort.is_none_or(|s| r[5] == s)
        })
        .unwrap()
}

fn with(memory: &Memory, damage: Damage) -> bool {
    let mut copy = memory.clone();
    damage.apply(&mut copy);
    let answer = copy.is_sound();
    assert_eq!(answer, sound_naive(&copy), "{damage:?}");
    answer
}

#[test]
fn fresh_tables() {
    assert!(sound(&[], &[], 0, 0, 0, 0));
    assert!(sound(&[9; 30], &[0; 5], 0, 0, 0, 0));
    assert!(sound(&[9; 30], &[0; 5], 0, 0, 0, 5));
    assert!(!sound(&[9; 30], &[0; 5], 0, 0, 0, 6));
    assert!(!sound(&[5; 11], &[], 0, 0, 1, 0));
    assert!(!sound(&[9; 30], &[], 1, 0, 0, 0));
    assert!(!sound(&[9; 30], &[], 0, 1, 0, 0));
}

#[test]
fn used_parts_fit() {
    // An empty trie is five in word 0, no links, depth 0.
    let record: Record = [5, 7, 7, 0, 0, 7, 7, 7, 7, 7, 7, 0];
    let words = record.repeat(65_537);
    let text = vec![b'x'; 65_537];
    assert!(sound(&words, &text, 65_536, 0, 65_536, 65_536));
    assert!(!sound(&words, &text, 65_536, 0, 65_537, 65_536));
    assert!(!sound(&words, &text, 65_536, 0, 65_536, 65_537));
    assert!(!sound(&words, &text, 65_537, 0, 65_536, 65_536));
    assert!(sound(&words[..24], &text, 2, 0, 2, 0));
    assert!(!sound(&words[..23], &text, 2, 0, 2, 0));
    assert!(!sound(&words[..24], &text, 0, 2, 2, 0));
    assert!(!sound(&words, &text, 0, 0, u32::MAX, 0));
    assert!(!sound(&words, &text, 0, 0, 0, u32::MAX));
    // 357,913,942 records of twelve words pass 2^32 by eight.
    assert!(!sound(&words, &text, 0, 0, 357_913_942, 0));
}

#[test]
fn roots_are_tries_of_their_table() {
    let memory = all_kinds();
    for link in 0..=memory.header.records + 1 {
        let kind = match link {
            0 => None,
            l if l <= memory.header.records => Some(record(&memory.words, l as usize - 1)[0]),
            _ => Some(99),
        };
        let root = |wanted| kind.is_none() || kind == Some(wanted);
        assert_eq!(with(&memory, Damage::Names(link)), root(5));
        assert_eq!(with(&memory, Damage::Modules(link)), root(10));
    }
}

/// For each kind: words that may hold anything, and values that words must
/// not hold.
#[test]
fn each_word_by_kind() {
    let memory = all_kinds();
    let beyond = memory.header.text;
    let max = u32::MAX;
    // kind, sort, free words, (word, bad value).
    #[allow(clippy::type_complexity)]
    let kinds: Vec<(u32, Option<u32>, Vec<usize>, Vec<(usize, u32)>)> = vec![
        (
            1,
            None,
            vec![5, 7, 8, 9, 10, 11],
            vec![
                (0, 0),
                (1, beyond),
                (2, 0),
                (2, 32),
                (3, max),
                (4, max),
                (6, 0),
                (6, 4),
                (6, 256 + 1),
                (6, max),
            ],
        ),
        (
            2,
            None,
            vec![6, 7, 8, 9, 10],
            vec![(0, 11), (1, max), (2, max), (3, 1), (4, 1), (5, max), (11, 0), (11, 9)],
        ),
        (
            3,
            Some(0),
            vec![1, 2, 6, 7, 8, 9, 11],
            vec![(3, max), (4, max), (5, 2), (10, 0), (10, 97)],
        ),
        (
            3,
            Some(1),
            vec![6, 7, 8, 9, 11],
            vec![(1, max), (2, 544), (3, 1), (4, max), (5, 2), (10, 0)],
        ),
        (4, Some(0), vec![1, 2, 6, 7, 8, 9], vec![(3, 1), (4, max), (10, 97), (11, 17)]),
        (
            4,
            Some(1),
            vec![6, 7, 8, 9],
            vec![(1, max), (2, 544), (3, 1), (5, max), (10, 97), (11, 17)],
        ),
        (5, None, vec![1, 2, 5, 6, 7, 8, 9, 10], vec![(0, max), (3, 1), (4, 1), (11, max)]),
        (
            6,
            Some(0),
            vec![11],
            vec![
                (2, 0),
                (3, 1),
                (4, 1),
                (5, 2),
                (6, max),
                (7, 0),
                (7, 544),
                (8, max),
                (9, 121),
                (10, 2),
            ],
        ),
        (6, Some(1), vec![8, 9, 11], vec![(2, 0), (5, max), (6, max), (7, 0), (10, 2)]),
        (7, None, vec![6, 7, 8, 9, 10], vec![(2, 0), (3, 1), (4, 1), (5, 1), (11, max)]),
        (8, Some(0), vec![1, 2, 6, 7, 8, 9, 11], vec![(3, 1), (4, 1), (5, 2), (10, 0)]),
        (9, Some(0), vec![1, 2, 6, 7, 8, 9], vec![(3, 1), (4, 1), (5, 2), (10, 0), (11, max)]),
        (10, None, vec![1, 2, 5, 6, 7, 8, 9, 10], vec![(3, 1), (4, 1), (11, max)]),
    ];
    for (kind, sort, free, bad) in kinds {
        let number = last_of(&memory, kind, sort);
        for word in free {
            for value in [0, 1, max, 77] {
                assert!(
                    with(&memory, Damage::Word { at: 12 * number + word, value }),
                    "{kind} {word} {value}"
                );
            }
        }
        for (word, value) in bad {
            assert!(
                !with(&memory, Damage::Word { at: 12 * number + word, value }),
                "{kind} {word} {value}"
            );
        }
        // A record does not link to itself.
        for word in if kind == 2 || kind == 7 { 3..6 } else { 3..5 } {
            let value = number as u32 + 1;
            assert!(
                !with(&memory, Damage::Word { at: 12 * number + word, value }),
                "{kind} {word}"
            );
        }
    }
}

/// Every item of names, with each of the kinds and with numbers that are none.
#[test]
fn kinds_of_items() {
    let memory = all_kinds();
    let branches: Vec<usize> = (0..memory.header.records as usize)
        .filter(|&n| record(&memory.words, n)[0] == BINDINGS_BRANCH)
        .collect();
    assert_eq!(branches.len(), 1 + 2 + 2);
    for number in branches {
        for (value, sound) in [
            (0, false),
            (1, true),
            (2, true),
            (3, true),
            (4, false),
            (1 << 8 | 3, false),
            (1 << 31 | 1, false),
            (u32::MAX, false),
        ] {
            assert_eq!(
                with(&memory, Damage::Word { at: 12 * number + 6, value }),
                sound,
                "{value}"
            );
        }
    }
}

/// One record over given text; words not given are junk.
fn one(set: &[(usize, u32)], text: &[u8]) -> bool {
    let mut r: Record = [0xABCD; 12];
    (r[3], r[4], r[11]) = (0, 0, 0);
    for &(word, value) in set {
        r[word] = value;
    }
    let memory = Memory {
        words: r.to_vec(),
        text: text.to_vec(),
        header: Header { names: 0, modules: 0, records: 1, text: text.len() as u32 },
    };
    let answer = memory.is_sound();
    assert_eq!(answer, sound_naive(&memory));
    answer
}

#[test]
fn texts_keep_the_rules() {
    let n = [b'n'; 600];
    let key = |length: u32| one(&[(0, 1), (1, 0), (2, length), (6, 1)], &n);
    assert!(!key(0) && key(1) && key(31) && !key(32));
    let label = |length: u32| one(&[(0, 3), (1, 0), (2, length), (5, 1), (10, 1)], &n);
    assert!(label(0) && label(1) && label(543) && !label(544));
    let module = |sort, full: u32, path: u32| {
        let set =
            [(0, 6), (1, 0), (2, 1), (5, sort), (6, 0), (7, full), (8, 0), (9, path), (10, 1)];
        one(&set, &n)
    };
    assert!(!module(0, 0, 0) && module(0, 1, 0) && module(0, 543, 0) && !module(0, 544, 0));
    assert!(module(0, 1, 120) && !module(0, 1, 121));
    assert!(module(1, 1, 121) && !module(1, 0, 0) && !module(1, 544, 0));
    for b in 0..=255 {
        let text = [b'n', b, b'n'];
        assert_eq!(one(&[(0, 1), (1, 0), (2, 3), (6, 1)], &text), is_name_byte(b));
        let dots = is_name_byte(b) || b == DOT;
        assert_eq!(one(&[(0, 3), (1, 0), (2, 3), (5, 1), (10, 1)], &text), dots);
        let full_name = [(0, 6), (1, 0), (2, 1), (5, 1), (6, 1), (7, 2), (10, 0)];
        assert_eq!(one(&full_name, &text), dots);
        let path = [(0, 6), (1, 0), (2, 1), (5, 0), (6, 0), (7, 1), (8, 1), (9, 2), (10, 0)];
        assert_eq!(one(&path, &text), is_path_byte(b));
    }
    // Labels and full names need not be queries.
    let dots = b"...";
    assert!(one(&[(0, 4), (1, 0), (2, 3), (5, 1), (10, 1)], dots));
    // A text ends where the used part ends, at the latest; an empty one too.
    assert!(one(&[(0, 3), (1, 3), (2, 0), (5, 1), (10, 1)], dots));
    assert!(!one(&[(0, 3), (1, 4), (2, 0), (5, 1), (10, 1)], dots));
    assert!(!one(&[(0, 3), (1, 1), (2, 3), (5, 1), (10, 1)], dots));
    assert!(!one(&[(0, 3), (1, u32::MAX), (2, 1), (5, 1), (10, 1)], dots));
    assert!(!one(&[(0, 3), (1, 1), (2, u32::MAX), (5, 1), (10, 1)], dots));
}

/// Branches over the keys a, b, c, .. of the text; each is kind 1 with key
/// number, left, right.
fn tree(branches: &[(u32, u32, u32)]) -> bool {
    let text = b"abcdefgh".to_vec();
    let mut words = Vec::new();
    for &(key, left, right) in branches {
        words.extend([1, key, 1, left, right, 0, 1, 0, 0, 0, 0, 0]);
    }
    let header = Header { records: branches.len() as u32, text: 8, ..Header::default() };
    let memory = Memory { words, text, header };
    let answer = memory.is_sound();
    assert_eq!(answer, sound_naive(&memory));
    answer
}

#[test]
fn keys_ascend_over_the_whole_tree() {
    assert!(tree(&[(0, 0, 0), (1, 1, 0), (2, 2, 0)]));
    assert!(tree(&[(0, 0, 0), (2, 0, 0), (1, 1, 2)]));
    assert!(!tree(&[(0, 0, 0), (0, 1, 0)]));
    assert!(!tree(&[(0, 0, 0), (0, 0, 1)]));
    assert!(!tree(&[(1, 0, 0), (0, 1, 0)]));
    assert!(!tree(&[(0, 0, 0), (1, 0, 1)]));
    // The child is right, its own child is not.
    assert!(tree(&[(1, 0, 0), (0, 0, 1), (2, 2, 0)]));
    assert!(!tree(&[(3, 0, 0), (0, 0, 1), (2, 2, 0)]));
    assert!(!tree(&[(2, 0, 0), (0, 0, 1), (2, 2, 0)]));
    assert!(tree(&[(5, 0, 0), (7, 1, 0), (2, 0, 2)]));
    assert!(!tree(&[(1, 0, 0), (7, 1, 0), (2, 0, 2)]));
    // A tree may be shared by two that both ascend.
    assert!(tree(&[(0, 0, 0), (1, 1, 0), (2, 1, 0)]));
    // The same side twice.
    assert!(!tree(&[(0, 0, 0), (1, 1, 1)]));
    // Not reached from any root, still looked at.
    assert!(!tree(&[(0, 0, 0), (0, 1, 0), (3, 0, 0)]));
}

#[test]
fn weight_up_to_96() {
    // An imported list of weight w, then collections in front of it.
    let lists = |count: usize, last: Option<[u32; 4]>| {
        let mut words = Vec::new();
        for i in 0..count as u32 {
            words.extend([3, 0, 0, 0, i, 0, 0, 0, 0, 0, i + 1, 0]);
        }
        if let Some([first, rest, sort, weight]) = last {
            words.extend([3, 0, 0, first, rest, sort, 0, 0, 0, 0, weight, 0]);
        }
        let records = words.len() as u32 / 12;
        let memory =
            Memory { words, text: vec![], header: Header { records, ..Header::default() } };
        let answer = memory.is_sound();
        assert_eq!(answer, sound_naive(&memory));
        answer
    };
    assert!(lists(96, None));
    assert!(!lists(97, None));
    assert!(lists(95, Some([95, 0, 1, 96])));
    assert!(!lists(96, Some([96, 0, 1, 97])));
    assert!(lists(60, Some([40, 55, 1, 96])));
    assert!(!lists(60, Some([41, 55, 1, 97])));
    assert!(!lists(60, Some([40, 55, 1, 95])));
    assert!(lists(96, Some([0, 95, 0, 96])));
    assert!(!lists(96, Some([0, 96, 0, 97])));
}

#[test]
fn depth_up_to_16() {
    // n times: a branch that holds the last trie, its collection, a trie.
    let chain = |tries: u32, stop: usize| {
        let mut words = Vec::new();
        for i in 0..tries {
            let (trie, d) = (3 * i, i + 1);
            words.extend([2, 0, 1, 0, 0, trie, 0, 0, 0, 0, 0, d]);
            words.extend([4, 0, 0, 3 * i + 1, 0, 0, 0, 0, 0, 0, 1, d]);
            words.extend([5, 0, 0, 0, 3 * i + 2, 0, 0, 0, 0, 0, 0, d]);
        }
        words.truncate(words.len() - 12 * stop);
        let records = words.len() as u32 / 12;
        let header = Header { records, text: 1, ..Header::default() };
        let memory = Memory { words, text: vec![b'a'], header };
        let answer = memory.is_sound();
        assert_eq!(answer, sound_naive(&memory));
        answer
    };
    assert!(chain(16, 0));
    assert!(!chain(17, 0));
    // Only tries are bounded: a branch or a list that no trie has may be
    // deeper.
    assert!(chain(17, 1));
    assert!(chain(17, 2));
}

#[test]
fn registered_tables_are_sound() {
    let rng = &mut Rng::new(Rng::seed_or(41));
    let mut records = 0;
    for _ in 0..300 {
        let calls = rng.below(60);
        let memory = gen::registered_memory(rng, calls, 1365, 4000);
        assert!(memory.is_sound());
        records = records.max(memory.header.records);
    }
    assert!(records > 500, "{records}");
}

#[test]
fn other_sound_tables() {
    let rng = &mut Rng::new(Rng::seed_or(42));
    let mut depths = [0; 17];
    for _ in 0..300 {
        let count = rng.below(80);
        let memory = gen::sound_memory(rng, count);
        assert!(memory.is_sound());
        assert!(sound_naive(&memory));
        let table = decode(&memory);
        depths[trie_depth(&table.names).max(trie_depth(&table.modules)) as usize] += 1;
    }
    assert!(depths.iter().skip(3).sum::<i32>() > 20, "{depths:?}");
}

/// Every used word, byte and header word, each with several values.
fn damaged(memory: &Memory, rng: &mut Rng, counts: &mut [usize; 2]) {
    let mut copy = memory.clone();
    for damage in gen::damages(rng, memory) {
        damage.apply(&mut copy);
        let answer = copy.is_sound();
        assert_eq!(answer, sound_naive(&copy), "{damage:?}\n{memory:?}");
        counts[answer as usize] += 1;
        // Put back.
        match damage {
            Damage::Word { at, .. } => copy.words[at] = memory.words[at],
            Damage::Byte { at, .. } => copy.text[at] = memory.text[at],
            _ => copy.header = memory.header,
        }
    }
    assert!(copy == *memory);
}

#[test]
fn damage_to_registered_tables() {
    let rng = &mut Rng::new(Rng::seed_or(43));
    let mut counts = [0; 2];
    for _ in 0..40 {
        let calls = 1 + rng.below(8);
        let memory = gen::registered_memory(rng, calls, 60, 200);
        damaged(&memory, rng, &mut counts);
    }
    damaged(&all_kinds(), rng, &mut counts);
    assert!(counts.iter().all(|&n| n > 10_000), "{counts:?}");
}

#[test]
fn damage_to_other_tables() {
    let rng = &mut Rng::new(Rng::seed_or(44));
    let mut counts = [0; 2];
    for _ in 0..40 {
        let count = rng.below(50);
        let memory = gen::sound_memory(rng, count);
        damaged(&memory, rng, &mut counts);
    }
    assert!(counts.iter().all(|&n| n > 10_000), "{counts:?}");
}

/// Two damages at once, and words that are all small numbers.
#[test]
fn more_damage() {
    let rng = &mut Rng::new(Rng::seed_or(45));
    let mut counts = [0; 2];
    for _ in 0..60 {
        let count = 5 + rng.below(40);
        let memory = gen::sound_memory(rng, count);
        let all = gen::damages(rng, &memory);
        for _ in 0..400 {
            let mut copy = memory.clone();
            rng.pick(&all).apply(&mut copy);
            rng.pick(&all).apply(&mut copy);
            let answer = copy.is_sound();
            assert_eq!(answer, sound_naive(&copy));
            counts[answer as usize] += 1;
        }
    }
    for _ in 0..20_000 {
        let records = 1 + rng.below(3);
        let words = (0..12 * records).map(|_| rng.below(6) as u32).collect();
        let (names, modules) = (rng.below(records + 1) as u32, rng.below(2) as u32);
        let header = Header { names, modules, records: records as u32, text: 6 };
        let memory = Memory { words, text: b"abcd.~".to_vec(), header };
        let answer = memory.is_sound();
        assert_eq!(answer, sound_naive(&memory));
        counts[answer as usize] += 1;
    }
    assert!(counts.iter().all(|&n| n > 500), "{counts:?}");
}

/// A tree that is one chain of 65,506 branches, to the left or to the right,
/// in a trie of the names table.
fn chain(to_left: bool) -> Memory {
    let rng = &mut Rng::new(46);
    let text: Vec<u8> = (0..MOST_TEXT).map(|_| gen::name_byte(rng)).collect();
    let mut keys: Vec<&[u8]> = text.windows(MOST_NAME).collect();
    keys.sort();
    assert!(keys.windows(2).all(|pair| pair[0] < pair[1]));
    if !to_left {
        keys.reverse();
    }
    let mut words = Vec::new();
    for (i, key) in keys.iter().enumerate() {
        let start = (key.as_ptr() as usize - text.as_ptr() as usize) as u32;
        let last = i as u32;
        let (left, right) = if to_left { (last, 0) } else { (0, last) };
        words.extend([1, start, 31, left, right, last, 3, 0, 0, 0, 0, 0]);
    }
    let count = keys.len() as u32;
    words.extend([3, 0, 0, count, 0, 0, 0, 0, 0, 0, 1, 0]);
    words.extend([5, 0, 0, count + 1, 0, 0, 0, 0, 0, 0, 0, 0]);
    let header =
        Header { names: count + 2, modules: 0, records: count + 2, text: MOST_TEXT as u32 };
    Memory { words, text, header }
}

#[test]
fn long_chains() {
    with_large_stack(|| {
        for to_left in [true, false] {
            let mut memory = chain(to_left);
            let count = memory.header.records as usize - 2;
            let (lines, entered) =
                autocomplete_lid(&memory.table().unwrap(), b"", None, 1).unwrap();
            assert_eq!((lines.len(), entered), (count, 1));
            assert!(lines.windows(2).all(|pair| pair[0].candidate < pair[1].candidate));
            // The last branch's other side takes the first branch: its key
            // is out of order there.
            let other = if to_left { 4 } else { 3 };
            memory.words[12 * (count - 1) + other] = 1;
            assert!(!memory.is_sound());
        }
    });
}
