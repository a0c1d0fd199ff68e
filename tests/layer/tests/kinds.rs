//! Items of each kind (docs/REQUIREMENTS.md, sections 5 and 9): what the C layer stores, looks up, lists and refuses. Expectations are by the rule.
use layer::{choice, complete, complete_both, find, find_module, made, register, Asked, Bytes, Output};
use model::gen::{completion_query, registered_memory, Rng};
use model::layout::{record, Memory, BINDINGS_BRANCH};
use model::limits::{MALFORMED, UNSOUND};
use model::model::{Ask, Item, Kind, Registration};
use name_console::{bytes, sys};

fn name(host: &str, id: &str, item: Item) -> Registration {
    Registration::Name { host: host.into(), id: id.into(), item }
}

fn include(host: &str, included: &str) -> Registration {
    Registration::Include { host: host.into(), included: included.into() }
}

fn t(number: u32) -> Item {
    Item::timer(number)
}

fn p(number: u32) -> Item {
    Item::port(number)
}

fn r(number: u32) -> Item {
    Item::register(number)
}

/// A Timer at the root; a Port, a Timer and a Register in io, which is included at the root.
fn plant() -> Bytes {
    made(&[name("", "a", t(1)), name("io.", "bb", p(1)), name("io.", "ccc", t(2)), name("io.", "d", r(1)), include("", "io.")])
}

/// The numbers of its records that hold an item of names.
fn items(m: &Memory) -> Vec<usize> {
    (0..m.header.records as usize).filter(|&n| record(&m.words, n)[0] == BINDINGS_BRANCH).collect()
}

#[test]
fn a_look_up_gives_kind_and_number() {
    let mut table = made(&[name("", "a", t(5)), name("h.", "b", p(u32::MAX)), name("h.", "c", r(0))]);
    let reply = |table: &Bytes, query: &str| {
        let r = bytes::find_item(&table.state, &table.words, &table.text, query.as_bytes());
        (r.answer, r.kind, r.number)
    };
    assert_eq!(reply(&table, "a."), (0, 1, 5));
    assert_eq!(reply(&table, "h.b."), (0, 2, u32::MAX));
    assert_eq!(reply(&table, "h.c."), (0, 3, 0));
    assert_eq!(reply(&table, "h."), (sys::NONE, 0, 0));
    assert_eq!(reply(&table, "h"), (MALFORMED, 0, 0));
    // The later item replaces the earlier one, also where the kind alone differs.
    for item in [p(5), r(5), t(5), t(6)] {
        assert_eq!(register(&mut table, &name("", "a", item), None), 0);
        assert_eq!(find(&table, b"a."), Ok(Some(item)));
    }
}

/// Word 5 of the branch is the number, word 6 the kind, of records and of lines.
#[test]
fn words_of_items() {
    let table = made(&[name("", "a", p(7))]);
    let m = table.memory().unwrap();
    let branch = record(&m.words, items(&m)[0]);
    assert_eq!((branch[5], branch[6]), (7, 2));
    let mut out = Output::with_room(1, 1);
    assert_eq!(complete(&table, Ask::Names(None), b"", 1, &mut out), Ok((1, 1)));
    assert_eq!((out.words(0)[5], out.words(0)[6]), (7, 2));
}

#[test]
fn a_completion_keeps_the_kind_asked_for() {
    let table = plant();
    let all = [
        (-1, "a", "", t(1)),
        (-1, "bb", "io", p(1)),
        (-1, "ccc", "io", t(2)),
        (-1, "d", "io", r(1)),
        (-1, "io.bb", "", p(1)),
        (-1, "io.ccc", "", t(2)),
        (-1, "io.d", "", r(1)),
    ];
    for kind in [None, Some(Kind::Timer), Some(Kind::Port), Some(Kind::Register)] {
        let kept: Vec<_> = all.iter().filter(|l| kind.is_none_or(|k| l.3.kind == k)).collect();
        let (lines, bytes) = (kept.len(), kept.iter().map(|l| l.1.len() + l.2.len()).sum());
        let answer = |lines, bytes, budget| {
            let mut out = Output::with_room(lines, bytes);
            (complete_both(&table, Ask::Names(kind), b"", budget, &mut out).map(|(lines, entered, _)| (lines, entered)), out)
        };
        // The dropped lines take no output, and tries entered are those of all kinds.
        let (listed, out) = answer(lines, bytes, 2);
        assert_eq!(listed, Ok((lines as u32, 2)), "{kind:?}");
        for (k, (length, candidate, annotation, item)) in kept.into_iter().enumerate() {
            let l = out.name(k);
            assert_eq!((l.match_length, &l.candidate[..], &l.annotation[..], l.item), (*length, candidate.as_bytes(), annotation.as_bytes(), *item));
        }
        assert_eq!(answer(lines - 1, bytes, 2).0, Err(10), "{kind:?}");
        assert_eq!(answer(lines, bytes - 1, 2).0, Err(10), "{kind:?}");
        assert_eq!(answer(lines, bytes, 1).0, Err(9), "{kind:?}");
    }
}

/// Of any table: lent what the lines of a kind need, they are listed, with the tries of all kinds; lent less, they are not.
#[test]
fn dropped_lines_take_no_output() {
    let mut rng = Rng::new(Rng::seed_or(24));
    // By kind: listings of which some lines are dropped.
    let mut dropped = [0; 3];
    for _ in 0..30 {
        let table = Bytes::of(&registered_memory(&mut rng, 40, 1000, 8000));
        for _ in 0..10 {
            let query = completion_query(&mut rng);
            let mut out = Output::with_room(1000, 30_000);
            let Ok((count, entered)) = complete(&table, Ask::Names(None), &query, u32::MAX, &mut out) else { continue };
            let all: Vec<_> = (0..count as usize).map(|k| out.name(k)).collect();
            for kind in Kind::ALL {
                let kept: Vec<_> = all.iter().filter(|l| l.item.kind == kind).collect();
                if kept.is_empty() || kept.len() == all.len() {
                    continue;
                }
                dropped[kind as usize - 1] += 1;
                let (lines, bytes) = (kept.len(), kept.iter().map(|l| l.candidate.len() + l.annotation.len()).sum::<usize>());
                let mut out = Output::with_room(lines, bytes);
                let answer = complete_both(&table, Ask::Names(Some(kind)), &query, entered, &mut out);
                assert_eq!(answer.map(|(lines, entered, _)| (lines, entered)), Ok((lines as u32, entered)), "{query:?}");
                assert!(kept.iter().enumerate().all(|(k, line)| out.name(k) == **line), "{query:?}");
                for (asked, lines, bytes) in [(Some(kind), lines - 1, bytes), (Some(kind), lines, bytes - 1), (None, lines, bytes)] {
                    let answer = complete_both(&table, Ask::Names(asked), &query, entered, &mut Output::with_room(lines, bytes));
                    assert_eq!(answer, Err(10), "{query:?}");
                }
            }
        }
    }
    println!("listings with lines dropped, by kind: {dropped:?}");
    assert!(dropped.iter().all(|&n| 0 < n), "{dropped:?}");
}

/// Of equal names the first holder is listed, whatever kind is asked for: a name is listed among the kind that look-up finds, and no other.
#[test]
fn the_first_holder_decides_before_the_kind() {
    let table = made(&[name("Saved.", "offset", r(1)), include("Live.", "Saved."), name("Live.", "offset", t(3))]);
    let listed = |kind| {
        let mut out = Output::with_room(9, 99);
        let (lines, entered) = complete(&table, Ask::Names(kind), b"Live.", 9, &mut out).unwrap();
        ((0..lines as usize).map(|k| out.name(k).item).collect::<Vec<_>>(), entered)
    };
    assert_eq!(find(&table, b"Live.offset."), Ok(Some(t(3))));
    assert_eq!(listed(None), (vec![t(3)], 2));
    assert_eq!(listed(Some(Kind::Timer)), (vec![t(3)], 2));
    assert_eq!(listed(Some(Kind::Register)), (vec![], 2));
}

/// Each registration, all accepted by [`plant`].
fn registrations() -> Vec<Registration> {
    let io = b"io.".to_vec();
    vec![
        name("", "z", r(1)),
        include("", ""),
        Registration::OpenNamespace { host: b"n.".to_vec(), included: io.clone() },
        Registration::OpenModule { host: b"m.".to_vec(), included: io.clone() },
        Registration::Alias { key: b"k".to_vec(), host: vec![], included: io },
        Registration::Module { loaded: true, query: b"A.".to_vec(), path: vec![] },
    ]
}

#[test]
fn a_kind_that_is_none_is_unsound_in_a_record() {
    let m = plant().memory().unwrap();
    let branches = items(&m);
    // Of io the first name is copied for the second, and both for the third.
    assert_eq!(branches.len(), 1 + 1 + 2 + 3);
    for number in branches {
        for (kind, sound) in [(1, true), (2, true), (3, true), (0, false), (4, false), (256 + 1, false), (u32::MAX, false)] {
            let mut m = m.clone();
            m.words[number * 12 + 6] = kind;
            let table = Bytes::of(&m);
            // Sound, every call is accepted but those with a number that is no choice.
            let answers = |answer: u32, odd: bool| assert_eq!(answer, if !sound { UNSOUND } else if odd { MALFORMED } else { 0 }, "record {number}, kind {kind}");
            for call in registrations() {
                for odd in [None, Some(4), Some(u32::MAX)] {
                    let mut now = table.clone();
                    let answer = register(&mut now, &call, odd);
                    answers(answer, odd.is_some() && choice(&call).is_some());
                    assert!(answer == 0 || now == table, "a refused call changed something: {call:?}");
                }
            }
            answers(find(&table, b"a.").err().unwrap_or(0), false);
            answers(find_module(&table, b"a.").err().unwrap_or(0), false);
            let odd = [4, u32::MAX].map(|n| [Asked::Names(n), Asked::Modules(n)]);
            for (k, asked) in Ask::ALL.map(Asked::from).iter().chain(odd.as_flattened()).enumerate() {
                answers(complete_both(&table, *asked, b"", 9, &mut Output::with_room(9, 99)).err().unwrap_or(0), Ask::ALL.len() <= k);
            }
        }
    }
}

/// A kind's number that stands for none is Malformed like a byte that is not allowed: before Empty and all that follows.
#[test]
fn a_number_that_is_no_kind_is_malformed() {
    let table = plant();
    for kind in [0, 4, 256 + 3, 1 << 31, u32::MAX] {
        for call in [name("", "z", r(1)), name("", "", r(1)), name(".", "z", r(1)), name("", &"n".repeat(32), r(1)), name(&"s.".repeat(17), "z", r(1))] {
            let mut now = table.clone();
            assert_eq!(register(&mut now, &call, Some(kind)), MALFORMED, "{call:?} {kind}");
            assert!(now == table, "a refused call changed something: {call:?}");
            assert_ne!(register(&mut now, &call, None), MALFORMED, "{call:?}");
        }
        let mut out = Output::with_room(9, 99);
        let answer = complete_both(&table, Asked::Names(kind), b"", 9, &mut out);
        assert_eq!(answer.err(), (kind != 0).then_some(MALFORMED), "{kind}");
    }
}
