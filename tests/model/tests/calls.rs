//! Refusals, registrations, look-up and completion.

mod common;
use common::*;
use model::agreement::{hold, Met};
use model::gen::{self, Rng};
use model::layout::*;
use model::listings::Tally;
use model::model::*;
use model::naive::*;
use std::collections::BTreeMap;

fn refused(call: Registration) -> Option<u32> {
    Both::fresh(400, 4000).register(&call).err().map(Refusal::number)
}

#[test]
fn rows_2_to_4_of_registrations() {
    let (n31, n32) = ("n".repeat(31), "n".repeat(32));
    let (p120, p121) = ("p".repeat(120), "p".repeat(121));
    let s18 = "s.".repeat(18);
    for (call, number) in [
        // Row 2.
        (name("a", "i", 1), Some(2)),
        (name("a b.", "i", 1), Some(2)),
        (name("a\u{7f}.", "i", 1), Some(2)),
        (name("[.", "i", 1), Some(2)),
        (name("a.", "i.", 1), Some(2)),
        (name("a.", ".", 1), Some(2)),
        (name("a.", "i j", 1), Some(2)),
        (include("a", ""), Some(2)),
        (include("", "a"), Some(2)),
        (open_module("", "\t."), Some(2)),
        (open_namespace("]", ""), Some(2)),
        (alias("k.", "", ""), Some(2)),
        (alias("k", "é.", ""), Some(2)),
        (alias("k", "", "a..b"), Some(2)),
        (module(true, "A", ""), Some(2)),
        (module(true, "", "\n"), Some(2)),
        (module(true, "", "\u{7f}"), Some(2)),
        (module(true, "", "~ [.]"), None),
        // Row 3.
        (name("", "", 1), Some(3)),
        (name(".", "i", 1), Some(3)),
        (name("a..b.", "i", 1), Some(3)),
        (include(".", ""), Some(3)),
        (include("", "a.."), Some(3)),
        (open_namespace("", ".a."), Some(3)),
        (alias("", "", ""), Some(3)),
        (alias("k", ".", ""), Some(3)),
        (module(true, ".", ""), Some(3)),
        (module(true, "", ""), None),
        // Row 4.
        (name("", &n31, 1), None),
        (name("", &n32, 1), Some(4)),
        (name(&format!("{n32}."), "i", 1), Some(4)),
        (name(&s18, "i", 1), Some(4)),
        (include("", &format!("a.{n32}.")), Some(4)),
        (include("", &s18), Some(4)),
        (open_namespace(&s18, ""), Some(4)),
        (alias(&n32, "", ""), Some(4)),
        (alias("k", "", &s18), Some(4)),
        (module(false, &format!("{n32}."), ""), Some(4)),
        (module(false, &s18, ""), Some(4)),
        (module(false, "", &p120), None),
        (module(false, "", &p121), Some(4)),
        // The lowest number over all arguments.
        (name(".", &format!("{n32}.i"), 1), Some(2)),
        (name(&n32, "", 1), Some(2)),
        (name(&format!("{n32}."), "", 1), Some(3)),
        (name(&"s.".repeat(17), &n32, 1), Some(4)),
        (include(&s18, "a.."), Some(3)),
        (include(&s18, "a"), Some(2)),
        (alias("", "a", ""), Some(2)),
        (alias(&n32, "", "."), Some(3)),
        (module(true, "..", &p121), Some(3)),
        (module(true, &s18, "\0"), Some(2)),
    ] {
        assert_eq!(refused(call.clone()), number, "{call:?}");
    }
}

#[test]
fn row_5_crowded() {
    // Each include of nothing weighs one.
    let mut both = Both::fresh(3000, 9000);
    for _ in 0..95 {
        both.register(&include("h.", "x.")).unwrap();
    }
    let mut other = Both { table: both.table.clone(), memory: both.memory.clone() };
    // An imported list weighs one more than itself.
    both.register(&include("i.", "h.")).unwrap();
    assert_eq!(both.register(&include("i.", "x.")), Err(Refusal::Crowded));
    both.register(&include("h.", "x.")).unwrap();
    // No tree leads the list: a new one would be put in front.
    assert_eq!(both.register(&name("h.", "a", 1)), Err(Refusal::Crowded));
    assert_eq!(both.register(&alias("k", "", "h.")), Err(Refusal::Crowded));
    assert_eq!(both.register(&include("j.", "h.")), Err(Refusal::Crowded));
    assert_eq!(both.register(&name("h.b.", "a", 1)).err(), None);
    // A tree leads the list: its weight stays.
    other.register(&name("h.", "a", 1)).unwrap();
    other.register(&name("h.", "b", 2)).unwrap();
    assert_eq!(other.register(&include("h.", "")), Err(Refusal::Crowded));
}

#[test]
fn row_5_before_6_before_7_before_8() {
    let mut both = Both::fresh(2000, 9000);
    for _ in 0..96 {
        both.register(&open_namespace("", "x.")).unwrap();
    }
    let deep = "s.".repeat(17);
    assert_eq!(both.register(&name(&deep, "i", 1)), Err(Refusal::Crowded));
    let mut both = Both::fresh(1, 1);
    assert_eq!(both.register(&name(&deep, "i", 1)), Err(Refusal::Deep));
    assert_eq!(both.register(&name(&"s.".repeat(16), "i", 1)), Err(Refusal::Full));
    let mut both = Both::fresh(100, 1);
    assert_eq!(both.register(&name(&"s.".repeat(16), "i", 1)), Err(Refusal::TextFull));
}

#[test]
fn row_6_deep() {
    let host = |n: usize| "s.".repeat(n);
    let mut both = Both::fresh(2000, 9000);
    both.register(&name(&host(16), "i", 1)).unwrap();
    assert_eq!(both.register(&alias("k", &host(16), "")), Err(Refusal::Deep));
    both.register(&alias("k", &host(15), "")).unwrap();
    assert_eq!(both.register(&open_namespace("t.", "")), Err(Refusal::Deep));
    both.register(&open_namespace("t.", "s.")).unwrap();
    assert_eq!(both.register(&module(true, &host(17), "")), Err(Refusal::Deep));
    both.register(&module(true, &host(16), "")).unwrap();
    // A trie behind an earlier holder counts: s is held by the imported list
    // too, with all its depth.
    let mut both = Both::fresh(2000, 9000);
    both.register(&name(&host(15), "i", 1)).unwrap();
    both.register(&open_namespace("", "")).unwrap();
    both.register(&alias("s", "", "none.")).unwrap();
    assert_eq!(both.find(&format!("{}i.", host(15))), Ok(None));
    assert_eq!(trie_depth(&both.table.names), 15);
    // An alias in the leading tree takes depth away.
    let mut both = Both::fresh(2000, 9000);
    both.register(&name(&host(16), "i", 1)).unwrap();
    both.register(&alias("s", "", "none.")).unwrap();
    assert_eq!(trie_depth(&both.table.names), 1);
}

#[test]
fn at_most_65536_records_and_bytes_are_used() {
    // More is lent than may be used. The call takes 3 records, 4 bytes.
    let lent = Lent { words: 12 * 70_000, text: 70_000 };
    let with = |records, text| {
        let table = Table { records, text, ..Table::default() };
        register(&table, lent, &name("", "tick", 5)).map(|new| (new.records, new.text))
    };
    assert_eq!(with(65_533, 65_532), Ok((65_536, 65_536)));
    assert_eq!(with(65_534, 65_532), Err(Refusal::Full));
    assert_eq!(with(65_533, 65_533), Err(Refusal::TextFull));
    assert_eq!(with(65_536, 65_536), Err(Refusal::Full));
    // A call that takes nothing is accepted also then.
    let full = Table { records: 65_536, text: 65_536, ..Table::default() };
    assert!(register(&full, lent, &module(true, "", "")).is_ok());
    assert_eq!(register(&full, lent, &module(true, "", "p")).err(), Some(Refusal::TextFull));
    assert_eq!(register(&full, lent, &include("", "")).err(), Some(Refusal::Full));
}

#[test]
fn rows_of_look_up() {
    let both = Both::t();
    let q = |n: usize| "s.".repeat(n);
    for (query, number) in [
        ("Live.offset", 2),
        (" .", 2),
        ("[.", 2),
        ("", 3),
        (".", 3),
        ("Live..", 3),
        (".Live.", 3),
        (&q(18)[..], 4),
        (&format!("{}.", "n".repeat(32))[..], 4),
        (&format!("{}..", "n".repeat(32))[..], 3),
    ] {
        assert_eq!(both.find(query), Err(number), "{query}");
        let modules = find(&both.table.modules, query.as_bytes()).map_err(Refusal::number);
        assert_eq!(modules, Err(number), "{query}");
    }
    assert_eq!(both.find(&q(17)), Ok(None));
    assert_eq!(both.find("Live."), Ok(None));
}

#[test]
fn rows_of_completions() {
    let both = Both::t();
    let q = |n: usize| ".".repeat(n);
    for (query, number) in [
        ("Live", 2),
        (" .", 2),
        (&q(18)[..], 4),
        (&format!("{}.", "n".repeat(32))[..], 4),
        (&"n".repeat(32)[..], 2),
    ] {
        assert_eq!(both.complete(query), Err(number), "{query}");
        assert_eq!(both.modules(query, Filter::All), Err(number), "{query}");
    }
    assert_eq!(both.complete(&q(17)), Ok((vec![], 3)));
    assert_eq!(both.complete("Live.."), Ok((vec![("Live.offset".into(), r(3), 5, "".into())], 2)));
    // Rows 2 and 4 come before 9.
    assert_eq!(autocomplete_lid(&both.table, b"a", None, 0).err(), Some(Refusal::Malformed));
    assert_eq!(autocomplete_lid(&both.table, &[DOT; 18], None, 0).err(), Some(Refusal::TooLong));
    assert_eq!(autocomplete_lid(&both.table, b"", None, 0).err(), Some(Refusal::Spent));
    let empty = Table::default();
    assert_eq!(autocomplete_lid(&empty, b"", None, 0).err(), Some(Refusal::Spent));
    assert_eq!(autocomplete_lid(&empty, b"", None, 1), Ok((vec![], 1)));
}

#[test]
fn lines_fit_exactly() {
    let mut both = Both::t();
    both.register(&include("", "Saved.")).unwrap();
    // late, offset with annotation Saved each, and the three others.
    let bytes = 4 + 5 + 6 + 5 + 11 + 10 + 12;
    let complete = |lines: usize, text: usize| {
        let (mut lines, mut text) = (blank_lines(lines, r(0)), vec![b'x'; text]);
        let answer = complete_names(&both.table, b"", None, 9, &mut lines, &mut text);
        (answer.map_err(Refusal::number), lines, text)
    };
    assert_eq!(complete(4, 100), (Err(10), blank_lines(4, r(0)), vec![b'x'; 100]));
    assert_eq!(complete(5, bytes - 1), (Err(10), blank_lines(5, r(0)), vec![b'x'; bytes - 1]));
    let (answer, lines, text) = complete(5, bytes);
    assert_eq!(answer, Ok(Listed { lines: 5, entered: 3 }));
    assert_eq!(text, b"lateSavedoffsetSavedLive.offsetSaved.lateSaved.offset");
    let span = |start, length| Span { start, length };
    let spans: Vec<(Span, Span)> = lines.iter().map(|l| (l.candidate, l.annotation)).collect();
    assert_eq!(
        spans,
        [
            (span(0, 4), span(4, 5)),
            (span(9, 6), span(15, 5)),
            (span(20, 11), span(31, 0)),
            (span(31, 10), span(41, 0)),
            (span(41, 12), span(53, 0)),
        ]
    );
    let (_, lines, text) = complete(7, bytes + 2);
    assert_eq!(lines[5..], blank_lines(2, r(0)));
    assert_eq!(text[bytes..], *b"xx");
}

#[test]
fn shared_lengths() {
    // After every candidate an annotation that would go on alike.
    let shared = |candidates: &[&str]| {
        let line = |c: &&str| CompletionResult {
            match_length: 0,
            item: (),
            candidate: c.as_bytes().into(),
            annotation: b".Bus"[..].into(),
        };
        shared_length(&candidates.iter().map(line).collect::<Vec<_>>())
    };
    for (candidates, length) in [
        (&[][..], 0),
        (&["Live.offset"], 11),
        // One is a beginning of another.
        (&["IO", "IO.Bus"], 2),
        (&["IO.Bus", "IO"], 2),
        (&["IO.B", "IO.Bus", "IO"], 2),
        // They part in the first byte, in a later one, at the last.
        (&["late", "offset"], 0),
        (&["Saved.late", "Saved.offset"], 6),
        (&["ab", "ac"], 1),
        // Equal bytes after that do not count.
        (&["axb", "ayb"], 1),
        // The third shortens it; the second does, and the third leaves it so.
        (&["Live.offset", "Live.on", "Lost.on"], 1),
        (&["Live.offset", "Live.on", "x"], 0),
        (&["Live.offset", "Lost.on", "Live.on"], 1),
    ] {
        assert_eq!(shared(candidates), length, "{candidates:?}");
    }
}

#[test]
fn shared_lengths_of_listings() {
    let mut both = Both::t();
    let names = |both: &Both, query: &str| {
        let (lines, _) = autocomplete_lid(&both.table, query.as_bytes(), None, 9).unwrap();
        (lines.len(), shared_length(&lines))
    };
    assert_eq!(names(&both, ""), (3, 0));
    assert_eq!(names(&both, "S."), (2, 6));
    assert_eq!(names(&both, "Live.off."), (1, 11));
    assert_eq!(names(&both, "None."), (0, 0));
    // What the kind drops does not count.
    both.register(&named("Saved.", "offcut", p(1))).unwrap();
    let of_kind = |kind| {
        let (lines, _) = autocomplete_lid(&both.table, b"S.o.", kind, 9).unwrap();
        (lines.len(), shared_length(&lines))
    };
    assert_eq!(of_kind(None), (2, 9));
    assert_eq!(of_kind(Some(Kind::Port)), (1, 12));
    assert_eq!(of_kind(Some(Kind::Register)), (1, 12));
    assert_eq!(of_kind(Some(Kind::Timer)), (0, 0));
    // What the filter drops does not count.
    both.register(&module(true, "IO.Bus.", "io/bus")).unwrap();
    both.register(&module(false, "IO.Bit.", "")).unwrap();
    let modules = |filter| {
        let (lines, _) = autocomplete_mod_or_ns(&both.table, b"I.", filter, 9).unwrap();
        (lines.len(), shared_length(&lines))
    };
    assert_eq!(modules(Filter::All), (3, 2));
    assert_eq!(modules(Filter::Loaded), (2, 2));
    assert_eq!(modules(Filter::ModulesOnly), (2, 4));
    assert_eq!(modules(Filter::NamespacesOnly), (1, 2));
}

#[test]
fn filters() {
    let mut both = Both::fresh(100, 300);
    both.register(&module(true, "A.B.", "ab")).unwrap();
    both.register(&module(false, "C.D.", "cd")).unwrap();
    let names = |filter| -> Vec<String> {
        let (lines, entered) = both.modules("", filter).unwrap();
        assert_eq!(entered, 5);
        lines.into_iter().map(|l| format!("{}{}{}", l.0, l.1, l.3)).collect()
    };
    assert_eq!(names(Filter::All), ["An ns ", "Cn(ns)", "A.Bm mod ", "C.Dm(mod)"]);
    assert_eq!(names(Filter::Loaded), ["An ns ", "A.Bm mod "]);
    assert_eq!(names(Filter::ModulesOnly), ["A.Bm mod ", "C.Dm(mod)"]);
    assert_eq!(names(Filter::NamespacesOnly), ["An ns ", "Cn(ns)"]);
    // Dropped lines take no output.
    let symbol = find(&both.table.modules, b"A.").unwrap().unwrap();
    let fits = |filter, lines, text| {
        let (mut lines, mut text) = (blank_lines(lines, symbol.clone()), vec![0; text]);
        complete_modules(&both.table, b"", filter, 9, &mut lines, &mut text).is_ok()
    };
    assert!(fits(Filter::Loaded, 2, 1 + 4 + 3 + 5));
    assert!(!fits(Filter::Loaded, 1, 13) && !fits(Filter::Loaded, 2, 12));
    assert!(!fits(Filter::All, 2, 13));
}

#[test]
fn kinds() {
    let mut both = Both::fresh(200, 300);
    for call in [
        named("", "a", t(1)),
        named("io.", "bb", p(1)),
        named("io.", "ccc", t(2)),
        named("io.", "d", r(1)),
        include("", "io."),
    ] {
        both.register(&call).unwrap();
    }
    let names = |kind| -> Vec<String> {
        let (lines, entered) = both.names("", kind).unwrap();
        assert_eq!(entered, 2);
        lines.into_iter().map(|l| format!("{} {} {}", l.0, l.1, l.3)).collect()
    };
    assert_eq!(
        names(None),
        ["a t1 ", "bb p1 io", "ccc t2 io", "d r1 io", "io.bb p1 ", "io.ccc t2 ", "io.d r1 "]
    );
    assert_eq!(names(Some(Kind::Timer)), ["a t1 ", "ccc t2 io", "io.ccc t2 "]);
    assert_eq!(names(Some(Kind::Port)), ["bb p1 io", "io.bb p1 "]);
    assert_eq!(names(Some(Kind::Register)), ["d r1 io", "io.d r1 "]);
    // Dropped lines take no output.
    let fits = |kind, lines, text| {
        let (mut lines, mut text) = (blank_lines(lines, r(0)), vec![0; text]);
        complete_names(&both.table, b"", kind, 2, &mut lines, &mut text).is_ok()
    };
    assert!(fits(Some(Kind::Port), 2, 2 + 2 + 5));
    assert!(!fits(Some(Kind::Port), 1, 9) && !fits(Some(Kind::Port), 2, 8));
    assert!(!fits(None, 2, 9) && !fits(Some(Kind::Timer), 2, 9));
}

#[test]
fn items_of_one_number_differ_by_kind() {
    let all = [t(5), p(5), r(5)];
    for (i, item) in all.into_iter().enumerate() {
        let mut both = Both::fresh(40, 100);
        both.register(&named("", "a", item)).unwrap();
        for (k, other) in all.into_iter().enumerate() {
            assert_eq!(item == other, i == k);
            // The later one replaces it, and the tables differ by it alone.
            let mut then = Both { table: both.table.clone(), memory: both.memory.clone() };
            then.register(&named("", "a", other)).unwrap();
            assert_eq!(then.find("a."), Ok(Some(other)));
            assert_eq!(then.names("a.", Some(item.kind)).unwrap().0.is_empty(), i != k);
            let mut again = Both { table: both.table.clone(), memory: both.memory.clone() };
            again.register(&named("", "a", item)).unwrap();
            assert_eq!(same_table(&then.table, &again.table), i == k);
            assert_eq!(then.memory == again.memory, i == k);
        }
    }
}

#[test]
fn modules_and_namespaces_replace_by_the_rules() {
    let text = |s: &str| Str::from(s.as_bytes());
    let namespace = |s: &str, loaded| ModSymbol::Namespace { ns_name: text(s), ns_loaded: loaded };
    let module_of = |s: &str, path: &str, loaded| ModSymbol::Module {
        mod_name: text(s),
        mod_path: text(path),
        mod_loaded: loaded,
    };
    let mut both = Both::fresh(200, 300);
    let mut steps = |call, query: &str, expected| {
        both.register(&call).unwrap();
        assert_eq!(find(&both.table.modules, query.as_bytes()), Ok(Some(expected)));
    };
    steps(module(false, "A.B.", "1"), "A.", namespace("A", false));
    steps(module(true, "A.C.", "2"), "A.", namespace("A", true));
    steps(module(false, "A.D.", "3"), "A.", namespace("A", true));
    steps(module(false, "A.", "4"), "A.", module_of("A", "4", false));
    steps(module(true, "A.E.", "5"), "A.", module_of("A", "4", false));
    steps(module(true, "A.B.", "6"), "A.B.", module_of("A.B", "6", true));
    steps(module(false, "A.B.", "7"), "A.B.", module_of("A.B", "7", true));
    steps(module(false, "A.B.F.", "8"), "A.B.F.", module_of("A.B.F", "8", false));
    steps(module(false, "A.", "9"), "A.B.", module_of("A.B", "7", true));
}

#[test]
fn a_module_is_loaded_where_it_ever_was_registered_so() {
    let mut rng = Rng::new(Rng::seed_or(21));
    // Modules that are loaded, of them registered unloaded last, and not.
    let mut counts = [0; 3];
    for _ in 0..60 {
        let mut both = Both::fresh(400, 1500);
        // Of each query registered: whether ever loaded, and the last flag.
        let mut history: BTreeMap<Vec<u8>, (bool, bool)> = BTreeMap::new();
        let mix = *rng.pick(&gen::MIXES);
        for _ in 0..60 {
            let call = gen::registration(&mut rng, &mix);
            let accepted = both.register(&call).is_ok();
            if let (true, Registration::Module { loaded, query, .. }) = (accepted, call) {
                let ever = history.get(&query).is_some_and(|h| h.0);
                history.insert(query, (ever || loaded, loaded));
            }
        }
        for (query, (ever, last)) in history.iter().filter(|(q, _)| !q.is_empty()) {
            let found = find(&both.table.modules, query).unwrap();
            let Some(ModSymbol::Module { mod_loaded, .. }) = found else {
                panic!("no Module: {query:?}")
            };
            assert_eq!(mod_loaded, *ever, "{query:?}");
            counts[if *ever { usize::from(!*last) } else { 2 }] += 1;
        }
    }
    println!("Modules loaded, of them kept so, and not loaded: {counts:?}");
    assert!(counts.iter().all(|&n| 0 < n), "{counts:?}");
}

#[test]
fn includes_opens_and_aliases() {
    let mut both = Both::fresh(500, 900);
    for call in [name("m.", "x", 1), name("m.s.", "y", 2), name("h.m.", "z", 3)] {
        both.register(&call).unwrap();
    }
    // Include carries bindings only; an open of a module is the same.
    for (host, call) in [("i", include("i.", "m.")), ("o", open_module("o.", "m."))] {
        both.register(&call).unwrap();
        assert_eq!(both.find(&format!("{host}.x.")), Ok(Some(r(1))));
        assert_eq!(both.find(&format!("{host}.s.y.")), Ok(None));
    }
    // An open of a namespace carries namespaces only.
    both.register(&open_namespace("n.", "m.")).unwrap();
    assert_eq!(both.find("n.x."), Ok(None));
    assert_eq!(both.find("n.s.y."), Ok(Some(r(2))));
    // The included query starts at the root, also below a host that has the
    // name itself.
    both.register(&include("h.", "m.")).unwrap();
    assert_eq!(both.find("h.x."), Ok(Some(r(1))));
    assert_eq!(both.find("h.z."), Ok(None));
    // Registering below a namespace held by an imported list copies it into
    // a tree in front; the origin stays.
    both.register(&name("n.s.", "w", 4)).unwrap();
    assert_eq!(both.find("n.s.w."), Ok(Some(r(4))));
    assert_eq!(both.find("n.s.y."), Ok(Some(r(2))));
    assert_eq!(both.find("m.s.w."), Ok(None));
    // The listing enters the copy alone, which has both; the origin has one.
    let line = |text: &str, number| (text.to_string(), r(number), 3, "".to_string());
    assert_eq!(both.complete("n.s."), Ok((vec![line("n.s.w", 4), line("n.s.y", 2)], 3)));
    assert_eq!(both.complete("m.s."), Ok((vec![line("m.s.y", 2)], 3)));
    // An alias replaces the key and has no namespaces.
    both.register(&alias("s", "m.", "h.")).unwrap();
    assert_eq!(both.find("m.s.y."), Ok(None));
    assert_eq!(both.find("m.s.x."), Ok(Some(r(1))));
    both.register(&alias("k", "", "m.")).unwrap();
    assert_eq!(both.find("k.x."), Ok(Some(r(1))));
    assert_eq!(both.find("k.s.x."), Ok(None));
}

#[test]
fn annotations() {
    let mut both = Both::fresh(500, 900);
    both.register(&name("m.s.", "x", 1)).unwrap();
    both.register(&include("k.", "m.s.")).unwrap();
    both.register(&include("", "k.")).unwrap();
    both.register(&open_namespace("", "m.")).unwrap();
    let (lines, _) = both.complete("").unwrap();
    let texts: Vec<(&str, &str)> = lines.iter().map(|l| (&l.0[..], &l.3[..])).collect();
    // The outermost label, of the first element only.
    assert_eq!(texts, [("x", "k"), ("k.x", ""), ("m.s.x", ""), ("s.x", "m")]);
    // An include of the root has the empty label.
    let mut both = Both::fresh(500, 900);
    both.register(&name("", "x", 1)).unwrap();
    both.register(&include("", "")).unwrap();
    both.register(&include("", "")).unwrap();
    let (lines, _) = both.complete("").unwrap();
    assert_eq!(lines, [("x".to_string(), r(1), -1, "".to_string())]);
}

/// Of equal names the first holder gives item, label and what is below.
#[test]
fn the_first_holder_is_listed() {
    let mut both = Both::fresh(500, 900);
    let listed = |both: &mut Both, call, query: &str| {
        both.register(&call).unwrap();
        let (lines, entered) = both.complete(query).unwrap();
        let line = |l: &(String, Item, i32, String)| format!("{} {} {} [{}]", l.2, l.1, l.0, l.3);
        (lines.iter().map(line).collect::<Vec<_>>(), entered)
    };
    both.register(&named("old.", "x", r(1))).unwrap();
    both.register(&named("new.", "x", p(2))).unwrap();
    // Bindings of the root: an imported list, another in front of it, then a
    // tree in front of both.
    let one = |line: &str| (vec![line.to_string()], 1);
    assert_eq!(listed(&mut both, include("", "old."), "x."), one("1 r1 x [old]"));
    assert_eq!(listed(&mut both, include("", "new."), "x."), one("1 p2 x [new]"));
    assert_eq!(listed(&mut both, named("", "x", t(3)), "x."), one("1 t3 x []"));
    assert_eq!(listed(&mut both, include("", "old."), "x."), one("1 r1 x [old]"));
    assert_eq!(both.find("x."), Ok(Some(r(1))));
    // Only the first holder's kind is listed.
    let of_kind = |kind| both.names("x.", Some(kind)).unwrap().0.len();
    assert_eq!(Kind::ALL.map(of_kind), [0, 0, 1]);

    // Namespaces of the root: s by an import, by another one that has none of
    // its names and a trie below it, then by an alias in a tree in front.
    let mut both = Both::fresh(500, 900);
    for call in [named("m.s.", "y", r(1)), named("m.s.t.", "z", r(2)), named("n.s.", "w", p(3))] {
        both.register(&call).unwrap();
    }
    let lines = |all: &[&str], entered| (all.iter().map(|l| l.to_string()).collect(), entered);
    let below = lines(&["2 r1 s.y [m]", "2 r2 s.t.z [m]"], 3);
    assert_eq!(listed(&mut both, open_namespace("", "m."), "s.."), below);
    assert_eq!(listed(&mut both, open_namespace("", "n."), "s.."), lines(&["2 p3 s.w [n]"], 2));
    assert_eq!(listed(&mut both, alias("s", "", "m.s."), "s.."), lines(&["2 r1 s.y []"], 2));
    let found = |query| both.find(query).unwrap();
    assert_eq!([found("s.y."), found("s.t.z."), found("s.w.")], [Some(r(1)), None, None]);
}

#[test]
fn match_lengths() {
    let mut both = Both::fresh(500, 900);
    both.register(&name("abc.def.", "ghi", 1)).unwrap();
    for (query, length) in [
        ("", -1),
        (".", 0),
        ("a.", 1),
        ("abc.", 3),
        ("a..", 4),
        ("ab.d.", 5),
        ("a.def.gh.", 10),
        ("...", 8),
    ] {
        let (lines, _) = both.complete(query).unwrap();
        assert_eq!(lines.len(), 1, "{query}");
        assert_eq!(lines[0].2, length, "{query}");
    }
    assert_eq!(both.complete("abc.def.ghi.."), Ok((vec![], 3)));
    // Earlier segments match namespaces only.
    both.register(&name("", "ab", 2)).unwrap();
    assert_eq!(both.complete("ab..").unwrap().0.len(), 1);
    assert_eq!(both.complete("ab.").unwrap().0.len(), 2);
}

/// Random registrations in the model and in the encoder's memory.
#[test]
fn model_and_memory_agree() {
    let rng = &mut Rng::new(Rng::seed_or(31));
    let mut counts = [0; 11];
    for round in 0..120 {
        let mix = &gen::MIXES[round % 3];
        let mut both = Both::fresh(40 + rng.below(800), 100 + rng.below(1500));
        for _ in 0..60 {
            let call = if rng.one_in(6) {
                gen::damaged_registration(rng, mix)
            } else {
                gen::registration(rng, mix)
            };
            let answer = both.register(&call);
            counts[answer.map_or_else(|r| r.number() as usize, |_| 0)] += 1;
        }
    }
    // Accepted calls and each refusal of rows 2 to 8 came up.
    assert!(counts[0] > 2000, "{counts:?}");
    assert!([2, 3, 4, 5, 6, 7, 8].iter().all(|&n| counts[n] > 0), "{counts:?}");
}

/// What listings of one root were tried on.
#[derive(Debug, Default)]
struct Counts {
    spent: usize,
    /// Listings in which no name has two holders, and with such names: those
    /// that the source lists alike, and otherwise.
    single: usize,
    alike: usize,
    otherwise: usize,
    /// Texts whose lines are other ones in the source's listing, and texts
    /// that are in one of the listings alone: ours, the source's.
    other: usize,
    ours: usize,
    theirs: usize,
    met: Met,
}

impl Counts {
    fn has_names(&self) -> bool {
        self.spent > 20 && self.single > 20 && self.met.has_names()
    }

    /// Each place where the source lists otherwise.
    fn has_holders(&self) -> bool {
        let counts = [self.alike, self.otherwise, self.other, self.ours, self.theirs];
        counts.iter().all(|&n| n > 20) && self.met.has_holders()
    }
}

/// A listing beside the source's, which keeps last holders: they are the same
/// where no name has two, and differ only at names whose walk meets two.
fn beside_the_source<A: Symbol>(
    root: &Trie<A>,
    query: &[Str],
    ours: &Listing<A>,
    counts: &mut Counts,
) {
    let Some(theirs) = listing(root, query, 3_000, Holder::Last) else {
        assert!(ours.most_holders > 1, "{query:?}");
        return;
    };
    if ours.most_holders <= 1 {
        assert_eq!(*ours, theirs, "{query:?}");
        counts.single += 1;
        return;
    }
    let lines = |l: &Listing<A>| -> BTreeMap<Str, CompletionResult<A>> {
        l.lines.iter().map(|line| (line.candidate.clone(), line.clone())).collect()
    };
    let (ours, theirs) = (lines(ours), lines(&theirs));
    *if ours == theirs { &mut counts.alike } else { &mut counts.otherwise } += 1;
    for text in ours.keys().chain(theirs.keys().filter(|text| !ours.contains_key(*text))) {
        let (line, other) = (ours.get(text), theirs.get(text));
        if line == other {
            continue;
        }
        let full_name = segments(&[text, &b"."[..]].concat());
        assert!(walk(root, &full_name, Holder::First).meets_several(), "{query:?} {text:?}");
        *match (line, other) {
            (Some(_), Some(_)) => &mut counts.other,
            (Some(_), None) => &mut counts.ours,
            _ => &mut counts.theirs,
        } += 1;
    }
}

/// A completion by what it asks for, query and budget.
type Complete<'f, A> =
    &'f dyn Fn(Ask, &[u8], u32) -> Result<(Vec<CompletionResult<A>>, u32), Refusal>;

/// On one root: a listing is the naive one, and what is asked for keeps of it
/// what it keeps; look-up and listings agree.
fn check_root<A: Symbol>(
    root: &Trie<A>,
    rng: &mut Rng,
    complete: Complete<A>,
    counts: &mut Counts,
) {
    for _ in 0..6 {
        let query = gen::completion_query(rng);
        let budget = *rng.pick(&[2, 8, 300]);
        let naive = listing(root, &segments(&query), u64::from(budget), Holder::First);
        for ask in A::ASKS {
            let expected = match &naive {
                None => Err(Refusal::Spent),
                Some(l) => {
                    let kept = l.lines.iter().filter(|line| line.item.kept_by(ask)).cloned();
                    Ok((kept.collect(), l.entered as u32))
                }
            };
            assert_eq!(complete(ask, &query, budget), expected, "{ask:?} {query:?}");
        }
        match &naive {
            None => counts.spent += 1,
            Some(ours) => beside_the_source(root, &segments(&query), ours, counts),
        }
    }
    let find = |query: &[u8]| find(root, query).map_err(Refusal::number);
    let listed = |ask, query: &[u8]| match complete(ask, query, 300) {
        Ok((lines, _)) => Ok(lines),
        Err(refusal) => Err(refusal.number()),
    };
    hold(root, rng, &find, &listed, &mut counts.met);
}

/// Both roots; the names first.
fn check_table(table: &Table, rng: &mut Rng, counts: &mut [Counts; 2], tally: &mut Tally) {
    if let Ok((lines, _)) = autocomplete_lid(table, &gen::completion_query(rng), None, 300) {
        tally.all_kinds(&lines);
    }
    let names = |ask, query: &[u8], budget| match ask {
        Ask::Names(kind) => autocomplete_lid(table, query, kind, budget),
        Ask::Modules(_) => unreachable!(),
    };
    check_root(&table.names, rng, &names, &mut counts[0]);
    let modules = |ask, query: &[u8], budget| match ask {
        Ask::Modules(filter) => autocomplete_mod_or_ns(table, query, filter, budget),
        Ask::Names(_) => unreachable!(),
    };
    check_root(&table.modules, rng, &modules, &mut counts[1]);
}

#[test]
fn listings_of_registered_tables() {
    let rng = &mut Rng::new(Rng::seed_or(32));
    let (mut counts, mut tally) = <([Counts; 2], Tally)>::default();
    for round in 0..400 {
        let mut table = Table::default();
        let lent = Lent { words: 12 * 2000, text: 4000 };
        for _ in 0..1 + rng.below(30) {
            let call = gen::registration(rng, &gen::MIXES[round % 3]);
            table = register(&table, lent, &call).unwrap_or(table);
        }
        check_table(&table, rng, &mut counts, &mut tally);
    }
    println!("registered tables, names and modules: {counts:?}");
    let [names, modules] = &counts;
    assert!(names.has_names() && names.has_holders() && tally.has_kinds(), "{names:?} {tally:?}");
    // No call puts a second holder among the modules.
    assert!(modules.has_names() && modules.met.is_single(), "{modules:?}");
}

/// Sound tables of any shape, also such as no registration makes.
#[test]
fn listings_of_other_sound_tables() {
    let rng = &mut Rng::new(Rng::seed_or(33));
    let (mut counts, mut tally) = <([Counts; 2], Tally)>::default();
    for _ in 0..400 {
        let count = 20 + rng.below(120);
        let memory = gen::sound_memory(rng, count);
        check_table(&memory.table().unwrap(), rng, &mut counts, &mut tally);
    }
    println!("other sound tables, names and modules: {counts:?}");
    assert!(counts.iter().all(|c| c.has_names() && c.has_holders()), "{counts:?}");
    assert!(tally.has_kinds(), "{tally:?}");
}

#[test]
fn unsound_memory_is_refused_first() {
    let mut memory = Memory::with_room(10, 10);
    memory.register(&name("", "a", 1)).unwrap();
    memory.words[2 * 12] = 4;
    let before = memory.clone();
    // Row 2 applies too.
    assert_eq!(memory.register(&name("x", "a", 1)), Err(Refusal::Unsound));
    assert_eq!(memory.table().err(), Some(Refusal::Unsound));
    assert!(memory == before);
}
