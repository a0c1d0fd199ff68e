//! The cases and refusals of docs/REQUIREMENTS.md through the safe calls. Every expected number and text stands there.
use name_console::{Filter, Item, Kind, Listing, Output, Refusal, Shared, Symbol, Table};

fn r(number: u32) -> Item {
    Item::register(number)
}

/// Table T.
fn t() -> Table {
    let mut t = Table::new(100, 1000);
    t.insert("Saved.", "offset", r(1)).unwrap();
    t.register_include("Live.", "Saved.").unwrap();
    t.insert("Saved.", "late", r(2)).unwrap();
    t.insert("Live.", "offset", r(3)).unwrap();
    t
}

/// The lines of a completion as (match length, item, annotation, candidate), and the tries entered.
fn listed(t: &Table, kind: Option<Kind>, query: &str) -> (Vec<(i32, Item, String, String)>, u32) {
    let mut output = Output::new(10, 200);
    let listing = t.complete(kind, query, 4096, &mut output).unwrap();
    let text = |s: &[u8]| String::from_utf8(s.to_vec()).unwrap();
    let lines: Vec<_> = listing.iter().map(|l| (l.match_length, l.item, text(l.annotation), text(l.candidate))).collect();
    assert_eq!((listing.len(), listing.is_empty(), listing.line(lines.len())), (lines.len(), lines.is_empty(), None));
    (lines, listing.entered)
}

fn line(length: i32, item: Item, annotation: &str, candidate: &str) -> (i32, Item, String, String) {
    (length, item, annotation.into(), candidate.into())
}

#[test]
fn names() {
    let mut fresh = Table::new(3, 4);
    fresh.insert("", "tick", r(5)).unwrap();
    assert_eq!((fresh.records_used(), fresh.text_used()), (3, 4));
    let mut t = t();
    assert_eq!((t.records_used(), t.text_used()), (26, 44));
    assert_eq!(t.find("Live.late."), Ok(None));
    assert_eq!(t.find("Saved.late."), Ok(Some(r(2))));
    assert_eq!(t.find(b"Live.offset."), Ok(Some(r(3))));
    t.register_alias("K", "Live.", "Saved.").unwrap();
    assert_eq!((t.records_used(), t.find("Live.K.late.")), (35, Ok(Some(r(2)))));
}

#[test]
fn completions() {
    let mut t = t();
    assert_eq!(listed(&t, None, "Live.off."), (vec![line(8, r(3), "", "Live.offset")], 2));
    let all = |l| vec![line(l, r(3), "", "Live.offset"), line(l, r(2), "", "Saved.late"), line(l, r(1), "", "Saved.offset")];
    assert_eq!(listed(&t, None, ""), (all(-1), 3));
    assert_eq!(listed(&t, None, "."), (all(0), 3));
    assert_eq!(listed(&t, None, "None."), (vec![], 1));
    t.register_include("", "Saved.").unwrap();
    assert_eq!(listed(&t, None, "off.").0, vec![line(3, r(1), "Saved", "offset")]);
}

/// Items of one number and three kinds, all of them and each.
#[test]
fn kinds() {
    let mut t = Table::new(100, 1000);
    t.insert("", "a", Item::timer(7)).unwrap();
    t.insert("io.", "b", Item::port(7)).unwrap();
    t.insert("io.", "c", Item::register(7)).unwrap();
    assert_eq!((t.find("a."), t.find("io.b."), t.find("io.c.")), (Ok(Some(Item::timer(7))), Ok(Some(Item::port(7))), Ok(Some(Item::register(7)))));
    let lines = [line(-1, Item::timer(7), "", "a"), line(-1, Item::port(7), "", "io.b"), line(-1, Item::register(7), "", "io.c")];
    assert_eq!(listed(&t, None, ""), (lines.to_vec(), 2));
    for (kind, line) in Kind::ALL.into_iter().zip(lines) {
        assert_eq!(listed(&t, Some(kind), ""), (vec![line], 2));
    }
    // The lines left out take no output.
    let mut output = Output::new(1, 4);
    assert_eq!(t.complete(Some(Kind::Port), "", 2, &mut output).unwrap().len(), 1);
    assert_eq!(t.complete(None, "", 2, &mut output).err(), Some(Refusal::Lines));
    assert_eq!(t.complete_shared(Some(Kind::Register), "", 2, &mut output).unwrap().beginning, b"io.c");
    // Another kind replaces an item of the same number.
    t.insert("", "a", Item::port(7)).unwrap();
    assert_eq!((t.find("a."), listed(&t, Some(Kind::Timer), "")), (Ok(Some(Item::port(7))), (vec![], 2)));
}

/// A name that two holders have: each line is what a look-up finds, and what it finds is listed when it is asked for in full.
#[test]
fn lines_are_what_is_found() {
    let mut t = t();
    t.insert("Live.", "late", Item::timer(4)).unwrap();
    t.register_include("Live.", "Saved.").unwrap();
    t.register_include("", "Saved.").unwrap();
    t.insert("", "late", Item::port(5)).unwrap();
    let (lines, entered) = listed(&t, None, "");
    let expected = [
        line(-1, Item::port(5), "", "late"),
        line(-1, r(1), "Saved", "offset"),
        line(-1, r(2), "", "Live.late"),
        line(-1, r(1), "", "Live.offset"),
        line(-1, r(2), "", "Saved.late"),
        line(-1, r(1), "", "Saved.offset"),
    ];
    assert_eq!((&lines[..], entered), (&expected[..], 3));
    for (_, item, annotation, candidate) in lines {
        let query = format!("{candidate}.");
        assert_eq!(t.find(&query), Ok(Some(item)), "{query}");
        let in_full = vec![line(candidate.len() as i32, item, &annotation, &candidate)];
        assert_eq!(listed(&t, None, &query).0, in_full, "{query}");
        for kind in Kind::ALL {
            assert_eq!(!listed(&t, Some(kind), &query).0.is_empty(), kind == item.kind, "{query} {kind:?}");
        }
    }
}

#[test]
fn items() {
    for (k, (kind, text)) in [(Kind::Timer, "t5"), (Kind::Port, "p5"), (Kind::Register, "r5")].into_iter().enumerate() {
        let item = Item { kind, number: 5 };
        assert_eq!((item.to_string(), kind.number()), (text.to_string(), k as u32 + 1));
        assert_eq!((Kind::from_number(k as u32 + 1), Kind::ALL[k]), (Some(kind), kind));
        assert_eq!([Item::timer(5), Item::port(5), Item::register(5)].iter().position(|i| *i == item), Some(k));
    }
    assert_eq!((Kind::from_number(0), Kind::from_number(4)), (None, None));
    assert_eq!(Item::port(u32::MAX).to_string(), "p4294967295");
}

#[test]
fn modules() {
    let mut t = Table::new(100, 1000);
    t.register_module(false, "IO.Bus.", "io/bus").unwrap();
    assert_eq!(t.records_used(), 10);
    let namespace = Symbol::Namespace { name: b"IO", loaded: false };
    let module = Symbol::Module { name: b"IO.Bus", path: b"io/bus", loaded: false };
    assert_eq!(t.find_module("IO."), Ok(Some(namespace)));
    assert_eq!(t.find_module("IO.Bus."), Ok(Some(module)));
    assert_eq!(t.find_module("Bus."), Ok(None));
    let mut output = Output::new(10, 200);
    let kept = |filter: Filter, output: &mut Output| -> Vec<(i32, bool, Vec<u8>, Vec<u8>)> {
        let listing = t.complete_modules(filter, "I.", 3, output).unwrap();
        assert_eq!(listing.entered, 3);
        listing.iter().map(|l| (l.match_length, l.item == module, l.annotation.to_vec(), l.candidate.to_vec())).collect()
    };
    let (ns, md) = ((1, false, b"(ns)".to_vec(), b"IO".to_vec()), (1, true, b"(mod)".to_vec(), b"IO.Bus".to_vec()));
    assert_eq!(kept(Filter::All, &mut output), [ns.clone(), md.clone()]);
    assert_eq!(kept(Filter::Loaded, &mut output), []);
    assert_eq!(kept(Filter::ModulesOnly, &mut output), [md]);
    assert_eq!(kept(Filter::NamespacesOnly, &mut output), [ns]);
    t.register_module(true, "IO.Bus.", "x").unwrap();
    assert_eq!(t.find_module("IO.Bus."), Ok(Some(Symbol::Module { name: b"IO.Bus", path: b"x", loaded: true })));
    assert_eq!(t.find_module("IO."), Ok(Some(Symbol::Namespace { name: b"IO", loaded: true })));
}

/// The beginning that the candidates share; lines and tries entered are those of the completion.
fn beginning<'a, Item: PartialEq>(shared: Shared<'a, Item>, listing: Listing<'a, Item>) -> String {
    assert!(shared.listing.iter().eq(listing.iter()));
    assert_eq!(shared.listing.entered, listing.entered);
    String::from_utf8(shared.beginning.to_vec()).unwrap()
}

#[test]
fn shared_beginnings() {
    let mut t = t();
    t.register_module(false, "IO.Bus.", "io/bus").unwrap();
    let output = || (Output::new(10, 200), Output::new(10, 200));
    let names = |kind: Option<Kind>, query: &str| {
        let (mut a, mut b) = output();
        beginning(t.complete_shared(kind, query, 4096, &mut a).unwrap(), t.complete(kind, query, 4096, &mut b).unwrap())
    };
    assert_eq!(names(None, ""), "");
    assert_eq!(names(None, "S."), "Saved.");
    assert_eq!(names(None, "Live.off."), "Live.offset");
    assert_eq!(names(None, "None."), "");
    assert_eq!(names(Some(Kind::Register), "S."), "Saved.");
    assert_eq!(names(Some(Kind::Port), "S."), "");
    let modules = |filter: Filter| {
        let (mut a, mut b) = output();
        beginning(t.complete_modules_shared(filter, "I.", 3, &mut a).unwrap(), t.complete_modules(filter, "I.", 3, &mut b).unwrap())
    };
    assert_eq!(modules(Filter::All), "IO");
    assert_eq!(modules(Filter::Loaded), "");
    assert_eq!(modules(Filter::ModulesOnly), "IO.Bus");
    assert_eq!(modules(Filter::NamespacesOnly), "IO");
}

#[test]
fn opens() {
    let mut t = Table::new(200, 1000);
    t.insert("m.", "x", r(1)).unwrap();
    t.insert("m.s.", "y", r(2)).unwrap();
    t.register_open_module("o.", "m.").unwrap();
    t.register_open_namespace("n.", "m.").unwrap();
    assert_eq!((t.find("o.x."), t.find("o.s.y.")), (Ok(Some(r(1))), Ok(None)));
    assert_eq!((t.find("n.x."), t.find("n.s.y.")), (Ok(None), Ok(Some(r(2)))));
}

/// Each refusal by a call, and the table as it was.
#[test]
fn refusals() {
    let before = t();
    let mut t = before.clone();
    let long = "n".repeat(32);
    assert_eq!(t.insert("Saved", "a", r(1)), Err(Refusal::Malformed));
    assert_eq!(t.insert("Saved.", "", r(1)), Err(Refusal::Empty));
    assert_eq!(t.find(""), Err(Refusal::Empty));
    assert_eq!(t.register_alias(&long, "", ""), Err(Refusal::TooLong));
    assert_eq!(t.register_module(true, "A.", vec![b'p'; 121]), Err(Refusal::TooLong));
    assert_eq!(t.insert("s.".repeat(17), "n", r(1)), Err(Refusal::Deep));
    let mut output = Output::new(2, 33);
    assert_eq!(t.complete(None, "", 2, &mut output).err(), Some(Refusal::Spent));
    assert_eq!(t.complete(None, "", 3, &mut output).err(), Some(Refusal::Lines));
    assert_eq!(t.complete_modules(Filter::All, "", 0, &mut output).err(), Some(Refusal::Spent));
    assert_eq!(t.complete_shared(None, "", 2, &mut output).err(), Some(Refusal::Spent));
    assert_eq!(t.complete_shared(None, "", 3, &mut output).err(), Some(Refusal::Lines));
    assert_eq!(t.complete_modules_shared(Filter::All, "", 0, &mut output).err(), Some(Refusal::Spent));
    assert!(t == before);
    assert_eq!(Table::new(2, 100).insert("", "tick", r(5)), Err(Refusal::Full));
    assert_eq!(Table::new(100, 3).insert("", "tick", r(5)), Err(Refusal::TextFull));
    let mut crowded = Table::new(200, 200);
    (0..96).for_each(|_| crowded.register_include("", "x.").unwrap());
    assert_eq!(crowded.register_include("", "x."), Err(Refusal::Crowded));
    let (state, mut words, text) = t.into_parts();
    words[0] ^= 64;
    let mut unsound = Table::from_parts(state, words, text);
    assert_eq!(unsound.find("Saved.late."), Err(Refusal::Unsound));
    assert_eq!(unsound.find_module("IO."), Err(Refusal::Unsound));
    assert_eq!(unsound.register_open_module("", ""), Err(Refusal::Unsound));
    assert_eq!(unsound.register_open_namespace("", ""), Err(Refusal::Unsound));
    assert_eq!(unsound.complete(None, "", 3, &mut output).err(), Some(Refusal::Unsound));
    assert_eq!(unsound.complete_shared(None, "", 3, &mut output).err(), Some(Refusal::Unsound));
    assert_eq!(unsound.complete_modules_shared(Filter::All, "", 3, &mut output).err(), Some(Refusal::Unsound));
}

#[test]
fn numbers_and_names() {
    let names = ["Unsound", "Malformed", "Empty", "TooLong", "Crowded", "Deep", "Full", "TextFull", "Spent", "Lines"];
    for (k, name) in names.iter().enumerate() {
        let refusal = Refusal::from_number(k as u32 + 1).unwrap();
        assert_eq!((format!("{refusal:?}"), refusal.number()), (name.to_string(), k as u32 + 1));
        assert!(refusal.to_string().starts_with(&format!("{} {name}: ", k + 1)));
    }
    assert_eq!((Refusal::from_number(0), Refusal::from_number(11)), (None, None));
}

/// A table goes on from its bytes.
#[test]
fn parts() {
    let (state, words, text) = t().into_parts();
    let mut again = Table::from_parts(state, words, text);
    assert!(again == t());
    again.insert("", "tick", r(5)).unwrap();
    assert_eq!((again.find("tick."), again.find("Live.offset.")), (Ok(Some(r(5))), Ok(Some(r(3)))));
}

/// Tables are of use in several threads.
#[test]
fn threads() {
    let t = t();
    std::thread::scope(|s| {
        let run = || (0..100).map(|_| t.find("Saved.late.")).collect::<Result<Vec<_>, _>>();
        let (a, b) = (s.spawn(run), s.spawn(run));
        assert_eq!((a.join().unwrap(), b.join().unwrap()), (Ok(vec![Some(r(2)); 100]), Ok(vec![Some(r(2)); 100])));
    });
}
