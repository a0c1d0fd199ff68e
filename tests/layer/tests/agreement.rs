//! Pane and look-up (docs/REQUIREMENTS.md, section 2, demand 3): what the C layer lists is what it finds, on both roots. Expectations are by the rule.
use layer::{complete_both, find, find_module, made, register, Bytes, Output};
use model::agreement::{hold, on_registered_tables, on_written_tables, Met};
use model::gen::Rng;
use model::layout::{decode, Memory, BINDINGS_LIST, MODULES, NAMESPACES_LIST};
use model::model::{Ask, CompletionResult, Filter, Item, Kind, ModSymbol, Registration};
use model::written::Written;

/// The lines of a completion and the tries entered, or the number of the refusal.
fn listed<A>(t: &Bytes, ask: Ask, query: &[u8], line: impl Fn(&Output, usize) -> CompletionResult<A>) -> Result<(Vec<CompletionResult<A>>, u32), u32> {
    let mut out = Output::with_room(300, 9_000);
    let (lines, entered, _) = complete_both(t, ask, query, 4096, &mut out)?;
    Ok(((0..lines as usize).map(|k| line(&out, k)).collect(), entered))
}

/// Both roots of a table; the names first.
fn hold_both(rng: &mut Rng, memory: &Memory, met: &mut [Met; 2]) {
    let (t, table) = (Bytes::of(memory), decode(memory));
    let names = |ask, query: &[u8]| listed(&t, ask, query, |out, k| out.name(k)).map(|(lines, _)| lines);
    hold(&table.names, rng, &|query| find(&t, query), &names, &mut met[0]);
    let modules = |ask, query: &[u8]| listed(&t, ask, query, |out, k| out.module(&t.text, k)).map(|(lines, _)| lines);
    hold(&table.modules, rng, &|query| find_module(&t, query), &modules, &mut met[1]);
}

#[test]
fn tables_that_registrations_make() {
    on_registered_tables(25, &hold_both);
}

#[test]
fn tables_written_record_by_record() {
    on_written_tables(26, &hold_both);
}

fn name(host: &str, id: &str, item: Item) -> Registration {
    Registration::Name { host: host.into(), id: id.into(), item }
}

/// The lines of a completion of names as text, and the tries entered.
fn shown(t: &Bytes, kind: Option<Kind>, query: &str) -> (Vec<String>, u32) {
    let (lines, entered) = listed(t, Ask::Names(kind), query.as_bytes(), |out, k| out.name(k)).unwrap();
    let text = |s: &[u8]| String::from_utf8(s.to_vec()).unwrap();
    (lines.iter().map(|l| format!("{} {} {} [{}]", l.match_length, l.item, text(&l.candidate), text(&l.annotation))).collect(), entered)
}

/// Of bindings the first holder gives item and annotation: an imported list, another one in front of it, a tree, an imported list again.
#[test]
fn the_first_holder_in_bindings() {
    let mut t = made(&[name("old.", "x", Item::register(1)), name("new.", "x", Item::port(2))]);
    let include = |from: &str| Registration::Include { host: vec![], included: from.into() };
    for (call, item, line) in [
        (include("old."), Item::register(1), "1 r1 x [old]"),
        (include("new."), Item::port(2), "1 p2 x [new]"),
        (name("", "x", Item::timer(3)), Item::timer(3), "1 t3 x []"),
        (include("old."), Item::register(1), "1 r1 x [old]"),
    ] {
        assert_eq!(register(&mut t, &call, None), 0);
        assert_eq!(find(&t, b"x."), Ok(Some(item)));
        assert_eq!(shown(&t, None, "x."), (vec![line.to_string()], 1));
        for kind in Kind::ALL {
            assert_eq!(shown(&t, Some(kind), "x.").0.len(), usize::from(kind == item.kind), "{kind:?}");
        }
    }
}

/// Of namespaces it gives what is below and, to names of the root's, the annotation; the tries behind it are not entered.
#[test]
fn the_first_holder_in_namespaces() {
    let mut t = made(&[name("m.s.", "y", Item::register(1)), name("m.s.t.", "z", Item::register(2)), name("n.s.", "w", Item::port(3))]);
    let open = |from: &str| Registration::OpenNamespace { host: vec![], included: from.into() };
    let alias = Registration::Alias { key: b"s".to_vec(), host: vec![], included: b"m.s.".to_vec() };
    let names = ["s.y.", "s.t.z.", "s.w."];
    for (call, found, lines, entered) in [
        (open("m."), [Some(Item::register(1)), Some(Item::register(2)), None], &["2 r1 s.y [m]", "2 r2 s.t.z [m]"][..], 3),
        (open("n."), [None, None, Some(Item::port(3))], &["2 p3 s.w [n]"], 2),
        (alias, [Some(Item::register(1)), None, None], &["2 r1 s.y []"], 2),
    ] {
        assert_eq!(register(&mut t, &call, None), 0);
        assert_eq!(names.map(|q| find(&t, q.as_bytes()).unwrap()), found);
        assert_eq!(shown(&t, None, "s.."), (lines.iter().map(|l| l.to_string()).collect(), entered));
    }
}

/// The same of modules, in tables that no call makes: two trees have the Module A and the namespace S, one of them in an imported list.
#[test]
fn the_first_holder_among_modules() {
    for (loaded, imported) in [(true, false), (true, true), (false, false), (false, true)] {
        let mut t = Written { base: MODULES, ..Written::default() };
        let (a, s, path) = (t.key("A"), t.key("S"), t.key("a"));
        // The last holder first: each has its own name below S.
        let (mut bindings, mut namespaces) = (0, 0);
        for (key, loaded) in [("Last", !loaded), ("First", loaded)] {
            let module = t.module(a, path, loaded);
            let key = t.key(key);
            let leaf = t.leaf(key, 0, 0);
            let list = t.tree(BINDINGS_LIST, leaf, 0);
            let below = t.trie(list, 0);
            let space = t.space(s, 0, 0, below);
            let put = |t: &mut Written, kind, tree, rest| match imported {
                false => t.tree(kind, tree, rest),
                true => {
                    let own = t.tree(kind, tree, 0);
                    t.import(kind, own, rest)
                }
            };
            bindings = put(&mut t, BINDINGS_LIST, module, bindings);
            namespaces = put(&mut t, NAMESPACES_LIST, space, namespaces);
        }
        let root = t.trie(bindings, namespaces);
        let t = Bytes::of(&t.memory(root));
        let kept = |filter| {
            let (lines, entered) = listed(&t, Ask::Modules(filter), b"", |out, k| out.module(&t.text, k)).unwrap();
            let line = |l: CompletionResult<ModSymbol>| String::from_utf8([&l.candidate[..], &l.annotation].concat()).unwrap();
            (lines.into_iter().map(line).collect::<Vec<_>>(), entered)
        };
        let module = if loaded { "A mod " } else { "A(mod)" };
        assert_eq!(kept(Filter::All), (vec![module.to_string(), "S.First(ns)".to_string()], 2));
        assert_eq!(kept(Filter::Loaded), (if loaded { vec![module.to_string()] } else { vec![] }, 2));
        assert_eq!(kept(Filter::ModulesOnly), (vec![module.to_string()], 2));
        assert_eq!(kept(Filter::NamespacesOnly), (vec!["S.First(ns)".to_string()], 2));
        assert_eq!(find_module(&t, b"A.").unwrap().map(|m| m.loaded()), Some(loaded));
        assert_eq!([b"S.First.", &b"S.Last."[..]].map(|q| find_module(&t, q).unwrap().is_some()), [true, false]);
    }
}
