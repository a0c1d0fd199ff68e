//! A Module registered again as unloaded (docs/REQUIREMENTS.md, section 7): what the C layer keeps, looks up and lists. Expectations are by the rule.
use layer::{complete, find_module, made, register, Bytes, Output};
use model::layout::{BINDINGS_LIST, MODULES};
use model::model::{Ask, Filter, ModSymbol, Registration, Str};
use model::written::{with_free, Written};

fn module(loaded: bool, query: &str, path: &str) -> Registration {
    Registration::Module { loaded, query: query.into(), path: path.into() }
}

/// What look-up gives for a query is this Module.
fn is_module(t: &Bytes, query: &str, name: &str, path: &str, loaded: bool) {
    let text = |s: &str| Str::from(s.as_bytes());
    let expected = ModSymbol::Module { mod_name: text(name), mod_path: text(path), mod_loaded: loaded };
    assert_eq!(find_module(t, query.as_bytes()), Ok(Some(expected)));
}

fn is_namespace(t: &Bytes, query: &str, name: &str, loaded: bool) {
    let expected = ModSymbol::Namespace { ns_name: Str::from(name.as_bytes()), ns_loaded: loaded };
    assert_eq!(find_module(t, query.as_bytes()), Ok(Some(expected)));
}

/// The lines of a completion of everything: candidate and annotation.
fn listed(t: &Bytes, filter: Filter) -> Vec<(String, String)> {
    let mut out = Output::with_room(9, 99);
    let (lines, _) = complete(t, Ask::Modules(filter), b"", 9, &mut out).expect("listed");
    let text = |s: &[u8]| String::from_utf8(s.to_vec()).unwrap();
    let line = |k| out.module(&t.text, k);
    (0..lines as usize).map(|k| (text(&line(k).candidate), text(&line(k).annotation))).collect()
}

fn lines(all: &[(&str, &str)]) -> Vec<(String, String)> {
    all.iter().map(|&(c, a)| (c.to_string(), a.to_string())).collect()
}

/// Records used, from the state's third word.
fn records(t: &Bytes) -> u32 {
    u32::from_le_bytes(t.state[8..12].try_into().unwrap())
}

#[test]
fn loaded_then_unloaded() {
    let mut t = made(&[module(true, "IO.Bus.", "io/bus")]);
    let before = records(&t);
    assert_eq!(register(&mut t, &module(false, "IO.Bus.", "io/new"), None), 0);
    is_module(&t, "IO.Bus.", "IO.Bus", "io/new", true);
    is_namespace(&t, "IO.", "IO", true);
    let all = lines(&[("IO", " ns "), ("IO.Bus", " mod ")]);
    assert_eq!(listed(&t, Filter::All), all);
    assert_eq!(listed(&t, Filter::Loaded), all);
    // In the root a branch and a list of the namespaces, and the trie: the Namespace is not put again. In IO the same, and a branch and a list of the bindings.
    assert_eq!(records(&t) - before, 3 + 5);
    // And again, with another flag and path.
    assert_eq!(register(&mut t, &module(true, "IO.Bus.", ""), None), 0);
    is_module(&t, "IO.Bus.", "IO.Bus", "", true);
}

#[test]
fn unloaded_then_loaded() {
    let mut t = made(&[module(false, "M.", "one"), module(false, "M.", "two")]);
    is_module(&t, "M.", "M", "two", false);
    assert_eq!(listed(&t, Filter::All), lines(&[("M", "(mod)")]));
    assert_eq!(listed(&t, Filter::Loaded), lines(&[]));
    assert_eq!(register(&mut t, &module(true, "M.", "three"), None), 0);
    is_module(&t, "M.", "M", "three", true);
    assert_eq!(register(&mut t, &module(false, "M.", "four"), None), 0);
    is_module(&t, "M.", "M", "four", true);
    assert_eq!(listed(&t, Filter::Loaded), lines(&[("M", " mod ")]));
}

#[test]
fn a_namespace_becomes_a_module_and_stays_one() {
    // A loaded Namespace: the Module takes the call's flag.
    let mut t = made(&[module(true, "A.B.", "ab")]);
    is_namespace(&t, "A.", "A", true);
    assert_eq!(register(&mut t, &module(false, "A.", "a"), None), 0);
    is_module(&t, "A.", "A", "a", false);
    assert_eq!(listed(&t, Filter::Loaded), lines(&[("A.B", " mod ")]));
    // What is registered below it puts no Namespace in its place.
    assert_eq!(register(&mut t, &module(true, "A.C.", "ac"), None), 0);
    is_module(&t, "A.", "A", "a", false);
    // Loaded from then on, with a loaded or an unloaded Module below it.
    for (loaded, path) in [(true, "b"), (false, "c")] {
        assert_eq!(register(&mut t, &module(loaded, "A.", path), None), 0);
        assert_eq!(register(&mut t, &module(false, "A.D.", ""), None), 0);
        is_module(&t, "A.", "A", path, true);
    }
    // An unloaded Namespace, and one that the same call makes.
    let t = made(&[module(false, "N.M.", ""), module(true, "N.", "n")]);
    is_module(&t, "N.", "N", "n", true);
    is_module(&t, "N.M.", "N.M", "", false);
}

#[test]
fn only_the_module_of_the_query_is_kept_loaded() {
    let t = made(&[module(true, "M.", "m"), module(false, "M.M.", "mm"), module(false, "N.M.", "nm")]);
    is_module(&t, "M.", "M", "m", true);
    is_module(&t, "M.M.", "M.M", "mm", false);
    is_module(&t, "N.M.", "N.M", "nm", false);
}

/// Where in the list of the root's bindings a Module of the name A stands: in a tree, or in an imported list.
#[derive(Clone, Copy)]
enum In {
    Tree,
    Import,
}

/// A sound module table whose bindings list has these holders of A, the first in front.
fn holders(all: &[(In, bool)]) -> Bytes {
    let mut t = Written { base: MODULES, ..Written::default() };
    let (key, path) = (t.key("A"), t.key("old"));
    let list = all.iter().rev().fold(0, |rest, &(place, loaded)| {
        let branch = t.module(key, path, loaded);
        match place {
            In::Tree => t.tree(BINDINGS_LIST, branch, rest),
            In::Import => {
                let own = t.tree(BINDINGS_LIST, branch, 0);
                t.import(BINDINGS_LIST, own, rest)
            }
        }
    });
    let root = t.trie(list, 0);
    Bytes::of(&with_free(t.memory(root), 100, 100))
}

#[test]
fn the_first_holder_decides_behind_imported_lists_too() {
    use In::*;
    for (all, loaded) in [
        (&[(Import, true)][..], true),
        (&[(Import, false)], false),
        (&[(Import, true), (Tree, false)], true),
        (&[(Import, false), (Tree, true)], false),
        (&[(Tree, true), (Import, false)], true),
        (&[(Tree, false), (Import, true)], false),
        (&[(Import, true), (Import, false), (Tree, false)], true),
        (&[(Import, false), (Import, true), (Tree, true)], false),
    ] {
        let mut t = holders(all);
        is_module(&t, "A.", "A", "old", all[0].1);
        assert_eq!(register(&mut t, &module(false, "A.", "new"), None), 0);
        is_module(&t, "A.", "A", "new", loaded);
        let mut t = holders(all);
        assert_eq!(register(&mut t, &module(true, "A.", "new"), None), 0);
        is_module(&t, "A.", "A", "new", true);
    }
}

#[test]
fn the_filter_loaded_at_the_exact_output_size() {
    let t = made(&[module(true, "M.", "m"), module(false, "M.", "n"), module(false, "U.", "u")]);
    let answer = |filter, lines, text| {
        let mut out = Output::with_room(lines, text);
        let before = out.clone();
        let answer = complete(&t, Ask::Modules(filter), b"", 9, &mut out);
        assert!(answer.is_ok() || out == before);
        answer.map(|(lines, _)| lines)
    };
    let line = "M mod ".len();
    assert_eq!(answer(Filter::Loaded, 1, line), Ok(1));
    assert_eq!(answer(Filter::Loaded, 1, line - 1), Err(10));
    assert_eq!(answer(Filter::Loaded, 0, line), Err(10));
    let both = line + "U(mod)".len();
    assert_eq!(answer(Filter::All, 2, both), Ok(2));
    assert_eq!(answer(Filter::All, 2, both - 1), Err(10));
    assert_eq!(answer(Filter::ModulesOnly, 2, both), Ok(2));
    assert_eq!(answer(Filter::NamespacesOnly, 0, 0), Ok(0));
}
