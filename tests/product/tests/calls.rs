//! Registrations and look-ups of the product against the independent implementation: answers, tables, and what a call may change.
use model::gen::{damaged_query, damaged_registration, damages, full_name, near_query, registered_memory, registration, sound_memory, Rng, MIXES};
use model::layout::{decode, record, same_table, Header, Memory};
use model::model::{bindings, btree_find_exact, find, segments, trie_descend_exact, Collection, Item, Kind, ModSymbol, Refusal, Registration, Table, Trie, Value};
use model::written::with_free;

/// The texts of a call as they are laid in the table's text.
fn laid(call: &Registration) -> Vec<u8> {
    use Registration::*;
    match call {
        Name { host, id, .. } => [&host[..], id].concat(),
        Include { host, included } | OpenNamespace { host, included } | OpenModule { host, included } => [&host[..], included].concat(),
        Alias { key, host, included } => [&host[..], included, key].concat(),
        Module { query, path, .. } => [&query[..], path].concat(),
    }
}

/// The product's answer to a registration, and everything that it leaves, as the model has it.
fn hold(memory: &mut Memory, table: &mut Option<Table>, call: &Registration, answers: &mut [u64; 9]) {
    let before = memory.clone();
    let expected = match table.as_ref() {
        Some(t) => model::model::register(t, memory.lent(), call),
        None => before.table().and_then(|t| model::model::register(&t, before.lent(), call)),
    };
    let answer = product::register(memory, call);
    answers[answer as usize] += 1;
    // Where the model does not say Unsound, a name also without the test.
    if let (Registration::Name { host, id, item }, false) = (call, matches!(expected, Err(Refusal::Unsound))) {
        let mut other = before.clone();
        assert_eq!(unsafe { product::insert_sound(&mut other, host, id, *item) }, answer, "{call:?}");
        assert!(other == *memory, "another memory: {call:?}");
    }
    match expected {
        Err(refusal) => {
            assert_eq!(answer, refusal.number(), "{call:?}");
            assert!(*memory == before, "a refused call changed something: {call:?}");
        }
        Ok(new) => {
            assert_eq!(answer, 0, "{call:?}");
            assert!(same_table(&decode(memory), &new), "another table: {call:?}");
            assert_eq!((memory.header.records, memory.header.text), (new.records, new.text), "{call:?}");
            assert!(memory.is_sound());
            let (r, s) = (before.header.records as usize * 12, memory.header.records as usize * 12);
            assert!(memory.words[..r] == before.words[..r] && memory.words[s..] == before.words[s..]);
            let (t, u) = (before.header.text as usize, memory.header.text as usize);
            assert!(memory.text[..t] == before.text[..t] && memory.text[u..] == before.text[u..]);
            assert_eq!(memory.text[t..u], laid(call), "{call:?}");
            let kept = |h: Header| if matches!(call, Registration::Module { .. }) { h.names } else { h.modules };
            assert_eq!(kept(memory.header), kept(before.header), "another root: {call:?}");
            *table = Some(new);
        }
    }
}

#[test]
fn registrations_and_look_ups() {
    let mut rng = Rng::new(Rng::seed_or(3));
    let mut answers = [0; 9];
    // Look-ups that found a Timer, a Port, a Register; none; refused.
    let mut found = [0; 5];
    for round in 0..60 {
        let mut memory = registered_memory(&mut rng, 0, [40, 200, 1000][round % 3], [60, 400, 3000][round % 3]);
        let mut table = Some(decode(&memory));
        let mix = *rng.pick(&MIXES);
        for _ in 0..120 {
            let call = if rng.one_in(6) { damaged_registration(&mut rng, &mix) } else { registration(&mut rng, &mix) };
            hold(&mut memory, &mut table, &call, &mut answers);
        }
        let root = &table.as_ref().unwrap().names;
        for _ in 0..200 {
            let query = match rng.below(4) {
                0 => damaged_query(&mut rng),
                1 => near_query(&mut rng),
                _ => full_name(&mut rng),
            };
            let expected = find(root, &query).map_err(|r| r.number());
            assert_eq!(product::find(&memory, &query), expected, "{query:?}");
            assert_eq!(unsafe { product::find_sound(&memory, &query) }, expected, "{query:?}");
            let kind = expected.map(|item| item.map(|i| i.kind));
            found[match kind { Ok(Some(Kind::Timer)) => 0, Ok(Some(Kind::Port)) => 1, Ok(Some(Kind::Register)) => 2, Ok(None) => 3, Err(_) => 4 }] += 1;
        }
    }
    println!("registrations by answer (0 accepted): {answers:?}; look-ups found by kind, none, refused: {found:?}; 0 disagreements");
    assert!([0, 2, 3, 4, 7, 8].iter().all(|&n| 0 < answers[n]), "{answers:?}");
    assert!(found.iter().all(|&n| 0 < n), "{found:?}");
}

/// Whether the tree in front of its list holds what a full name ends at.
fn in_front<A: Value>(root: &Trie<A>, query: &[u8]) -> bool {
    let all = segments(query);
    let (last, host) = all.split_last().unwrap();
    let list = bindings(&trie_descend_exact(root, host).unwrap());
    match &list.unwrap().first {
        Collection::Names(tree) => btree_find_exact(tree, last).is_some(),
        Collection::ImportedNames(..) => false,
    }
}

#[test]
fn registrations_on_hand_made_sound_tables() {
    let mut rng = Rng::new(Rng::seed_or(22));
    let mut answers = [0; 9];
    // Accepted unloaded modules whose first holder is a loaded Module: in the tree in front, or behind it.
    let mut kept = [0; 2];
    for _ in 0..3000 {
        let memory = sound_memory(&mut rng, 60);
        let (table, text) = (decode(&memory), memory.text.len());
        let memory = with_free(memory, 160, text + 400);
        let mix = *rng.pick(&MIXES);
        for _ in 0..12 {
            let call = match registration(&mut rng, &mix) {
                Registration::Module { path, .. } => Registration::Module { loaded: false, query: full_name(&mut rng), path },
                other => other,
            };
            let (mut m, mut new) = (memory.clone(), Some(table.clone()));
            hold(&mut m, &mut new, &call, &mut answers);
            if let (Registration::Module { query, .. }, false) = (&call, m == memory) {
                if matches!(find(&table.modules, query), Ok(Some(ModSymbol::Module { mod_loaded: true, .. }))) {
                    let now = find(&new.unwrap().modules, query).unwrap().unwrap();
                    assert!(now.is_module() && now.loaded(), "{call:?}");
                    kept[usize::from(!in_front(&table.modules, query))] += 1;
                }
            }
        }
    }
    println!("registrations on hand-made tables by answer (0 accepted): {answers:?}; kept loaded, in front and behind: {kept:?}; 0 disagreements");
    assert!(0 < answers[0] && kept.iter().all(|&n| 0 < n), "{answers:?} {kept:?}");
}

#[test]
fn registrations_on_damaged_memory() {
    let mut rng = Rng::new(Rng::seed_or(4));
    let mut answers = [0; 9];
    for _ in 0..6 {
        let memory = registered_memory(&mut rng, 6, 120, 300);
        let mix = *rng.pick(&MIXES);
        for damage in damages(&mut rng, &memory) {
            if rng.one_in(8) {
                let mut m = memory.clone();
                damage.apply(&mut m);
                hold(&mut m, &mut None, &registration(&mut rng, &mix), &mut answers);
            }
        }
    }
    println!("registrations on damaged memory by answer (0 accepted, 1 Unsound): {answers:?}; 0 disagreements");
    assert!(0 < answers[0] && 0 < answers[1]);
}

/// The words (docs/LAYOUT.md) of the only branch of the only list at `word` of a trie: 3 for its bindings, 4 for its namespaces.
fn only_branch(m: &Memory, trie: u32, word: usize) -> [u32; 12] {
    let words = |link: u32| record(&m.words, link as usize - 1);
    let branch = words(words(words(trie)[word])[3]);
    assert_eq!((branch[3], branch[4]), (0, 0));
    branch
}

/// The same of the namespace that is the only one of a root, and of the binding that is the only one in it.
fn only_branches(m: &Memory, root: u32) -> [[u32; 12]; 2] {
    let namespace = only_branch(m, root, 4);
    [namespace, only_branch(m, namespace[5], 3)]
}

#[test]
fn a_branch_registered_again_keeps_its_key() {
    let (mut m, mut table, mut answers) = (Memory::with_room(40, 100), None, [0; 9]);
    let name = |number| Registration::Name { host: b"Live.".to_vec(), id: b"offset".to_vec(), item: Item::timer(number) };
    let module = |path: &[u8]| Registration::Module { loaded: false, query: b"Lib.io.".to_vec(), path: path.to_vec() };
    for call in [name(5), module(b"/a"), name(6), module(b"/later")] {
        hold(&mut m, &mut table, &call, &mut answers);
    }
    assert_eq!(answers[0], 4);
    assert_eq!(&m.text[..m.header.text as usize], b"Live.offsetLib.io./aLive.offsetLib.io./later");
    // Key: start and length, of the first call. The item is the second's.
    let [live, offset] = only_branches(&m, m.header.names);
    assert_eq!(live[..3], [2, 0, 4]);
    assert_eq!((&offset[..3], &offset[5..7]), (&[1, 5, 6][..], &[6, 1][..]));
    // So are full name and path of the module.
    let [lib, io] = only_branches(&m, m.header.modules);
    assert_eq!(lib[..3], [7, 11, 3]);
    assert_eq!((&io[..3], &io[5..11]), (&[6, 15, 2][..], &[0, 31, 6, 38, 6, 0][..]));
}
