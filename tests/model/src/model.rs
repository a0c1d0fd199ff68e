//! The requirements and the source over persistent trees.
//!
//! Functions that the source has keep the source's name and shape. A list of
//! the source is a `List` whose front is the head. Each `Rc` of a trie, a
//! place of a list or a branch is one record of the requirements; `trie_empty`,
//! `StrEmpty` and `[]` are `None`.

use std::collections::VecDeque;
use std::fmt;
use std::rc::Rc;

// ---------------------------------------------------------------- limits

pub const WORDS_A_RECORD: usize = 12;
pub const MOST_RECORDS: usize = 65_536;
pub const MOST_TEXT: usize = 65_536;
pub const MOST_NAME: usize = 31;
pub const MOST_SEGMENTS: usize = 17;
pub const MOST_PATH: usize = 120;
pub const MOST_FULL_NAME: usize = 543;
pub const MOST_WEIGHT: u32 = 96;
pub const MOST_DEPTH: u32 = 16;

// ------------------------------------------------------------------ text

pub type Str = Rc<[u8]>;
pub type List<T> = VecDeque<T>;

pub const DOT: u8 = 0x2E;

pub fn is_name_byte(b: u8) -> bool {
    (0x21..=0x7E).contains(&b) && b != DOT && b != 0x5B && b != 0x5D
}

pub fn is_path_byte(b: u8) -> bool {
    (0x20..=0x7E).contains(&b)
}

/// `String.compare`: bytewise, a proper beginning first.
pub fn string_compare(s1: &[u8], s2: &[u8]) -> i64 {
    for (a, b) in s1.iter().zip(s2) {
        if a != b {
            return if a < b { -1 } else { 1 };
        }
    }
    (s1.len() as i64 - s2.len() as i64).signum()
}

/// `Util.starts_with`.
pub fn starts_with(s: &[u8], prefix: &[u8]) -> bool {
    s.len() >= prefix.len() && s[..prefix.len()] == *prefix
}

/// `String.concat "."`.
pub fn concat_dots(parts: &[Str]) -> Str {
    let mut whole = Vec::new();
    for (i, part) in parts.iter().enumerate() {
        if i > 0 {
            whole.push(DOT);
        }
        whole.extend_from_slice(part);
    }
    whole.into()
}

/// The segments of a query in which each segment ends with a dot.
pub fn segments(query: &[u8]) -> Vec<Str> {
    let mut all = Vec::new();
    let mut segment = Vec::new();
    for &b in query {
        if b == DOT {
            all.push(Str::from(std::mem::take(&mut segment)));
        } else {
            segment.push(b);
        }
    }
    all
}

// ---------------------------------------------------- (pairing) min-heaps

pub enum Heap<V> {
    EmptyHeap,
    Heap(V, List<Heap<V>>),
}

pub fn heap_merge<V>(cmp: &dyn Fn(&V, &V) -> i64, h1: Heap<V>, h2: Heap<V>) -> Heap<V> {
    match (h1, h2) {
        (Heap::EmptyHeap, h) | (h, Heap::EmptyHeap) => h,
        (Heap::Heap(v1, mut hh1), Heap::Heap(v2, mut hh2)) => {
            if cmp(&v1, &v2) < 0 {
                hh1.push_front(Heap::Heap(v2, hh2));
                Heap::Heap(v1, hh1)
            } else {
                hh2.push_front(Heap::Heap(v1, hh1));
                Heap::Heap(v2, hh2)
            }
        }
    }
}

pub fn heap_insert<V>(cmp: &dyn Fn(&V, &V) -> i64, h: Heap<V>, v: V) -> Heap<V> {
    heap_merge(cmp, Heap::Heap(v, List::new()), h)
}

pub fn heap_merge_pairs<V>(cmp: &dyn Fn(&V, &V) -> i64, mut l: List<Heap<V>>) -> Heap<V> {
    match (l.pop_front(), l.pop_front()) {
        (None, _) => Heap::EmptyHeap,
        (Some(h), None) => h,
        (Some(h1), Some(h2)) => heap_merge(cmp, heap_merge(cmp, h1, h2), heap_merge_pairs(cmp, l)),
    }
}

pub fn heap_pop<V>(cmp: &dyn Fn(&V, &V) -> i64, h: Heap<V>) -> Option<(V, Heap<V>)> {
    match h {
        Heap::EmptyHeap => None,
        Heap::Heap(v, hh) => Some((v, heap_merge_pairs(cmp, hh))),
    }
}

pub fn heap_from_list<V>(cmp: &dyn Fn(&V, &V) -> i64, values: List<V>) -> Heap<V> {
    values.into_iter().fold(Heap::EmptyHeap, |h, v| heap_insert(cmp, h, v))
}

// -------------------------------------------------------- list functions

pub fn push_nodup<T>(key_fn: &dyn Fn(&T) -> Str, x: T, mut list: List<T>) -> List<T> {
    let same = match list.front() {
        None => false,
        Some(h) => string_compare(&key_fn(&x), &key_fn(h)) == 0,
    };
    if !same {
        list.push_front(x);
    }
    list
}

pub fn add_priorities<T>(mut n: i64, mut acc: List<(i64, T)>, list: List<T>) -> List<(i64, T)> {
    for h in list {
        acc.push_front((n, h));
        n += 1;
    }
    acc
}

pub fn merge_increasing_lists_rev<T>(key_fn: &dyn Fn(&T) -> Str, lists: List<List<T>>) -> List<T> {
    let cmp = |v1: &(i64, List<T>), v2: &(i64, List<T>)| -> i64 {
        let h1 = v1.1.front().expect("impossible");
        let h2 = v2.1.front().expect("impossible");
        let cmp_h = string_compare(&key_fn(h1), &key_fn(h2));
        if cmp_h != 0 {
            cmp_h
        } else {
            v1.0 - v2.0
        }
    };
    let mut lists: List<List<T>> = lists.into_iter().filter(|x| !x.is_empty()).collect();
    match lists.len() {
        0 => List::new(),
        1 => lists.remove(0).unwrap().into_iter().rev().collect(),
        _ => {
            let lists = add_priorities(0, List::new(), lists);
            let mut heap = heap_from_list(&cmp, lists);
            let mut acc = List::new();
            while let Some(((pr, mut list), rest)) = heap_pop(&cmp, heap) {
                let v = list.pop_front().expect("impossible");
                heap = if list.is_empty() { rest } else { heap_insert(&cmp, rest, (pr, list)) };
                acc = push_nodup(key_fn, v, acc);
            }
            acc
        }
    }
}

// ------------------------------------------------- what is built, counted

/// What the source's expressions build in one call. Every record of the
/// model comes from `branch`, `put` or `trie_record`, which count it here.
#[derive(Clone, Copy, Debug, Default)]
pub struct Built {
    /// Records: trie records, collections put in a list, branches.
    pub records: u64,
    /// The greatest weight of a list built.
    pub heaviest: u32,
}

/// What a branch may hold. A branch of a namespaces tree holds a trie.
pub trait Value: Clone {
    /// What one such value adds to the depth of a trie that holds it.
    fn depth_held(&self) -> u32;
}

// ---------------------------------------------------------- binary trees

pub type Tree<V> = Option<Rc<Branch<V>>>;

pub struct Branch<V> {
    pub key: Str,
    pub value: V,
    pub left: Tree<V>,
    pub right: Tree<V>,
    /// Depth of the tree that begins here.
    pub depth: u32,
}

pub fn tree_depth<V>(bt: &Tree<V>) -> u32 {
    bt.as_ref().map_or(0, |b| b.depth)
}

/// `StrBranch`.
pub fn branch<V: Value>(
    built: &mut Built,
    key: Str,
    value: V,
    left: Tree<V>,
    right: Tree<V>,
) -> Tree<V> {
    built.records += 1;
    let depth = value.depth_held().max(tree_depth(&left)).max(tree_depth(&right));
    Some(Rc::new(Branch { key, value, left, right, depth }))
}

pub fn btree_insert_replace<V: Value>(built: &mut Built, bt: &Tree<V>, k: &Str, v: V) -> Tree<V> {
    match bt {
        None => branch(built, k.clone(), v, None, None),
        Some(b) => {
            let cmp = string_compare(k, &b.key);
            if cmp < 0 {
                let left = btree_insert_replace(built, &b.left, k, v);
                branch(built, b.key.clone(), b.value.clone(), left, b.right.clone())
            } else if cmp > 0 {
                let right = btree_insert_replace(built, &b.right, k, v);
                branch(built, b.key.clone(), b.value.clone(), b.left.clone(), right)
            } else {
                branch(built, b.key.clone(), v, b.left.clone(), b.right.clone())
            }
        }
    }
}

pub fn btree_find_exact<V: Value>(bt: &Tree<V>, k: &[u8]) -> Option<V> {
    match bt {
        None => None,
        Some(b) => {
            let cmp = string_compare(k, &b.key);
            if cmp < 0 {
                btree_find_exact(&b.left, k)
            } else if cmp > 0 {
                btree_find_exact(&b.right, k)
            } else {
                Some(b.value.clone())
            }
        }
    }
}

#[derive(Clone, Debug, PartialEq, Eq)]
pub struct PrefixMatch {
    pub prefix: Option<Str>,
    pub completion: Str,
}

pub fn btree_find_prefix<V: Value>(bt: &Tree<V>, prefix: &Str) -> List<(PrefixMatch, V)> {
    fn aux<V: Value>(
        bt: &Tree<V>,
        prefix: &Str,
        acc: List<(PrefixMatch, V)>,
    ) -> List<(PrefixMatch, V)> {
        match bt {
            None => acc,
            Some(b) => {
                let cmp = string_compare(&b.key, prefix);
                let include_middle = starts_with(&b.key, prefix);
                let explore_right = cmp <= 0 || include_middle;
                let explore_left = cmp > 0;
                let mut matches = if explore_right { aux(&b.right, prefix, acc) } else { acc };
                if include_middle {
                    let segment =
                        PrefixMatch { prefix: Some(prefix.clone()), completion: b.key.clone() };
                    matches.push_front((segment, b.value.clone()));
                }
                if explore_left {
                    aux(&b.left, prefix, matches)
                } else {
                    matches
                }
            }
        }
    }
    aux(bt, prefix, List::new())
}

pub fn btree_fold<V, B>(bt: &Tree<V>, f: &dyn Fn(&Str, &V, B) -> B, acc: B) -> B {
    match bt {
        None => acc,
        Some(b) => {
            let right = btree_fold(&b.right, f, acc);
            btree_fold(&b.left, f, f(&b.key, &b.value, right))
        }
    }
}

// ----------------------------------------------------------------- tries

pub enum Collection<V> {
    Names(Tree<V>),
    ImportedNames(Str, Names<V>),
}

impl<V> Clone for Collection<V> {
    fn clone(&self) -> Self {
        match self {
            Collection::Names(bt) => Collection::Names(bt.clone()),
            Collection::ImportedNames(nm, names) => {
                Collection::ImportedNames(nm.clone(), names.clone())
            }
        }
    }
}

/// A list of collections.
pub type Names<V> = Option<Rc<Place<V>>>;

/// A collection in a list, and the rest of the list.
pub struct Place<V> {
    pub first: Collection<V>,
    pub rest: Names<V>,
    /// Weight of the list that begins here.
    pub weight: u32,
    /// Depth of the list that begins here.
    pub depth: u32,
}

/// Weight of a list: one for each collection, plus the weight of each
/// imported list.
pub fn weight<V>(names: &Names<V>) -> u32 {
    names.as_ref().map_or(0, |p| p.weight)
}

/// The greatest depth of a tree of the flattened list.
pub fn names_depth<V>(names: &Names<V>) -> u32 {
    names.as_ref().map_or(0, |p| p.depth)
}

/// `first :: rest`.
pub fn put<V>(built: &mut Built, first: Collection<V>, rest: Names<V>) -> Names<V> {
    built.records += 1;
    let (own_weight, own_depth) = match &first {
        Collection::Names(bt) => (0, tree_depth(bt)),
        Collection::ImportedNames(_, own) => (weight(own), names_depth(own)),
    };
    // Saturating: an unsound memory may be decoded too.
    let weight = 1u32.saturating_add(own_weight).saturating_add(weight(&rest));
    let depth = own_depth.max(names_depth(&rest));
    built.heaviest = built.heaviest.max(weight);
    Some(Rc::new(Place { first, rest, weight, depth }))
}

/// `None` is `trie_empty`.
pub type Trie<A> = Option<Rc<TrieRecord<A>>>;

pub struct TrieRecord<A> {
    pub bindings: Names<A>,
    pub namespaces: Names<Trie<A>>,
}

impl<A> Value for Trie<A> {
    fn depth_held(&self) -> u32 {
        trie_depth(self).saturating_add(1)
    }
}

pub fn bindings<A>(tr: &Trie<A>) -> Names<A> {
    tr.as_ref().and_then(|t| t.bindings.clone())
}

pub fn namespaces<A>(tr: &Trie<A>) -> Names<Trie<A>> {
    tr.as_ref().and_then(|t| t.namespaces.clone())
}

/// Depth of a trie: 0 if no namespace tree of its flattened list holds a key,
/// else one more than the deepest trie held there.
pub fn trie_depth<A>(tr: &Trie<A>) -> u32 {
    tr.as_ref().map_or(0, |t| names_depth(&t.namespaces))
}

/// `{ bindings = ..; namespaces = .. }`.
pub fn trie_record<A>(
    built: &mut Built,
    bindings: Names<A>,
    namespaces: Names<Trie<A>>,
) -> Trie<A> {
    built.records += 1;
    Some(Rc::new(TrieRecord { bindings, namespaces }))
}

pub fn names_find_exact<V: Value>(names: &Names<V>, ns: &[u8]) -> Option<V> {
    let place = names.as_ref()?;
    let result = match &place.first {
        Collection::Names(bt) => btree_find_exact(bt, ns),
        Collection::ImportedNames(_, own) => names_find_exact(own, ns),
    };
    match result {
        None => names_find_exact(&place.rest, ns),
        found => found,
    }
}

pub fn trie_descend_exact<A>(tr: &Trie<A>, query: &[Str]) -> Option<Trie<A>> {
    match query {
        [] => Some(tr.clone()),
        [ns, query @ ..] => {
            let scope = names_find_exact(&namespaces(tr), ns)?;
            trie_descend_exact(&scope, query)
        }
    }
}

pub fn trie_find_exact<A: Value>(tr: &Trie<A>, query: &[Str]) -> Option<A> {
    match query {
        [] => panic!("Empty query in trie_find_exact"),
        [name] => names_find_exact(&bindings(tr), name),
        [ns, query @ ..] => {
            let scope = names_find_exact(&namespaces(tr), ns)?;
            trie_find_exact(&scope, query)
        }
    }
}

pub fn names_insert<V: Value>(built: &mut Built, names: &Names<V>, id: &Str, v: V) -> Names<V> {
    let (bt, rest) = match names {
        Some(place) => match &place.first {
            Collection::Names(bt) => (bt.clone(), place.rest.clone()),
            Collection::ImportedNames(..) => (None, names.clone()),
        },
        None => (None, None),
    };
    let bt = btree_insert_replace(built, &bt, id, v);
    put(built, Collection::Names(bt), rest)
}

/// The source's `mut_node`: trie, id, query left, reversed query passed, new
/// namespaces.
pub type MutNode<'f, A> =
    &'f dyn Fn(&mut Built, &Trie<A>, &Str, &[Str], &List<Str>, Names<Trie<A>>) -> Trie<A>;
/// The source's `mut_leaf`: trie, reversed query passed.
pub type MutLeaf<'f, A> = &'f dyn Fn(&mut Built, &Trie<A>, &List<Str>) -> Trie<A>;

fn namespaces_mutate<A>(
    built: &mut Built,
    namespaces: &Names<Trie<A>>,
    ns: &Str,
    q: &[Str],
    rev_acc: &List<Str>,
    mut_node: MutNode<A>,
    mut_leaf: MutLeaf<A>,
) -> Names<Trie<A>> {
    let trie = names_find_exact(namespaces, ns).unwrap_or(None);
    let trie = trie_mutate(built, &trie, q, rev_acc, mut_node, mut_leaf);
    names_insert(built, namespaces, ns, trie)
}

pub fn trie_mutate<A>(
    built: &mut Built,
    tr: &Trie<A>,
    q: &[Str],
    rev_acc: &List<Str>,
    mut_node: MutNode<A>,
    mut_leaf: MutLeaf<A>,
) -> Trie<A> {
    match q {
        [] => mut_leaf(built, tr, rev_acc),
        [id, q @ ..] => {
            let mut longer = rev_acc.clone();
            longer.push_front(id.clone());
            let ns = namespaces_mutate(built, &namespaces(tr), id, q, &longer, mut_node, mut_leaf);
            mut_node(built, tr, id, q, rev_acc, ns)
        }
    }
}

pub fn trie_mutate_leaf<A>(
    built: &mut Built,
    tr: &Trie<A>,
    query: &[Str],
    mut_leaf: MutLeaf<A>,
) -> Trie<A> {
    trie_mutate(
        built,
        tr,
        query,
        &List::new(),
        &|built, tr, _, _, _, namespaces| trie_record(built, bindings(tr), namespaces),
        mut_leaf,
    )
}

pub fn trie_insert<A: Value>(
    built: &mut Built,
    tr: &Trie<A>,
    ns_query: &[Str],
    id: &Str,
    v: A,
) -> Trie<A> {
    trie_mutate_leaf(built, tr, ns_query, &|built, tr, _| {
        let bindings = names_insert(built, &bindings(tr), id, v.clone());
        trie_record(built, bindings, namespaces(tr))
    })
}

/// The source's `mutator`: host trie, included trie, label.
pub type Mutator<'f, A> = &'f dyn Fn(&mut Built, &Trie<A>, &Trie<A>, &Str) -> Trie<A>;

pub fn trie_import<A>(
    built: &mut Built,
    tr: &Trie<A>,
    host_query: &[Str],
    included_query: &[Str],
    mutator: Mutator<A>,
) -> Trie<A> {
    let label = concat_dots(included_query);
    let included_trie = trie_descend_exact(tr, included_query).unwrap_or(None);
    trie_mutate_leaf(built, tr, host_query, &|built, tr, _| {
        mutator(built, tr, &included_trie, &label)
    })
}

pub fn trie_include<A>(built: &mut Built, tr: &Trie<A>, host: &[Str], included: &[Str]) -> Trie<A> {
    trie_import(built, tr, host, included, &|built, tr, inc, label| {
        let imported = Collection::ImportedNames(label.clone(), bindings(inc));
        let bindings = put(built, imported, bindings(tr));
        trie_record(built, bindings, namespaces(tr))
    })
}

pub fn trie_open_namespace<A>(
    built: &mut Built,
    tr: &Trie<A>,
    host: &[Str],
    included: &[Str],
) -> Trie<A> {
    trie_import(built, tr, host, included, &|built, tr, inc, label| {
        let imported = Collection::ImportedNames(label.clone(), namespaces(inc));
        let namespaces = put(built, imported, namespaces(tr));
        trie_record(built, bindings(tr), namespaces)
    })
}

pub fn trie_add_alias<A>(
    built: &mut Built,
    tr: &Trie<A>,
    key: &Str,
    host: &[Str],
    included: &[Str],
) -> Trie<A> {
    trie_import(built, tr, host, included, &|built, tr, inc, label| {
        trie_mutate_leaf(built, tr, std::slice::from_ref(key), &|built, _overwritten, _| {
            let imported = Collection::ImportedNames(label.clone(), bindings(inc));
            let bindings = put(built, imported, None);
            trie_record(built, bindings, None)
        })
    })
}

// --------------------------------------------------------------- listing

#[derive(Clone, Debug, PartialEq, Eq)]
pub struct PathElem {
    /// Labels, innermost first.
    pub imports: List<Str>,
    pub segment: PrefixMatch,
}

pub type Path = Vec<PathElem>;

pub fn names_revmap<V, B>(f: &dyn Fn(&Tree<V>) -> B, names: &Names<V>) -> List<(List<Str>, B)> {
    fn aux<V, B>(
        f: &dyn Fn(&Tree<V>) -> B,
        mut acc: List<(List<Str>, B)>,
        imports: &List<Str>,
        names: &Names<V>,
    ) -> List<(List<Str>, B)> {
        let mut left = names;
        while let Some(place) = left {
            match &place.first {
                Collection::Names(bt) => acc.push_front((imports.clone(), f(bt))),
                Collection::ImportedNames(nm, own) => {
                    let mut more = imports.clone();
                    more.push_front(nm.clone());
                    acc = aux(f, acc, &more, own);
                }
            }
            left = &place.rest;
        }
        acc
    }
    aux(f, List::new(), &List::new(), names)
}

pub fn btree_find_all<V: Value>(prefix: &Option<Str>, bt: &Tree<V>) -> List<(PrefixMatch, V)> {
    btree_fold(
        bt,
        &|k: &Str, tr: &V, mut acc: List<(PrefixMatch, V)>| {
            let segment = PrefixMatch { prefix: prefix.clone(), completion: k.clone() };
            acc.push_front((segment, tr.clone()));
            acc
        },
        List::new(),
    )
}

pub enum NameSearchTerm {
    NSTAll,
    NSTNone,
    NSTPrefix(Str),
}

/// The source's `names_find_rev`, but of equal names the first holder's is
/// kept, where the source keeps the last one's.
pub fn names_find_rev<V: Value>(names: &Names<V>, id: &NameSearchTerm) -> List<(PathElem, V)> {
    use NameSearchTerm::*;
    let with_imports = match id {
        NSTNone => List::new(),
        NSTAll => names_revmap(&|bt| btree_find_all(&None, bt), names),
        NSTPrefix(id) if id.is_empty() => {
            names_revmap(&|bt| btree_find_all(&Some(id.clone()), bt), names)
        }
        NSTPrefix(id) => names_revmap(&|bt| btree_find_prefix(bt, id), names),
    };
    // The last collection comes first. The merge keeps what the earliest list
    // has, so the lists are turned round.
    let per_collection: List<List<(PathElem, V)>> = with_imports
        .into_iter()
        .rev()
        .map(|(imports, matches)| {
            matches
                .into_iter()
                .map(|(segment, v)| (PathElem { imports: imports.clone(), segment }, v))
                .collect()
        })
        .collect();
    merge_increasing_lists_rev(
        &|(path_el, _): &(PathElem, V)| path_el.segment.completion.clone(),
        per_collection,
    )
}

/// Tries entered so far, and the budget.
pub struct Entered {
    pub tries: u64,
    pub budget: u32,
}

/// The source's `trie_find_prefix'`. It stops with `Spent` as soon as more
/// tries were entered than the budget allows.
pub fn trie_find_prefix_from<A: Value>(
    entered: &mut Entered,
    tr: &Trie<A>,
    path_acc: &List<PathElem>,
    query: &[Str],
    mut acc: List<(Path, A)>,
) -> Result<List<(Path, A)>, Refusal> {
    use NameSearchTerm::*;
    entered.tries += 1;
    if entered.tries > u64::from(entered.budget) {
        return Err(Refusal::Spent);
    }
    let (ns_search_term, bindings_search_term, query) = match query {
        [] => (NSTAll, NSTAll, &query[..0]),
        [id] => (NSTPrefix(id.clone()), NSTPrefix(id.clone()), &query[..0]),
        [ns, query @ ..] => (NSTPrefix(ns.clone()), NSTNone, query),
    };
    let longer = |path_el: PathElem| {
        let mut path = path_acc.clone();
        path.push_front(path_el);
        path
    };
    for (path_el, trie) in names_find_rev(&namespaces(tr), &ns_search_term) {
        acc = trie_find_prefix_from(entered, &trie, &longer(path_el), query, acc)?;
    }
    for (path_el, v) in names_find_rev(&bindings(tr), &bindings_search_term) {
        acc.push_front((longer(path_el).into_iter().rev().collect(), v));
    }
    Ok(acc)
}

pub fn trie_find_prefix<A: Value>(
    entered: &mut Entered,
    tr: &Trie<A>,
    query: &[Str],
) -> Result<List<(Path, A)>, Refusal> {
    trie_find_prefix_from(entered, tr, &List::new(), query, List::new())
}

pub fn string_of_path(path: &[PathElem]) -> Str {
    let parts: Vec<Str> = path.iter().map(|el| el.segment.completion.clone()).collect();
    concat_dots(&parts)
}

pub fn match_length_of_path(path: &[PathElem]) -> i32 {
    let mut length = 0;
    let mut last_prefix_length = 0;
    let mut last_completion_length = 0;
    for elem in path {
        if let Some(prefix) = &elem.segment.prefix {
            last_completion_length = elem.segment.completion.len() as i32;
            last_prefix_length = prefix.len() as i32;
            length += 1 + last_completion_length;
        }
    }
    length - 1 - last_completion_length + last_prefix_length
}

pub fn first_import_of_path(path: &[PathElem]) -> Option<Str> {
    path.first().and_then(|elem| elem.imports.back().cloned())
}

// ------------------------------------------------------- the two tables

/// What an item of the names table is, with its number in records, lines and
/// calls.
#[derive(Clone, Copy, Debug, PartialEq, Eq, Hash)]
pub enum Kind {
    Timer = 1,
    Port = 2,
    Register = 3,
}

impl Kind {
    pub const ALL: [Kind; 3] = [Kind::Timer, Kind::Port, Kind::Register];

    pub fn number(self) -> u32 {
        self as u32
    }

    /// The kind with this number, if there is one.
    pub fn from_number(number: u32) -> Option<Kind> {
        Kind::ALL.into_iter().find(|kind| kind.number() == number)
    }

    /// The letter before an item's number.
    pub fn letter(self) -> char {
        match self {
            Kind::Timer => 't',
            Kind::Port => 'p',
            Kind::Register => 'r',
        }
    }
}

/// An item of the names table.
#[derive(Clone, Copy, Debug, PartialEq, Eq, Hash)]
pub struct Item {
    pub kind: Kind,
    pub number: u32,
}

impl Item {
    pub const fn timer(number: u32) -> Item {
        Item { kind: Kind::Timer, number }
    }

    pub const fn port(number: u32) -> Item {
        Item { kind: Kind::Port, number }
    }

    pub const fn register(number: u32) -> Item {
        Item { kind: Kind::Register, number }
    }

    /// The item with these numbers, if the first is a kind's.
    pub fn from_numbers(kind: u32, number: u32) -> Option<Item> {
        Kind::from_number(kind).map(|kind| Item { kind, number })
    }
}

impl fmt::Display for Item {
    fn fmt(&self, f: &mut fmt::Formatter) -> fmt::Result {
        write!(f, "{}{}", self.kind.letter(), self.number)
    }
}

/// An item of the module table.
#[derive(Clone, Debug, PartialEq, Eq)]
pub enum ModSymbol {
    Module { mod_name: Str, mod_path: Str, mod_loaded: bool },
    Namespace { ns_name: Str, ns_loaded: bool },
}

impl ModSymbol {
    pub fn loaded(&self) -> bool {
        match self {
            ModSymbol::Module { mod_loaded, .. } => *mod_loaded,
            ModSymbol::Namespace { ns_loaded, .. } => *ns_loaded,
        }
    }

    pub fn is_module(&self) -> bool {
        matches!(self, ModSymbol::Module { .. })
    }
}

impl Value for Item {
    fn depth_held(&self) -> u32 {
        0
    }
}

impl Value for ModSymbol {
    fn depth_held(&self) -> u32 {
        0
    }
}

/// The two roots, records used and text used.
#[derive(Clone, Default)]
pub struct Table {
    pub names: Trie<Item>,
    pub modules: Trie<ModSymbol>,
    pub records: u32,
    pub text: u32,
}

/// The source's `tbl_mods` after `register_module_path`, but a Module put in
/// place of a loaded Module stays loaded.
pub fn register_module_path(
    built: &mut Built,
    tbl_mods: &Trie<ModSymbol>,
    loaded: bool,
    path: &Str,
    mod_query: &[Str],
) -> Trie<ModSymbol> {
    use ModSymbol::*;
    let ins_ns = |built: &mut Built, id: &Str, bindings: Names<ModSymbol>, full_name: Str| match (
        names_find_exact(&bindings, id),
        loaded,
    ) {
        (None, _) | (Some(Namespace { ns_loaded: false, .. }), true) => {
            let symbol = Namespace { ns_name: full_name, ns_loaded: loaded };
            names_insert(built, &bindings, id, symbol)
        }
        (Some(_), _) => bindings,
    };
    let ins_mod = |built: &mut Built, id: &Str, bindings: Names<ModSymbol>, full_name: Str| {
        let kept = matches!(names_find_exact(&bindings, id), Some(Module { mod_loaded: true, .. }));
        let symbol =
            Module { mod_name: full_name, mod_path: path.clone(), mod_loaded: loaded || kept };
        names_insert(built, &bindings, id, symbol)
    };
    let name_of_revq = |revq: &List<Str>| {
        let q: Vec<Str> = revq.iter().rev().cloned().collect();
        concat_dots(&q)
    };
    let ins = |built: &mut Built, id: &Str, q: &[Str], revq: &List<Str>, bindings| {
        let mut whole = revq.clone();
        whole.push_front(id.clone());
        let name = name_of_revq(&whole);
        match q {
            [] => ins_mod(built, id, bindings, name),
            _ => ins_ns(built, id, bindings, name),
        }
    };
    trie_mutate(
        built,
        tbl_mods,
        mod_query,
        &List::new(),
        &|built, tr, id, q, revq, namespaces| {
            let bindings = ins(built, id, q, revq, bindings(tr));
            trie_record(built, bindings, namespaces)
        },
        &|_, tr, _| tr.clone(),
    )
}

// -------------------------------------------------------------- refusals

#[derive(Clone, Copy, Debug, PartialEq, Eq, PartialOrd, Ord, Hash)]
pub enum Refusal {
    Unsound = 1,
    Malformed = 2,
    Empty = 3,
    TooLong = 4,
    Crowded = 5,
    Deep = 6,
    Full = 7,
    TextFull = 8,
    Spent = 9,
    Lines = 10,
}

impl Refusal {
    pub fn number(self) -> u32 {
        self as u32
    }
}

/// A raw argument and its place in the call.
enum Argument<'a> {
    /// An id or key.
    Name(&'a [u8]),
    /// A host, an included query or a module query: no empty segment.
    Query(&'a [u8]),
    /// A look-up's query: one segment or more, none empty.
    LookUp(&'a [u8]),
    /// A completion's query: segments may be empty.
    Completion(&'a [u8]),
    /// A file path.
    Path(&'a [u8]),
}

impl Argument<'_> {
    /// Row 2.
    fn malformed(&self) -> bool {
        match self {
            Argument::Name(n) => n.iter().any(|&b| !is_name_byte(b)),
            Argument::Query(q) | Argument::LookUp(q) | Argument::Completion(q) => {
                q.last().is_some_and(|&b| b != DOT)
                    || q.iter().any(|&b| !is_name_byte(b) && b != DOT)
            }
            Argument::Path(p) => p.iter().any(|&b| !is_path_byte(b)),
        }
    }

    /// Row 3, of an argument that row 2 passed.
    fn empty(&self) -> bool {
        match self {
            Argument::Name(n) => n.is_empty(),
            Argument::Query(q) => segments(q).iter().any(|s| s.is_empty()),
            Argument::LookUp(q) => q.is_empty() || segments(q).iter().any(|s| s.is_empty()),
            Argument::Completion(_) | Argument::Path(_) => false,
        }
    }

    /// Row 4, of an argument that row 2 passed.
    fn too_long(&self) -> bool {
        match self {
            Argument::Name(n) => n.len() > MOST_NAME,
            Argument::Query(q) | Argument::LookUp(q) | Argument::Completion(q) => {
                let all = segments(q);
                all.len() > MOST_SEGMENTS || all.iter().any(|s| s.len() > MOST_NAME)
            }
            Argument::Path(p) => p.len() > MOST_PATH,
        }
    }
}

/// Rows 2, 3 and 4 over all arguments.
fn check_arguments(arguments: &[Argument]) -> Result<(), Refusal> {
    if arguments.iter().any(Argument::malformed) {
        return Err(Refusal::Malformed);
    }
    if arguments.iter().any(Argument::empty) {
        return Err(Refusal::Empty);
    }
    if arguments.iter().any(Argument::too_long) {
        return Err(Refusal::TooLong);
    }
    Ok(())
}

// --------------------------------------------------------- registrations

/// A registration with its raw texts.
#[derive(Clone, Debug, PartialEq, Eq)]
pub enum Registration {
    Name { host: Vec<u8>, id: Vec<u8>, item: Item },
    Include { host: Vec<u8>, included: Vec<u8> },
    OpenNamespace { host: Vec<u8>, included: Vec<u8> },
    OpenModule { host: Vec<u8>, included: Vec<u8> },
    Alias { key: Vec<u8>, host: Vec<u8>, included: Vec<u8> },
    Module { loaded: bool, query: Vec<u8>, path: Vec<u8> },
}

impl Registration {
    fn arguments(&self) -> Vec<Argument<'_>> {
        use Registration::*;
        match self {
            Name { host, id, .. } => vec![Argument::Query(host), Argument::Name(id)],
            Include { host, included }
            | OpenNamespace { host, included }
            | OpenModule { host, included } => {
                vec![Argument::Query(host), Argument::Query(included)]
            }
            Alias { key, host, included } => {
                vec![Argument::Name(key), Argument::Query(host), Argument::Query(included)]
            }
            Module { query, path, .. } => vec![Argument::Query(query), Argument::Path(path)],
        }
    }

    /// Text taken: the bytes of the lent texts, each once and whole.
    pub fn text_taken(&self) -> u64 {
        let taken = |argument: &Argument| match argument {
            Argument::Name(t)
            | Argument::Query(t)
            | Argument::LookUp(t)
            | Argument::Completion(t)
            | Argument::Path(t) => t.len() as u64,
        };
        self.arguments().iter().map(taken).sum()
    }
}

/// What is lent beside the table: the number of words and of text bytes.
#[derive(Clone, Copy, Debug, PartialEq, Eq)]
pub struct Lent {
    pub words: usize,
    pub text: usize,
}

impl Lent {
    pub fn free_records(self, table: &Table) -> u64 {
        let lent = (self.words / WORDS_A_RECORD).min(MOST_RECORDS) as u64;
        lent.saturating_sub(u64::from(table.records))
    }

    pub fn free_text(self, table: &Table) -> u64 {
        let lent = self.text.min(MOST_TEXT) as u64;
        lent.saturating_sub(u64::from(table.text))
    }
}

/// The roots that the source's function makes, without any limit.
pub fn build(table: &Table, call: &Registration) -> (Trie<Item>, Trie<ModSymbol>, Built) {
    use Registration::*;
    let mut built = Built::default();
    let b = &mut built;
    let (mut names, mut modules) = (table.names.clone(), table.modules.clone());
    match call {
        Name { host, id, item } => {
            names = trie_insert(b, &names, &segments(host), &id.as_slice().into(), *item);
        }
        Include { host, included } | OpenModule { host, included } => {
            names = trie_include(b, &names, &segments(host), &segments(included));
        }
        OpenNamespace { host, included } => {
            names = trie_open_namespace(b, &names, &segments(host), &segments(included));
        }
        Alias { key, host, included } => {
            let key: Str = key.as_slice().into();
            names = trie_add_alias(b, &names, &key, &segments(host), &segments(included));
        }
        Module { loaded, query, path } => {
            let path: Str = path.as_slice().into();
            modules = register_module_path(b, &modules, *loaded, &path, &segments(query));
        }
    }
    (names, modules, built)
}

/// A registration on a sound table: rows 2 to 8.
pub fn register(table: &Table, lent: Lent, call: &Registration) -> Result<Table, Refusal> {
    check_arguments(&call.arguments())?;
    let (names, modules, built) = build(table, call);
    // Lists that were not built in this call weigh at most 96 already.
    if built.heaviest > MOST_WEIGHT {
        return Err(Refusal::Crowded);
    }
    if trie_depth(&names).max(trie_depth(&modules)) > MOST_DEPTH {
        return Err(Refusal::Deep);
    }
    if built.records > lent.free_records(table) {
        return Err(Refusal::Full);
    }
    if call.text_taken() > lent.free_text(table) {
        return Err(Refusal::TextFull);
    }
    Ok(Table {
        names,
        modules,
        records: table.records + built.records as u32,
        text: table.text + call.text_taken() as u32,
    })
}

// ------------------------------------------------- look-up and completion

/// A look-up on one root of a sound table: rows 2 to 4.
pub fn find<A: Value>(root: &Trie<A>, query: &[u8]) -> Result<Option<A>, Refusal> {
    check_arguments(&[Argument::LookUp(query)])?;
    Ok(trie_find_exact(root, &segments(query)))
}

#[derive(Clone, Copy, Debug, PartialEq, Eq)]
pub enum Filter {
    All,
    Loaded,
    ModulesOnly,
    NamespacesOnly,
}

impl Filter {
    pub fn keeps(self, symbol: &ModSymbol) -> bool {
        match self {
            Filter::All => true,
            Filter::Loaded => symbol.loaded(),
            Filter::ModulesOnly => symbol.is_module(),
            Filter::NamespacesOnly => !symbol.is_module(),
        }
    }
}

/// What a completion asks for: names, of all kinds or of one, or modules and
/// namespaces under a filter.
#[derive(Clone, Copy, Debug, PartialEq, Eq)]
pub enum Ask {
    Names(Option<Kind>),
    Modules(Filter),
}

impl Ask {
    pub const ALL: [Ask; 8] = [
        Ask::Names(None),
        Ask::Names(Some(Kind::Timer)),
        Ask::Names(Some(Kind::Port)),
        Ask::Names(Some(Kind::Register)),
        Ask::Modules(Filter::All),
        Ask::Modules(Filter::Loaded),
        Ask::Modules(Filter::ModulesOnly),
        Ask::Modules(Filter::NamespacesOnly),
    ];
}

/// A start and a length in the output text.
#[derive(Clone, Copy, Debug, PartialEq, Eq)]
pub struct Span {
    pub start: u32,
    pub length: u32,
}

#[derive(Clone, Debug, PartialEq, Eq)]
pub struct Line<A> {
    pub match_length: i32,
    pub item: A,
    pub candidate: Span,
    pub annotation: Span,
}

/// Number of lines written and tries entered.
#[derive(Clone, Copy, Debug, PartialEq, Eq)]
pub struct Listed {
    pub lines: u32,
    pub entered: u32,
}

/// The source's `completion_result`, with its item.
#[derive(Clone, Debug, PartialEq, Eq)]
pub struct CompletionResult<A> {
    pub match_length: i32,
    pub item: A,
    pub candidate: Str,
    pub annotation: Str,
}

pub fn completion_result_of_lid((path, lid): (Path, Item)) -> CompletionResult<Item> {
    CompletionResult {
        match_length: match_length_of_path(&path),
        item: lid,
        candidate: string_of_path(&path),
        annotation: first_import_of_path(&path).unwrap_or_else(|| Str::from(&b""[..])),
    }
}

pub fn completion_result_of_ns_or_mod(
    (path, symbol): (Path, ModSymbol),
) -> CompletionResult<ModSymbol> {
    let annotation: &[u8] = match (symbol.is_module(), symbol.loaded()) {
        (true, true) => b" mod ",
        (true, false) => b"(mod)",
        (false, true) => b" ns ",
        (false, false) => b"(ns)",
    };
    CompletionResult {
        match_length: match_length_of_path(&path),
        item: symbol,
        candidate: string_of_path(&path),
        annotation: annotation.into(),
    }
}

/// The lines of a completion of names, of all kinds or of one, and the tries
/// entered: rows 2, 4, 9.
pub fn autocomplete_lid(
    table: &Table,
    query: &[u8],
    kind: Option<Kind>,
    budget: u32,
) -> Result<(Vec<CompletionResult<Item>>, u32), Refusal> {
    check_arguments(&[Argument::Completion(query)])?;
    let mut entered = Entered { tries: 0, budget };
    let found = trie_find_prefix(&mut entered, &table.names, &segments(query))?;
    let results = found
        .into_iter()
        .filter(|(_, item)| kind.is_none_or(|asked| item.kind == asked))
        .map(completion_result_of_lid)
        .collect();
    Ok((results, entered.tries as u32))
}

/// The same for modules and namespaces, under a filter.
pub fn autocomplete_mod_or_ns(
    table: &Table,
    query: &[u8],
    filter: Filter,
    budget: u32,
) -> Result<(Vec<CompletionResult<ModSymbol>>, u32), Refusal> {
    check_arguments(&[Argument::Completion(query)])?;
    let mut entered = Entered { tries: 0, budget };
    let found = trie_find_prefix(&mut entered, &table.modules, &segments(query))?;
    let results = found
        .into_iter()
        .filter(|(_, symbol)| filter.keeps(symbol))
        .map(completion_result_of_ns_or_mod)
        .collect();
    Ok((results, entered.tries as u32))
}

/// The length of the longest beginning that all candidates share: the most
/// bytes of the first that every one begins with; 0 for no line.
pub fn shared_length<A>(results: &[CompletionResult<A>]) -> u32 {
    let Some(CompletionResult { candidate: first, .. }) = results.first() else { return 0 };
    let shared = |n: &usize| results.iter().all(|r| starts_with(&r.candidate, &first[..*n]));
    (1..=first.len()).rev().find(shared).unwrap_or(0) as u32
}

/// Lays the texts one after another from the start of the output text,
/// candidate then annotation. Row 10 comes before any write.
fn lay<A: Clone>(
    results: &[CompletionResult<A>],
    lines: &mut [Line<A>],
    text: &mut [u8],
) -> Result<u32, Refusal> {
    let bytes: usize = results.iter().map(|r| r.candidate.len() + r.annotation.len()).sum();
    if results.len() > lines.len() || bytes > text.len() {
        return Err(Refusal::Lines);
    }
    let mut used = 0;
    let mut write = |part: &[u8]| {
        text[used..used + part.len()].copy_from_slice(part);
        let span = Span { start: used as u32, length: part.len() as u32 };
        used += part.len();
        span
    };
    for (line, result) in lines.iter_mut().zip(results) {
        *line = Line {
            match_length: result.match_length,
            item: result.item.clone(),
            candidate: write(&result.candidate),
            annotation: write(&result.annotation),
        };
    }
    Ok(results.len() as u32)
}

/// A completion of names on a sound table, written into the lent output:
/// rows 2, 4, 9, 10.
pub fn complete_names(
    table: &Table,
    query: &[u8],
    kind: Option<Kind>,
    budget: u32,
    lines: &mut [Line<Item>],
    text: &mut [u8],
) -> Result<Listed, Refusal> {
    let (results, entered) = autocomplete_lid(table, query, kind, budget)?;
    Ok(Listed { lines: lay(&results, lines, text)?, entered })
}

/// A completion of modules on a sound table, written into the lent output:
/// rows 2, 4, 9, 10.
pub fn complete_modules(
    table: &Table,
    query: &[u8],
    filter: Filter,
    budget: u32,
    lines: &mut [Line<ModSymbol>],
    text: &mut [u8],
) -> Result<Listed, Refusal> {
    let (results, entered) = autocomplete_mod_or_ns(table, query, filter, budget)?;
    Ok(Listed { lines: lay(&results, lines, text)?, entered })
}
