//! Second definitions, for tests only: the same things as in `model` and
//! `layout`, written in another way and without regard to speed. Their time
//! grows with the number of paths in a table, so use them on small tables.

use crate::layout::*;
use crate::model::*;
use std::collections::BTreeMap;
use std::fmt::Debug;

// ------------------------------------------------------ weight and depth

/// Weight by recursion, reading nothing stored.
pub fn weight_of<V>(names: &Names<V>) -> u32 {
    match names {
        None => 0,
        Some(place) => {
            let own = match &place.first {
                Collection::Names(_) => 0,
                Collection::ImportedNames(_, own) => weight_of(own),
            };
            1 + own + weight_of(&place.rest)
        }
    }
}

/// The branches of a tree in ascending order of place, left to right.
pub fn entries<V: Clone>(bt: &Tree<V>) -> Vec<(Str, V)> {
    fn add<V: Clone>(bt: &Tree<V>, all: &mut Vec<(Str, V)>) {
        if let Some(b) = bt {
            add(&b.left, all);
            all.push((b.key.clone(), b.value.clone()));
            add(&b.right, all);
        }
    }
    let mut all = Vec::new();
    add(bt, &mut all);
    all
}

/// The trees of the flattened list, each with its outermost label.
pub fn flatten<V>(names: &Names<V>) -> Vec<(Option<Str>, Tree<V>)> {
    let mut all = Vec::new();
    let mut left = names;
    while let Some(place) = left {
        match &place.first {
            Collection::Names(bt) => all.push((None, bt.clone())),
            Collection::ImportedNames(label, own) => {
                for (_, bt) in flatten(own) {
                    all.push((Some(label.clone()), bt));
                }
            }
        }
        left = &place.rest;
    }
    all
}

/// Depth by the requirements' words, reading nothing stored.
pub fn depth_of<A>(tr: &Trie<A>) -> u32 {
    flatten(&namespaces(tr))
        .iter()
        .flat_map(|(_, bt)| entries(bt))
        .map(|(_, below)| 1 + depth_of(&below))
        .max()
        .unwrap_or(0)
}

/// The greatest weight of any list in a trie, of all tries in it and of all
/// imported lists.
pub fn heaviest_of<A: Clone>(tr: &Trie<A>) -> u32 {
    fn lists<V>(names: &Names<V>) -> u32 {
        match names {
            None => 0,
            Some(place) => {
                let own = match &place.first {
                    Collection::Names(_) => 0,
                    Collection::ImportedNames(_, own) => lists(own),
                };
                weight_of(names).max(own).max(lists(&place.rest))
            }
        }
    }
    let below = flatten(&namespaces(tr))
        .iter()
        .flat_map(|(_, bt)| entries(bt))
        .map(|(_, below)| heaviest_of(&below))
        .max()
        .unwrap_or(0);
    lists(&bindings(tr)).max(lists(&namespaces(tr))).max(below)
}

// ------------------------------------------------------------------ Sound

enum Rule {
    Key,
    Label,
    FullName,
    Path,
}

fn text_keeps(text: &[u8], rule: &Rule) -> bool {
    let (least, most) = match rule {
        Rule::Key => (1, 31),
        Rule::Label => (0, 543),
        Rule::FullName => (1, 543),
        Rule::Path => (0, 120),
    };
    let allowed = |&b: &u8| match rule {
        Rule::Key => b > 0x20 && b < 0x7F && !b".[]".contains(&b),
        Rule::Label | Rule::FullName => b > 0x20 && b < 0x7F && !b"[]".contains(&b),
        Rule::Path => (0x20..0x7F).contains(&b),
    };
    text.len() >= least && text.len() <= most && text.iter().all(allowed)
}

/// What a record of this kind and sort asks of its words: links with the
/// kind wanted, texts with their rule, words with what they may be.
#[allow(clippy::type_complexity)]
fn asked(
    r: &Record,
) -> Option<(Vec<(u32, u32)>, Vec<(u32, u32, Rule)>, Vec<(u32, &'static [u32])>)> {
    const FLAG: &[u32] = &[0, 1];
    const KIND: &[u32] = &[1, 2, 3];
    let key = || vec![(r[1], r[2], Rule::Key)];
    Some(match r[0] {
        1 => (vec![(r[3], 1), (r[4], 1)], key(), vec![(r[6], KIND)]),
        2 => (vec![(r[3], 2), (r[4], 2), (r[5], 5)], key(), vec![]),
        6 => {
            let mut texts = key();
            texts.push((r[6], r[7], Rule::FullName));
            if r[5] == 0 {
                texts.push((r[8], r[9], Rule::Path));
            }
            (vec![(r[3], 6), (r[4], 6)], texts, vec![(r[5], FLAG), (r[10], FLAG)])
        }
        7 => (vec![(r[3], 7), (r[4], 7), (r[5], 10)], key(), vec![]),
        3 | 4 | 8 | 9 if r[5] == 0 => (vec![(r[3], r[0] - 2), (r[4], r[0])], vec![], vec![]),
        3 | 4 | 8 | 9 => {
            let label = vec![(r[1], r[2], Rule::Label)];
            (vec![(r[3], r[0]), (r[4], r[0])], label, vec![(r[5], FLAG)])
        }
        5 => (vec![(r[3], 3), (r[4], 4)], vec![], vec![]),
        10 => (vec![(r[3], 8), (r[4], 9)], vec![], vec![]),
        _ => return None,
    })
}

/// Stored numbers and key order of a record whose links are right, by
/// recursion over what it means.
fn meaning_is_sound<A: Value>(meaning: &Meaning<A>, r: &Record) -> bool {
    fn ascends<V: Clone>(bt: &Tree<V>) -> bool {
        entries(bt).windows(2).all(|pair| pair[0].0 < pair[1].0)
    }
    fn deepest<A>(trees: &[Tree<Trie<A>>]) -> u32 {
        let tries = trees.iter().flat_map(entries);
        tries.map(|(_, below)| 1 + depth_of(&below)).max().unwrap_or(0)
    }
    match meaning {
        Meaning::Bindings(bt) => ascends(bt),
        Meaning::Namespaces(bt) => ascends(bt) && r[11] == deepest(std::slice::from_ref(bt)),
        Meaning::BindingsList(names) => r[10] == weight_of(names) && r[10] <= 96,
        Meaning::NamespacesList(names) => {
            let trees: Vec<_> = flatten(names).into_iter().map(|(_, bt)| bt).collect();
            r[10] == weight_of(names) && r[10] <= 96 && r[11] == deepest(&trees)
        }
        Meaning::Trie(tr) => r[11] == depth_of(tr) && r[11] <= 16,
        Meaning::Other => false,
    }
}

/// *Sound* by decoding, record after record.
pub fn sound_naive(memory: &Memory) -> bool {
    let h = memory.header;
    let (records, text_used) = (h.records as usize, h.text as usize);
    if records > memory.words.len() / 12 || records > 65_536 {
        return false;
    }
    if text_used > memory.text.len() || text_used > 65_536 {
        return false;
    }
    let used = &memory.text[..text_used];
    let names = meanings(memory, 0, &item_of);
    let modules = meanings(memory, MODULES, &symbol_of);
    let kind_of = |link: u32| record(&memory.words, link as usize - 1)[0];
    for number in 0..records {
        let r = record(&memory.words, number);
        let Some((links, texts, choices)) = asked(&r) else {
            return false;
        };
        let links_right = links
            .iter()
            .all(|&(link, kind)| link == 0 || (link as usize <= number && kind_of(link) == kind));
        let texts_right = texts.iter().all(|(start, length, rule)| {
            let end = (*start as usize).checked_add(*length as usize);
            end.and_then(|end| used.get(*start as usize..end))
                .is_some_and(|text| text_keeps(text, rule))
        });
        let choices_right = choices.iter().all(|(word, all)| all.contains(word));
        if !links_right || !texts_right || !choices_right {
            return false;
        }
        let meaning_right = if r[0] <= 5 {
            meaning_is_sound(&names[number], &r)
        } else {
            meaning_is_sound(&modules[number], &r)
        };
        if !meaning_right {
            return false;
        }
    }
    let root = |link: u32, kind| link == 0 || (link <= h.records && kind_of(link) == kind);
    root(h.names, 5) && root(h.modules, 10)
}

// --------------------------------------------------------- walks, listing

/// Which holder of a name counts: the first, in look-ups and listings, or the
/// last, in the source's listings.
#[derive(Clone, Copy, Debug, PartialEq, Eq)]
pub enum Holder {
    First,
    Last,
}

impl Holder {
    fn of<T>(self, all: &[T]) -> Option<&T> {
        match self {
            Holder::First => all.first(),
            Holder::Last => all.last(),
        }
    }
}

/// What a holder gives for a name, and its outermost label.
pub type Held<V> = (Option<Str>, V);

/// All holders of each name that begins so, first to last in the flattened
/// list.
pub fn holders<V: Clone>(names: &Names<V>, prefix: &[u8]) -> BTreeMap<Str, Vec<Held<V>>> {
    let mut all: BTreeMap<Str, Vec<Held<V>>> = BTreeMap::new();
    for (label, bt) in flatten(names) {
        for (key, value) in entries(&bt) {
            if key.starts_with(prefix) {
                all.entry(key).or_default().push((label.clone(), value));
            }
        }
    }
    all
}

/// A walk for a full name.
#[derive(Clone, Debug, PartialEq)]
pub struct Walk<A> {
    /// Where it ends.
    pub end: Option<A>,
    /// The outermost label of the holder that its first step takes.
    pub label: Option<Str>,
    /// The greatest number of holders that a step met in namespaces.
    pub in_namespaces: usize,
    /// How many the last step met in bindings.
    pub in_bindings: usize,
}

impl<A> Walk<A> {
    /// Whether a step met more than one holder.
    pub fn meets_several(&self) -> bool {
        self.in_namespaces > 1 || self.in_bindings > 1
    }
}

/// The walk for a full name by first or by last holders.
pub fn walk<A: Clone>(root: &Trie<A>, full_name: &[Str], by: Holder) -> Walk<A> {
    /// What the step for this name takes, and how many holders it meets.
    fn step<V: Clone>(names: &Names<V>, name: &Str, by: Holder) -> (Option<Held<V>>, usize) {
        let met = holders(names, name).remove(name).unwrap_or_default();
        (by.of(&met).cloned(), met.len())
    }
    let (last, before) = full_name.split_last().expect("a full name has a segment");
    let mut walk = Walk { end: None, label: None, in_namespaces: 0, in_bindings: 0 };
    let mut trie = root.clone();
    for (k, segment) in before.iter().enumerate() {
        let (taken, met) = step(&namespaces(&trie), segment, by);
        walk.in_namespaces = walk.in_namespaces.max(met);
        let Some((label, below)) = taken else { return walk };
        if k == 0 {
            walk.label = label;
        }
        trie = below;
    }
    let (taken, met) = step(&bindings(&trie), last, by);
    walk.in_bindings = met;
    if let Some((label, item)) = taken {
        if before.is_empty() {
            walk.label = label;
        }
        walk.end = Some(item);
    }
    walk
}

/// Full names that some walk by any holders reaches, at most about so many.
pub fn full_names<A: Clone>(root: &Trie<A>, most: usize) -> Vec<Vec<Str>> {
    let mut all = Vec::new();
    let mut left = vec![(Vec::new(), root.clone())];
    while let Some((path, tr)) = left.pop() {
        if all.len() + left.len() > most {
            break;
        }
        let longer = |key: Str| [path.clone(), vec![key]].concat();
        for (_, bt) in flatten(&bindings(&tr)) {
            all.extend(entries(&bt).into_iter().map(|(key, _)| longer(key)));
        }
        for (_, bt) in flatten(&namespaces(&tr)) {
            left.extend(entries(&bt).into_iter().map(|(key, below)| (longer(key), below)));
        }
    }
    all
}

/// A query covers a full name with at least as many segments, which begin,
/// one by one, with the query's.
pub fn covers(query: &[Str], full_name: &[Str]) -> bool {
    full_name.len() >= query.len() && query.iter().zip(full_name).all(|(q, f)| f.starts_with(q))
}

/// An item of either root, as completions have it.
pub trait Symbol: Value + PartialEq + Debug {
    /// What a completion on its root may ask for, everything first.
    const ASKS: [Ask; 4];

    /// Whether a completion that asks so keeps it.
    fn kept_by(&self, ask: Ask) -> bool;

    /// The annotation of its line, whose path's first element has this
    /// outermost label.
    fn annotation(&self, label: &Option<Str>) -> Str;
}

impl Symbol for Item {
    const ASKS: [Ask; 4] = [
        Ask::Names(None),
        Ask::Names(Some(Kind::Timer)),
        Ask::Names(Some(Kind::Port)),
        Ask::Names(Some(Kind::Register)),
    ];

    fn kept_by(&self, ask: Ask) -> bool {
        match ask {
            Ask::Names(kind) => kind.is_none() || kind == Some(self.kind),
            Ask::Modules(_) => panic!("an item of names"),
        }
    }

    fn annotation(&self, label: &Option<Str>) -> Str {
        label.clone().unwrap_or_else(|| Str::from(&b""[..]))
    }
}

impl Symbol for ModSymbol {
    const ASKS: [Ask; 4] = [
        Ask::Modules(Filter::All),
        Ask::Modules(Filter::Loaded),
        Ask::Modules(Filter::ModulesOnly),
        Ask::Modules(Filter::NamespacesOnly),
    ];

    fn kept_by(&self, ask: Ask) -> bool {
        match (ask, self) {
            (Ask::Modules(Filter::All), _) => true,
            (Ask::Modules(Filter::Loaded), ModSymbol::Module { mod_loaded, .. }) => *mod_loaded,
            (Ask::Modules(Filter::Loaded), ModSymbol::Namespace { ns_loaded, .. }) => *ns_loaded,
            (Ask::Modules(Filter::ModulesOnly), ModSymbol::Module { .. }) => true,
            (Ask::Modules(Filter::NamespacesOnly), ModSymbol::Namespace { .. }) => true,
            (Ask::Modules(_), _) => false,
            (Ask::Names(_), _) => panic!("an item of modules"),
        }
    }

    fn annotation(&self, _: &Option<Str>) -> Str {
        let text = match self {
            ModSymbol::Module { mod_loaded: true, .. } => " mod ",
            ModSymbol::Module { mod_loaded: false, .. } => "(mod)",
            ModSymbol::Namespace { ns_loaded: true, .. } => " ns ",
            ModSymbol::Namespace { ns_loaded: false, .. } => "(ns)",
        };
        text.as_bytes().into()
    }
}

/// An element of a path: its name and the length of the prefix that matched
/// it.
type Element = (Str, Option<usize>);

/// A listing without regard to the room for it.
#[derive(Clone, Debug, PartialEq)]
pub struct Listing<A> {
    pub lines: Vec<CompletionResult<A>>,
    /// Tries entered.
    pub entered: u64,
    /// The greatest number of holders of a name that it lists or enters.
    pub most_holders: usize,
}

/// The listing by the requirements' words: bindings ascending, then each
/// namespace ascending with its own listing; of equal names the first holder,
/// or the last, as the source has it. None if more tries are entered than
/// `most`.
pub fn listing<A: Symbol>(
    root: &Trie<A>,
    query: &[Str],
    most: u64,
    by: Holder,
) -> Option<Listing<A>> {
    /// What is taken of each name, in order, and the most holders of one.
    fn taken<V: Clone>(
        names: &Names<V>,
        prefix: &[u8],
        by: Holder,
        most_holders: &mut usize,
    ) -> Vec<(Str, Held<V>)> {
        let mut all = Vec::new();
        for (name, met) in holders(names, prefix) {
            *most_holders = met.len().max(*most_holders);
            all.push((name, by.of(&met).expect("a holder").clone()));
        }
        all
    }
    /// The text up to the end of the last matched prefix.
    fn match_length(path: &[Element]) -> i32 {
        let mut length = -1;
        let mut start = 0;
        for (name, matched) in path {
            if let Some(prefix) = matched {
                length = (start + prefix) as i32;
            }
            start += name.len() + 1;
        }
        length
    }
    fn enter<A: Symbol>(
        tr: &Trie<A>,
        query: &[Str],
        path: &[Element],
        label: &Option<Str>,
        (most, by): (u64, Holder),
        out: &mut Listing<A>,
    ) -> Option<()> {
        out.entered += 1;
        if out.entered > most {
            return None;
        }
        let matched = query.first().map(|segment| segment.len());
        let prefix: &[u8] = query.first().map_or(b"", |segment| segment);
        let extend = |name: Str| [path, &[(name, matched)]].concat();
        let outermost = |here: Option<Str>| if path.is_empty() { here } else { label.clone() };
        if query.len() <= 1 {
            for (name, (here, item)) in taken(&bindings(tr), prefix, by, &mut out.most_holders) {
                let whole = extend(name);
                let parts: Vec<&[u8]> = whole.iter().map(|(name, _)| &name[..]).collect();
                out.lines.push(CompletionResult {
                    match_length: match_length(&whole),
                    candidate: parts.join(&DOT).into(),
                    annotation: item.annotation(&outermost(here)),
                    item,
                });
            }
        }
        for (name, (here, below)) in taken(&namespaces(tr), prefix, by, &mut out.most_holders) {
            let rest = query.get(1..).unwrap_or(&[]);
            enter(&below, rest, &extend(name), &outermost(here), (most, by), out)?;
        }
        Some(())
    }
    let mut out = Listing { lines: Vec::new(), entered: 0, most_holders: 0 };
    enter(root, query, &[], &None, (most, by), &mut out)?;
    Some(out)
}

/// The lines that the source lists of names, which keeps last holders.
pub fn source_lines(root: &Trie<Item>, query: &[u8]) -> Vec<CompletionResult<Item>> {
    listing(root, &segments(query), u64::MAX, Holder::Last).expect("no budget").lines
}
