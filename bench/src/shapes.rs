//! Sound tables of shapes that make trees high or share their parts.
use model::gen::{name_byte, Rng};
use model::layout::{Memory, BINDINGS_LIST, NAMESPACES_LIST};
use model::written::{Key, Written};

/// Ascending keys of eight bytes: spans of a random text of 65,536 bytes, which overlap.
pub struct Keys {
    text: Vec<u8>,
    all: Vec<Key>,
}

impl Keys {
    pub fn new() -> Keys {
        let mut rng = Rng::new(5);
        let text: Vec<u8> = (0..65_536).map(|_| name_byte(&mut rng)).collect();
        let key = |k: &Key| &text[k.0 as usize..k.0 as usize + 8];
        let mut all: Vec<Key> = (0..65_529).map(|start| (start, 8)).collect();
        all.sort_by(|a, b| key(a).cmp(key(b)));
        all.dedup_by(|a, b| key(a) == key(b));
        Keys { text, all }
    }

    /// A table in the making over the text of the keys.
    fn table(&self) -> Written {
        Written { text: self.text.clone(), ..Written::default() }
    }
}

/// The table of one tree of bindings.
fn tree(mut t: Written, root: u32) -> Memory {
    let list = t.tree(BINDINGS_LIST, root, 0);
    let trie = t.trie(list, 0);
    t.memory(trie)
}

pub fn balanced(keys: &Keys, n: usize) -> Memory {
    let mut t = keys.table();
    let root = t.balanced(&keys.all[..n], &Written::leaf);
    tree(t, root)
}

/// One branch below another, each to the left of the last one or to its right.
pub fn chain(keys: &Keys, n: usize, left: fn(usize) -> bool) -> Memory {
    let mut t = keys.table();
    let root = t.chain(&keys.all[..n], left, &Written::leaf);
    tree(t, root)
}

/// A chain to the right, and as many branches that all have it to their left.
pub fn shared_spine(keys: &Keys, n: usize) -> Memory {
    let mut t = keys.table();
    let spine = t.chain(&keys.all[..n / 2], |_| false, &Written::leaf);
    let root = (0..n - n / 2).fold(0, |_, _| t.leaf(keys.all[n], spine, 0));
    tree(t, root)
}

/// A chain to the right that grows, and at each length a branch that has it to its left.
pub fn comb(keys: &Keys, n: usize) -> Memory {
    let mut t = keys.table();
    let (mut spine, mut root) = (0, 0);
    for key in keys.all[..n / 2].iter().rev() {
        spine = t.leaf(*key, 0, spine);
        root = t.leaf(keys.all[n], spine, 0);
    }
    tree(t, root)
}

/// So many namespaces of one and the same trie with so many names.
pub fn shared_lists(keys: &Keys, namespaces: usize, names: usize) -> Memory {
    let mut t = keys.table();
    let leaves = t.balanced(&keys.all[..names], &Written::leaf);
    let bindings = t.tree(BINDINGS_LIST, leaves, 0);
    let trie = t.trie(bindings, 0);
    let spaces = t.balanced(&keys.all[..namespaces], &|t, key, left, right| t.space(key, left, right, trie));
    let list = t.tree(NAMESPACES_LIST, spaces, 0);
    let root = t.trie(0, list);
    t.memory(root)
}
