//! Every call on a thread with exactly the stack that include/name_console.h states and a guard page below it, on the tables that need most.
use layer::{complete, complete_shared, find, find_module, register, Bytes, Output};
use model::layout::{BINDINGS_LIST, MODULES, NAMESPACES_LIST};
use model::model::{Ask, Item, Registration};
use model::written::{with_free, Key, Written};
use std::ffi::c_void;

extern "C" {
    fn on_stack(run: extern "C" fn(*mut c_void), what: *mut c_void, stack: usize) -> usize;
}

/// Runs `f` with so much stack and says how much it used.
fn used_by<F: FnMut()>(stack: usize, mut f: F) -> usize {
    extern "C" fn call<F: FnMut()>(f: *mut c_void) {
        unsafe { (*(f as *mut F))() }
    }
    unsafe { on_stack(call::<F>, &mut f as *mut F as *mut c_void, stack) }
}

/// The number that the header gives this name.
fn stated(name: &str) -> usize {
    let header = include_str!("../../../include/name_console.h");
    let line = header.lines().find(|l| l.starts_with(&format!("#define {name} "))).expect(name);
    line.split_whitespace().nth(2).unwrap().parse().expect(name)
}

#[derive(Clone, Copy, Debug)]
enum Shape {
    Flat,
    Nested,
    Doubled,
}

/// A list of weight 96 around a tree.
fn list(t: &mut Written, shape: Shape, kind: u32, tree: u32) -> u32 {
    let mut list = t.tree(kind, tree, 0);
    while t.word(list, 10) < 96 {
        list = match shape {
            Shape::Flat => t.tree(kind, tree, list),
            Shape::Nested => t.import(kind, list, 0),
            Shape::Doubled if 2 * t.word(list, 10) + 2 <= 96 => {
                let second = t.import(kind, list, 0);
                t.import(kind, list, second)
            }
            Shape::Doubled => t.tree(kind, tree, list),
        };
    }
    list
}

/// The table with this root; as much is lent as counts.
fn lent(t: Written, root: u32) -> Bytes {
    Bytes::of(&with_free(t.memory(root), 1024, 65536))
}

/// Seventeen tries below each other; every trie has the same bindings, in a list of weight 96, and reaches the next by merged lists.
fn deep(base: u32, shape: Shape) -> Bytes {
    let mut t = Written { base, ..Written::default() };
    let key = t.key("s");
    let leaf = t.leaf(key, 0, 0);
    let bindings = list(&mut t, shape, BINDINGS_LIST, leaf);
    // The last trie's namespaces are a heavy list too, of no key.
    let last = list(&mut t, shape, NAMESPACES_LIST, 0);
    let mut trie = t.trie(bindings, last);
    for _ in 0..16 {
        let space = t.space(key, 0, 0, trie);
        let mut list = t.tree(NAMESPACES_LIST, space, 0);
        list = t.import(NAMESPACES_LIST, list, 0);
        list = t.tree(NAMESPACES_LIST, space, list);
        trie = t.trie(bindings, list);
    }
    lent(t, trie)
}

/// One tree of 750 branches in a row, to the left, to the right, or by turns; and 200 namespaces in the same way.
fn chain(base: u32, left: fn(usize) -> bool) -> Bytes {
    let mut t = Written { base, ..Written::default() };
    let keys: Vec<Key> = (0..750).map(|k| t.key(&format!("k{k:03}"))).collect();
    let leaf = t.chain(&keys, left, &Written::leaf);
    let space = t.chain(&keys[..200], left, &|t, key, left, right| t.space(key, left, right, 0));
    let bindings = t.tree(BINDINGS_LIST, leaf, 0);
    let namespaces = t.tree(NAMESPACES_LIST, space, 0);
    let root = t.trie(bindings, namespaces);
    lent(t, root)
}

fn tables() -> Vec<(String, Bytes)> {
    let mut all = Vec::new();
    for base in [0, MODULES] {
        for shape in [Shape::Flat, Shape::Nested, Shape::Doubled] {
            all.push((format!("deep {base} {shape:?}"), deep(base, shape)));
        }
        all.push((format!("left {base}"), chain(base, |_| true)));
        all.push((format!("right {base}"), chain(base, |_| false)));
        all.push((format!("zigzag {base}"), chain(base, |k| k % 2 == 0)));
    }
    all
}

/// Texts of queries: at the root, along the tries, and at the limits of length.
fn queries() -> Vec<Vec<u8>> {
    let mut all: Vec<Vec<u8>> = [0, 1, 8, 15, 16, 17].iter().map(|&n| b"s.".repeat(n)).collect();
    all.extend([1, 16, 17].map(|n| b".".repeat(n)));
    all.push([&[b'n'; 31][..], b"."].concat().repeat(16));
    all.push(b"k".to_vec());
    all.push(b"k500.".to_vec());
    all
}

fn registrations(q: &[u8]) -> Vec<Registration> {
    let (s, k) = (b"s.".to_vec(), b"k".to_vec());
    let mut all = Vec::new();
    for (host, included) in [(q.to_vec(), s.clone()), (s, q.to_vec()), (q.to_vec(), q.to_vec())] {
        all.push(Registration::Name { host: host.clone(), id: k.clone(), item: Item::register(1) });
        all.push(Registration::Include { host: host.clone(), included: included.clone() });
        all.push(Registration::OpenNamespace { host: host.clone(), included: included.clone() });
        all.push(Registration::OpenModule { host: host.clone(), included: included.clone() });
        all.push(Registration::Alias { key: k.clone(), host: host.clone(), included });
        all.push(Registration::Module { loaded: true, query: host.clone(), path: vec![b'p'; 120] });
        all.push(Registration::Module { loaded: false, query: host, path: vec![] });
    }
    all
}

/// A registration by its name and host.
fn shown(call: &Registration) -> String {
    match call {
        Registration::Name { host, .. } => format!("name {}", host.escape_ascii()),
        Registration::Include { host, .. } => format!("include {}", host.escape_ascii()),
        Registration::OpenNamespace { host, .. } => format!("open n {}", host.escape_ascii()),
        Registration::OpenModule { host, .. } => format!("open m {}", host.escape_ascii()),
        Registration::Alias { host, .. } => format!("alias {}", host.escape_ascii()),
        Registration::Module { query, .. } => format!("module {}", query.escape_ascii()),
    }
}

/// Where 'none' is counted among the answers, after the refusals.
const NONE_AT: u32 = 11;

/// The most that a call used, and where; and how often each number was answered.
struct Most {
    used: usize,
    at: String,
    answers: [u64; 12],
}

impl Most {
    fn new() -> Most {
        Most { used: 0, at: String::new(), answers: [0; 12] }
    }

    fn take(&mut self, used: usize, answer: u32, at: impl FnOnce() -> String) {
        self.answers[answer as usize] += 1;
        if self.used < used {
            (self.used, self.at) = (used, at());
        }
    }

    fn report(&self, what: &str, stack: usize) {
        println!("{what}: {} of {stack} bytes of stack, at {}; by answer {:?}", self.used, self.at, self.answers);
        assert!(self.used <= stack);
    }
}

#[test]
fn registrations_and_look_ups() {
    let stack = stated("NAME_CONSOLE_STACK");
    let (mut registered, mut found) = (Most::new(), Most::new());
    for (what, table) in tables() {
        for q in queries() {
            for call in registrations(&q) {
                let mut t = table.clone();
                let mut answer = 0;
                let used = used_by(stack, || answer = register(&mut t, &call, None));
                registered.take(used, answer, || format!("{what}, {}", shown(&call)));
            }
            let mut answer = 0;
            let used = used_by(stack, || answer = find(&table, &q).map_or_else(|n| n, |f| f.map_or(NONE_AT, |_| 0)));
            found.take(used, answer, || format!("{what}, find {}", q.escape_ascii()));
            let used = used_by(stack, || answer = find_module(&table, &q).map_or_else(|n| n, |f| f.map_or(NONE_AT, |_| 0)));
            found.take(used, answer, || format!("{what}, find module {}", q.escape_ascii()));
        }
    }
    registered.report("registrations", stack);
    found.report("look-ups", stack);
    assert!([0, 2, 3, 5, 6].iter().all(|&n| 0 < registered.answers[n]), "{:?}", registered.answers);
    assert!([0, 2, 3, NONE_AT as usize].iter().all(|&n| 0 < found.answers[n]), "{:?}", found.answers);
}

#[test]
fn completions() {
    let stack = stated("NAME_CONSOLE_STACK_COMPLETE");
    let (mut listed, mut shared) = (Most::new(), Most::new());
    for (what, table) in tables() {
        for q in queries() {
            for ask in Ask::ALL {
                for (budget, room) in [(u32::MAX, 2000), (u32::MAX, 0), (16, 512)] {
                    let mut out = Output::with_room(room, 65536);
                    let mut answer = 0;
                    let used = used_by(stack, || answer = complete(&table, ask, &q, budget, &mut out).err().unwrap_or(0));
                    listed.take(used, answer, || format!("{what}, {ask:?} {}", q.escape_ascii()));
                    let used = used_by(stack, || answer = complete_shared(&table, ask, &q, budget, &mut out).err().unwrap_or(0));
                    shared.take(used, answer, || format!("{what}, {ask:?} {}", q.escape_ascii()));
                }
            }
        }
    }
    listed.report("completions", stack);
    shared.report("completions with their shared length", stack);
    assert!([0, 2, 9, 10].iter().all(|&n| 0 < listed.answers[n]), "{:?}", listed.answers);
    assert_eq!(shared.answers, listed.answers);
}

/// So many frames of over 1,024 bytes.
fn deep_frames(n: usize) -> u64 {
    let room = std::hint::black_box([n as u64; 128]);
    if n == 0 { room[0] } else { deep_frames(n - 1) + room[127] }
}

/// What is measured is what a call uses.
#[test]
fn the_measure() {
    let mut sum = 0;
    let small = used_by(65536, || sum += deep_frames(1));
    let large = used_by(65536, || sum += deep_frames(20));
    assert!(1024 < small && 20 * 1024 < large && large < 64 * 1024, "{small} {large} {sum}");
}

/// Uses more stack than it has.
#[test]
#[ignore = "run by the_guard, which sees it end"]
fn overflow() {
    println!("{}", used_by(65536, || _ = deep_frames(1000)));
}

#[test]
fn the_guard() {
    use std::os::unix::process::ExitStatusExt;
    let run = std::process::Command::new(std::env::current_exe().unwrap()).args(["overflow", "--exact", "--ignored"]).output().unwrap();
    assert_eq!(run.status.signal(), Some(11), "{run:?}");
}
