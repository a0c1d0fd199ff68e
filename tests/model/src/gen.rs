//! Random inputs and inputs at the limits. The same seed gives the same
//! inputs. Names come from small alphabets, so that equal names, prefixes
//! and shared segments are frequent.

use crate::layout::*;
use crate::model::*;
use crate::script::{spell, Form, MOST_LINE};

// ---------------------------------------------------------------- numbers

/// A xorshift generator.
#[derive(Clone, Debug)]
pub struct Rng(u64);

impl Rng {
    pub fn new(seed: u64) -> Rng {
        let mut rng = Rng(seed.wrapping_mul(0x9E37_79B9_7F4A_7C15) | 1);
        for _ in 0..8 {
            rng.step();
        }
        rng
    }

    /// The seed in the environment's SEED, or this one.
    pub fn seed_or(default: u64) -> u64 {
        set("SEED").map_or(default, |s| s.parse().expect("SEED must be a decimal number"))
    }

    fn step(&mut self) -> u64 {
        self.0 ^= self.0 << 13;
        self.0 ^= self.0 >> 7;
        self.0 ^= self.0 << 17;
        self.0.wrapping_mul(0x2545_F491_4F6C_DD1D)
    }

    /// A number below n.
    pub fn below(&mut self, n: usize) -> usize {
        ((u64::from(self.word()) * n as u64) >> 32) as usize
    }

    pub fn one_in(&mut self, n: usize) -> bool {
        self.below(n) == 0
    }

    pub fn pick<'a, T>(&mut self, all: &'a [T]) -> &'a T {
        &all[self.below(all.len())]
    }

    pub fn word(&mut self) -> u32 {
        (self.step() >> 32) as u32
    }
}

/// What the environment has under this name.
fn set(name: &str) -> Option<String> {
    std::env::var_os(name).map(|value| value.into_string().expect("a variable that is text"))
}

/// How often a test runs: the number in the environment, if there is one.
/// Less than the test's own number is an error, so that no test is emptied.
pub fn times(name: &str, least: usize) -> usize {
    set(name).map_or(least, |value| at_least(&value, least).expect(name))
}

/// The number, which is not below the least.
pub fn at_least(value: &str, least: usize) -> Result<usize, String> {
    match value.parse() {
        Ok(n) if n >= least => Ok(n),
        _ => Err(format!("{value:?} is no number from {least} on")),
    }
}

// ------------------------------------------------------------------ texts

const NAMES: [&[u8]; 16] = [
    b"a", b"b", b"ab", b"ba", b"aa", b"abc", b"A", b"!", b"~", b"a!", b"a~", b"a-", b"a/", b"Live",
    b"Saved", b"offset",
];

/// Bytes that are no name bytes.
const BAD_BYTES: [u8; 10] = [0x00, 0x09, 0x0D, 0x1F, 0x20, 0x5B, 0x5D, 0x7F, 0x80, 0xFF];

/// A name that is allowed.
pub fn name(rng: &mut Rng) -> Vec<u8> {
    match rng.below(24) {
        0 => long_name(rng, MOST_NAME),
        1 => (0..1 + rng.below(4)).map(|_| name_byte(rng)).collect(),
        2..=4 => rng.pick(&NAMES).to_vec(),
        5..=8 => (0..1 + rng.below(3)).map(|_| *rng.pick(b"ab")).collect(),
        _ => rng.pick(&NAMES[..3]).to_vec(),
    }
}

pub fn name_byte(rng: &mut Rng) -> u8 {
    loop {
        let b = 0x21 + rng.below(0x7F - 0x21) as u8;
        if is_name_byte(b) {
            return b;
        }
    }
}

/// A name of this length. Two of them share a long beginning.
pub fn long_name(rng: &mut Rng, length: usize) -> Vec<u8> {
    let mut name = vec![b'n'; length];
    if let Some(last) = name.last_mut() {
        *last = *rng.pick(b"mno");
    }
    name
}

/// A query that is allowed, without empty segments.
pub fn query(rng: &mut Rng) -> Vec<u8> {
    let count = match rng.below(40) {
        0 => rng.below(MOST_SEGMENTS + 1),
        1..=9 => 0,
        10..=25 => 1,
        26..=34 => 2,
        _ => 3,
    };
    let mut query = Vec::new();
    for _ in 0..count {
        query.extend(name(rng));
        query.push(DOT);
    }
    query
}

/// A query that is often the root or close to it, so that imports meet.
pub fn near_query(rng: &mut Rng) -> Vec<u8> {
    let near: [&[u8]; 4] = [b"", b"a.", b"b.", b"a.b."];
    if rng.one_in(2) {
        rng.pick(&near).to_vec()
    } else {
        query(rng)
    }
}

/// A query with one segment or more, none empty.
pub fn full_name(rng: &mut Rng) -> Vec<u8> {
    let mut whole = query(rng);
    if whole.len() < 4 || !rng.one_in(4) {
        whole.extend(name(rng));
        whole.push(DOT);
    }
    whole
}

/// A completion's query: beginnings of names, some of them empty.
pub fn completion_query(rng: &mut Rng) -> Vec<u8> {
    let mut query = Vec::new();
    for _ in 0..[0, 0, 1, 1, 1, 1, 2, 2, 2, 3][rng.below(10)] {
        let name = name(rng);
        query.extend(beginning(rng, &name));
        query.push(DOT);
    }
    query
}

/// A completion's query that covers the full name.
pub fn covering_query(rng: &mut Rng, full_name: &[Str]) -> Vec<u8> {
    let mut query = Vec::new();
    for segment in &full_name[..rng.below(full_name.len() + 1)] {
        query.extend(beginning(rng, segment));
        query.push(DOT);
    }
    query
}

/// None of a name, all of it or a part.
fn beginning<'a>(rng: &mut Rng, name: &'a [u8]) -> &'a [u8] {
    match rng.below(4) {
        0 => &[],
        1 => name,
        _ => &name[..rng.below(name.len() + 1)],
    }
}

/// A query that may break a rule.
pub fn damaged_query(rng: &mut Rng) -> Vec<u8> {
    let mut query = query(rng);
    let at = rng.below(query.len() + 1);
    match rng.below(7) {
        0 => {
            query.pop();
        }
        1 => query.insert(at, DOT),
        2 => query.insert(at, *rng.pick(&BAD_BYTES)),
        3 => query.insert(at, rng.word() as u8),
        4 => {
            query.extend(long_name(rng, MOST_NAME + 1));
            query.push(DOT);
        }
        5 => query.extend(b"a.".repeat(MOST_SEGMENTS - 1 + rng.below(4))),
        _ => query.extend(b"a"),
    }
    query
}

/// An id or key that may break a rule.
pub fn damaged_name(rng: &mut Rng) -> Vec<u8> {
    let mut name = name(rng);
    let at = rng.below(name.len() + 1);
    match rng.below(5) {
        0 => name.clear(),
        1 => name.insert(at, DOT),
        2 => name.insert(at, *rng.pick(&BAD_BYTES)),
        3 => name = long_name(rng, MOST_NAME + 1),
        _ => name.insert(at, rng.word() as u8),
    }
    name
}

pub fn path(rng: &mut Rng) -> Vec<u8> {
    let all: [&[u8]; 8] = [b"", b" ", b"io/bus", b"a b", b"[x]", b"]", b"a.fst", b"/~"];
    match rng.below(12) {
        0 => vec![b'p'; MOST_PATH],
        _ => rng.pick(&all).to_vec(),
    }
}

pub fn damaged_path(rng: &mut Rng) -> Vec<u8> {
    let mut path = path(rng);
    let at = rng.below(path.len() + 1);
    match rng.below(3) {
        0 => path = vec![b'p'; MOST_PATH + 1],
        1 => path.insert(at, *rng.pick(&[0x00, 0x1F, 0x7F, 0x80, 0xFF])),
        _ => path.insert(at, rng.word() as u8),
    }
    path
}

// ------------------------------------------------------------------ calls

/// How often each kind of registration comes: names, includes, opens,
/// aliases, modules.
pub type Mix = [usize; 5];

/// All kinds; mostly imports, which make lists heavy and tries shared;
/// mostly modules.
pub const MIXES: [Mix; 3] = [[7, 2, 3, 1, 3], [4, 6, 6, 2, 0], [2, 0, 0, 0, 9]];

/// A registration whose texts are allowed.
pub fn registration(rng: &mut Rng, mix: &Mix) -> Registration {
    let mut n = rng.below(mix.iter().sum());
    let mut kind = 0;
    while n >= mix[kind] {
        n -= mix[kind];
        kind += 1;
    }
    match kind {
        0 => Registration::Name { host: query(rng), id: name(rng), item: item(rng) },
        1 => Registration::Include { host: near_query(rng), included: near_query(rng) },
        2 => {
            let module = rng.one_in(4);
            let (host, included) = (near_query(rng), near_query(rng));
            match module {
                true => Registration::OpenModule { host, included },
                false => Registration::OpenNamespace { host, included },
            }
        }
        3 => Registration::Alias { key: name(rng), host: query(rng), included: query(rng) },
        _ => Registration::Module { loaded: rng.one_in(2), query: query(rng), path: path(rng) },
    }
}

pub fn item(rng: &mut Rng) -> Item {
    let number = match rng.below(8) {
        0 => rng.word(),
        1 => *rng.pick(&[0, 1, u32::MAX]),
        _ => rng.below(9) as u32,
    };
    Item { kind: *rng.pick(&Kind::ALL), number }
}

/// A registration of which one or more texts may break a rule.
pub fn damaged_registration(rng: &mut Rng, mix: &Mix) -> Registration {
    let mut call = registration(rng, mix);
    for _ in 0..1 + rng.below(2) {
        match &mut call {
            Registration::Name { host, id, .. } => match rng.below(2) {
                0 => *host = damaged_query(rng),
                _ => *id = damaged_name(rng),
            },
            Registration::Include { host, included }
            | Registration::OpenNamespace { host, included }
            | Registration::OpenModule { host, included } => match rng.below(2) {
                0 => *host = damaged_query(rng),
                _ => *included = damaged_query(rng),
            },
            Registration::Alias { key, host, included } => match rng.below(3) {
                0 => *key = damaged_name(rng),
                1 => *host = damaged_query(rng),
                _ => *included = damaged_query(rng),
            },
            Registration::Module { query, path, .. } => match rng.below(2) {
                0 => *query = damaged_query(rng),
                _ => *path = damaged_path(rng),
            },
        }
    }
    call
}

// ---------------------------------------------------------------- scripts

/// A form whose texts are allowed, or one that may be refused.
pub fn form(rng: &mut Rng, mix: &Mix) -> Form {
    let damaged = rng.one_in(12);
    match rng.below(10) {
        0..=4 if damaged => Form::Register(damaged_registration(rng, mix)),
        0..=4 => Form::Register(registration(rng, mix)),
        5..=6 if damaged => Form::Find(damaged_query(rng)),
        5..=6 => Form::Find(full_name(rng)),
        7..=8 if damaged => Form::Complete(damaged_query(rng)),
        7..=8 => Form::Complete(completion_query(rng)),
        _ if damaged => Form::Modules(damaged_query(rng)),
        _ => Form::Modules(completion_query(rng)),
    }
}

/// A line without a line feed: a form as it is spelled, but for a Register's
/// letter, or with its spelling damaged.
pub fn line(rng: &mut Rng, mix: &Mix) -> Vec<u8> {
    let form = form(rng, mix);
    let mut line = spell(&form);
    if let Form::Register(Registration::Name { item: Item { kind: Kind::Register, .. }, .. }) = form
    {
        if rng.one_in(2) {
            line.remove(item_at(&line));
        }
    }
    line.retain(|&b| b != b'\n');
    if !rng.one_in(8) {
        return line;
    }
    let at = rng.below(line.len());
    match rng.below(14) {
        0 => {
            line.remove(at);
        }
        1 => line.insert(at, *rng.pick(b" []am0.")),
        2 => line[at] = *rng.pick(b" []amnluptr01.9"),
        3 => line.insert(at, line[at]),
        4 => line.truncate(at),
        5 => line.push(b'\r'),
        6 => line.insert(0, b' '),
        7 => line.clear(),
        8 => line.extend(b" "),
        9 => {
            let letter = *rng.pick(&["", "t", "p", "r", "x", "T", "tt", "t "]);
            let numbers = ["01", "00", "0", "4294967295", "4294967296", "-1", "+1", "", "1r"];
            let item = [letter, *rng.pick(&numbers)].concat();
            line = format!("[name [a.] b {item}]").into_bytes();
        }
        10 => {
            let length = MOST_LINE + rng.below(3) - 1;
            line = [b"[module l [a.] ", &b"p".repeat(length - 16)[..], b"]"].concat();
        }
        11 => line = line.to_ascii_uppercase(),
        12 => {
            line = loop {
                let byte = rng.word() as u8;
                if byte != b'\n' {
                    line[at] = byte;
                    break line;
                }
            }
        }
        _ => {
            if let Some(space) = line.iter().position(|&b| b == b' ') {
                line[space] = b'\t';
            }
        }
    }
    line
}

/// Where the item begins in the line of a name.
pub fn item_at(line: &[u8]) -> usize {
    line.iter().rposition(|&b| b == b' ').expect("a space before it") + 1
}

/// A script of so many lines. The last line may lack its line feed.
pub fn script(rng: &mut Rng, lines: usize) -> Vec<u8> {
    let mix = rng.pick(&MIXES);
    let mut all = Vec::new();
    for _ in 0..lines {
        all.extend(line(rng, mix));
        all.push(b'\n');
    }
    if rng.one_in(2) {
        all.pop();
    }
    all
}

/// Scripts at the limits of the requirements, each with what it tries.
pub fn limit_scripts() -> Vec<(&'static str, Vec<u8>)> {
    let mut all: Vec<(&'static str, Vec<u8>)> = Vec::new();
    let mut add = |what, lines: Vec<String>| all.push((what, (lines.join("\n") + "\n").into()));
    let (n31, n32) = ("n".repeat(31), "n".repeat(32));
    let q = |segment: &str, count: usize| format!("{segment}.").repeat(count);

    for (what, n) in [("names of 31 bytes", &n31), ("names of 32 bytes", &n32)] {
        add(
            what,
            vec![
                format!("[name [] {n} 1]"),
                format!("[name [{n}.] i 2]"),
                format!("[include [{n}.] []]"),
                format!("[include [] [{n}.]]"),
                format!("[open n [{n}.] []]"),
                format!("[open m [] [{n}.]]"),
                format!("[alias {n} [] []]"),
                format!("[alias k [{n}.] []]"),
                format!("[alias k [] [{n}.]]"),
                format!("[module l [{n}.] p]"),
                format!("[find [{n}.]]"),
                format!("[find [{n}.i.]]"),
                format!("[complete [{n}.]]"),
                format!("[modules [{n}.]]"),
            ],
        );
    }
    for (what, count) in
        [("15 segments", 15), ("16 segments", 16), ("17 segments", 17), ("18 segments", 18)]
    {
        let host = q("s", count);
        add(
            what,
            vec![
                format!("[name [{host}] i 1]"),
                format!("[find [{host}i.]]"),
                format!("[find [{host}]]"),
                format!("[complete [{host}]]"),
                format!("[complete [{}]]", ".".repeat(count)),
                format!("[modules [{}]]", ".".repeat(count)),
                format!("[alias k [{host}] []]"),
                format!("[include [{host}] [{host}]]"),
                format!("[include [] [{host}]]"),
                format!("[open n [{host}] []]"),
                format!("[module u [{host}] p]"),
                "[complete []]".into(),
                "[modules []]".into(),
            ],
        );
    }
    let long = q(&n31, 16);
    add(
        "the longest full names and labels",
        vec![
            format!("[name [{long}] {n31} 1]"),
            format!("[module l [{long}] p]"),
            format!("[include [] [{long}{n31}.]]"),
            format!("[include [] [{long}]]"),
            "[complete []]".into(),
            "[modules []]".into(),
            format!("[find [{long}{n31}.]]"),
        ],
    );
    for (what, length) in [("path of 120 bytes", 120), ("path of 121 bytes", 121)] {
        let path = "p".repeat(length);
        add(
            what,
            vec![
                format!("[module l [A.] {path}]"),
                format!("[module l [] {path}]"),
                format!("[module l [A..] {path}]"),
                "[modules []]".into(),
            ],
        );
    }
    for (what, host) in [("weight of a root list", ""), ("weight of a list below", "h.")] {
        let mut lines = vec![format!("[include [{host}] [x.]]"); 95];
        lines.push(format!("[name [{host}] a 1]"));
        lines.push(format!("[name [{host}] b 2]"));
        lines.push(format!("[include [{host}] []]"));
        lines.push(format!("[alias k [] [{host}]]"));
        lines.push(format!("[include [i.] [{host}]]"));
        lines.push("[complete []]".into());
        add(what, lines);
        let mut lines = vec![format!("[open n [{host}] [x.]]"); 96];
        lines.push(format!("[name [{host}y.] a 1]"));
        lines.push(format!("[open n [{host}] []]"));
        lines.push("[complete []]".into());
        add(what, lines);
    }
    add(
        "weight doubled by including itself",
        [
            vec!["[name [] a 1]".into()],
            vec!["[include [] []]".into(); 8],
            vec!["[complete []]".into(), "[name [] b 2]".into(), "[complete []]".into()],
        ]
        .concat(),
    );
    // Each call doubles the number of tries.
    let double = |i: usize| format!("[open n [x{i}.] []]");
    let mut lines = Vec::new();
    for i in 0..13 {
        lines.push(double(i));
        lines.push("[complete []]".into());
    }
    lines.push("[complete [x0.]]".into());
    add("budget: 4,096 tries and 8,192", lines);
    let mut lines = vec!["[name [a.] i 1]".into()];
    lines.extend((0..9).map(double));
    lines.push("[complete []]".into());
    lines.push("[name [] i 2]".into());
    lines.push("[complete []]".into());
    lines.push("[complete [.]]".into());
    lines.push("[complete [x.]]".into());
    add("512 lines and 513", lines);
    let mut lines = vec![format!("[name [{n31}.] {n31} 1]")];
    lines.extend((0..9).map(|i| format!("[open n [{}{i}.] []]", "y".repeat(30))));
    lines.push("[complete []]".into());
    lines.push("[complete [y.]]".into());
    lines.push(format!("[complete [{}7.]]", "y".repeat(30)));
    add("output text", lines);
    add(
        "table text full",
        [
            vec![format!("[module l [] {}]", "t".repeat(120)); 273],
            vec![
                "[name [] 123456789 1]".into(),
                "[name [] 12345678 1]".into(),
                "[name [] a 1]".into(),
                "[include [] []]".into(),
                "[module l [] ]".into(),
                "[complete []]".into(),
            ],
        ]
        .concat(),
    );
    let mut lines: Vec<String> = (0..260).map(|i| format!("[name [r.] a{i:03} {i}]")).collect();
    lines.push("[include [] []]".into());
    lines.push("[module l [A.] p]".into());
    lines.push("[complete []]".into());
    add("records full", lines);
    // Five records a call: 273 calls take all 1,365.
    let mut lines = vec!["[alias k [] []]".to_string(); 273];
    lines.push("[include [] []]".into());
    lines.push("[module l [] p]".into());
    lines.push("[module l [A.] p]".into());
    lines.push("[complete []]".into());
    add("records full to the last", lines);
    for (what, includes) in [("three records free", 1), ("one record free", 2)] {
        let mut lines = vec!["[alias k [] []]".to_string(); 272];
        lines.extend(vec!["[include [] []]".to_string(); includes]);
        lines.push("[name [] a 1]".into());
        lines.push("[include [] []]".into());
        lines.push("[complete []]".into());
        add(what, lines);
    }
    let line = |length: usize| format!("[module l [a.] {}]", "p".repeat(length - 16));
    add(
        "long lines",
        vec![line(136), line(137), line(2048), line(2049), "x".repeat(2048), "x".repeat(2049)],
    );
    all
}

// --------------------------------------------------------------- memories

/// A memory made by so many registrations, with random bytes in its free
/// part. Refused registrations leave it as it is.
pub fn registered_memory(rng: &mut Rng, calls: usize, records: usize, text: usize) -> Memory {
    let words = (0..records * WORDS_A_RECORD).map(|_| rng.word()).collect();
    let text = (0..text).map(|_| rng.word() as u8).collect();
    let mut memory = Memory::fresh(words, text);
    let mix = rng.pick(&MIXES);
    for _ in 0..calls {
        let _ = memory.register(&registration(rng, mix));
    }
    memory
}

/// A sound memory written record by record, of shapes that registrations may
/// not make: unreached records, empty trees, several trees in a list, tries
/// held twice, branches without a trie. Words that are not used are random.
pub fn sound_memory(rng: &mut Rng, records: usize) -> Memory {
    let mut memory = Memory::fresh(Vec::new(), Vec::new());
    let mut all: Vec<Record> = Vec::new();
    // Most records are of one table, for deeper tries.
    let most = MODULES * rng.below(2) as u32;
    // Keys of each tree, by record.
    let mut keys: Vec<Vec<Vec<u8>>> = Vec::new();
    while all.len() < records {
        let mut r: Record = std::array::from_fn(|_| rng.word());
        let base = if rng.one_in(5) { MODULES - most } else { most };
        // A namespaces branch, its list and its trie often follow each
        // other and link to each other, for deeper tries.
        let last = all.len() as u32;
        let follows = match all.last().map_or(0, |r| r[0].wrapping_sub(base)) {
            NAMESPACES_BRANCH => Some(NAMESPACES_LIST),
            NAMESPACES_LIST => Some(TRIE),
            TRIE => Some(NAMESPACES_BRANCH),
            _ => None,
        };
        let follows = if rng.one_in(3) { None } else { follows };
        let kind = follows.unwrap_or(1 + rng.below(5) as u32);
        let follows = follows.is_some();
        r[0] = kind + base;
        let mut tree_keys = Vec::new();
        let link = |rng: &mut Rng, all: &[Record], kind: u32| -> u32 {
            let links: Vec<u32> =
                (1..=all.len() as u32).filter(|&l| all[l as usize - 1][0] == kind).collect();
            match links.last() {
                Some(&last) if rng.one_in(2) => last,
                Some(_) if !rng.one_in(3) => *rng.pick(&links),
                _ => 0,
            }
        };
        let of = |link: u32, word: usize| if link == 0 { 0 } else { all[link as usize - 1][word] };
        if kind <= NAMESPACES_BRANCH {
            let key = name(rng);
            (r[1], r[2]) = add_text(&mut memory.text, &key);
            let sides = [link(rng, &all, r[0]), link(rng, &all, r[0])];
            let fits = |link: u32, left: bool| {
                link == 0
                    || keys[link as usize - 1]
                        .iter()
                        .all(|k| if left { *k < key } else { *k > key })
            };
            r[3] = sides.into_iter().find(|&l| fits(l, true)).unwrap_or(0);
            r[4] = sides.into_iter().find(|&l| fits(l, false)).unwrap_or(0);
            for side in [r[3], r[4]] {
                if side != 0 {
                    tree_keys.extend(keys[side as usize - 1].clone());
                }
            }
            tree_keys.push(key);
            if kind == NAMESPACES_BRANCH {
                r[5] = if follows { last } else { link(rng, &all, TRIE + base) };
                r[11] = (1 + of(r[5], 11)).max(of(r[3], 11)).max(of(r[4], 11));
            } else if base == MODULES {
                r[5] = rng.below(2) as u32;
                let mut full_name = query(rng);
                full_name.extend(name(rng));
                full_name.truncate(MOST_FULL_NAME);
                (r[6], r[7]) = add_text(&mut memory.text, &full_name);
                if r[5] == 0 {
                    let path = path(rng);
                    (r[8], r[9]) = add_text(&mut memory.text, &path);
                }
                r[10] = rng.below(2) as u32;
            } else {
                r[6] = rng.pick(&Kind::ALL).number();
            }
        } else if kind < TRIE {
            r[5] = if follows { 0 } else { rng.below(2) as u32 };
            r[3] = if follows {
                last
            } else {
                link(rng, &all, if r[5] == 0 { r[0] - 2 } else { r[0] })
            };
            r[4] = link(rng, &all, r[0]);
            if r[5] == 1 {
                let label = query(rng);
                (r[1], r[2]) = add_text(&mut memory.text, &label);
                if 1 + of(r[3], 10) + of(r[4], 10) > MOST_WEIGHT {
                    r[3] = 0;
                }
            }
            if 1 + of(r[4], 10) > MOST_WEIGHT {
                r[4] = 0;
            }
            r[10] = 1 + if r[5] == 1 { of(r[3], 10) } else { 0 } + of(r[4], 10);
            if kind == NAMESPACES_LIST {
                r[11] = of(r[3], 11).max(of(r[4], 11));
            }
        } else {
            r[3] = link(rng, &all, BINDINGS_LIST + base);
            r[4] = if follows { last } else { link(rng, &all, NAMESPACES_LIST + base) };
            if of(r[4], 11) > MOST_DEPTH {
                r[4] = 0;
            }
            r[11] = of(r[4], 11);
        }
        if memory.text.len() > MOST_TEXT {
            memory.text.truncate(MOST_TEXT);
            break;
        }
        all.push(r);
        keys.push(tree_keys);
    }
    // The deepest trie; any trie; none.
    let mut root = |kind: u32| {
        let tries: Vec<usize> = (0..all.len()).filter(|&n| all[n][0] == kind).collect();
        match tries.iter().max_by_key(|&&n| all[n][11]) {
            Some(deepest) if rng.one_in(2) => *deepest as u32 + 1,
            Some(_) if !rng.one_in(8) => *rng.pick(&tries) as u32 + 1,
            _ => 0,
        }
    };
    memory.header = Header {
        names: root(TRIE),
        modules: root(TRIE + MODULES),
        records: all.len() as u32,
        text: memory.text.len() as u32,
    };
    memory.words = all.concat();
    memory
}

fn add_text(text: &mut Vec<u8>, part: &[u8]) -> (u32, u32) {
    let start = text.len() as u32;
    text.extend_from_slice(part);
    (start, part.len() as u32)
}

/// One change to a memory.
#[derive(Clone, Copy, Debug)]
pub enum Damage {
    Word { at: usize, value: u32 },
    Byte { at: usize, value: u8 },
    Names(u32),
    Modules(u32),
    Records(u32),
    Text(u32),
}

impl Damage {
    pub fn apply(self, memory: &mut Memory) {
        match self {
            Damage::Word { at, value } => memory.words[at] = value,
            Damage::Byte { at, value } => memory.text[at] = value,
            Damage::Names(value) => memory.header.names = value,
            Damage::Modules(value) => memory.header.modules = value,
            Damage::Records(value) => memory.header.records = value,
            Damage::Text(value) => memory.header.text = value,
        }
    }
}

/// Every used word, every used text byte and every word of the header, each
/// with several values.
pub fn damages(rng: &mut Rng, memory: &Memory) -> Vec<Damage> {
    let h = memory.header;
    let mut all = Vec::new();
    for at in 0..h.records as usize * WORDS_A_RECORD {
        let old = memory.words[at];
        let number = (at / WORDS_A_RECORD) as u32;
        let values = [
            0,
            1,
            2,
            old.wrapping_add(1),
            old.wrapping_sub(1),
            old ^ 5,
            number,
            number + 1,
            rng.below(number as usize + 1) as u32,
            h.records + 1,
            h.text,
            u32::MAX,
            rng.word(),
        ];
        all.extend(values.into_iter().map(|value| Damage::Word { at, value }));
    }
    for at in 0..h.text as usize {
        let old = memory.text[at];
        let values = [b' ', DOT, b'[', b']', 0x7F, 0, 0x80, b'a', b'~', b'!', old ^ 1];
        all.extend(values.into_iter().map(|value| Damage::Byte { at, value }));
    }
    let links: Vec<u32> = (0..=h.records + 1).chain([u32::MAX]).collect();
    all.extend(links.iter().map(|&value| Damage::Names(value)));
    all.extend(links.iter().map(|&value| Damage::Modules(value)));
    all.extend(links.iter().map(|&value| Damage::Records(value)));
    let lent = (memory.words.len() / WORDS_A_RECORD) as u32;
    all.extend([lent, lent + 1, 65_536, 65_537].map(Damage::Records));
    let lent = memory.text.len() as u32;
    let uses = [0, 1, h.text.wrapping_sub(1), h.text + 1, lent, lent + 1, 65_536, 65_537, u32::MAX];
    all.extend(uses.map(Damage::Text));
    all
}
