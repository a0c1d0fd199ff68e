//! Compares the product with baselines on the same input, turn by turn in one run. Each figure is the least of many turns.
//! `cargo run --release --offline` prints the tables; with the word `write` after `--` it puts them and the plot into docs/, with `plot` it measures
//! nothing and draws the plot from the figures in docs/.
mod baseline;
#[cfg(feature = "before")]
mod before;
mod calls;
mod layer;
mod measure;
mod ocaml;
mod page;
mod plot;
mod shapes;
mod source;

use calls::{completions, fresh, look_ups, made, registrations, Name};
use measure::{compare, least, Row};
use model::gen::Rng;
use model::layout::{decode, Memory};
use model::model::{autocomplete_lid, shared_length, Ask, Item, Kind, Registration};
use product::Output;
use std::cell::RefCell;

const SIZES: [usize; 4] = [100, 300, 1_000, 3_000];

/// The modules: `Mod<i>.Sub<i mod 7>.`
fn module(i: usize) -> Vec<u8> {
    format!("Mod{i}.Sub{}.", i % 7).into_bytes()
}

/// 1,000 names in random order over 20 modules in turn, then ten includes, each of module k in module k + 1.
struct Work {
    names: Vec<Name>,
    includes: Vec<Registration>,
    /// With the names, and with the includes too.
    named: Memory,
    memory: Memory,
    missing: Vec<Vec<u8>>,
    begun: Vec<Vec<u8>>,
}

impl Work {
    fn new() -> Work {
        let mut rng = Rng::new(3);
        let mut numbers: Vec<u32> = (0..1000).collect();
        for k in (1..numbers.len()).rev() {
            numbers.swap(k, rng.below(k + 1));
        }
        let names: Vec<Name> = numbers.iter().enumerate().map(|(k, n)| Name::new(module(k % 20), format!("id{n}").into_bytes(), Item::register(*n))).collect();
        let includes: Vec<Registration> = (0..10).map(|k| Registration::Include { host: module(k + 1), included: module(k) }).collect();
        let named = made(&names);
        let mut memory = named.clone();
        for call in &includes {
            assert_eq!(product::register(&mut memory, call), 0);
        }
        let missing = (0..1000).map(|k| [&module(k % 20)[..], format!("no{k}.").as_bytes()].concat()).collect();
        let begun = (0..20).map(|i| [&module(i)[..], b"id1."].concat()).collect();
        Work { names, includes, named, memory, missing, begun }
    }

    fn rows(&self) -> Vec<Row> {
        // No id stands in two modules, so that an include hides none.
        let there: Vec<(&[u8], Option<Item>)> = self.names.iter().map(|n| (&n.query[..], Some(n.item))).collect();
        let missing: Vec<(&[u8], Option<Item>)> = self.missing.iter().map(|q| (&q[..], None)).collect();
        vec![
            registrations("register 1,000 names", &fresh(), &self.names),
            look_ups("look full names up", &self.memory, &there),
            look_ups("look missing names up", &self.memory, &missing),
            completions("complete Mod<i>.Sub<k>.id1.", &self.memory, &slices(&self.begun)),
            completions("list all names", &self.memory, &[b""]),
        ]
    }

    /// Nanoseconds of the product's calls for proved callers, each row alone, as OCaml's run.
    fn alone(&self) -> [f64; 5] {
        let (mut now, empty) = (fresh(), fresh().header);
        let mut out = Output::with_room(32768, 1 << 20);
        // SAFETY, of all: the memory is sound.
        let mut register = || {
            now.header = empty;
            self.names.iter().all(|n| unsafe { product::insert_sound(&mut now, &n.host, &n.id, n.item) } == 0)
        };
        let there = || self.names.iter().all(|n| unsafe { product::find_sound(&self.memory, &n.query) } == Ok(Some(n.item)));
        let missing = || self.missing.iter().all(|q| unsafe { product::find_sound(&self.memory, q) } == Ok(None));
        let mut complete = |q: &[u8]| unsafe { product::complete_sound(&self.memory, Ask::Names(None), q, u32::MAX, &mut out) }.is_ok();
        [
            least(&mut register) / self.names.len() as f64,
            least(there) / self.names.len() as f64,
            least(missing) / self.missing.len() as f64,
            least(|| self.begun.iter().all(|q| complete(q))) / self.begun.len() as f64,
            least(|| complete(b"")),
        ]
    }

    /// The same rows for OCaml.
    fn script(&self) -> ocaml::Script {
        let mut script = ocaml::Script::default();
        script.register(&self.names.iter().map(Name::call).collect::<Vec<_>>(), &self.named);
        script.apart(&self.includes);
        script.find(&self.memory, &self.names.iter().map(|n| &n.query[..]).collect::<Vec<_>>());
        script.find(&self.memory, &slices(&self.missing));
        script.complete(&self.memory, &slices(&self.begun));
        script.complete(&self.memory, &[b""]);
        assert_eq!(script.listings[1], 0, "a name with two holders");
        script
    }
}

fn slices(texts: &[Vec<u8>]) -> Vec<&[u8]> {
    texts.iter().map(|t| &t[..]).collect()
}

/// So many names below four hosts, in random order.
fn names(count: usize) -> Vec<Name> {
    let mut rng = Rng::new(11);
    let hosts: [&[u8]; 4] = [b"", b"io.", b"live.", b"saved.bus."];
    (0..count).map(|_| Name::new(hosts[rng.below(hosts.len())].to_vec(), format!("{:x}", rng.below(1 << 16)).into_bytes(), Item::register(1))).collect()
}

/// The calls at tables of several sizes: ten more names, a hundred look-ups, ten completions of one line, the listing of all.
fn sizes() -> Vec<[Row; 4]> {
    SIZES
        .map(|count| {
            let names = names(count + 10);
            let m = made(&names[..count]);
            let asked: Vec<&[u8]> = (0..100).map(|k| &names[k * count / 100].query[..]).collect();
            let found: Vec<(&[u8], Option<Item>)> = asked.iter().map(|q| (*q, Some(names[0].item))).collect();
            let few: Vec<&[u8]> = asked.iter().step_by(10).copied().collect();
            let what = |call: &str| format!("{call}, {count} names");
            [
                registrations(&what("register a name"), &m, &names[count..]),
                look_ups(&what("look a name up"), &m, &found),
                completions(&what("complete, one line"), &m, &few),
                completions(&what("list all names"), &m, &[b""]),
            ]
        })
        .into()
}

/// `lists` namespaces are included in the root, each with names of its own and `shared` ones that all have.
fn merged_table(lists: usize, own: usize, shared: usize) -> Memory {
    let mut m = fresh();
    let mut put = |call: Registration| assert_eq!(product::register(&mut m, &call), 0);
    for k in 0..lists {
        let host = format!("part{k}.").into_bytes();
        for i in 0..own {
            put(Registration::Name { host: host.clone(), id: format!("n{i}of{k}").into_bytes(), item: Item::register(1) });
        }
        for i in 0..shared {
            put(Registration::Name { host: host.clone(), id: format!("s{i}").into_bytes(), item: Item::register(1) });
        }
        put(Registration::Include { host: vec![], included: host });
    }
    m
}

/// So many names of one host, in an order that keeps its tree low, of the three kinds in turn.
fn one_tree(count: u32) -> Vec<Name> {
    (0..count).map(|i| Name::new(b"saved.bus.".to_vec(), format!("n{}", i * 7919 % count).into_bytes(), Item { kind: Kind::ALL[i as usize % 3], number: i })).collect()
}

fn merges() -> Vec<Row> {
    let names = names(1000);
    vec![
        completions("one line of 1000 names", &made(&names), &[&names[500].query]),
        completions("500 lines of one tree", &made(&one_tree(500)), &[b"saved.bus.n."]),
        completions("500 lines, one merged list", &merged_table(1, 500, 0), &[b"."]),
        completions("500 lines of 10 lists", &merged_table(10, 50, 0), &[b"."]),
        completions("10 lists, 250 names in each", &merged_table(10, 0, 250), &[b"."]),
        completions("45 lists, 20 names in each", &merged_table(45, 0, 20), &[b"."]),
    ]
}

/// Trees of 21,000 branches, listed.
fn trees(keys: &shapes::Keys) -> Vec<Row> {
    const LINES: usize = 21_000;
    vec![
        completions("balanced tree", &shapes::balanced(keys, LINES), &[b""]),
        completions("chain to the left", &shapes::chain(keys, LINES, |_| true), &[b""]),
        completions("chain to the right", &shapes::chain(keys, LINES, |_| false), &[b""]),
        completions("zigzag", &shapes::chain(keys, LINES, |k| k % 2 == 0), &[b""]),
    ]
}

/// A listing that is sure to be refused with 10, and one of the same tries that fits.
fn refused(keys: &shapes::Keys) -> String {
    let mut all = String::from("| table | answer | proved callers, ns | C, ns | proved / C | ns a trie |\n|---|---|---|---|---|---|\n");
    for (names, answer) in [(0, Ok((0, 3_001))), (1_000, Err(10))] {
        let m = shapes::shared_lists(keys, 3_000, names);
        let (out, by_c) = (RefCell::new(Output::with_room(512, 32768)), RefCell::new(Output::with_room(512, 32768)));
        let [proved, c] = compare([
            // SAFETY: the memory is sound.
            &mut || unsafe { product::complete_sound(&m, Ask::Names(None), b"", 4096, &mut out.borrow_mut()) } == answer,
            &mut || baseline::complete(&m, None, b"", 4096, &mut by_c.borrow_mut()) == answer.map(|(lines, _)| lines),
        ]);
        let answer = answer.map_or("refused with 10", |_| "listed");
        all += &format!("| 3,000 namespaces of one list of {names} names | {answer} | {proved:.0} | {c:.0} | {:.2} | {:.0} |\n", proved / c, proved / 3001.0);
    }
    all
}

/// Names of the three kinds in turn, and queries that list one of them, all, and those of one tree.
fn listings() -> [(&'static str, Vec<Name>, Vec<u8>); 4] {
    let mut all_names = names(1000);
    all_names.iter_mut().zip(Kind::ALL.into_iter().cycle()).for_each(|(n, kind)| n.item.kind = kind);
    let one = all_names[500].query.clone();
    [
        ("one line of 1000 names", all_names.clone(), one),
        ("all names, 1000 names", all_names, vec![]),
        ("one tree", one_tree(500), b"saved.bus.n.".to_vec()),
        ("one tree", one_tree(3000), b"saved.bus.n.".to_vec()),
    ]
}

/// Listings with and without the beginning that their lines share, turn by turn on one memory.
fn shared() -> String {
    let mut all = String::from(
        "| listing | lines | bytes shared | without, ns | with, ns | with / without | C without, ns | C with, ns | with / C with |\n|---|---|---|---|---|---|---|---|---|\n",
    );
    for (what, names, query) in &listings() {
        let m = made(names);
        let (expected, entered) = autocomplete_lid(&decode(&m), query, None, u32::MAX).expect("listed");
        let (lines, bytes) = (expected.len() as u32, shared_length(&expected));
        let [out, out_shared, by_c, by_c_shared] = [(); 4].map(|()| RefCell::new(Output::with_room(32768, 1 << 20)));
        let [without, with, c, c_with] = compare([
            // SAFETY, of both: the memory is sound.
            &mut || unsafe { product::complete_sound(&m, Ask::Names(None), query, u32::MAX, &mut out.borrow_mut()) } == Ok((lines, entered)),
            &mut || unsafe { product::complete_shared_sound(&m, Ask::Names(None), query, u32::MAX, &mut out_shared.borrow_mut()) } == Ok((lines, entered, bytes)),
            &mut || baseline::complete(&m, None, query, u32::MAX, &mut by_c.borrow_mut()) == Ok(lines),
            &mut || baseline::complete_shared(&m, query, u32::MAX, &mut by_c_shared.borrow_mut()) == Ok((lines, bytes)),
        ]);
        assert!([&out_shared, &by_c, &by_c_shared].iter().all(|o| *o.borrow() == *out.borrow()), "other lines: {what}");
        all += &format!(
            "| {what} | {lines} | {bytes} | {without:.0} | {with:.0} | {:.3} | {c:.0} | {c_with:.0} | {:.2} |\n",
            with / without,
            with / c_with
        );
    }
    all
}

/// Listings of all kinds and of one of the three, turn by turn on one memory.
fn kinds() -> String {
    let mut all = String::from(
        "| listing | lines, all kinds | one kind | all kinds, ns | one kind, ns | one / all | C all kinds, ns | C one kind, ns | one / C one |\n|---|---|---|---|---|---|---|---|---|\n",
    );
    for (what, names, query) in &listings()[1..] {
        let m = made(names);
        let one = Some(Kind::Register);
        let listed = |kind| autocomplete_lid(&decode(&m), query, kind, u32::MAX).map(|(lines, entered)| (lines.len() as u32, entered)).expect("listed");
        let outs = [(); 4].map(|()| RefCell::new(Output::with_room(32768, 1 << 20)));
        let [every, few, c_every, c_few] = &outs;
        // SAFETY: the memory is sound.
        let product = |kind, out: &RefCell<Output>| unsafe { product::complete_sound(&m, Ask::Names(kind), query, u32::MAX, &mut out.borrow_mut()) };
        let by_c = |kind, out: &RefCell<Output>| baseline::complete(&m, kind, query, u32::MAX, &mut out.borrow_mut());
        let (lines, kept) = (listed(None), listed(one));
        let [t, t_one, c, c_one] = compare([
            &mut || product(None, every) == Ok(lines),
            &mut || product(one, few) == Ok(kept),
            &mut || by_c(None, c_every) == Ok(lines.0),
            &mut || by_c(one, c_few) == Ok(kept.0),
        ]);
        assert!(*every.borrow() == *c_every.borrow() && *few.borrow() == *c_few.borrow(), "other lines: {what}");
        all += &format!("| {what} | {} | {} | {t:.0} | {t_one:.0} | {:.3} | {c:.0} | {c_one:.0} | {:.2} |\n", lines.0, kept.0, t_one / t, t_one / c_one);
    }
    all
}

/// Names in random order below a few hosts until so many records are used.
fn named_table(records: u32) -> Memory {
    let mut rng = Rng::new(7);
    let mut m = fresh();
    let hosts: [&[u8]; 4] = [b"", b"io.", b"live.", b"saved.bus."];
    while m.header.records < records {
        let host = hosts[rng.below(hosts.len())];
        let id = format!("{:x}", rng.below(4096)).into_bytes();
        // SAFETY: the memory is sound.
        assert_eq!(unsafe { product::insert_sound(&mut m, host, &id, Item::register(rng.word())) }, 0);
    }
    m
}

fn sound(keys: &shapes::Keys) -> String {
    const HIGH: usize = 60_000;
    let mut tables: Vec<(String, Memory)> = [1_000, 8_000, 60_000].iter().map(|&n| ("made by calls".to_string(), named_table(n))).collect();
    for (what, m) in [
        ("balanced tree", shapes::balanced(keys, HIGH)),
        ("chain to the left", shapes::chain(keys, HIGH, |_| true)),
        ("chain to the right", shapes::chain(keys, HIGH, |_| false)),
        ("zigzag", shapes::chain(keys, HIGH, |k| k % 2 == 0)),
        ("comb", shapes::comb(keys, HIGH)),
        ("shared spine", shapes::shared_spine(keys, HIGH)),
    ] {
        tables.push((what.into(), m));
    }
    let mut all = String::from("| table | records | product, ns a record | C, ns a record | product / C | product / memcpy |\n|---|---|---|---|---|---|\n");
    for (what, m) in tables {
        let used = m.header.records;
        let [p, c] = [least(|| product::sound(&m)), least(|| baseline::sound(&m))];
        let limit = measure::copy(used as usize * 48);
        all += &format!("| {what} | {used} | {:.1} | {:.1} | {:.2} | {:.1} |\n", p / used as f64, c / used as f64, p / c, p / limit);
    }
    all
}

/// Where and under what load this runs.
fn machine() -> String {
    let read = |file| std::fs::read_to_string(file).unwrap_or_default();
    let cpu = read("/proc/cpuinfo").lines().find_map(|l| l.strip_prefix("model name").map(|n| n.trim_start_matches([' ', '\t', ':']).to_string()));
    let load = read("/proc/loadavg").split(' ').next().unwrap_or("unknown").to_string();
    let count = std::thread::available_parallelism().map_or(1, |n| n.get());
    format!("Measured on {}, {count} processors, with a load of {load} at the start.\n", cpu.unwrap_or("an unknown processor".into()))
}

fn run() {
    let write = match std::env::args().nth(1).as_deref() {
        None => false,
        Some("write") => true,
        Some("plot") => return page::Page::read().draw(),
        #[cfg(feature = "before")]
        Some("before") => return before::run(&SIZES, names),
        Some(other) => panic!("{other:?}: the only words are 'write' and 'plot'"),
    };
    let machine = machine();
    baseline::check();
    let keys = shapes::Keys::new();
    let sizes = sizes();
    let by_call: Vec<&Row> = (0..4).flat_map(|k| sizes.iter().map(move |rows| &rows[k])).collect();
    let by_call = by_call.iter().fold(measure::HEAD.to_string(), |all, row| all + &row.print());
    let work = Work::new();
    let rows = work.rows();
    let script = work.script();
    let [own, zarith] = [ocaml::Integers::Machine, ocaml::Integers::Zarith].map(|integers| {
        let times = script.run(integers, measure::TURNS);
        if times.is_none() {
            println!("{}: the page keeps its table of OCaml.\n", integers.missing());
        }
        times
    });
    let ocaml = own.map(|times| ocaml::table(&rows, &work.alone(), &times, zarith.as_deref()));
    let mut sections = vec![
        ("machine", machine),
        ("work", measure::table(&rows)),
        ("sizes", by_call),
        ("merges", measure::table(&merges())),
        ("trees", measure::table(&trees(&keys))),
        ("refused", refused(&keys)),
        ("shared", shared()),
        ("kinds", kinds()),
        ("sound", sound(&keys)),
        ("layer", layer::parts(&names(200))),
    ];
    let mut page = page::Page::read();
    // A table without F*'s integers is printed, and the page keeps its own.
    match ocaml {
        Some(table) if zarith.is_some() => sections.insert(2, ("ocaml", table)),
        Some(table) => println!("{}\n\n{table}", page.title("ocaml")),
        None => {}
    }
    for (name, text) in &sections {
        println!("{}\n\n{text}", page.title(name));
    }
    if write {
        sections.iter().for_each(|(name, text)| page.put(name, text));
        page.write();
        page.draw();
    }
}

/// The baselines recurse along the trees.
fn main() {
    std::thread::Builder::new().stack_size(1 << 30).spawn(run).unwrap().join().unwrap();
}
