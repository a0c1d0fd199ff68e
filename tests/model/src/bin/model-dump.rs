//! Prints the record memory of table T of the requirements, record by record.
use model::layout::{item_of, record, text_at, Memory};
use model::model::{Item, Registration};

fn main() {
    let mut memory = Memory::with_room(26, 44);
    let name = |host: &str, id: &str, number| Registration::Name {
        host: host.into(),
        id: id.into(),
        item: Item::register(number),
    };
    let calls = [
        name("Saved.", "offset", 1),
        Registration::Include { host: "Live.".into(), included: "Saved.".into() },
        name("Saved.", "late", 2),
        name("Live.", "offset", 3),
    ];
    for call in &calls {
        memory.register(call).expect("accepted");
    }
    let h = memory.header;
    println!(
        "names root {}, modules root {}, records {}, text {}",
        h.names, h.modules, h.records, h.text
    );
    println!("text {}", String::from_utf8_lossy(&memory.text));
    for number in 0..h.records as usize {
        let r = record(&memory.words, number);
        let span = String::from_utf8(text_at(&memory.text, r[1], r[2]).to_vec()).unwrap();
        let what = match r[0] {
            1 => format!(
                "branch {span:?} item {}, left {}, right {}",
                item_of(&r, &memory.text),
                r[3],
                r[4]
            ),
            2 => format!(
                "branch {span:?} trie {}, left {}, right {}, depth {}",
                r[5], r[3], r[4], r[11]
            ),
            3 | 4 if r[5] == 0 => {
                format!("collection of tree {}, rest {}, weight {}", r[3], r[4], r[10])
            }
            3 | 4 => format!("import {span:?} of list {}, rest {}, weight {}", r[3], r[4], r[10]),
            _ => format!("trie of bindings {}, namespaces {}, depth {}", r[3], r[4], r[11]),
        };
        println!("link {:2}  {r:?}  {what}", number + 1);
    }
}
