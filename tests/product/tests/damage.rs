//! Damages sound tables one word, byte or header field at a time and holds the product's soundness test to the independent one.
use model::gen::{damages, registered_memory, sound_memory, Damage, Rng};
use model::layout::{record, Memory, BINDINGS_BRANCH, BINDINGS_LIST};
use model::model::WORDS_A_RECORD;
use model::written::{Key, Written};

struct Count {
    cases: u64,
    sound: u64,
}

fn hold(memory: &Memory, count: &mut Count) {
    let expected = memory.is_sound();
    assert_eq!(product::sound(memory), expected, "header {:?}", memory.header);
    count.cases += 1;
    count.sound += expected as u64;
}

/// Each single damage of the memory, with several values a word.
fn damaged(rng: &mut Rng, memory: &Memory, count: &mut Count) {
    assert!(memory.is_sound());
    hold(memory, count);
    for damage in damages(rng, memory) {
        let mut m = memory.clone();
        damage.apply(&mut m);
        hold(&m, count);
    }
}

#[test]
fn every_word_of_tables_that_registrations_make() {
    let mut rng = Rng::new(Rng::seed_or(1));
    let mut count = Count { cases: 0, sound: 0 };
    for calls in [0, 1, 2, 4, 8, 16] {
        for _ in 0..4 {
            let memory = registered_memory(&mut rng, calls, 200, 600);
            damaged(&mut rng, &memory, &mut count);
        }
    }
    report("registered tables", &count);
}

#[test]
fn every_word_of_tables_written_record_by_record() {
    let mut rng = Rng::new(Rng::seed_or(2));
    let mut count = Count { cases: 0, sound: 0 };
    for records in [1, 5, 20, 60] {
        for _ in 0..6 {
            let memory = sound_memory(&mut rng, records);
            damaged(&mut rng, &memory, &mut count);
        }
    }
    report("written tables", &count);
}

/// An item of names is a Timer, 1, a Port, 2, or a Register, 3. Expectations are by that rule.
#[test]
fn every_kind_of_every_item() {
    let mut rng = Rng::new(Rng::seed_or(23));
    let mut kinds = [0; 3];
    for round in 0..12 {
        let memory = if round % 2 == 0 { registered_memory(&mut rng, 30, 300, 900) } else { sound_memory(&mut rng, 60) };
        for number in (0..memory.header.records as usize).filter(|&n| record(&memory.words, n)[0] == BINDINGS_BRANCH) {
            let at = number * WORDS_A_RECORD + 6;
            kinds[memory.words[at] as usize - 1] += 1;
            for value in [0, 1, 2, 3, 4, 5, 1 << 8 | 1, 1 << 16 | 2, 1 << 31 | 3, u32::MAX, rng.word() | 4] {
                let mut m = memory.clone();
                m.words[at] = value;
                assert_eq!(product::sound(&m), (1..=3).contains(&value), "{value}");
            }
        }
    }
    println!("items by kind, each with every kind: {kinds:?}");
    assert!(kinds.iter().all(|&n| 0 < n), "{kinds:?}");
}

/// So many records: a chain to the right or to the left, and the branches that all have it to their other side.
fn shared_chain(records: usize, right: bool) -> Memory {
    let mut t = Written::default();
    let keys: Vec<Key> = (0..records.min(16_000) / 2).map(|k| t.key(&format!("k{k:04}"))).collect();
    let (least, greatest) = (t.key("a"), t.key("z"));
    let chain = t.chain(&keys, |_| !right, &Written::leaf);
    let mut root = 0;
    while t.records.len() < records - 2 {
        root = if right { t.leaf(greatest, chain, 0) } else { t.leaf(least, 0, chain) };
    }
    let list = t.tree(BINDINGS_LIST, root, 0);
    let trie = t.trie(list, 0);
    t.memory(trie)
}

/// The test has notes for 1,024, for 8,192 and for 65,536 records.
#[test]
fn some_words_of_tables_about_the_sizes_of_the_notes() {
    let mut rng = Rng::new(Rng::seed_or(3));
    let mut count = Count { cases: 0, sound: 0 };
    for records in [1_024, 1_025, 8_192, 8_193, 65_536] {
        for right in [false, true] {
            let memory = shared_chain(records, right);
            hold(&memory, &mut count);
            for _ in 0..100 {
                // A record with a text, a side or a weight of another one.
                let (to, from) = (rng.below(records), rng.below(records));
                let word = rng.below(WORDS_A_RECORD);
                let mut m = memory.clone();
                Damage::Word { at: to * WORDS_A_RECORD + word, value: memory.words[from * WORDS_A_RECORD + word] }.apply(&mut m);
                hold(&m, &mut count);
            }
        }
    }
    report("tables about the sizes of the notes", &count);
}

fn report(what: &str, count: &Count) {
    println!("{what}: {} cases, {} of them sound, 0 disagreements", count.cases, count.sound);
    assert!(0 < count.sound && count.sound < count.cases);
}
