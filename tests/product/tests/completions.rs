//! Completions of the product against the independent implementation: answers, lines, and what a call may change.
use model::gen::{completion_query, damaged_query, damages, registered_memory, sound_memory, Rng};
use model::layout::{decode, Memory};
use model::listings::Tally;
use model::model::{autocomplete_lid, autocomplete_mod_or_ns, shared_length, Ask, CompletionResult, Filter, Table};
use product::{complete_both, complete_both_sound, item, symbol, Output};
use std::fmt::Debug;

/// A completion, with and without its shared length, held to what the model says, at the limits and one below them.
fn hold<A: PartialEq + Debug>(
    memory: &Memory,
    ask: Ask,
    query: &[u8],
    expected: &dyn Fn(u32) -> Result<(Vec<CompletionResult<A>>, u32), u32>,
    item: &dyn Fn(&[u32]) -> A,
    tally: &mut Tally,
) {
    let mut run = |budget: u32, lines: usize, bytes: usize, expected: Result<(&[CompletionResult<A>], u32), u32>| {
        let mut out = Output::with_room(lines, bytes);
        let answer = complete_both(memory, ask, query, budget, &mut out);
        // Where the model does not say Unsound, also without the test.
        if expected != Err(1) {
            let mut other = Output::with_room(lines, bytes);
            assert_eq!(unsafe { complete_both_sound(memory, ask, query, budget, &mut other) }, answer, "{ask:?} {query:?}");
            assert!(other == out, "another output: {ask:?} {query:?}");
        }
        match expected {
            Err(n) => {
                tally.refused(n);
                assert_eq!(answer, Err(n), "{ask:?} {query:?} budget {budget} lines {lines} bytes {bytes}");
            }
            Ok((results, entered)) => {
                tally.listed(results);
                assert_eq!(answer, Ok((results.len() as u32, entered, shared_length(results))), "{ask:?} {query:?}");
                let mut used = 0;
                for (k, r) in results.iter().enumerate() {
                    assert_eq!(&out.line(k, item), r, "line {k} of {ask:?} {query:?}");
                    let w = out.words(k);
                    assert_eq!(w[1] as usize, used);
                    assert_eq!(w[3] as usize, used + r.candidate.len());
                    assert_eq!(w[11], 0);
                    used += r.candidate.len() + r.annotation.len();
                }
                assert!(out.lines[results.len() * 48..].iter().all(|&b| b == 0xA5));
                assert!(out.text[used..].iter().all(|&b| b == 0x5A));
            }
        }
    };
    match expected(u32::MAX) {
        Err(n) => run(u32::MAX, 3, 30, Err(n)),
        Ok((results, entered)) => {
            let bytes: usize = results.iter().map(|r| r.candidate.len() + r.annotation.len()).sum();
            run(u32::MAX, results.len() + 2, bytes + 5, Ok((&results, entered)));
            run(entered, results.len(), bytes, Ok((&results, entered)));
            run(entered - 1, results.len(), bytes, Err(9));
            run(0, 0, 0, Err(9));
            if !results.is_empty() {
                run(entered, results.len() - 1, bytes, Err(10));
                run(entered, results.len(), bytes - 1, Err(10));
                run(entered - 1, 0, 0, Err(9));
            }
        }
    }
}

fn hold_all(memory: &Memory, table: &Result<Table, u32>, query: &[u8], tally: &mut Tally) {
    for ask in Ask::ALL {
        match ask {
            Ask::Names(kind) => {
                let expected = |budget| table.as_ref().map_err(|&n| n).and_then(|t| autocomplete_lid(t, query, kind, budget).map_err(|r| r.number()));
                hold(memory, ask, query, &expected, &item, tally);
                if let (None, Ok(t), Ok((results, _))) = (kind, table, expected(u32::MAX)) {
                    tally.all_kinds(&results);
                    tally.beside_the_source(&t.names, query, &results);
                }
            }
            Ask::Modules(f) => {
                let expected = |budget| table.as_ref().map_err(|&n| n).and_then(|t| autocomplete_mod_or_ns(t, query, f, budget).map_err(|r| r.number()));
                hold(memory, ask, query, &expected, &|w| symbol(&memory.text, w), tally);
                if let (Filter::All, Ok(t), Ok((results, _))) = (f, table, expected(u32::MAX)) {
                    tally.beside_the_source(&t.modules, query, &results);
                }
            }
        }
    }
}

#[test]
fn completions_of_registered_tables() {
    let mut rng = Rng::new(Rng::seed_or(5));
    let mut tally = Tally::default();
    for round in 0..40 {
        let memory = registered_memory(&mut rng, [10, 40, 120][round % 3], 1000, 8000);
        let table = Ok(decode(&memory));
        for _ in 0..12 {
            let query = if rng.one_in(8) { damaged_query(&mut rng) } else { completion_query(&mut rng) };
            hold_all(&memory, &table, &query, &mut tally);
        }
    }
    println!("completions: {tally:?}; 0 disagreements");
    assert!(tally.has(&[0, 2, 4, 9, 10]) && tally.has_kinds() && 0 < tally.otherwise[0], "{tally:?}");
}

#[test]
fn completions_of_hand_made_sound_tables() {
    let mut rng = Rng::new(Rng::seed_or(6));
    let mut tally = Tally::default();
    for _ in 0..60 {
        let memory = sound_memory(&mut rng, 60);
        let table = Ok(decode(&memory));
        for _ in 0..6 {
            hold_all(&memory, &table, &completion_query(&mut rng), &mut tally);
        }
    }
    println!("completions of hand-made tables: {tally:?}; 0 disagreements");
    assert!(tally.has(&[0, 9, 10]) && tally.has_kinds() && tally.otherwise.iter().all(|&n| 0 < n), "{tally:?}");
}

#[test]
fn completions_on_damaged_memory() {
    let mut rng = Rng::new(Rng::seed_or(7));
    let mut tally = Tally::default();
    for _ in 0..4 {
        let memory = registered_memory(&mut rng, 8, 120, 400);
        for damage in damages(&mut rng, &memory) {
            if rng.one_in(12) {
                let mut m = memory.clone();
                damage.apply(&mut m);
                let table = m.table().map_err(|r| r.number());
                hold_all(&m, &table, &completion_query(&mut rng), &mut tally);
            }
        }
    }
    println!("completions on damaged memory: {tally:?}; 0 disagreements");
    assert!(tally.has(&[0, 1]), "{tally:?}");
}
