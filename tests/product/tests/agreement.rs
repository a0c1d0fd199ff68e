//! Pane and look-up (docs/REQUIREMENTS.md, section 2, demand 3): what the product lists is what it finds, at both doors.
use model::agreement::{hold, on_registered_tables, on_written_tables, Met};
use model::gen::Rng;
use model::layout::{decode, Memory};
use model::model::{find as independent_find, Ask, CompletionResult, Refusal};
use product::{complete_both, complete_both_sound, find, find_sound, item, symbol, Output};

/// The lines of a completion, alike at both doors, or the number of the refusal.
fn lines<A>(memory: &Memory, ask: Ask, query: &[u8], item: impl Fn(&[u32]) -> A) -> Result<Vec<CompletionResult<A>>, u32> {
    let [mut out, mut other] = [(); 2].map(|()| Output::with_room(300, 9_000));
    let answer = complete_both(memory, ask, query, 4096, &mut out);
    // SAFETY: the memory is sound.
    assert_eq!(unsafe { complete_both_sound(memory, ask, query, 4096, &mut other) }, answer, "{ask:?} {query:?}");
    assert!(other == out, "another output: {ask:?} {query:?}");
    answer.map(|(lines, ..)| (0..lines as usize).map(|k| out.line(k, &item)).collect())
}

/// Both roots of a table; the names first. Crate screen_tests has no look-up of modules: theirs is the independent one.
fn hold_both(rng: &mut Rng, memory: &Memory, met: &mut [Met; 2]) {
    let table = decode(memory);
    let found = |query: &[u8]| {
        let found = find(memory, query);
        // SAFETY: the memory is sound.
        assert_eq!(unsafe { find_sound(memory, query) }, found, "{query:?}");
        found
    };
    hold(&table.names, rng, &found, &|ask, query| lines(memory, ask, query, item), &mut met[0]);
    let found = |query: &[u8]| independent_find(&table.modules, query).map_err(Refusal::number);
    let modules = |ask, query: &[u8]| lines(memory, ask, query, |w| symbol(&memory.text, w));
    hold(&table.modules, rng, &found, &modules, &mut met[1]);
}

#[test]
fn tables_that_registrations_make() {
    on_registered_tables(27, &hold_both);
}

#[test]
fn tables_written_record_by_record() {
    on_written_tables(28, &hold_both);
}
