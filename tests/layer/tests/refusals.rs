//! Each refusal of the C layer at its limit and just inside it (tests/model/src/limits.rs), and what is the layer's own.
use layer::{complete_both, find, find_module, register, Asked, Bytes, Output};
use model::layout::Memory;
use model::limits::{Calls, MALFORMED, TOO_LONG, UNSOUND};
use model::model::{Ask, Item, Registration};

struct Screen;

impl Calls for Screen {
    const MOST_RECORDS: usize = 1_024;

    fn register(memory: &mut Memory, call: &Registration) -> u32 {
        let mut t = Bytes::of(memory);
        let before = t.clone();
        let answer = register(&mut t, call, None);
        assert!(answer == 0 || t == before, "a refused call changed something: {call:?}");
        t.put_in(memory);
        answer
    }

    /// Both roots are refused alike.
    fn find(memory: &Memory, query: &[u8]) -> Result<Option<Item>, u32> {
        let t = Bytes::of(memory);
        let answer = find(&t, query);
        assert_eq!(find_module(&t, query).err(), answer.err(), "{query:?}");
        answer
    }

    /// Both completions are refused alike.
    fn complete(memory: &Memory, ask: Ask, query: &[u8], budget: u32, room: (usize, usize)) -> Result<(u32, u32), u32> {
        let answer = complete_both(&Bytes::of(memory), ask, query, budget, &mut Output::with_room(room.0, room.1));
        answer.map(|(lines, entered, _)| (lines, entered))
    }
}

model::at_limits! {
    Screen: unsound malformed empty too_long crowded deep full text_full spent lines lowest_first
}

/// The name tick with r5, at the root.
fn tick() -> Registration {
    Registration::Name { host: vec![], id: b"tick".to_vec(), item: Item::register(5) }
}

/// The fresh table, with a state of so many bytes.
fn fresh(state: usize) -> Bytes {
    Bytes { state: vec![0; state], words: vec![0; 480], text: vec![0; 100] }
}

#[test]
fn a_state_is_sixteen_bytes() {
    for (bytes, answer) in [(0, UNSOUND), (15, UNSOUND), (16, 0), (17, UNSOUND)] {
        let t = fresh(bytes);
        assert_eq!(register(&mut t.clone(), &tick(), None), answer);
        assert_eq!(find(&t, b"a.").err().unwrap_or(0), answer);
        assert_eq!(find_module(&t, b"a.").err().unwrap_or(0), answer);
        for ask in Ask::ALL {
            assert_eq!(complete_both(&t, ask, b"", 1, &mut Output::with_room(1, 9)).err().unwrap_or(0), answer);
        }
    }
}

#[test]
fn a_number_that_is_no_choice_is_malformed() {
    for (flag, answer) in [(0, 0), (1, 0), (2, MALFORMED), (256, MALFORMED), (u32::MAX, MALFORMED)] {
        let module = Registration::Module { loaded: true, query: vec![], path: vec![] };
        assert_eq!(register(&mut fresh(16), &module, Some(flag)), answer);
        // Unsound comes first.
        assert_eq!(register(&mut fresh(15), &module, Some(flag)), UNSOUND);
    }
    for (kind, answer) in [(0, MALFORMED), (1, 0), (2, 0), (3, 0), (4, MALFORMED), (257, MALFORMED), (u32::MAX, MALFORMED)] {
        for (state, answer) in [(16, answer), (15, UNSOUND)] {
            let mut t = fresh(state);
            assert_eq!(register(&mut t, &tick(), Some(kind)), answer);
            assert!(answer == 0 || t == fresh(state), "{kind}");
        }
    }
    for (number, answer) in [(0, 0), (3, 0), (4, MALFORMED), (259, MALFORMED), (u32::MAX, MALFORMED)] {
        for asked in [Asked::Names(number), Asked::Modules(number)] {
            assert_eq!(complete_both(&fresh(16), asked, b"", 1, &mut Output::with_room(1, 9)).err().unwrap_or(0), answer);
            assert_eq!(complete_both(&fresh(15), asked, b"", 1, &mut Output::with_room(1, 9)), Err(UNSOUND));
            // Malformed comes before TooLong and Spent.
            let long = complete_both(&fresh(16), asked, &[b'.'; 18], 0, &mut Output::with_room(0, 0));
            assert_eq!(long, Err(if answer == 0 { TOO_LONG } else { MALFORMED }));
        }
    }
}

/// Bytes that make no whole record or line record count as not lent.
#[test]
fn whole_records_count() {
    for (bytes, answer) in [(143, 7), (144, 0), (191, 0)] {
        let mut t = Bytes { words: vec![0; bytes], ..fresh(16) };
        assert_eq!(register(&mut t, &tick(), None), answer);
    }
    let mut t = fresh(16);
    assert_eq!(register(&mut t, &tick(), None), 0);
    for (bytes, answer) in [(47, Err(10)), (48, Ok((1, 1, 4))), (95, Ok((1, 1, 4)))] {
        let mut out = Output { lines: vec![0; bytes], text: vec![0; 4] };
        assert_eq!(complete_both(&t, Ask::Names(None), b"", 1, &mut out), answer);
    }
}
