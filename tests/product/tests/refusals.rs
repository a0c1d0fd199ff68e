//! Each refusal of the product at its limit and just inside it (tests/model/src/limits.rs).
use model::layout::Memory;
use model::limits::Calls;
use model::model::{Ask, Item, Registration};
use product::Output;

struct Exports;

impl Calls for Exports {
    const MOST_RECORDS: usize = 65_536;

    fn register(memory: &mut Memory, call: &Registration) -> u32 {
        product::register(memory, call)
    }

    fn find(memory: &Memory, query: &[u8]) -> Result<Option<Item>, u32> {
        product::find(memory, query)
    }

    /// Both completions are refused alike.
    fn complete(memory: &Memory, ask: Ask, query: &[u8], budget: u32, room: (usize, usize)) -> Result<(u32, u32), u32> {
        let answer = product::complete_both(memory, ask, query, budget, &mut Output::with_room(room.0, room.1));
        answer.map(|(lines, entered, _)| (lines, entered))
    }
}

model::at_limits! {
    Exports: unsound malformed empty too_long crowded deep full text_full spent lines lowest_first
}
