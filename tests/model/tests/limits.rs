//! The model at the requirements' limits.

use model::layout::Memory;
use model::limits::Calls;
use model::model::*;

struct Model;

impl Calls for Model {
    const MOST_RECORDS: usize = 65_536;

    fn register(memory: &mut Memory, call: &Registration) -> u32 {
        memory.register(call).err().map_or(0, Refusal::number)
    }

    fn find(memory: &Memory, query: &[u8]) -> Result<Option<Item>, u32> {
        memory.table().and_then(|t| find(&t.names, query)).map_err(Refusal::number)
    }

    fn complete(
        memory: &Memory,
        ask: Ask,
        query: &[u8],
        budget: u32,
        (lines, bytes): (usize, usize),
    ) -> Result<(u32, u32), u32> {
        let table = memory.table().map_err(Refusal::number)?;
        let mut text = vec![0; bytes];
        let (none, span) = (Str::from(&b""[..]), Span { start: 0, length: 0 });
        let symbol = ModSymbol::Namespace { ns_name: none, ns_loaded: false };
        let listed = match ask {
            Ask::Names(kind) => {
                let item = Item::register(0);
                let blank = Line { match_length: 0, item, candidate: span, annotation: span };
                complete_names(&table, query, kind, budget, &mut vec![blank; lines], &mut text)
            }
            Ask::Modules(f) => {
                let blank =
                    Line { match_length: 0, item: symbol, candidate: span, annotation: span };
                complete_modules(&table, query, f, budget, &mut vec![blank; lines], &mut text)
            }
        };
        assert!(listed.is_ok() || text.iter().all(|&b| b == 0));
        listed.map(|l| (l.lines, l.entered)).map_err(Refusal::number)
    }
}

model::at_limits! {
    Model: unsound malformed empty too_long crowded deep full text_full spent lines lowest_first
}
