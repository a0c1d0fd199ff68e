//! The C layer's cost by part, on a table of 1,024 records.
use crate::calls::{made, Name};
use crate::measure::{compare, copy, zero};
use layer::Bytes;
use model::layout::Memory;
use model::model::Ask;
use product::Output;
use std::cell::RefCell;

/// 1,024 records, of which one more name takes the last ones; that name.
pub fn table(names: &[Name]) -> (Memory, Name) {
    let n = (0..names.len()).find(|&n| 1024 < made(&names[..n + 2]).header.records).expect("names enough");
    let mut m = made(&names[..n]);
    m.words.truncate(1024 * 12);
    (m, names[n].clone())
}

pub fn parts(names: &[Name]) -> String {
    let (memory, more) = table(names);
    let (t, call) = (Bytes::of(&memory), more.call());
    let (changed_bytes, changed) = (RefCell::new(t.clone()), RefCell::new(memory.clone()));
    let (output_bytes, output) = (RefCell::new(layer::Output::with_room(512, 32768)), RefCell::new(Output::with_room(512, 32768)));
    let there = &names[0].query;

    // A state that says that more is used than can be is refused once the words are copied in.
    let unsound = Bytes { state: [[0; 8], [255; 8]].concat(), ..t.clone() };
    let mut copy_in = || layer::find(&unsound, there) == Err(1);
    let mut test = || product::sound(&memory);

    let mut find = || layer::find(&t, there) == Ok(Some(names[0].item));
    let mut insert = || {
        let now = &mut changed_bytes.borrow_mut();
        now.state.copy_from_slice(&t.state);
        layer::register(now, &call, None) == 0
    };
    let mut complete = || layer::complete(&t, Ask::Names(None), b"", u32::MAX, &mut output_bytes.borrow_mut()).is_ok();
    // SAFETY, of all three: the memory is sound.
    let mut find_work = || unsafe { product::find_sound(&memory, there) } == Ok(Some(names[0].item));
    let mut insert_work = || {
        let m = &mut changed.borrow_mut();
        m.header = memory.header;
        (unsafe { product::insert_sound(m, &more.host, &more.id, more.item) }) == 0
    };
    let mut complete_work = || unsafe { product::complete_sound(&memory, Ask::Names(None), b"", u32::MAX, &mut output.borrow_mut()) }.is_ok();

    let mut all = String::from("| call | whole, ns | copy in | test | work | the rest: copy out |\n|---|---|---|---|---|---|\n");
    let calls: [(&str, &mut dyn FnMut() -> bool, &mut dyn FnMut() -> bool); 3] = [
        ("look a name up", &mut find, &mut find_work),
        ("register a name", &mut insert, &mut insert_work),
        ("list all names", &mut complete, &mut complete_work),
    ];
    for (what, whole, work) in calls {
        let [whole, copy_in, test, work] = compare([whole, &mut copy_in, &mut test, work]);
        all += &format!("| {what} | {whole:.0} | {copy_in:.0} | {test:.0} | {work:.0} | {:.0} |\n", whole - copy_in - test - work);
    }
    let words = 1024 * 48;
    all + &format!("\nThe words are {words} bytes: memcpy of so many takes {:.0} ns, memset {:.0}.\n", copy(words), zero(words))
}
