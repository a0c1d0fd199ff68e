use crate::{sys, Item};

/// The part of a text that a span names, as far as the text goes.
pub(crate) fn part(text: &[u8], start: u32, length: u32) -> &[u8] {
    let rest = text.get(start as usize..).unwrap_or_default();
    &rest[..rest.len().min(length as usize)]
}

/// An item of the module table. Its texts borrow the table.
#[derive(Clone, Copy, Debug, PartialEq, Eq)]
pub enum Symbol<'a> {
    /// A module.
    Module {
        /// Full name.
        name: &'a [u8],
        /// File path.
        path: &'a [u8],
        /// Whether it is loaded.
        loaded: bool,
    },
    /// A namespace.
    Namespace {
        /// Full name.
        name: &'a [u8],
        /// Whether it is loaded.
        loaded: bool,
    },
}

impl<'a> Symbol<'a> {
    pub(crate) fn new(text: &'a [u8], sort: u32, name: [u32; 2], path: [u32; 2], loaded: u32) -> Symbol<'a> {
        let (name, loaded) = (part(text, name[0], name[1]), loaded == 1);
        match sort {
            0 => Symbol::Module { name, path: part(text, path[0], path[1]), loaded },
            _ => Symbol::Namespace { name, loaded },
        }
    }
}

/// Room for the lines of a completion and their texts. It can be used again and again.
#[derive(Clone, Debug)]
pub struct Output {
    pub(crate) lines: Vec<u8>,
    pub(crate) text: Vec<u8>,
}

impl Output {
    /// Room for so many lines and bytes of text.
    pub fn new(lines: usize, text: usize) -> Output {
        Output { lines: vec![0; lines * sys::LINE], text: vec![0; text] }
    }
}

/// A line of a completion. Its texts borrow the output, the item's texts the table.
#[derive(Clone, Copy, Debug, PartialEq, Eq)]
pub struct Line<'a, T> {
    /// How much of the candidate was matched: -1 where no element was matched by a segment.
    pub match_length: i32,
    /// The item: a name's [`Item`], or a module or namespace, a [`Symbol`].
    pub item: T,
    /// The full name, without a last dot.
    pub candidate: &'a [u8],
    /// The label of the list that the name came from, or the sort of a module; it may be empty.
    pub annotation: &'a [u8],
}

/// What a completion listed.
#[derive(Clone, Copy, Debug)]
pub struct Listing<'a, T> {
    /// Tries entered.
    pub entered: u32,
    records: &'a [u8],
    out: &'a [u8],
    text: &'a [u8],
    item: fn(&'a [u8], &[u32; 12]) -> T,
}

/// The item of a line of names.
pub(crate) fn item(_: &[u8], words: &[u32; 12]) -> Item {
    Item::read(words[6], words[5])
}

/// The item of a line of modules.
pub(crate) fn symbol<'a>(text: &'a [u8], words: &[u32; 12]) -> Symbol<'a> {
    Symbol::new(text, words[5], [words[6], words[7]], [words[8], words[9]], words[10])
}

impl<'a, T> Listing<'a, T> {
    pub(crate) fn new(reply: sys::CompleteReply, output: &'a Output, text: &'a [u8], item: fn(&'a [u8], &[u32; 12]) -> T) -> Self {
        let records = &output.lines[..reply.lines as usize * sys::LINE];
        Listing { entered: reply.entered, records, out: &output.text, text, item }
    }

    /// How many lines there are.
    pub fn len(&self) -> usize {
        self.records.len() / sys::LINE
    }

    /// Whether there is none.
    pub fn is_empty(&self) -> bool {
        self.records.is_empty()
    }

    /// Line `k`, from 0 on.
    pub fn line(&self, k: usize) -> Option<Line<'a, T>> {
        let record = self.records.chunks_exact(sys::LINE).nth(k)?;
        let words: [u32; 12] = std::array::from_fn(|i| u32::from_le_bytes(std::array::from_fn(|b| record[i * 4 + b])));
        Some(Line {
            match_length: words[0] as i32,
            item: (self.item)(self.text, &words),
            candidate: part(self.out, words[1], words[2]),
            annotation: part(self.out, words[3], words[4]),
        })
    }

    /// The lines in order.
    pub fn iter(&self) -> impl Iterator<Item = Line<'a, T>> + '_ {
        (0..self.len()).filter_map(|k| self.line(k))
    }
}

/// What a completion listed, and what is certain of it.
#[derive(Clone, Copy, Debug)]
pub struct Shared<'a, T> {
    /// The lines.
    pub listing: Listing<'a, T>,
    /// The longest beginning that all candidates share: with one line its whole candidate, with none it is empty. It borrows the output.
    pub beginning: &'a [u8],
}

impl<'a, T> Shared<'a, T> {
    pub(crate) fn new(reply: sys::SharedReply, output: &'a Output, text: &'a [u8], item: fn(&'a [u8], &[u32; 12]) -> T) -> Self {
        let sys::SharedReply { answer, lines, entered, shared } = reply;
        let listing = Listing::new(sys::CompleteReply { answer, lines, entered }, output, text, item);
        let beginning = listing.line(0).map_or(&[][..], |first| part(first.candidate, 0, shared));
        Shared { listing, beginning }
    }
}
