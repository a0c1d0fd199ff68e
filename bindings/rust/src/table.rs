use crate::lines::{item, symbol, Listing, Output, Shared, Symbol};
use crate::{bytes, sys, Item, Kind, Refusal};

/// Which lines a completion of modules keeps.
#[derive(Clone, Copy, Debug, PartialEq, Eq)]
pub enum Filter {
    /// All of them.
    All = 0,
    /// Modules and namespaces that are loaded.
    Loaded = 1,
    /// Modules.
    ModulesOnly = 2,
    /// Namespaces.
    NamespacesOnly = 3,
}

/// The number of a kind asked for, or of all.
fn asked(kind: Option<Kind>) -> u32 {
    kind.map_or(sys::ALL_KINDS, Kind::number)
}

/// A table with its memory. Every call answers for whatever texts it is given; a refused call leaves the table as it was.
#[derive(Clone, Debug, PartialEq, Eq)]
pub struct Table {
    state: [u8; sys::STATE],
    words: Vec<u8>,
    text: Vec<u8>,
}

impl Table {
    /// The fresh table, with room for so many records and bytes of text. At most 1,024 records and 65,536 bytes are used.
    pub fn new(records: usize, text: usize) -> Table {
        Table { state: [0; sys::STATE], words: vec![0; records * sys::RECORD], text: vec![0; text] }
    }

    /// A table from its bytes, as [`into_parts`](Table::into_parts) gave them. Each call tests them: of others it answers
    /// [`Refusal::Unsound`] where they are not a sound table.
    pub fn from_parts(state: [u8; sys::STATE], words: Vec<u8>, text: Vec<u8>) -> Table {
        Table { state, words, text }
    }

    /// State, words and text.
    pub fn into_parts(self) -> ([u8; sys::STATE], Vec<u8>, Vec<u8>) {
        (self.state, self.words, self.text)
    }

    fn word(&self, k: usize) -> u32 {
        u32::from_le_bytes(std::array::from_fn(|b| self.state[k * 4 + b]))
    }

    /// Records used.
    pub fn records_used(&self) -> u32 {
        self.word(2)
    }

    /// Bytes of text used.
    pub fn text_used(&self) -> u32 {
        self.word(3)
    }

    /// Registers a name with its item, in the host.
    pub fn insert(&mut self, host: impl AsRef<[u8]>, id: impl AsRef<[u8]>, item: Item) -> Result<(), Refusal> {
        let (host, id, kind) = (host.as_ref(), id.as_ref(), item.kind.number());
        Refusal::check(bytes::insert_item(&mut self.state, &mut self.words, &mut self.text, host, id, kind, item.number))
    }

    /// Includes the query's bindings in the host, as they are now.
    pub fn register_include(&mut self, host: impl AsRef<[u8]>, query: impl AsRef<[u8]>) -> Result<(), Refusal> {
        Refusal::check(bytes::include(&mut self.state, &mut self.words, &mut self.text, host.as_ref(), query.as_ref()))
    }

    /// Opens a namespace in the host: the query's namespaces, as they are now, and no bindings.
    pub fn register_open_namespace(&mut self, host: impl AsRef<[u8]>, query: impl AsRef<[u8]>) -> Result<(), Refusal> {
        Refusal::check(bytes::open_namespace(&mut self.state, &mut self.words, &mut self.text, host.as_ref(), query.as_ref()))
    }

    /// Opens a module in the host: what [`register_include`](Table::register_include) does.
    pub fn register_open_module(&mut self, host: impl AsRef<[u8]>, query: impl AsRef<[u8]>) -> Result<(), Refusal> {
        Refusal::check(bytes::open_module(&mut self.state, &mut self.words, &mut self.text, host.as_ref(), query.as_ref()))
    }

    /// Puts an alias of the query at the key, in the host: its bindings, and no namespaces.
    pub fn register_alias(&mut self, key: impl AsRef<[u8]>, host: impl AsRef<[u8]>, query: impl AsRef<[u8]>) -> Result<(), Refusal> {
        Refusal::check(bytes::alias(&mut self.state, &mut self.words, &mut self.text, key.as_ref(), host.as_ref(), query.as_ref()))
    }

    /// Registers a module with its file path, loaded or not. One that is loaded stays loaded when it is registered again, and takes the new path.
    pub fn register_module(&mut self, loaded: bool, query: impl AsRef<[u8]>, path: impl AsRef<[u8]>) -> Result<(), Refusal> {
        Refusal::check(bytes::module(&mut self.state, &mut self.words, &mut self.text, loaded as u32, query.as_ref(), path.as_ref()))
    }

    /// Looks a name up: its item, or none.
    pub fn find(&self, query: impl AsRef<[u8]>) -> Result<Option<Item>, Refusal> {
        let reply = bytes::find_item(&self.state, &self.words, &self.text, query.as_ref());
        if reply.answer == sys::NONE {
            return Ok(None);
        }
        Refusal::check(reply.answer).map(|()| Some(Item::read(reply.kind, reply.number)))
    }

    /// Looks a module or namespace up.
    pub fn find_module(&self, query: impl AsRef<[u8]>) -> Result<Option<Symbol<'_>>, Refusal> {
        let r = bytes::find_module(&self.state, &self.words, &self.text, query.as_ref());
        if r.answer == sys::NONE {
            return Ok(None);
        }
        Refusal::check(r.answer)?;
        Ok(Some(Symbol::new(&self.text, r.sort, [r.name_start, r.name_len], [r.path_start, r.path_len], r.loaded)))
    }

    /// Lists the names that the query covers, of one kind or of all (`None`), entering no more tries than the budget. Names of other
    /// kinds take no output; the tries entered are those of all kinds. The line of a name carries the item that [`find`](Table::find) finds.
    pub fn complete<'a>(
        &'a self,
        kind: Option<Kind>,
        query: impl AsRef<[u8]>,
        budget: u32,
        output: &'a mut Output,
    ) -> Result<Listing<'a, Item>, Refusal> {
        let (lines, out) = (&mut output.lines, &mut output.text);
        let reply = bytes::complete_names(&self.state, &self.words, &self.text, asked(kind), query.as_ref(), budget, lines, out);
        Refusal::check(reply.answer).map(|()| Listing::new(reply, output, &self.text, item))
    }

    /// Lists the modules and namespaces that the query covers and the filter keeps, each with the item that
    /// [`find_module`](Table::find_module) finds.
    pub fn complete_modules<'a>(
        &'a self,
        filter: Filter,
        query: impl AsRef<[u8]>,
        budget: u32,
        output: &'a mut Output,
    ) -> Result<Listing<'a, Symbol<'a>>, Refusal> {
        let (lines, out) = (&mut output.lines, &mut output.text);
        let reply = bytes::complete_modules(&self.state, &self.words, &self.text, filter as u32, query.as_ref(), budget, lines, out);
        Refusal::check(reply.answer).map(|()| Listing::new(reply, output, &self.text, symbol))
    }

    /// Lists what [`complete`](Table::complete) lists, and gives the beginning that all candidates share: what Tab may fill in.
    pub fn complete_shared<'a>(
        &'a self,
        kind: Option<Kind>,
        query: impl AsRef<[u8]>,
        budget: u32,
        output: &'a mut Output,
    ) -> Result<Shared<'a, Item>, Refusal> {
        let (lines, out) = (&mut output.lines, &mut output.text);
        let reply = bytes::complete_names_shared(&self.state, &self.words, &self.text, asked(kind), query.as_ref(), budget, lines, out);
        Refusal::check(reply.answer).map(|()| Shared::new(reply, output, &self.text, item))
    }

    /// Lists what [`complete_modules`](Table::complete_modules) lists, and gives the beginning that the candidates kept share.
    pub fn complete_modules_shared<'a>(
        &'a self,
        filter: Filter,
        query: impl AsRef<[u8]>,
        budget: u32,
        output: &'a mut Output,
    ) -> Result<Shared<'a, Symbol<'a>>, Refusal> {
        let (lines, out) = (&mut output.lines, &mut output.text);
        let reply = bytes::complete_modules_shared(&self.state, &self.words, &self.text, filter as u32, query.as_ref(), budget, lines, out);
        Refusal::check(reply.answer).map(|()| Shared::new(reply, output, &self.text, symbol))
    }
}
