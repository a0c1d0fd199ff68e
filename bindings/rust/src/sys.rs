//! The C layer's declarations as include/name_console.h has them: pointers, lengths and numbers. tests/prompt holds them to the header.
//!
//! No pointer is null, also where its length is 0, and buffers that a call writes overlap no other buffer of that call. Otherwise
//! every call answers for whatever bytes are lent.

/// Bytes of a state: names root, modules root, records used, text used. Zeros are the fresh table.
pub const STATE: usize = 16;
/// Bytes of a record in the words.
pub const RECORD: usize = 48;
/// Records past these count as not lent.
pub const RECORDS: usize = 1024;
/// Bytes of a line record.
pub const LINE: usize = 48;
/// Bytes of stack that are enough for a registration or look-up.
pub const STACK: usize = 131072;
/// Bytes of stack that are enough for a completion.
pub const STACK_COMPLETE: usize = 212992;

/// The answer of a call that was accepted, or found or listed something.
pub const OK: u32 = 0;
/// The answer of a look-up that finds nothing. Numbers 1 to 10 are refusals.
pub const NONE: u32 = u32::MAX;

/// The kind of an item that is a timer.
pub const TIMER: u32 = 1;
/// The kind of an item that is a port.
pub const PORT: u32 = 2;
/// The kind of an item that is a register.
pub const REGISTER: u32 = 3;
/// What a completion of names asks for in the place of a kind, to list all.
pub const ALL_KINDS: u32 = 0;

/// The reply to a look-up of a name.
#[repr(C)]
#[derive(Clone, Copy, Debug, Default, PartialEq, Eq)]
pub struct NameReply {
    /// 0 found, [`NONE`], else the refusal.
    pub answer: u32,
    /// The item's kind, [`TIMER`], [`PORT`] or [`REGISTER`]; 0 unless found.
    pub kind: u32,
    /// The item's number; 0 unless found.
    pub number: u32,
}

/// The reply to a look-up of a module or namespace. What does not apply is 0.
#[repr(C)]
#[derive(Clone, Copy, Debug, Default, PartialEq, Eq)]
pub struct ModuleReply {
    /// 0 found, [`NONE`], else the refusal.
    pub answer: u32,
    /// 0 a module, 1 a namespace.
    pub sort: u32,
    /// Full name: its start in the table's text.
    pub name_start: u32,
    /// Full name: its length.
    pub name_len: u32,
    /// A module's file path: its start in the table's text.
    pub path_start: u32,
    /// A module's file path: its length.
    pub path_len: u32,
    /// 1 if loaded.
    pub loaded: u32,
}

/// The reply to a completion.
#[repr(C)]
#[derive(Clone, Copy, Debug, Default, PartialEq, Eq)]
pub struct CompleteReply {
    /// 0 listed, else the refusal.
    pub answer: u32,
    /// Lines written; 0 if refused.
    pub lines: u32,
    /// Tries entered; 0 if refused.
    pub entered: u32,
}

/// The reply to a completion that says what is certain.
#[repr(C)]
#[derive(Clone, Copy, Debug, Default, PartialEq, Eq)]
pub struct SharedReply {
    /// 0 listed, else the refusal, as that of the completion.
    pub answer: u32,
    /// Lines written; 0 if refused.
    pub lines: u32,
    /// Tries entered; 0 if refused.
    pub entered: u32,
    /// Bytes that all candidates begin with; 0 with no line, or if refused.
    pub shared: u32,
}

#[rustfmt::skip]
extern "C" {
    /// Registers a name with its item, a kind and a number, in the host.
    pub fn name_console_insert_item(state: *mut u8, state_len: usize, words: *mut u8, words_len: usize, text: *mut u8, text_len: usize,
        host: *const u8, host_len: usize, id: *const u8, id_len: usize, kind: u32, number: u32) -> u32;

    /// Includes the query's bindings in the host.
    pub fn name_console_include(state: *mut u8, state_len: usize, words: *mut u8, words_len: usize, text: *mut u8, text_len: usize,
        host: *const u8, host_len: usize, query: *const u8, query_len: usize) -> u32;

    /// Opens a namespace in the host: the query's namespaces are carried over, and no bindings.
    pub fn name_console_open_namespace(state: *mut u8, state_len: usize, words: *mut u8, words_len: usize, text: *mut u8, text_len: usize,
        host: *const u8, host_len: usize, query: *const u8, query_len: usize) -> u32;

    /// Opens a module in the host: what `name_console_include` does.
    pub fn name_console_open_module(state: *mut u8, state_len: usize, words: *mut u8, words_len: usize, text: *mut u8, text_len: usize,
        host: *const u8, host_len: usize, query: *const u8, query_len: usize) -> u32;

    /// Puts an alias of the query at the key, in the host.
    pub fn name_console_alias(state: *mut u8, state_len: usize, words: *mut u8, words_len: usize, text: *mut u8, text_len: usize,
        key: *const u8, key_len: usize, host: *const u8, host_len: usize, query: *const u8, query_len: usize) -> u32;

    /// Registers a module with its file path: loaded if `loaded` is 1, not loaded if it is 0; a loaded one stays loaded.
    pub fn name_console_module(state: *mut u8, state_len: usize, words: *mut u8, words_len: usize, text: *mut u8, text_len: usize,
        loaded: u32, query: *const u8, query_len: usize, path: *const u8, path_len: usize) -> u32;

    /// Looks a name up.
    pub fn name_console_find_item(state: *const u8, state_len: usize, words: *const u8, words_len: usize, text: *const u8, text_len: usize,
        query: *const u8, query_len: usize) -> NameReply;

    /// Looks a module or namespace up.
    pub fn name_console_find_module(state: *const u8, state_len: usize, words: *const u8, words_len: usize, text: *const u8, text_len: usize,
        query: *const u8, query_len: usize) -> ModuleReply;

    /// Completes a name, of all kinds (0) or of one.
    pub fn name_console_complete_names(state: *const u8, state_len: usize, words: *const u8, words_len: usize, text: *const u8, text_len: usize,
        kind: u32, query: *const u8, query_len: usize, budget: u32, lines: *mut u8, lines_len: usize, out: *mut u8, out_len: usize) -> CompleteReply;

    /// Completes a module or namespace, under the number of a filter, 0 to 3.
    pub fn name_console_complete_modules(state: *const u8, state_len: usize, words: *const u8, words_len: usize, text: *const u8, text_len: usize,
        filter: u32, query: *const u8, query_len: usize, budget: u32, lines: *mut u8, lines_len: usize, out: *mut u8, out_len: usize) -> CompleteReply;

    /// Completes a name, of all kinds (0) or of one, and says how many bytes all candidates begin with.
    pub fn name_console_complete_names_shared(state: *const u8, state_len: usize, words: *const u8, words_len: usize, text: *const u8, text_len: usize,
        kind: u32, query: *const u8, query_len: usize, budget: u32, lines: *mut u8, lines_len: usize, out: *mut u8, out_len: usize) -> SharedReply;

    /// The same of a module or namespace, under the number of a filter, 0 to 3.
    pub fn name_console_complete_modules_shared(state: *const u8, state_len: usize, words: *const u8, words_len: usize, text: *const u8, text_len: usize,
        filter: u32, query: *const u8, query_len: usize, budget: u32, lines: *mut u8, lines_len: usize, out: *mut u8, out_len: usize) -> SharedReply;
}
