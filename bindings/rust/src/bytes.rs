//! The C layer's calls over lent slices of any length, as numbers and bytes. Whatever is lent, a call answers; a refusal changes nothing.
//!
//! `state` is 16 bytes (zeros are the fresh table; another length is refused with 1), `words` are records of 48 bytes, `text` is the
//! names' text. [`crate::Table`] owns such buffers; these are for callers that keep them elsewhere.
use crate::sys::{self, CompleteReply, ModuleReply, NameReply, SharedReply};

// SAFETY, of every call here: pointer and length come from one slice, so no pointer is null and the bytes are there; what is written
// is borrowed mutably, so it overlaps nothing else; the layer keeps no pointer.

/// Registers a name with its item, a kind (1 to 3; another is refused with 2) and a number, in the host: 0 or the refusal's number.
#[rustfmt::skip]
pub fn insert_item(state: &mut [u8], words: &mut [u8], text: &mut [u8], host: &[u8], id: &[u8], kind: u32, number: u32) -> u32 {
    unsafe {
        sys::name_console_insert_item(state.as_mut_ptr(), state.len(), words.as_mut_ptr(), words.len(), text.as_mut_ptr(), text.len(),
            host.as_ptr(), host.len(), id.as_ptr(), id.len(), kind, number)
    }
}

/// Includes the query's bindings in the host: 0 or the refusal's number.
#[rustfmt::skip]
pub fn include(state: &mut [u8], words: &mut [u8], text: &mut [u8], host: &[u8], query: &[u8]) -> u32 {
    unsafe {
        sys::name_console_include(state.as_mut_ptr(), state.len(), words.as_mut_ptr(), words.len(), text.as_mut_ptr(), text.len(),
            host.as_ptr(), host.len(), query.as_ptr(), query.len())
    }
}

/// Opens a namespace in the host, the query's namespaces and no bindings: 0 or the refusal's number.
#[rustfmt::skip]
pub fn open_namespace(state: &mut [u8], words: &mut [u8], text: &mut [u8], host: &[u8], query: &[u8]) -> u32 {
    unsafe {
        sys::name_console_open_namespace(state.as_mut_ptr(), state.len(), words.as_mut_ptr(), words.len(), text.as_mut_ptr(), text.len(),
            host.as_ptr(), host.len(), query.as_ptr(), query.len())
    }
}

/// Opens a module in the host, what `include` does: 0 or the refusal's number.
#[rustfmt::skip]
pub fn open_module(state: &mut [u8], words: &mut [u8], text: &mut [u8], host: &[u8], query: &[u8]) -> u32 {
    unsafe {
        sys::name_console_open_module(state.as_mut_ptr(), state.len(), words.as_mut_ptr(), words.len(), text.as_mut_ptr(), text.len(),
            host.as_ptr(), host.len(), query.as_ptr(), query.len())
    }
}

/// Puts an alias of the query at the key, in the host: 0 or the refusal's number.
#[rustfmt::skip]
pub fn alias(state: &mut [u8], words: &mut [u8], text: &mut [u8], key: &[u8], host: &[u8], query: &[u8]) -> u32 {
    unsafe {
        sys::name_console_alias(state.as_mut_ptr(), state.len(), words.as_mut_ptr(), words.len(), text.as_mut_ptr(), text.len(),
            key.as_ptr(), key.len(), host.as_ptr(), host.len(), query.as_ptr(), query.len())
    }
}

/// Registers a module with its file path, loaded (1) or not (0); another number is refused with 2.
/// A loaded one that is registered again with 0 stays loaded and takes the new path.
#[rustfmt::skip]
pub fn module(state: &mut [u8], words: &mut [u8], text: &mut [u8], loaded: u32, query: &[u8], path: &[u8]) -> u32 {
    unsafe {
        sys::name_console_module(state.as_mut_ptr(), state.len(), words.as_mut_ptr(), words.len(), text.as_mut_ptr(), text.len(),
            loaded, query.as_ptr(), query.len(), path.as_ptr(), path.len())
    }
}

/// Looks a name up.
#[rustfmt::skip]
pub fn find_item(state: &[u8], words: &[u8], text: &[u8], query: &[u8]) -> NameReply {
    unsafe {
        sys::name_console_find_item(state.as_ptr(), state.len(), words.as_ptr(), words.len(), text.as_ptr(), text.len(),
            query.as_ptr(), query.len())
    }
}

/// Looks a module or namespace up.
#[rustfmt::skip]
pub fn find_module(state: &[u8], words: &[u8], text: &[u8], query: &[u8]) -> ModuleReply {
    unsafe {
        sys::name_console_find_module(state.as_ptr(), state.len(), words.as_ptr(), words.len(), text.as_ptr(), text.len(),
            query.as_ptr(), query.len())
    }
}

/// Completes a name, of all kinds (0) or of one (1 to 3; another is refused with 2): line records of 48 bytes into `lines`, their texts into `out`.
#[rustfmt::skip]
#[allow(clippy::too_many_arguments)]
pub fn complete_names(
    state: &[u8], words: &[u8], text: &[u8], kind: u32, query: &[u8], budget: u32, lines: &mut [u8], out: &mut [u8],
) -> CompleteReply {
    unsafe {
        sys::name_console_complete_names(state.as_ptr(), state.len(), words.as_ptr(), words.len(), text.as_ptr(), text.len(),
            kind, query.as_ptr(), query.len(), budget, lines.as_mut_ptr(), lines.len(), out.as_mut_ptr(), out.len())
    }
}

/// Completes a module or namespace, under the number of a filter (0 to 3; another is refused with 2).
#[rustfmt::skip]
#[allow(clippy::too_many_arguments)]
pub fn complete_modules(
    state: &[u8], words: &[u8], text: &[u8], filter: u32, query: &[u8], budget: u32, lines: &mut [u8], out: &mut [u8],
) -> CompleteReply {
    unsafe {
        sys::name_console_complete_modules(state.as_ptr(), state.len(), words.as_ptr(), words.len(), text.as_ptr(), text.len(),
            filter, query.as_ptr(), query.len(), budget, lines.as_mut_ptr(), lines.len(), out.as_mut_ptr(), out.len())
    }
}

/// Completes a name as `complete_names` does, and says how many bytes all candidates begin with: what Tab may fill in.
#[rustfmt::skip]
#[allow(clippy::too_many_arguments)]
pub fn complete_names_shared(
    state: &[u8], words: &[u8], text: &[u8], kind: u32, query: &[u8], budget: u32, lines: &mut [u8], out: &mut [u8],
) -> SharedReply {
    unsafe {
        sys::name_console_complete_names_shared(state.as_ptr(), state.len(), words.as_ptr(), words.len(), text.as_ptr(), text.len(),
            kind, query.as_ptr(), query.len(), budget, lines.as_mut_ptr(), lines.len(), out.as_mut_ptr(), out.len())
    }
}

/// Completes a module or namespace as `complete_modules` does, and says how many bytes all candidates begin with.
#[rustfmt::skip]
#[allow(clippy::too_many_arguments)]
pub fn complete_modules_shared(
    state: &[u8], words: &[u8], text: &[u8], filter: u32, query: &[u8], budget: u32, lines: &mut [u8], out: &mut [u8],
) -> SharedReply {
    unsafe {
        sys::name_console_complete_modules_shared(state.as_ptr(), state.len(), words.as_ptr(), words.len(), text.as_ptr(), text.len(),
            filter, query.as_ptr(), query.len(), budget, lines.as_mut_ptr(), lines.len(), out.as_mut_ptr(), out.len())
    }
}
