//! The script language of the program `console`, run on the model.

use crate::model::*;

/// A line longer than this is bad.
pub const MOST_LINE: usize = 2_048;

/// What the program lends.
pub const CONSOLE: Lent = Lent { words: 16_384, text: 32_768 };
pub const CONSOLE_BUDGET: u32 = 4_096;
pub const CONSOLE_LINES: usize = 512;
pub const CONSOLE_OUTPUT: usize = 32_768;

/// A line that was read.
#[derive(Clone, Debug, PartialEq, Eq)]
pub enum Form {
    Register(Registration),
    Find(Vec<u8>),
    Complete(Vec<u8>),
    Modules(Vec<u8>),
}

/// What is left of a line. Each function takes one part from its front.
struct Rest<'a>(&'a [u8]);

impl<'a> Rest<'a> {
    fn take(&mut self, length: usize) -> &'a [u8] {
        let (part, rest) = self.0.split_at(length);
        self.0 = rest;
        part
    }

    /// Exactly these bytes.
    fn exactly(&mut self, bytes: &[u8]) -> Option<()> {
        if !self.0.starts_with(bytes) {
            return None;
        }
        self.take(bytes.len());
        Some(())
    }

    /// A query in brackets: it runs to the first closing bracket.
    fn query(&mut self) -> Option<Vec<u8>> {
        self.exactly(b"[")?;
        let length = self.0.iter().position(|&b| b == b']')?;
        let query = self.take(length).to_vec();
        self.exactly(b"]")?;
        Some(query)
    }

    /// One or more bytes other than space and brackets.
    fn word(&mut self) -> Option<&'a [u8]> {
        let end = self.0.iter().position(|b| b" []".contains(b));
        let length = end.unwrap_or(self.0.len());
        if length == 0 {
            return None;
        }
        Some(self.take(length))
    }

    /// A kind's letter and a number. A bare number is a Register's.
    fn item(&mut self) -> Option<Item> {
        let word = self.word()?;
        match Kind::ALL.into_iter().find(|kind| word[0] == kind.letter() as u8) {
            Some(kind) => Some(Item { kind, number: number(&word[1..])? }),
            None => Some(Item::register(number(word)?)),
        }
    }

    /// One of two letters; true for the first.
    fn letter(&mut self, first: u8, second: u8) -> Option<bool> {
        let letter = *self.0.first()?;
        self.take(1);
        if letter == first {
            Some(true)
        } else if letter == second {
            Some(false)
        } else {
            None
        }
    }

    /// The bracket that ends the line.
    fn end(self) -> Option<()> {
        if self.0 == b"]" {
            Some(())
        } else {
            None
        }
    }
}

/// Decimal without leading zeros, at most 4294967295.
fn number(digits: &[u8]) -> Option<u32> {
    if digits.is_empty() || digits.len() > 10 || (digits[0] == b'0' && digits.len() > 1) {
        return None;
    }
    let mut value = 0u64;
    for &digit in digits {
        if !digit.is_ascii_digit() {
            return None;
        }
        value = 10 * value + u64::from(digit - b'0');
    }
    u32::try_from(value).ok()
}

/// Reads a line without its line feed. None is a bad line.
pub fn parse_line(line: &[u8]) -> Option<Form> {
    if line.len() > MOST_LINE {
        return None;
    }
    let mut rest = Rest(line);
    rest.exactly(b"[")?;
    let form = match rest.word()? {
        b"name" => {
            rest.exactly(b" ")?;
            let host = rest.query()?;
            rest.exactly(b" ")?;
            let id = rest.word()?.to_vec();
            rest.exactly(b" ")?;
            let item = rest.item()?;
            Form::Register(Registration::Name { host, id, item })
        }
        b"include" => {
            rest.exactly(b" ")?;
            let host = rest.query()?;
            rest.exactly(b" ")?;
            let included = rest.query()?;
            Form::Register(Registration::Include { host, included })
        }
        b"open" => {
            rest.exactly(b" ")?;
            let module = rest.letter(b'm', b'n')?;
            rest.exactly(b" ")?;
            let host = rest.query()?;
            rest.exactly(b" ")?;
            let included = rest.query()?;
            Form::Register(match module {
                true => Registration::OpenModule { host, included },
                false => Registration::OpenNamespace { host, included },
            })
        }
        b"alias" => {
            rest.exactly(b" ")?;
            let key = rest.word()?.to_vec();
            rest.exactly(b" ")?;
            let host = rest.query()?;
            rest.exactly(b" ")?;
            let included = rest.query()?;
            Form::Register(Registration::Alias { key, host, included })
        }
        b"module" => {
            rest.exactly(b" ")?;
            let loaded = rest.letter(b'l', b'u')?;
            rest.exactly(b" ")?;
            let query = rest.query()?;
            rest.exactly(b" ")?;
            // All up to the bracket that ends the line.
            let length = rest.0.len().checked_sub(1)?;
            let path = rest.take(length).to_vec();
            Form::Register(Registration::Module { loaded, query, path })
        }
        b"find" => {
            rest.exactly(b" ")?;
            Form::Find(rest.query()?)
        }
        b"complete" => {
            rest.exactly(b" ")?;
            Form::Complete(rest.query()?)
        }
        b"modules" => {
            rest.exactly(b" ")?;
            Form::Modules(rest.query()?)
        }
        _ => return None,
    };
    rest.end()?;
    Some(form)
}

/// Spells a form as a line without its line feed. Reading the line gives the
/// form again if each text can be written at its place.
pub fn spell(form: &Form) -> Vec<u8> {
    let mut line = Vec::new();
    let mut parts = |all: &[&[u8]]| line = all.concat();
    match form {
        Form::Register(Registration::Name { host, id, item }) => {
            parts(&[b"[name [", host, b"] ", id, b" ", item.to_string().as_bytes(), b"]"])
        }
        Form::Register(Registration::Include { host, included }) => {
            parts(&[b"[include [", host, b"] [", included, b"]]"])
        }
        Form::Register(Registration::OpenNamespace { host, included }) => {
            parts(&[b"[open n [", host, b"] [", included, b"]]"])
        }
        Form::Register(Registration::OpenModule { host, included }) => {
            parts(&[b"[open m [", host, b"] [", included, b"]]"])
        }
        Form::Register(Registration::Alias { key, host, included }) => {
            parts(&[b"[alias ", key, b" [", host, b"] [", included, b"]]"])
        }
        Form::Register(Registration::Module { loaded, query, path }) => {
            let letter: &[u8] = if *loaded { b"l" } else { b"u" };
            parts(&[b"[module ", letter, b" [", query, b"] ", path, b"]"])
        }
        Form::Find(query) => parts(&[b"[find [", query, b"]]"]),
        Form::Complete(query) => parts(&[b"[complete [", query, b"]]"]),
        Form::Modules(query) => parts(&[b"[modules [", query, b"]]"]),
    }
    line
}

/// The lines of an input. A final line feed starts no further line.
pub fn lines(input: &[u8]) -> Vec<&[u8]> {
    let mut all: Vec<&[u8]> = input.split(|&b| b == b'\n').collect();
    if all.last().is_some_and(|line| line.is_empty()) {
        all.pop();
    }
    all
}

/// The program's state.
#[derive(Default)]
pub struct Console {
    pub table: Table,
}

impl Console {
    /// The reply to a line, with its line feeds.
    pub fn reply(&mut self, line: &[u8]) -> Vec<u8> {
        match parse_line(line) {
            None => b"[bad]\n".to_vec(),
            Some(form) => match self.run(&form) {
                Ok(reply) => reply,
                Err(refusal) => format!("[refused {}]\n", refusal.number()).into_bytes(),
            },
        }
    }

    fn run(&mut self, form: &Form) -> Result<Vec<u8>, Refusal> {
        let mut output = vec![0; CONSOLE_OUTPUT];
        let blank = Span { start: 0, length: 0 };
        match form {
            Form::Register(call) => {
                self.table = register(&self.table, CONSOLE, call)?;
                Ok(format!("[ok {}]\n", self.table.records).into_bytes())
            }
            Form::Find(query) => Ok(match find(&self.table.names, query)? {
                Some(item) => format!("[found {item}]\n").into_bytes(),
                None => b"[none]\n".to_vec(),
            }),
            Form::Complete(query) => {
                let item = Item::register(0);
                let empty = Line { match_length: 0, item, candidate: blank, annotation: blank };
                let mut lines = vec![empty; CONSOLE_LINES];
                let listed = complete_names(
                    &self.table,
                    query,
                    None,
                    CONSOLE_BUDGET,
                    &mut lines,
                    &mut output,
                )?;
                Ok(listing_reply(&lines, &output, listed, &|item| item.to_string()))
            }
            Form::Modules(query) => {
                let symbol =
                    ModSymbol::Namespace { ns_name: Str::from(&b""[..]), ns_loaded: false };
                let empty =
                    Line { match_length: 0, item: symbol, candidate: blank, annotation: blank };
                let mut lines = vec![empty; CONSOLE_LINES];
                let listed = complete_modules(
                    &self.table,
                    query,
                    Filter::All,
                    CONSOLE_BUDGET,
                    &mut lines,
                    &mut output,
                )?;
                Ok(listing_reply(&lines, &output, listed, &|symbol| {
                    if symbol.is_module() { "m" } else { "n" }.to_string()
                }))
            }
        }
    }
}

fn listing_reply<A>(
    lines: &[Line<A>],
    output: &[u8],
    listed: Listed,
    item: &dyn Fn(&A) -> String,
) -> Vec<u8> {
    let text = |span: Span| &output[span.start as usize..(span.start + span.length) as usize];
    let mut reply = Vec::new();
    for line in &lines[..listed.lines as usize] {
        reply.extend(format!("[line {} {} [", line.match_length, item(&line.item)).bytes());
        reply.extend(text(line.annotation));
        reply.extend(b"] ");
        reply.extend(text(line.candidate));
        reply.extend(b"]\n");
    }
    reply.extend(format!("[end {} {}]\n", listed.lines, listed.entered).bytes());
    reply
}

/// All replies to an input.
pub fn run(input: &[u8]) -> Vec<u8> {
    let mut console = Console::default();
    lines(input).into_iter().flat_map(|line| console.reply(line)).collect()
}
