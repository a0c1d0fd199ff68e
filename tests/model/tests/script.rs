//! The script language.

mod common;
use common::*;
use model::gen::{self, Rng};
use model::layout::Memory;
use model::model::*;
use model::script::*;

fn registers(line: &str, call: Registration) {
    assert_eq!(parse_line(line.as_bytes()), Some(Form::Register(call)), "{line}");
}

fn bad(line: &[u8]) {
    assert_eq!(parse_line(line), None, "{}", String::from_utf8_lossy(line));
}

#[test]
fn every_form() {
    registers("[name [a.b.] id t7]", named("a.b.", "id", t(7)));
    registers("[name [a.b.] id p7]", named("a.b.", "id", p(7)));
    registers("[name [a.b.] id r7]", named("a.b.", "id", r(7)));
    registers("[name [] id 0]", name("", "id", 0));
    registers("[include [a.] [b.]]", include("a.", "b."));
    registers("[include [] []]", include("", ""));
    registers("[open m [a.] [b.]]", open_module("a.", "b."));
    registers("[open n [a.] [b.]]", open_namespace("a.", "b."));
    registers("[alias k [a.] [b.]]", alias("k", "a.", "b."));
    registers("[module l [a.] p/q]", module(true, "a.", "p/q"));
    registers("[module u [] p]", module(false, "", "p"));
    assert_eq!(parse_line(b"[find [a.]]"), Some(Form::Find(b"a.".to_vec())));
    assert_eq!(parse_line(b"[complete []]"), Some(Form::Complete(vec![])));
    assert_eq!(parse_line(b"[modules [..]]"), Some(Form::Modules(b"..".to_vec())));
}

#[test]
fn spaces_brackets_and_words() {
    for line in [
        "",
        "[",
        "]",
        "[]",
        "[ ]",
        "[bad]",
        "name [] a 1",
        "[name [] a 1",
        "name [] a 1]",
        " [name [] a 1]",
        "[name [] a 1] ",
        "[name [] a 1]]",
        "[[name [] a 1]",
        "[ name [] a 1]",
        "[name  [] a 1]",
        "[name []  a 1]",
        "[name [] a  1]",
        "[name [] a 1 ]",
        "[name[] a 1]",
        "[name []a 1]",
        "[name [] a1]",
        "[name [] 1]",
        "[name [] a]",
        "[name a 1]",
        "[name [] a b 1]",
        "[name\t[] a 1]",
        "[Name [] a 1]",
        "[names [] a 1]",
        "[name [] a 1]\r",
        "[name [] a 1]x",
        "[include [a.]]",
        "[include [a.] b.]",
        "[include [a.][b.]]",
        "[include [a.] [b.] ]",
        "[include [a.] [b.]",
        "[include a. [b.]]",
        "[open [a.] [b.]]",
        "[open x [a.] [b.]]",
        "[open mn [a.] [b.]]",
        "[open m[a.] [b.]]",
        "[open M [a.] [b.]]",
        "[open  [a.] [b.]]",
        "[alias [a.] [b.]]",
        "[alias  [a.] [b.]]",
        "[alias k[a.] [b.]]",
        "[alias [k] [a.] [b.]]",
        "[module [a.] p]",
        "[module x [a.] p]",
        "[module l a. p]",
        "[module l [a.]]",
        "[module l [a.]p]",
        "[module l [a.] p",
        "[module l [a.] p]x",
        "[module l [a.] ",
        "[module l [a.] [",
        "[module l [a.]",
        "[find]",
        "[find ]",
        "[find []",
        "[find [] ]",
        "[find a.]",
        "[find [a.]]]",
        "[find [a.] x]",
        "[complete [[]]]",
        "[modules]",
        "[modules [a.]]\0",
    ] {
        bad(line.as_bytes());
    }
}

#[test]
fn texts_run_to_the_letter() {
    // A query may hold all but a closing bracket.
    for query in [&b" "[..], b"[", b"[[a", b"a b.", b"\0.", b"\r", b"\xFF\x80.", b"\t"] {
        let line = [b"[find [", query, b"]]"].concat();
        assert_eq!(parse_line(&line), Some(Form::Find(query.to_vec())));
        let mut console = Console::default();
        assert_eq!(console.reply(&line), b"[refused 2]\n");
    }
    // An id may hold all but space and brackets.
    for id in [&b"a.b"[..], b".", b"\xFF", b"\0", b"\r", b"\x7F"] {
        let line = [b"[name [] ", id, b" 1]"].concat();
        let call = Registration::Name { host: vec![], id: id.to_vec(), item: r(1) };
        assert_eq!(parse_line(&line), Some(Form::Register(call)));
        assert_eq!(Console::default().reply(&line), b"[refused 2]\n");
    }
    // A path runs to the bracket that ends the line.
    for path in ["", " ", "  p ", "]", "a]b", "[x] [y]", "p] ]"] {
        registers(&format!("[module l [A.] {path}]"), module(true, "A.", path));
        let line = format!("[module l [A.] {path}]");
        assert_eq!(Console::default().reply(line.as_bytes()), b"[ok 5]\n");
    }
    assert_eq!(Console::default().reply(b"[module l [A.] \t]"), b"[refused 2]\n");
    // Read whole first: bad comes before every refusal.
    assert_eq!(Console::default().reply(b"[name [a] i 01]"), b"[bad]\n");
    assert_eq!(Console::default().reply(b"[name [a] i 1]"), b"[refused 2]\n");
}

#[test]
fn items() {
    for (digits, number) in [("0", 0), ("1", 1), ("10", 10), ("4294967295", u32::MAX)] {
        // A bare number is a Register's.
        registers(&format!("[name [] a {digits}]"), named("", "a", r(number)));
        registers(&format!("[name [] a r{digits}]"), named("", "a", r(number)));
        registers(&format!("[name [] a p{digits}]"), named("", "a", p(number)));
        registers(&format!("[name [] a t{digits}]"), named("", "a", t(number)));
        for letter in ["x", "T", "P", "R", "q", "s", "tt", "rt", "t ", " t", "-", "t-", "t."] {
            bad(format!("[name [] a {letter}{digits}]").as_bytes());
        }
        bad(format!("[name [] a {digits}t]").as_bytes());
        bad(format!("[name [] a {digits} t]").as_bytes());
    }
    for digits in [
        "",
        "00",
        "01",
        "-1",
        "+1",
        "1.",
        "0x1",
        "1a",
        "a",
        "4294967296",
        "9999999999",
        "42949672950",
        "18446744073709551616",
        "99999999999999999999999",
        "1\u{660}",
    ] {
        for letter in ["", "t", "p", "r"] {
            bad(format!("[name [] a {letter}{digits}]").as_bytes());
        }
    }
}

/// Replies have the letter always, however the item was written.
#[test]
fn replies_of_items() {
    let script = b"[name [] a 5]\n[name [] b t5]\n[name [b.] c p4294967295]\n[name [] d r0]\n\
        [find [a.]]\n[find [b.]]\n[find [b.c.]]\n[find [d.]]\n[complete []]\n\
        [name [] a p5]\n[find [a.]]\n[name [] a t05]\n[name [] a x5]\n[name [] a t]\n\
        [name [] a r4294967296]\n[find [a.]]\n";
    let expected = "[ok 3]\n[ok 7]\n[ok 13]\n[ok 18]\n\
        [found r5]\n[found t5]\n[found p4294967295]\n[found r0]\n\
        [line -1 r5 [] a]\n[line -1 t5 [] b]\n[line -1 r0 [] d]\n[line -1 p4294967295 [] b.c]\n\
        [end 4 2]\n\
        [ok 21]\n[found p5]\n[bad]\n[bad]\n[bad]\n[bad]\n[found p5]\n";
    assert_eq!(string(&run(script)), expected);
}

#[test]
fn lines_of_an_input() {
    assert_eq!(run(b""), b"");
    assert_eq!(run(b"\n"), b"[bad]\n");
    assert_eq!(run(b"\n\n"), b"[bad]\n[bad]\n");
    assert_eq!(run(b"x"), b"[bad]\n");
    assert_eq!(run(b"[find [a.]]"), b"[none]\n");
    assert_eq!(run(b"[find [a.]]\n"), b"[none]\n");
    assert_eq!(
        run(b"[find [a.]]\r\n[find [a.]]\n\n[find []]"),
        b"[bad]\n[none]\n[bad]\n[refused 3]\n"
    );
    let line = |length: usize| [b"[module l [a.] ", &b"p".repeat(length - 16)[..], b"]"].concat();
    assert_eq!(line(2048).len(), 2048);
    assert_eq!(run(&line(2048)), b"[refused 4]\n");
    assert_eq!(run(&line(2049)), b"[bad]\n");
    assert_eq!(run(&[line(2048), b"\n".to_vec()].concat()), b"[refused 4]\n");
    assert_eq!(run(&[line(2049), b"\n".to_vec()].concat()), b"[bad]\n");
}

#[test]
fn replies_of_modules() {
    let script =
        b"[module u [IO.Bus.] io/bus]\n[module l [IO.Can.] ]\n[modules [I.]]\n[modules [IO.B.]]\n";
    let expected = "[ok 10]\n[ok 22]\n\
        [line 1 n [ ns ] IO]\n[line 1 m [(mod)] IO.Bus]\n[line 1 m [ mod ] IO.Can]\n[end 3 4]\n\
        [line 4 m [(mod)] IO.Bus]\n[end 1 3]\n";
    assert_eq!(string(&run(script)), expected);
}

#[test]
fn spelled_forms_are_read_again() {
    let rng = &mut Rng::new(Rng::seed_or(51));
    for round in 0..3000 {
        let form = gen::form(rng, &gen::MIXES[round % 3]);
        let line = spell(&form);
        // Some damaged texts cannot be written at their place.
        let writable = match &form {
            Form::Register(Registration::Name { host, id, .. }) => {
                query_fits(host) && word_fits(id)
            }
            Form::Register(Registration::Include { host, included })
            | Form::Register(Registration::OpenNamespace { host, included })
            | Form::Register(Registration::OpenModule { host, included }) => {
                query_fits(host) && query_fits(included)
            }
            Form::Register(Registration::Alias { key, host, included }) => {
                word_fits(key) && query_fits(host) && query_fits(included)
            }
            Form::Register(Registration::Module { query, .. }) => query_fits(query),
            Form::Find(query) | Form::Complete(query) | Form::Modules(query) => query_fits(query),
        };
        if writable {
            assert_eq!(parse_line(&line), Some(form));
        } else {
            assert_ne!(parse_line(&line), Some(form));
        }
    }
}

fn query_fits(query: &[u8]) -> bool {
    !query.contains(&b']')
}

fn word_fits(word: &[u8]) -> bool {
    !word.is_empty() && !word.iter().any(|b| b" []".contains(b))
}

/// A read line is a form as it is spelled, but for a Register's letter, and
/// nothing else: what is read from a damaged line is spelled as that line.
#[test]
fn read_lines_are_spelled_so() {
    let rng = &mut Rng::new(Rng::seed_or(52));
    let (mut counts, mut bare) = ([0; 2], 0);
    for round in 0..3000 {
        let mut line = gen::line(rng, &gen::MIXES[round % 3]);
        for _ in 0..40 {
            if line.is_empty() {
                break;
            }
            let at = rng.below(line.len());
            let old = line.clone();
            match rng.below(3) {
                0 => line[at] = *rng.pick(b" []0a\r\xFF"),
                1 => line.insert(at, *rng.pick(b" []0a\r\xFF")),
                _ => {
                    line.remove(at);
                }
            }
            let form = parse_line(&line);
            counts[form.is_some() as usize] += 1;
            if let Some(form) = form {
                let spelled = spell(&form);
                if spelled != line {
                    line.insert(gen::item_at(&line), b'r');
                    bare += 1;
                }
                assert_eq!(spelled, line);
            }
            line = old;
        }
    }
    assert!(counts.iter().all(|&n| n > 10_000) && bare > 500, "{counts:?} {bare}");
}

/// The console on the model, and the same registrations in a record memory.
#[test]
fn scripts_on_a_record_memory() {
    let rng = &mut Rng::new(Rng::seed_or(53));
    for _ in 0..20 {
        let script = gen::script(rng, 300);
        let mut console = Console::default();
        let mut memory = Memory::fresh(vec![7; CONSOLE.words], vec![7; CONSOLE.text]);
        for line in lines(&script) {
            let reply = console.reply(line);
            if let Some(Form::Register(call)) = parse_line(line) {
                let expected = match memory.register(&call) {
                    Ok(records) => format!("[ok {records}]\n"),
                    Err(refusal) => format!("[refused {}]\n", refusal.number()),
                };
                assert_eq!(string(&reply), expected);
            }
        }
        assert!(model::layout::same_table(&memory.table().unwrap(), &console.table));
    }
}

/// Replies to the scripts at the limits, with each run of equal kinds of
/// reply as one word: the number of replies and their first part, the
/// refusal's number included.
#[test]
fn limits() {
    let mut kinds = Vec::new();
    for (what, script) in gen::limit_scripts() {
        let output = string(&run(&script));
        let mut runs: Vec<(String, usize)> = Vec::new();
        for line in output.lines().filter(|line| !line.starts_with("[line")) {
            let kind = match line.trim_matches(|c| c == '[' || c == ']').split_once(' ') {
                Some(("refused", number)) => number.to_string(),
                Some((first, _)) => first.to_string(),
                None => line[1..line.len() - 1].to_string(),
            };
            match runs.last_mut() {
                Some((last, count)) if *last == kind => *count += 1,
                _ => runs.push((kind, 1)),
            }
        }
        let runs: Vec<String> =
            runs.iter().map(|(kind, count)| format!("{count}*{kind}")).collect();
        kinds.push(format!("{what}: {}", runs.join(" ")));
    }
    let expected = [
        "names of 31 bytes: 10*ok 2*found 2*end",
        "names of 32 bytes: 14*4",
        "15 segments: 1*ok 1*found 1*none 3*end 3*ok 1*6 1*ok 2*end",
        "16 segments: 1*ok 1*found 1*none 3*end 1*6 2*ok 1*6 1*ok 2*end",
        "17 segments: 1*6 1*4 1*none 3*end 2*6 1*ok 2*6 2*end",
        "18 segments: 11*4 2*end",
        "the longest full names and labels: 4*ok 2*end 1*found",
        "path of 120 bytes: 2*ok 1*3 1*end",
        "path of 121 bytes: 2*4 1*3 1*end",
        "weight of a root list: 97*ok 3*5 1*end",
        "weight of a root list: 96*ok 2*5 1*end",
        "weight of a list below: 97*ok 3*5 1*end",
        "weight of a list below: 96*ok 2*5 1*end",
        "weight doubled by including itself: 6*ok 3*5 1*end 1*ok 1*end",
        "budget: 4,096 tries and 8,192: ",
        "512 lines and 513: 10*ok 1*end 1*ok 2*10 1*end",
        "output text: 10*ok 2*10 1*end",
        "table text full: 273*ok 1*8 1*ok 1*8 2*ok 1*end",
        "records full: ",
        "records full to the last: 273*ok 1*7 1*ok 1*7 1*end",
        "three records free: 274*ok 1*7 1*end",
        "one record free: 274*ok 2*7 1*end",
        "long lines: 1*ok 2*4 3*bad",
    ];
    assert_eq!(kinds.len(), expected.len());
    for (kind, expected) in kinds.iter().zip(expected) {
        if expected.ends_with(": ") {
            assert!(kind.starts_with(expected), "{kind}");
        } else {
            assert_eq!(kind, expected);
        }
    }
    let budget = kinds.iter().find(|kind| kind.starts_with("budget")).unwrap();
    let doubled = "1*ok 1*end ".repeat(12) + "1*ok 1*9 1*end";
    assert!(budget.ends_with(&doubled), "{budget}");
    let full = kinds.iter().find(|kind| kind.starts_with("records full:")).unwrap();
    assert!(full.ends_with("*ok 213*7 1*ok 1*7 1*end"), "{full}");
}
