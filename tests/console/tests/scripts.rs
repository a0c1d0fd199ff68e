//! Scripts, random and at every limit. SCRIPTS says how many random ones, 400 at least; SEED says where they begin.
use console::console;
use model::gen::{at_least, limit_scripts, registration, script, times, Rng, MIXES};
use model::model::{concat_dots, Kind};
use model::naive::{full_names, walk, Holder};
use model::script::{run, spell, Console, Form};

/// Both write the same, which is given; if not, the first line that differs.
fn agree(what: &str, input: &[u8]) -> Vec<u8> {
    let (ours, theirs) = (console(input), run(input));
    if ours != theirs {
        let at = ours.iter().zip(&theirs).take_while(|(a, b)| a == b).count();
        let from = at.saturating_sub(80);
        let part = |s: &[u8]| String::from_utf8_lossy(&s[from.min(s.len())..(at + 80).min(s.len())]).into_owned();
        panic!("{what}: at byte {at} console has {:?}, the model {:?}", part(&ours), part(&theirs));
    }
    ours
}

/// Whether a reply has an item: found (0) or in a line (1), and the place of its kind.
fn item(reply: &[u8]) -> Option<(usize, usize)> {
    let mut words = reply.split(|&b| b == b' ');
    let (form, item) = match words.next()? {
        b"[found" => (0, words.next()?),
        b"[line" => (1, words.nth(1)?),
        _ => return None,
    };
    // A line of modules has m or n there.
    Kind::ALL.iter().position(|kind| item[0] == kind.letter() as u8).map(|kind| (form, kind))
}

#[test]
fn random_scripts() {
    let mut rng = Rng::new(Rng::seed_or(12));
    let count = times("SCRIPTS", 400);
    let mut bytes = 0;
    // Items found and items of lines, by kind.
    let mut items = [[0; 3]; 2];
    for k in 0..count {
        let lines = [3, 20, 80, 300][k % 4];
        let input = script(&mut rng, lines);
        bytes += input.len();
        let replies = agree(&format!("random script {k}"), &input);
        for (form, kind) in replies.split(|&b| b == b'\n').filter_map(item) {
            items[form][kind] += 1;
        }
    }
    println!("{count} random scripts of {bytes} bytes; items found and listed, by kind: {items:?}; 0 disagreements");
    assert!(items.as_flattened().iter().all(|&n| 0 < n), "{items:?}");
}

/// Item and candidate of the lines of a listing, which is taken from the replies; none if it is refused.
fn listing<'a>(replies: &mut impl Iterator<Item = &'a str>) -> Option<Vec<(&'a str, &'a str)>> {
    let mut lines = Vec::new();
    loop {
        let reply = replies.next().expect("an end");
        match reply.trim_matches(|c| c == '[' || c == ']').split(' ').collect::<Vec<_>>()[..] {
            ["line", _, item, .., candidate] => lines.push((item, candidate)),
            ["end", ..] => return Some(lines),
            ["refused", "9" | "10"] => return None,
            _ => panic!("{reply}"),
        }
    }
}

/// The item that a look-up's reply has.
fn found(reply: &str) -> Option<&str> {
    match reply {
        "[none]" => None,
        _ => Some(reply.strip_prefix("[found ").and_then(|r| r.strip_suffix(']')).expect("an item")),
    }
}

/// Pane and look-up (docs/REQUIREMENTS.md, section 2, demand 3): a name that is found is listed with its item when it is asked for in full,
/// one that is not found is not listed, and each line of everything is found.
#[test]
fn what_is_listed_is_found() {
    let mut rng = Rng::new(Rng::seed_or(29));
    // Names found and not, and with several holders; lines looked up; listings refused.
    let (mut names, mut several, mut looked_up, mut refused) = ([0; 2], [0; 2], 0, 0);
    for round in 0..120 {
        let mut model = Console::default();
        let mut made = String::new();
        for _ in 0..40 {
            let call = String::from_utf8(spell(&Form::Register(registration(&mut rng, &MIXES[round % 2])))).unwrap();
            model.reply(call.as_bytes());
            made += &(call + "\n");
        }
        let known = full_names(&model.table.names, 60);
        let texts: Vec<String> = known.iter().map(|n| String::from_utf8(concat_dots(n).to_vec()).unwrap()).collect();
        let asked: String = texts.iter().map(|text| format!("[find [{text}.]]\n[complete [{text}.]]\n")).collect();
        let output = String::from_utf8(console((made.clone() + &asked + "[complete []]\n").as_bytes())).unwrap();
        let mut replies = output.lines().skip(40);
        for (name, text) in known.iter().zip(&texts) {
            let item = found(replies.next().unwrap());
            let met = usize::from(item.is_none());
            names[met] += 1;
            several[met] += u32::from(walk(&model.table.names, name, Holder::First).meets_several());
            match listing(&mut replies) {
                None => refused += 1,
                Some(lines) => {
                    let its: Vec<&str> = lines.into_iter().filter(|(_, candidate)| candidate == text).map(|(item, _)| item).collect();
                    assert_eq!(its, Vec::from_iter(item), "{text} after\n{made}");
                }
            }
        }
        let all = listing(&mut replies).unwrap_or_default();
        let asked: String = all.iter().map(|(_, candidate)| format!("[find [{candidate}.]]\n")).collect();
        let output = String::from_utf8(console((made.clone() + &asked).as_bytes())).unwrap();
        let items: Vec<_> = output.lines().skip(40).map(found).collect();
        assert_eq!(items, all.iter().map(|(item, _)| Some(*item)).collect::<Vec<_>>(), "after\n{made}");
        looked_up += all.len();
    }
    println!("names found and not: {names:?}, with several holders: {several:?}; {looked_up} lines looked up; {refused} listings refused; 0 disagreements");
    assert!(names.iter().chain(&several).all(|&n| 100 < n) && 1000 < looked_up, "{names:?} {several:?} {looked_up}");
}

/// SCRIPTS cannot empty the random scripts.
#[test]
fn fewer_scripts_are_an_error() {
    for few in ["0", "399", "-1", "", "all", "4e3", " 400"] {
        assert!(at_least(few, 400).is_err(), "{few:?}");
    }
    assert_eq!((at_least("400", 400), at_least("10000", 400)), (Ok(400), Ok(10_000)));
}

#[test]
fn scripts_at_limits() {
    for (what, input) in limit_scripts() {
        agree(what, &input);
    }
}

#[test]
fn the_printed_session() {
    let input = b"[name [Saved.] offset 1]\n[include [Live.] [Saved.]]\n[name [Live.] offset 3]\n[find [Live.offset.]]\n[complete [Live.off.]]\n";
    let output = b"[ok 6]\n[ok 12]\n[ok 19]\n[found r3]\n[line 8 r3 [] Live.offset]\n[end 1 2]\n";
    assert_eq!(console(input), output);
    assert_eq!(console(&input[..input.len() - 1]), output);
}

#[test]
fn lines_of_every_size() {
    assert_eq!(console(b""), b"");
    assert_eq!(console(b"\n"), b"[bad]\n");
    for n in [2047, 2048, 2049, 5000, 65535, 65536, 65537, 1_000_000] {
        let mut input = b"[find [".to_vec();
        input.resize(n - 2, b'a');
        input.extend(b"]]\n[find [a.]]\n");
        agree(&format!("a line of {n} bytes"), &input);
        agree(&format!("a last line of {n} bytes"), &input[..n]);
    }
    let many = b"[find [a.]]\n".repeat(100_000);
    assert_eq!(console(&many), b"[none]\n".repeat(100_000));
}

/// Whoever types a line sees its reply before the next one is typed.
#[test]
fn replies_come_before_the_next_line() {
    use std::io::{BufRead, BufReader, Write};
    use std::process::{Command, Stdio};
    let program = concat!(env!("CARGO_MANIFEST_DIR"), "/../../target/bin/console");
    let mut run = Command::new(program).stdin(Stdio::piped()).stdout(Stdio::piped()).spawn().unwrap();
    let mut input = run.stdin.take().unwrap();
    let mut output = BufReader::new(run.stdout.take().unwrap());
    for (line, reply) in [("[name [] tick 5]\n", "[ok 3]\n"), ("[find [tick.]]\n", "[found r5]\n"), ("tick\n", "[bad]\n")] {
        input.write_all(line.as_bytes()).unwrap();
        let mut got = String::new();
        output.read_line(&mut got).unwrap();
        assert_eq!(got, reply);
    }
    drop(input);
    assert!(run.wait().unwrap().success());
}
