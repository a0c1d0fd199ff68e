//! The C layer against the independent implementation: answers, tables, lines, and every byte that a call may not change.
use layer::{choice, complete_both, find, find_module, register, Asked, Bytes, Output};
use model::gen::{completion_query, damaged_query, damaged_registration, damages, full_name, registered_memory, registration, Rng, MIXES};
use model::layout::{decode, same_table};
use model::listings::Tally;
use model::model::{self as independent, autocomplete_lid, autocomplete_mod_or_ns, shared_length, Ask, CompletionResult, Refusal, Registration, Table};

/// The table that the bytes are, or Unsound.
fn table(t: &Bytes) -> Result<Table, Refusal> {
    t.memory().ok_or(Refusal::Unsound).and_then(|m| m.table())
}

/// What a registration must answer and leave, `odd` in the place of its choice. Counts answers by number.
fn hold(t: &mut Bytes, call: &Registration, odd: Option<u32>, answers: &mut [u64; 9]) {
    let before = t.clone();
    let expected = table(&before).and_then(|old| match odd {
        Some(_) => Err(Refusal::Malformed),
        None => independent::register(&old, before.memory().unwrap().lent(), call),
    });
    let answer = register(t, call, odd);
    answers[answer as usize] += 1;
    match expected {
        Err(refusal) => {
            assert_eq!(answer, refusal.number(), "{call:?}");
            assert!(*t == before, "a refused call changed something: {call:?}");
        }
        Ok(new) => {
            assert_eq!(answer, 0, "{call:?}");
            let (old, now) = (before.memory().unwrap(), t.memory().unwrap());
            assert!(now.is_sound() && same_table(&decode(&now), &new), "another table: {call:?}");
            assert_eq!((now.header.records, now.header.text), (new.records, new.text));
            let (r, s) = (old.header.records as usize * 48, now.header.records as usize * 48);
            assert!(t.words[..r] == before.words[..r] && t.words[s..] == before.words[s..]);
            let (r, s) = (old.header.text as usize, now.header.text as usize);
            assert!(t.text[..r] == before.text[..r] && t.text[s..] == before.text[s..]);
        }
    }
}

/// A number that does not stand for what the call has a choice of, if it has one.
fn odd(rng: &mut Rng, call: &Registration) -> Option<u32> {
    let stands = match call {
        Registration::Name { .. } => 1..=3,
        _ => 0..=1,
    };
    choice(call)?;
    let any = rng.word();
    let number = *rng.pick(&[0, 2, 4, 256 + 1, u32::MAX, any]);
    (!stands.contains(&number)).then_some(number)
}

#[test]
fn registrations_and_look_ups() {
    let mut rng = Rng::new(Rng::seed_or(8));
    let mut answers = [0; 9];
    // Names and modules that are accepted but for the number in the place of their choice.
    let mut odds = [0; 2];
    for round in 0..30 {
        let mut t = Bytes::of(&registered_memory(&mut rng, 0, [40, 300, 1100][round % 3], [60, 700, 4000][round % 3]));
        // Bytes that are no whole record.
        t.words.extend((0..rng.below(48)).map(|i| i as u8));
        let mix = *rng.pick(&MIXES);
        for _ in 0..100 {
            let call = if rng.one_in(6) { damaged_registration(&mut rng, &mix) } else { registration(&mut rng, &mix) };
            let odd = if rng.one_in(10) { odd(&mut rng, &call) } else { None };
            hold(&mut t, &call, odd, &mut answers);
            if odd.is_some() && register(&mut t.clone(), &call, None) == 0 {
                odds[usize::from(matches!(call, Registration::Module { .. }))] += 1;
            }
        }
        let now = table(&t).expect("sound");
        for _ in 0..100 {
            let query = if rng.one_in(5) { damaged_query(&mut rng) } else { full_name(&mut rng) };
            assert_eq!(find(&t, &query), independent::find(&now.names, &query).map_err(|r| r.number()), "{query:?}");
            assert_eq!(find_module(&t, &query), independent::find(&now.modules, &query).map_err(|r| r.number()), "{query:?}");
        }
    }
    println!("registrations by answer (0 accepted): {answers:?}; names and modules refused for their choice: {odds:?}; 6000 look-ups; 0 disagreements");
    assert!([0, 2, 3, 4, 7, 8].iter().all(|&n| 0 < answers[n]), "{answers:?}");
    assert!(odds.iter().all(|&n| 0 < n), "{odds:?}");
}

/// What a completion must answer and leave, with and without its shared length.
fn listed<A: PartialEq + std::fmt::Debug>(
    t: &Bytes,
    asked: Asked,
    query: &[u8],
    budget: u32,
    room: (usize, usize),
    expected: Result<(Vec<CompletionResult<A>>, u32), Refusal>,
    line: impl Fn(&Output, usize) -> CompletionResult<A>,
    tally: &mut Tally,
) {
    let mut out = Output::with_room(room.0, room.1);
    let before = out.clone();
    let answer = complete_both(t, asked, query, budget, &mut out);
    let size = |l: &[CompletionResult<A>]| l.iter().map(|r| r.candidate.len() + r.annotation.len()).sum::<usize>();
    let fits = |l: &[CompletionResult<A>]| l.len() <= room.0 && size(l) <= room.1;
    let expected = expected.and_then(|(l, e)| if fits(&l) { Ok((l, e)) } else { Err(Refusal::Lines) });
    match expected {
        Err(r) => {
            tally.refused(r.number());
            assert_eq!(answer, Err(r.number()), "{asked:?} {query:?}");
        }
        Ok((lines, entered)) => {
            tally.listed(&lines);
            assert_eq!(answer, Ok((lines.len() as u32, entered, shared_length(&lines))), "{asked:?} {query:?}");
            for (k, l) in lines.iter().enumerate() {
                assert_eq!(&line(&out, k), l, "{asked:?} {query:?}");
            }
            assert!(out.lines[lines.len() * 48..] == before.lines[lines.len() * 48..]);
            let used = size(&lines);
            assert!(out.text[used..] == before.text[used..]);
        }
    }
}

fn complete_all(rng: &mut Rng, t: &Bytes, query: &[u8], tally: &mut Tally) {
    let now = table(t);
    let budget = if rng.one_in(3) { rng.below(12) as u32 } else { rng.word() };
    let room = (rng.below(30) * rng.below(30), rng.below(60) * rng.below(60));
    for ask in Ask::ALL {
        match ask {
            Ask::Names(kind) => {
                let names = now.as_ref().map_err(|&r| r).and_then(|n| autocomplete_lid(n, query, kind, budget));
                if let (None, Ok(n), Ok((lines, _))) = (kind, &now, &names) {
                    tally.all_kinds(lines);
                    tally.beside_the_source(&n.names, query, lines);
                }
                listed(t, ask.into(), query, budget, room, names, |o, k| o.name(k), tally);
            }
            Ask::Modules(f) => {
                let modules = now.as_ref().map_err(|&r| r).and_then(|n| autocomplete_mod_or_ns(n, query, f, budget));
                listed(t, ask.into(), query, budget, room, modules, |o, k| o.module(&t.text, k), tally);
            }
        }
    }
    let none = 4 + rng.word() % 0xFFFF_FFFC;
    for asked in [Asked::Names(none), Asked::Modules(none)] {
        let odd = Err(now.as_ref().map_or(Refusal::Unsound, |_| Refusal::Malformed));
        listed(t, asked, query, budget, room, odd, |o, k| o.name(k), tally);
    }
}

#[test]
fn completions() {
    let mut rng = Rng::new(Rng::seed_or(9));
    let mut tally = Tally::default();
    for round in 0..30 {
        let t = Bytes::of(&registered_memory(&mut rng, [10, 40, 100][round % 3], 1000, 8000));
        for _ in 0..20 {
            let query = if rng.one_in(8) { damaged_query(&mut rng) } else { completion_query(&mut rng) };
            complete_all(&mut rng, &t, &query, &mut tally);
        }
    }
    println!("completions: {tally:?}; 0 disagreements");
    assert!(tally.has(&[0, 2, 4, 9, 10]) && tally.has_kinds() && 0 < tally.otherwise[0], "{tally:?}");
}

#[test]
fn damaged_bytes() {
    let mut rng = Rng::new(Rng::seed_or(10));
    let (mut registered, mut tally) = ([0; 9], Tally::default());
    for _ in 0..3 {
        let memory = registered_memory(&mut rng, 8, 120, 400);
        let mix = *rng.pick(&MIXES);
        for damage in damages(&mut rng, &memory) {
            if rng.one_in(20) {
                let mut m = memory.clone();
                damage.apply(&mut m);
                let mut t = Bytes::of(&m);
                if rng.one_in(10) {
                    t.state.resize(rng.below(40), 0);
                }
                let query = completion_query(&mut rng);
                complete_all(&mut rng, &t, &query, &mut tally);
                hold(&mut t, &registration(&mut rng, &mix), None, &mut registered);
            }
        }
    }
    println!("on damaged bytes, by answer (1 Unsound): registrations {registered:?}, completions {tally:?}; 0 disagreements");
    assert!(0 < registered[0] && 0 < registered[1] && tally.has(&[0, 1]), "{registered:?} {tally:?}");
}
