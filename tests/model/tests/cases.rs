//! The printed session and the 13 cases of the requirements.

mod common;
use common::*;
use model::model::*;
use model::script;

#[test]
fn printed_session() {
    let input = b"[name [Saved.] offset 1]\n[include [Live.] [Saved.]]\n[name [Live.] offset 3]\n\
        [find [Live.offset.]]\n[complete [Live.off.]]\n";
    let output = b"[ok 6]\n[ok 12]\n[ok 19]\n[found r3]\n[line 8 r3 [] Live.offset]\n[end 1 2]\n";
    assert_eq!(script::run(input), output);
    assert_eq!(script::run(&input[..input.len() - 1]), output);
}

/// The program model-console itself.
#[test]
fn a_session_by_the_program() {
    use std::io::Write;
    use std::process::{Command, Stdio};
    let mut program = Command::new(env!("CARGO_BIN_EXE_model-console"))
        .stdin(Stdio::piped())
        .stdout(Stdio::piped())
        .spawn()
        .unwrap();
    let input = b"[name [Saved.] offset 1]\n[find [Saved.offset.]]\n[find]";
    program.stdin.take().unwrap().write_all(input).unwrap();
    let output = program.wait_with_output().unwrap();
    assert!(output.status.success());
    assert_eq!(output.stdout, b"[ok 6]\n[found r1]\n[bad]\n");
}

fn line(text: &str, number: u32, length: i32, annotation: &str) -> (String, Item, i32, String) {
    (text.into(), r(number), length, annotation.into())
}

#[test]
fn case_1() {
    let mut both = Both::fresh(10, 10);
    assert_eq!(both.register(&name("", "tick", 5)), Ok(3));
    assert_eq!(both.find("tick."), Ok(Some(r(5))));
}

#[test]
fn case_2() {
    let both = Both::t();
    assert_eq!((both.table.records, both.table.text), (26, 44));
    assert_eq!((both.memory.header.records, both.memory.header.text), (26, 44));
}

#[test]
fn case_3() {
    let both = Both::t();
    assert_eq!(both.find("Live.late."), Ok(None));
    assert_eq!(both.find("Saved.late."), Ok(Some(r(2))));
}

#[test]
fn case_4() {
    assert_eq!(Both::t().find("Live.offset."), Ok(Some(r(3))));
}

#[test]
fn case_5() {
    assert_eq!(Both::t().complete("Live.off."), Ok((vec![line("Live.offset", 3, 8, "")], 2)));
}

#[test]
fn cases_6_and_7() {
    for (query, length) in [("", -1), (".", 0)] {
        let lines = vec![
            line("Live.offset", 3, length, ""),
            line("Saved.late", 2, length, ""),
            line("Saved.offset", 1, length, ""),
        ];
        assert_eq!(Both::t().complete(query), Ok((lines, 3)));
    }
}

#[test]
fn case_8() {
    let mut both = Both::t();
    assert_eq!(both.register(&alias("K", "Live.", "Saved.")), Ok(35));
    assert_eq!(both.find("Live.K.late."), Ok(Some(r(2))));
}

#[test]
fn case_9() {
    let mut both = Both::t();
    both.register(&include("", "Saved.")).unwrap();
    let (lines, _) = both.complete("off.").unwrap();
    assert_eq!(lines, [line("offset", 1, 3, "Saved")]);
}

#[test]
fn case_10() {
    let mut both = Both::fresh(20, 20);
    assert_eq!(both.register(&module(false, "IO.Bus.", "io/bus")), Ok(10));
    let lines = vec![
        ("IO".to_string(), 'n', 1, "(ns)".to_string()),
        ("IO.Bus".to_string(), 'm', 1, "(mod)".to_string()),
    ];
    assert_eq!(both.modules("I.", Filter::All), Ok((lines, 3)));
}

#[test]
fn case_11() {
    for (length, number) in [(31, None), (32, Some(4))] {
        let long = "n".repeat(length);
        let answer = Both::fresh(20, 100).register(&name("", &long, 1));
        assert_eq!(answer.err().map(Refusal::number), number);
        let answer = Both::fresh(20, 100).register(&name(&format!("{long}."), "a", 1));
        assert_eq!(answer.err().map(Refusal::number), number);
    }
    for (segments, number) in [(16, None), (17, Some(6)), (18, Some(4))] {
        let answer = Both::fresh(100, 100).register(&name(&"s.".repeat(segments), "a", 1));
        assert_eq!(answer.err().map(Refusal::number), number);
    }
}

#[test]
fn case_12() {
    for (records, text, answer) in [
        (2, 10, Err(Refusal::Full)),
        (3, 10, Ok(3)),
        (10, 3, Err(Refusal::TextFull)),
        (10, 4, Ok(3)),
        (2, 3, Err(Refusal::Full)),
        (3, 4, Ok(3)),
    ] {
        assert_eq!(Both::fresh(records, text).register(&name("", "tick", 5)), answer);
    }
    // Whole records count: 35 words are two of them.
    let call = name("", "tick", 5);
    let with_words = |words| register(&Table::default(), Lent { words, text: 4 }, &call);
    assert_eq!(with_words(35).err(), Some(Refusal::Full));
    assert_eq!(with_words(36).map(|table| table.records), Ok(3));
}

#[test]
fn case_13() {
    let both = Both::t();
    let mut text = vec![b'x'; 20];
    let mut run = |budget, lines: &mut [Line<Item>]| {
        let answer = complete_names(&both.table, b"Live.off.", None, budget, lines, &mut text);
        (answer.map_err(Refusal::number), text.clone())
    };
    let mut lines = blank_lines(2, r(0));
    assert_eq!(run(1, &mut lines), (Err(9), vec![b'x'; 20]));
    assert_eq!(lines, blank_lines(2, r(0)));
    assert_eq!(run(2, &mut []), (Err(10), vec![b'x'; 20]));
    // Both rows apply: the lower number.
    assert_eq!(run(1, &mut []), (Err(9), vec![b'x'; 20]));
    let (answer, text) = run(2, &mut lines);
    assert_eq!(answer, Ok(Listed { lines: 1, entered: 2 }));
    assert_eq!(text, b"Live.offsetxxxxxxxxx");
    let span = |start, length| Span { start, length };
    assert_eq!(
        lines[0],
        Line { match_length: 8, item: r(3), candidate: span(0, 11), annotation: span(11, 0) }
    );
    assert_eq!(lines[1..], blank_lines(1, r(0)));
}
