//! The example writes what the cases of docs/REQUIREMENTS.md say of these tables.
#[path = "../examples/session.rs"]
mod example;

#[test]
fn the_example() {
    let mut written = Vec::new();
    example::session(&mut written).unwrap();
    let expected = "\
39 records, 61 bytes of text
Live.offset. is r3
Live.late. is not there
Live.offset is refused: 2 Malformed: a query does not end in a dot, or a byte is not allowed at its place
all kinds:
tick t5 []
Live.offset r3 []
Saved.late r2 []
Saved.offset r1 []
timers:
tick t5 []
IO (ns)
IO.Bus (mod) io/bus
";
    assert_eq!(String::from_utf8(written).unwrap(), expected);
}
