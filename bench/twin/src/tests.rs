//! The worked listing, and cases at the edges of the rules.

use crate::trace::{run, Fault};

/// Two Sets of axis 0 reach two members in different orders; beside each step its record.
const LISTING: &str = "\
O,2,9,,1,,   1,0,,
S,0,,3,1,0,5 2,0,1,
S,1,,3,1,0,8 3,0,2,
H,1,1,,,,    4,0,1,0
H,1,2,,,,    5,0,2,1
H,0,2,,,,    6,0,2,0
G,0,2,,,,    7,0,2,
G,1,2,,,,    8,0,2,1
T,0,2,,,,    9,0,2,1
R,0,,,,,     10,0,2,1
H,0,1,,,,    11,0,1,2
G,0,1,,,,    12,0,1,
G,1,1,,,,    13,0,1,2
T,1,2,,,,    14,0,2,1
R,1,,,,,     15,13,,
T,1,1,,,,    16,0,1,2
R,1,,,,,     17,0,2,1
R,1,,,,,     18,0,1,2
T,0,1,,,,    19,0,1,2
R,0,,,,,     20,0,1,2";

fn fault(number: u8, record: usize, offset: usize) -> Option<Fault> {
    Some(Fault { number, record, offset })
}

/// The last record of a step in the trace of these steps, one a line.
fn last(steps: &str) -> String {
    let (trace, fault) = run(steps.trim().replace('\n', "\r\n").as_bytes(), 65_536);
    assert_eq!(fault, None);
    let step = trace.lines().rfind(|record| !record.starts_with('C'));
    step.unwrap_or_default().split_once(',').unwrap_or_default().1.to_string()
}

#[test]
fn listing() {
    let halves = || LISTING.lines().map(|row| row.split_once(' ').unwrap());
    let script: String = halves().map(|(step, _)| format!("{step}\r\n")).collect();
    let mut trace: String = halves().map(|(_, record)| format!("{}\r\n", record.trim())).collect();
    for (member, cell) in (0..2).flat_map(|member| (0..8).map(move |cell| (member, cell))) {
        trace += &format!("C,{member},{cell},{}\r\n", if cell == 0 { 5 } else { 0 });
    }
    assert_eq!(run(script.as_bytes(), 65_536), (trace.clone(), None));
    assert_eq!(run(script.trim_end().as_bytes(), 65_536), (trace, None));
}

#[test]
fn limits_of_open() {
    assert_eq!(last("O,16,281474976710656,,3,,"), "0,,");
    assert_eq!(last("O,0,9,,1,,"), "2,,");
    assert_eq!(last("O,17,9,,1,,"), "2,,");
    assert_eq!(last("O,1,0,,1,,"), "3,,");
    assert_eq!(last("O,1,281474976710657,,1,,"), "3,,");
    assert_eq!(last("O,0,9,,1,,\nR,3,,,,,"), "4,,");
    assert_eq!(last("O,2,9,,1,,\nR,2,,,,,"), "5,,");
}

#[test]
fn memory_of_a_member() {
    let open = "O,1,99,,1,,\n";
    let heard = |command: &str, from: usize, count: usize| -> String {
        (from..from + count).map(|i| format!("S,0,,1,{command}\nH,0,{i},,,,\n")).collect()
    };
    assert_eq!(last(&(open.to_string() + &heard("4,7,", 1, 16))), "0,16,0");
    assert_eq!(last(&(open.to_string() + &heard("4,7,", 1, 17))), "0,17,1");
    assert_eq!(last(&(open.to_string() + &heard("2,0,1", 1, 2))), "0,2,0");
    assert_eq!(last(&(open.to_string() + &heard("2,0,1", 1, 2) + &heard("1,0,1", 3, 1))), "0,3,1");
}

#[test]
fn settle_with_a_full_memory() {
    // Number 1 reaches member 1 at clock 1; member 0 hears it at 0, is at 1 then with 16 others.
    let mut steps =
        "O,2,99,,1,,\nS,0,,3,4,0,\nS,0,,2,1,0,0\nS,0,,2,1,0,0\nH,1,2,,,,\nH,1,3,,,,\n".to_string();
    steps += "H,0,1,,,,\nH,1,1,,,,\nG,0,1,,,,\nG,1,1,,,,\nS,0,,1,1,1,0\nS,0,,1,1,1,0\nH,0,4,,,,\nH,0,5,,,,\n";
    for number in 6..21 {
        steps += &format!("S,0,,1,4,0,\nH,0,{number},,,,\n");
    }
    assert_eq!(last(&steps), "0,20,1");
    steps += "T,0,1,,,,\n";
    assert_eq!(last(&steps), "0,1,2");
    // The memory is empty afterwards: what conflicts with number 5 proposes the same clock.
    assert_eq!(last(&(steps + "S,0,,1,1,1,0\nH,0,21,,,,")), "0,21,2");
}

#[test]
fn texts() {
    let of = |script: &str| run(script.as_bytes(), 65_536);
    assert_eq!(of(""), (String::new(), None));
    assert_eq!(of("\r\n"), (String::new(), fault(22, 1, 0)));
    assert_eq!(of("\"R\",\"0\",,\"\",,,\r\n"), ("1,4,,\r\n".to_string(), None));
    assert_eq!(of("R,0,,,,,\r\n\r\n"), ("1,4,,\r\n".to_string(), fault(22, 2, 10)));
    assert_eq!(of("R,0,,,,,\r"), (String::new(), fault(21, 1, 8)));
    assert_eq!(of("R,0,,,,,\n"), (String::new(), fault(21, 1, 8)));
    assert_eq!(of("R, \"0\",,,,,"), (String::new(), fault(21, 1, 3)));
    assert_eq!(of("R,\"0\" ,,,,,"), (String::new(), fault(21, 1, 5)));
    assert_eq!(of("R,\"0,,,,,\r\n"), (String::new(), fault(21, 1, 2)));
    assert_eq!(of("x\"\r\n"), (String::new(), fault(21, 1, 1)));
    assert_eq!(of("r,0,,,,,"), (String::new(), fault(23, 1, 0)));
    assert_eq!(of("R,00,,,,,"), (String::new(), fault(24, 1, 2)));
    assert_eq!(of("R,+1,,,,,"), (String::new(), fault(24, 1, 2)));
    assert_eq!(of("R,256,,,,,"), (String::new(), fault(24, 1, 2)));
    assert_eq!(of("H,0,1000000000000000,,,,"), (String::new(), fault(24, 1, 4)));
    assert_eq!(of("H,0,99999999999999999999,,,,"), (String::new(), fault(24, 1, 4)));
    assert_eq!(of("S,0,,1,5,x,x"), (String::new(), fault(24, 1, 7)));
    assert_eq!(of("S,0,,1,4,1,0"), (String::new(), fault(25, 1, 11)));
    assert_eq!(of(&" ".repeat(65_537)), (String::new(), fault(20, 0, 0)));
}

#[test]
fn room_in_the_trace() {
    let script = b"O,1,9,,3,,\r\nR,0,,,,,\r\n";
    let steps = "1,0,,\r\n2,13,,\r\n";
    assert_eq!(run(script, 47), (String::new(), fault(26, 1, 0)));
    assert_eq!(run(script, 48), ("1,0,,\r\n".to_string(), fault(26, 2, 12)));
    assert_eq!(run(script, 55), (steps.to_string(), fault(26, 0, 22)));
    assert_eq!(run(script, 63), (format!("{steps}C,0,0,0\r\n"), fault(26, 0, 22)));
    assert_eq!(run(script, 90).1, None);
    assert_eq!(run(b"", 0), (String::new(), None));
}

#[test]
fn examples() {
    let folder = concat!(env!("CARGO_MANIFEST_DIR"), "/../../examples");
    for name in ["two_axes", "bottling", "refusals", "fault"] {
        let read = |end| std::fs::read(format!("{folder}/{name}.{end}")).unwrap();
        let (trace, fault) = run(&read("csv"), 65_536);
        let output = trace + &fault.map_or(String::new(), Fault::line);
        assert_eq!(output.as_bytes(), read("trace"), "{name}");
    }
}
