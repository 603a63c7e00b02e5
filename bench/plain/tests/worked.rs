//! Worked values of the documents, through the commands of a trace.

use plain::trace::Trace;

const SHEET: &str = "new change topcut bottomcut\n0 1 4 3\n\ntemplate kind field offset width\n\
    9 empty security 0 8\n\
    50 order security 0 8\n50 order action 8 1\n50 order side 9 1\n50 order position 10 4\n50 order price 14 8\n\
    50 order size 22 8\n50 order oid 30 8\n50 order firm 38 4\n\
    52 mass security 0 8\n52 mass action 8 1\n52 mass side 9 1\n52 mass position 10 4\n\
    30 header security 0 8\n30 header last 8 4\n30 header bids 12 2\n30 header offers 14 2\n30 header stats 16 1\n";

fn hex(bytes: &[u8]) -> String {
    bytes.iter().map(|byte| format!("{byte:02x}")).collect()
}

/// A message of a template, with its block.
fn message(template: u16, block: &[u8]) -> Vec<u8> {
    let words = [12 + block.len() as u16, 0xEB50, block.len() as u16, template, 2, 0];
    words.iter().flat_map(|word| word.to_le_bytes()).chain(block.iter().copied()).collect()
}

/// A packet of channel 55 with one message.
fn packet(version: u16, number: u32, message: &[u8]) -> String {
    let mut bytes = vec![55, 0];
    bytes.extend(version.to_le_bytes());
    bytes.extend(number.to_le_bytes());
    bytes.extend([0; 8]);
    bytes.extend(message);
    hex(&bytes)
}

/// An order, or a cut, of instrument 7.
fn edit(template: u16, action: u8, side: u8, position: u32, rest: &[u8]) -> Vec<u8> {
    let mut block = 7u64.to_le_bytes().to_vec();
    block.extend([action, side]);
    block.extend(position.to_le_bytes());
    block.extend(rest);
    message(template, &block)
}

/// A new bid with that price.
fn bid(position: u32, price: i64) -> Vec<u8> {
    let mut rest = price.to_le_bytes().to_vec();
    rest.extend([0; 20]);
    edit(50, 0, 48, position, &rest)
}

/// The answers to commands, one a line, behind those to the sheet, a store and an opening.
fn answers(commands: &[String]) -> Vec<String> {
    let mut trace = Trace::new();
    let first = [format!("sheet {}", hex(SHEET.as_bytes())), "store orders 8 64".into(), "open 1 55 1 7".into()];
    let all = first.iter().chain(commands).map(|line| match trace.answer(line.as_bytes()) {
        Some(Ok(answer)) => answer,
        Some(Err(refusal)) => format!("refused {refusal}"),
        None => "what".into(),
    });
    let all: Vec<String> = all.collect();
    assert_eq!(all[..3], ["sheet 4", "store 3", "opened"]);
    all[3..].to_vec()
}

/// A packet with nothing of interest in it.
fn quiet(number: u32) -> String {
    format!("inc {}", packet(1, number, &message(2, &[])))
}

#[test]
fn sizes_are_refused() {
    let commands = [15, 16, 17, 1401].map(|size| format!("check {}", hex(&vec![0; size])));
    assert_eq!(answers(&commands), ["refused 1 size frame 0", "refused 2 empty frame 16", "refused 3 torn frame 16", "refused 1 size frame 0"]);
}

#[test]
fn a_number_32_behind_is_late() {
    assert_eq!(answers(&[quiet(33), quiet(1), quiet(2)]), ["taken", "refused 12 late stream 4", "taken"]);
}

#[test]
fn a_book_33_behind_is_stale() {
    let ask = || "ask 7".to_string();
    assert_eq!(answers(&[quiet(1), quiet(34), ask()])[2], "stale 0 34");
    assert_eq!(answers(&[quiet(1), quiet(2), quiet(34), ask()])[3], "recovering 2 34");
}

#[test]
fn what_waits_is_taken_once_the_gap_is_filled() {
    let ask = || "ask 7".to_string();
    assert_eq!(answers(&[quiet(2), ask(), quiet(1), ask(), quiet(2)]), ["taken", "recovering 0 2", "taken", "current 2 2", "repeat"]);
}

#[test]
fn snapshots_are_adopted_unless_too_old() {
    for (last, standing) in [(670u32, "stale 0 703"), (671, "recovering 671 703"), (710, "current 710 710")] {
        let mut block = 7u64.to_le_bytes().to_vec();
        block.extend(last.to_le_bytes());
        block.extend([0; 5]);
        let snapshot = format!("snap {}", packet(9, 1, &message(30, &block)));
        assert_eq!(answers(&[quiet(703), "join".into(), snapshot, "ask 7".into()])[3], standing);
    }
}

#[test]
fn orders_move_by_position() {
    let edits = [bid(1, 1), bid(2, 2), bid(3, 3), bid(2, 4), edit(52, 4, 48, 2, &[]), edit(52, 3, 48, 2, &[])];
    let mut commands = Vec::new();
    for (index, one) in edits.iter().enumerate() {
        commands.push(format!("inc {}", packet(1, index as u32 + 1, one)));
        commands.push("bids 7".into());
    }
    let shown = answers(&commands);
    assert_eq!(shown[7], "bids 4 1,0,0,0 4,0,0,0 2,0,0,0 3,0,0,0");
    assert_eq!(shown[9], "bids 2 2,0,0,0 3,0,0,0");
    assert_eq!(shown[11], "bids 1 2,0,0,0");
}

#[test]
fn a_misfit_makes_a_book_stale_and_fresh() {
    let taken = [(1, bid(1, 1)), (2, bid(3, 2))].map(|(number, one)| format!("inc {}", packet(1, number, &one)));
    let commands = [taken.to_vec(), vec!["ask 7".into(), "bids 7".into()]].concat();
    assert_eq!(answers(&commands), ["taken", "taken", "stale 0 2", "bids 0"]);
}

#[test]
fn a_sheet_is_refused_at_its_first_wrong_line() {
    let mut trace = Trace::new();
    for (from, to, line) in [("0 1 4 3", "0 1 4 4", 2), ("50 order firm 38 4\n", "", 13), ("30 header stats 16 1\n", "", 22), (" 38 4", " 38 8", 13)] {
        let text = SHEET.replace(from, to);
        let refusal = trace.answer(format!("sheet {}", hex(text.as_bytes())).as_bytes()).unwrap().unwrap_err();
        assert_eq!(refusal.to_string(), format!("17 sheet sheet {line}"));
    }
}
