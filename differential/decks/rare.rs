//! Decks for cases that others seldom meet.

use std::fmt::Write;

use crate::random::Random;

/// Deliveries whose entries come to about 1,024. Three of them conflict with each element of name 3, so that both are kept;
/// the fourth has empty elements of name 3, each of which restricts a value and extends a set; the last one is imported.
pub fn full_log(mut random: Random) -> String {
    let conflicting = 40 + random.below(45);
    let entries = 6 * conflicting + 3;
    let room = 1_018 - 8 * conflicting;
    let empty = (4 * conflicting).min(room).min(300 + random.below(40));
    let target: u64 = *random.choose(&[1_024, 1_025, 1_025, 1_026, 1_030]);
    let wanted = target.saturating_sub(entries + 2 * empty + 2);
    let imported = wanted.min(room - empty);
    let with_empty = random.below(2);
    let mut lines = "T,0,2,0,1\nT,1,1,0,0\nT,2,4,0,0\nS,0,0,3,1,2,1\nS,0,1,4,2,2,1\nS,1,0,5,2,0,1\n".to_string();
    lines += "F,0,0\nF,1,0\nF,2,0\nF,3,0\nF,4,0\nF,5,0\nM\nE,0,0,1\n";
    for tree in 0..4 {
        if tree > 0 {
            let _ = write!(lines, "B,{tree}\nE,0,0,0\n");
        }
        lines += &format!("E,1,3,0\nE,2,5,0\nC,3,u,{tree}\n").repeat(conflicting as usize);
    }
    lines += "B,4\nE,0,0,0\n";
    lines += &"E,1,3,0\n".repeat(empty as usize);
    lines += &"E,1,4,0\n".repeat(with_empty as usize);
    lines += "B,5\nE,0,0,0\n";
    lines += &"E,1,4,0\n".repeat(imported.saturating_sub(with_empty) as usize);
    lines
}

/// Lists of about 2,048 items, to which a delivery adds some.
pub fn full_content(mut random: Random) -> String {
    let delivered = 1 + random.below(8);
    let texts = 2_048 - delivered - random.below(8);
    let mut lines = "T,0,3,0,1\nS,0,0,3,0,2,1\nF,0,0\nF,1,0\nM\nE,0,0,1\n".to_string();
    lines += &"C,1,u,0\n".repeat(texts as usize);
    lines += "B,1\nE,0,0,0\n";
    lines += &"E,1,3,0\n".repeat(delivered as usize);
    lines
}

/// A SHORT-NAME without a string, before which a delivery brings an element, and a conflict below it.
pub fn hidden_key(mut random: Random) -> String {
    let mut number = |end: u64| random.below(end);
    let mut lines = format!("T,0,2,0,{}\nT,1,{},1,{}\n", number(2), 2 + number(2), number(2));
    lines += &format!("T,2,{},0,{}\nT,3,4,0,0\n", number(2), number(2));
    lines += "S,0,0,3,1,2,1\nS,1,0,4,3,2,1\nS,1,1,1,3,2,1\nS,1,2,5,2,2,1\nS,2,0,6,3,0,1\nF,0,0\nF,1,0\nM\nE,0,0,1\n";
    for _ in 0..1 + number(3) {
        lines += "E,1,3,0\nE,2,1,0\nE,2,5,0\nE,3,6,0\nC,4,u,0\n";
    }
    lines += "B,1\nE,0,0,0\n";
    for _ in 0..1 + number(3) {
        lines += ["E,1,3,0\nE,2,4,0\n", "E,1,3,0\nE,2,4,0\nE,2,1,0\n", "E,1,3,0\nE,2,1,0\n"][number(3) as usize];
        lines += &format!("E,2,5,0\nE,3,6,0\nC,4,u,{}\n", number(2));
    }
    lines
}
