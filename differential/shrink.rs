//! The smallest deck that still shows something: lines are taken out as long as it does.

pub fn shrink(deck: &[u8], shows: impl Fn(&[u8]) -> bool) -> Vec<u8> {
    let mut lines: Vec<&[u8]> = deck.split_inclusive(|byte| *byte == b'\n').collect();
    let mut size = lines.len();
    while size > 0 {
        let before = lines.len();
        let mut place = 0;
        while place < lines.len() {
            let mut fewer = lines.clone();
            fewer.drain(place..(place + size).min(lines.len()));
            if shows(&fewer.concat()) {
                lines = fewer;
            } else {
                place += size;
            }
        }
        if size > 1 || lines.len() == before {
            size /= 2;
        }
    }
    lines.concat()
}
