use crate::ffi;

/// The room of the first part.
const FIRST_PART: usize = 1 << 16;

/// The whole text: `print` writes the bytes from a place on, as many as there is room for, and gives their count. It makes
/// the text anew for each part, so each part is twice as large as the one before.
pub(crate) fn whole(mut print: impl FnMut(usize, &mut [u8]) -> usize) -> String {
    let mut text = Vec::new();
    let mut part = vec![0; FIRST_PART];
    loop {
        let count = print(text.len(), &mut part);
        text.extend_from_slice(part.get(..count).unwrap_or_default());
        if count != part.len() {
            // All that is printed is ASCII.
            return String::from_utf8_lossy(&text).into_owned();
        }
        part.resize(2 * count, 0);
    }
}

/// What the program prints for a deck: each waiting delivery merged in the order of the deck, an answer for each, and then
/// the model; or the refusal of the deck.
///
/// ```
/// assert_eq!(zapelaritz::output("T,0,0,0,0\nF,0,0\nM\nE,0,0,1\n"), "E,0,0,1\n");
/// assert_eq!(zapelaritz::output("M\n"), "deck,3,1\n");
/// ```
pub fn output(deck: impl AsRef<[u8]>) -> String {
    whole(|from, part| ffi::print_output(deck.as_ref(), from, part))
}

/// What the program prints for a deck and a list of calls, one to a line; `docs/DECK.md` describes them.
///
/// ```
/// let deck = "T,0,0,0,0\nF,0,0\nM\nE,0,0,1\n";
/// let calls = "merge,1\nrollback,0\nmodel\n";
/// assert_eq!(
///     zapelaritz::calls_output(deck, calls),
///     "refused,1,5,-,-\nrolledback,0,0\nE,0,0,1\n"
/// );
/// ```
pub fn calls_output(deck: impl AsRef<[u8]>, calls: impl AsRef<[u8]>) -> String {
    whole(|from, part| ffi::print_calls(deck.as_ref(), calls.as_ref(), from, part))
}

/// The version of the linked library as a number: 200 for 0.2.0.
///
/// ```
/// assert_eq!(zapelaritz::version(), 200);
/// ```
pub fn version() -> u64 {
    ffi::version()
}

#[cfg(test)]
mod tests {
    use super::*;

    /// Parts end at these lengths.
    #[test]
    fn texts_of_any_length() {
        let ends = [FIRST_PART, 3 * FIRST_PART, 7 * FIRST_PART];
        for length in ends.into_iter().flat_map(|end| end - 1..=end + 1) {
            let text: String = (0..length).map(|i| char::from(i as u8 % 95 + 32)).collect();
            let printed = whole(|from, part| {
                let rest = &text.as_bytes()[from..];
                let count = rest.len().min(part.len());
                part[..count].copy_from_slice(&rest[..count]);
                count
            });
            assert!(printed == text, "{length} bytes");
        }
    }

    #[test]
    fn no_text() {
        assert_eq!(whole(|_, _| 0), "");
        // A count above the room ends it too.
        assert_eq!(whole(|_, _| usize::MAX), "");
    }

    /// Two digits for each part behind the first.
    #[test]
    fn version_is_the_packages() {
        let parts: Vec<u64> = env!("CARGO_PKG_VERSION")
            .split('.')
            .map(|part| part.parse().unwrap())
            .collect();
        let [major, minor, patch] = parts[..] else {
            panic!("{parts:?}");
        };
        assert_eq!(version(), 10_000 * major + 100 * minor + patch);
    }
}
