//! Decks for the run: one for each seed, and all small ones of a few kinds.

mod broken;
mod maker;
mod profile;
mod rare;
mod small;

use crate::random::Random;
use maker::Maker;
use profile::Profile;

pub use small::small;

/// A deck for a seed. More than 97 in 100 load.
pub fn deck(seed: u64) -> Vec<u8> {
    let mut random = Random::new(seed);
    let profile = match random.below(1000) {
        0..26 => return broken::deck(random).into_bytes(),
        26..41 => return rare::full_log(random).into_bytes(),
        41..46 => return rare::full_content(random).into_bytes(),
        46..56 => return rare::hidden_key(random).into_bytes(),
        56..63 => Profile::large(&mut random),
        63..83 => Profile::deep(&mut random),
        83..173 => Profile::delivered_keys(&mut random),
        173..303 => Profile::shuffled_keys(&mut random),
        303..453 => Profile::disorder(&mut random),
        453..553 => Profile::versions(&mut random),
        553..653 => Profile::conflicts(&mut random),
        653..753 => Profile::deliveries(&mut random),
        _ => Profile::any(&mut random),
    };
    Maker::new(profile, random).deck().into_bytes()
}
