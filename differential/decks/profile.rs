//! What decks are made by.

use crate::random::Random;

/// Numbers are percentages where nothing else is said.
pub struct Profile {
    /// Types that have children, the root's apart.
    pub containers: u64,
    /// Rows whose elements have texts alone.
    pub leaves: u64,
    /// The modes of types, each as often as it stands here.
    pub modes: &'static [u8],
    pub inner_groups: u64,
    pub named: u64,
    pub defined: u64,
    /// Keys that are missing or have no string.
    pub keyless: u64,
    /// Missing keys that a delivery brings.
    pub delivered_keys: u64,
    /// Rows of keys that may be behind others.
    pub late_keys: u64,
    /// How many different strings keys have.
    pub keys: u64,
    /// Rows of mult 2.
    pub any_number: u64,
    pub splittable: u64,
    /// Rows that leave versions out.
    pub partial_masks: u64,
    /// Types that are splittable in some versions only.
    pub partial_splits: u64,
    /// How many versions the files have.
    pub versions: u64,
    /// Lists that have an element anywhere.
    pub wild: u64,
    /// Lists of bags and mixed elements that are in any order.
    pub shuffled: u64,
    /// Elements of the model that have a set.
    pub own_sets: u64,
    /// Changes of a delivered element.
    pub edits: u64,
    /// How many files the model has.
    pub loaded: u64,
    /// How many deliveries there are.
    pub waiting: u64,
    /// How many elements the model has at most.
    pub elements: u64,
    /// The depth of the deepest element.
    pub depth: usize,
    /// A chain of elements down to depth 31.
    pub spine: bool,
}

impl Profile {
    pub fn any(random: &mut Random) -> Profile {
        Profile {
            containers: *random.choose(&[1, 2, 3, 4]),
            leaves: 50,
            modes: *random.choose::<&[u8]>(&[&[0], &[0, 0, 1], &[0, 1, 2, 3], &[2, 2, 0], &[3, 0], &[0, 0, 0, 2]]),
            inner_groups: *random.choose(&[0, 0, 20, 40]),
            named: *random.choose(&[0, 30, 70]),
            defined: *random.choose(&[0, 0, 30, 70]),
            keyless: *random.choose(&[0, 4, 25]),
            delivered_keys: 0,
            late_keys: *random.choose(&[0, 20]),
            keys: *random.choose(&[2, 4, 8, 20]),
            any_number: *random.choose(&[20, 50, 90]),
            splittable: *random.choose(&[0, 50, 100]),
            partial_masks: *random.choose(&[0, 0, 0, 8, 25]),
            partial_splits: *random.choose(&[0, 0, 30]),
            versions: *random.choose(&[1, 2, 3]),
            wild: *random.choose(&[0, 0, 5, 20]),
            shuffled: *random.choose(&[0, 0, 30]),
            own_sets: *random.choose(&[0, 10, 40]),
            edits: *random.choose(&[2, 8, 20]),
            loaded: *random.choose(&[1, 1, 2, 3]),
            waiting: *random.choose(&[1, 1, 2, 3]),
            elements: *random.choose(&[3, 6, 10, 20, 40]),
            depth: *random.choose(&[2, 3, 5, 8]),
            spine: false,
        }
    }

    /// Several deliveries that differ little.
    pub fn deliveries(random: &mut Random) -> Profile {
        Profile {
            keyless: 0,
            keys: 20,
            any_number: 90,
            splittable: 100,
            partial_masks: 0,
            wild: 0,
            edits: *random.choose(&[2, 5, 10]),
            waiting: *random.choose(&[2, 3, 4, 4, 7]),
            ..Profile::any(random)
        }
    }

    /// Elements that are paired without a key, and in which there is little room.
    pub fn conflicts(random: &mut Random) -> Profile {
        Profile {
            modes: *random.choose::<&[u8]>(&[&[0], &[0, 1], &[1]]),
            named: *random.choose(&[0, 0, 20]),
            defined: *random.choose(&[0, 0, 20]),
            any_number: *random.choose(&[20, 40, 60]),
            splittable: *random.choose(&[30, 60]),
            partial_masks: *random.choose(&[0, 0, 20]),
            edits: *random.choose(&[5, 10]),
            depth: *random.choose(&[3, 5, 8]),
            ..Profile::any(random)
        }
    }

    /// Keys that are missing in the model and come with a delivery.
    pub fn delivered_keys(random: &mut Random) -> Profile {
        Profile {
            modes: *random.choose::<&[u8]>(&[&[0], &[0, 2], &[0, 1, 2, 3]]),
            named: *random.choose(&[0, 60, 100]),
            defined: *random.choose(&[0, 60, 100]),
            keyless: *random.choose(&[60, 90]),
            delivered_keys: 50,
            any_number: *random.choose(&[0, 20]),
            splittable: 100,
            partial_masks: 0,
            edits: *random.choose(&[10, 20]),
            ..Profile::any(random)
        }
    }

    /// Few keys, in lists of any order.
    pub fn shuffled_keys(random: &mut Random) -> Profile {
        Profile {
            containers: 2,
            leaves: 20,
            modes: *random.choose::<&[u8]>(&[&[2], &[3], &[2, 0]]),
            named: *random.choose(&[0, 100]),
            defined: 100,
            keyless: *random.choose(&[0, 20, 50]),
            keys: *random.choose(&[3, 8]),
            any_number: 90,
            splittable: 100,
            partial_masks: 0,
            shuffled: 70,
            edits: *random.choose(&[5, 10]),
            elements: *random.choose(&[10, 20, 40]),
            ..Profile::any(random)
        }
    }

    /// Sequences with groups, in whose lists elements stand anywhere.
    pub fn disorder(random: &mut Random) -> Profile {
        Profile {
            modes: &[0],
            inner_groups: *random.choose(&[20, 50]),
            named: 0,
            defined: 0,
            any_number: *random.choose(&[40, 80]),
            splittable: 100,
            wild: 80,
            edits: *random.choose(&[8, 20]),
            ..Profile::any(random)
        }
    }

    /// Names that are not known in every version.
    pub fn versions(random: &mut Random) -> Profile {
        Profile {
            modes: *random.choose::<&[u8]>(&[&[2, 1], &[2, 0], &[0, 1]]),
            named: *random.choose(&[0, 0, 50]),
            defined: 0,
            keys: 8,
            any_number: *random.choose(&[20, 50]),
            splittable: 100,
            partial_masks: *random.choose(&[0, 20, 40]),
            partial_splits: *random.choose(&[0, 60]),
            versions: *random.choose(&[2, 3]),
            edits: *random.choose(&[8, 20]),
            ..Profile::any(random)
        }
    }

    pub fn deep(random: &mut Random) -> Profile {
        Profile {
            edits: *random.choose(&[0, 1, 2]),
            waiting: *random.choose(&[1, 2]),
            keyless: 0,
            partial_masks: 0,
            elements: 90,
            depth: 31,
            spine: true,
            ..Profile::any(random)
        }
    }

    pub fn large(random: &mut Random) -> Profile {
        Profile {
            edits: *random.choose(&[1, 3]),
            keys: 200,
            any_number: 90,
            waiting: *random.choose(&[1, 2]),
            elements: *random.choose(&[300, 400]),
            depth: 8,
            ..Profile::any(random)
        }
    }
}
