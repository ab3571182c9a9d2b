//! All small decks of a few kinds.

/// One deck after the other, kind by kind.
pub fn small() -> impl Iterator<Item = Vec<u8>> {
    let kinds = [
        one_level,
        named,
        named_in_modes,
        named_and_others,
        definitions,
        definitions_and_texts,
        texts,
        two_texts,
        mixed,
        groups,
        conflicts,
        passed_up,
        keys_imported,
        versions,
        sets,
    ];
    kinds.into_iter().flat_map(|kind| kind()).map(String::into_bytes)
}

/// All lists of at most `most` of the given lines, one string for each list.
fn lists(lines: &[&str], most: u32) -> Vec<String> {
    let mut all = vec![String::new()];
    let mut longest = all.clone();
    for _ in 0..most {
        longest = longest.iter().flat_map(|list| lines.iter().map(move |line| format!("{list}{line}"))).collect();
        all.extend(longest.clone());
    }
    all
}

/// A model of file 0 and a delivery of file 1, both of version 0.
fn deck(schema: &str, model: &str, delivery: &str) -> String {
    format!("{schema}F,0,0\nF,1,0\nM\nE,0,0,1\n{model}B,1\nE,0,0,0\n{delivery}")
}

/// Every two of all lists.
fn all_pairs(schema: &str, lines: &[&str], most: u32) -> Vec<String> {
    let lists = lists(lines, most);
    lists.iter().flat_map(|model| lists.iter().map(move |delivery| deck(schema, model, delivery))).collect()
}

/// Every combination of one number of each range.
fn combinations<const N: usize>(ends: [u64; N]) -> impl Iterator<Item = [u64; N]> {
    (0..ends.iter().product()).map(move |mut rest: u64| {
        ends.map(|end| {
            let number = rest % end;
            rest /= end;
            number
        })
    })
}

/// Up to three elements of two names on each side; every mode; every mult of the first name, 0 and 2 of the second.
fn one_level() -> Vec<String> {
    let of = |[mode, first, second]: [u64; 3]| {
        let schema = format!("T,0,{mode},0,0\nT,1,4,0,0\nS,0,0,3,1,{first},1\nS,0,1,4,1,{},1\n", 2 * second);
        all_pairs(&schema, &["E,1,3,0\n", "E,1,4,0\n"], 3)
    };
    combinations([4, 3, 2]).flat_map(of).collect()
}

/// Up to three elements with a SHORT-NAME on each side, of two item names and without one. Their type is named, their parent
/// splittable or not; or their type is not named.
fn named() -> Vec<String> {
    let of = |(named, split)| {
        let schema = format!("T,0,0,0,{split}\nT,1,0,{named},0\nT,2,4,0,0\nS,0,0,3,1,2,1\nS,1,0,1,2,1,1\n");
        let elements = ["E,1,3,0\nE,2,1,0\nC,3,s,x\n", "E,1,3,0\nE,2,1,0\nC,3,s,y\n", "E,1,3,0\nE,2,1,0\n"];
        all_pairs(&schema, &elements, 3)
    };
    [(1, 0), (1, 1), (0, 0)].into_iter().flat_map(of).collect()
}

/// Up to two elements with a SHORT-NAME on each side, of two item names, or with a text before the SHORT-NAME; every mode,
/// mult 0 and 2, splittable or not.
fn named_in_modes() -> Vec<String> {
    let of = |[mode, mult, split]: [u64; 3]| {
        let mult = 2 * mult;
        let schema = format!("T,0,{mode},0,{split}\nT,1,3,1,0\nT,2,4,0,0\nS,0,0,3,1,{mult},1\nS,1,0,1,2,1,1\n");
        let elements =
            ["E,1,3,0\nE,2,1,0\nC,3,s,x\n", "E,1,3,0\nE,2,1,0\nC,3,s,y\n", "E,1,3,0\nC,2,u,0\nE,2,1,0\nC,3,s,x\n"];
        all_pairs(&schema, &elements, 2)
    };
    combinations([4, 2, 2]).flat_map(of).collect()
}

/// Up to three elements in a bag on each side: named ones of two item names, and one of another name and a greater path.
fn named_and_others() -> Vec<String> {
    let schema = "T,0,2,0,1\nT,1,0,1,0\nT,2,4,0,0\nS,0,0,3,1,2,1\nS,0,1,4,2,2,1\nS,1,0,1,2,1,1\n";
    all_pairs(schema, &["E,1,3,0\nE,2,1,0\nC,3,s,x\n", "E,1,3,0\nE,2,1,0\nC,3,s,y\n", "E,1,4,0\n"], 3)
}

/// Up to three elements on each side, of two definitions and without one.
fn definitions() -> Vec<String> {
    let schema = "T,0,0,0,0\nT,1,0,0,0\nT,2,4,0,0\nS,0,0,3,1,2,1\nS,1,0,2,2,1,1\n";
    all_pairs(schema, &["E,1,3,0\nE,2,2,0\nC,3,s,d\n", "E,1,3,0\nE,2,2,0\nC,3,s,e\n", "E,1,3,0\n"], 3)
}

/// Up to two elements on each side: of two definitions, with a DEFINITION-REF without a string before one that has it, and of
/// two texts without a definition; a sequence or a bag.
fn definitions_and_texts() -> Vec<String> {
    let of = |mode| {
        let schema = format!("T,0,{mode},0,0\nT,1,3,0,0\nT,2,4,0,0\nS,0,0,3,1,2,1\nS,1,0,2,2,1,1\n");
        let elements = [
            "E,1,3,0\nE,2,2,0\nC,3,s,d\n",
            "E,1,3,0\nE,2,2,0\nC,3,s,e\n",
            "E,1,3,0\nE,2,2,0\nE,2,2,0\nC,3,s,d\n",
            "E,1,3,0\nC,2,u,0\n",
            "E,1,3,0\nC,2,u,1\n",
        ];
        all_pairs(&schema, &elements, 2)
    };
    [0, 2].into_iter().flat_map(of).collect()
}

/// Up to three elements of two texts on each side; every mode, mult 0 and 2.
fn texts() -> Vec<String> {
    let of = |[mode, mult]: [u64; 2]| {
        let schema = format!("T,0,{mode},0,0\nT,1,4,0,0\nS,0,0,3,1,{},1\n", 2 * mult);
        all_pairs(&schema, &["E,1,3,0\nC,2,u,0\n", "E,1,3,0\nC,2,u,1\n"], 3)
    };
    combinations([4, 2]).flat_map(of).collect()
}

/// Each text against each: all kinds, NaN and zeros, no text and two.
fn two_texts() -> Vec<String> {
    let floats = ["0", "8000000000000000", "1", "3ff0000000000000", "7ff0000000000000", "fff0000000000000"];
    let nans = ["7ff0000000000001", "7ff8000000000000", "fff8000000000000", "ffffffffffffffff"];
    let floats = floats.iter().chain(&nans).map(|bits| format!("C,2,f,{bits}\n"));
    let others = ["e,0", "e,1", "s,", "s,0", "s,a", "s,A", "u,0", "u,1", "u,18446744073709551615"];
    let others = others.iter().map(|text| format!("C,2,{text}\n"));
    let lists = [String::new(), "C,2,u,0\nC,2,u,0\n".to_string()];
    let all: Vec<String> = floats.chain(others).chain(lists).map(|text| format!("E,1,3,0\n{text}")).collect();
    let schema = "T,0,2,0,0\nT,1,4,0,0\nS,0,0,3,1,2,1\n";
    all.iter().flat_map(|a| all.iter().map(move |b| deck(schema, a, b))).collect()
}

/// Up to three items of mixed content on each side: a text and elements of two names.
fn mixed() -> Vec<String> {
    let schema = "T,0,3,0,0\nT,1,4,0,0\nS,0,0,3,1,2,1\nS,0,1,4,1,2,1\n";
    all_pairs(schema, &["C,1,u,0\n", "E,1,3,0\n", "E,1,4,0\n"], 3)
}

/// A sequence with an inner group of every mode between two names; up to two elements on each side, mult 0 and 2.
fn groups() -> Vec<String> {
    let of = |[mode, mult]: [u64; 2]| {
        let mult = 2 * mult;
        let schema = format!(
            "T,0,0,0,0\nT,1,4,0,0\nG,0,1,{mode}\nS,0,0,3,1,{mult},1\nS,0,1.0,4,1,{mult},1\nS,0,1.1,5,1,{mult},1\n\
             S,0,2,6,1,{mult},1\n"
        );
        all_pairs(&schema, &["E,1,3,0\n", "E,1,4,0\n", "E,1,5,0\n", "E,1,6,0\n"], 2)
    };
    combinations([4, 2]).flat_map(of).collect()
}

/// An element on each side with up to two children of two names, in a sequence or a choice of mult 0 or 2. It has no key, a
/// SHORT-NAME or a DEFINITION-REF; its parent has every mode (if mixed, a text first), mult 0 or 2, and is splittable or not.
fn conflicts() -> Vec<String> {
    let of = |[outer, outer_mult, split, inner, inner_mult, key]: [u64; 6]| {
        let (outer_mult, mult) = (2 * outer_mult, 2 * inner_mult);
        let schema = format!(
            "T,0,{outer},0,{split}\nT,1,{inner},1,0\nT,2,4,0,0\nS,0,0,3,1,{outer_mult},1\nS,1,0,1,2,2,1\nS,1,1,2,2,2,1\n\
             S,1,2,4,2,{mult},1\nS,1,3,5,2,{mult},1\n"
        );
        let text = if outer == 3 { "C,1,u,0\n" } else { "" };
        let key = ["", "E,2,1,0\nC,3,s,k\n", "E,2,2,0\nC,3,s,k\n"][key as usize];
        let lists = lists(&["E,2,4,0\n", "E,2,5,0\n"], 2);
        let all: Vec<String> = lists.iter().map(|list| format!("{text}E,1,3,0\n{key}{list}")).collect();
        all.iter().flat_map(|a| all.iter().map(|b| deck(&schema, a, b))).collect::<Vec<_>>()
    };
    combinations([4, 2, 2, 2, 2, 3]).flat_map(of).collect()
}

/// Three levels below the root a conflict, or an item name that is not found. Each level is splittable or not, the upper two
/// of mult 0 or 2; the upper element has no key or one, a set or none, and before the conflict an import or none.
fn passed_up() -> Vec<String> {
    let of = |[splits, upper, middle, key, set, import, named]: [u64; 7]| {
        let (a, b, c) = (splits & 1, splits >> 1 & 1, splits >> 2);
        let (upper, middle) = (2 * upper, 2 * middle);
        let schema = format!(
            "T,0,2,0,{a}\nT,1,0,1,{b}\nT,2,0,0,{c}\nT,3,1,0,0\nT,4,4,0,0\nT,5,0,1,0\nS,0,0,3,1,{upper},1\nS,1,0,1,4,0,1\n\
             S,1,1,2,4,0,1\nS,1,2,7,4,2,1\nS,1,3,4,2,{middle},1\nS,2,0,5,3,2,1\nS,3,0,6,4,0,1\nS,3,1,8,5,2,1\nS,5,0,1,4,0,1\n"
        );
        let key = ["", "E,2,1,0\nC,3,s,k\n", "E,2,2,0\nC,3,s,k\n"][key as usize];
        let import = ["", "E,2,7,0\n"][import as usize];
        let below = ["E,2,4,0\nE,3,5,0\nE,4,6,0\nC,5,s,", "E,2,4,0\nE,3,5,0\nE,4,8,0\nE,5,1,0\nC,6,s,"][named as usize];
        deck(&schema, &format!("E,1,3,{set}\n{key}{below}x\n"), &format!("E,1,3,0\n{key}{import}{below}y\n"))
    };
    combinations([8, 2, 2, 3, 2, 2, 2]).map(of).collect()
}

/// A pair that conflicts in its own list, or one level deeper behind an import. Each side has a SHORT-NAME, a DEFINITION-REF,
/// both or none, with or without a string, before all children or behind the imported one; every mode, splittable or not.
fn keys_imported() -> Vec<String> {
    let keys = ["", "E,2,1,0\n", "E,2,1,0\nC,3,s,k\n", "E,2,2,0\n", "E,2,2,0\nC,3,s,k\n", "E,2,1,0\nE,2,2,0\n"];
    let of = |[mode, split, late, deeper, a, b]: [u64; 6]| {
        let (first, second) = if late == 0 { (0, 1) } else { (3, 4) };
        let schema = format!(
            "T,0,2,0,1\nT,1,{mode},1,{split}\nT,2,1,0,0\nT,3,4,0,0\nS,0,0,3,1,2,1\nS,1,{first},1,3,2,1\nS,1,{second},2,3,2,1\n\
             S,1,2,4,3,0,1\nS,1,5,5,2,0,1\nS,2,0,6,3,0,1\n"
        );
        let side = |key: u64, text: u64| {
            let (before, behind) = match (deeper, text) {
                (0, _) => (format!("E,2,4,0\nC,3,u,{text}\n"), String::new()),
                (_, 0) => (String::new(), "E,2,5,0\nE,3,6,0\nC,4,u,0\n".to_string()),
                _ => ("E,2,4,0\n".to_string(), "E,2,5,0\nE,3,6,0\nC,4,u,1\n".to_string()),
            };
            let keys = keys[key as usize];
            if late == 0 {
                format!("E,1,3,0\n{keys}{before}{behind}")
            } else {
                format!("E,1,3,0\n{before}{keys}{behind}")
            }
        };
        deck(&schema, &side(a, 0), &side(b, 1))
    };
    combinations([4, 2, 2, 2, 6, 6]).map(of).collect()
}

/// Both files of version 0 or 1, every mask of the row and every split over these; a new element, one of another item name,
/// and a conflict below a pair.
fn versions() -> Vec<String> {
    let of = |[old, new, mask, split, case]: [u64; 5]| {
        let mask = mask + 1;
        let schema = format!(
            "T,0,2,0,{split}\nT,1,0,1,0\nT,2,4,0,0\nS,0,0,3,1,2,{mask}\nS,1,0,1,2,0,3\nS,1,1,4,2,0,3\nF,0,{old}\nF,1,{new}\n"
        );
        let (model, delivery) = [
            ("", "E,1,3,0\n"),
            ("E,1,3,0\nE,2,1,0\nC,3,s,x\n", "E,1,3,0\nE,2,1,0\nC,3,s,y\n"),
            ("E,1,3,0\nE,2,4,0\nC,3,u,0\n", "E,1,3,0\nE,2,4,0\nC,3,u,1\n"),
        ][case as usize];
        format!("{schema}M\nE,0,0,1\n{model}B,1\nE,0,0,0\n{delivery}")
    };
    combinations([2, 2, 3, 4, 3]).map(of).collect()
}

/// Two loaded files and two deliveries. An element and its child have every set; a delivery has both, the element alone, the
/// element with another child, both of these or nothing.
fn sets() -> Vec<String> {
    let schema = "T,0,2,0,1\nT,1,0,0,1\nT,2,4,0,0\nS,0,0,3,1,2,1\nS,1,0,4,2,0,1\nF,0,0\nF,1,0\nF,2,0\nF,3,0\n";
    let (same, other) = ("E,1,3,0\nE,2,4,0\nC,3,u,0\n", "E,1,3,0\nE,2,4,0\nC,3,u,1\n");
    let both = format!("{same}{other}");
    let trees = [same, other, &both, "E,1,3,0\n", ""];
    let of = |[outer, inner, first, second]: [u64; 4]| {
        let (first, second) = (trees[first as usize], trees[second as usize]);
        let model = format!("E,1,3,{outer}\nE,2,4,{inner}\nC,3,u,0\n");
        format!("{schema}M\nE,0,0,3\n{model}B,2\nE,0,0,0\n{first}B,3\nE,0,0,0\n{second}")
    };
    combinations([4, 4, 5, 5]).map(of).collect()
}
