//! The stand-ins' schema calls and text equality, held one by one against those of the rules.

use crate::deck::{self, Deck};
use crate::difference::{Difference, same};
use crate::random::Random;
use crate::rules;
use crate::stand_ins::{AutosarVersion, CharacterData, ElementName, ElementType, schema_of, set_schema};

/// `count` of each call over the schema and the texts of a deck.
pub fn compare(deck: &[u8], count: u64) -> Result<(), Difference> {
    let (Some(read), Ok(world)) = (Deck::read(deck), rules::load(deck)) else {
        return Ok(());
    };
    let content = read.elements.iter().flat_map(|element| &element.content);
    let texts: Vec<CharacterData> = content
        .filter_map(|item| match item {
            deck::Item::Text(text) => Some(text.clone()),
            deck::Item::Element(_) => None,
        })
        .collect();
    let content = world.elements.iter().flat_map(|element| &element.content);
    let others: Vec<&rules::Text> = content
        .filter_map(|item| match item {
            rules::Item::Text(text) => Some(text),
            rules::Item::Element(_) => None,
        })
        .collect();
    let mut random = Random::new(deck.len() as u64);
    set_schema(&schema_of(read.types));
    for _ in 0..count {
        let number = random.below(world.types.len() as u64) as usize;
        of_type(ElementType(number), &world.types[number], &mut random)?;
        if !others.is_empty() && texts.len() == others.len() {
            let (a, b) = (random.below(texts.len() as u64) as usize, random.below(texts.len() as u64) as usize);
            of_texts((&texts[a], &texts[b]), (others[a], others[b]))?;
        }
    }
    Ok(())
}

fn of_type(element_type: ElementType, rules: &rules::Type, random: &mut Random) -> Result<(), Difference> {
    let call = |call: String| format!("type {}: {call}", element_type.0);
    let version = random.below(32);
    same(
        "schema: splittable_in",
        &call(format!("splittable_in({version})")),
        element_type.splittable_in(AutosarVersion::ALL[version as usize]).to_string(),
        rules.splittable_in(version).to_string(),
    )?;
    same(
        "schema: mode and named",
        &call("content_mode, is_named".into()),
        format!("{:?}, {}", element_type.content_mode(), element_type.is_named()),
        format!("{:?}, {}", rules.mode(), rules.named),
    )?;
    if rules.rows.is_empty() {
        return Ok(());
    }
    let name = match random.below(8) {
        0 => random.below(4096),
        _ => random.choose(&rules.rows).name,
    };
    let mask = match random.below(4) {
        0 => u64::from(u32::MAX),
        1 => random.below(1 << 32),
        _ => 1 << version,
    };
    let row = element_type.find_sub_element(ElementName(name as u16), mask as u32);
    same(
        "schema: find_sub_element",
        &call(format!("find_sub_element({name}, {mask:x})")),
        format!("{:?}", row.map(|(child, path)| (child.0, path))),
        format!("{:?}", rules.find_sub_element(name, mask).map(|row| (row.child, &row.path))),
    )?;
    let (a, b) = (random.choose(&rules.rows), random.choose(&rules.rows));
    let indices = |row: &rules::Row| -> Vec<usize> { row.path.iter().map(|part| usize::from(*part)).collect() };
    let mode = element_type.find_common_group(&indices(a), &indices(b)).map(|group| group.content_mode());
    same(
        "schema: find_common_group",
        &call(format!("find_common_group({:?}, {:?})", a.path, b.path)),
        format!("{mode:?}"),
        format!("{:?}", Some(rules.find_common_group(&a.path, &b.path).mode)),
    )?;
    let mult = element_type.get_sub_element_multiplicity(&indices(a)).map(|mult| mult as u64);
    same(
        "schema: multiplicity",
        &call(format!("get_sub_element_multiplicity({:?})", a.path)),
        format!("{mult:?}"),
        format!("{:?}", Some(a.mult)),
    )
}

fn of_texts(ours: (&CharacterData, &CharacterData), rules: (&rules::Text, &rules::Text)) -> Result<(), Difference> {
    same(
        "schema: text equality",
        &format!("{} and {}", ours.0.fields(), ours.1.fields()),
        (ours.0 == ours.1).to_string(),
        rules::texts_equal(rules.0, rules.1).to_string(),
    )
}

/// Every two of some texts that a deck seldom has.
pub fn compare_texts() -> Result<(), Difference> {
    let floats = [
        0,
        1 << 63,
        1,
        0x3ff0_0000_0000_0000,
        0x7ff0_0000_0000_0000,
        0xfff0_0000_0000_0000,
        0x7ff0_0000_0000_0001,
        0x7ff8_0000_0000_0000,
        0xfff8_0000_0000_0000,
        u64::MAX,
    ];
    let mut texts: Vec<(CharacterData, rules::Text)> = Vec::new();
    for bits in floats {
        texts.push((CharacterData::Float(f64::from_bits(bits)), rules::Text::Float(bits)));
        texts.push((CharacterData::UnsignedInteger(bits), rules::Text::Whole(bits)));
        texts.push((CharacterData::Enum(bits as u16), rules::Text::Enum(u64::from(bits as u16))));
        let string = bits.to_string();
        texts.push((CharacterData::String(string.clone()), rules::Text::String(string.into_bytes())));
    }
    for (a, a_of_rules) in &texts {
        for (b, b_of_rules) in &texts {
            of_texts((a, b), (a_of_rules, b_of_rules))?;
        }
    }
    Ok(())
}
