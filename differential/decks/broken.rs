//! Decks most of which do not load.

use super::maker::Maker;
use super::profile::Profile;
use crate::random::Random;

/// A deck with one change, most of which load refuses.
pub fn deck(mut random: Random) -> String {
    let profile = Profile { elements: 8, ..Profile::any(&mut random) };
    let change = random.below(4);
    let seed = random.below(u64::MAX);
    let deck = Maker::new(profile, random).deck();
    let mut random = Random::new(seed);
    let mut lines: Vec<String> = deck.lines().map(|line| line.to_string() + "\n").collect();
    match change {
        0 => break_form(&mut lines, &mut random),
        1 => break_schema(&mut lines, &mut random),
        2 => break_trees(&mut lines, &mut random),
        _ => break_limits(&mut lines, &mut random),
    }
    lines.concat()
}

fn line_of(lines: &[String], kind: char, random: &mut Random) -> usize {
    let of_kind: Vec<usize> = (0..lines.len()).filter(|n| lines[*n].starts_with(kind)).collect();
    if of_kind.is_empty() { 0 } else { *random.choose(&of_kind) }
}

fn break_form(lines: &mut Vec<String>, random: &mut Random) {
    let line = random.below(lines.len() as u64) as usize;
    match random.below(8) {
        0 => lines[line] = lines[line].replacen(',', ",0", 1),
        1 => lines[line] = lines[line].replacen('\n', ",\n", 1),
        2 => lines[line] = lines[line].replacen('\n', "\r\n", 1),
        3 => lines[line] = lines[line].to_uppercase().replacen('F', "f", 1),
        4 => lines.insert(line, "\n".into()),
        5 => lines.push("E,1,3,0".into()),
        6 => lines.swap(line, 0),
        _ => lines[line] = lines[line].replacen(char::is_numeric, "4096", 1),
    }
}

fn break_schema(lines: &mut Vec<String>, random: &mut Random) {
    let row = line_of(lines, 'S', random);
    let group = line_of(lines, 'G', random);
    match random.below(6) {
        0 => lines.insert(row, lines[row].clone()),
        1 => lines.insert(group, lines[group].clone()),
        2 => lines.insert(row, "S,0,9,11,99,0,1\n".into()),
        3 => lines.insert(row, "S,0,8.8,11,0,0,1\n".into()),
        4 => {
            lines.remove(group);
        }
        _ => {
            let fields: Vec<&str> = lines[group].split(',').collect();
            let same_path = format!("S,{},{},11,0,0,1\n", fields[1], fields[2]);
            lines.insert(row, same_path);
        }
    }
}

fn break_trees(lines: &mut Vec<String>, random: &mut Random) {
    let element = line_of(lines, 'E', random);
    let tree = line_of(lines, 'B', random);
    match random.below(8) {
        0 => lines[element] = "E,1,4000,0\n".into(),
        1 => lines[element] = lines[element].replacen("E,", "E,1", 1),
        2 => lines[element] = lines[element].replacen(",0\n", ",4000000000000000\n", 1),
        3 => lines.insert(element + 1, "C,1,u,0\n".into()),
        4 => lines.push(lines[tree].clone()),
        5 => {
            lines.remove(element);
        }
        6 => lines.swap(element, element - 1),
        _ => lines.extend(lines.clone().split_off(tree)),
    }
}

fn break_limits(lines: &mut Vec<String>, random: &mut Random) {
    let element = line_of(lines, 'E', random);
    match random.below(5) {
        0 => lines[element] = format!("E,{},3,0\n", 32 + random.below(100)),
        1 => lines.insert(element + 1, "C,32,u,0\n".into()),
        2 => {
            let types = lines.iter().take_while(|line| line.starts_with('T')).count();
            lines.splice(types..types, (types..129).map(|number| format!("T,{number},0,0,0\n")));
        }
        3 => lines.extend(vec!["C,1,u,18446744073709551615\n".into(); 1_300]),
        _ => lines.extend(vec![lines[lines.len() - 1].clone(); 1_100]),
    }
}
