//! A deck from a profile: a schema, a model that mostly follows it, and deliveries that are edited copies.

use std::fmt::Write;
use std::rc::Rc;

use super::profile::Profile;
use crate::random::Random;

const SHORT_NAME: u64 = 1;
const DEFINITION_REF: u64 = 2;

const SEQUENCE: u8 = 0;
const CHOICE: u8 = 1;
const BAG: u8 = 2;
const MIXED: u8 = 3;
const CHARACTERS: u8 = 4;

// ---- Schema

struct Row {
    path: Vec<u64>,
    name: u64,
    child: usize,
    mult: u64,
    mask: u64,
}

enum Slot {
    /// By its place among the rows.
    Row(usize),
    Group(u8, Vec<Slot>),
}

struct Type {
    mode: u8,
    named: bool,
    split: u64,
    groups: Vec<(Vec<u64>, u8)>,
    rows: Vec<Row>,
    slots: Vec<Slot>,
}

// ---- Trees

#[derive(Clone)]
enum Part {
    Node(Node),
    Text(String),
}

#[derive(Clone)]
struct Node {
    name: u64,
    of_type: usize,
    set: u64,
    content: Vec<Part>,
}

struct File {
    number: u64,
    version: u64,
    waits: bool,
}

pub struct Maker {
    random: Random,
    profile: Profile,
    versions: Vec<u64>,
    texts: &'static [&'static str],
    types: Rc<Vec<Type>>,
    /// How many elements may still be made.
    left: u64,
}

const TEXTS: [&[&str]; 6] = [
    &["u,0", "u,1"],
    &["s,a", "s,b", "s,", "s,a b"],
    &["f,7ff8000000000000", "f,7ff8000000000001", "f,fff8000000000000", "f,7ff0000000000001"],
    &["f,0", "f,8000000000000000", "f,3ff0000000000000", "f,7ff0000000000000"],
    &["e,0", "e,65535", "u,0", "f,0", "s,0"],
    &["u,18446744073709551615", "s,q", "f,7ff8000000000000", "f,ffffffffffffffff", "f,0", "f,8000000000000000"],
];

const ELEMENT_LIMIT: u64 = 1_024;
const DEPTH_LIMIT: usize = 31;
const SPINE: u64 = 3;

impl Maker {
    pub fn new(profile: Profile, mut random: Random) -> Maker {
        let base = *random.choose(&[0, 3, 28, 29]);
        Maker {
            versions: (base..base + profile.versions).collect(),
            texts: *random.choose(&TEXTS),
            random,
            profile,
            types: Rc::default(),
            left: 0,
        }
    }

    fn chance(&mut self, percent: u64) -> bool {
        self.random.below(100) < percent
    }

    /// A place in a list of this length, or its end.
    fn place(&mut self, length: usize) -> usize {
        self.random.below(length as u64 + 1) as usize
    }

    pub fn deck(mut self) -> String {
        self.types = Rc::new((0..self.profile.containers as usize + 3).map(|n| self.make_type(n)).collect());
        let files = self.make_files();
        let model = self.make_model(&files);
        let trees = self.make_trees(&files, &model);
        let mut lines = String::new();
        write_schema(&self.types, &mut lines);
        for file in &files {
            let _ = writeln!(lines, "F,{},{}", file.number, file.version);
        }
        lines += "M\n";
        write_tree(&model, 0, true, &mut lines);
        for (file, tree) in trees {
            let _ = writeln!(lines, "B,{file}");
            write_tree(&tree, 0, false, &mut lines);
        }
        lines
    }

    /// Type 0 is the root's; behind the containers stand a type of characters and a mixed one without rows.
    fn make_type(&mut self, number: usize) -> Type {
        let containers = self.profile.containers as usize;
        let mode = match number {
            _ if number == containers + 1 => CHARACTERS,
            _ if number == containers + 2 => MIXED,
            0 if self.chance(60) => *self.random.choose(&[SEQUENCE, BAG, MIXED]),
            _ => *self.random.choose(self.profile.modes),
        };
        let mut made = Type { mode, named: false, split: 0, groups: vec![], rows: vec![], slots: vec![] };
        if number <= containers {
            made.named = self.chance(self.profile.named);
            made.split = if self.chance(self.profile.splittable) { self.mask(self.profile.partial_splits) } else { 0 };
            let names = self.names(made.named);
            let any_number = if number == 0 { self.profile.any_number.max(80) } else { self.profile.any_number };
            let rows: Vec<Row> = names.into_iter().map(|name| self.row(name, any_number)).collect();
            made.slots = self.arrange(rows, &[], &mut made.groups, &mut made.rows);
        }
        made
    }

    fn mask(&mut self, partial: u64) -> u64 {
        let all = *self.random.choose(&[0xffff_ffff, self.versions.iter().map(|version| 1 << version).sum()]);
        let one = 1 << *self.random.choose(&self.versions);
        match self.random.below(100) {
            n if n >= partial => all,
            n if n % 2 == 0 || all == one => one,
            _ => all & !one,
        }
    }

    /// The names of a type's rows in the order of their paths.
    fn names(&mut self, named: bool) -> Vec<u64> {
        let mut names: Vec<u64> = (SPINE + 1..10).filter(|_| self.random.below(2) == 0).collect();
        if self.profile.spine || self.chance(50) {
            let place = self.place(names.len());
            names.insert(place, SPINE);
        }
        if self.chance(10) {
            names.reverse();
        }
        if self.chance(self.profile.defined) {
            let place = self.key_place(names.len());
            names.insert(place, DEFINITION_REF);
        }
        if named || self.chance(5) {
            let place = self.key_place(names.len());
            names.insert(place, SHORT_NAME);
        }
        names
    }

    fn key_place(&mut self, length: usize) -> usize {
        if self.chance(self.profile.late_keys) { self.place(length) } else { 0 }
    }

    fn row(&mut self, name: u64, any_number: u64) -> Row {
        let containers = self.profile.containers as usize;
        let (characters, mixed) = (containers + 1, containers + 2);
        let container = 1 + self.random.below(self.profile.containers) as usize;
        let leaves = if is_key(name) { 92 } else { self.profile.leaves };
        let child = match self.random.below(100) {
            _ if self.profile.spine && name == SPINE => 1,
            n if n < leaves => characters,
            96.. => mixed,
            _ => container,
        };
        let mult = if self.chance(any_number) { 2 } else { self.random.below(2) };
        Row { path: vec![], name, child, mult, mask: self.mask(self.profile.partial_masks) }
    }

    /// Gives rows their paths below a path, some of them in inner groups.
    fn arrange(
        &mut self,
        rows: Vec<Row>,
        path: &[u64],
        groups: &mut Vec<(Vec<u64>, u8)>,
        placed: &mut Vec<Row>,
    ) -> Vec<Slot> {
        let (first, step) = *self.random.choose(&[(0, 1), (0, 1), (3, 7), (249, 1)]);
        let mut slots = vec![];
        let mut rows = rows.into_iter();
        while let Some(mut row) = rows.next() {
            let path = [path, &[first + step * slots.len() as u64]].concat();
            if path.len() < 4 && self.chance(self.profile.inner_groups) && slots.len() < 6 {
                let mode = *self.random.choose(&[SEQUENCE, SEQUENCE, CHOICE, CHOICE, BAG, MIXED]);
                let members = [row].into_iter().chain(rows.by_ref().take(1 + self.place(2))).collect();
                groups.push((path.clone(), mode));
                slots.push(Slot::Group(mode, self.arrange(members, &path, groups, placed)));
            } else {
                row.path = path;
                slots.push(Slot::Row(placed.len()));
                placed.push(row);
            }
        }
        slots
    }

    fn make_files(&mut self) -> Vec<File> {
        let count = self.profile.loaded + self.profile.waiting;
        let numbers: Vec<u64> = match self.random.below(4) {
            0 => (64 - count..64).collect(),
            1 => (0..count).map(|n| n * 5 + 1).collect(),
            _ => (0..count).collect(),
        };
        let mut waiting = self.profile.waiting;
        let mut files = vec![];
        for (done, number) in numbers.into_iter().enumerate() {
            let waits = self.random.below(count - done as u64) < waiting;
            waiting -= u64::from(waits);
            files.push(File { number, version: *self.random.choose(&self.versions), waits });
        }
        files
    }

    fn make_model(&mut self, files: &[File]) -> Node {
        let loaded = files.iter().filter(|file| !file.waits).map(|file| 1 << file.number).sum();
        self.left = self.profile.elements;
        let mut model = Node { name: 0, of_type: 0, set: loaded, content: self.content(0, 0) };
        for part in &mut model.content {
            self.give_sets(part, loaded);
        }
        model
    }

    fn give_sets(&mut self, part: &mut Part, loaded: u64) {
        let Part::Node(node) = part else {
            return;
        };
        if self.chance(self.profile.own_sets) {
            node.set = loaded & *self.random.choose(&[u64::MAX, 0x5555_5555_5555_5555, 0xaaaa_aaaa_aaaa_aaaa]);
        }
        for part in &mut node.content {
            self.give_sets(part, loaded);
        }
    }

    /// Each is an edited copy of the model or of the tree before it.
    fn make_trees(&mut self, files: &[File], model: &Node) -> Vec<(u64, Node)> {
        let mut room = ELEMENT_LIMIT - count(model);
        let mut trees: Vec<(u64, Node)> = vec![];
        let mut waiting: Vec<&File> = files.iter().filter(|file| file.waits).collect();
        if self.chance(30) {
            waiting.reverse();
        }
        for file in waiting {
            if room == 0 {
                break;
            }
            self.left = (room - 1).min(2 * self.profile.elements + 10);
            let tree = match trees.last() {
                Some((_, tree)) if self.chance(50) => self.edit(tree, 0),
                _ => self.edit(model, 0),
            };
            room -= count(&tree);
            trees.push((file.number, tree));
        }
        trees
    }

    fn content(&mut self, of_type: usize, depth: usize) -> Vec<Part> {
        let types = Rc::clone(&self.types);
        let owner = &types[of_type];
        let mut content = self.fill(owner, owner.mode, &owner.slots, depth);
        if self.chance(self.profile.wild) && !owner.rows.is_empty() {
            let row = self.random.choose(&owner.rows);
            self.put_anywhere(&mut content, row, depth);
        }
        for row in &owner.rows {
            let spine = self.profile.spine && row.name == SPINE;
            let key = is_key(row.name) && !self.chance(self.profile.keyless / 2);
            if spine || key {
                self.put(owner, &mut content, row, depth);
            }
        }
        if owner.mode == MIXED {
            self.mix_texts(&mut content, depth);
        }
        self.shuffle(owner, &mut content);
        content
    }

    /// A new child where the order of paths has it.
    fn put(&mut self, owner: &Type, content: &mut Vec<Part>, row: &Row, depth: usize) {
        let place = place_of(owner, content, &row.path);
        content.splice(place..place, self.grow(row, depth + 1));
    }

    /// A new child at any place.
    fn put_anywhere(&mut self, content: &mut Vec<Part>, row: &Row, depth: usize) {
        let place = self.place(content.len());
        content.splice(place..place, self.grow(row, depth + 1));
    }

    fn shuffle(&mut self, owner: &Type, content: &mut [Part]) {
        if matches!(owner.mode, BAG | MIXED) && self.chance(self.profile.shuffled) {
            for last in (1..content.len()).rev() {
                content.swap(last, self.place(last));
            }
        }
    }

    fn mix_texts(&mut self, content: &mut Vec<Part>, depth: usize) {
        for _ in 0..self.random.below(3) {
            if depth < DEPTH_LIMIT {
                let place = self.place(content.len());
                content.insert(place, Part::Text(self.text()));
            }
        }
    }

    /// Content of a group as its mode has it. Keys are left out.
    fn fill(&mut self, owner: &Type, mode: u8, slots: &[Slot], depth: usize) -> Vec<Part> {
        if slots.is_empty() {
            return vec![];
        }
        match mode {
            SEQUENCE => slots.iter().flat_map(|slot| self.fill_slot(owner, slot, depth)).collect(),
            CHOICE => {
                let slot = self.random.choose(slots);
                self.fill_slot(owner, slot, depth)
            }
            _ => {
                let mut content = vec![];
                for _ in 0..self.random.below(4) + u64::from(depth == 0) {
                    let slot = self.random.choose(slots);
                    content.extend(self.fill_slot(owner, slot, depth));
                }
                content
            }
        }
    }

    fn fill_slot(&mut self, owner: &Type, slot: &Slot, depth: usize) -> Vec<Part> {
        let row = match slot {
            Slot::Group(mode, slots) => return self.fill(owner, *mode, slots, depth),
            Slot::Row(row) => &owner.rows[*row],
        };
        let spine = self.profile.spine && (row.name == SPINE || row.child <= self.profile.containers as usize);
        if spine || is_key(row.name) {
            return vec![];
        }
        let most = if self.profile.spine || row.mult < 2 { 2 } else { 4 };
        let least = if depth == 0 && row.mult == 2 { 1 } else { 0 };
        (0..least + self.random.below(most)).flat_map(|_| self.grow(row, depth + 1)).collect()
    }

    fn grow(&mut self, row: &Row, depth: usize) -> Option<Part> {
        if self.left == 0 || depth > self.profile.depth {
            return None;
        }
        self.left -= 1;
        let content = if self.types[row.child].mode == CHARACTERS && depth < DEPTH_LIMIT {
            self.characters(row.name)
        } else {
            self.content(row.child, depth)
        };
        Some(Part::Node(Node { name: row.name, of_type: row.child, set: 0, content }))
    }

    fn characters(&mut self, name: u64) -> Vec<Part> {
        let key = is_key(name);
        let odd = if key { self.profile.keyless } else { 8 };
        if !self.chance(odd) {
            return vec![Part::Text(if key { self.key() } else { self.text() })];
        }
        (0..self.random.below(3)).map(|_| Part::Text(self.text())).collect()
    }

    fn key(&mut self) -> String {
        format!("s,k{}", self.random.below(self.profile.keys))
    }

    fn text(&mut self) -> String {
        (*self.random.choose(self.texts)).to_string()
    }

    /// A copy with changes: elements dropped, doubled, added and exchanged, texts changed.
    fn edit(&mut self, node: &Node, depth: usize) -> Node {
        let edits = self.profile.edits;
        let types = Rc::clone(&self.types);
        let owner = &types[node.of_type];
        let mut content = vec![];
        for part in &node.content {
            match part {
                Part::Text(_) if self.chance(edits) => content.push(Part::Text(self.changed_text(node.name))),
                Part::Text(text) => content.push(Part::Text(text.clone())),
                Part::Node(child) => content.extend(self.edit_child(child, depth + 1)),
            }
        }
        for row in owner.rows.iter().filter(|row| is_key(row.name)) {
            if !has(&content, row.name) && self.chance(self.profile.delivered_keys) {
                self.put(owner, &mut content, row, depth);
            }
        }
        if self.chance(2 * edits) && !owner.rows.is_empty() {
            let row = self.random.choose(&owner.rows);
            match self.chance(80) {
                true => self.put(owner, &mut content, row, depth),
                false => self.put_anywhere(&mut content, row, depth),
            }
        }
        self.shuffle(owner, &mut content);
        if self.chance(edits) && !content.is_empty() {
            let (a, b) = (self.place(content.len() - 1), self.place(content.len() - 1));
            content.swap(a, b);
        }
        Node { name: node.name, of_type: node.of_type, set: 0, content }
    }

    fn edit_child(&mut self, child: &Node, depth: usize) -> Vec<Part> {
        let edits = self.profile.edits;
        let copies = match self.random.below(400) {
            n if n < 4 * edits => 0,
            n if n < 5 * edits => 2,
            _ => 1,
        };
        let mut parts = vec![];
        for _ in 0..copies {
            if self.left > 0 {
                self.left -= 1;
                parts.push(Part::Node(self.edit(child, depth)));
            }
        }
        parts
    }

    fn changed_text(&mut self, name: u64) -> String {
        if is_key(name) {
            return self.key();
        }
        self.text()
    }
}

fn is_key(name: u64) -> bool {
    matches!(name, SHORT_NAME | DEFINITION_REF)
}

fn has(content: &[Part], name: u64) -> bool {
    content.iter().any(|part| matches!(part, Part::Node(node) if node.name == name))
}

/// The place before the first child of a greater path.
fn place_of(owner: &Type, content: &[Part], path: &[u64]) -> usize {
    let greater = |part: &Part| match part {
        Part::Text(_) => false,
        Part::Node(node) => owner.rows.iter().any(|row| row.name == node.name && row.path[..] > *path),
    };
    content.iter().position(greater).unwrap_or(content.len())
}

fn count(node: &Node) -> u64 {
    let below = node.content.iter().map(|part| match part {
        Part::Node(child) => count(child),
        Part::Text(_) => 0,
    });
    1 + below.sum::<u64>()
}

// ---- Lines

fn dotted(path: &[u64]) -> String {
    path.iter().map(u64::to_string).collect::<Vec<_>>().join(".")
}

fn write_schema(types: &[Type], lines: &mut String) {
    for (number, Type { mode, named, split, .. }) in types.iter().enumerate() {
        let _ = writeln!(lines, "T,{number},{mode},{},{split:x}", u8::from(*named));
    }
    for (number, owner) in types.iter().enumerate() {
        for (path, mode) in &owner.groups {
            let _ = writeln!(lines, "G,{number},{},{mode}", dotted(path));
        }
    }
    for (number, owner) in types.iter().enumerate() {
        for Row { path, name, child, mult, mask } in &owner.rows {
            let _ = writeln!(lines, "S,{number},{},{name},{child},{mult},{mask:x}", dotted(path));
        }
    }
}

fn write_tree(node: &Node, depth: usize, sets: bool, lines: &mut String) {
    let set = if sets { node.set } else { 0 };
    let _ = writeln!(lines, "E,{depth},{},{set:x}", node.name);
    for part in &node.content {
        match part {
            Part::Node(child) => write_tree(child, depth + 1, sets, lines),
            Part::Text(text) => {
                let _ = writeln!(lines, "C,{},{text}", depth + 1);
            }
        }
    }
}
