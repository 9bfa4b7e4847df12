//! Documents 01 and 02 once more, in Rust, to hold the proved calls against.
//!
//! It is written from the paper and by another route than the proved code. A group is a binary tree whose counters are whole
//! numbers; an update climbs from the slot; the valid layouts are listed, and a layout's code is its place in that list; a union
//! tries all of them. Bytes are made from a tree where a memory has to be compared, and read only where one comes from outside.
#![forbid(unsafe_code)]

mod signed;
mod watch;

use std::sync::OnceLock;

pub use signed::{row_sign, signed_clear, signed_estimate, signed_subtract, signed_unite, signed_update};
pub use watch::{watch_clear, watch_remove, watch_update, Place, Watch, WATCH_SIZE};

/// The answer of a call: the paper's number, place and figure.
#[derive(Clone, Copy, Debug, PartialEq, Eq)]
pub struct Answer<F = u64> {
    pub number: u32,
    pub place: u64,
    pub figure: F,
}

fn accepted<F>(figure: F) -> Answer<F> {
    Answer {
        number: 0,
        place: 0,
        figure,
    }
}

/// Why a call is refused: number and place.
type Refused = (u32, usize);

fn answer<F: Default>(outcome: Result<F, Refused>) -> Answer<F> {
    match outcome {
        Ok(figure) => accepted(figure),
        Err((number, place)) => Answer {
            number,
            place: place as u64,
            figure: F::default(),
        },
    }
}

// ---------------------------------------------------------------------------------------------------------------------------
// Layouts

/// The nodes of a group's tree, in heap order: 1 is the group, 2 and 3 the halves, 4 to 7 the pairs, 8 to 15 the slots.
const ROOT: usize = 1;
const FIRST_SLOT: usize = 8;

fn level(node: usize) -> u32 {
    3 - node.ilog2()
}

/// The first slot of a block.
fn first_slot(node: usize) -> usize {
    (node << level(node)) - FIRST_SLOT
}

/// What a counter of a level stays below.
fn limit(level: u32) -> u128 {
    1u128 << (8 << level)
}

/// The bit that marks a block: bits 0, 2, 4, 6 the pairs, 1 and 5 the halves, 3 the group.
fn mark(node: usize) -> u8 {
    match node {
        4 => 1 << 0,
        5 => 1 << 2,
        6 => 1 << 4,
        7 => 1 << 6,
        2 => 1 << 1,
        3 => 1 << 5,
        1 => 1 << 3,
        _ => 0,
    }
}

/// All marks of a block and of the blocks inside it.
fn marks_within(node: usize) -> u8 {
    if node >= FIRST_SLOT {
        0
    } else {
        mark(node) | marks_within(2 * node) | marks_within(2 * node + 1)
    }
}

/// One layout of a block: its counters, in slot order.
type Layout = Vec<usize>;

/// Every layout of a block. An unmerged one has the code left * a + right and the merged one a * a, a being the number of layouts
/// of a half: so the code of a layout is its index here.
fn layouts_of(node: usize) -> Vec<Layout> {
    if node >= FIRST_SLOT {
        return vec![vec![node]];
    }
    let mut all = Vec::new();
    for left in layouts_of(2 * node) {
        for right in layouts_of(2 * node + 1) {
            all.push([left.clone(), right].concat());
        }
    }
    all.push(vec![node]);
    all
}

struct Layouts {
    /// By code: the merge byte and the counters.
    all: Vec<(u8, Layout)>,
    /// By merge byte: the code, if the byte is valid.
    code: [Option<u32>; 256],
}

fn layouts() -> &'static Layouts {
    static TABLE: OnceLock<Layouts> = OnceLock::new();
    TABLE.get_or_init(|| {
        let all: Vec<(u8, Layout)> = layouts_of(ROOT)
            .into_iter()
            .map(|layout| (layout.iter().map(|&n| marks_within(n)).sum(), layout))
            .collect();
        let mut code = [None; 256];
        for (i, (merge, _)) in all.iter().enumerate() {
            code[*merge as usize] = Some(i as u32);
        }
        Layouts { all, code }
    })
}

/// The least layout that merges all that these merge bits do and each of whose counters will do; none if there is no such layout.
fn least_layout(merged: u8, will_do: impl Fn(usize) -> bool) -> Option<&'static Layout> {
    let suitable: Vec<&(u8, Layout)> = layouts()
        .all
        .iter()
        .filter(|(merge, _)| merge & merged == merged)
        .filter(|(_, layout)| layout.iter().all(|&n| will_do(n)))
        .collect();
    if suitable.is_empty() {
        return None;
    }
    let (_, layout) = suitable
        .iter()
        .find(|(merge, _)| suitable.iter().all(|(other, _)| merge & other == *merge))
        .expect("one layout is inside all others");
    Some(layout)
}

/// The number of layouts of a group.
pub fn layout_count() -> usize {
    layouts().all.len()
}

/// The 26 valid merge bytes, by code.
pub fn valid_merges() -> Vec<u8> {
    layouts().all.iter().map(|(merge, _)| *merge).collect()
}

pub fn is_valid(merge: u8) -> bool {
    layouts().code[merge as usize].is_some()
}

pub fn pack(merges: [u8; 4]) -> Answer {
    let mut code = 0;
    for merge in merges {
        match layouts().code[merge as usize] {
            Some(c) => code = code * 26 + c as u64,
            None => return answer(Err((5, 0))),
        }
    }
    accepted(code)
}

pub fn unpack(code: u32) -> (Answer, [u8; 4]) {
    if code >= 26u32.pow(4) {
        return (answer(Err((9, 0))), [0; 4]);
    }
    let mut merges = [0; 4];
    let mut rest = code as usize;
    for merge in merges.iter_mut().rev() {
        *merge = layouts().all[rest % 26].0;
        rest /= 26;
    }
    (accepted(0), merges)
}

// ---------------------------------------------------------------------------------------------------------------------------
// Groups

/// A group: the figure at each node that is a counter.
#[derive(Clone, Copy, PartialEq, Eq, Debug)]
pub struct Tree {
    counter: [Option<u64>; 16],
}

/// A group as it may be found in a memory. Nearly all are sound, so a box for the larger case would save nothing.
#[allow(clippy::large_enum_variant)]
#[derive(Clone, Copy, PartialEq, Eq, Debug)]
pub enum Group {
    Sound(Tree),
    /// The merge byte is none of the 26.
    Damaged {
        counts: [u8; 8],
        merge: u8,
    },
}

impl Tree {
    fn empty(layout: &[usize]) -> Tree {
        let mut counter = [None; 16];
        for &node in layout {
            counter[node] = Some(0);
        }
        Tree { counter }
    }

    fn clear() -> Tree {
        Tree::empty(&[8, 9, 10, 11, 12, 13, 14, 15])
    }

    /// The counter that a slot is in.
    fn counter_of(&self, slot: usize) -> (usize, u64) {
        let mut node = FIRST_SLOT + slot;
        loop {
            if let Some(figure) = self.counter[node] {
                return (node, figure);
            }
            node /= 2;
        }
    }

    /// The sum of all counters in a block.
    fn total(&self, node: usize) -> u128 {
        let inside = if node < FIRST_SLOT {
            self.total(2 * node) + self.total(2 * node + 1)
        } else {
            0
        };
        inside + self.counter[node].unwrap_or(0) as u128
    }

    fn remove(&mut self, node: usize) {
        self.counter[node] = None;
        if node < FIRST_SLOT {
            self.remove(2 * node);
            self.remove(2 * node + 1);
        }
    }

    /// Adds an amount to the counter of a slot; none where a counter of level 3 would reach 2^64.
    fn add(&self, slot: usize, amount: u32) -> Option<Tree> {
        let mut tree = *self;
        let (mut node, figure) = self.counter_of(slot);
        let mut sum = figure as u128 + amount as u128;
        while sum >= limit(level(node)) {
            if node == ROOT {
                return None;
            }
            sum += tree.total(node ^ 1);
            node /= 2;
        }
        tree.remove(node);
        tree.counter[node] = Some(sum as u64);
        Some(tree)
    }

    /// The nodes that are counters, in slot order.
    fn counters(&self) -> Vec<usize> {
        let mut nodes: Vec<usize> = (1..16).filter(|&n| self.counter[n].is_some()).collect();
        nodes.sort_by_key(|&n| first_slot(n));
        nodes
    }

    fn merge(&self) -> u8 {
        (1..16).filter(|&n| self.counter[n].is_some()).map(marks_within).sum()
    }

    fn widest(&self) -> u32 {
        (1..16)
            .filter(|&n| self.counter[n].is_some())
            .map(level)
            .max()
            .expect("a group has a counter")
    }

    /// The least layout that merges all that either merged and in which each block's total from both fits; none if none fits.
    fn unite(&self, source: &Tree) -> Option<Tree> {
        let merged = self.merge() | source.merge();
        let mut total = [0; 16];
        for (n, sum) in total.iter_mut().enumerate().skip(ROOT) {
            *sum = self.total(n) + source.total(n);
        }
        let layout = least_layout(merged, |n| total[n] < limit(level(n)))?;
        let mut tree = Tree::empty(layout);
        for &n in layout {
            tree.counter[n] = Some(total[n] as u64);
        }
        Some(tree)
    }
}

impl Group {
    /// The group that eight count bytes and a merge byte stand for.
    fn from_bytes(counts: [u8; 8], merge: u8) -> Group {
        let Some(code) = layouts().code[merge as usize] else {
            return Group::Damaged { counts, merge };
        };
        let layout = &layouts().all[code as usize].1;
        let mut tree = Tree::empty(layout);
        for &n in layout {
            let first = first_slot(n);
            let slots = &counts[first..first + (1 << level(n))];
            let figure = slots.iter().rev().fold(0, |f, &b| f * 256 + b as u128);
            tree.counter[n] = Some(figure as u64);
        }
        Group::Sound(tree)
    }

    /// The count bytes and the merge byte, for comparison.
    fn to_bytes(self) -> ([u8; 8], u8) {
        let tree = match self {
            Group::Damaged { counts, merge } => return (counts, merge),
            Group::Sound(tree) => tree,
        };
        let mut counts = [0; 8];
        let mut merge = 0;
        for n in 1..16 {
            if let Some(figure) = tree.counter[n] {
                merge |= marks_within(n);
                let mut rest = figure;
                for slot in &mut counts[first_slot(n)..first_slot(n) + (1 << level(n))] {
                    *slot = (rest % 256) as u8;
                    rest /= 256;
                }
                assert_eq!(rest, 0, "a figure fits its counter");
            }
        }
        (counts, merge)
    }

    fn sound(&self) -> Result<&Tree, Refused> {
        match self {
            Group::Sound(tree) => Ok(tree),
            Group::Damaged { .. } => Err((5, 0)),
        }
    }
}

// ---------------------------------------------------------------------------------------------------------------------------
// Meters

/// FNV-1a of a row number and a key.
pub fn hash(row: u8, key: &[u8]) -> u32 {
    fnv(&[&[row], key].concat())
}

/// FNV-1a, 32 bits.
pub fn fnv(bytes: &[u8]) -> u32 {
    let mut h: u64 = 2_166_136_261;
    for &b in bytes {
        h = (h ^ b as u64) * 16_777_619 % (1 << 32);
    }
    h as u32
}

/// The slot of a key in a row of w slots.
pub fn slot(row: usize, key: &[u8], w: usize) -> usize {
    (hash(row as u8, key) as u64 / ((1u64 << 32) / w as u64)) as usize
}

fn is_width(w: usize) -> bool {
    [32, 64, 128, 256, 512, 1024, 2048, 4096, 8192, 16384].contains(&w)
}

fn good_geometry(d: usize, w: usize) -> Result<(), Refused> {
    if !(1..=8).contains(&d) {
        Err((1, 0))
    } else if !is_width(w) {
        Err((2, 0))
    } else {
        Ok(())
    }
}

fn good_shape(d: usize, w: usize, length: usize) -> Result<(), Refused> {
    good_geometry(d, w)?;
    if length * 8 != d * w * 9 {
        return Err((3, 0));
    }
    Ok(())
}

fn good_key(key: &[u8]) -> Result<(), Refused> {
    if (1..=64).contains(&key.len()) {
        Ok(())
    } else {
        Err((4, 0))
    }
}

#[derive(Clone, PartialEq, Eq, Debug)]
struct Meter {
    d: usize,
    w: usize,
    /// By row, then by place in the row.
    groups: Vec<Group>,
}

impl Meter {
    fn parse(d: usize, w: usize, bytes: &[u8]) -> Meter {
        let mut groups = Vec::new();
        for row in bytes.chunks(w / 8 * 9) {
            let (counts, merges) = row.split_at(w);
            for (c, m) in counts.chunks(8).zip(merges) {
                groups.push(Group::from_bytes(c.try_into().expect("eight bytes"), *m));
            }
        }
        Meter { d, w, groups }
    }

    /// The memory, for comparison: of each row the count bytes, then the merge bytes.
    fn bytes(&self) -> Vec<u8> {
        let mut bytes = Vec::with_capacity(self.d * self.w / 8 * 9);
        for row in self.groups.chunks(self.w / 8) {
            let mut merges = Vec::with_capacity(row.len());
            for group in row {
                let (counts, merge) = group.to_bytes();
                bytes.extend(counts);
                merges.push(merge);
            }
            bytes.extend(merges);
        }
        bytes
    }

    /// A key's group in each row, and its slot in that group.
    fn places(&self, key: &[u8]) -> Vec<(usize, usize)> {
        (0..self.d)
            .map(|r| {
                let s = slot(r, key, self.w);
                (r * (self.w / 8) + s / 8, s % 8)
            })
            .collect()
    }

    fn update(&mut self, key: &[u8], amount: u32) -> Result<u64, Refused> {
        let places = self.places(key);
        for &(g, _) in &places {
            self.groups[g].sound()?;
        }
        let mut sums = Vec::new();
        for &(g, s) in &places {
            let tree = self.groups[g].sound()?;
            sums.push((g, tree.add(s, amount).ok_or((6, 0))?));
        }
        for (g, tree) in sums {
            self.groups[g] = Group::Sound(tree);
        }
        Ok(0)
    }

    fn estimate(&self, key: &[u8]) -> Result<u64, Refused> {
        let mut figures = Vec::new();
        for (g, s) in self.places(key) {
            figures.push(self.groups[g].sound()?.counter_of(s).1);
        }
        Ok(figures.into_iter().min().expect("a meter has a row"))
    }

    fn widest(&self) -> Result<u64, Refused> {
        let mut widest = 0;
        for group in &self.groups {
            widest = widest.max(group.sound()?.widest());
        }
        Ok(widest as u64)
    }

    fn unite(&mut self, source: &Meter) -> Result<u64, Refused> {
        for group in self.groups.iter().chain(&source.groups) {
            group.sound()?;
        }
        let mut united = Vec::with_capacity(self.groups.len());
        for (target, source) in self.groups.iter().zip(&source.groups) {
            let tree = target.sound()?.unite(source.sound()?).ok_or((6, 0))?;
            united.push(Group::Sound(tree));
        }
        self.groups = united;
        Ok(0)
    }

    fn image(&self) -> Result<Vec<u32>, Refused> {
        let log = (0..32).find(|&n| 1usize << n == self.w).expect("a width");
        let mut words = vec![word(1, self.d as u32 + log * 16)];
        for group in &self.groups {
            group.sound()?;
        }
        for four in self.groups.chunks(4) {
            let mut code = 0;
            for group in four {
                let merge = group.sound()?.merge();
                code = code * 26 + layouts().code[merge as usize].expect("a valid merge byte");
            }
            words.push(word(2, code));
            for group in four {
                let tree = group.sound()?;
                for n in tree.counters() {
                    let figure = tree.counter[n].expect("a counter");
                    for part in (0..counter_words(level(n))).rev() {
                        words.push(word(3, (figure >> (24 * part) & 0xff_ffff) as u32));
                    }
                }
            }
        }
        words.push(word(4, (words.len() % (1 << 28)) as u32));
        Ok(words)
    }
}

fn word(kind: u32, payload: u32) -> u32 {
    kind << 28 | payload
}

/// How many words a counter of a level takes.
fn counter_words(level: u32) -> u32 {
    [1, 1, 2, 3][level as usize]
}

// ---------------------------------------------------------------------------------------------------------------------------
// Lent memories and the calls on them

/// A lent memory. Between calls told the same geometry it stays a tree.
#[derive(Clone, Debug)]
pub struct Memory {
    length: usize,
    state: State,
}

#[derive(Clone, Debug)]
enum State {
    Bytes(Vec<u8>),
    Trees(Meter),
}

impl Memory {
    pub fn new(bytes: &[u8]) -> Memory {
        Memory {
            length: bytes.len(),
            state: State::Bytes(bytes.to_vec()),
        }
    }

    pub fn len(&self) -> usize {
        self.length
    }

    pub fn is_empty(&self) -> bool {
        self.length == 0
    }

    pub fn to_bytes(&self) -> Vec<u8> {
        match &self.state {
            State::Bytes(bytes) => bytes.clone(),
            State::Trees(meter) => meter.bytes(),
        }
    }

    /// The trees of a memory that has the right length for d and w.
    fn meter(&mut self, d: usize, w: usize) -> &mut Meter {
        let known = matches!(&self.state, State::Trees(m) if m.d == d && m.w == w);
        if !known {
            self.state = State::Trees(Meter::parse(d, w, &self.to_bytes()));
        }
        match &mut self.state {
            State::Trees(meter) => meter,
            State::Bytes(_) => unreachable!(),
        }
    }
}

pub fn clear(d: usize, w: usize, memory: &mut Memory) -> Answer {
    answer(good_shape(d, w, memory.len()).map(|()| {
        memory.state = State::Trees(Meter {
            d,
            w,
            groups: vec![Group::Sound(Tree::clear()); d * w / 8],
        });
        0
    }))
}

pub fn update(d: usize, w: usize, memory: &mut Memory, key: &[u8], amount: u32) -> Answer {
    answer(
        good_shape(d, w, memory.len())
            .and_then(|()| good_key(key))
            .and_then(|()| memory.meter(d, w).update(key, amount)),
    )
}

pub fn estimate(d: usize, w: usize, memory: &mut Memory, key: &[u8]) -> Answer {
    answer(
        good_shape(d, w, memory.len())
            .and_then(|()| good_key(key))
            .and_then(|()| memory.meter(d, w).estimate(key)),
    )
}

pub fn widest(d: usize, w: usize, memory: &mut Memory) -> Answer {
    answer(good_shape(d, w, memory.len()).and_then(|()| memory.meter(d, w).widest()))
}

pub fn unite(d: usize, w: usize, memory: &mut Memory, source: &mut Memory) -> Answer {
    answer(
        good_shape(d, w, memory.len())
            .and_then(|()| good_shape(d, w, source.len()))
            .and_then(|()| memory.meter(d, w).unite(source.meter(d, w))),
    )
}

pub fn image_write(d: usize, w: usize, memory: &mut Memory, words: &mut [u32]) -> Answer {
    answer(good_shape(d, w, memory.len()).and_then(|()| {
        let image = memory.meter(d, w).image()?;
        if image.len() > words.len() {
            return Err((7, 0));
        }
        words[..image.len()].copy_from_slice(&image);
        Ok(image.len() as u64)
    }))
}

pub fn image_read(d: usize, w: usize, memory: &mut Memory, words: &[u32]) -> Answer {
    answer(good_shape(d, w, memory.len()).and_then(|()| {
        let groups = read_groups(d, w, words)?;
        memory.state = State::Trees(Meter { d, w, groups });
        Ok(words.len() as u64)
    }))
}

// ---------------------------------------------------------------------------------------------------------------------------
// Words

/// A reader of words, from the first on.
struct Words<'a> {
    words: &'a [u32],
    at: usize,
}

impl<'a> Words<'a> {
    fn new(words: &'a [u32]) -> Words<'a> {
        Words { words, at: 0 }
    }

    /// The next word, one of the kinds that are due: its place, kind and payload.
    fn next(&mut self, due: &[u32]) -> Result<(usize, u32, u32), Refused> {
        let place = self.at;
        let word = *self.words.get(place).ok_or((8, place))?;
        let kind = word / (1 << 28);
        if !due.contains(&kind) {
            return Err((8, place));
        }
        self.at += 1;
        Ok((place, kind, word % (1 << 28)))
    }

    /// The payload of the next word, of one kind and below a limit.
    fn below(&mut self, due: u32, limit: u64) -> Result<(usize, u32), Refused> {
        let (place, _, payload) = self.next(&[due])?;
        if payload as u64 >= limit {
            return Err((9, place));
        }
        Ok((place, payload))
    }
}

fn read_groups(d: usize, w: usize, words: &[u32]) -> Result<Vec<Group>, Refused> {
    let mut input = Words::new(words);
    let (place, head) = input.below(1, 1 << 9)?;
    if head as usize % 16 != d || 1u64 << (head / 16) != w as u64 {
        return Err((10, place));
    }
    let mut groups = Vec::new();
    for _ in 0..d * w / 32 {
        let (_, code) = input.below(2, 456_976)?;
        let (_, merges) = unpack(code);
        for merge in merges {
            let code = layouts().code[merge as usize].expect("a valid merge byte");
            let layout = &layouts().all[code as usize].1;
            let mut tree = Tree::empty(layout);
            for &n in layout {
                // Later words add 24 bits each, so whether the figure fits shows in the first.
                let later = 24 * (counter_words(level(n)) - 1);
                let first_limit = (limit(level(n)) >> later).min(1 << 24);
                let (_, first) = input.below(3, first_limit as u64)?;
                let mut figure = first as u64;
                for _ in 1..counter_words(level(n)) {
                    let (_, part) = input.below(3, 1 << 24)?;
                    figure = figure << 24 | part as u64;
                }
                tree.counter[n] = Some(figure);
            }
            groups.push(Group::Sound(tree));
        }
    }
    let (place, _, count) = input.next(&[4])?;
    if count as usize != place % (1 << 28) {
        return Err((9, place));
    }
    if words.len() > input.at {
        return Err((8, input.at));
    }
    Ok(groups)
}

pub fn feed_head(words: &[u32]) -> Answer {
    answer((|| {
        let (place, head) = Words::new(words).below(1, 1 << 9)?;
        let (d, log) = (head as usize % 16, head / 16);
        good_geometry(d, 1usize << log).map_err(|(number, _)| (number, place))?;
        Ok(head as u64)
    })())
}

/// A record or the end of a feed.
#[derive(Clone, PartialEq, Eq, Debug)]
pub enum Record {
    Update(Vec<u8>, u32),
    Ask(Vec<u8>),
    End,
}

fn parse_record(before: u64, words: &[u32]) -> Result<Record, Refused> {
    let mut input = Words::new(words);
    let (place, kind, payload) = input.next(&[4, 5, 6])?;
    if kind == 4 {
        if payload as u64 != before % (1 << 28) {
            return Err((9, place));
        }
        return Ok(Record::End);
    }
    let length = payload as usize;
    if !(1..=64).contains(&length) {
        return Err((4, place));
    }
    let mut key = Vec::new();
    while key.len() < length {
        let (place, payload) = input.below(7, 1 << 24)?;
        for part in payload.to_be_bytes().into_iter().skip(1) {
            if key.len() < length {
                key.push(part);
            } else if part != 0 {
                return Err((9, place));
            }
        }
    }
    if kind == 6 {
        return Ok(Record::Ask(key));
    }
    let (_, high) = input.below(8, 1 << 16)?;
    let (_, low) = input.below(8, 1 << 16)?;
    Ok(Record::Update(key, high << 16 | low))
}

/// Carries out a record or the end of a feed; also says which it was, where its words pass.
pub fn feed_record(d: usize, w: usize, memory: &mut Memory, before: u64, words: &[u32]) -> (Answer, Option<Record>) {
    if let Err(refused) = good_shape(d, w, memory.len()) {
        return (answer(Err(refused)), None);
    }
    match parse_record(before, words) {
        Err(refused) => (answer(Err(refused)), None),
        Ok(record) => {
            let outcome = match &record {
                Record::End => Ok(0),
                Record::Ask(key) => memory.meter(d, w).estimate(key),
                Record::Update(key, amount) => memory.meter(d, w).update(key, *amount),
            };
            (answer(outcome), Some(record))
        }
    }
}

#[cfg(test)]
mod tests {
    use super::*;

    fn group(counts: [u8; 8], merge: u8) -> Tree {
        match Group::from_bytes(counts, merge) {
            Group::Sound(tree) => tree,
            Group::Damaged { .. } => panic!("{merge:#x} is valid"),
        }
    }

    fn bytes(tree: Option<Tree>) -> ([u8; 8], u8) {
        Group::Sound(tree.expect("accepted")).to_bytes()
    }

    const CLEAR: [u8; 8] = [0; 8];

    #[test]
    fn group_cases() {
        // P1, P2
        let start = group([0, 255, 3, 0, 0xfd, 0xff, 95, 11], 0x10);
        let next = start.add(1, 3).unwrap();
        assert_eq!(bytes(Some(next)), ([2, 1, 3, 0, 0xfd, 0xff, 95, 11], 0x11));
        assert_eq!(next.counter_of(0).1, 258);
        let last = next.add(5, 5).unwrap();
        assert_eq!(last.counter_of(6).1, 65_644);
        assert_eq!(bytes(Some(last)).1, 0x71);
        // P3, P4
        let full_slot = group([0, 0, 255, 0, 0, 0, 0, 0], 0);
        assert_eq!(full_slot.add(2, 0), Some(full_slot));
        assert_eq!(bytes(full_slot.add(2, 1)), ([0, 0, 0, 1, 0, 0, 0, 0], 0x04));
        // P5, P6, P7
        let clear = group(CLEAR, 0);
        assert_eq!(bytes(clear.add(3, 65_535)).1, 0x04);
        assert_eq!(bytes(clear.add(3, 65_536)).1, 0x07);
        let half = clear.add(0, u32::MAX).unwrap();
        assert_eq!(bytes(Some(half)).1, 0x07);
        assert_eq!(bytes(half.add(0, 1)), ([0, 0, 0, 0, 1, 0, 0, 0], 0x7f));
        // P8
        let full = group([255; 8], 0x7f);
        assert_eq!(full.add(0, 0), Some(full));
        assert_eq!(full.add(7, 1), None);
        // P9
        for (merge, code) in [(0, 0), (0x70, 4), (0x44, 6), (0x07, 20), (0x77, 24), (0x7f, 25)] {
            assert_eq!(layouts().code[merge], Some(code));
        }
        for merge in [0x02, 0x08, 0x80] {
            assert!(!is_valid(merge));
        }
        assert_eq!(layout_count(), 26);
        // P10
        assert_eq!(pack([0x70, 0x44, 0, 0]), accepted(74_360));
        assert_eq!(pack([0x7f; 4]), accepted(456_975));
        // P11, P12
        let a = group([200, 0, 0, 0, 0, 0, 0, 0], 0);
        let b = group([100, 0, 0, 0, 0, 0, 0, 0], 0);
        assert_eq!(bytes(a.unite(&b)), ([44, 1, 0, 0, 0, 0, 0, 0], 0x01));
        let a = group([44, 1, 0, 0, 0, 0, 0, 0], 0x01);
        let b = group([0, 7, 0, 0, 0, 0, 0, 0], 0);
        assert_eq!(bytes(a.unite(&b)), ([51, 1, 0, 0, 0, 0, 0, 0], 0x01));
    }

    #[test]
    fn published_vectors() {
        for (text, hash) in [
            ("", 0x811c9dc5u32),
            ("a", 0xe40c292c),
            ("b", 0xe70c2de5),
            ("foobar", 0xbf9cf968),
        ] {
            assert_eq!(fnv(text.as_bytes()), hash);
        }
    }

    #[test]
    fn clear_image() {
        let mut memory = Memory::new(&[0; 36]);
        let mut words = [0; 35];
        assert_eq!(image_write(1, 32, &mut memory, &mut words), accepted(35));
        let mut expected = vec![0x1000_0051, 0x2000_0000];
        expected.extend([0x3000_0000; 32]);
        expected.push(0x4000_0022);
        assert_eq!(words[..], expected[..]);
    }

    #[test]
    fn feed_example() {
        let feed = [
            0x1000_0051,
            0x5000_0001,
            0x7041_0000,
            0x8000_0000,
            0x8000_012c,
            0x6000_0001,
            0x7041_0000,
            0x4000_0007u32,
        ];
        let mut memory = Memory::new(&[0; 36]);
        assert_eq!(feed_head(&feed), accepted(0x51));
        assert_eq!(feed_record(1, 32, &mut memory, 1, &feed[1..]).0, accepted(0));
        assert_eq!(feed_record(1, 32, &mut memory, 5, &feed[5..]).0, accepted(300));
        assert_eq!(feed_record(1, 32, &mut memory, 7, &feed[7..]).0, accepted(0));
    }
}
