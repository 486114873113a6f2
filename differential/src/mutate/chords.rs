//! Changes that know what a chord is: some keep a staff right, some make it wrong only late.

use super::fields::some_key;
use super::sheet::{DOT, Item, REST, Sheet, TIE_IN, TIE_OUT, UNPITCHED};
use crate::generate::Random;

/// Two values that are as long together as an item's: its halves, or what its dot stands for behind the rest.
fn parts(item: &Item) -> Option<[u32; 2]> {
    let code = item.code();
    let parts = match item.has(DOT) {
        true => [code, code + 1],
        false => [code + 1; 2],
    };
    (parts[1] < 9).then_some(parts)
}

/// The value that is as long as two without dots: of one length, or one the half of the other.
fn joined(first: u32, second: u32) -> Option<u32> {
    let (long, short) = (first.min(second), first.max(second));
    match short - long {
        0 => long.checked_sub(1),
        1 => Some(long | DOT),
        _ => None,
    }
}

/// Other values for two neighbours: one for both, or the second takes over a part of the first.
fn rejoined(first: &Item, second: &Item) -> Option<Vec<u32>> {
    if second.has(DOT) {
        return None;
    }
    let both = joined(first.code(), second.code()).filter(|_| !first.has(DOT));
    let [kept, given] = parts(first)?;
    let longer = joined(given, second.code()).map(|longer| vec![kept, longer]);
    both.map(|both| vec![both]).or(longer)
}

/// Pieces of one chord, or rests, written with other values.
fn rewrite(sheet: &mut Sheet, from: usize, count: usize, values: &[u32]) {
    let (first, last) = (sheet.items[from], sheet.items[from + count - 1]);
    let inner = if first.chord() { TIE_IN | TIE_OUT } else { 0 };
    let piece = |(index, value): (usize, &u32)| {
        let before = if index == 0 { first.head } else { inner };
        let behind = match index + 1 == values.len() {
            true => last.head,
            false => inner,
        };
        let ties = before & TIE_IN | behind & TIE_OUT;
        let head = first.head & (UNPITCHED | REST) | ties | value;
        Item { head, ..first }
    };
    let pieces: Vec<_> = values.iter().enumerate().map(piece).collect();
    sheet.items.splice(from..from + count, pieces);
}

/// A chord into two tied pieces, a rest into two rests.
pub fn split(random: &mut Random, sheet: &mut Sheet) -> Option<()> {
    let index = sheet.pick(random, |item| parts(item).is_some())?;
    let values = parts(&sheet.items[index])?;
    rewrite(sheet, index, 1, &values);
    Some(())
}

/// The same into ever shorter pieces, down to values that staffs do not use.
pub fn crumbled(random: &mut Random, sheet: &mut Sheet) -> Option<()> {
    let index = sheet.pick(random, |item| !item.has(DOT) && item.code() < 9)?;
    let last = random.pick(&[9, 9, 9, 10]);
    let shorter = sheet.items[index].code() + 1..=last;
    let values: Vec<_> = shorter.chain([last]).collect();
    rewrite(sheet, index, 1, &values);
    Some(())
}

/// Two tied pieces of a bar, or two rests, into one, or with a part of the first given to the second.
pub fn merged(random: &mut Random, sheet: &mut Sheet) -> Option<()> {
    let values = |index: usize| {
        let (first, second) = (&sheet.items[index], &sheet.items[sheet.neighbour(index)?]);
        let rests = first.has(REST) && second.has(REST);
        let tied = first.has(TIE_OUT) && second.has(TIE_IN);
        rejoined(first, second).filter(|_| rests || tied)
    };
    let index = sheet.pick_index(random, |index| values(index).is_some())?;
    let values = values(index)?;
    rewrite(sheet, index, 2, &values);
    Some(())
}

/// A rest becomes a chord with a key of another, or any.
pub fn sounded(random: &mut Random, sheet: &mut Sheet) -> Option<()> {
    let key = some_key(random, sheet);
    let index = sheet.pick(random, |item| item.has(REST))?;
    sheet.items[index].head &= !REST;
    sheet.items[index].toggle_key(key);
    Some(())
}

pub fn silenced(random: &mut Random, sheet: &mut Sheet) -> Option<()> {
    let index = sheet.pick(random, Item::chord)?;
    sheet.items[index] = sheet.items[index].silent();
    Some(())
}

/// The last piece of a chord, or the second part of it, becomes a rest.
pub fn shortened(random: &mut Random, sheet: &mut Sheet) -> Option<()> {
    let mut last = sheet.pick(random, |item| item.chord() && !item.has(TIE_OUT))?;
    if !sheet.items[last].has(TIE_IN) || random.once_in(2) {
        let values = parts(&sheet.items[last])?;
        rewrite(sheet, last, 1, &values);
        last += 1;
    }
    let mut before = (0..last).rev();
    let before = before.find(|index| sheet.next(*index) == Some(last))?;
    sheet.items[last] = sheet.items[last].silent();
    sheet.items[before].head &= !TIE_OUT;
    Some(())
}

/// The rest behind a chord becomes a tied piece of it, all of the rest or its first part.
pub fn prolonged(random: &mut Random, sheet: &mut Sheet) -> Option<()> {
    let rest_behind = |index: usize| {
        let next = sheet.next(index).filter(|_| sheet.items[index].chord())?;
        sheet.items[next].has(REST).then_some(next)
    };
    let index = sheet.pick_index(random, |index| rest_behind(index).is_some())?;
    let next = rest_behind(index)?;
    if random.once_in(3) {
        let values = parts(&sheet.items[next])?;
        rewrite(sheet, next, 1, &values);
    }
    let chord = sheet.items[index];
    let piece = &mut sheet.items[next];
    piece.keys = chord.keys;
    piece.head = piece.head & !REST | chord.head & UNPITCHED | TIE_IN;
    sheet.items[index].head |= TIE_OUT;
    Some(())
}

/// Two tied pieces are tied no longer.
pub fn untied(random: &mut Random, sheet: &mut Sheet) -> Option<()> {
    let index = sheet.pick_index(random, |index| sheet.tied(index).is_some())?;
    let next = sheet.tied(index)?;
    sheet.items[index].head &= !TIE_OUT;
    sheet.items[next].head &= !TIE_IN;
    Some(())
}

/// A tie out of the last item.
pub fn open_end(random: &mut Random, sheet: &mut Sheet) -> Option<()> {
    let last = |index: usize| sheet.items[index].chord() && sheet.next(index).is_none();
    let index = sheet.pick_index(random, last)?;
    sheet.items[index].head ^= TIE_OUT;
    Some(())
}

/// The pieces of some chord.
fn chord(random: &mut Random, sheet: &Sheet) -> Option<Vec<usize>> {
    let first = sheet.pick(random, |item| item.chord() && !item.has(TIE_IN))?;
    Some(sheet.pieces(first))
}

pub fn chord_unpitched(random: &mut Random, sheet: &mut Sheet) -> Option<()> {
    for index in chord(random, sheet)? {
        sheet.items[index].head ^= UNPITCHED;
    }
    Some(())
}

pub fn chord_key_set(random: &mut Random, sheet: &mut Sheet) -> Option<()> {
    let key = some_key(random, sheet);
    let pieces = chord(random, sheet)?;
    let free = |index: &usize| !sheet.items[*index].key_list().contains(&key);
    let pieces: Vec<_> = pieces.into_iter().filter(free).collect();
    for index in pieces {
        sheet.items[index].toggle_key(key);
    }
    Some(())
}

/// Of a chord with several keys, if there is one.
pub fn chord_key_cleared(random: &mut Random, sheet: &mut Sheet) -> Option<()> {
    let opens =
        |item: &Item, keys| item.chord() && !item.has(TIE_IN) && item.key_list().len() >= keys;
    let rich = sheet.pick(random, |item| opens(item, 2));
    let first = rich.or_else(|| sheet.pick(random, |item| opens(item, 1)))?;
    let key = random.pick(&sheet.items[first].key_list());
    for index in sheet.pieces(first) {
        sheet.items[index].toggle_key(key);
    }
    Some(())
}

/// Two chords of one bar change their keys, most often two that begin it, in two voices.
pub fn keys_exchanged(random: &mut Random, sheet: &mut Sheet) -> Option<()> {
    let from_start = !random.once_in(4);
    let opens = |index: usize| {
        let item = &sheet.items[index];
        let begins = index == 0 || sheet.items[index - 1].place < item.place;
        item.chord() && !item.has(TIE_IN) && (begins || !from_start)
    };
    let bar = |index: usize| sheet.items[index].place / 4;
    let one = sheet.pick_index(random, opens)?;
    let alike = |other: usize| other != one && bar(other) == bar(one) && opens(other);
    let other = sheet.pick_index(random, alike)?;
    let [ones, others] = [one, other].map(|first| (sheet.pieces(first), sheet.items[first].keys));
    for (pieces, keys) in [(ones.0, others.1), (others.0, ones.1)] {
        for index in pieces {
            sheet.items[index].keys = keys;
        }
    }
    Some(())
}
