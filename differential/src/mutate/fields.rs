//! One field of one item changed.

use super::sheet::{DOT, Item, REST, Sheet, TIE_IN, TIE_OUT, UNPITCHED};
use crate::generate::Random;

fn any<'a>(random: &mut Random, sheet: &'a mut Sheet) -> Option<&'a mut Item> {
    let index = sheet.pick(random, |_| true)?;
    Some(&mut sheet.items[index])
}

fn chord<'a>(random: &mut Random, sheet: &'a mut Sheet) -> Option<&'a mut Item> {
    let index = sheet.pick(random, Item::chord)?;
    Some(&mut sheet.items[index])
}

/// Some item with keys.
fn sounding<'a>(random: &mut Random, sheet: &'a mut Sheet) -> Option<&'a mut Item> {
    let index = sheet.pick(random, |item| item.keys != [0, 0])?;
    Some(&mut sheet.items[index])
}

/// Mostly to a code that staffs use.
pub fn code(random: &mut Random, sheet: &mut Sheet) -> Option<()> {
    let item = any(random, sheet)?;
    let code = match random.below(4) {
        0 => random.between(9, 15) as u32,
        1 => random.below(9) as u32,
        2 => item.code().saturating_sub(1),
        _ => item.code() + 1,
    };
    item.head = item.head & !15 | code.min(15);
    Some(())
}

pub fn dot(random: &mut Random, sheet: &mut Sheet) -> Option<()> {
    any(random, sheet)?.head ^= DOT;
    Some(())
}

pub fn tie_in(random: &mut Random, sheet: &mut Sheet) -> Option<()> {
    chord(random, sheet)?.head ^= TIE_IN;
    Some(())
}

pub fn tie_out(random: &mut Random, sheet: &mut Sheet) -> Option<()> {
    chord(random, sheet)?.head ^= TIE_OUT;
    Some(())
}

pub fn unpitched(random: &mut Random, sheet: &mut Sheet) -> Option<()> {
    chord(random, sheet)?.head ^= UNPITCHED;
    Some(())
}

pub fn rest_mark(random: &mut Random, sheet: &mut Sheet) -> Option<()> {
    let index = sheet.pick(random, |item| item.has(REST))?;
    sheet.items[index].head |= random.pick(&[TIE_IN, TIE_OUT, UNPITCHED]);
    Some(())
}

pub fn rest(random: &mut Random, sheet: &mut Sheet) -> Option<()> {
    any(random, sheet)?.head ^= REST;
    Some(())
}

pub fn meaningless(random: &mut Random, sheet: &mut Sheet) -> Option<()> {
    any(random, sheet)?.head |= 1 << random.between(9, 31);
    Some(())
}

/// Any key, or one that another item has.
pub fn some_key(random: &mut Random, sheet: &Sheet) -> u8 {
    let other = sheet.pick(random, Item::chord);
    let keys = other.map_or(vec![], |index| sheet.items[index].key_list());
    match keys.is_empty() || random.once_in(3) {
        true => random.data(),
        false => random.pick(&keys),
    }
}

/// In a rest, too.
pub fn key_set(random: &mut Random, sheet: &mut Sheet) -> Option<()> {
    let key = some_key(random, sheet);
    let index = sheet.pick(random, |item| !item.key_list().contains(&key))?;
    sheet.items[index].toggle_key(key);
    Some(())
}

pub fn key_cleared(random: &mut Random, sheet: &mut Sheet) -> Option<()> {
    let item = sounding(random, sheet)?;
    item.toggle_key(random.pick(&item.key_list()));
    Some(())
}

/// Often by one key, an octave, or from one word to the other.
pub fn key_moved(random: &mut Random, sheet: &mut Sheet) -> Option<()> {
    let item = sounding(random, sheet)?;
    let from = random.pick(&item.key_list());
    let any = random.data();
    let step = random.pick(&[1, 127, 12, 116, 64, any]);
    item.toggle_key(from);
    item.toggle_key((from + step) % 128);
    Some(())
}

pub fn key_words(random: &mut Random, sheet: &mut Sheet) -> Option<()> {
    any(random, sheet)?.keys.swap(0, 1);
    Some(())
}

/// One item takes the keys of another.
pub fn keys_taken(random: &mut Random, sheet: &mut Sheet) -> Option<()> {
    let from = sheet.pick(random, |_| true)?;
    let to = sheet.pick(random, |_| true)?;
    sheet.items[to].keys = sheet.items[from].keys;
    Some(())
}
