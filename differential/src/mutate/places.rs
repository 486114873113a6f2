//! Items and whole voices put elsewhere.

use super::sheet::{Item, Sheet};
use crate::generate::Random;

fn any(random: &mut Random, sheet: &Sheet) -> Option<usize> {
    sheet.pick(random, |_| true)
}

/// To a place where another item is, before or behind it.
pub fn moved(random: &mut Random, sheet: &mut Sheet) -> Option<()> {
    let mut item = sheet.items.remove(any(random, sheet)?);
    let to = any(random, sheet)?;
    item.place = sheet.items[to].place;
    sheet.items.insert(to + random.below(2) as usize, item);
    Some(())
}

pub fn dropped(random: &mut Random, sheet: &mut Sheet) -> Option<()> {
    sheet.items.remove(any(random, sheet)?);
    Some(())
}

pub fn doubled(random: &mut Random, sheet: &mut Sheet) -> Option<()> {
    let index = any(random, sheet)?;
    sheet.items.insert(index, sheet.items[index]);
    Some(())
}

/// Two neighbours of one voice, also across a bar line; the places stay.
pub fn swapped(random: &mut Random, sheet: &mut Sheet) -> Option<()> {
    let index = sheet.pick_index(random, |index| sheet.next(index).is_some())?;
    let next = sheet.next(index)?;
    let [here, there] = [index, next].map(|index| sheet.items[index].place);
    sheet.items.swap(index, next);
    sheet.items[index].place = here;
    sheet.items[next].place = there;
    Some(())
}

/// Gives each item the place that `place` makes of its own.
fn replace(sheet: &mut Sheet, place: impl Fn(usize) -> usize) {
    for item in &mut sheet.items {
        item.place = place(item.place);
    }
    sheet.sort();
}

/// All four voices of the staff, voice 0 often left where it is.
pub fn permuted(random: &mut Random, sheet: &mut Sheet) -> Option<()> {
    let mut voices = [0, 1, 2, 3];
    let first = u64::from(!random.once_in(4));
    for voice in (first + 1..4).rev() {
        let other = random.between(first, voice);
        voices.swap(voice as usize, other as usize);
    }
    replace(sheet, |place| place / 4 * 4 + voices[place % 4]);
    Some(())
}

/// Two voices of one bar change places.
pub fn exchanged(random: &mut Random, sheet: &mut Sheet) -> Option<()> {
    let index = sheet.pick(random, |item| item.voice() > 0)?;
    let from = sheet.items[index].place;
    let to = from / 4 * 4 + (from + random.between(1, 3) as usize) % 4;
    replace(sheet, |place| match place {
        place if place == from => to,
        place if place == to => from,
        place => place,
    });
    Some(())
}

/// A voice with items, voice 0 only if there is no other, and one that is empty throughout.
fn voice_and_empty(random: &mut Random, sheet: &Sheet) -> Option<(usize, usize)> {
    let used = |voice| sheet.items.iter().any(|item| item.voice() == voice);
    let (used, empty): (Vec<_>, Vec<_>) = (0..4).partition(|voice| used(*voice));
    if empty.is_empty() {
        return None;
    }
    let from = match used.len() {
        0 => return None,
        1 => used[0],
        _ => random.pick(&used[1..]),
    };
    Some((from, random.pick(&empty)))
}

pub fn voice_moved(random: &mut Random, sheet: &mut Sheet) -> Option<()> {
    let (from, to) = voice_and_empty(random, sheet)?;
    replace(sheet, |place| match place % 4 == from {
        true => place - from + to,
        false => place,
    });
    Some(())
}

pub fn voice_doubled(random: &mut Random, sheet: &mut Sheet) -> Option<()> {
    let (from, to) = voice_and_empty(random, sheet)?;
    let of_voice = sheet.items.iter().filter(|item| item.voice() == from);
    let copy = |item: &Item| Item {
        place: item.place - from + to,
        ..*item
    };
    let copies: Vec<_> = of_voice.map(copy).collect();
    sheet.items.extend(copies);
    sheet.sort();
    Some(())
}

/// A voice has no items in one bar any more.
pub fn emptied(random: &mut Random, sheet: &mut Sheet) -> Option<()> {
    let index = sheet.pick(random, |item| item.voice() > 0)?;
    let place = sheet.items[index].place;
    sheet.items.retain(|item| item.place != place);
    Some(())
}

/// A voice that is empty in one bar gets the rests that another has there, or rests in place of its chords.
pub fn rested(random: &mut Random, sheet: &mut Sheet) -> Option<()> {
    let index = any(random, sheet)?;
    let from = sheet.items[index].place;
    let to = from / 4 * 4 + random.between(1, 3) as usize;
    if sheet.items.iter().any(|item| item.place == to) {
        return None;
    }
    let of_place = sheet.items.iter().filter(|item| item.place == from);
    let silent = |item: &Item| Item {
        place: to,
        ..item.silent()
    };
    let rests: Vec<_> = of_place.map(silent).collect();
    sheet.items.extend(rests);
    sheet.sort();
    Some(())
}
