//! Two texts of the answers: `answers`, one fact a line, and `print`, the printing program's.
//!
//! `answers` gives, each line as often as it applies:
//!
//! ```text
//! refused NUMBER                          instead of the import; only diagnostics may follow
//! head tempo T meter U/L key KEY
//! part P channel C program N
//! bar B start S length L meter U/L printed 0|1 tempo T key KEY
//! item P B VOICE code C dots D ties TIES keys K,K spelled NAME,NAME unpitched 0|1
//! item P B VOICE code C dots D rest
//! leftover P B VOICE ticks T              where it is above 0
//! automation P bend|controller|program|pressure tick T word W
//! diagnostic code C track T event E tick T channel C key K
//! ```
//!
//! KEY is the fifths and `M` (major) or `m`; TIES is `e` (tie-in) or `-`, then `s` (tie-out) or
//! `-`; NAME is step, sharps and octave. An absent value is `-`. Parts, events and voices count
//! from 0, bars from 1. The order is that of document 01: head, parts, bars, then part by part
//! the items, the leftovers and the automation, then the diagnostics.

use crate::answers::{Answers, Bar, Import, Item, Key, Spelled};
use std::fmt::{Display, Write};

pub fn answers(answers: &Answers) -> String {
    let mut out = String::new();
    match &answers.import {
        Ok(import) => write_import(&mut out, import),
        Err(number) => line(&mut out, format_args!("refused {number}")),
    }
    for d in answers.diagnostics.iter().flatten() {
        let (channel, key) = (given(d.channel), given(d.key));
        line(
            &mut out,
            format_args!(
                "diagnostic code {} track {} event {} tick {} channel {channel} key {key}",
                d.code, d.track, d.event, d.tick
            ),
        );
    }
    out
}

/// What the printing program prints for a piece.
pub fn print(import: &Result<Import, u8>) -> String {
    let mut out = String::new();
    let import = match import {
        Ok(import) => import,
        Err(number) => return format!("refused {number}\n"),
    };
    for (number, part) in import.parts.iter().enumerate() {
        let count = import.bars.len();
        line(&mut out, format_args!("part {number} bars {count}"));
        for (index, (bar, measure)) in import.bars.iter().zip(&part.staff).enumerate() {
            let meter = option(bar.printed.then(|| meter(bar)));
            let (tempo, key) = (option(bar.tempo), option(bar.key.map(key)));
            let (start, length) = (bar.start, bar.length);
            let index = index + 1;
            line(
                &mut out,
                format_args!("bar {index} {start} {length} {meter} {tempo} {key}"),
            );
            for (voice, items) in measure.iter().enumerate() {
                for item in items {
                    let (code, dots, ties) = (item.code, item.dots, ties(item));
                    let keys = if item.rest {
                        "rest".to_string()
                    } else {
                        commas(&item.keys)
                    };
                    let mark = if item.unpitched { " u" } else { "" };
                    line(
                        &mut out,
                        format_args!("{voice} {code} {dots} {ties} {keys}{mark}"),
                    );
                }
            }
        }
    }
    out
}

fn write_import(out: &mut String, import: &Import) {
    let head = &import.head;
    let head_key = option(head.key.map(key));
    line(
        out,
        format_args!(
            "head tempo {} meter {}/{} key {head_key}",
            head.tempo, head.upper, head.lower
        ),
    );
    for (number, part) in import.parts.iter().enumerate() {
        line(
            out,
            format_args!(
                "part {number} channel {} program {}",
                part.channel, part.program
            ),
        );
    }
    for (index, bar) in import.bars.iter().enumerate() {
        line(
            out,
            format_args!(
                "bar {} start {} length {} meter {} printed {} tempo {} key {}",
                index + 1,
                bar.start,
                bar.length,
                meter(bar),
                u8::from(bar.printed),
                option(bar.tempo),
                option(bar.key.map(key))
            ),
        );
    }
    for (number, part) in import.parts.iter().enumerate() {
        for (index, measure) in part.staff.iter().enumerate() {
            for (voice, items) in measure.iter().enumerate() {
                for item in items {
                    let bar = index + 1;
                    write_item(out, format_args!("item {number} {bar} {voice}"), item);
                }
            }
        }
        for (index, voices) in part.leftovers.iter().enumerate() {
            let voices = voices.iter().enumerate();
            for (voice, leftover) in voices.filter(|(_, leftover)| leftover.ticks > 0) {
                let (bar, ticks) = (index + 1, leftover.ticks);
                line(
                    out,
                    format_args!("leftover {number} {bar} {voice} ticks {ticks}"),
                );
            }
        }
        let kinds = ["bend", "controller", "program", "pressure"];
        for (kind, list) in kinds.iter().zip(part.automation.lists()) {
            for entry in list {
                line(
                    out,
                    format_args!(
                        "automation {number} {kind} tick {} word {}",
                        entry.tick, entry.word
                    ),
                );
            }
        }
    }
}

fn write_item(out: &mut String, place: impl Display, item: &Item) {
    let (code, dots) = (item.code, item.dots);
    if item.rest {
        line(out, format_args!("{place} code {code} dots {dots} rest"));
        return;
    }
    let names: Vec<_> = item.spelled.iter().map(name).collect();
    line(
        out,
        format_args!(
            "{place} code {code} dots {dots} ties {} keys {} spelled {} unpitched {}",
            ties(item),
            commas(&item.keys),
            commas(&names),
            u8::from(item.unpitched)
        ),
    );
}

fn line(out: &mut String, text: impl Display) {
    writeln!(out, "{text}").expect("a string takes all");
}

fn meter(bar: &Bar) -> String {
    format!("{}/{}", bar.upper, bar.lower)
}

fn key(key: Key) -> String {
    format!("{}{}", key.fifths, if key.minor { 'm' } else { 'M' })
}

fn ties(item: &Item) -> String {
    let sign = |tied, sign| if tied { sign } else { '-' };
    [sign(item.tie_in, 'e'), sign(item.tie_out, 's')]
        .iter()
        .collect()
}

fn name(spelled: &Spelled) -> String {
    let sharps = "#".repeat(spelled.alter as usize);
    format!("{}{sharps}{}", spelled.step, spelled.octave)
}

fn commas(values: &[impl ToString]) -> String {
    let texts: Vec<_> = values.iter().map(ToString::to_string).collect();
    texts.join(",")
}

fn option(value: Option<impl ToString>) -> String {
    value.map_or("-".to_string(), |value| value.to_string())
}

/// A channel or key of a diagnostic: 255 is absent.
fn given(value: u8) -> String {
    option((value != 255).then_some(value))
}
