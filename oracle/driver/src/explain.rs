//! The explaining program (docs/RULES.md), over any side: bytes in, lines out.

use crate::question::text;
use crate::side::Side;
use std::fmt::Write;

pub fn explain(side: &mut dyn Side, input: &[u8]) -> String {
    let words: Vec<u16> = (input.chunks_exact(2))
        .map(|c| u16::from_le_bytes([c[0], c[1]]))
        .collect();
    let lone_byte = input.len() % 2 == 1;
    let count = words.first().map_or(0, |&c| c as usize);
    let table_end = 1 + 4 * count;
    if words.is_empty() || count > 8_192 || words.len() < table_end {
        return "0 refused 1 0\n".into();
    }
    let table = &words[1..table_end];
    let checked = side.check(table).unwrap();
    if checked[0] != 0 {
        return format!("0 refused {}\n", text(checked));
    }
    let mut out = String::new();
    let conflicts = &words[table_end..];
    let mut number = 0;
    for c in conflicts.chunks_exact(5) {
        number += 1;
        let conflict: [u16; 5] = c.try_into().unwrap();
        match side.classify(table, conflict) {
            None => writeln!(out, "{number} no run"),
            Some(a) if a[0] != 0 => writeln!(out, "{number} refused {}", text(a)),
            Some(a) => {
                out += &lines(number, &a[1..]);
                Ok(())
            }
        }
        .unwrap();
    }
    if conflicts.len() % 5 != 0 || lone_byte {
        writeln!(out, "{} refused 9 0", number + 1).unwrap();
    }
    out
}

/// The lines of an answered classification.
fn lines(number: u32, a: &[u32]) -> String {
    let (class, own) = (a[0], &a[4..4 + a[3] as usize]);
    let mut out = format!("{number} {class} {} {}", a[1], a[2]);
    match (class, own) {
        (4, &[nt, kind, number]) => write!(out, " {nt} {kind}/{number}").unwrap(),
        _ => own.iter().for_each(|w| write!(out, " {w}").unwrap()),
    }
    out.push('\n');
    let mut rest = &a[4 + own.len()..];
    for letter in ["a", "r"] {
        let (example, after) = rest[1..].split_at(rest[0] as usize);
        rest = after;
        let &[symbols, cursor, _, ref words @ ..] = example else {
            continue;
        };
        let (pairs, reductions) = words.split_at(2 * symbols as usize);
        // The printed length leaves the empty mark out.
        let length = pairs.chunks(2).filter(|p| p[0] != 2).count();
        write!(out, "{letter} {length} {cursor}").unwrap();
        for p in pairs.chunks(2) {
            write!(out, " {}/{}", p[0], p[1]).unwrap();
        }
        for r in reductions.chunks(3) {
            write!(out, " {}-{}/{}", r[0], r[1], r[2]).unwrap();
        }
        out.push('\n');
    }
    out
}
