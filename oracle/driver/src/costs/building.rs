//! Building the states of a grammar, which the published files have not.

use super::{head, least, line, number};
use crate::builds::{ROOM, measured};
use crate::port;

pub fn costs() {
    head(&["grammar", "answer", "build_states", "check"]);
    let mut lent = ROOM.map(|words| vec![7; words]);
    for (name, table, start) in measured() {
        let [scratch, out, conflicts] = &mut lent;
        let (mut records, mut count, mut place, mut answer) = (0, 0, 0, 0);
        let built = least(&mut || {
            answer = port::build_states(
                &table,
                start,
                scratch,
                out,
                conflicts,
                &mut records,
                &mut count,
                &mut place,
            );
        });
        let checked = least(&mut || {
            port::check(&table, &mut place);
        });
        let answer = match answer {
            0 => format!("{records} records, {count} conflicts"),
            refusal => refusal.to_string(),
        };
        line(&[name.into(), answer, number(built), number(checked)]);
    }
}
