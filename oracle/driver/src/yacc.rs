//! Yacc texts read plainly from docs/YACC.md: the classes of
//! tokens as a table, and rows of what may follow. Nothing of it is the port's.

use crate::rewrites::spelled;
use crate::table::*;
use std::collections::BTreeMap;
use std::collections::btree_map::Entry;

/// The bytes that a text may have; then what a table may.
const BYTES: usize = 65_535;
const NONTERMINALS: usize = 32;
const TERMINALS: usize = 63;
const PRODUCTIONS: usize = 128;
const SYMBOLS: usize = 16;

#[derive(Clone, Copy, PartialEq, Eq)]
enum Class {
    White,
    Comment,
    Name,
    Literal,
    Token,
    Start,
    Mark,
    Colon,
    Bar,
    Semi,
}

/// How many bytes of a class stand at the front of some; 0 for none.
type Taken = fn(&[u8]) -> usize;

const CLASSES: [(Class, Taken); 10] = [
    (Class::White, |t| matches!(t[0], 32 | 9 | 10 | 12) as usize),
    (Class::Comment, comment),
    (Class::Name, name),
    (Class::Literal, literal),
    (Class::Token, |t| apart(t, sign(t, b"%token"))),
    (Class::Start, |t| apart(t, sign(t, b"%start"))),
    (Class::Mark, |t| sign(t, b"%%")),
    (Class::Colon, |t| sign(t, b":")),
    (Class::Bar, |t| sign(t, b"|")),
    (Class::Semi, |t| sign(t, b";")),
];

fn letter(b: u8) -> bool {
    b.is_ascii_alphabetic() || matches!(b, b'.' | b'_')
}

fn goes_on(b: u8) -> bool {
    letter(b) || b.is_ascii_digit()
}

/// The first `*/` whose `*` is not that of `/*`.
fn comment(t: &[u8]) -> usize {
    let behind = if t.starts_with(b"/*") { &t[2..] } else { &[] };
    let end = behind.windows(2).position(|w| w == b"*/");
    end.map_or(0, |at| 2 + at + 2)
}

fn name(t: &[u8]) -> usize {
    let length = t.iter().position(|&b| !goes_on(b)).unwrap_or(t.len());
    if letter(t[0]) { length } else { 0 }
}

fn literal(t: &[u8]) -> usize {
    match t {
        [b'\'', 0 | 10 | b'\'' | b'\\', ..] => 0,
        [b'\'', _, b'\'', ..] => 3,
        _ => 0,
    }
}

fn sign(t: &[u8], sign: &[u8]) -> usize {
    if t.starts_with(sign) { sign.len() } else { 0 }
}

/// No letter and no digit behind it.
fn apart(t: &[u8], taken: usize) -> usize {
    match t.get(taken) {
        Some(&b) if goes_on(b) => 0,
        _ => taken,
    }
}

/// What a token is by what stands before it.
#[derive(Clone, Copy, PartialEq, Eq)]
enum Role {
    Begin,
    Token,
    Declared,
    Start,
    Started,
    Mark,
    Left,
    Colon,
    Used,
    Bar,
    Semi,
}

/// Behind each the classes that may follow, and what they are there.
type Row = (Role, &'static [(Class, Role)]);
const ROWS: [Row; 11] = [
    (Role::Begin, DEF),
    (Role::Token, LISTED),
    (Role::Declared, DECLARED),
    (Role::Start, STARTED),
    (Role::Started, DEF),
    (Role::Mark, RULE),
    (Role::Left, &[(Class::Colon, Role::Colon)]),
    (Role::Colon, BODY),
    (Role::Used, BODY),
    (Role::Bar, BODY),
    (Role::Semi, RULE),
];

const DEF: &[(Class, Role)] = &[
    (Class::Token, Role::Token),
    (Class::Start, Role::Start),
    (Class::Mark, Role::Mark),
];
const LISTED: &[(Class, Role)] = &[
    (Class::Name, Role::Declared),
    (Class::Literal, Role::Declared),
];
const STARTED: &[(Class, Role)] = &[
    (Class::Name, Role::Started),
    (Class::Literal, Role::Started),
];
const DECLARED: &[(Class, Role)] = &[
    (Class::Name, Role::Declared),
    (Class::Literal, Role::Declared),
    (Class::Token, Role::Token),
    (Class::Start, Role::Start),
    (Class::Mark, Role::Mark),
];
const RULE: &[(Class, Role)] = &[(Class::Name, Role::Left)];
const BODY: &[(Class, Role)] = &[
    (Class::Name, Role::Used),
    (Class::Literal, Role::Used),
    (Class::Bar, Role::Bar),
    (Class::Semi, Role::Semi),
];

/// A token, with its place and the place behind it.
#[derive(Clone, Copy)]
struct Met {
    class: Class,
    role: Role,
    from: usize,
    past: usize,
}

/// The tokens of a text of the grammar.
fn tokens(text: &[u8]) -> Option<Vec<Met>> {
    if text.len() > BYTES || text.contains(&0) {
        return None;
    }
    let mut out: Vec<Met> = vec![];
    let (mut role, mut at) = (Role::Begin, 0);
    while at < text.len() {
        let rest = &text[at..];
        let mut here = CLASSES.iter().map(|(class, taken)| (*class, taken(rest)));
        let (class, taken) = here.find(|c| c.1 > 0)?;
        let (from, past) = (at, at + taken);
        at = past;
        if matches!(class, Class::White | Class::Comment) {
            continue;
        }
        let row = ROWS.iter().find(|r| r.0 == role)?.1;
        role = row.iter().find(|f| f.0 == class)?.1;
        out.push(Met {
            class,
            role,
            from,
            past,
        });
    }
    let starts = out.iter().filter(|m| m.role == Role::Start).count();
    (role == Role::Semi && starts <= 1).then_some(out)
}

/// Ids by their numbers, and the place where each got its number.
#[derive(Default)]
struct Numbered<'a> {
    numbers: BTreeMap<&'a [u8], usize>,
    places: Vec<usize>,
}

/// By first occurrence.
fn numbered<'a>(ids: impl Iterator<Item = (&'a [u8], usize)>) -> Numbered<'a> {
    let mut out = Numbered::default();
    for (id, place) in ids {
        let next = out.places.len();
        match out.numbers.entry(id) {
            Entry::Vacant(entry) => {
                entry.insert(next);
                out.places.push(place);
            }
            Entry::Occupied(_) => {}
        }
    }
    out
}

/// A body: its rule's left side, its ids, the place of the `|` or `;` behind it.
struct Body {
    left: Met,
    ids: Vec<Met>,
    end: usize,
}

fn bodies(met: &[Met]) -> Vec<Body> {
    let mut out = vec![];
    let (mut left, mut ids) = (met[0], vec![]);
    for &m in met {
        match m.role {
            Role::Left => left = m,
            Role::Used => ids.push(m),
            Role::Bar | Role::Semi => {
                let ids = std::mem::take(&mut ids);
                let end = m.from;
                out.push(Body { left, ids, end });
            }
            _ => {}
        }
    }
    out
}

/// What is read: the table, the places, the start's nonterminal.
pub struct Read {
    pub records: Vec<[u16; 4]>,
    pub places: Vec<u16>,
    pub start: u16,
}

/// The first row that holds refuses.
fn first_of(rows: &[(u16, usize, bool)]) -> Result<(), Refusal> {
    match rows.iter().find(|row| row.2) {
        Some(&(number, place, _)) => refuse(number, place),
        None => Ok(()),
    }
}

/// `read_yacc`, lent so many words for the table and for the places.
pub fn read(text: &[u8], lent: [usize; 2]) -> Result<Read, Refusal> {
    let Some(met) = tokens(text) else {
        return refuse(20, 0);
    };
    let id = |m: &Met| &text[m.from..m.past];
    let is_left = |m: &&Met| m.role == Role::Left;
    let is_token =
        |m: &&Met| m.role == Role::Declared || m.role == Role::Used && m.class == Class::Literal;
    let lefts = numbered(met.iter().filter(is_left).map(|m| (id(m), m.from)));
    let tokens = numbered(met.iter().filter(is_token).map(|m| (id(m), m.from)));
    let on_left = |m: &Met| lefts.numbers.contains_key(id(m));
    let a_token = |m: &Met| tokens.numbers.contains_key(id(m));
    let started = met.iter().find(|m| m.role == Role::Started);
    let nowhere = |m: &Met| m.role == Role::Used && !on_left(m) && !a_token(m);
    let both = |m: &Met| m.role == Role::Left && a_token(m);
    let no_start = started.is_some_and(|m| !on_left(m));
    let misnamed = met.iter().any(|m| nowhere(m) || both(m)) || no_start;

    let bodies = bodies(&met);
    let (n, t, p) = (lefts.places.len(), tokens.places.len(), bodies.len());
    let too_many = n > NONTERMINALS || t > TERMINALS || p > PRODUCTIONS;
    let long = bodies.iter().position(|b| b.ids.len() > SYMBOLS);
    let first_production = 2 + n;
    let symbols: usize = bodies.iter().map(|b| b.ids.len()).sum();
    let no_room = lent[0] / 4 < first_production + p + symbols || lent[1] < n + t;
    first_of(&[
        (21, 0, misnamed),
        (2, 0, too_many),
        (5, first_production + long.unwrap_or(0), long.is_some()),
        (17, 0, no_room),
    ])?;

    let mut table = Table {
        terminals: t as u16,
        nonterminals: vec![vec![]; n],
        productions: vec![],
        states: vec![State::default()],
    };
    let symbol = |m: &Met| match lefts.numbers.get(id(m)) {
        Some(&nonterminal) => (0, nonterminal as u16),
        None => (1, tokens.numbers[id(m)] as u16),
    };
    for body in &bodies {
        let (from, past) = match (body.ids.first(), body.ids.last()) {
            (Some(first), Some(last)) => (first.from, last.past),
            _ => (body.end, body.end),
        };
        let nonterminal = lefts.numbers[id(&body.left)];
        table.productions.push(Production {
            nonterminal: nonterminal as u16,
            symbols: body.ids.iter().map(symbol).collect(),
            span: (from as u16, past as u16),
        });
    }
    for (p, production) in (0..).zip(&table.productions) {
        table.nonterminals[production.nonterminal as usize].push(p);
    }
    let places = lefts.places.iter().chain(&tokens.places);
    Ok(Read {
        records: spelled(&table),
        places: places.map(|&place| place as u16).collect(),
        start: started.map_or(0, |m| lefts.numbers[id(m)] as u16),
    })
}

fn written((kind, number): Sym) -> String {
    format!("{}{number}", ["N", "T"][kind as usize])
}

/// `write_yacc` into so many bytes.
pub fn write(table: &[u16], lent: usize) -> Result<Vec<u8>, Refusal> {
    let table = decode(table)?;
    let mut lines: Vec<Vec<String>> = vec![];
    if table.terminals > 0 {
        let names = (0..table.terminals).map(|t| written((1, t)));
        lines.push(std::iter::once("%token".into()).chain(names).collect());
    }
    lines.push(vec!["%%".into()]);
    for p in &table.productions {
        let mut line = vec![written((0, p.nonterminal)), ":".into()];
        line.extend(p.symbols.iter().map(|&s| written(s)));
        line.push(";".into());
        lines.push(line);
    }
    let text: String = lines.iter().map(|line| line.join(" ") + "\n").collect();
    let firsts: Vec<Option<&u16>> = table.nonterminals.iter().map(|of| of.first()).collect();
    let none = firsts.contains(&None);
    let turned = firsts.windows(2).any(|two| two[0] >= two[1]);
    first_of(&[(23, 0, none || turned), (17, 0, text.len() > lent)])?;
    Ok(text.into_bytes())
}
