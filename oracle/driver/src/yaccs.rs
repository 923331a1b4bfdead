//! Yacc texts to read, tables to write as such, and what tells one reading of docs/YACC.md from another.

use crate::answers::{YACC_PLACES, YACC_TABLE, YACC_WRITTEN};
use crate::generate::*;
use crate::layouts::scattered;
use crate::question::{Case, Question};
use crate::sample::Maker;
use crate::table::*;
use crate::yacc::{read, write};

/// Room for any table and its places, and for any text.
pub const ROOM: [usize; 2] = [8_840, 95];
pub const WRITTEN: usize = 9_468;

type Words = Vec<Vec<u8>>;

fn word(text: &str) -> Vec<u8> {
    text.as_bytes().to_vec()
}

// Texts of the grammar.

/// The letters of names; digits behind the first.
const LETTERS: &[u8] = b"abcxyzABNTZ._";
const NAMES: [&str; 12] = [
    "a", "b", "A", "B", "error", "token", "start", "N0", "T0", "_", ".", "yyparse",
];

fn name(rng: &mut Rng) -> Vec<u8> {
    if rng.chance(2) {
        return word(NAMES[rng.below(NAMES.len())]);
    }
    let mut out = vec![LETTERS[rng.below(LETTERS.len())]];
    let most = if rng.chance(30) { 200 } else { 4 };
    for _ in 0..rng.below(most) {
        let digit = rng.chance(3);
        out.push(if digit {
            b'0' + rng.below(10) as u8
        } else {
            LETTERS[rng.below(LETTERS.len())]
        });
    }
    out
}

fn tame_name(rng: &mut Rng) -> Vec<u8> {
    match name(rng) {
        id if id[0] == b'.' || id == b"error" => word("x"),
        id => id,
    }
}

fn literal(rng: &mut Rng) -> Vec<u8> {
    let some = b"+-*/();:|%,ab\r\t \"$";
    let byte = match rng.below(4) {
        0 => rng.from_to(128, 255) as u8,
        _ => some[rng.below(some.len())],
    };
    vec![b'\'', byte, b'\'']
}

/// Names and literals that differ.
fn ids(rng: &mut Rng, count: usize, make: fn(&mut Rng) -> Vec<u8>, not: &[Vec<u8>]) -> Words {
    let mut out: Words = vec![];
    for _ in 0..4 * count {
        let id = make(rng);
        if out.len() < count && !out.contains(&id) && !not.contains(&id) {
            out.push(id);
        }
    }
    out
}

/// What a text is made of.
struct File {
    /// Token lists; none is a place for `%start`.
    defs: Vec<Option<Words>>,
    start: Option<Vec<u8>>,
    /// Left side, bodies.
    rules: Vec<(Vec<u8>, Vec<Words>)>,
}

impl File {
    fn tokens(&self) -> Words {
        let mut out: Words = vec![];
        for def in &self.defs {
            match (def, &self.start) {
                (Some(list), _) => {
                    out.push(word("%token"));
                    out.extend(list.iter().cloned());
                }
                (None, Some(id)) => out.extend([word("%start"), id.clone()]),
                (None, None) => {}
            }
        }
        out.push(word("%%"));
        for (left, bodies) in &self.rules {
            out.extend([left.clone(), word(":")]);
            for (k, body) in bodies.iter().enumerate() {
                if k > 0 {
                    out.push(word("|"));
                }
                out.extend(body.iter().cloned());
            }
            out.push(word(";"));
        }
        out
    }
}

/// A file that is read, but for now and then 2 or 5. Where other tools are to
/// agree, `tame`, every nonterminal derives a sentence, none is named `error` or
/// begins with a point.
fn file(rng: &mut Rng, tame: bool) -> File {
    let most = if rng.chance(8) { 12 } else { 4 };
    let count = rng.from_to(1, most);
    let name: fn(&mut Rng) -> Vec<u8> = if tame { tame_name } else { name };
    let lefts = ids(rng, count, name, &[]);
    let most = if rng.chance(12) { 20 } else { 4 };
    let count = rng.below(most);
    let mut tokens = ids(rng, count, name, &lefts);
    let count = rng.below(3);
    let mut literals = ids(rng, count, literal, &[]);
    // Some are declared, all may be used.
    let mut declared = tokens.clone();
    declared.extend(literals.iter().filter(|_| rng.chance(3)).cloned());
    rng.shuffle(&mut declared);
    let mut defs: Vec<Option<Words>> = vec![];
    while !declared.is_empty() {
        let many = rng.from_to(1, declared.len().min(6));
        let mut list: Words = declared.drain(..many).collect();
        if rng.chance(6) {
            list.push(list[0].clone());
        }
        defs.push(Some(list));
    }
    if let Some(Some(first)) = defs.first().cloned()
        && rng.chance(6)
    {
        defs.push(Some(first));
    }
    defs.insert(rng.below(defs.len() + 1), None);
    let start = rng.chance(2).then(|| lefts[rng.below(lefts.len())].clone());
    let mut used = lefts.clone();
    used.append(&mut tokens);
    used.append(&mut literals);
    let longest = if rng.chance(20) { 17 } else { 4 };
    let mut rules = vec![];
    for k in 0..lefts.len() + rng.below(3) {
        let left = match k {
            _ if k < lefts.len() => k,
            _ => rng.below(lefts.len()),
        };
        let most = if rng.chance(20) { 30 } else { 4 };
        let mut bodies: Vec<Words> = (0..rng.from_to(1, most))
            .map(|_| {
                let length = rng.below(longest + 1);
                (0..length)
                    .map(|_| used[rng.below(used.len())].clone())
                    .collect()
            })
            .collect();
        if tame && k < lefts.len() {
            bodies.push(vec![]);
        }
        rules.push((lefts[left].clone(), bodies));
    }
    if rng.chance(3) && !tame {
        rng.shuffle(&mut rules);
    }
    File { defs, start, rules }
}

/// Something that 21 refuses, or that is no file of the grammar.
fn spoil(rng: &mut Rng, file: &mut File) {
    let left = file.rules[rng.below(file.rules.len())].0.clone();
    let last = file.rules.len() - 1;
    match rng.below(7) {
        0 => file.rules[rng.below(last + 1)].1[0].push(name(rng)),
        1 => file.start = Some(name(rng)),
        2 => file.start = Some(literal(rng)),
        3 => file.defs.push(Some(vec![left])),
        4 => file.defs.push(Some(vec![])),
        5 => file.defs.push(None),
        _ => file.rules.truncate(last),
    }
}

/// One token taken away, doubled, exchanged or put in.
fn misplace(rng: &mut Rng, tokens: &mut Words) {
    let signs = ["%token", "%start", "%%", ":", "|", ";", "a", "'a'"];
    let at = rng.below(tokens.len());
    match rng.below(4) {
        0 => drop(tokens.remove(at)),
        1 => tokens.insert(at, tokens[at].clone()),
        2 => tokens.swap(at, at.saturating_sub(1)),
        _ => tokens.insert(at, word(signs[rng.below(signs.len())])),
    }
}

fn goes_on(b: u8) -> bool {
    b.is_ascii_alphanumeric() || b == b'.' || b == b'_'
}

fn comment(rng: &mut Rng) -> Vec<u8> {
    let some = b"**// \n'a;:%\"\\\xff{";
    let mut inside: Vec<u8> = (0..rng.below(8))
        .map(|_| some[rng.below(some.len())])
        .collect();
    while let Some(at) = inside.windows(2).position(|w| w == b"*/") {
        inside.remove(at);
    }
    [b"/*", &inside[..], b"*/"].concat()
}

/// White bytes and comments; in style 0 none, in style 1 a space or a line.
fn gap(rng: &mut Rng, style: usize) -> Vec<u8> {
    match (style, rng.below(8)) {
        (0, _) => vec![],
        (1, 0..7) => vec![b' '],
        (1, _) => vec![b'\n'],
        (_, 0..3) => vec![],
        (_, 3) => comment(rng),
        (_, 4) => [vec![b' '], comment(rng), comment(rng)].concat(),
        _ => (0..rng.from_to(1, 3))
            .map(|_| b" \t\n\x0c"[rng.below(4)])
            .collect(),
    }
}

/// Tokens with gaps, at least where two runs would join (or rarely not).
fn laid(rng: &mut Rng, tokens: &[Vec<u8>], style: usize) -> Vec<u8> {
    let mut out = gap(rng, style);
    let runs = |t: &[u8]| t[0] != b'\'' && goes_on(t[t.len() - 1]);
    for (k, token) in tokens.iter().enumerate() {
        out.extend(token);
        let between = gap(rng, style);
        let next = tokens.get(k + 1).is_some_and(|t| goes_on(t[0]));
        if between.is_empty() && runs(token) && next && !rng.chance(300) {
            out.push(b' ');
        }
        out.extend(between);
    }
    out
}

fn text(rng: &mut Rng) -> Vec<u8> {
    let mut file = file(rng, false);
    if rng.chance(4) {
        spoil(rng, &mut file);
    }
    let style = rng.below(3);
    laid(rng, &file.tokens(), style)
}

/// A text that other tools should read too, with `%start` or not.
pub fn tame_text(seed: u64, started: bool) -> Vec<u8> {
    let mut rng = Rng::new(seed ^ 0x7961_6363);
    let mut file = file(&mut rng, true);
    if !started {
        file.start = None;
    }
    let style = rng.below(3);
    laid(&mut rng, &file.tokens(), style)
}

/// A byte changed, cut, doubled, put in; a part cut, doubled or moved.
pub fn bent(rng: &mut Rng, text: &[u8]) -> Vec<u8> {
    const BYTES: &[u8] = b"\0\x0a\x0b\x0d\x0c\\'\"%*/:;|,.$-_{}<0aA \xff";
    let mut out = text.to_vec();
    let at = rng.below(out.len());
    let to = (at + rng.from_to(1, 9)).min(out.len());
    let byte = match rng.below(3) {
        0 => rng.below(256) as u8,
        _ => BYTES[rng.below(BYTES.len())],
    };
    match rng.below(8) {
        0 | 1 => out[at] = byte,
        2 => out.insert(at, byte),
        3 => drop(out.remove(at)),
        4 => out.insert(at, out[at]),
        5 => drop(out.drain(at..to)),
        6 => drop(out.splice(at..at, text[at..to].to_vec())),
        _ => out.truncate(at),
    }
    out
}

/// Places of every sort in a text, a byte missing at each.
const HOLES: [(&str, &str); 28] = [
    ("", "%%a:;"),
    ("%%a:;", ""),
    ("%%a:", ";"),
    ("%%a", ":;"),
    ("%%a:a", "a;"),
    ("%%a:a", ";"),
    ("%%a:", "a;"),
    ("%%a:'", "';"),
    ("%%a:'a", "';"),
    ("%%a:'a'", ";"),
    ("%%a:'a", ";"),
    ("%", "a:;"),
    ("%%", "a:;"),
    ("%token", " A%%a:;"),
    ("%token ", "%%a:;"),
    ("%token A", "%%a:A;"),
    ("%toke", " A%%a:;"),
    ("%start", "a%%a:;"),
    ("%start a", "%%a:;"),
    ("/", "*/%%a:;"),
    ("/*", "*/%%a:;"),
    ("/*", "/%%a:;/**/"),
    ("/**", "/%%a:;/**/"),
    ("/*a*", "%%a:;/**/"),
    ("%%a:;/*", ""),
    ("%%a:;/**", ""),
    ("%%a:|", "|;"),
    ("%%a:;", ":;"),
];

fn filled(hole: usize, byte: u8) -> Vec<u8> {
    let (head, tail) = HOLES[hole % HOLES.len()];
    [head.as_bytes(), &[byte], tail.as_bytes()].concat()
}

// Limits and one past them.

/// So many nonterminals, names declared, literals in bodies, productions, and
/// symbols of each.
struct Size {
    nonterminals: usize,
    names: usize,
    literals: usize,
    productions: usize,
    /// A production, and how many symbols it has.
    longest: (usize, usize),
    /// How many the others have.
    symbols: usize,
}

const FULL: Size = Size {
    nonterminals: 32,
    names: 50,
    literals: 13,
    productions: 128,
    longest: (127, 16),
    symbols: 16,
};

fn left(n: usize) -> Vec<u8> {
    format!("n{n}").into_bytes()
}

/// Every literal's byte, from the highest.
fn literals() -> impl Iterator<Item = Vec<u8>> {
    let bytes = (1..=255u8).rev().filter(|b| !matches!(b, 10 | 39 | 92));
    bytes.map(|b| vec![b'\'', b, b'\''])
}

fn sized(size: &Size) -> Vec<u8> {
    let names: Words = (0..size.names)
        .map(|t| format!("t{t}").into_bytes())
        .collect();
    let mut used: Words = names.clone();
    used.extend(literals().take(size.literals));
    used.push(left(0));
    let mut turn = (0..used.len()).rev().cycle();
    let mut rules: Vec<(Vec<u8>, Vec<Words>)> = vec![];
    for p in 0..size.productions {
        let length = if p == size.longest.0 {
            size.longest.1
        } else {
            size.symbols
        };
        let body = (0..length)
            .map(|_| used[turn.next().unwrap()].clone())
            .collect();
        if p < size.nonterminals {
            rules.push((left(p), vec![]));
        }
        rules.last_mut().unwrap().1.push(body);
    }
    let defs = if names.is_empty() {
        vec![]
    } else {
        vec![Some(names)]
    };
    let file = File {
        defs,
        start: None,
        rules,
    };
    let tokens = file.tokens();
    laid(&mut Rng::new(1), &tokens, 1)
}

/// A text of so many bytes, the others in front, behind, between or in a
/// comment or a name.
fn padded(bytes: usize, way: usize) -> Vec<u8> {
    let (head, fill, tail) = [
        ("", b' ', "%start b%%a:b|'c';b:;"),
        ("%token c%%a:b c;b:;", b'\n', ""),
        ("%%a:", b'\t', "b;b:;"),
        ("/*", b'*', "/%%a:b|;b:;"),
        ("/*", b'/', "*/%%a:b|;b:;"),
        ("%token A", b'A', "%%a:A;"),
        ("%%a", b'0', ":;"),
        ("%%a:'a'", b'|', ";"),
        ("%%a:", b'|', "b;b:;b:c;"),
        ("/*", b'*', ""),
    ][way % 10];
    let fill = vec![fill; bytes - head.len() - tail.len()];
    [head.as_bytes(), &fill, tail.as_bytes()].concat()
}

/// Names that differ, the shortest first.
fn short_name(mut k: usize) -> Vec<u8> {
    let first: Vec<u8> = (b'A'..=b'Z').chain(b'a'..=b'z').chain(*b"._").collect();
    let more: Vec<u8> = first.iter().copied().chain(b'0'..=b'9').collect();
    let mut out = vec![first[k % first.len()]];
    k /= first.len();
    while k > 0 {
        k -= 1;
        out.push(more[k % more.len()]);
        k /= more.len();
    }
    out
}

/// So many names declared, on left sides, or used in bodies; of some texts a
/// last one that nothing defines.
fn many_names(count: usize, way: usize) -> Vec<u8> {
    let joined = |between: &[u8], behind: &[u8]| -> Vec<u8> {
        let names = (1..=count).map(short_name).map(|n| [&n, behind].concat());
        names.collect::<Words>().join(between)
    };
    match way % 6 {
        0 => [b"%token ", &joined(b" ", b"")[..], b"%%A:;"].concat(),
        1 => [b"%token ", &joined(b" ", b"")[..], b"%%A:A0000;"].concat(),
        2 => [b"%%", &joined(b"", b":;")[..]].concat(),
        3 => [b"%%", &joined(b"", b":;")[..], b"A:A0000;"].concat(),
        4 => [b"%%A:", &joined(b" ", b"")[..], b";"].concat(),
        _ => [
            b"%token ",
            &joined(b" ", b"")[..],
            b"%%A:",
            &joined(b"|", b"")[..],
            b";",
        ]
        .concat(),
    }
}

/// Two long names that differ in one byte, or of which one goes on.
fn long_names(length: usize, way: usize) -> Vec<u8> {
    let one = vec![b'x'; length];
    let mut two = one.clone();
    match way % 4 {
        0 => two[0] = b'y',
        1 => two[length - 1] = b'y',
        2 => drop(two.pop()),
        _ => {}
    }
    [b"%token ", &one[..], b" ", &two, b"%%a:", &two[..], b";"].concat()
}

/// The seeds of limits that differ.
const LIMITS: u64 = 60;

fn limit(turn: u64) -> (&'static str, Vec<u8>) {
    let of = |(nonterminals, names, literals): (usize, usize, usize)| {
        sized(&Size {
            nonterminals,
            names,
            literals,
            symbols: 1,
            ..FULL
        })
    };
    let long = |longest| {
        sized(&Size {
            longest,
            symbols: 1,
            ..FULL
        })
    };
    match turn % LIMITS {
        0 => ("2,210 records", sized(&FULL)),
        1 => ("33 nonterminals", of((33, 50, 13))),
        2 => ("64 terminals, 51 declared", of((32, 51, 13))),
        3 => ("64 terminals, 14 literals", of((32, 50, 14))),
        4 => ("63 literals", of((32, 0, 63))),
        5 => ("64 literals", of((32, 0, 64))),
        6 => ("63 names", of((1, 63, 0))),
        7 => ("64 names", of((1, 64, 0))),
        8 => (
            "129 productions",
            sized(&Size {
                productions: 129,
                symbols: 0,
                ..FULL
            }),
        ),
        9 => ("17 symbols of the first", long((0, 17))),
        10 => ("17 symbols of the last", long((127, 17))),
        11 => ("17 symbols of one between", long((40, 17))),
        12 => (
            "128 productions with 17 symbols",
            sized(&Size {
                symbols: 17,
                ..FULL
            }),
        ),
        13 => (
            "all above",
            sized(&Size {
                nonterminals: 33,
                names: 64,
                literals: 1,
                productions: 129,
                longest: (3, 17),
                symbols: 2,
            }),
        ),
        k @ 14..24 => ("65,535 bytes", padded(65_535, k as usize - 14)),
        k @ 24..34 => ("65,536 bytes", padded(65_536, k as usize - 24)),
        k @ 34..40 => ("thousands of names", many_names(8_000, k as usize - 34)),
        k @ 40..46 => ("names", many_names(63, k as usize - 40)),
        46 => ("17,000 names", many_names(17_000, 0)),
        47 => ("17,000 names, one more", many_names(17_000, 1)),
        k @ 48..52 => ("long names", long_names(21_000, k as usize)),
        52 => ("65,537 bytes", padded(65_537, 0)),
        53 => ("no byte", vec![]),
        54 => ("100,000 bytes", padded(100_000, 1)),
        55 => ("65,534 bytes", padded(65_534, 1)),
        k => ("hundreds of names", many_names(700, k as usize)),
    }
}

/// What may be lent for a text: all, then the table and the list at their ends
/// and one less.
fn lent(text: &[u8]) -> Vec<[usize; 2]> {
    let mut all = vec![ROOM];
    if let Ok(read) = read(text, ROOM) {
        let (words, places) = (4 * read.records.len(), read.places.len());
        all.extend([
            [words, places],
            [words - 1, places],
            [words - 4, places],
            [words + 3, places + 1],
            [words, places - 1],
            [words - 1, places - 1],
            [0, 0],
        ]);
    } else {
        all.push([0, 0]);
    }
    all
}

// Tables to write.

/// Nonterminals whose first productions ascend, with any symbols, items and
/// edges.
fn writable(rng: &mut Rng, big: bool) -> Table {
    let mut table = arbitrary_table(rng, big);
    let n = table.nonterminals.len();
    while table.productions.len() < n {
        table.productions.push(Production::default());
    }
    let mut lefts: Vec<u16> = (0..n as u16).collect();
    while lefts.len() < table.productions.len() {
        // Behind the nonterminal's own first.
        let at = rng.from_to(1, lefts.len());
        let most = *lefts[..at].iter().max().unwrap() as usize;
        lefts.insert(at, rng.below(most + 1) as u16);
    }
    table.nonterminals = vec![vec![]; n];
    for (p, production) in table.productions.iter_mut().enumerate() {
        production.nonterminal = lefts[p];
        table.nonterminals[lefts[p] as usize].push(p as u16);
    }
    table
}

/// The largest text: 32 nonterminals, 63 terminals, 128 productions, as many of
/// two digits as can be.
fn largest() -> Table {
    let mut table = empty_table(63, 32);
    for p in 0..128u16 {
        let left = if p < 32 { p } else { 10 + p % 22 };
        add_production(&mut table, left, vec![(1, 10 + p % 53); 16]);
    }
    table.states.push(State::default());
    table
}

fn rooms(table: &[u16]) -> Vec<usize> {
    let mut all = vec![WRITTEN, 0];
    if let Ok(text) = write(table, WRITTEN) {
        let bytes = text.len();
        all.extend([bytes, bytes - 1, bytes + 1, 1, bytes / 2]);
    }
    all
}

/// One change by which 23 may refuse: a nonterminal's productions given to its
/// neighbour, or those of two exchanged.
fn turned(rng: &mut Rng, table: &mut Table) {
    let n = table.nonterminals.len();
    let (a, b) = (rng.below(n), rng.below(n));
    let exchange = rng.chance(2);
    for production in &mut table.productions {
        let left = production.nonterminal as usize;
        if left == a {
            production.nonterminal = b as u16;
        } else if left == b && exchange {
            production.nonterminal = a as u16;
        }
    }
    table.nonterminals = vec![vec![]; n];
    for (p, production) in (0..).zip(&table.productions) {
        table.nonterminals[production.nonterminal as usize].push(p);
    }
}

fn to_write(rng: &mut Rng, seed: u64) -> Option<(Table, Vec<u16>)> {
    let big = rng.chance(6);
    let mut table = match seed % 40 {
        6 => largest(),
        _ if rng.chance(4) => arbitrary_table(rng, big),
        _ => writable(rng, big),
    };
    if seed % 40 != 6 && rng.chance(3) {
        turned(rng, &mut table);
    }
    let mut words = scattered(rng, &table)?;
    if rng.chance(6) {
        let at = rng.below(words.len());
        words[at] = rng.below(40) as u16;
    }
    Some((table, words))
}

/// Of eight seeds three give texts as files have them, one of tokens misplaced,
/// one of bytes changed, one a place with every byte, one a limit, one a table
/// to write.
pub fn case(seed: u64) -> Option<Case> {
    let mut rng = Rng::new(seed ^ 0x7961_6363);
    let mut out = Case::default();
    let ask = |out: &mut Case, text: &[u8], lent: [usize; 2]| {
        out.questions.push(Question::ReadYacc(text.to_vec(), lent));
    };
    match seed % 8 {
        0..3 => {
            for _ in 0..10 {
                let text = text(&mut rng);
                lent(&text)
                    .into_iter()
                    .for_each(|lent| ask(&mut out, &text, lent));
            }
        }
        3 => {
            let mut tokens = file(&mut rng, false).tokens();
            for _ in 0..30 {
                let mut other = tokens.clone();
                misplace(&mut rng, &mut other);
                if rng.chance(4) {
                    misplace(&mut rng, &mut other);
                }
                let style = rng.below(3);
                ask(&mut out, &laid(&mut rng, &other, style), ROOM);
                if rng.chance(8) {
                    tokens = file(&mut rng, false).tokens();
                }
            }
        }
        4 => {
            for _ in 0..10 {
                let text = text(&mut rng);
                for _ in 0..6 {
                    ask(&mut out, &bent(&mut rng, &text), ROOM);
                }
            }
        }
        5 => {
            let hole = (seed / 8) as usize;
            out.name = format!("{:?} with every byte", HOLES[hole % HOLES.len()]);
            (0..=255).for_each(|b| ask(&mut out, &filled(hole, b), ROOM));
        }
        7 => {
            let (name, text) = limit(seed / 8);
            out.name = name.into();
            lent(&text)
                .into_iter()
                .for_each(|lent| ask(&mut out, &text, lent));
        }
        _ => {
            let (_, words) = to_write(&mut rng, seed / 8)?;
            for bytes in rooms(&words) {
                out.questions.push(Question::WriteYacc(bytes));
            }
            // Read back.
            if let Ok(text) = write(&words, WRITTEN) {
                lent(&text)
                    .into_iter()
                    .for_each(|lent| ask(&mut out, &text, lent));
            }
            out.table = words;
        }
    }
    Some(out)
}

// The stored sample.

/// As much as tests/c/replay.c has.
const LENT: [usize; 2] = [YACC_TABLE, YACC_PLACES];

fn ask(m: &mut Maker, text: &[u8], lent: [usize; 2]) {
    m.ask(&[], &Question::ReadYacc(text.to_vec(), lent));
}

/// Texts, most of them as short as shows the point.
const TOLD: [&[u8]; 143] = [
    // What is read.
    b"%%a:;",
    b"%token A B\n%start b\n%%\na : A b\n  | \n  ;\nb : 'x' a B ;\n",
    b"%token'a''b'%%x:'a'|;",
    b"\t%%\n a\x0c:\t;\n ",
    b"%token A%start a%token B%%a:A B;",
    b"%start b%token B%%a:b;b:B;",
    b"%token A B/**/C%token/**/D%%a:D C B A;",
    // Rules, alternatives, the `;`.
    b"%%a:b;b:a|;",
    b"%%a:b|;b:;a:'x' b|a;b:'y';",
    b"%%a:",
    b"%%a:'b'",
    b"%%a:;b:'b'|",
    b"%%a:'x'\nb:'y';",
    b"%%a:b b:;",
    b"%%a:;;",
    b"%%a:;;b:;",
    b"%%a:;|'b';",
    b"%%;a:;",
    b"%%a:|;",
    b"%%a:||'b'||;",
    b"%%a:'b'|'c';",
    b"%%a;",
    b"%%a::;",
    b"%%:;",
    b"%%|;",
    b"%%'a':;",
    b"%%a b:;",
    b"a:;",
    b"%%",
    b"%token A",
    b"%token A%%",
    b"%%a:;%%",
    b"%%a:;%%\n",
    b"%%%%a:;",
    b"%%%token A a:A;",
    b"%%a:;%token A",
    b"%%a:{};",
    b"%%a:'b'%prec 'b';",
    b"%{%}%%a:;",
    b"%left A%%a:A;",
    // Lists, `%start`.
    b"%token%%a:;",
    b"%token%token A%%a:A;",
    b"%token A;%%a:A;",
    b"%token A,B%%a:A B;",
    b"%token A 257%%a:A;",
    b"%token <t> A%%a:A;",
    b"%Token A%%a:A;",
    b"%tokenA%%a:A;",
    b"%token1 A%%a:A;",
    b"%token.A%%a:A;",
    b"%starta%%a:;",
    b"% token A%%a:A;",
    b"%to/**/ken A%%a:A;",
    b"%/**/%a:;",
    b"%start a%%a:;",
    b"%start b%%a:;b:;",
    b"%start a%start a%%a:;",
    b"%start a%start b%%a:;b:;",
    b"%start a b%%a:;b:;",
    b"%start%%a:;",
    b"%%token:start;start:;",
    b"%start start%%token:start;start:;",
    // Names and literals.
    b"%%a1:_.;_.:.;.:;",
    b"%%1a:;",
    b"%%a-b:;",
    b"%%a$:;",
    b"%%A:a;a:;",
    b"%%A:a;",
    b"%%a:ab;ab:a;",
    b"%%a:'a'b;b:a'a';",
    b"%%a:'%''|'';'':''/''*''\"';",
    b"%%a:'\t''\r'' '',';",
    b"%%a:'\xe9''\xff''\x80''\x01';",
    b"%%a:'\xc3\xa9';",
    b"%%a:'';",
    b"%%a:''';",
    b"%%a:'ab';",
    b"%%a:'\\';",
    b"%%a:'\\n';",
    b"%%a:'\\'';",
    b"%%a:'\n';",
    b"%%a:'a;",
    b"%%a:'",
    b"%%a:\"b\";",
    b"%%a:'\0';",
    // Gaps.
    b"%%\ra:;",
    b"%%\r\na:;\r\n",
    b"%%\x0ba:;",
    b"%%a:;\0",
    b"/*\0*/%%a:;",
    b"/**/%%a:;",
    b"/***/%%a:;",
    b"/****/%%a:;",
    b"/*/%%a:;",
    b"/*/*/%%a:;",
    b"/*/%%a:;/**/%%b:'b';",
    b"/* /* */%%a:;",
    b"/* /* */ */%%a:;",
    b"/* * / */%%a:;",
    b"/*%%a:;*/%%b:;",
    b"%%a:;/*",
    b"%%a:;/**",
    b"%%a:;/",
    b"%%a:a/**/b;b:;",
    b"%%a/**/b:;",
    b"%%a:'/*'*/';",
    b"//b\n%%a:;",
    b"%%a:/*x*/'b'/*y*/a/*z*/|/*u*/;",
    b"%%a: 'b' 'c' | a ;",
    // Numbers and places.
    b"%%b:c a;c:;a:b;",
    b"%%c:b;a:;b:a c;",
    b"%token A B%%a:B A;",
    b"%token A%token A%%a:A;",
    b"%token A B A%token B C%%a:C;",
    b"%token 'a' a%%x:'a' a;",
    b"%%a:'a' a|'b';",
    b"%token 'a'%%a:'a';",
    b"%token T%%a:'x' T 'y';",
    b"%token 'y' T%%a:'x' T 'y';",
    b"%token A 'b' C%%a:'d' 'b';",
    b"%token A%token 'x'%%a:A 'y' 'x' 'y';",
    b"%start b%%a:'x';b:'y';",
    b"%start c%token C B%%a:c;b:'x'|B;c:a|C;",
    b"%token A%%a:;",
    b"%%a:'x' 'y' 'x';b:'y' 'z';",
    // 21.
    b"%%a:b;",
    b"%%a:;b:a c;",
    b"%token a%%a:;",
    b"%token a%%b:;a:;",
    b"%%b:'x';a:b;%",
    b"%token b%%a:b;b:;",
    b"%start c%%a:;",
    b"%start 'a'%%a:'a';",
    b"%start 'a'%%a:;",
    b"%start 'a'%token 'a'%%a:;",
    b"%token b%start b%%a:b;",
    b"%start A%%a:;",
    b"%%a:error;",
    b"%token error%%a:error;",
    b"%%error:;a:error;",
    b"%start b%%a:b;",
    b"%token a%start a%%a:;",
    b"%%a:yyerrok;yyerrok:;",
];

/// Some bytes at every sort of place.
fn holes(m: &mut Maker) {
    let some = b"\0\x0b\x0d\x0c'*/;aA0.$\xff";
    for hole in 0..HOLES.len() {
        for turn in 0..4 {
            let byte = some[(3 * hole + 5 * turn) % some.len()];
            ask(m, &filled(hole, byte), LENT);
        }
    }
}

/// Limits and one past them, two at once, room at its ends.
fn limits(m: &mut Maker) {
    let full = sized(&FULL);
    for lent in [[8_840, 95], [8_839, 95]] {
        ask(m, &full, lent);
    }
    for turn in (1..12).chain(13..34).chain([40, 41, 42, 43, 44, 45, 53]) {
        let (_, text) = limit(turn);
        ask(m, &text, LENT);
        // 17 goes behind all others.
        if turn < 14 {
            ask(m, &text, [0, 0]);
        }
    }
    for way in 0..6 {
        ask(m, &many_names(300, way), LENT);
    }
    for way in 0..4 {
        ask(m, &long_names(300, way), LENT);
    }
    // All literals, 63 at a time.
    let all: Words = literals().collect();
    for some in all.chunks(63) {
        ask(m, &[b"%%a:", &some.join(&b'|')[..], b";"].concat(), LENT);
    }
    // 21 and 2, 21 and 5, 2 and 5; then 17 too.
    let [symbols, bodies] = ["a ".repeat(17), "|".repeat(128)];
    let (long, many) = (format!("a:{symbols};"), format!("a:{bodies};"));
    for text in [
        format!("%%{many}{long}"),
        format!("%%{many}b:c;"),
        format!("%%{long}b:c;"),
        format!("%%a:;{long}b:{symbols};"),
        format!("%%b:;a:;b:;{long}"),
        format!("%token A%start b%%b:A;{long}"),
    ] {
        ask(m, text.as_bytes(), LENT);
        ask(m, text.as_bytes(), [7, 0]);
    }
    for text in [TOLD[0], TOLD[1], TOLD[8]] {
        for lent in lent(text) {
            ask(m, text, lent);
        }
    }
}

/// Nonterminals' productions by their left sides alone.
fn of_lefts(terminals: u16, nonterminals: usize, lefts: &[u16]) -> Table {
    let mut table = empty_table(terminals, nonterminals);
    for (k, &left) in (0..).zip(lefts) {
        let symbols = (0..k % 3).map(|s| match terminals {
            0 => (0, left),
            _ => (
                (k + s) % 2,
                if (k + s) % 2 == 0 {
                    left
                } else {
                    s % terminals
                },
            ),
        });
        add_production(&mut table, left, symbols.collect());
    }
    table.states.push(State::default());
    table
}

fn writing(m: &mut Maker) {
    let mut at_ends = |table: &[u16]| {
        for bytes in rooms(table) {
            m.ask(table, &Question::WriteYacc(bytes));
        }
    };
    let words = |table: &Table| table.encode(true, || 0).unwrap();
    at_ends(&table_b());
    at_ends(&table_c());
    for (terminals, nonterminals, lefts) in [
        (0, 1, &[0][..]),
        (0, 2, &[0, 1, 0]),
        (1, 1, &[0, 0]),
        (11, 3, &[0, 1, 0, 2, 1]),
    ] {
        at_ends(&words(&of_lefts(terminals, nonterminals, lefts)));
    }
    let mut once = |table: &[u16], bytes: usize| {
        m.ask(table, &Question::WriteYacc(bytes));
    };
    for (terminals, nonterminals, lefts) in [
        (0, 1, &[][..]),
        (63, 1, &[]),
        (2, 2, &[0]),
        (2, 2, &[1]),
        (2, 2, &[1, 0]),
        (2, 3, &[0, 2, 1]),
        (2, 3, &[0, 1, 1]),
        (2, 3, &[1, 2, 0]),
        (2, 3, &[0, 0, 1, 0, 2]),
        (63, 32, &[0]),
    ] {
        let table = words(&of_lefts(terminals, nonterminals, lefts));
        once(&table, YACC_WRITTEN);
        // 23 goes before 17.
        once(&table, 0);
    }
    for bytes in [9_458, 9_457] {
        once(&words(&largest()), bytes);
    }
    let up: Vec<u16> = (0..32).collect();
    once(&words(&of_lefts(63, 32, &up)), YACC_WRITTEN);
    let all: Vec<u16> = up.iter().copied().chain(vec![31; 96]).collect();
    once(&words(&of_lefts(63, 32, &all)), YACC_WRITTEN);
    // 1 to 8 go before 23 and 17.
    let (good, turned) = (table_b(), words(&of_lefts(2, 2, &[1, 0])));
    for table in [good, turned] {
        for (at, word) in [
            (0, 0),
            (3, 200),
            (4, 1),
            (4, 0),
            (7, 1),
            (table.len() - 2, 9),
        ] {
            let mut bad = table.clone();
            bad[at] = word;
            once(&bad, YACC_WRITTEN);
            once(&bad, 0);
        }
        once(&table[..table.len() - 1], 0);
    }
    once(&[], 0);
}

pub fn yaccs(m: &mut Maker) {
    for text in TOLD {
        ask(m, text, LENT);
    }
    holes(m);
    limits(m);
    writing(m);
    m.out.seeds += "yacc: seeds 0 to 39\n";
    for seed in 0..40 {
        let mut rng = Rng::new(seed ^ 0x7961_6363);
        let text = text(&mut rng);
        ask(m, &text, LENT);
        ask(m, &bent(&mut rng, &text), LENT);
        if let Some((_, words)) = to_write(&mut rng, seed).filter(|w| w.1.len() < 400) {
            m.ask(&words, &Question::WriteYacc(YACC_WRITTEN));
        }
    }
}
