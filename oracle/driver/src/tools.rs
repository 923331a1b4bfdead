//! Yacc texts against byacc and bison, outside the tests: files that all should
//! read, with numbers by the tools' own output; then the classes of texts that
//! docs/YACC.md has in its last table; then files with one byte changed.

use crate::generate::Rng;
use crate::table::*;
use crate::yacc::{Read, read};
use crate::yaccs::{self, ROOM, bent};
use std::cell::Cell;
use std::collections::{BTreeMap, BTreeSet};
use std::path::PathBuf;
use std::process::Command;

/// What a tool says of a file: nothing if it refuses it, or dies of a signal (as
/// byacc does of some comments).
struct Tools {
    folder: PathBuf,
    died: Cell<usize>,
}

impl Tools {
    fn run(&self, tool: &str, arguments: &[&str], text: &[u8]) -> bool {
        std::fs::write(self.folder.join("g.y"), text).unwrap();
        let mut command = Command::new(tool);
        command.current_dir(&self.folder).env("LC_ALL", "C");
        let told = command.args(arguments).arg("g.y").output().expect(tool);
        let died = told.status.code().is_none();
        self.died.set(self.died.get() + died as usize);
        told.status.success()
    }

    fn file(&self, name: &str) -> String {
        let bytes = std::fs::read(self.folder.join(name)).unwrap();
        String::from_utf8_lossy(&bytes).into()
    }

    /// The lines of the rules, and the names that it defines.
    fn byacc(&self, text: &[u8]) -> Option<(Vec<String>, Vec<String>)> {
        if !self.run("byacc", &["-v", "-d", "-b", "b"], text) {
            return None;
        }
        let rules = self.file("b.output");
        let rules = (rules
            .lines()
            .take_while(|l| l.is_empty() || l.starts_with(' ')))
        .filter(|l| !l.is_empty())
        .map(|l| l.trim_end().into());
        let names = self.file("b.tab.h");
        let names = (names.lines().filter_map(|l| l.strip_prefix("#define ")))
            .filter_map(|l| Some(l.split_once(' ')?.0.into()));
        Some((rules.collect(), names.collect()))
    }

    /// Its report.
    fn bison(&self, text: &[u8]) -> Option<String> {
        let arguments = ["--report=none", "-o", "/dev/null", "--xml=g.xml"];
        self.run("bison", &arguments, text)
            .then(|| self.file("g.xml"))
    }
}

/// An id as both tools print it.
fn shown(id: &[u8]) -> String {
    match id {
        [b'\'', byte, b'\''] => match byte {
            7..=13 => format!("'\\{}'", b"abtnvfr"[*byte as usize - 7] as char),
            32..=126 => format!("'{}'", *byte as char),
            _ => format!("'\\{byte:03o}'"),
        },
        _ => String::from_utf8_lossy(id).into(),
    }
}

/// What is read, with the names that stand at its places.
struct Named {
    table: Table,
    start: u16,
    names: [Vec<String>; 2],
}

impl Named {
    fn new(text: &[u8], read: &Read) -> Named {
        let table = decode(&read.records.concat()).ok().unwrap();
        let name = |&place: &u16| {
            let rest = &text[place as usize..];
            let run = |b: &u8| b.is_ascii_alphanumeric() || b"._".contains(b);
            match rest[0] {
                b'\'' => shown(&rest[..3]),
                _ => shown(&rest[..rest.iter().position(|b| !run(b)).unwrap_or(rest.len())]),
            }
        };
        let (lefts, tokens) = read.places.split_at(table.nonterminals.len());
        Named {
            start: read.start,
            names: [lefts, tokens].map(|places| places.iter().map(name).collect()),
            table,
        }
    }

    fn name(&self, (kind, number): Sym) -> &str {
        &self.names[kind as usize][number as usize]
    }

    /// As byacc numbers and prints them.
    fn lines(&self) -> Vec<String> {
        let mut out = vec![format!(
            "   0  $accept : {} $end",
            self.name((0, self.start))
        )];
        let mut before = None;
        for (p, production) in self.table.productions.iter().enumerate() {
            let left = self.name((0, production.nonterminal));
            let mut line = if before == Some(left) {
                format!("{:4}  {} |", p + 1, " ".repeat(left.len()))
            } else {
                format!("{:4}  {left} :", p + 1)
            };
            for &symbol in &production.symbols {
                line += " ";
                line += self.name(symbol);
            }
            before = Some(left);
            out.push(line.trim_end().into());
        }
        out
    }

    /// Whether each production derives something and is reached, by which bison
    /// puts the others last.
    fn of_use(&self) -> Vec<bool> {
        let productions = &self.table.productions;
        let (mut derives, mut reached) = (BTreeSet::new(), BTreeSet::from([self.start]));
        for _ in 0..productions.len() + 1 {
            for p in productions {
                if p.symbols.iter().all(|s| s.0 == 1 || derives.contains(&s.1)) {
                    derives.insert(p.nonterminal);
                }
            }
        }
        let whole = |p: &Production| p.symbols.iter().all(|s| s.0 == 1 || derives.contains(&s.1));
        for _ in 0..productions.len() + 1 {
            for p in productions {
                if reached.contains(&p.nonterminal) && whole(p) {
                    reached.extend(p.symbols.iter().filter(|s| s.0 == 0).map(|s| s.1));
                }
            }
        }
        let used = |p: &Production| reached.contains(&p.nonterminal) && whole(p);
        productions.iter().map(used).collect()
    }

    /// Rules as bison's report has them, a list of left side and symbols each,
    /// and the terminals by number.
    fn reported(&self) -> (Vec<Vec<String>>, Vec<String>) {
        let accept = ["$accept", self.name((0, self.start)), "$end"];
        let mut rules = vec![accept.map(String::from).to_vec()];
        let used = self.of_use();
        for wanted in [true, false] {
            for (production, _) in
                (self.table.productions.iter().zip(&used)).filter(|p| *p.1 == wanted)
            {
                let left = self.name((0, production.nonterminal));
                let symbols = production.symbols.iter().map(|&s| self.name(s));
                rules.push(
                    std::iter::once(left)
                        .chain(symbols)
                        .map(String::from)
                        .collect(),
                );
            }
        }
        (rules, self.names[1].clone())
    }
}

fn unescaped(text: &str) -> String {
    let signs = [
        ("&lt;", "<"),
        ("&gt;", ">"),
        ("&quot;", "\""),
        ("&amp;", "&"),
    ];
    signs.iter().fold(text.into(), |text: String, (from, to)| {
        text.replace(from, to)
    })
}

/// The rules and the terminals of bison's report.
fn report(xml: &str) -> (Vec<Vec<String>>, Vec<String>) {
    let mut rules: Vec<Vec<String>> = vec![];
    let mut terminals: BTreeMap<usize, String> = BTreeMap::new();
    let within = |line: &str, from: &str, to: &str| -> Option<String> {
        Some(unescaped(line.strip_prefix(from)?.strip_suffix(to)?))
    };
    let grammar = xml.split_once("</grammar>").unwrap().0;
    for line in grammar.lines().map(str::trim) {
        if let Some(left) = within(line, "<lhs>", "</lhs>") {
            rules.push(vec![left]);
        } else if let Some(symbol) = within(line, "<symbol>", "</symbol>") {
            rules.last_mut().unwrap().push(symbol);
        } else if line.starts_with("<terminal ") {
            let value = |name: &str| {
                let from = line.split_once(&format!(" {name}=\"")).unwrap().1;
                unescaped(from.split_once('"').unwrap().0)
            };
            terminals.insert(value("symbol-number").parse().unwrap(), value("name"));
        }
    }
    // The end, `error` and what is undefined are its own.
    (
        rules,
        terminals
            .into_iter()
            .filter(|t| t.0 > 2)
            .map(|t| t.1)
            .collect(),
    )
}

/// The first difference of a text that is read here.
fn differs(tools: &Tools, text: &[u8], read: &Read) -> Option<String> {
    let mine = Named::new(text, read);
    let Some((rules, names)) = tools.byacc(text) else {
        return Some("byacc refuses".into());
    };
    let lines = mine.lines();
    if lines != rules {
        return Some(format!("{lines:?}, byacc {rules:?}"));
    }
    // It defines what is a name of C.
    let named = mine.names[1].iter().filter(|n| !n.contains(['\'', '.']));
    let named: Vec<String> = named.cloned().collect();
    if names != named {
        return Some(format!("{named:?}, byacc {names:?}"));
    }
    let Some(xml) = tools.bison(text) else {
        return Some("bison refuses".into());
    };
    let (here, there) = (mine.reported(), report(&xml));
    (here != there).then(|| format!("{here:?}, bison {there:?}"))
}

/// A class of texts: its name, the answer here, whether byacc and bison read
/// it, and a text of it that stands between others: what is put before the
/// `%%`, behind it, and at the end.
type Kind = (&'static str, u16, [bool; 2], [&'static str; 3]);

const KINDS: [Kind; 43] = [
    ("nothing else", 0, [true, true], ["", "", ""]),
    ("a rule without `;`", 20, [true, true], ["", "q : 'q' ", ""]),
    ("`;;`", 20, [true, true], ["", "q : 'q' ;; ", ""]),
    (
        "`;` before `|`",
        20,
        [true, true],
        ["", "q : 'q' ; | ; ", ""],
    ),
    ("a second `%%`", 20, [true, true], ["", "", " %%"]),
    (
        "a second `%start`",
        20,
        [true, true],
        ["%start q %start q ", "q : ; ", ""],
    ),
    (
        "a number behind a token",
        20,
        [true, true],
        ["%token Q 999 ", "", ""],
    ),
    ("an escape", 20, [true, true], ["", "q : '\\n' ; ", ""]),
    ("a tag", 20, [true, true], ["%token <q> Q ", "", ""]),
    ("`%left`", 20, [true, true], ["%left Q ", "", ""]),
    (
        "`%prec`",
        20,
        [true, true],
        ["%left Q ", "q : %prec Q ; ", ""],
    ),
    ("an action", 20, [true, true], ["", "q : { } ; ", ""]),
    ("`%{ %}`", 20, [true, true], ["%{ %} ", "", ""]),
    ("`%union`", 20, [true, true], ["%union { int q; } ", "", ""]),
    (
        "a comma as white space",
        20,
        [true, true],
        ["%token Q,QQ ", "", ""],
    ),
    (
        "CR as white space",
        20,
        [true, true],
        ["%token Q\r\n", "", ""],
    ),
    (
        "VT as white space",
        20,
        [true, true],
        ["%token\x0bQ ", "", ""],
    ),
    ("a `//` comment", 20, [true, true], ["// q\n", "", ""]),
    ("a string", 20, [true, true], ["", "q : \"qq\" ; ", ""]),
    (
        "`;` in declarations",
        20,
        [true, true],
        ["%token Q ; ", "", ""],
    ),
    ("`;` before `:`", 20, [true, false], ["", "q ; : ; ", ""]),
    ("an empty `%token`", 20, [true, false], ["%token ", "", ""]),
    ("`%Token`", 20, [true, false], ["%Token Q ", "", ""]),
    ("`$` in a name", 20, [true, false], ["", "q$q : ; ", ""]),
    ("`'qq'`", 20, [true, false], ["", "q : 'qq' ; ", ""]),
    ("`''`", 20, [true, false], ["", "q : '' ; ", ""]),
    ("`-` in a name", 20, [false, true], ["", "q-q : ; ", ""]),
    (
        "`%token` among rules",
        20,
        [false, true],
        ["", "%token Q ; ", ""],
    ),
    (
        "a list behind `%start`",
        20,
        [false, true],
        ["%start q qq ", "q : 'q' ; qq : 'x' ; ", ""],
    ),
    ("byte 0 in a comment", 20, [true, true], ["/*\0*/ ", "", ""]),
    ("no rule", 20, [false, false], ["", "", ""]),
    (
        "a name in a body that nothing defines",
        21,
        [true, false],
        ["", "q : qq ; ", ""],
    ),
    (
        "a start that nothing defines",
        21,
        [false, false],
        ["%start qq ", "", ""],
    ),
    (
        "a literal as start",
        21,
        [false, false],
        ["%start 'q' ", "", ""],
    ),
    (
        "a token as start",
        21,
        [false, false],
        ["%token Q %start Q ", "", ""],
    ),
    (
        "a name that is both",
        21,
        [false, false],
        ["%token q ", "q : ; ", ""],
    ),
    (
        "`error` in a body",
        21,
        [true, true],
        ["", "q : error ; ", ""],
    ),
    (
        "`error` on a left side",
        0,
        [false, false],
        ["", "error : ; ", ""],
    ),
    (
        "`error` declared",
        0,
        [true, true],
        ["%token error ", "q : error ; ", ""],
    ),
    (
        "a start without a sentence",
        0,
        [true, false],
        ["%start q ", "q : q ; ", ""],
    ),
    (
        "`:.x` without a gap",
        0,
        [true, false],
        ["", "q :.q ; .q : ; ", ""],
    ),
    (
        "a token declared twice",
        0,
        [true, true],
        ["%token Q Q %token Q ", "", ""],
    ),
    (
        "a rule out of reach",
        0,
        [true, true],
        ["", "", " qq : qq 'q' ; "],
    ),
];

/// A text of a class: in a file that all read, without `%start`. No other name
/// has a `q`.
fn of_kind(kind: &Kind, seed: u64) -> Vec<u8> {
    let text = yaccs::tame_text(seed, false);
    let at = text.windows(2).position(|w| w == b"%%").unwrap();
    let [before, behind, last] = kind.3.map(str::as_bytes);
    let (defs, rules) = (&text[..at], &text[at + 2..]);
    let (defs, rules) = match kind.0 {
        "an empty `%token`" => (&b""[..], rules),
        "no rule" => (defs, &b""[..]),
        _ => (defs, rules),
    };
    [before, defs, b" %% ", behind, rules, last].concat()
}

/// What was compared, in numbers.
#[derive(Default)]
pub struct Tally {
    pub files: usize,
    pub productions: usize,
    pub symbols: usize,
    pub terminals: usize,
    /// Of each class: files, those that byacc and bison read, as expected.
    pub kinds: Vec<(&'static str, u16, [usize; 3], bool)>,
    /// Of files with a byte changed, by the answer here and whether byacc and
    /// bison read them.
    pub bent: BTreeMap<(u16, bool, bool), usize>,
    /// Files of which a tool died.
    pub died: usize,
}

/// Whether byacc and bison should read a text that is read here: not with
/// `error` on a left side; bison not where no sentence is derived, or a name
/// begins with a point.
fn expected(text: &[u8]) -> [bool; 2] {
    let mine = Named::new(text, &read(text, ROOM).ok().unwrap());
    let error = mine.names[0].iter().any(|n| n == "error");
    let point = mine.names.iter().flatten().any(|n| n.starts_with('.'));
    let sentence = mine.of_use().contains(&true);
    [!error, !error && !point && sentence]
}

fn answer(text: &[u8]) -> u16 {
    read(text, ROOM).err().map_or(0, |r| r.number)
}

/// So many files that all read, as many of classes, half as many with a byte
/// changed. Differences, if any.
pub fn compare(seed: u64, count: usize) -> (Tally, Vec<String>) {
    let folder = std::env::temp_dir().join(format!("yacc-{}", std::process::id()));
    std::fs::create_dir_all(&folder).unwrap();
    let died = Cell::new(0);
    let tools = Tools { folder, died };
    let mut tally = Tally::default();
    let mut found = vec![];
    let told = |text: &[u8], what: String| format!("{:?}\n{what}", String::from_utf8_lossy(text));
    for seed in seed.. {
        if tally.files == count || found.len() > 5 {
            break;
        }
        let text = yaccs::tame_text(seed, true);
        let Ok(read) = read(&text, ROOM) else {
            continue;
        };
        let died = tools.died.get();
        let what = differs(&tools, &text, &read);
        if tools.died.get() > died {
            continue;
        }
        found.extend(what.map(|what| told(&text, what)));
        let [nonterminals, terminals, _, productions] = read.records[0].map(usize::from);
        tally.files += 1;
        tally.productions += productions;
        tally.symbols += read.records.len() - 2 - nonterminals - productions;
        tally.terminals += terminals;
    }
    for kind in &KINDS {
        let (mut sums, mut good) = ([0; 3], true);
        let plain = (seed..).filter(|&seed| answer(&yaccs::tame_text(seed, false)) == 0);
        for text in plain
            .map(|seed| of_kind(kind, seed))
            .take(count / KINDS.len())
        {
            let died = tools.died.get();
            let here = answer(&text);
            let read = [tools.byacc(&text).is_some(), tools.bison(&text).is_some()];
            if tools.died.get() > died {
                continue;
            }
            sums = [
                sums[0] + 1,
                sums[1] + read[0] as usize,
                sums[2] + read[1] as usize,
            ];
            if (here, read) != (kind.1, kind.2) {
                if good {
                    found.push(told(&text, format!("{}: {here}, {read:?}", kind.0)));
                }
                good = false;
            }
        }
        tally.kinds.push((kind.0, kind.1, sums, good));
    }
    for seed in seed..seed + count as u64 / 2 {
        let mut rng = Rng::new(seed);
        let text = bent(&mut rng, &yaccs::tame_text(seed, true));
        let died = tools.died.get();
        let read = [tools.byacc(&text).is_some(), tools.bison(&text).is_some()];
        if tools.died.get() > died {
            continue;
        }
        let key = (answer(&text), read[0], read[1]);
        *tally.bent.entry(key).or_default() += 1;
        if key.0 == 0 && read != expected(&text) {
            found.push(told(&text, format!("a byte changed: {key:?}")));
        }
    }
    tally.died = tools.died.get();
    std::fs::remove_dir_all(&tools.folder).unwrap();
    (tally, found)
}
