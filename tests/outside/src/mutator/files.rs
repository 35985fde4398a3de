//! Changes to one file, and files to be read alone.

use super::values::edge_value;
use super::{one_of, PICKED_FILES, WRONG_FILES};
use crate::generator::{self, any_axles, join_lines, Size, Values};
use crate::random::Random;
use crate::reference::kinds::Kind;
use crate::reference::lines::{LONGEST_FILE, LONGEST_LINE};
use crate::reference::places::Triple;
use crate::reference::tables::{table, FILES};

type Lines = Vec<Vec<u8>>;

/// The lines of a text, without CR LF; bytes behind the last CR LF are one more line.
pub fn lines_of(text: &[u8]) -> Lines {
    let mut lines = Vec::new();
    let mut line = Vec::new();
    let mut at = 0;
    while at < text.len() {
        if text[at..].starts_with(b"\r\n") {
            lines.push(std::mem::take(&mut line));
            at += 2;
        } else {
            line.push(text[at]);
            at += 1;
        }
    }
    if !line.is_empty() {
        lines.push(line);
    }
    lines
}

/// A text with its sections, and the entries of each, in the opposite order.
pub fn turned(text: &[u8]) -> Vec<u8> {
    let mut sections: Vec<Lines> = Vec::new();
    for line in lines_of(text) {
        match sections.last_mut() {
            Some(section) if !is_heading(&line) => section.push(line),
            _ => sections.push(vec![line]),
        }
    }
    for section in &mut sections {
        section[1..].reverse();
    }
    sections.reverse();
    join_lines(&sections.concat())
}

fn is_heading(line: &[u8]) -> bool {
    line.starts_with(b"[")
}

/// The place of the first `=` of an entry line, or its end.
fn equals_sign(line: &[u8]) -> usize {
    let at = line.iter().position(|byte| *byte == b'=');
    at.unwrap_or(line.len())
}

pub fn name_of(line: &[u8]) -> &[u8] {
    &line[..equals_sign(line)]
}

pub fn value_of(line: &[u8]) -> &[u8] {
    line.get(equals_sign(line) + 1..).unwrap_or(&[])
}

pub fn with_value(line: &[u8], value: &[u8]) -> Vec<u8> {
    [name_of(line), b"=", value].concat()
}

/// Sets the value of the first entry of this name.
pub fn set_value(text: &mut Vec<u8>, name: &str, value: &[u8]) {
    let mut lines = lines_of(text);
    let named = |line: &&mut Vec<u8>| !is_heading(line) && name_of(line) == name.as_bytes();
    if let Some(line) = lines.iter_mut().find(named) {
        *line = with_value(line, value);
        *text = join_lines(&lines);
    }
}

/// The number of a line that fits, if there is one.
pub fn pick_line(
    random: &mut Random,
    lines: &Lines,
    fits: impl Fn(&[u8]) -> bool,
) -> Option<usize> {
    let numbers: Vec<usize> = (0..lines.len()).filter(|at| fits(&lines[*at])).collect();
    (!numbers.is_empty()).then(|| random.pick(&numbers))
}

fn pick_heading(random: &mut Random, lines: &Lines) -> Option<usize> {
    pick_line(random, lines, is_heading)
}

fn pick_entry(random: &mut Random, lines: &Lines) -> Option<usize> {
    pick_line(random, lines, |line| !is_heading(line))
}

/// The kind of the entry on this line.
fn kind_of(file: u32, line: &[u8]) -> Option<Kind> {
    let sections = table(file).sections.iter();
    let mut entries = sections.flat_map(|section| &section.entries);
    let entry = entries.find(|entry| entry.name.as_bytes() == name_of(line))?;
    Some(entry.kind)
}

/// A change to the bytes of a file.
type ChangeBytes = fn(&mut Random, u32, &mut Vec<u8>);

/// A change to the lines of a file; None where it does not apply.
pub type ChangeLines = fn(&mut Random, u32, &mut Lines) -> Option<()>;

enum Change {
    Bytes(ChangeBytes),
    ByLines(ChangeLines),
}

use Change::{ByLines, Bytes};

/// The changes to one file, with names and weights.
const CHANGES: &[(&str, usize, Change)] = &[
    ("byte", 6, Bytes(change_byte)),
    ("cut", 1, Bytes(cut)),
    ("long file", 2, Bytes(long_file)),
    ("line end damaged", 4, Bytes(damage_line_end)),
    ("line dropped", 2, ByLines(drop_line)),
    ("entries dropped", 8, ByLines(drop_entries)),
    ("line doubled", 3, ByLines(double_line)),
    ("line moved", 3, ByLines(move_line)),
    ("lines swapped", 2, ByLines(swap_lines)),
    ("headings swapped", 2, ByLines(swap_headings)),
    ("heading changed", 4, ByLines(change_heading)),
    ("axle renumbered", 3, ByLines(renumber_axle)),
    ("axle added", 2, ByLines(add_axle)),
    ("section dropped", 3, ByLines(drop_section)),
    ("section doubled", 2, ByLines(double_section)),
    ("section moved", 2, ByLines(move_section)),
    ("entry before any heading", 2, ByLines(entry_before_heading)),
    ("name changed", 4, ByLines(change_name)),
    ("values at their edges", 16, ByLines(values_at_edges)),
    (
        "value of a single entry's kind",
        8,
        ByLines(value_of_single_kind),
    ),
    ("# before a value", 6, ByLines(change_hash)),
    ("empty filled", 6, ByLines(fill_empty)),
    ("filled emptied", 10, ByLines(empty_filled)),
    ("value of another entry", 2, ByLines(other_value)),
    ("long line", 4, ByLines(long_line)),
    ("line form", 5, ByLines(line_form)),
];

/// The changes to single entries: absent, of another kind or empty.
pub const CHANGES_OF_ENTRIES: [ChangeLines; 3] = [drop_entries, values_at_edges, empty_filled];

/// Changes one file so that it is most often refused by this number, which is one of 3 to 11.
pub fn change_towards(random: &mut Random, number: u32, file: u32, text: &mut Vec<u8>) {
    let change: ChangeLines = match number {
        3 => return long_file(random, file, text),
        4 => line_form,
        5 => change_heading,
        6 => change_name,
        7 => drop_section,
        8 => drop_entries,
        9 => values_at_edges,
        10 => empty_filled,
        _ => return text.clear(),
    };
    // Each applies to a file with lines.
    change_lines(random, file, text, change);
}

/// Changes one file once; the name of the change, or None where it did not apply.
pub fn change_file(random: &mut Random, file: u32, text: &mut Vec<u8>) -> Option<&'static str> {
    let all: usize = CHANGES.iter().map(|(_, weight, _)| weight).sum();
    let mut at = random.below(all);
    for (name, weight, change) in CHANGES {
        if at >= *weight {
            at -= weight;
            continue;
        }
        match change {
            Bytes(change) => change(random, file, text),
            ByLines(change) => change_lines(random, file, text, *change)?,
        }
        return Some(name);
    }
    unreachable!("the weights sum to {all}")
}

/// Changes the lines of a file once; None where the change does not apply.
pub fn change_lines(
    random: &mut Random,
    file: u32,
    text: &mut Vec<u8>,
    change: ChangeLines,
) -> Option<()> {
    let mut lines = lines_of(text);
    change(random, file, &mut lines)?;
    *text = join_lines(&lines);
    Some(())
}

fn change_byte(random: &mut Random, _file: u32, text: &mut Vec<u8>) {
    if text.is_empty() {
        return;
    }
    let at = random.below(text.len());
    match random.below(6) {
        0..=1 => text[at] ^= 1 << random.below(8),
        2 => text[at] = random.byte(),
        3 => text[at] = random.between(0x20, 0x7E) as u8,
        4 => {
            text.remove(at);
        }
        _ => text.insert(at, random.byte()),
    }
}

fn cut(random: &mut Random, _file: u32, text: &mut Vec<u8>) {
    match random.below(3) {
        0 => text.truncate(random.below(text.len() + 1)),
        1 => text.truncate(text.len().saturating_sub(random.between(1, 2))),
        _ => {
            let count = random.between(1, 4);
            text.extend(random.bytes(count));
        }
    }
}

/// A file of the longest length, one more, or far more.
fn long_file(random: &mut Random, _file: u32, text: &mut Vec<u8>) {
    let length = random.pick(&[
        LONGEST_FILE - 1,
        LONGEST_FILE,
        LONGEST_FILE + 1,
        LONGEST_FILE + 2,
        70_000,
    ]);
    let more: &[u8] = random.pick(&[b"Note=\r\n", b"[xxx]\r\n", b"xx=yy\r\n", b"xxxxxxx"]);
    match random.below(3) {
        0 => text.clear(),
        1 => text.truncate(random.below(text.len() + 1)),
        _ => {}
    }
    while text.len() < length {
        let room = length - text.len();
        text.extend(&more[..more.len().min(room)]);
    }
    if random.chance(50) {
        text.truncate(length - 2);
        text.extend(b"\r\n");
    }
}

fn damage_line_end(random: &mut Random, _file: u32, text: &mut Vec<u8>) {
    let ends: Vec<usize> = (0..text.len())
        .filter(|at| text[*at..].starts_with(b"\r\n"))
        .collect();
    if ends.is_empty() {
        return;
    }
    let at = match random.below(4) {
        0 => ends[ends.len() - 1],
        1 => ends[0],
        _ => random.pick(&ends),
    };
    let damaged: &[&[u8]] = &[
        b"\r",
        b"\n",
        b"",
        b"\n\r",
        b"\r\r\n",
        b"\r\n\n",
        b"\r\n\r",
        b"\r\n\r\n",
        b"\n\n",
        b"\r\n\0",
        b"\r\n\x1A",
        b" \r\n",
        b"\r \n",
        b"\t\r\n",
        b"\x7F\r\n",
    ];
    text.splice(at..at + 2, random.pick(damaged).iter().copied());
}

fn drop_line(random: &mut Random, _file: u32, lines: &mut Lines) -> Option<()> {
    let at = pick_line(random, lines, |_| true)?;
    lines.remove(at);
    Some(())
}

/// One to three entries dropped.
fn drop_entries(random: &mut Random, _file: u32, lines: &mut Lines) -> Option<()> {
    for _ in 0..random.between(1, 3) {
        let at = pick_entry(random, lines)?;
        lines.remove(at);
    }
    Some(())
}

fn double_line(random: &mut Random, _file: u32, lines: &mut Lines) -> Option<()> {
    let at = pick_line(random, lines, |_| true)?;
    let to = match random.below(3) {
        0 => at + 1,
        1 => lines.len(),
        _ => random.below(lines.len() + 1),
    };
    lines.insert(to, lines[at].clone());
    Some(())
}

fn move_line(random: &mut Random, _file: u32, lines: &mut Lines) -> Option<()> {
    let at = pick_line(random, lines, |_| true)?;
    let line = lines.remove(at);
    lines.insert(random.below(lines.len() + 1), line);
    Some(())
}

fn swap_lines(random: &mut Random, _file: u32, lines: &mut Lines) -> Option<()> {
    let a = pick_line(random, lines, |_| true)?;
    let b = random.below(lines.len());
    lines.swap(a, b);
    Some(())
}

fn swap_headings(random: &mut Random, _file: u32, lines: &mut Lines) -> Option<()> {
    let a = pick_heading(random, lines)?;
    let b = pick_heading(random, lines)?;
    lines.swap(a, b);
    (a != b).then_some(())
}

fn change_heading(random: &mut Random, _file: u32, lines: &mut Lines) -> Option<()> {
    let at = pick_heading(random, lines)?;
    let heading = lines[at].clone();
    lines[at] = match random.below(8) {
        0 => heading.to_ascii_lowercase(),
        1 => heading.to_ascii_uppercase(),
        2 => [&heading[..], b" "].concat(),
        3 => heading[..heading.len() - 1].to_vec(),
        4 => [b" ", &heading[..]].concat(),
        _ => one_of(
            random,
            "[DatiLibrettoVeicolo]|[Deriva]|[DerivaAsse_1]|[DerivaAsse_0]|[DerivaAsse_01]|\
             [DerivaAsse_10]|[DerivaAsse_]|[DerivaAsse_a]|[Sospensioni]|[SospensioniAsse_1]|\
             [SospensioniAsse_0]|[SospensioniAsse_10]|[AnalisiGas]|[GasAnalysis]|\
             [AnalisiGasAlimentazione_1]|[AnalisiGasAlimentazione_2]|[AnalisiOpacita]|\
             [AnalisiOpacita_1]|[OpacityAnalysis]|[]|[a=b]|[|[x|[x] |]",
        ),
    };
    Some(())
}

/// The heading of an axle with another number, or one that is no axle's.
fn other_axle(random: &mut Random, file: u32) -> Option<Vec<u8>> {
    if !table(file).has_axles() {
        return None;
    }
    let first = table(file).sections[table(file).fixed].heading.as_bytes();
    let number = match random.below(3) {
        0 => one_of(random, "0|10|11|01||1 |A"),
        _ => one_of(random, "1|2|3|4|5|6|7|8|9"),
    };
    Some([&first[..first.len() - 2], &number, b"]"].concat())
}

fn renumber_axle(random: &mut Random, file: u32, lines: &mut Lines) -> Option<()> {
    let heading = other_axle(random, file)?;
    let at = pick_line(random, lines, |line| {
        is_heading(line) && line.contains(&b'_')
    })?;
    lines[at] = heading;
    Some(())
}

fn add_axle(random: &mut Random, file: u32, lines: &mut Lines) -> Option<()> {
    lines.push(other_axle(random, file)?);
    for entry in &table(file).sections[table(file).fixed].entries {
        let value = generator::value(random, entry.kind, Size::Mixed);
        lines.push([entry.name.as_bytes(), b"=", &value].concat());
    }
    Some(())
}

/// The lines of one section, taken out.
fn take_section(random: &mut Random, lines: &mut Lines) -> Option<Lines> {
    let start = pick_heading(random, lines)?;
    let next = (start + 1..lines.len()).find(|at| is_heading(&lines[*at]));
    Some(lines.drain(start..next.unwrap_or(lines.len())).collect())
}

fn drop_section(random: &mut Random, _file: u32, lines: &mut Lines) -> Option<()> {
    take_section(random, lines).map(|_| ())
}

fn double_section(random: &mut Random, _file: u32, lines: &mut Lines) -> Option<()> {
    let section = take_section(random, lines)?;
    lines.splice(0..0, section.iter().cloned());
    lines.extend(section);
    Some(())
}

fn move_section(random: &mut Random, _file: u32, lines: &mut Lines) -> Option<()> {
    let section = take_section(random, lines)?;
    lines.extend(section);
    Some(())
}

fn entry_before_heading(random: &mut Random, _file: u32, lines: &mut Lines) -> Option<()> {
    let at = pick_entry(random, lines)?;
    let line = match random.below(3) {
        0 => lines[at].clone(),
        1 => lines.remove(at),
        _ => b"=".to_vec(),
    };
    lines.insert(0, line);
    Some(())
}

fn change_name(random: &mut Random, _file: u32, lines: &mut Lines) -> Option<()> {
    let at = pick_entry(random, lines)?;
    let line = lines[at].clone();
    let (name, rest) = line.split_at(equals_sign(&line));
    let name = match random.below(8) {
        0 => name.to_ascii_lowercase(),
        1 => name.to_ascii_uppercase(),
        2 => [name, b" "].concat(),
        3 => [b" ", name].concat(),
        4 => name[..name.len().saturating_sub(1)].to_vec(),
        5 => Vec::new(),
        _ => one_of(
            random,
            "Targa|TargaNominale|DataScadSospensioni|DataScadenza|IDChiaveTRS|IDChiaveRS|Marca|\
             Note|Deriva|Aderenza%Sx|Differenza|COMin|LambdaMin|Alimentazione_2|\
             Alimentazione_1|TipoVeicolo|NumVersioneSoftwareContagiri|NumVersSoftwareContagiri|\
             NumGiriMotoreMin|ValoreK0|ValoreK9|OpacitaMedia",
        ),
    };
    lines[at] = [&name[..], rest].concat();
    Some(())
}

/// One to four values at the edges of their kinds.
fn values_at_edges(random: &mut Random, file: u32, lines: &mut Lines) -> Option<()> {
    for _ in 0..random.pick(&[1, 1, 1, 2, 3, 4]) {
        let at = pick_line(random, lines, |line| kind_of(file, line).is_some())?;
        let kind = kind_of(file, &lines[at])?;
        lines[at] = with_value(&lines[at], &edge_value(random, kind));
    }
    Some(())
}

/// A value at an edge of a kind that a single entry has, so that its edges are seldom met otherwise.
fn value_of_single_kind(random: &mut Random, file: u32, lines: &mut Lines) -> Option<()> {
    let is_single = |kind: Kind| {
        matches!(
            kind,
            Kind::FirstRegistration | Kind::Axles | Kind::Year | Kind::Plate | Kind::Temperature
        )
    };
    let at = pick_line(random, lines, |line| {
        kind_of(file, line).is_some_and(is_single)
    })?;
    let kind = kind_of(file, &lines[at])?;
    lines[at] = with_value(&lines[at], &edge_value(random, kind));
    Some(())
}

/// `#` put before a value, most often one that may be entered by hand, or taken away; put twice; alone.
fn change_hash(random: &mut Random, file: u32, lines: &mut Lines) -> Option<()> {
    let by_hand = |line: &[u8]| kind_of(file, line).is_some_and(Kind::may_be_by_hand);
    let at = match pick_line(random, lines, by_hand) {
        Some(at) if random.chance(60) => at,
        _ => pick_entry(random, lines)?,
    };
    let value = value_of(&lines[at]);
    let hashes = value.iter().take_while(|byte| **byte == b'#').count();
    let bare = &value[hashes..];
    let value = match random.below(5) {
        0..=1 => [b"#", bare].concat(),
        2 => bare.to_vec(),
        3 => [b"##", bare].concat(),
        _ => b"#".to_vec(),
    };
    lines[at] = with_value(&lines[at], &value);
    Some(())
}

/// One or two empty values filled.
fn fill_empty(random: &mut Random, file: u32, lines: &mut Lines) -> Option<()> {
    for _ in 0..random.pick(&[1, 1, 2]) {
        let at = pick_line(random, lines, |line| {
            kind_of(file, line).is_some() && value_of(line).is_empty()
        })?;
        let kind = kind_of(file, &lines[at])?;
        let size = Size::any(random);
        lines[at] = with_value(&lines[at], &generator::value(random, kind, size));
    }
    Some(())
}

/// One to three filled values emptied.
pub fn empty_filled(random: &mut Random, _file: u32, lines: &mut Lines) -> Option<()> {
    for _ in 0..random.pick(&[1, 1, 1, 2, 3]) {
        let at = pick_line(random, lines, |line| {
            !is_heading(line) && !value_of(line).is_empty()
        })?;
        lines[at] = with_value(&lines[at], b"");
    }
    Some(())
}

fn other_value(random: &mut Random, _file: u32, lines: &mut Lines) -> Option<()> {
    let a = pick_entry(random, lines)?;
    let b = pick_entry(random, lines)?;
    lines[a] = with_value(&lines[a], value_of(&lines[b]));
    Some(())
}

/// A line of the longest length, one less, or one more.
fn long_line(random: &mut Random, _file: u32, lines: &mut Lines) -> Option<()> {
    let length = random.pick(&[LONGEST_LINE - 1, LONGEST_LINE, LONGEST_LINE + 1, 600]);
    let at = pick_line(random, lines, |_| true)?;
    let mut line = lines[at].clone();
    if is_heading(&line) {
        line.resize(length - 1, b'x');
        line.push(b']');
    } else if random.chance(20) {
        line = vec![b'x'; length];
        line[random.below(length)] = b'=';
    } else {
        line.resize(length, b'9');
    }
    if random.chance(50) {
        lines[at] = line;
    } else {
        lines.insert(at, line);
    }
    Some(())
}

/// A line of wrong or unusual form, in place of a line or between two.
fn line_form(random: &mut Random, _file: u32, lines: &mut Lines) -> Option<()> {
    let form = if random.chance(60) {
        one_of(
            random,
            "Marca|Note|[|[x|[x] |]|x]|=x|=|[]|[a=b]|| |;Note=|Note =|[Deriva]=|==|[=]",
        )
    } else {
        let bytes: &[u8] = &[0x00, 0x09, 0x0A, 0x0D, 0x1F, 0x7F, 0x80, 0xFF];
        [b"Note=a", &[random.pick(bytes)][..], b"b"].concat()
    };
    let at = random.below(lines.len() + 1);
    if at < lines.len() && random.chance(50) {
        lines[at] = form;
    } else {
        lines.insert(at, form);
    }
    Some(())
}

/// A file to be read alone; its values and where they stand, if nothing was changed.
pub struct Alone {
    pub file: u32,
    pub text: Vec<u8>,
    pub lawful: Option<(Values, Vec<Triple>)>,
    pub changes: Vec<&'static str>,
}

/// A file right by its kinds alone, changed or not.
pub fn alone(random: &mut Random) -> Alone {
    let mut file = random.pick(PICKED_FILES);
    let axles = any_axles(random, file);
    let values = Values::by_kinds(random, file, axles);
    let (mut text, triples) = values.text_and_triples(random);
    let mut changes = Vec::new();
    match random.below(100) {
        0..=24 => {
            return Alone {
                file,
                text,
                lawful: Some((values, triples)),
                changes,
            }
        }
        25..=28 => {
            file = random.pick(WRONG_FILES);
            if random.chance(30) {
                text.clear();
            }
            changes.push("wrong file number");
        }
        29..=31 => {
            file = random.pick(&FILES);
            changes.push("another file number");
        }
        32..=33 => {
            text.clear();
            changes.push("empty");
        }
        34 => {
            let count = random.between(1, 100);
            text = random.bytes(count);
            changes.push("any bytes");
        }
        35..=54 => {
            change_lines(random, file, &mut text, values_at_edges);
            changes.push("values at their edges");
        }
        _ => {
            for _ in 0..random.pick(&[1, 1, 1, 1, 2, 3]) {
                changes.extend(change_file(random, file, &mut text));
            }
        }
    }
    Alone {
        file,
        text,
        lawful: None,
        changes,
    }
}
