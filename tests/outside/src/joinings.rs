//! The joinings of two drift files that a run must meet (02, 8/14), by call.

use crate::dates::{self, Date};
use crate::entries::{entries_to_agree, free_entries};
use crate::judge::Outcome;
use crate::measures::{self, Measure};
use crate::met::{
    Met, Wanted, JOINED, JOINED_19, JOINED_JUDGED, JOINED_READ, JOIN_18, JOIN_20, JOIN_21,
    JOIN_INPUT, JOIN_TURNED,
};
use crate::mutator::joinings::LONGEST;
use crate::reference::kinds::Kind;
use crate::reference::places::{triples_of, Triple};
use crate::reference::tables::{table, Entry, DRIFT, MOST_AXLES};
use crate::reference::Refusal;

/// A file handed in to be joined, and what reading it alone gave.
pub struct Input<'a> {
    text: &'a [u8],
    read: &'a Outcome,
}

/// The first and the second.
pub type Inputs<'a> = [Input<'a>; 2];

impl<'a> Input<'a> {
    pub fn new(text: &'a [u8], read: &'a Outcome) -> Input<'a> {
        Input { text, read }
    }

    fn axles(&self) -> usize {
        self.read.answer[3] as usize
    }

    /// Its entries in table order, if it is read.
    fn entries(&self) -> impl Iterator<Item = (&'static Entry, Triple)> + 'a {
        let sections = table(DRIFT).sections(self.axles()).iter();
        let entries = sections.flat_map(|section| &section.entries);
        entries.zip(triples_of(DRIFT, &self.read.places))
    }

    /// Its values in table order: those of [Deriva], then one for each axle.
    fn values(&self) -> Vec<&'a [u8]> {
        let text = self.text;
        let entries = self.entries();
        entries.map(|(_, triple)| triple.value(text)).collect()
    }

    fn found(&self, name: &str) -> Triple {
        let mut entries = self.entries();
        let found = entries.find(|(entry, _)| entry.name == name);
        found.expect("an entry of the file").1
    }

    fn value(&self, name: &str) -> &'a [u8] {
        self.found(name).value(self.text)
    }

    fn measure(&self) -> Measure {
        Measure::new(measures::ENTRIES.map(|name| self.value(name)))
    }

    /// By what number and at what line it is refused: as it is read alone, or by 10 at the first entry that is due and
    /// empty.
    fn refusal(&self) -> Option<(u32, u32)> {
        let Refusal { number, line, .. } = self.read.refusal();
        if number > 0 {
            return Some((number, line));
        }
        let is_empty = |(entry, triple): &(&Entry, Triple)| {
            triple.length == 0 && !free_entries(DRIFT).contains(&entry.name.as_str())
        };
        let first = self.entries().find(is_empty);
        first.map(|(_, triple)| (10, triple.line))
    }

    /// The lines of its entries in table order.
    pub fn lines(&self) -> impl Iterator<Item = u32> + 'a {
        self.entries().map(|(_, triple)| triple.line)
    }

    fn is_in_table_order(&self) -> bool {
        self.lines().is_sorted()
    }

    /// The bytes of its axles' lines.
    fn length_of_axles(&self) -> usize {
        let sections = &table(DRIFT).sections(self.axles())[1..];
        let entries = sections.iter().zip(self.values().split_off(sixteen()));
        let length = |section: &str, name: &str, value: &[u8]| {
            section.len() + 2 + name.len() + 1 + value.len() + 2
        };
        entries
            .map(|(section, value)| length(&section.heading, &section.entries[0].name, value))
            .sum()
    }
}

/// How many entries [Deriva] has.
fn sixteen() -> usize {
    table(DRIFT).entry_count(0)
}

/// The refusal of the first input, else that of the second: "The inputs are judged first, the first one before the second,
/// by 11 and 3 to 10; a refusal names input 1 or 2 as its file."
fn refusal_of_input(inputs: &Inputs) -> Option<Refusal> {
    let mut refusals = inputs.iter().map(Input::refusal).zip(1..);
    refusals.find_map(|(refusal, input)| {
        let (number, line) = refusal?;
        Some(Refusal::new(number, input, line))
    })
}

/// Whether a joining is refused for an input as that is by itself, the first one before the second, and else by 20, 21 or
/// 18 alone.
pub fn is_right(inputs: &Inputs, outcome: &Outcome) -> bool {
    let found = outcome.refusal();
    match refusal_of_input(inputs) {
        Some(refusal) => found == refusal,
        None => matches!(found.number, 0 | 18 | 20 | 21),
    }
}

/// Whether a file, read alone, passes 3 to 10 and has the values and the axles of both inputs.
pub fn is_joined(inputs: &Inputs, file: &Input) -> bool {
    file.refusal().is_none()
        && file.axles() == axles_together(inputs)
        && file.values() == joined_values(inputs)
}

pub fn axles_together(inputs: &Inputs) -> usize {
    inputs.iter().map(Input::axles).sum()
}

/// The joined file's values in table order: "the first's start, the second's end and both files' axles, the second's
/// numbered on".
fn joined_values<'a>([first, second]: &Inputs<'a>) -> Vec<&'a [u8]> {
    let [_, _, end] = measures::ENTRIES;
    let at = place_of(end);
    let mut values = first.values();
    values[at] = second.value(end);
    values.extend(second.values().split_off(sixteen()));
    values
}

fn place_of(name: &str) -> usize {
    let mut entries = table(DRIFT).sections[0].entries.iter();
    let place = entries.position(|entry| entry.name == name);
    place.expect("an entry of [Deriva]")
}

/// The measure of the joined file.
pub fn joined_measure([first, second]: &Inputs) -> Measure {
    first.measure().joined(second.measure())
}

fn joined_length([first, second]: &Inputs) -> usize {
    first.text.len() + second.length_of_axles()
}

/// An input refused.
fn by_one(input: usize, number: u32) -> String {
    format!("input {input} by {number}, the other one right")
}

fn by_both(first: u32, second: u32) -> String {
    format!("input 1 by {first}, where input 2 alone is by {second}")
}

fn by_10_and_headings(input: usize) -> String {
    format!("input {input} by 10, where headings disagree")
}

fn axles(first: usize, second: usize) -> String {
    format!("{first} and {second} axles")
}

/// Sizes of the output beside the length of the joined file.
const NOTHING: &str = "an output of 0 bytes";
const LESS: &str = "several bytes less";
const ONE_LESS: &str = "one byte less";
const JUST: &str = "just the length";
const ONE_MORE: &str = "one byte more";
const MORE: &str = "several bytes more";
const TWICE: &str = "twice the length or more";
/// For every joined file.
const ENOUGH: &str = "an output long enough for all";

fn size(output: usize, length: usize) -> &'static str {
    match output {
        0 => NOTHING,
        _ if output + 1 == length => ONE_LESS,
        _ if output < length => LESS,
        _ if output == length => JUST,
        _ if output == length + 1 => ONE_MORE,
        _ if output < 2 * length => MORE,
        _ => TWICE,
    }
}

/// The orders of the lines of both inputs.
fn lines(in_table_order: [bool; 2]) -> String {
    let [first, second] = in_table_order.map(|is| if is { "the table's" } else { "another" });
    format!("input 1 in {first} order, input 2 in {second}")
}

fn filled(name: &str, is_filled: bool) -> String {
    let filled = if is_filled { "filled" } else { "empty" };
    format!("{name} {filled}")
}

/// The four times, which may come in any order.
const FOUR_TIMES: [&str; 4] = [
    "first's start",
    "first's end",
    "second's start",
    "second's end",
];

/// The names of four times that differ, the earliest first.
fn order_of_times(times: [u32; 4]) -> Option<String> {
    let mut named: Vec<(u32, &str)> = times.into_iter().zip(FOUR_TIMES).collect();
    named.sort();
    let differ = named.windows(2).all(|pair| pair[0].0 < pair[1].0);
    let names: Vec<&str> = named.into_iter().map(|(_, name)| name).collect();
    differ.then(|| names.join(", "))
}

const SAME_TIMES: &str = "first's times as the second's";
const SAME_FILE: &str = "the same file twice";
const LONGEST_FILE: &str = "the longest joined file";

/// A due date that does not cover a measure, which joining does not look at.
fn out_of_date(whose: &str) -> String {
    format!("out of date for the measure of {whose}")
}

/// Which of the entries that must agree do not.
fn alone(name: &str) -> String {
    format!("{name} alone")
}

fn before_others(name: &str) -> String {
    format!("{name} and others behind it in the table")
}

fn on_later_line(name: &str) -> String {
    format!("{name} on a later line of input 2 than another")
}

fn on_other_line(name: &str) -> String {
    format!("{name} on another line in input 1")
}

/// How two values of an entry differ.
const IN_CASE: &str = "in case alone";
const IN_LENGTH: &str = "in length, one being the other's beginning";
const IN_ZEROS: &str = "in zeros first";
const IN_ONE_BYTE: &str = "in one byte";
const ELSEWISE: &str = "elsewise";
const FILLED_IN_1: &str = "filled in input 1 alone";
const FILLED_IN_2: &str = "filled in input 2 alone";

fn differs(name: &str, way: &str) -> String {
    format!("{name} {way}")
}

fn way(first: &[u8], second: &[u8]) -> &'static str {
    let zeros = |value: &[u8]| value.iter().take_while(|byte| **byte == b'0').count();
    let behind_zeros = [first, second].map(|value| &value[zeros(value)..]);
    let bytes = first.iter().zip(second);
    let others = bytes.filter(|(one, other)| one != other).count();
    match (first, second) {
        (_, []) => FILLED_IN_1,
        ([], _) => FILLED_IN_2,
        _ if behind_zeros[0] == behind_zeros[1] => IN_ZEROS,
        _ if first.eq_ignore_ascii_case(second) => IN_CASE,
        _ if first.len() != second.len() && others == 0 => IN_LENGTH,
        _ if first.len() == second.len() && others == 1 => IN_ONE_BYTE,
        _ => ELSEWISE,
    }
}

/// How the values of an entry of this kind can differ where both are filled.
fn ways(kind: Kind) -> &'static [&'static str] {
    match kind {
        Kind::Text(_) => &[IN_CASE, IN_LENGTH, IN_ONE_BYTE, ELSEWISE],
        Kind::Number(_) => &[IN_ZEROS, IN_ONE_BYTE, ELSEWISE],
        Kind::Date => &[IN_ONE_BYTE, ELSEWISE],
        _ => &[ELSEWISE],
    }
}

const TOO_MANY_AXLES: &str = "and more than nine axles";

/// Inputs with their lines in the opposite order.
pub const TURNED: [(&str, [bool; 2]); 3] = [
    ("input 1", [true, false]),
    ("input 2", [false, true]),
    ("both inputs", [true, true]),
];

fn turned(inputs: &str, number: u32, file: u32) -> String {
    format!("{inputs}, answered by {number} with file {file}")
}

/// The joined measure in a set, beside the due date.
fn in_set(is_over_midnight: bool, beside: &str) -> String {
    let way = if is_over_midnight {
        "over midnight"
    } else {
        "within a day"
    };
    format!("joined {way}, due {beside}")
}

const THAT_DAY: &str = "the day on which it begins";
const NEXT_DAY: &str = "the next day";
const DAY_BEFORE: &str = "the day before";
const PAST_LAST_DAY: &str = "joined over the midnight behind the last day";

fn together(axles: usize) -> String {
    format!("{axles} axles together")
}

/// What a run must meet.
pub fn wanted() -> Vec<Wanted> {
    let mut wanted = Vec::new();
    for (call, all) in [
        (JOINED, accepted()),
        (JOIN_INPUT, of_refused_inputs()),
        (JOIN_20, of_disagreeing_entries()),
        (JOIN_21, of_too_many_axles()),
        (JOIN_18, [NOTHING, LESS, ONE_LESS].map(String::from).into()),
        (JOIN_TURNED, of_turned_inputs()),
        (JOINED_READ, (2..=MOST_AXLES).map(together).collect()),
        (JOINED_JUDGED, of_joined_in_sets()),
        (JOINED_19, of_joined_out_of_date()),
    ] {
        wanted.extend(all.into_iter().map(|what| (call, what)));
    }
    wanted
}

/// All pairs of axle counts that two right files can have, and whether they are too many together.
fn pairs_of_axles(too_many: bool) -> Vec<String> {
    let counts = 1..=MOST_AXLES;
    let pairs = counts.flat_map(|first| (1..=MOST_AXLES).map(move |second| (first, second)));
    let fitting = pairs.filter(|(first, second)| (first + second > MOST_AXLES) == too_many);
    fitting
        .map(|(first, second)| axles(first, second))
        .collect()
}

fn accepted() -> Vec<String> {
    let both = [true, false];
    let mut wanted = pairs_of_axles(false);
    wanted.extend([JUST, ONE_MORE, MORE, TWICE].map(String::from));
    wanted.extend([SAME_TIMES, SAME_FILE, LONGEST_FILE].map(String::from));
    wanted.extend(
        both.into_iter()
            .flat_map(|first| both.map(|second| lines([first, second]))),
    );
    for name in free_entries(DRIFT) {
        wanted.extend(both.map(|is_filled| filled(name, is_filled)));
    }
    wanted.extend(orders_of_times());
    wanted.extend(["input 1", "input 2", "the joined file"].map(out_of_date));
    wanted
}

/// The 24 orders of four times.
fn orders_of_times() -> Vec<String> {
    let mut orders = Vec::new();
    for number in 0..4u32.pow(4) {
        let times = [0, 1, 2, 3].map(|at| number / 4u32.pow(at) % 4);
        orders.extend(order_of_times(times));
    }
    orders
}

fn of_refused_inputs() -> Vec<String> {
    let numbers = 3..=11;
    let mut wanted: Vec<String> = [1, 2].map(by_10_and_headings).into();
    for number in numbers.clone() {
        wanted.extend([1, 2].map(|input| by_one(input, number)));
        wanted.extend(numbers.clone().map(|other| by_both(number, other)));
    }
    wanted
}

fn of_disagreeing_entries() -> Vec<String> {
    let mut wanted = vec![NOTHING.to_string(), TOO_MANY_AXLES.to_string()];
    let names: Vec<&str> = entries_to_agree()
        .map(|entry| entry.name.as_str())
        .collect();
    for name in &names[..names.len() - 1] {
        wanted.extend([before_others(name), on_later_line(name)]);
    }
    for entry in entries_to_agree() {
        let name = entry.name.as_str();
        wanted.extend([alone(name), on_other_line(name)]);
        wanted.extend(ways(entry.kind).iter().map(|way| differs(name, way)));
        if free_entries(DRIFT).contains(&name) {
            wanted.extend([FILLED_IN_1, FILLED_IN_2].map(|way| differs(name, way)));
        }
    }
    wanted
}

fn of_too_many_axles() -> Vec<String> {
    let outputs = [NOTHING, ENOUGH].map(String::from);
    [pairs_of_axles(true), outputs.into()].concat()
}

fn of_turned_inputs() -> Vec<String> {
    let answers = [(0, 0), (10, 1), (10, 2), (18, 0), (20, 2), (21, 0)];
    let both = TURNED.into_iter().flat_map(|(inputs, _)| {
        let turned = |(number, file)| turned(inputs, number, file);
        answers.map(turned)
    });
    both.collect()
}

fn of_joined_in_sets() -> Vec<String> {
    let counts = (2..=MOST_AXLES).map(together);
    let due = [in_set(true, NEXT_DAY), in_set(false, THAT_DAY)];
    counts.chain(due).collect()
}

fn of_joined_out_of_date() -> Vec<String> {
    vec![
        in_set(true, THAT_DAY),
        in_set(true, DAY_BEFORE),
        in_set(false, DAY_BEFORE),
        PAST_LAST_DAY.to_string(),
    ]
}

/// Notes a joining by its inputs, its output and its answer.
pub fn note(met: &mut Met, inputs: &Inputs, outcome: &Outcome) {
    let output = outcome.output.len();
    match outcome.answer[0] {
        0 => note_accepted(met, inputs, outcome),
        18 => met.count(JOIN_18, size(output, joined_length(inputs))),
        20 => note_disagreeing(met, inputs, output),
        21 => {
            met.count(JOIN_21, axles_of(inputs));
            note_output(met, JOIN_21, output);
        }
        _ => note_refused_input(met, inputs),
    }
}

fn axles_of([first, second]: &Inputs) -> String {
    axles(first.axles(), second.axles())
}

/// Notes an output that is too short for each joined file, or for none.
fn note_output(met: &mut Met, what: &'static str, output: usize) {
    if output == 0 {
        met.count(what, NOTHING);
    } else if output >= LONGEST {
        met.count(what, ENOUGH);
    }
}

fn note_accepted(met: &mut Met, inputs: &Inputs, outcome: &Outcome) {
    let [first, second] = inputs;
    let mut joined = |what: String| met.count(JOINED, what);
    let length = outcome.answer[3] as usize;
    joined(axles_of(inputs));
    joined(size(outcome.output.len(), length).to_string());
    joined(lines([first, second].map(Input::is_in_table_order)));
    for name in free_entries(DRIFT) {
        joined(filled(name, !first.value(name).is_empty()));
    }
    let measures = [first, second].map(Input::measure);
    let [one, other] = measures;
    if let Some(order) = order_of_times([one.start, one.finish, other.start, other.finish]) {
        joined(order);
    }
    if one == other {
        joined(SAME_TIMES.to_string());
    }
    if first.text == second.text {
        joined(SAME_FILE.to_string());
    }
    if length == LONGEST {
        joined(LONGEST_FILE.to_string());
    }
    let due = due_date(first);
    let measured = [one, other, joined_measure(inputs)];
    for (whose, measure) in ["input 1", "input 2", "the joined file"]
        .into_iter()
        .zip(measured)
    {
        if due < measure.end() {
            joined(out_of_date(whose));
        }
    }
}

fn due_date(input: &Input) -> Date {
    Date::from_digits(input.value("DataScadenza"))
}

fn note_refused_input(met: &mut Met, inputs: &Inputs) {
    let mut refused = |what| met.count(JOIN_INPUT, what);
    let [first, second] = inputs.each_ref().map(|input| input.refusal());
    match (first, second) {
        (Some((number, _)), None) => refused(by_one(1, number)),
        (None, Some((number, _))) => refused(by_one(2, number)),
        (Some((first, _)), Some((second, _))) => refused(by_both(first, second)),
        (None, None) => {}
    }
    let are_read = inputs.iter().all(|input| input.read.accepted());
    if are_read && disagreeing(inputs).next().is_some() {
        let input = if first.is_some() { 1 } else { 2 };
        refused(by_10_and_headings(input));
    }
}

/// The entries that must agree and do not, in table order.
fn disagreeing<'a>([first, second]: &'a Inputs) -> impl Iterator<Item = &'static str> + 'a {
    let names = entries_to_agree().map(|entry| entry.name.as_str());
    names.filter(|name| first.value(name) != second.value(name))
}

fn note_disagreeing(met: &mut Met, inputs: &Inputs, output: usize) {
    let [first, second] = inputs;
    let names: Vec<&str> = disagreeing(inputs).collect();
    let mut refused = |what: String| met.count(JOIN_20, what);
    let Some((name, others)) = names.split_first() else {
        return;
    };
    if others.is_empty() {
        refused(alone(name));
        refused(differs(name, way(first.value(name), second.value(name))));
    } else {
        refused(before_others(name));
    }
    let line = second.found(name).line;
    if others.iter().any(|other| second.found(other).line < line) {
        refused(on_later_line(name));
    }
    if first.found(name).line != line {
        refused(on_other_line(name));
    }
    if axles_together(inputs) > MOST_AXLES {
        refused(TOO_MANY_AXLES.to_string());
    }
    note_output(met, JOIN_20, output);
}

/// Notes a joining that was answered alike with its inputs in the opposite order.
pub fn note_turned(met: &mut Met, inputs: &str, refusal: Refusal) {
    met.count(JOIN_TURNED, turned(inputs, refusal.number, refusal.file));
}

/// Notes a joined file that was read alone.
pub fn note_read(met: &mut Met, axles: usize) {
    met.count(JOINED_READ, together(axles));
}

/// Notes a joined file that was judged in a set, accepted or refused by 19.
pub fn note_judged(met: &mut Met, measure: Measure, due: Date, outcome: &Outcome) {
    let beside = if due == measure.day {
        Some(THAT_DAY)
    } else if due == measure.day.next() {
        Some(NEXT_DAY)
    } else if due.next() == measure.day {
        Some(DAY_BEFORE)
    } else {
        None
    };
    let what = if outcome.accepted() {
        met.count(JOINED_JUDGED, together(outcome.axles(DRIFT) as usize));
        JOINED_JUDGED
    } else {
        JOINED_19
    };
    if let Some(beside) = beside {
        met.count(what, in_set(measure.is_over_midnight(), beside));
    }
    if measure.end() > dates::LAST {
        met.count(what, PAST_LAST_DAY);
    }
}
