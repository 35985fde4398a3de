//! `mctc rules`: the rules of a set in Markdown, from the library. docs/RULES.md is what it prints.

use std::iter;

use crate::booking_tables;
use crate::entries::{self, Described};
use crate::file_types::{by_number, FileType, FILE_TYPES, GAS};
use crate::identification;
use crate::measure_tables;
use crate::reasons;
use crate::words;

const TOP: &str = "\
# The rules of a set

Printed by `mctc rules`: kinds, words and conditions are those of the library that judges; what else stands here is the
program's text. `mctc explain NUMBER` and `mctc explain ENTRY` say the same of one refusal or one entry. No line here is
edited by hand.

A set is the files of a folder that have one stem, of two capital letters and six digits, such as AB123456.
";

const LINES: &str = "
## Lines

- A file has at most 16,384 bytes. Every line ends in CR LF (0D 0A hex), the last too.
- A line has 1 to 512 bytes, each 20 to 7E hex: plain letters, digits, signs and spaces.
- A line that begins with `[` is a heading and ends in `]`. Any other line is name, `=`, value, below some heading.
- The sections of a file stand in any order, once each. Axles count from 1 without a gap, 1 to 9 of them.
- In a section every entry stands once, in any order. One that is not due stands there too, with nothing behind `=`.
- Names, headings and words are compared byte for byte, capitals included.
";

const DAYS: &str = "
With petrol and RT1902 or NESSUNA, ACC's Alimentazione_1 hangs on two fuel dates, 01/10/1986 and 01/07/2002. Compared with
these, a DataPrimaImm whose day is not known (day 00) counts as day 01 of its month: `00101986` counts as 01/10/1986, so it
is not before it. One whose month is not known either (month 00) is before every month of its year: `00001986` is before
01/10/1986. Only with these two dates do zeros count so.
";

const DEVICES: &str = "
## Devices in date

A measure begins on DataMisura, at InizioMisura, and ends at FineMisura: on the day after DataMisura where FineMisura is
below InizioMisura, else on DataMisura. A device is good through its due date, which must not be before the day on which
the measure ends, whatever stands in CodErrore. The first due date of a file, in the order of its entries, that is before
that day is refused with 19. An empty DataScadenzaProvaVelocita, of gas without a speed bench, asks nothing. The other
dates of a device, of its version and its keys, are not held to this. The length of a measure, which an accepted set
tells, is the time from InizioMisura to FineMisura.

What passes, by trial with the library:

| DataMisura | InizioMisura | FineMisura | due date | length |
|---|---|---|---|---|
";

const ANSWER: &str = "
## The identification answer

02 hex, ten fields separated by 17 hex, two checksum bytes, 03 hex; at most 512 bytes. The last seven fields have 1 to 64
bytes of 20 to 7E hex each. The checksum is the sum of all bytes between 02 hex and itself, modulo 256, as two capital
hexadecimal digits. Another form is refused with 14, a field that differs from gas with 15.

| field | content |
|---|---|
";

const ORDER: &str = "
## The order of judging

The stem (2), then the files in the order of their numbers. For each file: given or not (11), its length (3), the first
line with 4, 5 or 6, absent sections (7) and entries (8), all kinds (9), all that is filled or empty (10), devices out
of date (19), then the rules (12 or 13). For the identification answer: 11, 14, 15. The first refusal in this order is
the verdict. An old booking is not read with category L, even if it is too long.
";

const JOINING: &str = "
## Joining two drift files

`mctc join FIRST SECOND` makes one drift file of two, as of a truck of four axles that was measured two axles at a time. The
values of both `[Deriva]` sections must be the same, byte for byte, in all entries but InizioMisura and FineMisura: in Note,
CodErrore and DataMisura too, and nothing behind `=` is not the same as a value. The joined file has these values, the first
file's InizioMisura, the second's FineMisura, and the axles of both, the second's numbered on. The axles of each file are
numbered from 1, those of the second too. The joined file is written in table order, whatever the order of lines in the two.

The first file is judged by itself, as a drift file of a set: empty (11), then 3 to 10. Then the second likewise; then values
that differ (20), then more than nine axles together (21). A refusal of one file carries 1 or 2 for it, the first or the
second.

Due dates are not looked at here. When the joined file comes in a set, its measure begins at the first file's InizioMisura and
ends at the second's FineMisura, on the day after DataMisura where that is below: so the set may be refused with 19 although
neither file would be by itself.
";

const REFUSALS: &str = "
## Refusals

| number | meaning | carries | what to do |
|---|---|---|---|
";

/// The whole text.
pub fn text() -> String {
    let mut text = TOP.to_string() + &files() + LINES;
    for file in &FILE_TYPES {
        text += &entries_of(file);
    }
    text + &rules()
        + &bookings()
        + DEVICES
        + &measures()
        + ANSWER
        + &fields()
        + ORDER
        + JOINING
        + REFUSALS
        + &refusals()
}

/// A row of a table. A bar within would end its cell.
fn row(cells: &[&str]) -> String {
    let cells: Vec<String> = cells.iter().map(|cell| cell.replace('|', "\\|")).collect();
    format!("| {} |\n", cells.join(" | "))
}

fn files() -> String {
    let mut text =
        "\n## Files\n\n| file | ending | what | given |\n|---|---|---|---|\n".to_string();
    for file in &FILE_TYPES {
        let FileType {
            number,
            ending,
            title,
        } = file;
        let given = reasons::when_given(*number);
        text += &row(&[&number.to_string(), &format!("`.{ending}`"), title, &given]);
    }
    text + "\nA file that is not given though due, or given though not due, is refused with 11.\n"
}

/// The tables of a file, one for each heading; nothing of a file without entries.
fn entries_of(file: &'static FileType) -> String {
    let entries = entries::of_file(file);
    if entries.is_empty() {
        return String::new();
    }
    let mut text = format!(
        "\n## File {}, {} ({})\n",
        file.number, file.title, file.ending
    );
    for section in entries.chunk_by(|one, other| one.headings == other.headings) {
        let headings = section.first().map_or("", |entry| entry.headings.as_str());
        text += &format!(
            "\n{headings}\n\n| entry | what a value looks like | filled |\n|---|---|---|\n"
        );
        text += &section.iter().map(entry_row).collect::<String>();
    }
    text
}

fn entry_row(entry: &Described) -> String {
    row(&[&entry.name, &entry.kind(), &entry.filled()])
}

fn rules() -> String {
    let mut text =
        "\n## Rules between values\n\n| file | entry | rule | refusal |\n|---|---|---|---|\n"
            .to_string();
    for file in &FILE_TYPES {
        for entry in entries::of_file(file) {
            if let Some((refusal, rule)) = words::rule(file.number, entry.name.as_bytes()) {
                text += &row(&[file.ending, &entry.name, &rule, &refusal.to_string()]);
            }
        }
    }
    text
}

/// What the library lets pass in bookings that were made up for this.
fn bookings() -> String {
    let mut text = DAYS.to_string() + "\nWhat passes, by trial with the library:\n";
    text += &table(
        &[
            "CategoriaInternazionale",
            "TipoVeicolo",
            "ACC's DescrizioneVeicolo",
        ],
        &booking_tables::categories(),
    );
    text += &petrol(&booking_tables::DAYS);
    text += &petrol(&booking_tables::UNKNOWN_DAYS);
    text += &table(
        &[
            "DIESEL, Turbo",
            "CorrettorePressione",
            "ACC's Alimentazione_1",
        ],
        &booking_tables::diesel(),
    );
    text + &table(
        &[
            "AzionamentoFrenoStazionamento of an M1",
            "ACC's FrenoStazionamento",
        ],
        &booking_tables::brakes(),
    )
}

/// The fuel of the old booking for each of these days.
fn petrol(days: &[&str]) -> String {
    let fuels = days
        .iter()
        .map(|day| format!("ACC's fuel, DataPrimaImm {day}"));
    let head: Vec<String> = iter::once("BENZINA, directive".to_string())
        .chain(fuels)
        .collect();
    let head: Vec<&str> = head.iter().map(String::as_str).collect();
    table(&head, &booking_tables::petrol(days))
}

fn table(head: &[&str], rows: &[impl AsRef<[String]>]) -> String {
    let rows = rows.iter().map(|cells| {
        let cells: Vec<&str> = cells.as_ref().iter().map(String::as_str).collect();
        row(&cells)
    });
    let rule = "|---".repeat(head.len());
    format!("\n{}{rule}|\n{}", row(head), rows.collect::<String>())
}

fn measures() -> String {
    let rows = measure_tables::measures().into_iter();
    rows.map(|cells| row(&cells.each_ref().map(String::as_str)))
        .collect()
}

fn fields() -> String {
    let gas = by_number(GAS).map_or("", |file| file.title);
    let fields = (1..).zip(identification::fields());
    let rows = fields.map(|(number, field)| {
        let content = match field.entry {
            Some(_) => format!("the {gas} file's {}", field.name),
            None => field.content.to_string(),
        };
        row(&[&number.to_string(), &content])
    });
    rows.collect()
}

fn refusals() -> String {
    let rows = (1..=words::LAST).map(|number| {
        let (meaning, place) = (words::meaning(number), words::place(number));
        row(&[&number.to_string(), meaning, place, &words::advice(number)])
    });
    rows.collect()
}
