//! The texts of `--help` and `--version`.

use crate::file_types::{FileType, FILE_TYPES};

/// The line of a text that stands for the list of files.
const LIST: &str = "FILES\n";

/// The line of a text that stands for what is said of a new file.
const OUTPUT: &str = "OUTPUT\n";

/// What is said of it, of any command.
const NEW_FILE: &str =
    "  --output NEW  a file that does not exist yet; none is ever overwritten. The
                disk first makes room for all its bytes. NEW is there whole or
                not at all, also where the program is killed; only on a disk
                without links (FAT, some network shares) an empty NEW may stay
                where that, or a power cut, comes at the last moment. A part
                that is left, `.mctc-NUMBER.part`, is none of a set and can be
                removed
";

/// A text, in which such lines may stand.
pub struct Help {
    text: &'static str,
    /// The line of a file in the list; None where it is left out.
    row: fn(&FileType) -> Option<String>,
}

impl Help {
    const fn plain(text: &'static str) -> Help {
        Help {
            text,
            row: |_| None,
        }
    }

    pub fn text(&self) -> String {
        let rows: Vec<String> = FILE_TYPES.iter().filter_map(self.row).collect();
        let text = self.text.replace(LIST, &rows.concat());
        text.replace(OUTPUT, NEW_FILE)
    }
}

/// A file behind its number.
fn numbered(file: &FileType) -> String {
    let FileType {
        number,
        ending,
        title,
    } = file;
    format!("  {number}  .{ending:3}  {title}\n")
}

pub const VERSION: Help = Help::plain(concat!("mctc ", env!("CARGO_PKG_VERSION"), "\n"));

pub const PROGRAM: Help = Help {
    row: |file| {
        Some(format!(
            "  AB123456.{:3}  {}  {}\n",
            file.ending, file.number, file.title
        ))
    },
    text: "\
mctc: judges MCTCNet2 test sets with the proved library

  mctc judge FOLDER STEM [--all] [--json]
                                    judge one set
  mctc judge FOLDER [--all] [--json]
                                    judge all sets of a folder
  mctc due FOLDER STEM [--only-marked] [--json]
                                    entry by entry: what is due, what is found,
                                    on which line
  mctc explain NUMBER               what a refusal means, and what to do
  mctc explain ENTRY                what an entry looks like, when it is filled
  mctc rules                        all rules of a set, as Markdown
  mctc read FILE [--file N] [--json]
                                    one file alone, with its lines and values
  mctc format FILE [--file N] [--output NEW [--json]]
                                    one file written in table order
  mctc format FILE [--file N] --length [--json]
                                    how many bytes it has in table order
  mctc format --mend FILE [--output NEW]
                                    one file with its line ends mended
  mctc join FIRST SECOND [--output NEW [--json]]
                                    two drift files of one truck made one
  mctc help COMMAND                 more about a command
  mctc --version

A set is the files of a folder that have one stem, such as AB123456:

FILES

Identification is the answer by which the analyser says who it is. Endings stand
in capitals or small letters. A file that is absent or empty is not given.
`mctc explain 11` says which files a set must have.

Exit status: 0 accepted; 1 refused; 2 bad usage, or a file cannot be read.
",
};

pub const JUDGE: Help = Help::plain(
    "\
mctc judge FOLDER STEM [--all] [--json]
mctc judge FOLDER [--all] [--json]

Judges one set, or every set of the folder. A refusal has its number, what it
means, the file, the line and its text (bytes that cannot be printed as \\xHH),
the cause where it is known, what is expected there, and what to do.

With STEM: the verdict on that set. With --json one object: stem, accepted,
number, file, line (0 for none), name, meaning, text, remark, to_do, cause,
expected, mend, drift_axles, suspension_axles, drift_mark, suspension_mark,
gas_mark, opacity_mark, idle_by_hand, names_compared, drift_seconds,
suspension_seconds, gas_seconds, opacity_seconds, empty, notes; or stem and
error where a file cannot be read.

Of an accepted set it says which files are marked, that is, have CodErrore
filled; and apart from that, whether gas's idle speed was measured or entered by
hand, with `#` before the number in NumGiriMotoreMin. Either may pass. In the
object idle_by_hand is false also where gas is not given or the set is refused;
of values that were entered by hand in opacity it says nothing.

Of each result file of an accepted set it says how long the measure lasted, from
InizioMisura to FineMisura, and whether it went over midnight, as one does whose
FineMisura is below its InizioMisura. No length is refused; but the devices must
be in date on the day on which the measure ends (`mctc explain 19`). In the
object the lengths are drift_seconds to opacity_seconds, 0 also where the file
is not given or the set is refused.

An accepted set may have notes: values that are near a word that counts, as
`benzina` is near `BENZINA`, and by which something would be due; drift and
suspension with different counts of axles; and a measure over midnight that is
shorter with InizioMisura and FineMisura exchanged. Any set may have notes of
files in the folder that have its stem, but no ending of a set: they are not
read.

The line look-up of an accepted set says how much looking up of names it took to
read it: for each line with an entry, the names of its section that were tried
until its own was found, added up over all files. It says nothing of whether the
truck is in order: it hangs on which files were read and how many axles they
have, whatever the order of their lines and whatever stands behind `=`. Gas
always adds 1109 and opacity 1540, however long their values. In the object it
is names_compared, 0 where the set is refused.

mend is what to_do asks for, where that can be done without knowing more, or
null. It was tried: with it, the judge accepts, refuses at a later place, or
asks for something that is due. It takes out no value and no file. It has file,
line, action and text:

  replace    the line has this text, ended by CR LF
  delete     the line goes
  insert     a line with this text stands below it
  line ends  the file is written as `mctc format --mend` does
  content    the whole file is this text, each character one byte
  rename     all files of the set have this stem

With --all also what else can be said beside the verdict, which stays as it is:
each file read alone (3 to 9, 14), and where the new booking passes, the entries
that are not as due (10) and the devices out of date (19) of files that pass
what comes before. With --json a member further: an array of objects with
number, file, line, name, meaning, text, remark, to_do, cause, expected, mend.

Without STEM: a line for each set, which tells marked files and an idle speed
entered by hand, with --all also one for each further finding, then how many
were accepted, refused and not judged, and, where one was accepted, how many
names were compared in all accepted sets together. With --json one object:
folder, sets (an array of the objects above), accepted, refused, not_judged,
names_compared (that sum, 0 where none was accepted); or folder and error.

Exit status: 0 all accepted; 1 one is refused; 2 bad usage, no set in the
folder, no file of that stem, or a file cannot be read.
",
);

pub const DUE: Help = Help::plain(
    "\
mctc due FOLDER STEM [--only-marked] [--json]

Prints the verdict, for each file whether it is due and whether it is given, and
for every given file, entry by entry in table order, whether the entry is due,
whether it is filled, and the line on which it stands in that file; marks what
disagrees, and says why. The marks are `due, absent` and `given, not due` of a
file, `due, empty` and `filled, not due` of an entry. A file that cannot be read
by its form (refusals 3 to 9) has no column, and where the new booking cannot,
no file has one. Whether a file is due is unknown where the new booking, or gas
for the identification answer, is refused.

  --only-marked  only what disagrees or is refused
  --json         the same for programs, with the values

With --json one object: stem, accepted, number, file, line, name, meaning, text,
remark, to_do, cause, expected and mend as from `mctc judge --json`, and files,
an array of objects, one for each file in the order of their numbers; or stem
and error where a file cannot be read. The object of a file has:

  file       its number
  title      what it is
  name       its name in the folder, null where it is absent
  due        `due`, `not due` or `free`, null where that is unknown
  found      `given`, or `absent`, also of an empty file
  disagrees  true where it is due and absent, or given and not due, else false
  why        why it is due or not where it disagrees, else null
  no_column  why its entries are not told, null where they are
  refusal    where the file by itself is refused (3 to 9, or 11 for the new
             booking) an object with number, file, line, name, meaning, text,
             remark, to_do, cause, expected, mend, else null
  entries    an array of objects, one for each entry in table order: heading,
             entry (its name), line, value (empty where nothing stands there),
             due, found (`filled` or `empty`), disagrees, why

With --only-marked files has only those that disagree, are refused or have an
entry that disagrees, and entries only those that disagree.

Exit status: 0 accepted, and nothing disagrees; 1 something disagrees or is
refused; 2 bad usage, no file of that stem, or a file cannot be read.
",
);

pub const EXPLAIN: Help = Help::plain(
    "\
mctc explain NUMBER
mctc explain ENTRY

Says what refusals with this number (1 to 22) mean, what they carry, in which
calls they come, and what to do; or for each file that has an entry of this
name, its section, what its value must look like, when it is filled, and its
rule.

Exit status: 0 explained; 2 bad usage, or no entry of that name.
",
);

pub const RULES: Help = Help::plain(
    "\
mctc rules

Prints the rules of a set as Markdown: the files, each entry with its kind and
when it is filled, the rules between values, devices in date, the identification
answer, joining two drift files, and the refusals. docs/RULES.md is this text.

Exit status: 0 printed; 2 bad usage.
",
);

pub const READ: Help = Help {
    row: |file| Some(numbered(file)),
    text: "\
mctc read FILE [--file N] [--json]

Reads one file alone and prints its axle count, of gas also that the idle speed
was entered by hand where it was, and each entry with the line on which it
stands and its value, in table order; of an identification answer, which has no
lines, its ten fields. Or the refusal (3 to 9, 11 for an empty file, 14 of an
identification answer). What is due and the rules between files are left to
`mctc judge`.

  --file N   the file's number; without it the ending of FILE says it
  --json     the same for programs

FILES

With --json one object: name (FILE), file (its number), title, accepted, number,
line (0 for none), meaning, text, remark, to_do, cause, expected and mend as
from `mctc judge --json`, axles, idle_by_hand, entries and fields; or name and
error where FILE cannot be read. entries is an array of objects, one for each
entry in table order: heading, entry (its name), line, value (empty where
nothing stands there). fields is an array of objects, one for each field of an
identification answer: field (its name), value. entries is empty for an
identification answer, fields for the other files, and both where FILE is
refused. axles is 0 and idle_by_hand false where they say nothing of the file.

Exit status: 0 read; 1 refused; 2 bad usage, or FILE cannot be read.
",
};

pub const FORMAT: Help = Help {
    row: |file| file.has_entries().then(|| numbered(file)),
    text: "\
mctc format FILE [--file N] [--output NEW [--json]]
mctc format FILE [--file N] --length [--json]
mctc format --mend FILE [--output NEW]

Reads one file alone and writes it in table order, to standard output or to a
new file. A refusal goes to standard error.

  --file N      the file's number; without it the ending of FILE says it
OUTPUT
  --length      write nothing, but print how many bytes the file has in table
                order, as many as NEW would have
  --json        the same for programs, on standard output, a refusal too; only
                with --output or --length, as else the file itself stands there
  --mend        write FILE as it stands, but every line ended by CR LF and no
                byte order mark, and say what was changed; nothing is judged.
                UTF-16, what is no text, and an identification answer, which has
                no lines, are not mended

FILES

With --json one object: the members of `mctc read --json` up to axles, then
length (in table order, 0 where FILE is refused) and new (NEW, null where FILE
is refused or only the length is asked for); or name and error where FILE cannot
be read or NEW cannot be written.

Exit status: 0 written, or the length printed; 1 refused; 2 bad usage, FILE
cannot be read or NEW cannot be written.
",
};

pub const JOIN: Help = Help::plain(
    "\
mctc join FIRST SECOND [--output NEW [--json]]

Joins two drift files into one, as for a truck whose axles were measured in two
parts: to standard output or to a new file. Both are read as drift files,
whatever their names. The values of their [Deriva] sections must be the same,
byte for byte, in all entries but InizioMisura and FineMisura. The joined file
has these values, FIRST's InizioMisura, SECOND's FineMisura, and the axles of
both: those of FIRST, then those of SECOND, numbered on. The axles of each file
are numbered from 1, in SECOND too. The joined file is written in table order,
whatever the order of lines in FIRST and SECOND.

A refusal goes to standard error: of FIRST alone (3 to 11), then of SECOND
alone, then where values differ (20), then where there are more than nine axles
together (21). `mctc explain NUMBER` says more.

Joining looks at no due date. `mctc judge` does, when the joined file comes in a
set: a measure whose FineMisura is below its InizioMisura ends on the day after
DataMisura (`mctc explain 19`). Notes on standard error say where the joined
file would be refused for that, where its measure goes over midnight, and where
FIRST and SECOND look exchanged or have the same values.

OUTPUT
  --json        the same for programs, on standard output, a refusal and notes
                too; only with --output, as else the joined file stands there

With --json one object: first and second (FIRST and SECOND), accepted, number,
input (1 for FIRST, 2 for SECOND, 0 for none), line (in that file, 0 for none),
name (of that file), meaning, text, remark, to_do, cause, expected and mend as
from `mctc judge --json` (file in mend is 3, as of any drift file), differences,
new (NEW, null where it is refused), length (of NEW in bytes), first_axles,
second_axles, axles (of NEW) and notes; or first, second and error where a file
cannot be read or written. differences is an array of objects, with 20 one for
each entry that differs, in table order: entry (its name), first_line,
first_value, second_line, second_value (empty where nothing stands there).
length and axles are 0 where it is refused, first_axles and second_axles where
that file is refused by itself (3 to 9, 11).

Exit status: 0 joined; 1 refused; 2 bad usage, FIRST or SECOND cannot be read or
NEW cannot be written.
",
);
