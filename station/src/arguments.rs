//! The words of the command line.

use std::ffi::{OsStr, OsString};
use std::os::unix::ffi::OsStrExt;
use std::path::PathBuf;

use crate::due;
use crate::entries;
use crate::file_types::{by_number, FileType, FILE_TYPES};
use crate::format;
use crate::help::{self, Help};
use crate::judge::Wish;
use crate::output::Trouble;
use crate::read::Input;
use crate::shown::{self, counted};
use crate::words;

/// What the program is asked to do.
#[derive(Debug, PartialEq, Eq)]
pub enum Command {
    /// A text of `help`.
    Print(String),
    JudgeSet {
        folder: PathBuf,
        stem: OsString,
        wish: Wish,
    },
    JudgeFolder {
        folder: PathBuf,
        wish: Wish,
    },
    Due {
        folder: PathBuf,
        stem: OsString,
        wish: due::Wish,
    },
    /// What is said of a refusal or an entry.
    Explain(String),
    Rules,
    Read {
        input: Input,
        json: bool,
    },
    Format {
        input: Input,
        wish: format::Wish,
        json: bool,
    },
    Mend {
        path: PathBuf,
        new: Option<PathBuf>,
    },
    Join {
        /// The first before the second.
        files: [PathBuf; 2],
        new: Option<PathBuf>,
        json: bool,
    },
}

pub fn parse(words: &[OsString]) -> Result<Command, Trouble> {
    let Some((first, rest)) = words.split_first() else {
        return Err(Trouble("no command; see `mctc --help`".to_string()));
    };
    match first.to_str() {
        Some("help") if !rest.is_empty() => {
            let [name] = exactly(rest.to_vec(), "one command")?;
            Ok(Command::Print(grammar(&name)?.help.text()))
        }
        Some("--help" | "-h" | "help") => Ok(Command::Print(help::PROGRAM.text())),
        Some("--version" | "-V") => Ok(Command::Print(help::VERSION.text())),
        _ => command(grammar(first)?, rest),
    }
}

/// The subcommand of this name.
fn grammar(name: &OsStr) -> Result<&'static Grammar, Trouble> {
    let mut grammars = GRAMMARS.iter();
    let grammar = grammars.find(|grammar| name == grammar.name);
    grammar.ok_or_else(|| {
        let name = shown::name(name);
        Trouble(format!("no command {name}; see `mctc --help`"))
    })
}

const GRAMMARS: [Grammar; 7] = [JUDGE, DUE, EXPLAIN, RULES, READ, FORMAT, JOIN];

/// A subcommand: the options that it knows, and what is made of its words.
struct Grammar {
    name: &'static str,
    help: Help,
    /// The options without a value, but `--help`.
    flags: &'static [&'static str],
    file: bool,
    output: bool,
    make: fn(Given) -> Result<Command, Trouble>,
}

const JSON: &str = "--json";
const ALL: &str = "--all";
const ONLY_MARKED: &str = "--only-marked";
const LENGTH: &str = "--length";
const MEND: &str = "--mend";

const JUDGE: Grammar = Grammar {
    name: "judge",
    help: help::JUDGE,
    flags: &[JSON, ALL],
    file: false,
    output: false,
    make: judge,
};

const DUE: Grammar = Grammar {
    name: "due",
    help: help::DUE,
    flags: &[JSON, ONLY_MARKED],
    make: due_of_set,
    ..JUDGE
};

const EXPLAIN: Grammar = Grammar {
    name: "explain",
    help: help::EXPLAIN,
    flags: &[],
    make: explain,
    ..JUDGE
};

const RULES: Grammar = Grammar {
    name: "rules",
    help: help::RULES,
    make: rules,
    ..EXPLAIN
};

const READ: Grammar = Grammar {
    name: "read",
    help: help::READ,
    flags: &[JSON],
    file: true,
    make: read,
    ..JUDGE
};

const FORMAT: Grammar = Grammar {
    name: "format",
    help: help::FORMAT,
    flags: &[JSON, LENGTH, MEND],
    output: true,
    make: format,
    ..READ
};

const JOIN: Grammar = Grammar {
    name: "join",
    help: help::JOIN,
    flags: &[JSON],
    file: false,
    make: join,
    ..FORMAT
};

/// The words behind a subcommand, sorted.
#[derive(Default)]
struct Given {
    words: Vec<OsString>,
    help: bool,
    /// Options without a value, of those that the subcommand knows.
    flags: Vec<&'static str>,
    file: Option<OsString>,
    output: Option<OsString>,
}

impl Given {
    fn has(&self, flag: &str) -> bool {
        self.flags.contains(&flag)
    }
}

fn command(grammar: &Grammar, words: &[OsString]) -> Result<Command, Trouble> {
    let see_help = |trouble: Trouble| {
        let Trouble(message) = trouble;
        Trouble(format!(
            "{}: {message}; see `mctc {0} --help`",
            grammar.name
        ))
    };
    let given = grammar.sort(words).map_err(see_help)?;
    if given.help {
        return Ok(Command::Print(grammar.help.text()));
    }
    (grammar.make)(given).map_err(see_help)
}

impl Grammar {
    fn flag(&self, word: &[u8]) -> Option<&'static str> {
        let mut flags = self.flags.iter().copied();
        flags.find(|flag| flag.as_bytes() == word)
    }

    fn sort(&self, words: &[OsString]) -> Result<Given, Trouble> {
        let mut given = Given::default();
        let mut words = words.iter();
        while let Some(word) = words.next() {
            let (option, attached) = split_option(word);
            if let (Some(flag), None) = (self.flag(option), &attached) {
                given.flags.push(flag);
                continue;
            }
            let slot = match option {
                b"--" => {
                    given.words.extend(words.by_ref().cloned());
                    continue;
                }
                b"--help" | b"-h" => {
                    given.help = true;
                    continue;
                }
                b"--file" if self.file => &mut given.file,
                b"--output" if self.output => &mut given.output,
                [b'-', _, ..] => return Err(about("no option", word)),
                _ => {
                    given.words.push(word.clone());
                    continue;
                }
            };
            let option = OsStr::from_bytes(option);
            let value = attached.or_else(|| words.next().cloned());
            let value = value.ok_or_else(|| about("nothing behind", option))?;
            // As of a variable that the shell does not know.
            if value.is_empty() {
                return Err(about("an empty word behind", option));
            }
            if slot.replace(value).is_some() {
                return Err(about("given twice:", option));
            }
        }
        Ok(given)
    }
}

/// `--option=value` in its two parts; any other word as it is.
fn split_option(word: &OsStr) -> (&[u8], Option<OsString>) {
    let bytes = word.as_bytes();
    let sign = bytes.iter().position(|byte| *byte == b'=');
    match sign.filter(|_| bytes.starts_with(b"--")) {
        Some(sign) => {
            let (option, rest) = bytes.split_at(sign);
            let value = rest.get(1..).unwrap_or_default();
            (option, Some(OsStr::from_bytes(value).to_owned()))
        }
        None => (bytes, None),
    }
}

fn about(what: &str, word: &OsStr) -> Trouble {
    Trouble(format!("{what} {}", shown::name(word)))
}

fn judge(given: Given) -> Result<Command, Trouble> {
    let wish = Wish {
        json: given.has(JSON),
        all: given.has(ALL),
    };
    if given.words.len() == 1 {
        let [folder] = exactly(given.words, "a folder")?;
        let folder = folder.into();
        return Ok(Command::JudgeFolder { folder, wish });
    }
    let (folder, stem) = folder_and_stem(given.words, "a folder, and a stem for one set")?;
    Ok(Command::JudgeSet { folder, stem, wish })
}

fn due_of_set(given: Given) -> Result<Command, Trouble> {
    let wish = due::Wish {
        json: given.has(JSON),
        only_marked: given.has(ONLY_MARKED),
    };
    let (folder, stem) = folder_and_stem(given.words, "a folder and a stem")?;
    Ok(Command::Due { folder, stem, wish })
}

fn explain(given: Given) -> Result<Command, Trouble> {
    let [word] = exactly(given.words, "a refusal's number or an entry")?;
    let text = word.to_str().unwrap_or_default();
    let page = match text.parse() {
        Ok(number) if (1..=words::LAST).contains(&number) => Some(words::page(number)),
        Ok(_) => {
            let last = words::LAST;
            return Err(about(
                &format!("refusals have the numbers 1 to {last}, and not"),
                &word,
            ));
        }
        Err(_) => entries::page(text),
    };
    let unknown = || {
        let near = entries::near(word.as_bytes());
        let near = near.map_or(String::new(), |near| format!(", and `{near}` is near"));
        Trouble(format!(
            "no entry has the name {}{near}",
            shown::name(&word)
        ))
    };
    page.map(Command::Explain).ok_or_else(unknown)
}

fn rules(given: Given) -> Result<Command, Trouble> {
    let [] = exactly(given.words, "no word")?;
    Ok(Command::Rules)
}

fn read(given: Given) -> Result<Command, Trouble> {
    let json = given.has(JSON);
    let input = input(given.words, given.file.as_deref(), |_| true)?;
    Ok(Command::Read { input, json })
}

fn format(given: Given) -> Result<Command, Trouble> {
    let [json, length, mend] = [JSON, LENGTH, MEND].map(|flag| given.has(flag));
    let input = input(given.words, given.file.as_deref(), FileType::has_entries)?;
    let new = given.output.map(new_file).transpose()?;
    if length && (mend || new.is_some()) {
        let why = "--length writes nothing, and so takes neither --output nor --mend";
        return Err(Trouble(why.to_string()));
    }
    if mend {
        // The file is not read by a table: it has no number, and there is no verdict to be told.
        let Input { path, number } = input;
        return match (number, json) {
            (None, false) => Ok(Command::Mend { path, new }),
            (Some(_), _) => Err(Trouble("--mend takes no --file".to_string())),
            (None, true) => Err(Trouble("--mend takes no --json".to_string())),
        };
    }
    let wish = match new {
        Some(new) => format::Wish::NewFile(new),
        None if length => format::Wish::Length,
        None if json => {
            let why = "--json needs --output NEW or --length, as without either the file itself goes to standard output";
            return Err(Trouble(why.to_string()));
        }
        None => format::Wish::Bytes,
    };
    Ok(Command::Format { input, wish, json })
}

fn join(given: Given) -> Result<Command, Trouble> {
    let json = given.has(JSON);
    let files = exactly(given.words, "two drift files, the first before the second")?;
    let new = given.output.map(new_file).transpose()?;
    if json && new.is_none() {
        let why = "--json needs --output NEW, as without it the joined file itself goes to standard output";
        return Err(Trouble(why.to_string()));
    }
    Ok(Command::Join {
        files: files.map(PathBuf::from),
        new,
        json,
    })
}

/// The path of a file that is to be made. That no file can have a folder's name, the disk would say only at the end.
fn new_file(word: OsString) -> Result<PathBuf, Trouble> {
    let last = word.as_bytes().rsplit(|byte| *byte == b'/').next();
    match last {
        Some(b"" | b"." | b"..") => Err(about(
            "name a file behind --output, and not the folder",
            &word,
        )),
        _ => Ok(PathBuf::from(word)),
    }
}

fn folder_and_stem(words: Vec<OsString>, what: &str) -> Result<(PathBuf, OsString), Trouble> {
    let [folder, stem] = exactly(words, what)?;
    if stem.as_bytes().contains(&b'/') {
        let message = "a stem is the name of the set's files without folder and ending, and not";
        return Err(about(message, &stem));
    }
    Ok((folder.into(), stem))
}

/// Which files a command takes.
type Takes = fn(&FileType) -> bool;

/// A path, and the number of a file that the command takes.
fn input(words: Vec<OsString>, number: Option<&OsStr>, takes: Takes) -> Result<Input, Trouble> {
    let [path] = exactly(words, "one file")?;
    let path = PathBuf::from(path);
    let number = number.map(|word| number_of(word, takes)).transpose()?;
    Ok(Input { path, number })
}

fn number_of(word: &OsStr, takes: Takes) -> Result<u32, Trouble> {
    let number = word.to_str().and_then(|word| word.parse().ok());
    let file = number.and_then(by_number).filter(|file| takes(file));
    file.map(|file| file.number).ok_or_else(|| {
        let taken = FILE_TYPES.iter().filter(|file| takes(file));
        let numbers: Vec<String> = taken.map(|file| file.number.to_string()).collect();
        let numbers = shown::listed(&numbers, "or");
        about(&format!("--file takes {numbers}, and not"), word)
    })
}

fn exactly<const COUNT: usize>(
    words: Vec<OsString>,
    what: &str,
) -> Result<[OsString; COUNT], Trouble> {
    let found = words.len();
    if words.iter().any(|word| word.is_empty()) {
        return Err(Trouble("a word is empty".to_string()));
    }
    words
        .try_into()
        .map_err(|_| Trouble(format!("name {what}; {} given", counted(found, "word"))))
}
