//! What is asked of quotes and commits (02, 9/14), by further calls on each writing.

use super::{
    accepted, compare, compare_other_answers, difference, known_of_written, refused_untouched,
    Case, OTHER_ANSWERS,
};
use crate::judge::{Call, Judge, Outcome, OUTPUT_BEFORE};
use crate::mutator::commits::{Length, Output};
use crate::mutator::writings::{named_length, OtherLines};
use crate::random::Random;
use crate::reference::tables::{table, FILES};
use crate::reference::{Refusal, PLACES};
use crate::report::Report;

/// What a writing is made of.
struct Writing<'a> {
    text: &'a [u8],
    places: &'a [u32],
    file: u32,
    axles: u32,
    output: &'a [u8],
}

/// A writing that was made, to be quoted and committed.
struct Split<'a> {
    subject: &'a dyn Judge,
    case: &'a Case,
    /// The number of its case.
    at: u64,
    outcome: &'a Outcome,
    writing: Writing<'a>,
    /// How many bytes its file has, by the table alone.
    length: u32,
}

/// A writing beside its quote and its commits: what they must give is said by the writing and by the table.
pub fn compare_split(
    subject: &dyn Judge,
    report: &mut Report,
    at: u64,
    case: &Case,
    outcome: &Outcome,
    lines: OtherLines,
) -> Result<(), String> {
    let Call::Write {
        text,
        places,
        file,
        axles,
        output,
    } = &case.call
    else {
        return Ok(());
    };
    let writing = Writing {
        text,
        places,
        file: *file,
        axles: *axles,
        output,
    };
    let split = Split {
        subject,
        case,
        at,
        outcome,
        writing,
        length: named_length(places, *file, *axles) as u32,
    };
    split.compare_quote(report)?;
    let written = split.written(report)?;
    split.compare_commits(report, &written)?;
    split.compare_other_file(report, &written)?;
    split.compare_with_other_lines(report, lines)
}

/// The text that a quote or a commit is lent.
fn text_of(call: &Call) -> &[u8] {
    match call {
        Call::Quote { text, .. } | Call::Commit { text, .. } => text,
        _ => &[],
    }
}

impl Split<'_> {
    /// Whether the writing passes all checks but that of the output's size.
    fn is_quoted(&self) -> bool {
        matches!(self.outcome.answer[0], 0 | 18)
    }

    fn quote(&self, places: &[u32]) -> Call {
        Call::Quote {
            text: self.writing.text.to_vec(),
            places: places.to_vec(),
            file: self.writing.file,
            axles: self.writing.axles,
        }
    }

    fn commit(&self, places: &[u32], length: u32, output: Vec<u8>) -> Call {
        Call::Commit {
            text: self.writing.text.to_vec(),
            places: places.to_vec(),
            file: self.writing.file,
            axles: self.writing.axles,
            length,
            output,
        }
    }

    /// Makes the call on the writing's text, which must give this and leave the text as it was.
    fn compare(
        &self,
        report: &mut Report,
        call: Call,
        change: &'static str,
        known: Outcome,
    ) -> Result<Case, String> {
        let case = Case {
            known: Some(known),
            ..self.case.further(call, change)
        };
        let outcome = compare(self.subject, &case)?;
        if text_of(&case.call) != self.writing.text {
            let both = (self.subject.name(), &outcome);
            return Err(difference("a text was written to", &case, both, both));
        }
        if self.at < OTHER_ANSWERS {
            compare_other_answers(self.subject, &case)?;
        }
        report.add(&case.call, outcome.refusal());
        Ok(case)
    }

    /// 02, 9/14: the quote "runs all checks but the output's size and gives the length".
    fn right_quote(&self, call: &Call) -> Outcome {
        let before = call.before();
        if self.is_quoted() {
            accepted(&[self.length], before.places, Vec::new())
        } else {
            refused_untouched(self.outcome.refusal(), before)
        }
    }

    fn compare_quote(&self, report: &mut Report) -> Result<(), String> {
        let call = self.quote(self.writing.places);
        let known = self.right_quote(&call);
        let number = known.answer[0];
        let case = self.compare(report, call, "quoted", known)?;
        report.meet_quote(&case.call, number);
        Ok(())
    }

    /// The file that the writing leaves, made again with an output of the quoted length where its own was too short; nothing
    /// where it is refused otherwise.
    fn written(&self, report: &mut Report) -> Result<Vec<u8>, String> {
        let length = self.length as usize;
        match self.outcome.answer[0] {
            0 => Ok(self.outcome.output[..length].to_vec()),
            18 => {
                let mut call = self.case.call.clone();
                if let Call::Write { output, .. } = &mut call {
                    *output = vec![OUTPUT_BEFORE; length];
                }
                let again = self.case.further(call, "an output of the quoted length");
                let outcome = compare(self.subject, &again)?;
                if outcome.answer[3] != self.length {
                    let both = (self.subject.name(), &outcome);
                    let wrong = "a file is not written to an output of the quoted length";
                    return Err(difference(wrong, &again, both, both));
                }
                report.meet_at_quoted_length(self.writing.file);
                Ok(outcome.output)
            }
            _ => Ok(Vec::new()),
        }
    }

    /// 02, 9/14: "A commit on the same inputs with the quoted length and enough output always writes the file that was
    /// quoted"; "22, length differs from the quote, after 9 and before 18".
    fn right_commit(&self, call: &Call, length: u32, written: &[u8]) -> Outcome {
        let before = call.before();
        let file = self.writing.file;
        if !self.is_quoted() {
            refused_untouched(self.outcome.refusal(), before)
        } else if length != self.length {
            refused_untouched(Refusal::new(22, file, 0), before)
        } else if before.output.len() < written.len() {
            refused_untouched(Refusal::new(18, file, 0), before)
        } else {
            known_of_written(written, before.places, &before.output)
        }
    }

    /// A commit with this length and this kind of output; its answer.
    fn compare_commit(
        &self,
        report: &mut Report,
        random: &mut Random,
        length: u32,
        output: Output,
        written: &[u8],
    ) -> Result<u32, String> {
        let size = output.size(random, self.length as usize);
        let call = self.commit(self.writing.places, length, vec![OUTPUT_BEFORE; size]);
        let known = self.right_commit(&call, length, written);
        let number = known.answer[0];
        let case = self.compare(report, call, output.name(), known)?;
        report.meet_commit(&case.call, output, number);
        Ok(number)
    }

    /// The kind of output for the commit of this number.
    fn output(&self, number: usize) -> Output {
        Output::ALL[(self.at as usize + number) % Output::ALL.len()]
    }

    fn compare_commits(&self, report: &mut Report, written: &[u8]) -> Result<(), String> {
        let mut random = Random::new(self.case.seed);
        for (length, number) in Length::ALL.into_iter().zip(0..) {
            let length = length.number(&mut random, self.length);
            let output = self.output(number);
            self.compare_commit(report, &mut random, length, output, written)?;
        }
        Ok(())
    }

    /// A commit with the length that was quoted for another file, right before it.
    fn compare_other_file(&self, report: &mut Report, written: &[u8]) -> Result<(), String> {
        let others = FILES.into_iter().filter(|file| *file != self.writing.file);
        let others: Vec<u32> = others.collect();
        let number = self.at as usize;
        let other = others[number % others.len()];
        let axles = u32::from(table(other).has_axles());
        // With all values empty.
        let places = vec![0; PLACES];
        let length = named_length(&places, other, axles) as u32;
        let known = accepted(&[length], places.clone(), Vec::new());
        let call = Call::Quote {
            text: self.writing.text.to_vec(),
            places,
            file: other,
            axles,
        };
        self.compare(report, call, "another file quoted", known)?;
        let mut random = Random::new(self.case.seed);
        let output = self.output(number / others.len());
        if self.compare_commit(report, &mut random, length, output, written)? == 22 {
            report.meet_length_of_other(self.writing.file, other);
        }
        Ok(())
    }

    /// 02, 7/14: "Writing ignores the third number." With other third numbers a commit with what was quoted leaves all that
    /// the writing left, also after another quote: "The old call remains as the two together." The quote is the same.
    fn compare_with_other_lines(
        &self,
        report: &mut Report,
        lines: OtherLines,
    ) -> Result<(), String> {
        let places = lines.put(self.writing.places, self.writing.text);
        let commit = self.commit(&places, self.length, self.writing.output.to_vec());
        let known = Outcome {
            places: places.clone(),
            ..self.outcome.clone()
        };
        self.compare_alike(report, commit, "committed as written", known, lines)?;
        let quote = self.quote(&places);
        let known = self.right_quote(&quote);
        self.compare_alike(report, quote, lines.name(), known, lines)
    }

    fn compare_alike(
        &self,
        report: &mut Report,
        call: Call,
        change: &'static str,
        known: Outcome,
        lines: OtherLines,
    ) -> Result<(), String> {
        let number = known.answer[0];
        let case = self.compare(report, call, change, known)?;
        report.meet_other_lines(&case.call, lines, number);
        Ok(())
    }
}
