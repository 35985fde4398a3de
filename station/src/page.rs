//! Labelled lines of a page.

/// No printed line of prose is longer.
const PAGE: usize = 80;

/// What stands in front of the labelled lines, and the room of a label.
const INDENT: &str = "  ";
const LABEL: usize = 9;

/// A label and its text as it stands.
pub fn verbatim(label: &str, text: &str) -> String {
    if text.is_empty() {
        return format!("{INDENT}{label}\n");
    }
    format!("{INDENT}{label:LABEL$}{text}\n")
}

/// A label and its text, in lines of at most the page's width. What stands in backticks is not broken, so that spaces
/// in it are seen as they are.
pub fn labelled(label: &str, text: &str) -> String {
    let room = PAGE - INDENT.len() - LABEL;
    let mut label = label;
    let mut page = String::new();
    let mut line = String::new();
    for word in words(text) {
        if !line.is_empty() && line.chars().count() + 1 + word.chars().count() > room {
            page += &verbatim(label, &line);
            label = "";
            line.clear();
        }
        if !line.is_empty() {
            line.push(' ');
        }
        line += word;
    }
    page + &verbatim(label, &line)
}

/// The parts between spaces that stand outside backticks.
fn words(text: &str) -> impl Iterator<Item = &str> {
    let mut within = false;
    text.split(move |character| {
        within ^= character == '`';
        character == ' ' && !within
    })
}
