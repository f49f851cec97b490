//! Inputs that the documents name, run on the source: `departures.txt` has those of docs/DIFFERENCES.md, `conditions.txt` those
//! of docs/PROOF.md. README.md says what their lines mean.
mod functions;
mod steps;
mod words;

use std::process::ExitCode;
use steps::Run;
use words::plain;

pub const DEPARTURES: &str = include_str!("../../departures.txt");
pub const CONDITIONS: &str = include_str!("../../conditions.txt");

/// A block of lines: its title, and its steps with their line numbers.
struct Entry<'a> {
    title: &'a str,
    steps: Vec<(usize, &'a str)>,
}

/// Checks all entries, and prints a line for each.
pub fn print(text: &str) -> ExitCode {
    let list = entries(text);
    let mut differ = 0;
    for entry in &list {
        match check(entry) {
            Ok(()) => println!("ok: {}", entry.title),
            Err(words) => {
                differ += 1;
                println!("differs: {}; {words}", entry.title);
            }
        }
    }
    println!("{} entries, {differ} of them differ", list.len());
    ExitCode::from(u8::from(differ > 0))
}

/// The blocks between empty lines. Lines with a # are words, the first of a block is its title; a block of words alone is none.
fn entries(text: &str) -> Vec<Entry<'_>> {
    let lines: Vec<(usize, &str)> = (1..).zip(text.lines().map(str::trim)).collect();
    let mut list = Vec::new();
    for block in lines.split(|(_, line)| line.is_empty()) {
        let (words, steps): (Vec<_>, Vec<_>) = block.iter().partition(|(_, line)| line.starts_with('#'));
        if !steps.is_empty() {
            let title = words.first().map_or("without a title", |(_, line)| line.trim_start_matches(['#', ' ']));
            list.push(Entry { title, steps });
        }
    }
    list
}

/// From the default state. The error says what differs, or which line is no step.
fn check(entry: &Entry) -> Result<(), String> {
    let mut run = Run::new();
    let mut steps = entry.steps.iter().peekable();
    while let Some((number, line)) = steps.next() {
        let answers = run.step(line).map_err(|words| format!("line {number}, {line}: {words}"))?;
        let mut told = Vec::new();
        while let Some((_, answer)) = steps.next_if(|(_, next)| next.starts_with('=')) {
            told.push(plain(&answer[1..]));
        }
        if told == ["none"] {
            told.clear();
        }
        if told != answers {
            return Err(format!("line {number}, {line}: {}, told {}", joined(&answers), joined(&told)));
        }
    }
    Ok(())
}

fn joined(answers: &[String]) -> String {
    if answers.is_empty() {
        "none".to_string()
    } else {
        answers.join(" and ")
    }
}

#[cfg(test)]
mod tests {
    use super::*;

    #[test]
    fn all_as_told() {
        for entry in [DEPARTURES, CONDITIONS].into_iter().flat_map(entries) {
            assert_eq!(check(&entry), Ok(()), "{}", entry.title);
        }
    }

    fn differs(steps: &str) -> Option<String> {
        let text = format!("# of a test\n{steps}");
        check(&entries(&text)[0]).err()
    }

    #[test]
    fn differences_are_found() {
        let reset = "packet 01 03 0C 00\n= 04 0E 04 05 03 0C 00";
        assert_eq!(differs(reset), None);
        assert_eq!(differs("packet\n= none\nin-use 0\nconnected 1 no"), None);
        for steps in
            [&reset[..18], &format!("{reset} 00"), &format!("{reset}\n= none"), "packet\n= 00", "in-use 1", "connected 1 yes"]
        {
            assert!(differs(steps).is_some(), "{steps}");
        }
    }

    #[test]
    fn other_lines_are_no_steps() {
        for line in
            ["= none", "open 1 24 0", "packet 0", "profile acl_count 256", "row 0x2013 good", "link 1 interval 24", "reset"]
        {
            assert!(differs(line).is_some_and(|words| words.contains("no step")), "{line}");
        }
    }

    #[test]
    fn words_are_no_entry() {
        let list = entries("# a heading\n\n\n# first\nin-use 0\n# a remark\nin-use 0\n\n# second\nin-use 0\n");
        let titles: Vec<&str> = list.iter().map(|entry| entry.title).collect();
        assert_eq!(titles, ["first", "second"]);
        assert_eq!(list[0].steps, [(5, "in-use 0"), (7, "in-use 0")]);
    }
}
