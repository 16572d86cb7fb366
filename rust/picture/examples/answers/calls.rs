//! The answers of a script's lookups and collections, by the model.

use hedjosur_model::ops::Lookup;
use hedjosur_model::script::{read_line, takes, Answer, Line, Program};
use hedjosur_picture::words::counted;

/// The lines for a script. Lines that are no calls are left out.
pub fn answers(script: &[u8]) -> String {
    let mut program = Program::default();
    script
        .split(|&byte| byte == b'\n')
        .filter_map(read_line)
        .filter_map(|line| answer(&mut program, &line))
        .map(|line| line + "\n")
        .collect()
}

/// Makes one call; the line of a lookup or a collection. A format of a device that
/// the listing program doesn't take changes nothing.
fn answer(program: &mut Program, line: &Line) -> Option<String> {
    if matches!(line, Line::Format(numbers) if !takes(*numbers)) {
        return None;
    }
    let answer = program.call(line);
    let call = match line {
        Line::Lookup(page) => format!("lookup {page}"),
        Line::Collection => "collection".to_string(),
        _ => return None,
    };
    Some(format!("{call}: {}", words(&answer)))
}

/// What a lookup or a collection answers, in words.
fn words(answer: &Answer) -> String {
    match answer {
        Answer::Refused(refusal) => format!("refused {}", refusal.number()),
        Answer::Lookup(found) => lookup_words(*found),
        Answer::Collected(done, [plan, erased]) => format!(
            "{} pages from page {}, copied from {}; erased {}",
            done.count,
            done.first,
            numbers(plan),
            numbers(erased)
        ),
        other => panic!("neither a lookup's answer nor a collection's: {other:?}"),
    }
}

fn lookup_words(answer: Lookup) -> String {
    let looked = |levels| counted(levels, "level");
    match answer {
        Lookup::Found {
            page,
            predicted,
            levels,
        } => format!("page {page}, predicted {predicted}, {}", looked(levels)),
        Lookup::NotWritten { levels } => format!("not written, {}", looked(levels)),
    }
}

fn numbers(list: &[u32]) -> String {
    let list: Vec<String> = list.iter().map(u32::to_string).collect();
    list.join(", ")
}
