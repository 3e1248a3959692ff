//! One script again, both sides' reports field by field.

use crate::builder::cause::causes;
use crate::builder::report::{Field, Report, STATE_BYTES, StateBytes};
use crate::builder::script::{ADD, Event, REPORT, RESET, RULE, events, rules_at_reports};
use crate::builder::sides::{Run, WAYS};
use crate::builder::{RULES, Settings, observed, rule_of};
use crate::hexadecimal::bytes;
use crate::table::Table;
use crate::tally::Row;

/// Runs a history again, prints the reports, and says whether they are the same; or what is wrong with
/// the words. A difference is printed with these: rates and rule, then the script and, where the builder
/// is not a new one, its state as hexadecimal digits.
pub fn run(words: &[&str]) -> Result<bool, String> {
    let ([pre, post, rule, script], rest) =
        words.split_first_chunk().ok_or("a history has two rates, a rule and a script")?;
    let byte = |text: &str| text.parse().map_err(|_| format!("{text} is no byte"));
    let settings = Settings { pre: byte(pre)?, post: byte(post)?, rule: byte(rule)? };
    let script = bytes(script)?;
    if settings.rule as usize >= RULES.len() || !is_script(&script) {
        return Err("no such rule, or no such event".to_owned());
    }
    let state = match rest {
        [] => None,
        [state] => Some(read_state(state)?),
        _ => return Err("a history has one state at most".to_owned()),
    };
    let run = Run { settings, state: state.as_ref(), script: &script };
    let mut observed = Row::default();
    let rust = run.rust_seen(|builder, report| {
        observed::compare(builder, report, settings, &mut observed);
    });
    let ours = match run.ours(rust.len()) {
        Ok(ours) => ours,
        Err(problem) => {
            println!("history: {problem}");
            return Ok(false);
        }
    };
    let rules = rules_at_reports(settings.rule, &script);
    for ((ours, rust), rule) in ours.iter().zip(&rust).zip(rules) {
        println!("report under {:?}", rule_of(rule));
        print!("{}", table(ours, rust).aligned());
        for cause in causes(ours, rust, settings.pre, rule_of(rule)) {
            println!("cause: {}", cause.name());
        }
    }
    observed.example().iter().for_each(|example| println!("{example}"));
    let mut same = ours == rust && observed.counts.of("differ") == 0;
    // the other ways lead from a new builder alone
    let ways = WAYS[1..].iter().filter(|_| state.is_none());
    for way in ways.filter(|way| run.ours_by(way, rust.len()).as_ref() != Ok(&rust)) {
        println!("history: DIFFERENT by {}", way.0);
        same = false;
    }
    println!("history: {} reports, {}", rust.len(), if same { "the same" } else { "DIFFERENT" });
    Ok(same)
}

/// Whether the Rust's builder can take it.
fn is_script(script: &[u8]) -> bool {
    let is_event = |event: Event| match event {
        [RULE, rule, _] => usize::from(rule) < RULES.len(),
        [kind, ..] => [ADD, RESET, REPORT].contains(&kind),
    };
    script.len() % 3 == 0 && events(script).all(is_event)
}

fn read_state(digits: &str) -> Result<StateBytes, String> {
    bytes(digits)?.try_into().map_err(|_| format!("a state has {STATE_BYTES} bytes"))
}

fn table(ours: &Report, rust: &Report) -> Table {
    let mut table = Table::new(" | ours | the Rust's | ", 1..1);
    for field in Field::ALL {
        let same = ours.field(field) == rust.field(field);
        table.row(vec![
            field.name().to_owned(),
            ours.words(field),
            rust.words(field),
            if same { "" } else { "DIFFERENT" }.to_owned(),
        ]);
    }
    table
}
