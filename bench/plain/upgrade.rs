//! Rewrites the text of a scenario in version 2.

use std::fmt::Write;

/// The text in version 2, of a text that is a scenario.
pub fn text(scenario: &str) -> String {
    if !scenario.starts_with("gen2 1\n") {
        return scenario.to_string();
    }
    let mut upgraded = String::new();
    for (number, line) in scenario.lines().enumerate() {
        match (number, line.strip_prefix("round ")) {
            (0, _) => upgraded.push_str("gen2 2"),
            (1, _) => write!(upgraded, "{line}\ndefault break").unwrap(),
            (_, Some(round)) => push_round(&mut upgraded, round),
            (_, None) => upgraded.push_str(line),
        }
        upgraded.push('\n');
    }
    upgraded
}

/// The line of a round, whose fifth number is the step of Qfp.
fn push_round(upgraded: &mut String, fields: &str) {
    upgraded.push_str("round");
    for (place, field) in fields.split(' ').enumerate() {
        let name = if place == 4 { "float-" } else { "" };
        write!(upgraded, " {name}{field}").unwrap();
    }
}
