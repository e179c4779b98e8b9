//! Compares two portals, beside each other and alone, as `gen2run portals` does.

use std::collections::BTreeMap;
use std::io::Write;

use crate::scenario::{self, Scenario, Step};
use crate::world::{Form, World};

/// What a round listed, sorted, and whether it ended quiet.
type Listed = (Vec<Vec<u16>>, bool);

/// The lines of the rounds, or the number of the scenario's first line that can't be read.
pub fn lines(text: &str) -> Result<Vec<u8>, usize> {
    let scenario = scenario::read(text)?;
    let steps = &scenario.steps;
    let joint = rounds_of(&scenario, steps.iter());
    let alone = [0, 1].map(|portal| rounds_of(&scenario, steps.iter().skip(portal).step_by(2)));
    let mut output = Vec::new();
    for (portal, alone) in alone.iter().enumerate() {
        for (number, (alone, joint)) in alone.iter().zip(joint.iter().skip(portal).step_by(2)).enumerate() {
            let end = if alone.1 && joint.1 { "quiet" } else { "limit" };
            let mark = if alone.0 == joint.0 { "same" } else { "other" };
            writeln!(output, "portal {} {} {} {} {end} {mark}", 2 + portal, number + 1, joint.0.len(), alone.0.len()).unwrap();
        }
    }
    output.extend_from_slice(b"done\n");
    Ok(output)
}

/// The rounds of these steps, played with the tags of the scenario as they are at its start.
fn rounds_of<'a>(scenario: &Scenario, steps: impl Iterator<Item = &'a Step>) -> Vec<Listed> {
    let (link, tags) = (scenario.link.clone(), scenario.tags.clone());
    let begun = Scenario { link, several: scenario.several, tags, air: BTreeMap::new(), steps: Vec::new() };
    let mut world = World::new(begun, Form::Plain);
    world.rounds = Some(Vec::new());
    world.play(steps);
    let mut rounds = world.rounds.take().unwrap_or_default();
    rounds.iter_mut().for_each(|round| round.0.sort_unstable());
    rounds
}
