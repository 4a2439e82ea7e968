//! What is said in between: a line that is no command, or is passed over, or is a command at the edge of what can be said.

use crate::edges;
use crate::no_command;
use crate::script::Script;
use drawn::Chance;

/// Most often nothing.
pub fn aside(script: &mut Script, chance: &mut Chance) {
    match chance.below(40) {
        0..=5 => {
            let (way, line) = no_command::draw(chance);
            script.say(line);
            script.shows(way);
        }
        6 | 7 => {
            script.say(edges::passed_over(chance));
            script.shows("a line passed over");
        }
        8 => {
            script.say(edges::at_the_edge(chance));
            script.shows("a command at the edge");
        }
        _ => {}
    }
}
