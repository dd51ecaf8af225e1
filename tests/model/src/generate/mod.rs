//! Random replay texts, each a function of its seed alone, and what is needed to compare them.
//!
//! A text keeps a small knowledge of what it set up, so that most of its calls get past the first
//! checks and reach the later ones; parameters stand at the limits and on either side of them.

mod bad_lines;
mod broken_meaning;
mod broken_syntax;
mod calls_device;
mod calls_memory;
mod calls_user;
mod calls_whole;
pub mod cells;
pub mod child;
mod composer;
mod episodes;
mod events;
mod image;
pub mod load_texts;
mod passwords;
mod plan;
mod random;
mod script;
mod setup;
mod starts;
mod statements;
pub mod tally;

use composer::Composer;

/// The replay text of a seed.
pub fn text(seed: u64) -> Vec<u8> {
    let mut composer = Composer::new(seed);
    let lines = match composer.random.below(12) {
        0 => composer.random.between(1, 40),
        _ => composer.random.between(200, 270),
    };
    begin(&mut composer);
    while composer.script.lines() < lines {
        composer.episode();
    }
    composer.show();
    if composer.random.chance(1, 4) {
        composer.bad_line();
    }
    let last_line_feed = composer.random.chance(2, 3);
    composer.script.finish(last_line_feed)
}

/// Up to the first accepted start: now and then calls too early, or starts that are refused.
fn begin(composer: &mut Composer) {
    if composer.random.chance(1, 4) {
        composer.before_any_start();
    }
    while composer.random.chance(2, 5) {
        composer.refused_start();
        if composer.random.chance(1, 4) {
            composer.before_any_start();
        }
    }
    composer.accepted_start();
}

#[cfg(test)]
mod tests;
