//! The generator's own beliefs, held against the model.

use super::composer::Composer;
use super::random::Random;
use super::setup::Setup;

/// The answer to the last line; a line that would overfill the store may have been bad before.
fn last_answer(composer: Composer) -> String {
    let text = composer.script.finish(true);
    let mut output = Vec::new();
    crate::replay::run(&mut &text[..], &mut output).expect("a Vec takes everything");
    let output = String::from_utf8_lossy(&output).into_owned();
    output.lines().last().unwrap_or("").to_string()
}

#[test]
fn a_text_is_a_function_of_its_seed() {
    for seed in [0, 1, 77, u64::MAX] {
        assert_eq!(super::text(seed), super::text(seed));
    }
    assert_ne!(super::text(0), super::text(1));
}

#[test]
fn good_setups_are_accepted() {
    for seed in 0..1_000 {
        let mut composer = Composer::new(seed);
        composer.accepted_start();
        let answer = last_answer(composer);
        assert_eq!(answer, "start 0 line 0", "seed {seed}");
    }
}

#[test]
fn broken_setups_are_refused() {
    for seed in 0..3_000 {
        let mut composer = Composer::new(seed);
        composer.refused_start();
        let answer = last_answer(composer);
        assert!(answer.starts_with("start 4"), "seed {seed}: {answer}");
    }
}

/// Each way of breaking is good for something: every refusal comes up.
#[test]
fn every_refusal_comes_up() {
    let mut seen = [false; 17];
    for seed in 0..1_000 {
        let mut composer = Composer::new(seed);
        composer.refused_start();
        let answer = last_answer(composer);
        let number: usize = answer[6..9].parse().expect("a refusal");
        seen[number - 400] = true;
    }
    assert_eq!(seen[1..], [true; 16]);
}

#[test]
fn areas_fit_their_limit() {
    let mut random = Random::new(3);
    for _ in 0..400 {
        let setup = Setup::good(&mut random);
        assert!(setup.arena <= 65_536 && setup.tables <= 65_536 && setup.image.len() <= 65_536);
        assert!(setup.text.len() <= 16_384);
    }
}
