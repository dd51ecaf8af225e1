//! Everything a start reads: partitions, areas, text and image, good or broken in one way or two.

use super::broken_meaning::{break_meaning, several_wrongs};
use super::broken_syntax::break_syntax;
use super::image;
use super::passwords;
use super::plan::{Paths, Plan, Style};
use super::random::Random;
use super::statements::{self, Statement};

pub const LONGEST_AREA: usize = 65_536;
pub const LONGEST_SETUP: usize = 16_384;
pub const SCREEN: usize = 2_000;

#[derive(Clone)]
pub struct Setup {
    pub plan: Plan,
    pub letters: Vec<u8>,
    pub text: Vec<u8>,
    pub image: Vec<u8>,
    pub arena: usize,
    pub tables: usize,
    pub screens: usize,
    pub refused: bool,
}

/// The numbers a start is refused with, in the order they are checked.
pub const REFUSALS: std::ops::RangeInclusive<usize> = 401..=416;

impl Setup {
    pub fn good(random: &mut Random) -> Setup {
        let style = match random.weighted(&[1, 14, 2]) {
            0 => Style::Tiny,
            1 => Style::Usual,
            _ => Style::Full,
        };
        let plan = Plan::random(random, style);
        let statements = statements::of(random, &plan);
        let mut setup = Setup::assemble(random, plan, &statements);
        if random.chance(1, 60) {
            let length = random.pick(&[LONGEST_SETUP, LONGEST_SETUP - 1]);
            setup.text = statements::pad(random, setup.text, length);
        }
        setup
    }

    /// A set-up that a start refuses, mostly for one reason, now and then for two at once, so
    /// that the order of the checks shows.
    pub fn broken(random: &mut Random) -> Setup {
        let mut refusals = vec![random.between(*REFUSALS.start(), *REFUSALS.end())];
        if random.chance(1, 3) {
            refusals.push(random.between(*REFUSALS.start(), *REFUSALS.end()));
        }
        // A CODE too many and a CODE too few could come out even.
        if refusals.contains(&414) {
            refusals.retain(|refusal| !matches!(refusal, 407 | 408));
        }
        // Syntax comes last, and once: every break looks for its tokens in whole statements.
        refusals.sort_by_key(|&refusal| refusal == 404);
        refusals.dedup_by(|second, first| *second == 404 && *first == 404);
        let mut plan = Plan::random(random, Style::Usual);
        if refusals.contains(&405) {
            fill_segments(random, &mut plan);
        }
        let mut statements = statements::of(random, &plan);
        if random.chance(1, 8) {
            several_wrongs(random, &plan, &mut statements);
        }
        for &refusal in &refusals {
            match refusal {
                404 => break_syntax(random, &mut statements),
                405..=414 => break_meaning(random, refusal, &mut plan, &mut statements),
                416 => break_passwords(random, &mut plan),
                _ => {}
            }
        }
        let mut setup = Setup::assemble(random, plan, &statements);
        for &refusal in &refusals {
            setup.break_outside(random, refusal);
        }
        setup.refused = true;
        setup
    }

    fn assemble(random: &mut Random, plan: Plan, statements: &[Statement]) -> Setup {
        let text = statements::render(random, statements);
        let image = image::good(&plan.files);
        let (arena, tables, screens) = lengths(random, &plan);
        let letters = plan
            .active
            .iter()
            .map(|&active| if active { b'A' } else { b'P' })
            .collect();
        Setup {
            plan,
            letters,
            text,
            image,
            arena,
            tables,
            screens,
            refused: false,
        }
    }

    /// The breaks that lie outside the statements and the files.
    fn break_outside(&mut self, random: &mut Random, refusal: usize) {
        match refusal {
            401 => {
                let letters: &[&[u8]] = &[
                    b"P",
                    b"PPP",
                    b"PPPPPPPP",
                    b"AAAAAAAAA",
                    b"PPPPPPPPA",
                    b"APAPAPAPAPAPAP",
                    b"PPPPPPPPPPA",
                ];
                self.letters = random.pick(letters).to_vec();
            }
            402 => {
                let length = random.pick(&[LONGEST_SETUP + 1, LONGEST_SETUP + 2, 19_999, 20_000]);
                let text = std::mem::take(&mut self.text);
                self.text = statements::pad(random, text, length);
            }
            403 => self.image = image::broken(random, &self.plan.files),
            415 => self.shorten_area(random),
            _ => {}
        }
    }

    /// One area one byte short, or an mseg that is allowed and greater than any area lent here.
    fn shorten_area(&mut self, random: &mut Random) {
        let (arena, tables, screens) = needs(&self.plan);
        match random.below(4) {
            0 if arena > 0 => self.arena = arena - 1,
            1 if tables > 0 => self.tables = tables - 1,
            2 if self.plan.msegs.len() < 16 && self.text.len() < LONGEST_SETUP - 100 => {
                let size = random.pick(&["16777216", "16384KB", "16MB", "65537", "64KB", "4096KB"]);
                let permissions = vec!["RW"; self.plan.active.len()].join(",");
                let index = self.plan.msegs.len();
                let statement = format!("\nMSEG[{index}]={{{size},0,{permissions}}};");
                self.text.extend_from_slice(statement.as_bytes());
                self.arena = if size == "64KB" {
                    arena + LONGEST_AREA - 1
                } else {
                    arena
                };
                self.arena = self.arena.min(LONGEST_AREA);
            }
            _ => self.screens = random.pick(&[screens - 1, screens - SCREEN, 0]),
        }
    }
}

/// Sixteen of one kind or of both, so that the next is one too many.
fn fill_segments(random: &mut Random, plan: &mut Plan) {
    let mut paths = Paths { serial: 13 };
    plan.dsegs.clear();
    if random.chance(1, 2) {
        plan.files.retain(|file| {
            plan.codes.iter().any(|(_, path)| *path == file.path)
                || file.path.starts_with(b"/scos/")
        });
        while plan.dsegs.len() < 16 {
            plan.add_dseg(random, &mut paths);
        }
    }
    while plan.msegs.len() < 16 {
        plan.add_mseg(random);
    }
}

/// A password file missing, or malformed in one way.
fn break_passwords(random: &mut Random, plan: &mut Plan) {
    let partition = random.pick(&plan.active_partitions());
    let path = passwords::path(partition);
    if random.chance(1, 4) {
        return plan.files.retain(|file| file.path != path);
    }
    let contents = passwords::malformed(random, &plan.accounts[partition]);
    if let Some(file) = plan.files.iter_mut().find(|file| file.path == path) {
        file.contents = contents;
    }
}

/// The bytes that a start needs in the arena, the tables and the screens.
pub fn needs(plan: &Plan) -> (usize, usize, usize) {
    let arena = plan
        .dsegs
        .iter()
        .chain(&plan.msegs)
        .map(|segment| segment.size)
        .sum();
    let mut tables = 0;
    for partition in plan.active_partitions() {
        let path = passwords::path(partition);
        let file = plan.files.iter().find(|file| file.path == path);
        tables += file.map_or(0, |file| file.contents.len());
    }
    (arena, tables, SCREEN * plan.active.len())
}

/// Lengths of the areas: mostly just enough or a little more.
fn lengths(random: &mut Random, plan: &Plan) -> (usize, usize, usize) {
    let (arena, tables, screens) = needs(plan);
    let mut length = |needed: usize| match random.below(40) {
        0 => LONGEST_AREA,
        1..=9 => needed + random.pick(&[1, 2, 100]),
        _ => needed,
    };
    let lengths = (length(arena), length(tables), length(screens));
    (
        lengths.0.min(LONGEST_AREA),
        lengths.1.min(LONGEST_AREA),
        lengths.2,
    )
}
