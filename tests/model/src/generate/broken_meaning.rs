//! Set-up statements that read well and are refused for what they say (405 to 414).

use super::plan::{Permission, Plan, Segment};
use super::random::Random;
use super::statements::{path_token, Statement, CODE_PATH, FIRST_PERMISSION, HOST, INDEX, SUBJECT};

pub fn break_meaning(
    random: &mut Random,
    refusal: usize,
    plan: &mut Plan,
    statements: &mut Vec<Statement>,
) {
    match refusal {
        405 => one_too_many(random, plan, statements),
        406 => wrong_index(random, plan, statements),
        407 => wrong_partition(random, plan, statements),
        408 => second_code(random, plan, statements),
        409 => repeated_path(random, plan, statements),
        410 => replace_path(
            random,
            statements,
            &[b"/scos/x", b"/scos/pw0", b"/scos/", b"/scos//"],
        ),
        411 => missing_file(random, plan, statements),
        412 => wrong_size(random, plan, statements),
        413 => wrong_permissions(random, plan, statements),
        _ => no_code(random, statements),
    }
}

fn open_segment(plan: &Plan) -> Segment {
    let permissions = vec![Permission::ReadWrite; plan.active.len()];
    Segment {
        path: Vec::new(),
        size: 1,
        host: 0,
        permissions,
    }
}

fn insert_dseg(statements: &mut Vec<Statement>, statement: Statement) {
    let behind = statements
        .iter()
        .rposition(|statement| !statement.is_mseg());
    statements.insert(behind.map_or(0, |place| place + 1), statement);
}

/// A seventeenth segment; its index is looked at only later, so it may be any.
fn one_too_many(random: &mut Random, plan: &Plan, statements: &mut Vec<Statement>) {
    let index = random.pick(&[16, 16, 16, 17, 0, 15, 4_294_967_295]);
    let mut segment = open_segment(plan);
    if plan.dsegs.len() == 16 && random.chance(1, 2) {
        segment.path = plan.dsegs[random.below(16)].path.clone();
        let statement = Statement::dseg(random, index, &segment);
        insert_dseg(statements, statement);
    } else {
        segment.size = random.pick(&[1, 0, 20_000_000]);
        let statement = Statement::mseg(random, index, &segment);
        statements.push(statement);
    }
}

fn segments(statements: &[Statement]) -> Vec<usize> {
    (0..statements.len())
        .filter(|&place| !statements[place].is_code())
        .collect()
}

/// An index that is not the next one; the first of a kind must be 0.
fn wrong_index(random: &mut Random, plan: &Plan, statements: &mut Vec<Statement>) {
    let places = segments(statements);
    if places.is_empty() {
        let statement = Statement::mseg(random, 1, &open_segment(plan));
        return statements.push(statement);
    }
    let place = random.pick(&places);
    let right = place
        - statements
            .iter()
            .position(|s| s.tokens[0] == statements[place].tokens[0])
            .unwrap_or(0);
    let wrong = random.pick(&[
        right + 1,
        right + 2,
        right.wrapping_sub(1) & 15,
        16,
        4_294_967_295,
    ]);
    let wrong = if wrong == right { right + 1 } else { wrong };
    statements[place].tokens[INDEX] = format!("{wrong}").into_bytes();
}

/// A partition that is not there, as CODE's or as a host; or CODE for a passive one.
fn wrong_partition(random: &mut Random, plan: &Plan, statements: &mut Vec<Statement>) {
    let count = plan.active.len();
    let passive = plan.active.iter().position(|&active| !active);
    let number = match passive {
        Some(partition) if random.chance(1, 3) => {
            let path = plan.codes[0].1.clone();
            let statement = Statement::code(random, partition, &path);
            return statements.insert(0, statement);
        }
        _ => random
            .pick(&[count, count, count + 1, 8, 9, 255, 256, 4_294_967_295])
            .max(count),
    };
    if statements.is_empty() {
        return;
    }
    let place = random.below(statements.len());
    let token = if statements[place].is_code() {
        INDEX
    } else {
        HOST
    };
    statements[place].tokens[token] = format!("{number}").into_bytes();
}

fn second_code(random: &mut Random, plan: &Plan, statements: &mut Vec<Statement>) {
    let (partition, mut path) = plan.codes[random.below(plan.codes.len())].clone();
    if random.chance(1, 3) {
        // Its path is looked at only later.
        path = random.pick(&[&b"/scos/x"[..], b"/not there"]).to_vec();
    }
    let statement = Statement::code(random, partition, &path);
    let behind = statements
        .iter()
        .rposition(Statement::is_code)
        .map_or(0, |place| place + 1);
    statements.insert(behind, statement);
}

/// A dseg on a path that a CODE or an earlier DSEG has taken.
fn repeated_path(random: &mut Random, plan: &Plan, statements: &mut Vec<Statement>) {
    let mut taken: Vec<&Vec<u8>> = plan.codes.iter().map(|(_, path)| path).collect();
    taken.extend(plan.dsegs.iter().map(|segment| &segment.path));
    let mut segment = open_segment(plan);
    segment.path = taken[random.below(taken.len())].clone();
    let statement = Statement::dseg(random, plan.dsegs.len(), &segment);
    insert_dseg(statements, statement);
}

fn replace_path(random: &mut Random, statements: &mut [Statement], paths: &[&[u8]]) {
    let places: Vec<usize> = (0..statements.len())
        .filter(|&place| !statements[place].is_mseg())
        .collect();
    if places.is_empty() {
        return;
    }
    let place = random.pick(&places);
    let token = if statements[place].is_code() {
        CODE_PATH
    } else {
        SUBJECT
    };
    let path = random.pick(paths);
    statements[place].tokens[token] = path_token(random, path);
}

/// A path without a file: the file is left out, or the path is a near miss of a reserved one.
fn missing_file(random: &mut Random, plan: &mut Plan, statements: &mut [Statement]) {
    if random.chance(1, 2) {
        let gone = plan.codes[random.below(plan.codes.len())].1.clone();
        return plan.files.retain(|file| file.path != gone);
    }
    let paths: [&[u8]; 6] = [
        b"/scos2",
        b"/scosy/pw0",
        b"/Scos/pw0",
        b"/not there",
        b"//scos/pw0",
        b"/zz",
    ];
    replace_path(random, statements, &paths);
}

fn wrong_size(random: &mut Random, plan: &Plan, statements: &mut Vec<Statement>) {
    const SIZES: [&[u8]; 15] = [
        b"0",
        b"000",
        b"0KB",
        b"0MB",
        b"0GB",
        b"16777217",
        b"16385KB",
        b"17MB",
        b"1GB",
        b"4GB",
        b"4294967295",
        b"4194304KB",
        b"4096MB",
        b"4294967295GB",
        b"00000000000016777217",
    ];
    if !statements.iter().any(Statement::is_mseg) {
        let statement = Statement::mseg(random, 0, &open_segment(plan));
        statements.push(statement);
    }
    let places: Vec<usize> = (0..statements.len())
        .filter(|&place| statements[place].is_mseg())
        .collect();
    let place = random.pick(&places);
    statements[place].tokens[SUBJECT] = random.pick(&SIZES).to_vec();
}

fn wrong_permissions(random: &mut Random, plan: &Plan, statements: &mut Vec<Statement>) {
    if segments(statements).is_empty() {
        let statement = Statement::mseg(random, 0, &open_segment(plan));
        statements.push(statement);
    }
    let place = random.pick(&segments(statements));
    let statement = &mut statements[place];
    let count = plan.active.len();
    match random.below(4) {
        0 if count > 1 => statement.set_permissions(&vec![Permission::ReadWrite; count - 1]),
        1 => statement.set_permissions(&vec![Permission::ReadWrite; count + 1]),
        // Counts that come out right again where they are kept in one byte.
        2 => {
            let many = count + random.pick(&[8, 256, 512, 1024]);
            statement.set_permissions(&vec![Permission::ReadWrite; many]);
        }
        _ => broken_rule(random, plan, statement),
    }
}

/// An active host without access, or an mseg that no active partition may write.
fn broken_rule(random: &mut Random, plan: &Plan, statement: &mut Statement) {
    if statement.is_dseg() {
        let host = random.pick(&plan.active_partitions());
        statement.tokens[HOST] = format!("{host}").into_bytes();
        // Another break may have left fewer permissions than partitions.
        if let Some(permission) = statement.tokens.get_mut(FIRST_PERMISSION + 2 * host) {
            *permission = b"NA".to_vec();
        }
        return;
    }
    let weak = random.pick(&[Permission::NoAccess, Permission::ReadOnly]);
    let permissions: Vec<Permission> = plan
        .active
        .iter()
        .map(|&active| if active { weak } else { Permission::ReadWrite })
        .collect();
    statement.set_permissions(&permissions);
}

/// An active partition without CODE, or a text that says nothing at all.
fn no_code(random: &mut Random, statements: &mut Vec<Statement>) {
    if random.chance(1, 3) || !statements.iter().any(Statement::is_code) {
        return statements.clear();
    }
    let places: Vec<usize> = (0..statements.len())
        .filter(|&place| statements[place].is_code())
        .collect();
    statements.remove(random.pick(&places));
}

/// One statement with several things wrong at once: which of them is answered shows the order.
pub fn several_wrongs(random: &mut Random, plan: &Plan, statements: &mut [Statement]) {
    let place = random.below(statements.len());
    let Some(statement) = statements.get_mut(place) else {
        return;
    };
    let count = plan.active.len();
    if random.chance(1, 2) {
        statement.tokens[INDEX] = format!("{}", random.pick(&[count, 16, 99])).into_bytes();
    }
    if statement.is_code() {
        statement.tokens[CODE_PATH] = random.pick(&[&b"/scos/pw0"[..], b"/none"]).to_vec();
        return;
    }
    if random.chance(1, 2) {
        statement.tokens[HOST] = format!("{count}").into_bytes();
    }
    if random.chance(1, 2) {
        let taken = path_token(random, &plan.codes[0].1);
        let paths: &[&[u8]] = &[b"/scos/pw0", b"/none", &taken];
        let sizes: &[&[u8]] = &[b"0", b"17MB"];
        let subjects = if statement.is_dseg() { paths } else { sizes };
        statement.tokens[SUBJECT] = random.pick(subjects).to_vec();
    }
    if random.chance(1, 2) {
        let number = random.pick(&[count, count + 1]);
        statement.set_permissions(&vec![Permission::NoAccess; number]);
    }
}
