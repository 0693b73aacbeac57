//! Random well-formed tables.
use crate::random::Random;
use crate::words::{role, Atom, Table, MAX_ATOMS, MAX_PORTS, MAX_RULES};

/// What a table is for.
#[derive(Clone, Copy, Debug, PartialEq, Eq)]
pub enum Shape {
    /// Any sizes up to the limits.
    Any,
    /// Few ports and rules, so that reactions find their messages.
    Small,
    /// Small, and no begin rule emits; each local and merge port has a rule that empties it, so
    /// that every transaction can be ended.
    Closable,
    /// Few ports of every class, so that transactions with an abort mark meet others.
    EveryClass,
}

/// The class of a port or rule.
#[derive(Clone, Copy, Debug, PartialEq, Eq)]
pub enum Class {
    Global,
    Local,
    Merge,
}

impl Class {
    /// The class of a rule that consumes from its first atom's port.
    pub fn of(table: &Table, rule: &[Atom]) -> Class {
        let port = rule[0].port;
        if port < table.global {
            Class::Global
        } else if port < table.global + table.local {
            Class::Local
        } else {
            Class::Merge
        }
    }
}

pub fn table(random: &mut Random, shape: Shape) -> Table {
    let mut table = match shape {
        Shape::Any => any_sizes(random),
        Shape::Small => sizes(random.between(1, 3), random.below(3), random.below(3)),
        Shape::Closable => sizes(random.between(1, 3), random.between(0, 2), random.between(0, 2)),
        Shape::EveryClass => sizes(random.between(1, 2), random.between(1, 2), random.between(1, 2)),
    };
    if shape == Shape::Closable {
        drains(random, &mut table);
        begins(random, &mut table);
    }
    let most = match shape {
        Shape::Any => random.pick(&[0, 1, 8, MAX_RULES]),
        _ => random.between(4, 12),
    };
    while (table.rules.len() as u32) < most {
        let classes = classes(&table);
        if classes.is_empty() {
            break;
        }
        let left = MAX_ATOMS as usize - table.atoms();
        let longest = match shape {
            Shape::Any => random.pick(&[4, 8, 16]),
            _ => 8,
        };
        if left < 16 {
            break;
        }
        let class = random.pick(&classes);
        let rule = rule(random, &table, class, longest, shape != Shape::Closable);
        table.rules.push(rule);
    }
    if shape != Shape::Any {
        random.shuffle(&mut table.rules);
    }
    table
}

fn sizes(global: u32, local: u32, merge: u32) -> Table {
    Table { global, local, merge, rules: Vec::new() }
}

fn any_sizes(random: &mut Random) -> Table {
    let ports = match random.below(4) {
        0 => MAX_PORTS,
        1 => random.below(MAX_PORTS + 1),
        _ => random.below(12),
    };
    let global = random.between(0, ports);
    let local = random.between(0, ports - global);
    sizes(global, local, ports - global - local)
}

fn classes(table: &Table) -> Vec<Class> {
    let sized = [(table.global, Class::Global), (table.local, Class::Local), (table.merge, Class::Merge)];
    sized.into_iter().filter(|&(size, _)| size > 0).map(|(_, class)| class).collect()
}

/// The ports of a class: the first and their number.
fn span(table: &Table, class: Class) -> (u32, u32) {
    match class {
        Class::Global => (0, table.global),
        Class::Local => (table.global, table.local),
        Class::Merge => (table.global + table.local, table.merge),
    }
}

fn port(random: &mut Random, table: &Table, class: Class) -> u32 {
    let (first, count) = span(table, class);
    first + random.below(count)
}

/// An atom that sends a value on a port.
fn sending(random: &mut Random, role: u32, port: u32, consumes: usize) -> Atom {
    if random.chance(60) {
        Atom::received(role, port, random.index(consumes) as u32)
    } else {
        Atom::constant(role, port, random.pick(&[0, 1, 2, 7, 65_535]))
    }
}

fn rule(random: &mut Random, table: &Table, class: Class, longest: usize, begin_emits: bool) -> Vec<Atom> {
    let consumes = random.pick(&[1, 1, 1, 2, 2, 3, 4]).min(longest);
    let mut rule: Vec<Atom> = (0..consumes).map(|_| Atom::consume(port(random, table, class))).collect();
    let begins = class == Class::Global && rule.len() < longest && random.chance(60);
    let emits = if begins && !begin_emits { 0 } else { random.index(longest - rule.len() - usize::from(begins) + 1) };
    for _ in 0..emits {
        let port = if class == Class::Global { port(random, table, class) } else { random.below(table.ports()) };
        rule.push(sending(random, role::EMIT, port, consumes));
    }
    if begins {
        rule.push(Atom::BEGIN);
        let contents = random.index(longest - rule.len() + 1);
        let bodies = random.index(contents + 1);
        for place in 0..contents {
            let (role, port) = if place < bodies {
                (role::BODY, random.below(table.ports()))
            } else {
                (role::COMPENSATE, random.below(table.global))
            };
            rule.push(sending(random, role, port, consumes));
        }
    }
    let may_abort = (class != Class::Global || begins) && rule.len() < longest;
    if may_abort && random.chance(25) {
        rule.push(Atom::ABORT);
    }
    rule
}

/// For each local and merge port, a rule that takes one message away from it.
fn drains(random: &mut Random, table: &mut Table) {
    for drained in table.global..table.ports() {
        let mut rule = vec![Atom::consume(drained)];
        if random.chance(50) {
            let global = random.below(table.global);
            rule.push(sending(random, role::EMIT, global, 1));
        }
        table.rules.push(rule);
    }
}

/// A begin with one message inside, so that transactions are there to work on.
fn begins(random: &mut Random, table: &mut Table) {
    let mut rule = vec![Atom::consume(random.below(table.global)), Atom::BEGIN];
    let inside = random.below(table.ports());
    rule.push(sending(random, role::BODY, inside, 1));
    if table.merge > 0 {
        let inside = port(random, table, Class::Merge);
        rule.push(sending(random, role::BODY, inside, 1));
    }
    let back = random.below(table.global);
    rule.push(sending(random, role::COMPENSATE, back, 1));
    table.rules.push(rule);
}
