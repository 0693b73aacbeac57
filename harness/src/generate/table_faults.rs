//! A right table with one planted fault, whose number is known without asking any implementation.
use crate::random::Random;
use crate::words::{role, Atom, Table};

faults! {
    /// One way to damage a right table.
    TableFault {
        1: [
            CutInSizes, TooManyPorts, PortSumWraps, TooManyRules, TooManyAtoms, WordMissing, WordLeft,
        ]
        2: [
            RuleNumberFalls, RuleNumberSkipped, LastRuleMissing, RuleNumberTooHigh, RuleNumberHuge,
            AtomsWithoutRules, UnknownRole, RoleFalls, UnknownMode, ConsumeReceives, ConsumeHasValue,
            ReceivesFromNoConsume, BeginHasMode, BeginHasPort, BeginHasValue, AbortHasMode, AbortHasPort,
            AbortHasValue, ConsumePortMissing, EmitPortMissing, BodyPortMissing, CompensatePortMissing,
            NoConsume, FiveConsumes, SeventeenAtoms, TwoBegins, TwoAborts, MixedConsumes,
            GlobalRuleEmitsElsewhere, BodyWithoutBegin, CompensateWithoutBegin, AbortWithoutBegin,
            LocalRuleBegins, LocalRuleHasBody, LocalRuleCompensates, MergeRuleBegins, MergeRuleHasBody,
            MergeRuleCompensates, CompensateOffGlobal,
        ]
    }
}

impl TableFault {
    /// The damaged words, if this table has what the fault needs.
    pub fn plant(self, random: &mut Random, table: &Table) -> Option<Vec<u32>> {
        use TableFault::*;
        let mut words = table.words();
        let rules = table.rules.len();
        let atoms = table.atoms();
        match self {
            CutInSizes => words.truncate(random.index(5)),
            TooManyPorts => {
                let grown = random.index(3);
                words[grown] += 257 - table.ports() + random.below(4);
            }
            PortSumWraps => {
                // The sum modulo 2^32 is at most 256 and right for nothing.
                words[0] = u32::MAX - random.below(100);
                words[1] = random.between(101, 200);
                words[2] = random.below(20);
            }
            TooManyRules => words[3] = random.pick(&[65, 66, 1 << 16, u32::MAX]),
            TooManyAtoms => {
                // The length fits, so that only the limit is broken.
                words[4] = random.pick(&[513, 514, 1000]);
                words.resize(5 + 2 * words[4] as usize, 0);
            }
            WordMissing => {
                words.pop().filter(|_| atoms > 0)?;
            }
            WordLeft => words.extend(vec![0; random.pick(&[1, 2, 5])]),
            RuleNumberFalls => {
                // The last atom names an earlier rule; its own rule keeps another atom.
                (rules >= 2 && table.rules[rules - 1].len() >= 2).then_some(())?;
                words[5 + atoms - 1] = random.index(rules - 1) as u32;
            }
            RuleNumberSkipped => {
                (rules >= 1).then_some(())?;
                let from = random.index(rules) as u32;
                words[5..5 + atoms].iter_mut().filter(|number| **number >= from).for_each(|number| *number += 1);
                words[3] += 1;
                (words[3] <= 64).then_some(())?;
            }
            LastRuleMissing => {
                words[3] += 1;
                (words[3] <= 64).then_some(())?;
            }
            RuleNumberTooHigh => {
                (atoms > 0).then_some(())?;
                words[5 + atoms - 1] = rules as u32;
            }
            RuleNumberHuge => {
                (atoms > 0).then_some(())?;
                words[5 + random.index(atoms)] = random.pick(&[u32::MAX, 1 << 31, 65_536]);
            }
            AtomsWithoutRules => {
                (atoms > 0).then_some(())?;
                words[3] = 0;
            }
            _ => words = self.plant_in_rule(random, table)?,
        }
        Some(words)
    }

    /// Damages one rule and keeps the sizes right.
    fn plant_in_rule(self, random: &mut Random, table: &Table) -> Option<Vec<u32>> {
        let mut damaged = table.clone();
        let at = random.index(table.rules.len().max(1));
        let rule = damaged.rules.get_mut(at)?;
        self.damage(random, table, rule)?;
        (damaged.atoms() <= 512).then(|| damaged.words())
    }

    fn damage(self, random: &mut Random, table: &Table, rule: &mut Vec<Atom>) -> Option<()> {
        use TableFault::*;
        let consumes = rule.iter().filter(|atom| atom.role == role::CONSUME).count();
        let begins = rule.iter().any(|atom| atom.role == role::BEGIN);
        let first = rule[0].port;
        let global = first < table.global;
        let local = !global && first < table.global + table.local;
        let merge = !global && !local;
        let missing = table.ports() + random.below(256u32.saturating_sub(table.ports()).max(1));
        let short = rule.len() < 16;
        let place = |rule: &Vec<Atom>, role: u32| rule.iter().position(|atom| atom.role == role);
        // Puts an atom where its role belongs.
        let add = |rule: &mut Vec<Atom>, atom: Atom| {
            let at = rule.iter().position(|other| other.role > atom.role).unwrap_or(rule.len());
            rule.insert(at, atom);
        };
        match self {
            UnknownRole => rule.last_mut()?.role = random.between(6, 15),
            RoleFalls => {
                let at = (1..rule.len()).find(|&at| rule[at - 1].role != rule[at].role)?;
                rule.swap(at - 1, at);
            }
            UnknownMode => {
                let sends = |atom: &&mut Atom| [role::EMIT, role::BODY, role::COMPENSATE].contains(&atom.role);
                rule.iter_mut().find(sends)?.mode = random.between(2, 15);
            }
            ConsumeReceives => rule[random.index(consumes)].mode = 1,
            ConsumeHasValue => rule[random.index(consumes)].value = random.between(1, 65_535),
            ReceivesFromNoConsume => {
                let sends = |atom: &&mut Atom| [role::EMIT, role::BODY, role::COMPENSATE].contains(&atom.role);
                let atom = rule.iter_mut().find(sends)?;
                atom.mode = 1;
                atom.value = random.pick(&[consumes as u32, 4, 5, 65_535]).max(consumes as u32);
            }
            BeginHasMode | AbortHasMode => {
                let role = if self == BeginHasMode { role::BEGIN } else { role::ABORT };
                let at = place(rule, role)?;
                rule[at].mode = random.between(1, 15);
            }
            BeginHasPort | AbortHasPort => {
                let role = if self == BeginHasPort { role::BEGIN } else { role::ABORT };
                let at = place(rule, role)?;
                // A port that exists where there is one, so that only "port 0" is broken.
                rule[at].port = random.between(1, (table.ports() - 1).max(1));
            }
            BeginHasValue | AbortHasValue => {
                let role = if self == BeginHasValue { role::BEGIN } else { role::ABORT };
                let at = place(rule, role)?;
                rule[at].value = random.pick(&[1, 2, 65_535]);
            }
            ConsumePortMissing | EmitPortMissing | BodyPortMissing | CompensatePortMissing => {
                (table.ports() < 256).then_some(())?;
                let role = match self {
                    ConsumePortMissing => role::CONSUME,
                    EmitPortMissing => role::EMIT,
                    BodyPortMissing => role::BODY,
                    _ => role::COMPENSATE,
                };
                let at = place(rule, role)?;
                rule[at].port = missing;
            }
            NoConsume => {
                // Constants only, so that no value is missed as well.
                let all_constant = rule[consumes..].iter().all(|atom| atom.mode == 0);
                (all_constant && rule.len() > consumes).then_some(())?;
                rule.drain(..consumes);
            }
            FiveConsumes => {
                (rule.len() + 5 - consumes <= 16).then_some(())?;
                for _ in consumes..5 {
                    rule.insert(0, Atom::consume(first));
                }
            }
            SeventeenAtoms => {
                let port = if table.global > 0 { 0 } else { first };
                while rule.len() < 17 {
                    add(rule, Atom::constant(role::EMIT, port, 3));
                }
            }
            TwoBegins => {
                (begins && short).then_some(())?;
                add(rule, Atom::BEGIN);
            }
            TwoAborts => {
                place(rule, role::ABORT).filter(|_| short)?;
                add(rule, Atom::ABORT);
            }
            MixedConsumes => {
                (consumes >= 2).then_some(())?;
                let other = port_of_other_class(random, table, first)?;
                let at = random.index(consumes);
                rule[at].port = other;
            }
            GlobalRuleEmitsElsewhere => {
                (global && table.ports() > table.global).then_some(())?;
                let at = place(rule, role::EMIT)?;
                rule[at].port = random.between(table.global, table.ports() - 1);
            }
            BodyWithoutBegin | CompensateWithoutBegin | AbortWithoutBegin => {
                (global && short && !begins).then_some(())?;
                let atom = match self {
                    BodyWithoutBegin => Atom::constant(role::BODY, first, 0),
                    CompensateWithoutBegin => Atom::constant(role::COMPENSATE, first, 0),
                    _ => Atom::ABORT,
                };
                add(rule, atom);
            }
            LocalRuleBegins | MergeRuleBegins => {
                ((if self == LocalRuleBegins { local } else { merge }) && short).then_some(())?;
                add(rule, Atom::BEGIN);
            }
            LocalRuleHasBody | MergeRuleHasBody => {
                ((if self == LocalRuleHasBody { local } else { merge }) && short).then_some(())?;
                add(rule, Atom::constant(role::BODY, first, 0));
            }
            LocalRuleCompensates | MergeRuleCompensates => {
                ((if self == LocalRuleCompensates { local } else { merge }) && short && table.global > 0)
                    .then_some(())?;
                add(rule, Atom::constant(role::COMPENSATE, 0, 0));
            }
            CompensateOffGlobal => {
                (table.ports() > table.global).then_some(())?;
                let at = place(rule, role::COMPENSATE)?;
                rule[at].port = random.between(table.global, table.ports() - 1);
            }
            _ => unreachable!("not a fault of one rule"),
        }
        Some(())
    }
}

fn port_of_other_class(random: &mut Random, table: &Table, port: u32) -> Option<u32> {
    let class = |port: u32| (port >= table.global) as u32 + (port >= table.global + table.local) as u32;
    let others: Vec<u32> = (0..table.ports()).filter(|&other| class(other) != class(port)).collect();
    (!others.is_empty()).then(|| random.pick(&others))
}
