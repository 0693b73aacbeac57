//! The table check and the index of rules.
use crate::words::{mode, role, MAX_ATOMS, MAX_CONSUMES, MAX_PORTS, MAX_RULES, MAX_RULE_ATOMS};

#[derive(Clone, Copy, Debug, PartialEq, Eq)]
pub enum Class {
    /// 01: plant.
    Global,
    /// 01: batch.
    Local,
    /// 01: joining.
    Merge,
}

/// A rule as a range of the table's atoms; the consumes come first.
#[derive(Clone, Copy, Debug)]
pub struct Rule {
    pub class: Class,
    pub first: usize,
    pub consumes: usize,
    pub end: usize,
    pub begins: bool,
    pub emits: bool,
}

#[derive(Debug)]
pub struct Table<'a> {
    pub global: u32,
    pub local: u32,
    pub ports: u32,
    pub atoms: &'a [u32],
    pub rules: Vec<Rule>,
}

impl<'a> Table<'a> {
    pub fn read(words: &'a [u32]) -> Result<Table<'a>, u32> {
        let &[global, local, merge, rules, atoms, ref rest @ ..] = words else { return Err(1) };
        let ports = u64::from(global) + u64::from(local) + u64::from(merge);
        if ports > u64::from(MAX_PORTS) || rules > MAX_RULES || atoms > MAX_ATOMS || rest.len() != 2 * atoms as usize {
            return Err(1);
        }
        let (numbers, atoms) = rest.split_at(atoms as usize);
        let mut table = Table { global, local, ports: ports as u32, atoms, rules: Vec::with_capacity(rules as usize) };
        let mut first = 0;
        for number in 0..rules {
            let count = numbers[first..].iter().take_while(|&&other| other == number).count();
            table.rules.push(table.rule(first, first + count)?);
            first += count;
        }
        if first == atoms.len() {
            Ok(table)
        } else {
            Err(2)
        }
    }

    pub fn class(&self, port: u32) -> Class {
        if port < self.global {
            Class::Global
        } else if port < self.global + self.local {
            Class::Local
        } else {
            Class::Merge
        }
    }

    fn rule(&self, first: usize, end: usize) -> Result<Rule, u32> {
        let atoms = &self.atoms[first..end];
        let consumes = atoms.iter().take_while(|&&atom| atom >> 28 == role::CONSUME).count();
        if atoms.len() > MAX_RULE_ATOMS || !(1..=MAX_CONSUMES).contains(&consumes) {
            return Err(2);
        }
        let class = self.class(atoms[0] >> 16 & 0xFF);
        let mut rule = Rule { class, first, consumes, end, begins: false, emits: false };
        let mut last = role::CONSUME;
        for &atom in atoms {
            let (this, mode, port, value) = (atom >> 28, atom >> 24 & 0xF, atom >> 16 & 0xFF, atom & 0xFFFF);
            let known = match mode {
                mode::CONSTANT => true,
                mode::RECEIVED => (value as usize) < consumes,
                _ => false,
            };
            // Only contents, compensations and marks ask for a begin or a class of rule.
            let in_place = class != Class::Global || rule.begins;
            let right = match this {
                role::CONSUME => mode == 0 && value == 0 && self.class(port) == class,
                role::EMIT => known && (class != Class::Global || port < self.global),
                role::BEGIN => atom << 4 == 0 && class == Class::Global && last != role::BEGIN,
                role::BODY => known && class == Class::Global && in_place,
                role::COMPENSATE => known && class == Class::Global && in_place && port < self.global,
                role::ABORT => atom << 4 == 0 && in_place && last != role::ABORT,
                _ => false,
            };
            if !right || port >= self.ports || this < last {
                return Err(2);
            }
            rule.begins |= this == role::BEGIN;
            rule.emits |= this == role::EMIT;
            last = this;
        }
        Ok(rule)
    }
}
