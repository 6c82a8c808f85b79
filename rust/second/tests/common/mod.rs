//! A machine to build cases with.
#![allow(dead_code)]

use second::*;

pub const STS: Reg = Reg::Sts;
pub const D: Reg = Reg::D;
pub const P: Reg = Reg::P;
pub const B: Reg = Reg::B;
pub const L: Reg = Reg::L;
pub const A: Reg = Reg::A;
pub const T: Reg = Reg::T;
pub const X: Reg = Reg::X;

/// Where cases put their instruction.
pub const HERE: u16 = 0o100;

#[derive(Clone, PartialEq, Debug)]
pub struct Case {
    pub s: State,
    pub m: Vec<u16>,
    pub t: Vec<u16>,
}

impl Case {
    /// Four pages, paging off, level 0, `word` at 000100 and P there.
    pub fn of(word: u16) -> Case {
        let mut case = Case {
            s: State::new(),
            m: vec![0; 4 * PAGE],
            t: vec![0; TABLE_WORDS],
        };
        case.s.set_reg(P, HERE);
        case.m[usize::from(HERE)] = word;
        case
    }

    /// As `of`, with paging on, the given ring, and table 0 mapping virtual
    /// pages 0 to 3 to the same physical ones with all permits on ring 0.
    pub fn paged(word: u16, ring: u16) -> Case {
        let mut case = Case::of(word);
        case.s.paging_on = 1;
        case.s.pcr[0] = ring;
        for page in 0..4 {
            case.t[page] = 0o160000 | ring << 9 | page as u16;
        }
        case
    }

    pub fn with(mut self, reg: Reg, value: u16) -> Case {
        self.s.set_reg(reg, value);
        self
    }

    pub fn mem(mut self, address: usize, value: u16) -> Case {
        self.m[address] = value;
        self
    }

    pub fn table(mut self, index: usize, entry: u16) -> Case {
        self.t[index] = entry;
        self
    }

    pub fn get(&self, reg: Reg) -> u16 {
        self.s.reg(reg)
    }

    /// One step; the interrupt's number, 0 if none.
    pub fn step(&mut self) -> u16 {
        step(&mut self.s, &mut self.m, &mut self.t)
            .expect("in range")
            .map_or(0, Interrupt::number)
    }

    /// Steps, expects no interrupt, and answers the case.
    pub fn ok(mut self) -> Case {
        assert_eq!(self.step(), 0);
        self
    }

    /// Steps and expects the interrupt.
    pub fn gives(mut self, number: u16) -> Case {
        assert_eq!(self.step(), number);
        assert_ne!(self.s.iid & 1 << number, 0);
        self
    }

    /// Expects registers of the running level.
    pub fn has(self, regs: &[(Reg, u16)]) -> Case {
        for &(reg, value) in regs {
            assert_eq!(
                self.get(reg),
                value,
                "{} is {:06o}, not {:06o}",
                reg.name(),
                self.get(reg),
                value
            );
        }
        self
    }

    pub fn holds(self, address: usize, value: u16) -> Case {
        assert_eq!(self.m[address], value, "memory at {address:06o}");
        self
    }

    pub fn entry(self, index: usize, value: u16) -> Case {
        assert_eq!(self.t[index], value, "table word {index:03o}");
        self
    }
}

/// Flags by letters, as "OQ".
pub fn flags(names: &str) -> u16 {
    names
        .chars()
        .map(|name| match name {
            'P' => flag::PTM,
            'G' => flag::TG,
            'K' => flag::K,
            'Z' => flag::Z,
            'Q' => flag::Q,
            'O' => flag::O,
            'C' => flag::C,
            'M' => flag::M,
            _ => panic!("no flag {name}"),
        })
        .sum()
}
