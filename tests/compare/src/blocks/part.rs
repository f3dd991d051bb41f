//! What a unit hands on from record to record, part by part.

use reference::trace::Unit;
use reference::Registers;

/// The register numbers of the settings.
pub const KSEG: u32 = 0;
pub const CTRL: u32 = 1;
pub const ENABLE: u32 = 2;
pub const KBASE_LO: u32 = 3;
pub const KBASE_HI: u32 = 4;
pub const CONTEXT: u32 = 5;

/// The registers that show in a trace are the guarded settings, CTRL bit by bit.
#[derive(Clone, Copy, Debug, PartialEq, Eq)]
pub enum Part {
    Kseg,
    KbaseLo,
    KbaseHi,
    Context,
    Enable,
    InvExc,
    AccExc,
    WeExc,
    /// The translation buffer.
    Entries,
    /// The page tables.
    Words,
}

pub const PARTS: [Part; 10] = [
    Part::Kseg,
    Part::KbaseLo,
    Part::KbaseHi,
    Part::Context,
    Part::Enable,
    Part::InvExc,
    Part::AccExc,
    Part::WeExc,
    Part::Entries,
    Part::Words,
];

impl Part {
    pub fn name(self) -> &'static str {
        match self {
            Part::Kseg => "KSEG",
            Part::KbaseLo => "KBASE_LO",
            Part::KbaseHi => "KBASE_HI",
            Part::Context => "CONTEXT",
            Part::Enable => "ENABLE",
            Part::InvExc => "inv_exc",
            Part::AccExc => "acc_exc",
            Part::WeExc => "we_exc",
            Part::Entries => "entries",
            Part::Words => "table words",
        }
    }

    /// The register's number and those of its bits that are this part.
    pub fn setting(self) -> Option<(u32, u32)> {
        match self {
            Part::Kseg => Some((KSEG, u32::MAX)),
            Part::InvExc => Some((CTRL, 4)),
            Part::AccExc => Some((CTRL, 2)),
            Part::WeExc => Some((CTRL, 1)),
            Part::Enable => Some((ENABLE, u32::MAX)),
            Part::KbaseLo => Some((KBASE_LO, u32::MAX)),
            Part::KbaseHi => Some((KBASE_HI, u32::MAX)),
            Part::Context => Some((CONTEXT, u32::MAX)),
            Part::Entries | Part::Words => None,
        }
    }

    /// Gives the unit this part of another.
    pub fn take(self, unit: &mut Unit, from: &Unit) {
        match (self, self.setting()) {
            (_, Some((number, bits))) => {
                let mut words = unit.registers.to_words();
                let other = from.registers.to_words()[number as usize];
                let word = &mut words[number as usize];
                *word = *word & !bits | other & bits;
                unit.registers = Registers::from_words(words);
            }
            (Part::Entries, _) => unit.buffer = from.buffer,
            _ => unit.words = from.words.clone(),
        }
    }

    /// Whether both units have the same in this part, a setting.
    pub fn is_same(self, one: &Unit, other: &Unit) -> bool {
        self.setting().is_none_or(|(number, bits)| {
            let value = |unit: &Unit| unit.registers.to_words()[number as usize] & bits;
            value(one) == value(other)
        })
    }
}
