//! The function of a job: its values and its slots, and as the original's
//! `Function`.

use original::function::{
    Block, Function, IndirectRemat, Inst, InstRange, Operand, RematCost, TerminatorKind, Value,
    ValueGroup,
};
use original::reginfo::{RegBank, RegClass, RegUnit};

use crate::number::{NAMES_NOTHING, Reader, Refused};
use crate::target::Target;

pub const MOST_VALUES: usize = 4096;
pub const MOST_SLOTS: usize = 4096;
pub const MOST_EMERGENCY_SLOTS: usize = 2048;

/// 9: a register or rebuild class not of the value's bank.
pub const FOREIGN_BANK: Refused = Refused(9);

struct ValueInfo {
    bank: RegBank,
    remat: Option<(RematCost, RegClass)>,
}

/// The values and slots of a function.
pub struct Values {
    values: Vec<ValueInfo>,
    /// N: the ordinary slots.
    pub slots: usize,
    /// L: how many emergency slots may be made.
    pub emergency_limit: usize,
}

impl Values {
    /// Reads a function.
    pub fn read(reader: &mut Reader, target: &Target) -> Result<Values, Refused> {
        Values::read_with(reader, target, None)
    }

    /// Reads a function, of this N if one is given ("else 2, when that N is read").
    pub fn read_with(
        reader: &mut Reader,
        target: &Target,
        of: Option<usize>,
    ) -> Result<Values, Refused> {
        let value_count = reader.within(0, MOST_VALUES)?;
        let slots = reader.within(0, MOST_SLOTS)?;
        if of.is_some_and(|of| of != slots) {
            return Err(NAMES_NOTHING);
        }
        let emergency_limit = reader.within(0, MOST_EMERGENCY_SLOTS)?;
        let mut values = Vec::new();
        for _ in 0..value_count {
            values.push(ValueInfo::read(reader, target)?);
        }
        Ok(Values {
            values,
            slots,
            emergency_limit,
        })
    }
}

impl ValueInfo {
    fn read(reader: &mut Reader, target: &Target) -> Result<ValueInfo, Refused> {
        let bank = RegBank::new(reader.index(target.banks.len())?);
        let cost = match reader.index(3)? {
            0 => None,
            1 => Some(RematCost::CheaperThanMove),
            _ => Some(RematCost::CheaperThanLoad),
        };
        let remat = match cost {
            None => None,
            Some(cost) => {
                let class = RegClass::new(reader.index(target.classes.len())?);
                if target.class(class).bank != bank {
                    return Err(FOREIGN_BANK);
                }
                Some((cost, class))
            }
        };
        Ok(ValueInfo { bank, remat })
    }
}

/// What the module never asks for.
macro_rules! not_asked {
    () => {
        unimplemented!("the module never asks for this")
    };
}

impl Function for Values {
    fn num_values(&self) -> usize {
        self.values.len()
    }

    fn value_bank(&self, value: Value) -> RegBank {
        self.values[value.index()].bank
    }

    fn can_rematerialize(&self, value: Value) -> Option<(RematCost, RegClass)> {
        self.values[value.index()].remat
    }

    fn num_insts(&self) -> usize {
        not_asked!()
    }

    fn num_blocks(&self) -> usize {
        not_asked!()
    }

    fn entry_points(&self) -> &[Block] {
        not_asked!()
    }

    fn block_insts(&self, _block: Block) -> InstRange {
        not_asked!()
    }

    fn inst_block(&self, _inst: Inst) -> Block {
        not_asked!()
    }

    fn block_succs(&self, _block: Block) -> &[Block] {
        not_asked!()
    }

    fn block_preds(&self, _block: Block) -> &[Block] {
        not_asked!()
    }

    fn block_immediate_dominator(&self, _block: Block) -> Option<Block> {
        not_asked!()
    }

    fn block_params(&self, _block: Block) -> &[Value] {
        not_asked!()
    }

    fn terminator_kind(&self, _inst: Inst) -> Option<TerminatorKind> {
        not_asked!()
    }

    fn jump_blockparams(&self, _block: Block) -> &[Value] {
        not_asked!()
    }

    fn block_frequency(&self, _block: Block) -> f32 {
        not_asked!()
    }

    fn block_is_critical_edge(&self, _block: Block) -> bool {
        not_asked!()
    }

    fn inst_operands(&self, _inst: Inst) -> &[Operand] {
        not_asked!()
    }

    fn inst_clobbers(&self, _inst: Inst) -> impl Iterator<Item = RegUnit> {
        core::iter::empty()
    }

    fn num_value_groups(&self) -> usize {
        not_asked!()
    }

    fn value_group_members(&self, _group: ValueGroup) -> &[Value] {
        not_asked!()
    }

    fn can_indirectly_rematerialize(&self, _value: Value) -> Option<IndirectRemat<'_>> {
        not_asked!()
    }

    fn can_eliminate_dead_inst(&self, _inst: Inst) -> bool {
        not_asked!()
    }
}
