//! Formulas as three-address code, in blocks.

use std::collections::{BTreeMap, BTreeSet};

use parallel_moves::Value;

#[derive(Clone, Copy)]
pub enum Operator {
    Add,
    Subtract,
    Multiply,
    Divide,
}

pub struct Instruction {
    pub result: Value,
    pub operator: Operator,
    /// Left and right.
    pub operands: [Value; 2],
}

/// How a block ends. A branch leads to blocks that nothing else leads to; jumps may come together.
pub enum End {
    /// To the first block if the first value is below the second, else to the second block.
    Branch([Value; 2], [usize; 2]),
    /// To a block, with what its parameters are.
    Jump(usize, Vec<Value>),
    Return(Value),
}

pub struct Block {
    pub parameters: Vec<Value>,
    pub instructions: Vec<Instruction>,
    pub end: End,
}

/// A formula of so many inputs, which are its first values. Each block stands behind those that lead to it.
#[derive(Default)]
pub struct Formula {
    pub inputs: usize,
    pub values: usize,
    pub constants: BTreeMap<Value, f64>,
    pub blocks: Vec<Block>,
    /// Of the block that is not ended yet.
    instructions: Vec<Instruction>,
}

impl Formula {
    pub fn value(&mut self) -> Value {
        self.values += 1;
        Value::new(self.values - 1)
    }

    pub fn input(&mut self) -> Value {
        self.inputs += 1;
        self.value()
    }

    pub fn constant(&mut self, number: f64) -> Value {
        let value = self.value();
        self.constants.insert(value, number);
        value
    }

    pub fn compute(&mut self, left: Value, operator: Operator, right: Value) -> Value {
        let (result, operands) = (self.value(), [left, right]);
        self.instructions.push(Instruction {
            result,
            operator,
            operands,
        });
        result
    }

    /// Ends a block with these parameters.
    pub fn end(&mut self, parameters: &[Value], end: End) {
        self.blocks.push(Block {
            parameters: parameters.to_vec(),
            instructions: std::mem::take(&mut self.instructions),
            end,
        });
    }

    /// The values that each block needs from before it, but for its parameters. Constants are made where
    /// they are needed.
    pub fn live(&self) -> Vec<BTreeSet<Value>> {
        let mut live = vec![BTreeSet::new(); self.blocks.len()];
        for (number, block) in self.blocks.iter().enumerate().rev() {
            let mut needed: BTreeSet<Value> = block.end.values().into_iter().collect();
            for next in block.end.blocks() {
                needed.extend(&live[next]);
            }
            for instruction in block.instructions.iter().rev() {
                needed.remove(&instruction.result);
                needed.extend(instruction.operands);
            }
            let known = |value: &Value| {
                block.parameters.contains(value) || self.constants.contains_key(value)
            };
            needed.retain(|value| !known(value));
            live[number] = needed;
        }
        live
    }
}

impl End {
    /// The values that it reads.
    pub fn values(&self) -> Vec<Value> {
        match self {
            End::Branch(values, _) => values.to_vec(),
            End::Jump(_, arguments) => arguments.clone(),
            End::Return(value) => vec![*value],
        }
    }

    /// Where it leads.
    pub fn blocks(&self) -> Vec<usize> {
        match *self {
            End::Branch(_, blocks) => blocks.to_vec(),
            End::Jump(to, _) => vec![to],
            End::Return(_) => vec![],
        }
    }
}
