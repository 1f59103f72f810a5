//! Compiled formulas as assembly, and run on a processor.

use std::io;
use std::path::Path;

use parallel_moves::{Edit, PhysReg, SpillSlot, Value};

use super::allocate::{Code, Program};
use super::code::{Formula, Operator};
use super::lime::Sample;
use super::lower::{Frame, arm, slot_sizes, x86_64};
use super::machine;
use super::processor::{self, Processor};
use super::target::Target;

/// Reads samples and writes their rates.
const MAIN: &str = r"
#include <stdio.h>

double formula(const double *sample);

int main(void)
{
    double sample[4];
    while (fread(sample, sizeof sample, 1, stdin) == 1) {
        double rate = formula(sample);
        if (fwrite(&rate, sizeof rate, 1, stdout) != 1) return 1;
    }
    return 0;
}
";

/// Runs a compiled formula on the target's processor; what is built lies in the folder.
///
/// # Errors
///
/// If it cannot be built or run.
pub fn rates(
    formula: &Formula,
    target: &Target,
    program: &Program,
    samples: &[Sample],
    folder: &Path,
) -> io::Result<Vec<f64>> {
    let text = assembly(formula, target, program);
    let numbers = samples.iter().flatten();
    let input: Vec<u8> = numbers.flat_map(|number| number.to_le_bytes()).collect();
    let files = [("main.c", MAIN), ("formula.s", &text)];
    let printed = target.assembler.processor().run(folder, &files, &input)?;
    let rates = printed
        .chunks_exact(8)
        .map(|bytes| bytes.try_into().expect("eight bytes"));
    Ok(rates.map(f64::from_le_bytes).collect())
}

/// A compiled formula as the function that `MAIN` calls.
pub fn assembly(formula: &Formula, target: &Target, program: &Program) -> String {
    let assembler = target.assembler;
    let constants = constants(formula, target);
    let of_code = |code: &Code| match *code {
        Code::Edit(edit) => Some(edit),
        _ => None,
    };
    let codes = program.blocks.iter().flatten();
    let edits: Vec<Edit> = codes.filter_map(of_code).collect();
    let ordinary = vec![target.slot; formula.values];
    let sizes = slot_sizes(&ordinary, &edits, |_| target.slot, &constants);
    let frame = Frame::new(0, &sizes);
    let mut text = assembler.start(&frame);
    for (number, block) in program.blocks.iter().enumerate() {
        text += &format!(".Lblock{number}:\n");
        for code in block {
            text += &match *code {
                Code::Edit(edit) => assembler.edit(edit, &frame, &constants).join("\n"),
                Code::Compute(operator, registers) => assembler.compute(operator, registers),
                Code::Branch(registers, blocks) => assembler.branch(registers, blocks),
                Code::Jump(to) => assembler.jump(to),
                Code::Return(rate) => assembler.finish(rate, &frame),
            };
            text += "\n";
        }
    }
    text += &assembler.pool(&constants).join("\n");
    text + "\n.section .note.GNU-stack, \"\", %progbits\n"
}

/// The words of each value that is a constant, as many as a slot has: an xmm register has a second double, 0.
fn constants(formula: &Formula, target: &Target) -> Vec<Vec<u32>> {
    let words = |value| match formula.constants.get(&Value::new(value)) {
        None => Vec::new(),
        Some(&number) => {
            let halves = machine::words(number, 2)
                .into_iter()
                .map(|word| word as u32);
            halves.chain([0; 2]).take(target.slot / 4).collect()
        }
    };
    (0..formula.values).map(words).collect()
}

/// What differs from processor to processor. Each part is a text of one line or several.
pub trait Assembler {
    fn processor(&self) -> &'static Processor;
    /// The beginning of the function: the inputs go to their slots.
    fn start(&self, frame: &Frame) -> String;
    fn edit(&self, edit: Edit, frame: &Frame, constants: &[Vec<u32>]) -> Vec<String>;
    fn compute(&self, operator: Operator, to_left_right: [PhysReg; 3]) -> String;
    /// To the first block if the first register is below the second, else to the second block.
    fn branch(&self, left_right: [PhysReg; 2], blocks: [usize; 2]) -> String;
    fn jump(&self, to: usize) -> String;
    fn finish(&self, rate: PhysReg, frame: &Frame) -> String;
    fn pool(&self, constants: &[Vec<u32>]) -> Vec<String>;
}

/// The offset of each input in a sample, and in the frame.
fn inputs(frame: &Frame) -> [(usize, usize); 4] {
    [0, 1, 2, 3].map(|input| (8 * input, frame.offset(SpillSlot::new(input))))
}

fn letters(operator: Operator) -> &'static str {
    match operator {
        Operator::Add => "add",
        Operator::Subtract => "sub",
        Operator::Multiply => "mul",
        Operator::Divide => "div",
    }
}

/// A number lies in the low half of an xmm register.
pub struct X86_64;

impl Assembler for X86_64 {
    fn processor(&self) -> &'static Processor {
        &processor::X86_64
    }

    fn start(&self, frame: &Frame) -> String {
        let head = ".intel_syntax noprefix\n.text\n.globl formula\nformula:\n";
        let load = |(at, slot)| format!("movsd xmm0, [rdi + {at}]\nmovups [rsp + {slot}], xmm0\n");
        let loads = inputs(frame).map(load).concat();
        format!("{head}sub rsp, {}\n{loads}", frame.bytes)
    }

    fn edit(&self, edit: Edit, frame: &Frame, constants: &[Vec<u32>]) -> Vec<String> {
        x86_64::lower(edit, frame, constants)
    }

    fn compute(&self, operator: Operator, registers: [PhysReg; 3]) -> String {
        let [to, left, right] = registers.map(PhysReg::index);
        format!("v{}sd xmm{to}, xmm{left}, xmm{right}", letters(operator))
    }

    fn branch(&self, registers: [PhysReg; 2], [then, otherwise]: [usize; 2]) -> String {
        let [left, right] = registers.map(PhysReg::index);
        // Asked the other way round, since `jb` also goes where one is no number.
        format!("vucomisd xmm{right}, xmm{left}\nja .Lblock{then}\njmp .Lblock{otherwise}")
    }

    fn jump(&self, to: usize) -> String {
        format!("jmp .Lblock{to}")
    }

    fn finish(&self, rate: PhysReg, frame: &Frame) -> String {
        format!(
            "movups xmm0, xmm{}\nadd rsp, {}\nret",
            rate.index(),
            frame.bytes
        )
    }

    fn pool(&self, constants: &[Vec<u32>]) -> Vec<String> {
        x86_64::pool(constants.iter().filter(|words| !words.is_empty()))
    }
}

/// A number lies in a d register. A caller wants d8 to d15 back.
pub struct Arm;

impl Assembler for Arm {
    fn processor(&self) -> &'static Processor {
        &processor::ARM
    }

    fn start(&self, frame: &Frame) -> String {
        let head = ".syntax unified\n.fpu neon\n.arm\n.text\n.globl formula\n.type formula, %function\nformula:\n";
        let load = |(at, slot)| format!("vldr d0, [r0, #{at}]\nvstr d0, [sp, #{slot}]\n");
        let loads = inputs(frame).map(load).concat();
        format!(
            "{head}vpush {{d8-d15}}\nsub sp, sp, #{}\n{loads}",
            frame.bytes
        )
    }

    fn edit(&self, edit: Edit, frame: &Frame, constants: &[Vec<u32>]) -> Vec<String> {
        arm::lower(edit, frame, constants)
    }

    fn compute(&self, operator: Operator, registers: [PhysReg; 3]) -> String {
        let [to, left, right] = registers.map(double);
        format!("v{}.f64 d{to}, d{left}, d{right}", letters(operator))
    }

    fn branch(&self, registers: [PhysReg; 2], [then, otherwise]: [usize; 2]) -> String {
        let [left, right] = registers.map(double);
        let compare = format!("vcmp.f64 d{left}, d{right}\nvmrs APSR_nzcv, FPSCR");
        format!("{compare}\nbmi .Lblock{then}\nb .Lblock{otherwise}")
    }

    fn jump(&self, to: usize) -> String {
        format!("b .Lblock{to}")
    }

    fn finish(&self, rate: PhysReg, frame: &Frame) -> String {
        let back = format!("add sp, sp, #{}\nvpop {{d8-d15}}\nbx lr", frame.bytes);
        format!("vmov.f64 d0, d{}\n{back}", double(rate))
    }

    fn pool(&self, _: &[Vec<u32>]) -> Vec<String> {
        Vec::new()
    }
}

/// The number of a d register.
fn double(register: PhysReg) -> usize {
    register.index() - 32
}
