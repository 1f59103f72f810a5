//! Equations as they are written for the prover.

use std::fmt::Write;
use std::path::Path;
use std::{fs, io};

use super::{Answers, Done, Edit};

/// The definitions that are unfolded, by the module that they stand in. What is missing
/// here is not computed, and no equation that meets it holds.
const UNFOLDED: [(&str, &str); 15] = [
    (
        "entity.specs.Logic",
        "any_in all_in has meets twice last_or indices",
    ),
    ("entity.specs.Place", "place_at"),
    (
        "reginfo.specs.RegInfo",
        "spillslot_size top_level_class stack_to_stack_class reg_memory bank_for_reg \
         reg_units bank_for_class class_slots class_members allocation_order",
    ),
    (
        "reginfo.specs.Refused",
        "order_total counts_fit bank_fits reg_fits class_fits outside_limits \
         listed_twice unequal_widths foreign_member shared_memory unfit_class first_of \
         target_refusal",
    ),
    (
        "function.specs.Function",
        "value_bank remat_cost remat_class is_setting",
    ),
    (
        "rules.specs.Edit",
        "updated and_then each find first_at filter",
    ),
    (
        "rules.specs.Scratch",
        "acquire_from unevict unevict_but unevict_for_reg make_room slot_scratch \
         evict_last reuse or_scratch get_scratch_reg move_edits do_move",
    ),
    (
        "rules.specs.Order",
        "carry_one carry remats remat_with_scratch writer_from writers_of writers \
         cycle_move_sources divert lead undivert undivert_all close visit \
         visit_unless_memory start moves",
    ),
    (
        "rules.specs.Patch",
        "destinations add sorted_from entry_conditions patch_conditions run \
         resolve_sorted resolve_from resolve",
    ),
    ("number.specs.Number", "groups number"),
    ("reading.specs.Reading", "tested times distinct"),
    ("job_target.specs.Target", "bank reg class classes target"),
    (
        "job_function.specs.Reads",
        "remat_value value valued function",
    ),
    (
        "job_patch.specs.Patches",
        "rising place entry entries patch",
    ),
    (
        "job_rules.specs.Job",
        "after_target header patches_by opening job_by",
    ),
];

/// The names that equations are written with.
const NAMES: &str = "\
use Rattle.std.specs.Prelude.{◌≡◌, [], ◌∷◌}
use mathlib.Core.Path.{refl}
use Rattle.std.proofs.Math.Option.{none, some}
use Rattle.entity.specs.Place as at
use Rattle.rules.specs.Edit.{Move, Rematerialize, EmergencySpill, EmergencyReload}
use Rattle.job_rules.specs.Job.{ends_with, before, job}
";

/// What a module begins with.
pub fn head() -> String {
    let mut head = NAMES.to_owned();
    for (module, names) in UNFOLDED {
        let names = names.replace(' ', ", ");
        put(&mut head, format_args!("use Rattle.{module}.{{{names}}}\n"));
    }
    head
}

/// The equation of a job, by its number.
pub fn equation(number: usize, setting: u32, job: &[u8], answers: &Answers) -> String {
    let mut text = format!("\npub job{number} : job {setting} (");
    for byte in job {
        put(&mut text, format_args!("{byte} ∷ "));
    }
    text.push_str("[]) ≡ ");
    for done in &answers.done {
        put_done(&mut text, done);
    }
    match answers.refusal {
        None => text.push_str("ends_with none"),
        Some(refusal) => put(&mut text, format_args!("ends_with (some {refusal})")),
    }
    text.push_str(&")".repeat(answers.done.len()));
    text.push_str("\nunfolding");
    for (_, names) in UNFOLDED {
        put(&mut text, format_args!(" {names}"));
    }
    put(&mut text, format_args!("\njob{number} = refl\n"));
    text
}

fn put_done(text: &mut String, done: &Done) {
    text.push_str("before (record { edits = ");
    for edit in &done.edits {
        match edit {
            Edit::Move(to, from, value) => {
                let (to, from) = (place(to), place(from));
                put(text, format_args!("Move ({to}) ({from}) {value} ∷ "));
            }
            Edit::Rematerialize(to, value) => {
                let to = place(to);
                put(text, format_args!("Rematerialize ({to}) {value} ∷ "));
            }
            Edit::EmergencySpill(slot, reg) => {
                put(text, format_args!("EmergencySpill {slot} {reg} ∷ "));
            }
            Edit::EmergencyReload(reg, slot) => {
                put(text, format_args!("EmergencyReload {reg} {slot} ∷ "));
            }
        }
    }
    let Done { made, position, .. } = done;
    put(
        text,
        format_args!("[]; made = {made}; position = {position} }}) ("),
    );
}

/// A place as the rules write it.
fn place(printed: &str) -> String {
    match printed.strip_prefix('r') {
        Some(reg) => format!("at.reg {reg}"),
        None => format!("at.slot {}", &printed[1..]),
    }
}

/// A crate without code that has the module alone.
pub fn write_crate(folder: &Path, module: &str) -> io::Result<()> {
    fs::create_dir_all(folder.join("src"))?;
    fs::create_dir_all(folder.join("proofs"))?;
    fs::write(folder.join("src/lib.rt"), "// No code.\n#![tactic(auto)]\n")?;
    fs::write(folder.join("proofs/Lib.antt"), "pub mod Jobs\n")?;
    fs::write(folder.join("proofs/Jobs.antt"), module)
}

fn put(text: &mut String, arguments: std::fmt::Arguments) {
    text.write_fmt(arguments)
        .expect("writing to a string does not fail");
}
