//! Assembly built and run on a processor: this machine's own, or one that an emulator stands in for.

use std::fs::{self, File};
use std::io;
use std::path::{Path, PathBuf};
use std::process::Command;

/// A processor, and the tools that build for it and run what is built.
pub struct Processor {
    pub name: &'static str,
    compiler: &'static str,
    flags: &'static [&'static str],
    emulator: Option<&'static str>,
}

pub const X86_64: Processor = Processor {
    name: "x86-64",
    compiler: "gcc",
    flags: &["-no-pie"],
    emulator: None,
};

/// Static, so that the emulator needs no libraries of that processor.
pub const ARM: Processor = Processor {
    name: "ARM",
    compiler: "arm-linux-gnueabihf-gcc",
    flags: &["-static"],
    emulator: Some("qemu-arm"),
};

impl Processor {
    /// What is missing here, if something is. A program that does nothing is built in the folder, and run.
    pub fn missing(&self, folder: &Path) -> Option<String> {
        if self.emulator.is_none() && !has_avx() {
            return Some("an x86-64 processor with AVX".to_owned());
        }
        let mut tools = [self.compiler].into_iter().chain(self.emulator);
        if let Some(tool) = tools.find(|tool| !is_there(tool)) {
            return Some(tool.to_owned());
        }
        let trial = [(
            "main.c",
            "#include <stdio.h>\nint main(void) { return 0; }\n",
        )];
        let failed = self.run(folder, &trial, &[]).err();
        failed.map(|_| format!("what {} needs to build a program", self.compiler))
    }

    /// Builds a program in a folder, of files with these names and texts, and runs it on an input. Answers
    /// what it prints.
    pub fn run(&self, folder: &Path, files: &[(&str, &str)], input: &[u8]) -> io::Result<Vec<u8>> {
        fs::create_dir_all(folder)?;
        let (program, given) = (folder.join("program"), folder.join("input"));
        fs::write(&given, input)?;
        let mut sources: Vec<PathBuf> = Vec::new();
        for (name, text) in files {
            sources.push(folder.join(name));
            fs::write(folder.join(name), text)?;
        }
        let mut build = Command::new(self.compiler);
        build.args(self.flags).arg("-o").arg(&program).args(sources);
        printed(&mut build)?;
        let mut run = match self.emulator {
            Some(emulator) => Command::new(emulator),
            None => Command::new(&program),
        };
        if self.emulator.is_some() {
            run.arg(&program);
        }
        printed(run.stdin(File::open(given)?))
    }
}

/// What a command prints, if its status is 0.
fn printed(command: &mut Command) -> io::Result<Vec<u8>> {
    let output = command.output()?;
    if output.status.success() {
        return Ok(output.stdout);
    }
    let said = String::from_utf8_lossy(&output.stderr);
    Err(io::Error::other(format!(
        "{command:?}: {}: {said}",
        output.status
    )))
}

fn is_there(tool: &str) -> bool {
    let output = Command::new(tool).arg("--version").output();
    output.is_ok_and(|output| output.status.success())
}

#[cfg(target_arch = "x86_64")]
fn has_avx() -> bool {
    std::arch::is_x86_feature_detected!("avx")
}

#[cfg(not(target_arch = "x86_64"))]
fn has_avx() -> bool {
    false
}
