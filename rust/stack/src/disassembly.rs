//! The compiled code of an archive, read from what `objdump -d -r --no-show-raw-insn` prints: the
//! functions with their instructions, each with the relocation that says what it really names. A
//! line that is not understood is an error.

mod aarch64;
pub mod step;
mod x86_64;

use crate::unfollowed::Unfollowed;
use step::Step;

/// The processors whose instructions are known.
#[derive(Clone, Copy, Debug, PartialEq, Eq)]
pub enum Processor {
    /// elf64-littleaarch64.
    Aarch64,
    /// elf64-x86-64.
    X86_64,
}

/// What a relocation puts into an instruction: a function or a section, plus a number.
#[derive(Clone, Debug, PartialEq, Eq)]
pub struct Relocation {
    /// Its kind, such as R_AARCH64_CALL26.
    pub kind: String,
    /// The name of a function or of a section.
    pub symbol: String,
    /// The number that is added to it.
    pub addend: i64,
}

/// An instruction.
#[derive(Clone, Debug, PartialEq, Eq)]
pub struct Instruction {
    /// Its address in its section.
    pub address: i64,
    /// The instruction as it is printed.
    pub text: String,
    /// Its relocation, if it has one.
    pub relocation: Option<Relocation>,
}

/// A function.
#[derive(Clone, Debug, PartialEq, Eq)]
pub struct Function {
    /// Its name.
    pub name: String,
    /// The section that it is in.
    pub section: String,
    /// Its address in the section.
    pub start: i64,
    /// Its instructions by address.
    pub instructions: Vec<Instruction>,
}

/// The functions of an archive.
#[derive(Clone, Debug, PartialEq, Eq)]
pub struct Disassembly {
    /// The processor that the archive is for.
    pub processor: Processor,
    /// The functions, no two of one name or at one place.
    pub functions: Vec<Function>,
}

impl Processor {
    /// What a call puts on the stack before the called function begins.
    pub fn return_address(self) -> usize {
        match self {
            Processor::Aarch64 => aarch64::RETURN_ADDRESS,
            Processor::X86_64 => x86_64::RETURN_ADDRESS,
        }
    }

    /// How much below the stack pointer a function may use.
    pub fn red_zone(self) -> usize {
        match self {
            Processor::Aarch64 => aarch64::RED_ZONE,
            Processor::X86_64 => x86_64::RED_ZONE,
        }
    }

    /// What an instruction does, or why it is not known.
    pub fn step(self, instruction: &Instruction) -> Result<Step, &'static str> {
        match self {
            Processor::Aarch64 => aarch64::step(instruction),
            Processor::X86_64 => x86_64::step(instruction),
        }
    }

    /// Whether an instruction does nothing and only fills up.
    pub fn is_padding(self, instruction: &Instruction) -> bool {
        match self {
            Processor::Aarch64 => aarch64::is_padding(instruction),
            Processor::X86_64 => x86_64::is_padding(instruction),
        }
    }
}

impl Function {
    /// The place of the instruction at an address among the instructions, if one begins there.
    pub fn position(&self, address: i64) -> Option<usize> {
        let by_address = |instruction: &Instruction| instruction.address;
        let found = self.instructions.binary_search_by_key(&address, by_address);
        found.ok()
    }
}

impl Disassembly {
    /// Reads what objdump prints.
    pub fn read(text: &str) -> Result<Disassembly, Unfollowed> {
        let mut processor = None;
        let mut section = "";
        let mut functions: Vec<Function> = Vec::new();
        for line in text.lines() {
            if let Some((_, format)) = line.split_once("file format ") {
                let one = processor_of(format.trim()).ok_or_else(|| not_understood(line))?;
                if *processor.get_or_insert(one) != one {
                    return Err(not_understood(line));
                }
            } else if let Some(name) = section_of(line) {
                section = name;
            } else if let Some((start, name)) = label_of(line) {
                functions.push(Function {
                    name: name.into(),
                    section: section.into(),
                    start,
                    instructions: Vec::new(),
                });
            } else if !line.is_empty() && !line.starts_with("In archive ") {
                let last = functions.last_mut();
                last.and_then(|function| add_line(function, line))
                    .ok_or_else(|| not_understood(line))?;
            }
        }
        let processor = processor.ok_or_else(|| not_understood("no file format"))?;
        without_doubles(&functions)?;
        Ok(Disassembly {
            processor,
            functions,
        })
    }

    /// The function that begins at an address of a section.
    pub fn at(&self, section: &str, address: i64) -> Option<&Function> {
        let here = |function: &&Function| function.section == section && function.start == address;
        self.functions.iter().find(here)
    }

    /// The names of the exported functions: those of the library's own functions have `::`.
    pub fn exported(&self) -> Vec<&str> {
        let names = self.functions.iter().map(|function| function.name.as_str());
        let is_exported = |name: &&str| name.starts_with("hainscope_") && !name.contains("::");
        names.filter(is_exported).collect()
    }
}

/// The processor of a file format.
fn processor_of(format: &str) -> Option<Processor> {
    match format {
        "elf64-littleaarch64" => Some(Processor::Aarch64),
        "elf64-x86-64" => Some(Processor::X86_64),
        _ => None,
    }
}

/// The section that a line announces.
fn section_of(line: &str) -> Option<&str> {
    let name = line.strip_prefix("Disassembly of section ")?;
    name.strip_suffix(':')
}

/// The address and the name of the function that a line announces.
fn label_of(line: &str) -> Option<(i64, &str)> {
    let (address, name) = line.split_once(" <")?;
    let address = i64::from_str_radix(address, 16).ok()?;
    Some((address, name.strip_suffix(">:")?))
}

/// Adds the instruction of a line to a function, or the relocation of a line to its last instruction.
fn add_line(function: &mut Function, line: &str) -> Option<()> {
    let (address, rest) = line.trim_start().split_once(':')?;
    let address = i64::from_str_radix(address, 16).ok()?;
    if let Some(relocation) = rest.strip_prefix(" R_") {
        let instruction = function.instructions.last_mut()?;
        let (kind, symbol) = relocation.split_once('\t')?;
        let (symbol, addend) = parted_symbol(symbol);
        let relocation = Relocation {
            kind: format!("R_{kind}"),
            symbol: symbol.into(),
            addend,
        };
        let is_first = instruction.relocation.replace(relocation).is_none();
        return (is_first && address >= instruction.address).then_some(());
    }
    let text = rest.strip_prefix('\t')?;
    let last = function.instructions.last();
    let is_behind = last.map_or(true, |last| last.address < address);
    function.instructions.push(Instruction {
        address,
        text: text.trim_end().into(),
        relocation: None,
    });
    is_behind.then_some(())
}

/// A relocation's symbol, and the number that stands behind it.
fn parted_symbol(text: &str) -> (&str, i64) {
    let parted = |sign: &str| {
        let (symbol, digits) = text.rsplit_once(sign)?;
        Some((symbol, i64::from_str_radix(digits, 16).ok()?))
    };
    match (parted("+0x"), parted("-0x")) {
        (Some(parted), _) => parted,
        (None, Some((symbol, number))) => (symbol, -number),
        (None, None) => (text, 0),
    }
}

/// Refuses functions of one name or at one place: a call would not tell which of them it means.
fn without_doubles(functions: &[Function]) -> Result<(), Unfollowed> {
    for (number, one) in functions.iter().enumerate() {
        let place = (&one.section, one.start);
        let is_double =
            |other: &Function| one.name == other.name || place == (&other.section, other.start);
        if functions[..number].iter().any(is_double) {
            let why = "two functions of one name or at one place";
            return Err(Unfollowed::new(&one.name, &one.section, why));
        }
    }
    Ok(())
}

/// A line that is not understood.
fn not_understood(line: &str) -> Unfollowed {
    let why = "a line that is not understood";
    Unfollowed::new("the disassembly", line.trim(), why)
}
