//! What objdump prints of a library: `objdump -tr` (symbols and relocations), then `objdump -dw --no-show-raw-insn` (the code).
//! Each function stands in a section of its own, `.text.NAME`, and its jump tables in `.rodata.NAME`.

use std::collections::{BTreeMap, BTreeSet};

/// A place that the linker fills in: the symbol or section it names, and what is added to that.
#[derive(Clone, Debug, PartialEq)]
pub struct Relocation {
    pub offset: u64,
    pub names: String,
    pub addend: i64,
}

#[derive(Clone, Debug)]
pub struct Instruction {
    pub at: u64,
    pub mnemonic: String,
    pub operands: Vec<String>,
    pub relocation: Option<Relocation>,
}

#[derive(Debug, Default)]
pub struct Function {
    pub instructions: Vec<Instruction>,
    /// The section of its jump tables, and where they lead, all of them together.
    pub tables: String,
    pub table_targets: BTreeSet<u64>,
}

#[derive(Debug, Default)]
pub struct Library {
    pub functions: BTreeMap<String, Function>,
    pub public: Vec<String>,
    /// Symbols that somebody else has to supply.
    pub outside: Vec<String>,
}

/// The words ahead of a mnemonic that say how it is done, not what.
const PREFIXES: [&str; 14] = [
    "rep", "repz", "repnz", "lock", "notrack", "bnd", "data16", "addr32", "cs", "ds", "es", "fs",
    "gs", "ss",
];

/// The operands of an instruction, parted at the commas outside brackets.
fn operands(text: &str) -> Vec<String> {
    let mut found = vec![String::new()];
    let mut inside = false;
    for letter in text.chars() {
        match letter {
            '(' => inside = true,
            ')' => inside = false,
            _ => (),
        }
        match (letter, inside) {
            (',', false) => found.push(String::new()),
            _ => found
                .last_mut()
                .expect("it has one from the start")
                .push(letter),
        }
    }
    found.retain(|operand| !operand.is_empty());
    found
}

/// One line of code: its place, a tab, and `call   42 <ch11_list_messages+0x42>`.
fn instruction(line: &str) -> Option<Instruction> {
    let (place, text) = line.split_once(":\t")?;
    let at = u64::from_str_radix(place.trim(), 16).ok()?;
    let mut words = text
        .split_whitespace()
        .skip_while(|word| PREFIXES.contains(word));
    let mnemonic = words.next()?.to_string();
    // Behind a `<` or `#` objdump explains.
    let rest: Vec<&str> = words
        .take_while(|word| !word.starts_with(['<', '#']))
        .collect();
    Some(Instruction {
        at,
        mnemonic,
        operands: operands(&rest.concat()),
        relocation: None,
    })
}

/// A number as objdump has it: `0x18`, `-0x4`.
pub fn number(text: &str) -> Option<i64> {
    let (sign, digits) = match text.strip_prefix('-') {
        Some(rest) => (-1, rest),
        None => (1, text),
    };
    let value = i64::from_str_radix(digits.strip_prefix("0x")?, 16).ok()?;
    Some(sign * value)
}

/// One line of relocations: `000000000000003e R_X86_64_PLT32    .text.frame::table::frame_refusal-0x0000000000000004`.
fn relocation(line: &str) -> Option<Relocation> {
    let words: Vec<&str> = line.split_whitespace().collect();
    let (offset, value) = match words[..] {
        [offset, kind, value] if kind.starts_with("R_X86_64_") => (offset, value),
        _ => return None,
    };
    let (names, addend) = match value.rfind("-0x").or_else(|| value.rfind("+0x")) {
        Some(sign) => (
            &value[..sign],
            number(value[sign..].trim_start_matches('+'))?,
        ),
        None => (value, 0),
    };
    Some(Relocation {
        offset: u64::from_str_radix(offset, 16).ok()?,
        names: names.to_string(),
        addend,
    })
}

/// The function that a symbol or section is the code of.
pub fn function_named(names: &str) -> &str {
    names.strip_prefix(".text.").unwrap_or(names)
}

/// Which part of the text a line stands in.
enum Part {
    Ahead,
    Symbols,
    Relocations(String),
    Code(String),
}

/// The part that a heading opens.
fn opened(line: &str) -> Option<Part> {
    if line == "SYMBOL TABLE:" {
        return Some(Part::Symbols);
    }
    if let Some(rest) = line.strip_prefix("RELOCATION RECORDS FOR [") {
        return Some(Part::Relocations(rest.trim_end_matches("]:").to_string()));
    }
    let section = line.strip_prefix("Disassembly of section ")?;
    Some(Part::Code(section.trim_end_matches(':').to_string()))
}

/// Reads the whole text, of one object file. A line that is not understood is an error, and so is code outside `.text.NAME`.
pub fn read(text: &str) -> Result<Library, String> {
    let mut library = Library::default();
    let mut relocations: BTreeMap<String, Vec<Relocation>> = BTreeMap::new();
    let mut part = Part::Ahead;
    let mut tables_of_symbols = 0;
    for line in text.lines() {
        if let Some(next) = opened(line) {
            match &next {
                Part::Symbols => tables_of_symbols += 1,
                Part::Code(section) => open_function(section, &mut library)?,
                _ => (),
            }
            part = next;
            continue;
        }
        let strange = || format!("not understood: {}", line);
        match &part {
            Part::Symbols if line.contains('\t') => {
                symbol(line, &mut library).ok_or_else(strange)?;
            }
            Part::Relocations(section) if line.contains(" R_") => {
                let found = relocation(line).ok_or_else(strange)?;
                relocations.entry(section.clone()).or_default().push(found);
            }
            Part::Code(section) if line.contains(":\t") => {
                let found = instruction(line).ok_or_else(strange)?;
                let function = library.functions.get_mut(function_named(section));
                function.expect("it is open").instructions.push(found);
            }
            _ => (),
        }
    }
    if tables_of_symbols > 1 {
        return Err("it is more than one object file".to_string());
    }
    tie_code(&mut library, &relocations)?;
    tie_tables(&mut library, &relocations)?;
    Ok(library)
}

/// Begins the function whose section this is.
fn open_function(section: &str, library: &mut Library) -> Result<(), String> {
    let name = section
        .strip_prefix(".text.")
        .ok_or_else(|| format!("code in {}", section))?;
    let function = Function {
        tables: format!(".rodata.{}", name),
        ..Function::default()
    };
    match library.functions.insert(name.to_string(), function) {
        None => Ok(()),
        Some(_) => Err(format!("two functions {}", name)),
    }
}

/// A line of the symbol table: place, flags and section, a tab, size and name. `*UND*` is what the library lacks. Code that is not local (`l`) is
/// public, and must be a plain function (`g` and `F`) at the first byte of its own section.
fn symbol(line: &str, library: &mut Library) -> Option<()> {
    let (left, right) = line.split_once('\t')?;
    let left: Vec<&str> = left.split_whitespace().collect();
    let right: Vec<&str> = right.split_whitespace().collect();
    let section = *left.last()?;
    if section == "*UND*" {
        library.outside.push(right[1..].join(" "));
    } else if section.starts_with(".text") && left[1] != "l" {
        let at = u64::from_str_radix(left[0], 16).ok()?;
        match (&left[1..], &right[..]) {
            (["g", "F", _], [_, name]) if at == 0 && section == format!(".text.{}", name) => {
                library.public.push(name.to_string());
            }
            _ => return None,
        }
    }
    Some(())
}

/// Gives each relocation of code to the instruction it stands in. A function is named there by calls and jumps alone.
fn tie_code(
    library: &mut Library,
    relocations: &BTreeMap<String, Vec<Relocation>>,
) -> Result<(), String> {
    let names: BTreeSet<String> = library.functions.keys().cloned().collect();
    for (name, function) in &mut library.functions {
        let found = relocations.get(&format!(".text.{}", name));
        for relocation in found.map_or(&[][..], |found| &found[..]) {
            let behind = function
                .instructions
                .partition_point(|one| one.at <= relocation.offset);
            let one = &mut function.instructions[behind - 1];
            let leads = one.mnemonic == "call" || one.mnemonic.starts_with('j');
            let function = names.contains(function_named(&relocation.names));
            if (function || relocation.names.starts_with(".text")) && !leads {
                return Err(format!(
                    "{} at {:x}: the address of a function is taken",
                    name, one.at
                ));
            }
            if one.relocation.replace(relocation.clone()).is_some() {
                return Err(format!("{} at {:x}: two places to fill in", name, one.at));
            }
        }
    }
    Ok(())
}

/// Gives each jump table to its function. Nothing else outside the code names a function.
fn tie_tables(
    library: &mut Library,
    relocations: &BTreeMap<String, Vec<Relocation>>,
) -> Result<(), String> {
    let outside_code = relocations
        .iter()
        .filter(|(section, _)| !section.starts_with(".text."));
    for (section, found) in outside_code {
        for relocation in found {
            let name = function_named(&relocation.names);
            let function = match library.functions.get_mut(name) {
                Some(function) => function,
                None => continue,
            };
            if *section != function.tables {
                return Err(format!("{} holds a pointer to {}", section, name));
            }
            let starts = table_starts(name, relocations);
            let start = starts
                .iter()
                .rev()
                .find(|start| **start <= relocation.offset);
            let start =
                start.ok_or_else(|| format!("{}: a table that the code does not name", name))?;
            // Each entry is the target's distance from its table's first byte.
            let target = relocation.addend - (relocation.offset - start) as i64;
            function.table_targets.insert(target as u64);
        }
    }
    Ok(())
}

/// Where the tables of a function begin in its `.rodata.NAME`: what its code names there, 4 bytes behind the place that is filled in.
fn table_starts(name: &str, relocations: &BTreeMap<String, Vec<Relocation>>) -> BTreeSet<u64> {
    let tables = format!(".rodata.{}", name);
    let of_code = relocations.get(&format!(".text.{}", name));
    let of_code = of_code.map_or(&[][..], |found| &found[..]);
    of_code
        .iter()
        .filter(|one| one.names == tables)
        .map(|one| (one.addend + 4) as u64)
        .collect()
}
