//! How far down a function goes by itself: the depth at each instruction, along every way through the function. Depths are bytes below the
//! stack pointer at its entry. What is not understood is an error, so that no change of the stack pointer goes unseen.

use crate::listing::{function_named, number, Function, Instruction};
use crate::RETURN;
use std::collections::BTreeMap;

/// Another function that is called, or jumped to as the last thing done.
#[derive(Debug, PartialEq)]
pub struct Call {
    pub to: String,
    /// The depth at which it begins.
    pub begins: u64,
    pub jumped: bool,
}

#[derive(Debug, Default, PartialEq)]
pub struct Uses {
    /// The lowest byte that it may touch itself, what it calls left out.
    pub deepest: u64,
    /// Bytes of its arguments that it reads from memory, where the caller put them above the return address.
    pub arguments: u64,
    pub calls: Vec<Call>,
    /// The lowest place of its stack pointer.
    frame: u64,
}

/// What the linker adds to a function's place where a call or jump leads to its first byte: the four bytes that it fills in end the instruction.
const TO_FIRST_BYTE: i64 = -4;
/// How far below its stack pointer a function that calls no other may write.
const RED_ZONE: u64 = 128;
/// Instructions that end a way.
const ENDS: [&str; 3] = ["ud2", "hlt", "int3"];
/// How the names begin of what moves the stack pointer, leaves the function or is no instruction known to objdump. Of these only `push`, `pop`, `call`,
/// `ret` and jumps are followed.
const MOVING: [&str; 18] = [
    "push", "pop", "call", "ret", "leave", "enter", "iret", "sys", "int", "lcall", "ljmp", "lret",
    "loop", "xbegin", "rex", "(", ".", "{",
];
/// What begins so and does neither.
const HARMLESS: [&str; 2] = ["popcnt", "int3"];
/// The stack pointer by all its names.
const POINTER: [&str; 4] = ["%rsp", "%esp", "%sp", "%spl"];

/// The bytes that an instruction adds to the depth, calls and returns left out.
fn grows(one: &Instruction) -> Result<i64, String> {
    let operands: Vec<&str> = one.operands.iter().map(String::as_str).collect();
    let named = operands.iter().any(|operand| POINTER.contains(operand));
    let known = |amount: &str| {
        number(amount.trim_start_matches('$'))
            .ok_or_else(|| "an amount that is not known".to_string())
    };
    match (one.mnemonic.as_str(), &operands[..]) {
        ("push", _) if !named => Ok(8),
        ("pop", _) if !named => Ok(-8),
        ("sub", [amount, "%rsp"]) => known(amount),
        ("add", [amount, "%rsp"]) => Ok(-known(amount)?),
        ("lea", [from, "%rsp"]) => Ok(-known(from.strip_suffix("(%rsp)").unwrap_or(""))?),
        // The address of what stands at the pointer; a frame pointer would have to be followed.
        ("mov", ["%rsp", to]) if *to != "%rbp" && to.starts_with("%r") && !POINTER.contains(to) => {
            Ok(0)
        }
        (name, _) if named || moves(name) => {
            Err("the stack pointer is moved in a way that is not known".to_string())
        }
        _ => Ok(0),
    }
}

/// Whether an instruction of this name moves the stack pointer, leaves the function, or is not known.
fn moves(name: &str) -> bool {
    MOVING.iter().any(|one| name.starts_with(one)) && !HARMLESS.contains(&name)
}

/// A place in memory that is named by the stack pointer: its distance, and whether a second register is added.
fn from_pointer(operand: &str) -> Option<Result<(i64, bool), String>> {
    let (distance, registers) = operand.split_once('(')?;
    let mut registers = registers.trim_end_matches(')').split(',');
    if !registers.any(|register| POINTER.contains(&register)) {
        return None;
    }
    let distance = match distance.trim_start_matches('*') {
        "" => Some(0),
        text => number(text),
    };
    let known = distance.ok_or_else(|| "a place that is not known".to_string());
    Some(known.map(|distance| (distance, operand.contains(','))))
}

/// Whether an instruction makes an address of the stack, behind which places are not followed: a pointer into it, or a sum with another register.
fn points(one: &Instruction) -> bool {
    let places = || {
        one.operands
            .iter()
            .filter_map(|operand| from_pointer(operand))
    };
    let indexed = places().any(|place| matches!(place, Ok((_, true))));
    let copied = one.mnemonic == "mov" && one.operands.first().map_or(false, |from| from == "%rsp");
    let lea = one.mnemonic == "lea" && one.operands.last().map_or(false, |to| to != "%rsp");
    indexed || copied || (lea && places().count() > 0)
}

/// Whether the jump through a pointer at this place is by a table of the function:
/// `lea TABLE(%rip),%B`, `movslq (%B,%I,4),%R`, `add %B,%R`, `jmp *%R`, one behind the other, and no other way in between them. Where B is rbp or r13 a
/// distance of 0 is written out. A `mov` may stand between that writes neither B, while it is needed, nor R.
fn by_table(function: &Function, index: usize) -> bool {
    four_of_table(function, index).unwrap_or(false)
}

fn four_of_table(function: &Function, index: usize) -> Option<bool> {
    let jump = function.instructions.get(index)?;
    let target = jump.operands.first()?.strip_prefix('*')?;
    let (at_add, add) = behind_moves(function, index, &[target])?;
    let base = add.operands.first()?;
    let (at_load, load) = behind_moves(function, at_add, &[target, base])?;
    let (_, lea) = behind_moves(function, at_load, &[base])?;
    let (entry, loaded) = match &load.operands[..] {
        [entry, loaded] => (entry, loaded),
        _ => return None,
    };
    let entry = entry.strip_prefix("0x0").unwrap_or(entry);
    let named = [(add, "add"), (load, "movslq"), (lea, "lea")];
    Some(
        lea.relocation.as_ref()?.names == function.tables
            && lea.operands.get(1) == Some(base)
            && entry.starts_with(&format!("({},", base))
            && entry.ends_with(",4)")
            && loaded == target
            && add.operands == [base.clone(), target.to_string()]
            && jump.operands.len() == 1
            && named.iter().all(|(one, name)| one.mnemonic == *name)
            && ![load, add, jump]
                .iter()
                .any(|one| jumped_to(function, one.at)),
    )
}

/// The instruction ahead of this one, where each `mov` between them, to which no jump leads, writes none of these registers.
fn behind_moves<'a>(
    function: &'a Function,
    index: usize,
    kept: &[&str],
) -> Option<(usize, &'a Instruction)> {
    let mut before = index.checked_sub(1)?;
    loop {
        let one = &function.instructions[before];
        if one.mnemonic != "mov" {
            return Some((before, one));
        }
        let written = register(one.operands.last()?)?;
        let needed = kept.iter().any(|name| register(name) == Some(written));
        if needed || jumped_to(function, one.at) {
            return None;
        }
        before = before.checked_sub(1)?;
    }
}

/// A general register by the part of its name that its 64 and 32 bits share; no other is known.
fn register(name: &str) -> Option<&str> {
    let name = name.strip_prefix('%')?;
    let stem = name.strip_prefix(|first| first == 'r' || first == 'e')?;
    let numbered = stem.strip_suffix('d').unwrap_or(stem);
    let digits = name.starts_with('r') && numbered.bytes().all(|byte| byte.is_ascii_digit());
    let lettered = ["ax", "bx", "cx", "dx", "si", "di", "bp"].contains(&stem);
    (digits || lettered).then_some(if digits { numbered } else { stem })
}

/// Whether a jump of the function leads to this place.
fn jumped_to(function: &Function, at: u64) -> bool {
    let place = format!("{:x}", at);
    let leads =
        |one: &Instruction| one.mnemonic.starts_with('j') && one.operands.first() == Some(&place);
    function.table_targets.contains(&at) || function.instructions.iter().any(leads)
}

/// Where an instruction goes on.
struct Next {
    depth: i64,
    falls: bool,
    targets: Vec<u64>,
}

impl Next {
    fn nowhere(depth: i64) -> Next {
        Next {
            depth,
            falls: false,
            targets: Vec::new(),
        }
    }
}

impl Uses {
    /// Takes in what an instruction touches at this depth: below the pointer, or its caller's part of the stack.
    fn touch(&mut self, one: &Instruction, depth: i64) -> Result<(), String> {
        let width = if one
            .operands
            .iter()
            .any(|operand| operand.starts_with("%xmm"))
        {
            16
        } else {
            8
        };
        for operand in &one.operands {
            let (distance, indexed) = match from_pointer(operand) {
                Some(place) => place?,
                None => continue,
            };
            if distance < 0 {
                self.deepest = self.deepest.max((depth - distance) as u64);
            } else if distance >= depth + RETURN as i64 {
                if indexed || one.mnemonic == "lea" {
                    return Err("a place among the arguments that is not known".to_string());
                }
                let end = distance + width - depth - RETURN as i64;
                self.arguments = self.arguments.max(end as u64);
            } else if distance >= depth && one.operands.last().map_or(true, |to| to != "%rsp") {
                return Err("the return address is touched".to_string());
            }
        }
        Ok(())
    }

    /// Takes in a call, or a jump to another function.
    fn lead(&mut self, one: &Instruction, depth: i64) -> Result<Next, String> {
        let jumped = one.mnemonic != "call";
        let to = match &one.relocation {
            Some(to) if !one.operands.iter().any(|operand| operand.starts_with('*')) => to,
            _ => return Err("a call through a pointer".to_string()),
        };
        if to.addend != TO_FIRST_BYTE {
            return Err("a call of a place inside a function".to_string());
        }
        if jumped && depth != 0 {
            return Err("another function is jumped to from inside a frame".to_string());
        }
        let begins = if jumped { 0 } else { depth as u64 + RETURN };
        self.deepest = self.deepest.max(begins);
        let to = function_named(&to.names).to_string();
        self.calls.push(Call { to, begins, jumped });
        Ok(Next {
            depth,
            falls: one.mnemonic != "jmp",
            targets: Vec::new(),
        })
    }

    /// Takes an instruction in at this depth, and says where it goes on.
    fn take(&mut self, function: &Function, index: usize, depth: i64) -> Result<Next, String> {
        let one = &function.instructions[index];
        self.touch(one, depth)?;
        let name = one.mnemonic.as_str();
        let jumps = name.starts_with('j');
        if name == "call" || (jumps && one.relocation.is_some()) {
            return self.lead(one, depth);
        }
        if jumps {
            let operand = one.operands.first().ok_or("a jump to nowhere")?;
            let targets: Vec<u64> = if !operand.starts_with('*') {
                vec![u64::from_str_radix(operand, 16)
                    .map_err(|_| "a jump to a place that is not known")?]
            } else if by_table(function, index) {
                function.table_targets.iter().copied().collect()
            } else {
                return Err("a jump through a pointer".to_string());
            };
            return Ok(Next {
                depth,
                falls: name != "jmp",
                targets,
            });
        }
        if name == "ret" && one.operands.is_empty() {
            return match depth {
                0 => Ok(Next::nowhere(depth)),
                _ => Err(format!("it returns {} bytes deep", depth)),
            };
        }
        if ENDS.contains(&name) {
            return Ok(Next::nowhere(depth));
        }
        let depth = depth + grows(one)?;
        if depth < 0 {
            return Err("it takes more off the stack than it put there".to_string());
        }
        self.frame = self.frame.max(depth as u64);
        self.deepest = self.deepest.max(depth as u64);
        Ok(Next {
            depth,
            falls: true,
            targets: Vec::new(),
        })
    }
}

/// Whether an instruction only fills the space between others.
fn fills(one: &Instruction) -> bool {
    one.mnemonic.starts_with("nop")
        || one.mnemonic == "int3"
        || (one.mnemonic == "xchg" && one.operands == ["%ax", "%ax"])
}

/// Follows every way through a function.
pub fn uses(function: &Function) -> Result<Uses, String> {
    let code = &function.instructions;
    let places: BTreeMap<u64, usize> = code
        .iter()
        .enumerate()
        .map(|(index, one)| (one.at, index))
        .collect();
    let mut found = Uses::default();
    let mut depths: Vec<Option<i64>> = vec![None; code.len()];
    let mut ahead = vec![(0, 0)];
    while let Some((index, depth)) = ahead.pop() {
        let one = code.get(index).ok_or("its last instruction goes on")?;
        let told = |what: String| format!("at {:x}, {}: {}", one.at, one.mnemonic, what);
        match depths[index] {
            Some(before) if before == depth => continue,
            Some(before) => {
                return Err(told(format!(
                    "{} bytes deep on one way, {} on another",
                    before, depth
                )));
            }
            None => depths[index] = Some(depth),
        }
        let next = found.take(function, index, depth).map_err(told)?;
        if next.falls {
            ahead.push((index + 1, next.depth));
        }
        for target in next.targets {
            let index = places
                .get(&target)
                .ok_or_else(|| told(format!("to {:x}, where no instruction begins", target)))?;
            ahead.push((*index, next.depth));
        }
    }
    let missed = code
        .iter()
        .zip(&depths)
        .find(|(one, depth)| depth.is_none() && !fills(one));
    if let Some((one, _)) = missed {
        return Err(format!(
            "at {:x}, {}: no way leads there",
            one.at, one.mnemonic
        ));
    }
    // Through such an address it may reach as far as the convention allows.
    if found.calls.iter().all(|call| call.jumped) && code.iter().any(points) {
        found.deepest = found.deepest.max(found.frame + RED_ZONE);
    }
    Ok(found)
}
