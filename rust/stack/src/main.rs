//! Works out from a library's compiled x86-64 code how deep each public call goes into the stack with everything that it calls:
//! `stack LIMIT` reads what objdump prints (listing.rs) and prints a line for each public call: its name, its bytes of stack from the return
//! address down, the bytes of arguments that it reads in memory above that, and the functions on its deepest way, each with its own bytes. It fails
//! where a call with its arguments passes LIMIT, where a function can call itself, where anything is called that is not in the library or
//! through a pointer, and where it can't follow the code.

#![forbid(unsafe_code)]

mod depth;
mod listing;
#[cfg(test)]
mod tests;

use depth::Uses;
use listing::Library;
use std::collections::BTreeMap;
use std::io::{self, Read};
use std::process::exit;

/// What a call itself puts on the stack: a return address.
const RETURN: u64 = 8;

/// What a call takes: bytes below its entry, and the functions on the deepest way, each with its own bytes, its return address among them.
type Deepest = (u64, Vec<(String, u64)>);

/// The deepest way from a function on; `above` are those that lead to it.
fn deepest(
    name: &str,
    all: &BTreeMap<String, Uses>,
    above: &mut Vec<String>,
) -> Result<Deepest, String> {
    if above.iter().any(|one| one == name) {
        return Err(format!("{} calls itself, by {}", name, above.join(", ")));
    }
    let uses = all
        .get(name)
        .ok_or_else(|| format!("{} is called, and is not in the library", name))?;
    let mut found = (
        uses.deepest,
        vec![(name.to_string(), uses.deepest + RETURN)],
    );
    above.push(name.to_string());
    for call in &uses.calls {
        let (more, way) = deepest(&call.to, all, above)?;
        if call.begins + more > found.0 {
            let own = vec![(name.to_string(), call.begins)];
            found = (call.begins + more, own.into_iter().chain(way).collect());
        }
    }
    above.pop();
    Ok(found)
}

/// The bytes of arguments in memory that a function reads, or one that it jumps to as the last thing it does.
fn arguments(name: &str, all: &BTreeMap<String, Uses>) -> u64 {
    let jumped = all[name].calls.iter().filter(|call| call.jumped);
    let handed_on = jumped.map(|call| arguments(&call.to, all)).max();
    all[name].arguments.max(handed_on.unwrap_or(0))
}

/// A line for each public call, in the order of their names.
fn report(library: &Library, limit: u64) -> Result<Vec<String>, String> {
    if !library.outside.is_empty() {
        let mut outside = library.outside.clone();
        outside.sort();
        return Err(format!("not in the library: {}", outside.join(", ")));
    }
    let mut all = BTreeMap::new();
    for (name, function) in &library.functions {
        let uses = depth::uses(function).map_err(|what| format!("{}: {}", name, what))?;
        all.insert(name.clone(), uses);
    }
    let mut public = library.public.clone();
    public.sort();
    if public.is_empty() {
        return Err("it has no public function".to_string());
    }
    let mut lines = Vec::new();
    for name in public {
        let (below, way) = deepest(&name, &all, &mut Vec::new())?;
        let (bytes, arguments) = (below + RETURN, arguments(&name, &all));
        if bytes + arguments > limit {
            return Err(format!(
                "{} takes {} bytes and {} for arguments, over {}",
                name, bytes, arguments, limit
            ));
        }
        let way: Vec<String> = way
            .iter()
            .map(|(one, own)| format!("{} {}", one, own))
            .collect();
        lines.push(format!(
            "{} {} {} {}",
            name,
            bytes,
            arguments,
            way.join(" > ")
        ));
    }
    Ok(lines)
}

fn main() {
    let limit = std::env::args().nth(1).and_then(|word| word.parse().ok());
    let mut text = String::new();
    let read = io::stdin().read_to_string(&mut text);
    let limit: u64 = match (limit, read) {
        (Some(limit), Ok(_)) => limit,
        _ => {
            eprintln!("usage: {{ objdump -tr LIBRARY; objdump -dw --no-show-raw-insn LIBRARY; }} | stack LIMIT");
            exit(2);
        }
    };
    match listing::read(&text).and_then(|library| report(&library, limit)) {
        Ok(lines) => lines.iter().for_each(|line| println!("{}", line)),
        Err(what) => {
            eprintln!("stack: {}", what);
            exit(1);
        }
    }
}
