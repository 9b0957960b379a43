//! Small libraries, written as objdump prints them: what is worked out, and that whatever can't be followed or isn't there is refused.

use crate::listing;
use crate::report;

/// A library of public functions, each a name and its lines of code, one byte apart; `=> X` behind a line is what the linker fills in there, less 4 unless
/// X says what is added.
fn library(functions: &[(&str, &str)], more: &str) -> String {
    let mut symbols = String::from("SYMBOL TABLE:\n");
    let mut relocations = String::new();
    let mut code = String::new();
    for (name, lines) in functions {
        symbols += &format!(
            "0000000000000000 g     F .text.{0}\t0000000000000001 {0}\n",
            name
        );
        relocations += &format!("RELOCATION RECORDS FOR [.text.{}]:\n", name);
        code += &format!(
            "Disassembly of section .text.{0}:\n\n0000000000000000 <{0}>:\n",
            name
        );
        for (at, line) in lines.split("; ").enumerate() {
            let (text, filled) = line.split_once(" => ").unwrap_or((line, ""));
            code += &format!("   {:x}:\t{}\n", at, text);
            if !filled.is_empty() {
                let addend = if filled.contains("+0x") {
                    ""
                } else {
                    "-0x0000000000000004"
                };
                relocations += &format!("{:016x} R_X86_64_PLT32    {}{}\n", at, filled, addend);
            }
        }
    }
    symbols + more + &relocations + &code
}

fn lines(text: &str) -> Result<Vec<String>, String> {
    listing::read(text).and_then(|library| report(&library, 1024))
}

#[track_caller]
fn takes(functions: &[(&str, &str)], wanted: &str) {
    assert_eq!(
        lines(&library(functions, "")).map(|found| found[0].clone()),
        Ok(wanted.to_string())
    );
}

#[track_caller]
fn refused(functions: &[(&str, &str)], wanted: &str) {
    let what = lines(&library(functions, "")).expect_err("it was not refused");
    assert!(what.contains(wanted), "{}", what);
}

#[test]
fn return_addresses_pushes_and_frames_are_counted() {
    takes(&[("a", "ret")], "a 8 0 a 8");
    takes(
        &[(
            "a",
            "push   %rbx; sub    $0x20,%rsp; add    $0x20,%rsp; pop    %rbx; ret",
        )],
        "a 48 0 a 48",
    );
    takes(
        &[(
            "a",
            "push   %rbx; lea    -0x30(%rsp),%rsp; lea    0x30(%rsp),%rsp; pop    %rbx; ret",
        )],
        "a 64 0 a 64",
    );
}

#[test]
fn what_is_written_below_the_pointer_is_counted() {
    takes(
        &[(
            "a",
            "push   %rbx; mov    %rax,-0x28(%rsp); pop    %rbx; ret",
        )],
        "a 56 0 a 56",
    );
}

#[test]
fn arguments_in_memory_are_told_apart() {
    takes(
        &[("a", "push   %rbx; mov    0x18(%rsp),%rax; pop    %rbx; ret")],
        "a 16 16 a 16",
    );
}

#[test]
fn the_deepest_way_is_taken() {
    let b = ("b", "push   %rbx; pop    %rbx; ret");
    let c = ("c", "sub    $0x18,%rsp; add    $0x18,%rsp; ret");
    takes(
        &[
            (
                "a",
                "push   %rbx; call   2 <a+0x2> => .text.b; call   3 <a+0x3> => c; pop    %rbx; ret",
            ),
            b,
            c,
        ],
        "a 48 0 a 16 > c 32",
    );
    takes(
        &[("a", "jmp    1 <a+0x1> => .text.c"), b, c],
        "a 32 0 a 0 > c 32",
    );
}

/// A jump by a table of two targets, and the relocations of the table.
const BY_TABLE: &str = "push   %rbx; lea    0x0(%rip),%rcx        # 8 => .rodata.a; movslq (%rcx,%rdi,4),%rax; add    %rcx,%rax; jmp    *%rax; pop    %rbx; ret; pop    %rbx; ret";
fn entries(first: u64, second: u64) -> String {
    let line = |offset: u64, target: u64| {
        format!(
            "{:016x} R_X86_64_PC32     .text.a+0x{:x}\n",
            offset,
            target + offset
        )
    };
    format!(
        "RELOCATION RECORDS FOR [.rodata.a]:\n{}{}",
        line(0, first),
        line(4, second)
    )
}

#[test]
fn a_jump_by_a_table_stays_in_its_function() {
    let with = |code: &str, first: u64, second: u64| {
        lines(&library(&[("a", code)], &entries(first, second)))
    };
    let by_rbp = BY_TABLE
        .replace("%rcx", "%rbp")
        .replace("(%rbp", "0x0(%rbp");
    for code in [BY_TABLE, &by_rbp] {
        assert_eq!(with(code, 5, 7), Ok(vec!["a 16 0 a 16".to_string()]));
    }
    // A `mov` between that writes neither the table's place, while it is needed, nor the target.
    for (text, other) in [
        ("; movslq", "; mov    (%rsp),%rdi; movslq"),
        ("; add", "; mov    %r9,%r8; add"),
        ("; jmp", "; mov    %r9d,%ecx; jmp"),
    ] {
        assert_eq!(
            with(&BY_TABLE.replace(text, other), 6, 8),
            Ok(vec!["a 16 0 a 16".to_string()])
        );
    }
    let refused = |code: &str, first: u64, second: u64, wanted: &str| {
        let what = with(code, first, second).expect_err("it was not refused");
        assert!(what.contains(wanted), "{}", what);
    };
    refused(BY_TABLE, 5, 5, "no way leads there");
    refused(BY_TABLE, 5, 11, "where no instruction begins");
    // Not by the table: another target, another sum, another table, not its first byte, a second jump, another way in.
    for (text, other) in [
        ("*%rax", "*%rbx"),
        ("add    %rcx,%rax", "add    %rdx,%rax"),
        ("(%rcx,", "(%rdx,"),
        ("(%rcx,", "0x4(%rcx,"),
        ("%rbx; ret; pop", "%rbx; jmp    *%rax; pop"),
        ("pop    %rbx; ret; pop", "jmp    4 <a+0x4>; ret; pop"),
        // A `mov` between that writes what is needed, or what is no general register; another instruction between.
        ("; movslq", "; mov    %rdx,%rcx; movslq"),
        ("; add", "; mov    %edx,%eax; add"),
        ("; add", "; mov    %edx,%ecx; add"),
        ("; jmp", "; mov    %edx,%eax; jmp"),
        ("; jmp", "; mov    %dl,%al; jmp"),
        ("; jmp", "; xor    %eax,%eax; jmp"),
    ] {
        assert!(BY_TABLE.contains(text));
        refused(
            &BY_TABLE.replace(text, other),
            5,
            7,
            "a jump through a pointer",
        );
    }
}

#[test]
fn what_has_no_bound_is_refused() {
    refused(&[("a", "call   1 <a+0x1> => .text.a; ret")], "calls itself");
    refused(
        &[
            ("a", "call   1 <a+0x1> => .text.b; ret"),
            ("b", "call   1 <b+0x1> => .text.a; ret"),
        ],
        "calls itself",
    );
    refused(&[("a", "call   *%rax; ret")], "a call through a pointer");
    refused(
        &[("a", "lea    0x0(%rip),%rax => .text.a; ret")],
        "the address of a function is taken",
    );
    refused(
        &[("a", "sub    %rax,%rsp; ret")],
        "an amount that is not known",
    );
    refused(
        &[("a", "push   %rbx; push   %rbx; jmp    0 <a>")],
        "bytes deep on one way",
    );
}

#[test]
fn what_is_not_in_the_library_is_refused() {
    refused(
        &[("a", "call   1 <a+0x1> => memset; ret")],
        "memset is called, and is not in the library",
    );
    let lacking = library(
        &[("a", "ret")],
        "0000000000000000         *UND*\t0000000000000000 memcpy\n",
    );
    assert!(lines(&lacking)
        .expect_err("it lacks something")
        .contains("not in the library: memcpy"));
    let pointed = library(
        &[("a", "ret")],
        "RELOCATION RECORDS FOR [.data.hook]:\n0000000000000000 R_X86_64_64     .text.a\n",
    );
    assert!(lines(&pointed)
        .expect_err("there is a pointer")
        .contains("holds a pointer to a"));
}

#[test]
fn what_is_not_understood_is_refused() {
    refused(&[("a", "push   %rbx; ret")], "returns 8 bytes deep");
    refused(&[("a", "pop    %rbx; ret")], "takes more off the stack");
    refused(
        &[("a", "and    $0xffffffffffffffe0,%rsp; ret")],
        "in a way that is not known",
    );
    refused(
        &[("a", "push   %rbp; mov    %rsp,%rbp; leave; ret")],
        "in a way that is not known",
    );
    refused(&[("a", "ret; mov    %rax,%rbx")], "no way leads there");
    refused(&[("a", "nop")], "its last instruction goes on");
    refused(
        &[("a", "mov    (%rsp),%rax; ret")],
        "the return address is touched",
    );
}

#[test]
fn what_leaves_unseen_is_refused() {
    let b = ("b", "ret; ret");
    refused(
        &[("a", "call   1 <a+0x1> => .text.b+0x1; ret"), b],
        "inside a function",
    );
    refused(
        &[("a", "call   *0x0(%rip)        # 6 => b; ret"), b],
        "a call through a pointer",
    );
    for strange in [
        "ret    $0x8",
        "loop   0 <a>",
        "pushfq",
        "pushw  %ax",
        "(bad)",
        "rex.W call 5 <a+0x5>",
    ] {
        refused(
            &[("a", &format!("{}; ret", strange))],
            "in a way that is not known",
        );
    }
    takes(&[("a", "popcnt %rax,%rbx; ret")], "a 8 0 a 8");
}

#[test]
fn what_an_address_of_the_stack_may_reach_is_counted() {
    takes(
        &[("a", "lea    -0x8(%rsp),%rax; mov    %bl,-0x1(%rax); ret")],
        "a 136 0 a 136",
    );
    takes(&[("a", "mov    %rsp,%rax; ret")], "a 136 0 a 136");
    takes(
        &[(
            "a",
            "push   %rbx; mov    %bl,-0x8(%rsp,%rax,1); pop    %rbx; ret",
        )],
        "a 144 0 a 144",
    );
    // A function that calls another keeps nothing below its stack pointer.
    let b = ("b", "ret");
    takes(
        &[
            (
                "a",
                "push   %rbx; lea    (%rsp),%rdi; call   3 <a+0x3> => b; pop    %rbx; ret",
            ),
            b,
        ],
        "a 24 0 a 24",
    );
}

#[test]
fn arguments_of_unknown_size_are_refused() {
    refused(
        &[("a", "lea    0x8(%rsp),%rax; ret")],
        "among the arguments",
    );
    refused(
        &[("a", "mov    0x8(%rsp,%rdi,8),%rax; ret")],
        "among the arguments",
    );
    takes(&[("a", "movups 0x8(%rsp),%xmm0; ret")], "a 8 16 a 8");
    let b = ("b", "mov    0x10(%rsp),%rax; ret");
    takes(&[("a", "jmp    1 <a+0x1> => .text.b"), b], "a 8 16 a 8");
}

#[test]
fn symbols_that_are_not_plain_functions_are_refused() {
    let with = |line: &str| lines(&library(&[("a", "ret")], line)).expect_err("it was not refused");
    let size = "0000000000000001";
    for line in [
        "w    F .text.a",
        "g   i   .text.a",
        "g     F .text.b",
        "g     O .text.a",
    ] {
        let text = format!("0000000000000000 {}\t{} a\n", line, size);
        assert!(with(&text).contains("not understood"), "{}", line);
    }
    assert!(
        with("0000000000000004 g     F .text.a\t0000000000000001 a\n").contains("not understood")
    );
    assert!(
        with("0000000000000000 g     F .text.a\t0000000000000001 a b\n").contains("not understood")
    );
    assert!(with("SYMBOL TABLE:\n").contains("more than one object file"));
    let twice = library(&[("a", "ret"), ("a", "ret")], "");
    assert!(lines(&twice)
        .expect_err("it was not refused")
        .contains("two functions a"));
}

#[test]
fn over_the_limit_is_refused() {
    takes(
        &[("a", "sub    $0x3f8,%rsp; add    $0x3f8,%rsp; ret")],
        "a 1024 0 a 1024",
    );
    refused(
        &[("a", "sub    $0x3f9,%rsp; add    $0x3f9,%rsp; ret")],
        "over 1024",
    );
    refused(
        &[(
            "a",
            "sub    $0x3f0,%rsp; mov    0x400(%rsp),%rax; add    $0x3f0,%rsp; ret",
        )],
        "over 1024",
    );
}
