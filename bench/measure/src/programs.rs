//! The programs that are measured.

use std::fmt::Write;

const LINES: usize = 128;

/// What opens a loop that counts a parameter, and what ends it.
fn counted(k: usize) -> (String, String) {
    let p = k % 5 + 1;
    let open = format!("O{k} WHILE [#{p} LT {}]\n", 10 + k);
    (open, format!("#{p}=[#{p}+1]\nO{k} ENDWHILE\n"))
}

/// Loops in one another, with the other lines in the innermost one.
pub fn nested(depth: usize, lines: usize) -> String {
    let loops = (1..=depth).map(counted);
    let opens: String = loops.clone().map(|(open, _)| open).collect();
    let ends: String = loops.rev().map(|(_, end)| end).collect();
    opens + &straight(lines - 3 * depth) + &ends
}

/// Loops one behind another, that share the other lines.
pub fn in_a_row(count: usize, lines: usize) -> String {
    let body = straight((lines - 3 * count) / count);
    (1..=count).map(counted).map(|(open, end)| open + &body + &end).collect()
}

/// Branches one behind another, that share the other lines.
pub fn branches(count: usize, lines: usize) -> String {
    let body = straight((lines - 2 * count) / count);
    (1..=count).map(|k| format!("O{k} IF [#{} LT {k}]\n{body}O{k} ENDIF\n", k % 5 + 1)).collect()
}

/// No block at all.
pub fn straight(lines: usize) -> String {
    (0..lines).map(filler).collect()
}

/// A line that computes or moves, within the table whatever loops are round it.
fn filler(n: usize) -> String {
    match n % 4 {
        0 => format!("#6=[#{}*0]\n", n % 5 + 1),
        1 => format!("G1 X[#6+{}] Y{} Z-{n} U0\n", 500 * n, 100 * n),
        2 => format!("G0 Y{} X[#6*2]\n", 100 * n),
        _ => format!("#6 = [ {n} + 0 ]\n"),
    }
}

/// As much text as a program can have: long lines of every kind.
pub fn full() -> String {
    let mut text = String::new();
    for k in 1..=16 {
        let _ = writeln!(text, "  O {:08} WHILE [ #{} NE - 0{} ]", k + 9_000, k % 6 + 1, 1_000_000 + k);
    }
    for n in 0..LINES - 32 {
        let a = n % 6 + 1;
        let _ = writeln!(
            text,
            "g 01 u[ +0 * #{a} ] z[ #{a} * -0 ] y [ {:08} - #{a} ] x [ #{a} + {:08} ]",
            1_000 + n,
            2_000 + n
        );
    }
    for k in (1..=16).rev() {
        let _ = writeln!(text, "  o {:08} endwhile", k + 9_000);
    }
    text
}

/// Goes round for ever, with a setting, a branch and a move.
pub const ROUND: &str =
    "O1 WHILE [0 EQ 0]\n#1=[#2+1]\nO2 IF [#1 GT 0]\nG1 X[#1*500] Y[#1+7] Z0\nO2 ENDIF\nO1 ENDWHILE\n";
