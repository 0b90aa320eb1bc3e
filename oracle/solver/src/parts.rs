//! Single functions of the original, asked a line at a time. Codes are decimal,
//! floats 16 hex digits; `-` stands for an absent part.
//!
//!   C kind check-valve status q resistance setting minor-loss diameter
//!     excess-up excess-down elevation-up elevation-down
//!   -> conductance offset up-diagonal up-right-side down-diagonal down-right-side
//!   S kind status setting q head-up head-down elevation-up elevation-down
//!   -> the new status and its cause (document 02, [2]), if there is one
//!   D drawn asked pressure-range
//!   -> conductance offset
//!   F n, the lower triangle row by row, the right side
//!   -> `column c`, the first whose pivot is not above zero, or the solution

use crate::answer::hex;
use crate::cause::cause;
use crate::model::junction::Junction;
use crate::model::link::{Link, LinkTrait, NodeModification};
use crate::network::{code_of, link_type, status_of};
use crate::sheet::SheetLink;
use faer::dense;
use std::io::{self, BufRead, Write};

pub fn run(input: impl BufRead, mut output: impl Write) -> io::Result<()> {
    for line in input.lines() {
        let line = line?;
        let words: Vec<&str> = line.split_whitespace().collect();
        let found = answer(&words)
            .ok_or_else(|| io::Error::other(format!("a line that can't be read: {line}")))?;
        writeln!(output, "{found}")?;
    }
    Ok(())
}

fn answer(words: &[&str]) -> Option<String> {
    match *words {
        ["C", kind, check_valve, status, ref floats @ ..] => {
            coefficients(kind, check_valve, status, floats)
        }
        ["S", kind, status, ref floats @ ..] => new_status(kind, status, floats),
        ["D", ref floats @ ..] => demand(floats),
        ["F", n, ref floats @ ..] => factor(n.parse().ok()?, floats),
        _ => None,
    }
}

fn floats<const N: usize>(words: &[&str]) -> Option<[f64; N]> {
    let found: Option<Vec<f64>> = words.iter().map(|w| float(w)).collect();
    found?.try_into().ok()
}

fn float(word: &str) -> Option<f64> {
    u64::from_str_radix(word, 16).ok().map(f64::from_bits)
}

fn code(word: &str, last: u8) -> Option<u8> {
    word.parse().ok().filter(|&code| code <= last)
}

fn link(kind: u8, check_valve: u8, minor_loss: f64, diameter: f64) -> Link {
    let fields = SheetLink {
        at: 0,
        kind,
        check_valve,
        status: 0,
        start: 0,
        end: 0,
        setting: 0.0,
        minor_loss,
        diameter,
        resistance: 0.0,
        flow: 0.0,
    };
    Link {
        id: "".into(),
        link_type: link_type(&fields),
        start_node_id: "".into(),
        end_node_id: "".into(),
        initial_status: status_of(0),
        vertices: None,
        start_node: 0,
        end_node: 0,
    }
}

fn coefficients(kind: &str, check_valve: &str, status: &str, words: &[&str]) -> Option<String> {
    let status = status_of(code(status, 7)?);
    let [q, r, setting, loss, diameter, over_up, over_down, up, down] = floats(words)?;
    let link = link(code(kind, 6)?, code(check_valve, 1)?, loss, diameter);
    let found = link.coefficients(q, r, setting, status, over_up, over_down, up, down);
    Some(format!(
        "{} {} {} {}",
        hex(found.g_inv),
        hex(found.y),
        addition(found.upstream_modification),
        addition(found.downstream_modification)
    ))
}

fn addition(found: Option<NodeModification>) -> String {
    found.map_or("- -".into(), |a| {
        format!("{} {}", hex(a.diagonal_add), hex(a.rhs_add))
    })
}

fn new_status(kind: &str, status: &str, words: &[&str]) -> Option<String> {
    let status = status_of(code(status, 7)?);
    let [setting, q, head_up, head_down, up, down] = floats(words)?;
    let kind = code(kind, 6)?;
    let link = link(kind, 0, 0.0, 1.0);
    let found = link.update_status(setting, status, q, head_up, head_down, up, down);
    let cause = |new| cause(kind, &format!("{status:?}"), &format!("{new:?}"));
    Some(found.map_or("-".into(), |new| format!("{} {}", code_of(new), cause(new))))
}

/// With the pressure exponent 0.5, so n is 2.
fn demand(words: &[&str]) -> Option<String> {
    let [drawn, asked, range] = floats(words)?;
    let junction = Junction {
        emitter_coefficient: 0.0,
        demands: vec![],
    };
    let (conductance, offset) = junction.demand_coefficients(drawn, asked, range, 1.0 / 0.5);
    Some(format!("{} {}", hex(conductance), hex(offset)))
}

fn factor(n: usize, words: &[&str]) -> Option<String> {
    let triangle = n.checked_mul(n + 1)? / 2;
    if words.len() != triangle + n {
        return None;
    }
    let found: Vec<f64> = words.iter().map(|w| float(w)).collect::<Option<_>>()?;
    let mut matrix = vec![0.0; n * n];
    for row in 0..n {
        let start = row * (row + 1) / 2;
        matrix[row * n..row * n + row + 1].copy_from_slice(&found[start..start + row + 1]);
    }
    let mut x = found[triangle..].to_vec();
    if let Err(column) = dense::factorize(&mut matrix, n) {
        return Some(format!("column {column}"));
    }
    dense::substitute(&matrix, n, &mut x);
    let digits: Vec<String> = x.into_iter().map(hex).collect();
    Some(digits.join(" "))
}

#[cfg(test)]
mod tests {
    use super::*;

    fn of(line: &str) -> String {
        let mut output = Vec::new();
        run(line.as_bytes(), &mut output).unwrap();
        String::from_utf8(output).unwrap()
    }

    fn line(start: &str, floats: &[f64]) -> String {
        let digits: Vec<String> = floats.iter().map(|&x| hex(x)).collect();
        format!("{start} {}\n", digits.join(" "))
    }

    #[test]
    fn document_01s_valve() {
        // km = 0.02517 * setting / d^4 = 1, q = 3: (1/6, 1.5)
        let found = of(&line(
            "C 5 0 2",
            &[3.0, 0.0, 1.0 / 0.02517, 0.0, 1.0, 0.0, 0.0, 0.0, 0.0],
        ));
        assert_eq!(found, format!("{} {} - - - -\n", hex(1.0 / 6.0), hex(1.5)));
    }

    #[test]
    fn a_regulator_adds_below() {
        let found = of(&line(
            "C 1 0 2",
            &[3.0, 0.0, 20.0, 0.0, 1.0, 0.5, 0.25, 7.0, 4.0],
        ));
        let [zero, y, big, rhs] = [0.0, 0.25, 1e8, 24.0 * 1e8].map(hex);
        assert_eq!(found, format!("{zero} {y} - - {big} {rhs}\n"));
    }

    #[test]
    fn statuses() {
        let heads = [50.0, 1.0, 40.0, 30.0, 0.0, 0.0];
        assert_eq!(of(&line("S 1 2", &heads)), "1 2\n");
        assert_eq!(of(&line("S 0 3", &heads)), "1 4\n");
        assert_eq!(of(&line("S 5 3", &heads)), "-\n");
    }

    #[test]
    fn demands() {
        let found = |floats: [f64; 3]| of(&line("D", &floats));
        let pair = |a: f64, b: f64| format!("{} {}\n", hex(a), hex(b));
        assert_eq!(found([0.0, 1.0, 10.0]), pair(1e-8, 0.0));
        assert_eq!(found([0.5, 1.0, 10.0]), pair(0.1, 2.5));
        assert_eq!(found([1.0, 1.0, 10.0]), pair(1e-8, 10.0));
        assert_eq!(found([-2.0, 1.0, 10.0]), pair(1e-8, -2e8));
        // a demand so small that the gradient is infinite
        assert_eq!(found([1e-320, 2e-320, 10.0]), pair(0.0, f64::INFINITY));
        assert!(run(&b"D 0\n"[..], Vec::new()).is_err());
    }

    /// `factor.powf(n - 1.0)` is kept as it is: with n = 2 it gives back the factor.
    #[test]
    fn the_first_power() {
        let one = std::hint::black_box(1.0 / 0.5 - 1.0);
        for exponent in 0..1023u64 {
            for k in 0..2000u64 {
                let bits = exponent << 52 | (k.wrapping_mul(k).wrapping_mul(0x9e37_79b9_7f4a)) & ((1 << 52) - 1);
                let factor = f64::from_bits(bits);
                assert_eq!(factor.powf(one).to_bits(), bits);
            }
        }
        for bits in 0..100_000 {
            assert_eq!(f64::from_bits(bits).powf(one).to_bits(), bits);
        }
    }

    #[test]
    fn systems() {
        let [one, two] = [1.0, 2.0].map(hex);
        assert_eq!(
            of(&line("F 2", &[4.0, 2.0, 10.0, 8.0, 22.0])),
            format!("{one} {two}\n")
        );
        assert_eq!(of(&line("F 1", &[0.0, 1.0])), "column 0\n");
        assert_eq!(of("F 0\n"), "\n");
        assert!(run(&b"F 1\n"[..], Vec::new()).is_err());
    }
}
