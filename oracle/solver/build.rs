//! Copies the original sources into OUT_DIR, makes the substitutions of
//! `SUBSTITUTIONS` and no others, and writes the module tree that lib.rs
//! includes and the list that `oracle --substitutions` prints.

use std::fmt::Write;
use std::path::{Path, PathBuf};
use std::{env, fs};

/// Seen from this package; $ORACLE_SOURCES overrides it.
const SOURCES: &str = "../../../shared/docs/src/src";

enum When {
    Always,
    TablePower,
    Balance,
}

struct Substitution {
    when: When,
    file: &'static str,
    /// how often `from` must occur; anything else stops the build
    count: usize,
    from: &'static str,
    to: &'static str,
    why: &'static str,
}

const SUBSTITUTIONS: &[Substitution] = &[
    Substitution {
        when: When::Always,
        file: "solver/hydraulicsolver.rs",
        count: 1,
        from: r#"debug!("Fixing bad valve for node index: {}", node_index);"#,
        to: r#"debug!("Fixing bad valve for node index: {}", node_index, i);"#,
        why: "S1 the message also hands its link to the trace, for VF",
    },
    Substitution {
        when: When::Always,
        file: "solver/hydraulicsolver.rs",
        count: 1,
        from: "            let rel_change = stats.relative_change(&network.options);\n",
        to: "            crate::hook::stepped(network, &state)?; let rel_change = stats.relative_change(&network.options);\n",
        why: "S2 the place of the test for refusal 7, which only `recipe` makes",
    },
    Substitution {
        when: When::Balance,
        file: "solver/hydraulicsolver.rs",
        count: 1,
        from: "demands.iter().sum();",
        to: "crate::hook::total_demand(network, demands);",
        why: "S5 document 02, [3]: the demand of junctions in service alone",
    },
    Substitution {
        when: When::TablePower,
        file: "model/pipe.rs",
        count: 1,
        from: "q_abs.powf(n - 1.0)",
        to: "crate::recipe::power(q_abs)",
        why: "S3 document 01, item 2",
    },
    Substitution {
        when: When::TablePower,
        file: "model/pipe.rs",
        count: 6,
        from: ".powi(",
        to: ".powi_by_halving(",
        why: "S4 document 01, item 3",
    },
    Substitution {
        when: When::TablePower,
        file: "model/pipe.rs",
        count: 1,
        from: "use crate::constants::*;",
        to: "use crate::constants::*; use crate::recipe::WholePower;",
        why: "S4 the trait that gives powi_by_halving",
    },
    Substitution {
        when: When::TablePower,
        file: "model/valve.rs",
        count: 5,
        from: ".powi(",
        to: ".powi_by_halving(",
        why: "S4 document 01, item 3",
    },
    Substitution {
        when: When::TablePower,
        file: "model/valve.rs",
        count: 1,
        from: "use crate::constants::*;",
        to: "use crate::constants::*; use crate::recipe::WholePower;",
        why: "S4 the trait that gives powi_by_halving",
    },
];

/// The original files, by module.
const FILES: &[(&str, &[&str])] = &[
    ("", &["constants", "error"]),
    (
        "model",
        &[
            "control",
            "curve",
            "demand",
            "junction",
            "link",
            "network/mod",
            "node",
            "options",
            "pattern",
            "pipe",
            "pump",
            "reservoir",
            "rule",
            "tank",
            "units",
            "valve",
        ],
    ),
    (
        "solver",
        &["assembly", "hydraulicsolver", "matrix", "state"],
    ),
    ("utils", &["time"]),
];

fn main() {
    let here = PathBuf::from(env::var("CARGO_MANIFEST_DIR").unwrap());
    let sources = env::var("ORACLE_SOURCES").map_or_else(|_| here.join(SOURCES), PathBuf::from);
    let out = PathBuf::from(env::var("OUT_DIR").unwrap()).join("original");
    println!("cargo:rerun-if-env-changed=ORACLE_SOURCES");
    println!("cargo:rerun-if-changed=build.rs");
    println!("cargo:rerun-if-changed=stubs/modify.rs");
    // a leftover of an earlier build must not be compiled in
    if out.exists() {
        fs::remove_dir_all(&out).unwrap();
    }

    let mut tree = String::new();
    let mut list = String::new();
    for (module, files) in FILES {
        if !module.is_empty() {
            writeln!(tree, "pub mod {module} {{").unwrap();
        }
        for file in *files {
            let relative = Path::new(module).join(file).with_extension("rs");
            let text = substituted(&sources, relative.to_str().unwrap(), &mut list);
            let target = out.join(&relative);
            fs::create_dir_all(target.parent().unwrap()).unwrap();
            fs::write(&target, text).unwrap();
            let name = file.trim_end_matches("/mod");
            // the original is not ours to tidy
            writeln!(tree, "#[allow(dead_code, clippy::all)]").unwrap();
            writeln!(tree, "#[path = {target:?}]\npub mod {name};").unwrap();
        }
        if !module.is_empty() {
            writeln!(tree, "}}").unwrap();
        }
    }
    // network/mod.rs names this module, and its file is not to be had
    fs::copy(
        here.join("stubs/modify.rs"),
        out.join("model/network/modify.rs"),
    )
    .unwrap();
    fs::write(out.join("tree.rs"), tree).unwrap();
    fs::write(out.join("substitutions.txt"), list).unwrap();
}

/// The text of one original file with its substitutions made; each is added to
/// the list.
fn substituted(sources: &Path, relative: &str, list: &mut String) -> String {
    let made = |when: &When| match when {
        When::Always => true,
        When::TablePower => env::var("CARGO_FEATURE_TABLE_POWER").is_ok(),
        When::Balance => env::var("CARGO_FEATURE_BALANCE").is_ok(),
    };
    let from = sources.join(relative);
    println!("cargo:rerun-if-changed={}", from.display());
    let mut text = fs::read_to_string(&from).unwrap_or_else(|e| panic!("{}: {e}", from.display()));
    for s in SUBSTITUTIONS.iter().filter(|s| s.file == relative) {
        if !made(&s.when) {
            continue;
        }
        let found = text.matches(s.from).count();
        assert_eq!(found, s.count, "{relative}: occurrences of {:?}", s.from);
        text = text.replace(s.from, s.to);
        let (from, to) = (s.from.trim(), s.to.trim());
        writeln!(
            list,
            "  {relative}, {}x: {}\n    {from}\n    {to}",
            s.count, s.why
        )
        .unwrap();
    }
    text
}
