//! Copies the Rust mapper into OUT_DIR with small edits, four times: `plain` for the oracle, `reach` with counters added,
//! `cones` with an entry to its cones, `wrong` with weights lost where its argument says; all with document 02's order of
//! ties and its weights.
//! Its place is FBS_MAP_SRC, the directory that holds `src/mapper.rs`, or ../../../shared/docs/src from here.
//! An edit whose text is not found exactly as often as expected stops the build.

use std::env;
use std::fs;
use std::path::{Path, PathBuf};

/// In `file`, the occurrences of `expected` in turn: what to put before and
/// after each. There must be as many as `around` has pairs.
struct Edit {
    file: &'static str,
    expected: &'static str,
    around: &'static [(&'static str, &'static str)],
}

/// In `file`, one text with another right behind it, once: they change places.
struct Exchange {
    file: &'static str,
    first: &'static str,
    second: &'static str,
}

/// In `file`, one text that stands there once, and what takes its place.
struct Change {
    file: &'static str,
    old: &'static str,
    new: &'static str,
}

const FILES: [&str; 3] = ["circuit.rs", "lut.rs", "mapper.rs"];

/// Document 02, S-3, in `Score::ordering`: the smaller norm before the smaller energy.
const ORDER: Exchange = Exchange {
    file: "mapper.rs",
    first: "            .then_with(|| self.energy.cmp(&other.energy))\n",
    second: "            .then_with(|| self.norm2.cmp(&other.norm2))\n",
};

/// Document 02, S-6: an input counts its weight in every norm. A sum takes `self.norm2` of its sources, which are inputs
/// and bootstraps, so in `lut.rs` the input's own is enough.
const WEIGHTS: &[Change] = &[
    Change {
        file: "mapper.rs",
        old: "        coefficients_norm2(&self.coefficients)\n",
        new: "        coefficients_norm2(&self.coefficients, &self.support)\n",
    },
    Change {
        file: "mapper.rs",
        old: "            let norm2 = coefficients_norm2(&coefficients);\n",
        new: "            let norm2 = coefficients_norm2(&coefficients, &cone.support);\n",
    },
    Change {
        file: "mapper.rs",
        old: "fn coefficients_norm2(coefficients: &[i64]) -> u128 {
    coefficients
        .iter()
        .map(|coefficient| {
            let absolute = coefficient.unsigned_abs() as u128;
            absolute.saturating_mul(absolute)
        })
        .sum()
}
",
        new: "fn coefficients_norm2(coefficients: &[i64], support: &[usize]) -> u128 {
    coefficients
        .iter()
        .zip(support)
        .map(|(coefficient, node)| {
            let absolute = coefficient.unsigned_abs() as u128;
            absolute * absolute * crate::weights::of(*node)
        })
        .sum()
}
",
    },
    // The search has the weights of the merged sources beside their coefficients.
    Change {
        file: "mapper.rs",
        old: "struct CandidateWorkspace {
    coefficient_basis: Vec<(i64, i64)>,
",
        new: "struct CandidateWorkspace {
    coefficient_basis: Vec<(i64, i64)>,
    weights: Vec<u128>,
",
    },
    Change {
        file: "mapper.rs",
        old: "            coefficient_basis,
            coefficients: Vec::with_capacity(support.len()),
",
        new: "            coefficient_basis,
            weights: support.iter().map(|node| crate::weights::of(*node)).collect(),
            coefficients: Vec::with_capacity(support.len()),
",
    },
    Change {
        file: "mapper.rs",
        old: "        for &coefficient in &self.coefficients {\n",
        new: "        for (&coefficient, &weight) in self.coefficients.iter().zip(&self.weights) {\n",
    },
    Change {
        file: "mapper.rs",
        old: "            norm2 += absolute * absolute;\n",
        new: "            norm2 += absolute * absolute * weight;\n",
    },
    // The cache's key has no weights: it serves only where all are 1.
    Change {
        file: "mapper.rs",
        old: "        if self.config.multioutput_fbs {
            return self.search_candidate(",
        new: "        if self.config.multioutput_fbs || !crate::weights::all_1() {
            return self.search_candidate(",
    },
    Change {
        file: "lut.rs",
        old: "            LutNode::Input {
                name: name.to_owned(),
            },
            (0, 1),
            1,
",
        new: "            LutNode::Input {
                name: name.to_owned(),
            },
            (0, 1),
            crate::weights::of(self.nodes.len()),
",
    },
];

/// Document 01's cap of T + 1 merged sources, and the gate that is being mapped.
const PLAIN: &[Edit] = &[
    // An attempt over the cap is left before its tables are made.
    Edit {
        file: "mapper.rs",
        expected: "        let (xy, truth_table) = cone_composition_tables(&left, &right, &gate_table)?;\n",
        around: &[
            (
                "        'first: {
        if crate::probe::over_cap(union_support_size(&left.support, &right.support), self.config.max_truth_table_inputs) {
            break 'first;
        }
",
                "",
            ),
            (
                "        'second: {
        if crate::probe::over_cap(union_support_size(&left.support, &right.support), self.config.max_truth_table_inputs) {
            break 'second;
        }
",
                "",
            ),
            (
                "        if crate::probe::over_cap(union_support_size(&left.support, &right.support), self.config.max_truth_table_inputs) {
            return Err(\"no valid composition after bootstrapping both inputs as needed\".to_owned());
        }
",
                "",
            ),
        ],
    },
    // The end of the first and of the second attempt.
    Edit {
        file: "mapper.rs",
        expected: "            let cone = self.merge_cones(left, right, candidate, truth_table)?;
            return Ok((cone, updates));
        }
",
        around: &[("", "        }\n"), ("", "        }\n")],
    },
    // A gate's name is its line number.
    Edit {
        file: "mapper.rs",
        expected: "            let mut input_cones = Vec::with_capacity(inputs.len());\n",
        around: &[("            crate::probe::at_gate(name);\n", "")],
    },
    Edit {
        file: "mapper.rs",
        expected: "        for (name, output) in &circuit.outputs {\n",
        around: &[("        crate::probe::at_outputs();\n", "")],
    },
];

/// Counters for the reach of generated circuits; they change no answer.
const REACH: &[Edit] = &[
    Edit {
        file: "mapper.rs",
        expected: "        self.trace_candidate(1, candidate.as_ref(), &truth_table);\n",
        around: &[(
            "        crate::probe::attempt(1, candidate.is_some());\n",
            "",
        )],
    },
    Edit {
        file: "mapper.rs",
        expected: "        self.trace_candidate(2, candidate.as_ref(), &truth_table);\n",
        around: &[(
            "        crate::probe::attempt(2, candidate.is_some());\n",
            "",
        )],
    },
    Edit {
        file: "mapper.rs",
        expected: "        self.trace_candidate(3, candidate.as_ref(), &truth_table);\n",
        around: &[(
            "        crate::probe::attempt(3, candidate.is_some());\n",
            "",
        )],
    },
    Edit {
        file: "mapper.rs",
        expected: "            return Ok((Cone::constant(truth_table[0]), updates));\n",
        around: &[
            (
                "            crate::probe::count(\"constant at attempt 1\");\n",
                "",
            ),
            (
                "            crate::probe::count(\"constant at attempt 2\");\n",
                "",
            ),
            (
                "            crate::probe::count(\"constant at attempt 3\");\n",
                "",
            ),
        ],
    },
    Edit {
        file: "mapper.rs",
        expected: "            left = self.bootstrap_cone(environment, left)?;
            updates[left_position] = Some(left.clone());
            switch_inputs(
",
        around: &[(
            "            crate::probe::count(\"support limit, first side\");\n",
            "",
        )],
    },
    Edit {
        file: "mapper.rs",
        expected: "                left = self.bootstrap_cone(environment, left)?;\n",
        around: &[(
            "                crate::probe::count(\"support limit, second side\");\n",
            "",
        )],
    },
    Edit {
        file: "mapper.rs",
        expected: "        let mut best: Option<(Score, (i64, i64))> = None;\n",
        around: &[("        crate::probe::search_begins();\n", "")],
    },
    Edit {
        file: "mapper.rs",
        expected: "                // A larger span can still win by reuse until the best reuse cost is zero.\n",
        around: &[(
            "                crate::probe::scored(score.reuse_cost, (score.span, score.norm2, score.energy, score.a, score.b));\n",
            "",
        )],
    },
    Edit {
        file: "mapper.rs",
        expected: "        best.and_then(|(_, scales)| self.make_candidate(",
        around: &[("        crate::probe::search_ends();\n", "")],
    },
    Edit {
        file: "mapper.rs",
        expected: "        if let Some(coefficients) = self.reusable_cone_coefficients(environment, &cone) {\n",
        around: &[(
            "",
            "            crate::probe::realigned(coefficients != cone.coefficients);\n",
        )],
    },
    Edit {
        file: "mapper.rs",
        expected: "            if self.is_test_vector_valid(&table) {\n",
        around: &[(
            "",
            "                crate::probe::filled(missing, known.contains(&None));\n",
        )],
    },
    Edit {
        file: "mapper.rs",
        expected: "        self.is_test_vector_valid(&table).then_some(table)\n",
        around: &[("        crate::probe::filled(2, true);\n", "")],
    },
    Edit {
        file: "mapper.rs",
        expected: "        let (_, divisor) = workspace.evaluate(self, candidate_rows(xy, truth_table), scales)?;\n",
        around: &[("", "        crate::probe::divisor(divisor);\n")],
    },
    Edit {
        file: "mapper.rs",
        expected: "    if retained.len() != old_support_len {\n",
        around: &[(
            "",
            "        crate::probe::count(\"sources dropped in a merge\");\n",
        )],
    },
    Edit {
        file: "mapper.rs",
        expected: "        self.validate_cone(&cone)?;\n        Ok(cone)\n",
        around: &[(
            "        crate::probe::cone(cone.support.len(), cone.span());\n",
            "",
        )],
    },
    Edit {
        file: "mapper.rs",
        expected: "        self.validate_cone(&result)?;\n",
        around: &[("        crate::probe::count(\"unary cone\");\n", "")],
    },
    Edit {
        file: "mapper.rs",
        expected: "                    wires[id] = Some(replacement);\n",
        around: &[(
            "                    crate::probe::count(\"wire replaced\");\n",
            "",
        )],
    },
    Edit {
        file: "lut.rs",
        expected: "        if let Some(id) = self.cache.get(&node) {\n",
        around: &[("", "            crate::probe::shared(&node);\n")],
    },
];

/// An entry to the functions on cones, which are private to their module.
const CONES: &[Edit] = &[Edit {
    file: "mapper.rs",
    expected: "// Remove unused variables and canonicalize a validated cone's linear form.\n",
    around: &[(
        "include!(concat!(env!(\"CARGO_MANIFEST_DIR\"), \"/src/replay.rs\"));\n\n",
        "",
    )],
}];

/// One weight lost or misplaced, as `src/bin/wrong.rs` was told.
const WRONG: &[Edit] = &[
    Edit {
        file: "mapper.rs",
        expected: "(cone.span(), cone.norm2())",
        around: &[("crate::weights::lost_in(\"order\", || ", ")")],
    },
    Edit {
        file: "mapper.rs",
        expected: "self.validate_cone(&result)",
        around: &[("crate::weights::lost_in(\"unary\", || ", ")")],
    },
    Edit {
        file: "mapper.rs",
        expected: "        if mapper.config.max_norm2.is_some_and(|limit| norm2 > limit) {
            return None;
        }
",
        around: &[(
            "        let right_norm2 = norm2;
        let norm2 = crate::weights::norm2_in(\"limit\", norm2, &self.coefficients);
",
            "        let norm2 = crate::weights::norm2_in(\"score\", right_norm2, &self.coefficients);\n",
        )],
    },
    Edit {
        file: "mapper.rs",
        expected: "            let score = (span, norm2);\n",
        around: &[(
            "            let norm2 = crate::weights::norm2_in(\"form\", norm2, &coefficients);\n",
            "",
        )],
    },
    Edit {
        file: "mapper.rs",
        expected: "absolute * absolute * crate::weights::of(*node)",
        around: &[(
            "crate::weights::term(",
            ", absolute, crate::weights::of(*node))",
        )],
    },
    Edit {
        file: "mapper.rs",
        expected: "absolute * absolute * weight",
        around: &[("crate::weights::term(", ", absolute, weight)")],
    },
    Edit {
        file: "mapper.rs",
        expected: "            return Ok(mapped);\n",
        around: &[(
            "            if crate::weights::is_wrong(\"dead\")
                && self.config.max_norm2.is_some_and(|limit| crate::weights::largest() > limit)
            {
                return Err(\"basic mapping requires norm² of an input\".to_owned());
            }
",
            "",
        )],
    },
    Edit {
        file: "lut.rs",
        expected: "            stats.max_norm2 = stats.max_norm2.max(self.norm2[id]);\n",
        around: &[(
            "            if crate::weights::is_wrong(\"check\") && matches!(node, LutNode::Input { .. }) {
                stats.max_norm2 = stats.max_norm2.max(1);
                continue;
            }
",
            "",
        )],
    },
];

/// The text cut at each `expected`, which must stand there `times` times.
fn pieces<'a>(file: &str, text: &'a str, expected: &str, times: usize) -> Vec<&'a str> {
    let pieces: Vec<&str> = text.split(expected).collect();
    let found = pieces.len() - 1;
    if found != times {
        panic!(
            "the Rust is not the one this oracle was written for: in {file} this text stands {found} times, expected {times}:\n{expected}"
        );
    }
    pieces
}

fn edited(file: &str, text: &str, edits: &[Edit]) -> String {
    let mut text = text.to_owned();
    for edit in edits.iter().filter(|edit| edit.file == file) {
        let parts = pieces(file, &text, edit.expected, edit.around.len());
        let mut result = parts[0].to_owned();
        for (part, (before, after)) in parts[1..].iter().zip(edit.around) {
            result.push_str(before);
            result.push_str(edit.expected);
            result.push_str(after);
            result.push_str(part);
        }
        text = result;
    }
    text
}

fn changed(file: &str, text: &str, changes: &[Change]) -> String {
    changes
        .iter()
        .filter(|change| change.file == file)
        .fold(text.to_owned(), |text, change| {
            pieces(file, &text, change.old, 1).join(change.new)
        })
}

fn exchanged(file: &str, text: &str, exchange: &Exchange) -> String {
    if exchange.file != file {
        return text.to_owned();
    }
    let Exchange { first, second, .. } = exchange;
    pieces(file, text, &format!("{first}{second}"), 1).join(&format!("{second}{first}"))
}

fn place() -> PathBuf {
    match env::var_os("FBS_MAP_SRC") {
        Some(place) => PathBuf::from(place),
        None => {
            Path::new(&env::var_os("CARGO_MANIFEST_DIR").unwrap()).join("../../../shared/docs/src")
        }
    }
}

/// The archive that `bench` calls, FBS_LIBRARY.
fn link_library() {
    println!("cargo:rerun-if-env-changed=FBS_LIBRARY");
    if env::var_os("CARGO_FEATURE_BENCH").is_none() {
        return;
    }
    let library = env::var("FBS_LIBRARY").expect("FBS_LIBRARY names the archive that bench links");
    println!("cargo:rerun-if-changed={library}");
    println!("cargo:rustc-link-arg-bin=bench={library}");
}

fn main() {
    println!("cargo:rerun-if-env-changed=FBS_MAP_SRC");
    println!("cargo:rerun-if-changed=build.rs");
    link_library();
    let place = place();
    let out = PathBuf::from(env::var_os("OUT_DIR").unwrap());
    for (directory, sets) in [
        ("plain", &[PLAIN][..]),
        ("reach", &[PLAIN, REACH][..]),
        ("cones", &[CONES][..]),
        ("wrong", &[PLAIN, WRONG][..]),
    ] {
        fs::create_dir_all(out.join(directory)).unwrap();
        for file in FILES {
            let path = place.join("src").join(file);
            println!("cargo:rerun-if-changed={}", path.display());
            let text = fs::read_to_string(&path).unwrap_or_else(|error| {
                panic!(
                    "cannot read the Rust mapper at {}: {error}; set FBS_MAP_SRC to the directory that holds src/mapper.rs",
                    path.display()
                )
            });
            let mut text = changed(file, &exchanged(file, &text, &ORDER), WEIGHTS);
            for edits in sets {
                text = edited(file, &text, edits);
            }
            fs::write(out.join(directory).join(file), text).unwrap();
        }
    }
}
