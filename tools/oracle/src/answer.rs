//! One job's answer: the circuit read, mapped by the Rust, written as a network.

use crate::circuit::{BoolCircuit, BoolNode, BoolWire};
use crate::lut::{LutCircuit, LutNode, LutSignal};
use crate::mapper::{CoefficientPolicy, MapConfig, Mapper, SchedulePolicy};
use crate::probe::{self, Place};
use crate::reader::{self, Circuit, Policy, Refusal, Wire};
use crate::weights;
use std::fmt::Write as _;
use std::panic::{AssertUnwindSafe, catch_unwind};
use std::time::{Duration, Instant};

pub const LONGEST_JOB: u64 = 32_768;
const ANSWER_BUFFER: usize = 65_536;

/// Something document 01 says cannot happen: show it with its circuit and stop.
pub fn stop(reason: &str, job: &[u8]) -> ! {
    eprintln!("oracle: {reason}");
    eprintln!("oracle: the circuit was:\n{}", String::from_utf8_lossy(job));
    std::process::exit(3);
}

fn to_rust(circuit: &Circuit) -> BoolCircuit {
    let wire = |wire: &Wire| match wire {
        Wire::Node(id) => BoolWire::Node(*id as usize),
        Wire::Constant(value) => BoolWire::Const(*value),
    };
    let mut result = BoolCircuit::default();
    for input in &circuit.inputs {
        let name = input.name.clone();
        result.inputs.push(result.nodes.len());
        result.nodes.push(BoolNode::Input { name });
    }
    for gate in &circuit.gates {
        result.nodes.push(BoolNode::Lut {
            name: gate.line.to_string(),
            inputs: gate.wires.iter().map(wire).collect(),
            table: gate.bits.clone(),
        });
    }
    for (name, output) in &circuit.outputs {
        result.outputs.push((name.clone(), wire(output)));
    }
    result
}

fn config(circuit: &Circuit) -> MapConfig {
    let settings = &circuit.settings;
    MapConfig {
        fbs_size: settings.p,
        max_fbs_size: settings.m,
        max_truth_table_inputs: settings.t,
        max_norm2: settings.norm.map(u128::from),
        coefficient_policy: match settings.policy {
            Policy::Basic => CoefficientPolicy::Basic,
            Policy::Naive => CoefficientPolicy::Naive,
            Policy::Span => CoefficientPolicy::MinSpan,
        },
        schedule_policy: SchedulePolicy::Original,
        multioutput_fbs: settings.many,
    }
}

fn refusal(error: &str, job: &[u8]) -> Refusal {
    if error.starts_with("basic mapping requires norm²") {
        return Refusal { number: 8, line: 0 };
    }
    let number =
        if error.starts_with("cone norm ") && error.ends_with(" exceeds configured norm² limit") {
            8
        } else if error == "no valid composition after bootstrapping both inputs as needed" {
            9
        } else {
            stop(&format!("the Rust refused with \"{error}\""), job);
        };
    match probe::place() {
        Place::Gate(line) => Refusal { number, line },
        place => stop(
            &format!("refusal {number} outside the gates, at {place:?}"),
            job,
        ),
    }
}

/// A mapped circuit, or the refusal of its text or of its mapping, and the time
/// of `Mapper::map` where it was reached.
pub struct Mapped {
    pub result: Result<(Circuit, LutCircuit), Refusal>,
    pub map_time: Option<Duration>,
}

pub fn map(job: &[u8]) -> Mapped {
    match reader::read(job) {
        Ok(circuit) => {
            let rust = to_rust(&circuit);
            map_rust(circuit, &rust, job)
        }
        Err(refusal) => Mapped {
            result: Err(refusal),
            map_time: None,
        },
    }
}

/// Map a circuit of the Rust's, its gates named by their lines, under the settings of a read one and the weights of its
/// inputs.
pub fn map_rust(circuit: Circuit, rust: &BoolCircuit, job: &[u8]) -> Mapped {
    let mapper = match Mapper::new(config(&circuit)) {
        Ok(mapper) => mapper,
        Err(error) => stop(&format!("the Rust refused the settings: {error}"), job),
    };
    let of_inputs: Vec<u64> = circuit.inputs.iter().map(|input| input.weight).collect();
    weights::set(&of_inputs);
    probe::begin();
    let start = Instant::now();
    let mapped = catch_unwind(AssertUnwindSafe(|| mapper.map(rust)));
    let map_time = Some(start.elapsed());
    let result = match mapped {
        Ok(Ok(network)) => Ok((circuit, network)),
        Ok(Err(error)) => Err(refusal(&error, job)),
        Err(_) => stop("the Rust panicked", job),
    };
    Mapped { result, map_time }
}

/// A space and the weight of the circuit's input of this name; of 1 nothing.
fn weight_text(circuit: &Circuit, name: &str) -> String {
    match circuit.inputs.iter().find(|input| input.name == name) {
        Some(input) if input.weight != 1 => format!(" {}", input.weight),
        _ => String::new(),
    }
}

fn network_text(circuit: &Circuit, network: &LutCircuit, job: &[u8]) -> String {
    let settings = &circuit.settings;
    let (p, m) = match settings.policy {
        Policy::Basic if settings.m == settings.p => (2, 2),
        Policy::Basic => (2, 4),
        _ => (settings.p, settings.m),
    };
    let mut text = String::new();
    let norm = settings
        .norm
        .map_or("none".to_owned(), |norm| norm.to_string());
    let _ = writeln!(text, "(net {p} {m} {norm})");
    let mut inputs_over = false;
    for node in &network.nodes {
        match node {
            LutNode::Input { name } => {
                if inputs_over {
                    stop("an input behind another node", job);
                }
                let _ = writeln!(text, "(in {name}{})", weight_text(circuit, name));
            }
            LutNode::Linear { terms, constant } => {
                inputs_over = true;
                let different = terms
                    .iter()
                    .enumerate()
                    .all(|(place, term)| terms[..place].iter().all(|other| other.1 != term.1));
                let within = |value: &i64| (-31..=31).contains(value);
                if !(1..=11).contains(&terms.len())
                    || !different
                    || !within(constant)
                    || terms
                        .iter()
                        .any(|(coefficient, _)| *coefficient == 0 || !within(coefficient))
                {
                    stop("a sum that is no `lin` form", job);
                }
                let _ = write!(text, "(lin {constant}");
                for (coefficient, id) in terms {
                    let _ = write!(text, " ({coefficient} {id})");
                }
                text.push_str(")\n");
            }
            LutNode::Bootstrap { input, table } => {
                inputs_over = true;
                if !(1..=32).contains(&table.len()) || table.iter().any(|bit| *bit > 1) {
                    stop("a table that is no `boot` form", job);
                }
                let bits: String = table
                    .iter()
                    .map(|bit| if *bit == 1 { '1' } else { '0' })
                    .collect();
                let _ = writeln!(text, "(boot {input} {bits})");
            }
        }
    }
    for (name, signal) in &network.outputs {
        let _ = match signal {
            LutSignal::Node(id) => writeln!(text, "(out {name} (n {id}))"),
            LutSignal::Const(value @ (0 | 1)) => writeln!(text, "(out {name} (k {value}))"),
            LutSignal::Const(value) => stop(&format!("an output constant {value}"), job),
        };
    }
    if network.nodes.len() > 672 || text.len() > ANSWER_BUFFER {
        stop("a network over the limits", job);
    }
    text
}

/// The answer without its `(end)` line.
pub fn answer_text(mapped: &Mapped, job: &[u8]) -> String {
    match &mapped.result {
        Ok((circuit, network)) => network_text(circuit, network, job),
        Err(refusal) => refusal_text(*refusal),
    }
}

pub fn refusal_text(refusal: Refusal) -> String {
    format!("(no {} {})\n", refusal.number, refusal.line)
}

/// The statistics of an admitted network: inputs, sums, all boots, different
/// boot sources, longest table, largest norm, outputs.
pub fn stats_text(mapped: &Mapped, job: &[u8]) -> String {
    let (circuit, network) = match &mapped.result {
        Ok(both) => both,
        Err(refusal) => return refusal_text(*refusal),
    };
    let stats = network.stats();
    let mut sources: Vec<usize> = network
        .nodes
        .iter()
        .filter_map(|node| match node {
            LutNode::Bootstrap { input, .. } => Some(*input),
            _ => None,
        })
        .collect();
    let boots = sources.len();
    sources.sort_unstable();
    sources.dedup();
    let counted = if circuit.settings.many {
        sources.len()
    } else {
        boots
    };
    if stats.bootstrap_count != counted {
        stop("the Rust counts other bootstraps", job);
    }
    format!(
        "(stats {} {} {boots} {} {} {} {})\n",
        stats.input_count,
        stats.linear_count,
        sources.len(),
        stats.max_lut_size,
        stats.max_norm2,
        stats.output_count
    )
}
