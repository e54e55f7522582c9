//! A BLIF, BENCH or Bristol circuit on standard input, read by the Rust's own
//! reader and printed a line each: `input ID NAME`, `gate ID BITS WIRE[,WIRE] NAME`
//! in the order of `topological_gates`, `output WIRE NAME`. A wire is a node's ID,
//! or `k0` or `k1`. `tools/convert` makes a circuit text of it.
//!
//! With an `fbs` line as second argument the circuit is mapped as it was read, and
//! the answer printed: what the text's answer is to be, but for the names.

#[macro_use]
#[path = "../copies.rs"]
mod copies;
rust_copied_to!("plain");
#[allow(dead_code)]
#[path = "../answer.rs"]
mod answer;
#[allow(dead_code)]
#[path = "../probe.rs"]
mod probe;
#[path = "../reader.rs"]
mod reader;
#[path = "../weights.rs"]
mod weights;

use circuit::{BoolCircuit, BoolNode, BoolWire};
use std::io::Read;
use std::process::ExitCode;

fn wire_text(wire: &BoolWire) -> String {
    match wire {
        BoolWire::Const(value) => format!("k{}", u8::from(*value)),
        BoolWire::Node(id) => id.to_string(),
    }
}

fn listing(circuit: &BoolCircuit) -> String {
    let mut text = String::new();
    for id in &circuit.inputs {
        text += &format!("input {id} {}\n", circuit.nodes[*id].name());
    }
    for id in circuit.topological_gates() {
        let BoolNode::Lut {
            name,
            inputs,
            table,
        } = &circuit.nodes[id]
        else {
            unreachable!("a gate is no input");
        };
        let bits: String = table.iter().map(u8::to_string).collect();
        let wires: Vec<String> = inputs.iter().map(wire_text).collect();
        text += &format!("gate {id} {bits} {} {name}\n", wires.join(","));
    }
    for (name, wire) in &circuit.outputs {
        text += &format!("output {} {name}\n", wire_text(wire));
    }
    text
}

/// The answer to the circuit itself. A gate is named by the line that it has in our text.
fn answer_text(mut circuit: BoolCircuit, line: &str) -> Result<String, String> {
    let job = format!("{line}\n");
    let settings = reader::read(job.as_bytes())
        .map_err(|refusal| format!("the fbs line is refused with {}", refusal.number))?;
    let first = 2 + circuit.inputs.len();
    for (place, id) in circuit.topological_gates().into_iter().enumerate() {
        if let BoolNode::Lut { name, .. } = &mut circuit.nodes[id] {
            *name = (first + place).to_string();
        }
    }
    let mapped = answer::map_rust(settings, &circuit, job.as_bytes());
    Ok(answer::answer_text(&mapped, job.as_bytes()))
}

fn read(format: &str) -> Result<BoolCircuit, String> {
    let mut source = String::new();
    std::io::stdin()
        .read_to_string(&mut source)
        .map_err(|error| error.to_string())?;
    match format {
        "blif" => BoolCircuit::parse_blif(&source),
        "bench" => BoolCircuit::parse_bench(&source),
        "bristol" => BoolCircuit::parse_bristol(&source),
        _ => Err(format!("no such format: {format}")),
    }
}

fn main() -> ExitCode {
    let arguments: Vec<String> = std::env::args().skip(1).collect();
    let text = match arguments.as_slice() {
        [format] => read(format).map(|circuit| listing(&circuit)),
        [format, line] => read(format).and_then(|circuit| answer_text(circuit, line)),
        _ => Err("usage: convert blif|bench|bristol [FBS] < circuit".to_owned()),
    };
    match text {
        Ok(text) => {
            print!("{text}");
            ExitCode::SUCCESS
        }
        Err(error) => {
            eprintln!("{error}");
            ExitCode::FAILURE
        }
    }
}
