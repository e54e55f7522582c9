//! Circuit texts, read as document 01 says, and document 02 of weights (S-6): conditions 1 to 7.

#[derive(Clone, Copy, Debug, Eq, PartialEq)]
pub struct Refusal {
    pub number: u32,
    pub line: usize,
}

#[derive(Clone, Copy, Debug, Eq, PartialEq)]
pub enum Policy {
    Basic,
    Naive,
    Span,
}

#[derive(Clone, Copy, Debug, Eq, PartialEq)]
pub struct Settings {
    pub p: usize,
    pub m: usize,
    pub t: usize,
    /// `None` is the word `none`.
    pub norm: Option<u64>,
    pub policy: Policy,
    pub many: bool,
}

#[derive(Clone, Copy, Debug, Eq, PartialEq)]
pub enum Wire {
    Node(u64),
    Constant(bool),
}

#[derive(Clone, Debug)]
pub struct Input {
    pub name: String,
    pub weight: u64,
}

#[derive(Clone, Debug)]
pub struct Gate {
    pub line: usize,
    pub bits: Vec<u8>,
    pub wires: Vec<Wire>,
}

#[derive(Clone, Debug)]
pub struct Circuit {
    pub settings: Settings,
    pub inputs: Vec<Input>,
    pub gates: Vec<Gate>,
    pub outputs: Vec<(String, Wire)>,
}

const MOST_INPUTS: usize = 32;
const MOST_GATES: usize = 96;
const MOST_OUTPUTS: usize = 32;

/// A line that is a form. Numbers too long for 64 bits stand as the largest
/// one, which every limit here refuses in the same way.
enum Form {
    Fbs {
        p: u64,
        m: u64,
        t: u64,
        norm: Option<u64>,
        policy: Policy,
        many: bool,
    },
    In(Input),
    Gate(Vec<u8>, Vec<Wire>),
    Out(String, Wire),
}

struct Cursor<'a> {
    rest: &'a [u8],
}

impl<'a> Cursor<'a> {
    fn eat(&mut self, expected: &str) -> bool {
        match self.rest.strip_prefix(expected.as_bytes()) {
            Some(rest) => {
                self.rest = rest;
                true
            }
            None => false,
        }
    }

    fn need(&mut self, expected: &str) -> Option<()> {
        self.eat(expected).then_some(())
    }

    /// The longest run of such bytes, at least one.
    fn run(&mut self, accepted: impl Fn(u8) -> bool) -> Option<&'a [u8]> {
        let length = self
            .rest
            .iter()
            .position(|byte| !accepted(*byte))
            .unwrap_or(self.rest.len());
        let (run, rest) = self.rest.split_at(length);
        self.rest = rest;
        (length > 0).then_some(run)
    }

    fn number(&mut self) -> Option<u64> {
        let digits = self.run(|byte| byte.is_ascii_digit())?;
        if digits.len() > 1 && digits[0] == b'0' {
            return None;
        }
        Some(digits.iter().fold(0u64, |value, digit| {
            value
                .saturating_mul(10)
                .saturating_add(u64::from(digit - b'0'))
        }))
    }

    fn name(&mut self) -> Option<String> {
        let name =
            self.run(|byte| byte.is_ascii_lowercase() || byte.is_ascii_digit() || byte == b'_')?;
        (name.len() <= 16).then(|| String::from_utf8(name.to_vec()).unwrap())
    }

    /// Nothing is 1, which is not written otherwise.
    fn weight(&mut self) -> Option<u64> {
        if !self.eat(" ") {
            return Some(1);
        }
        self.number().filter(|weight| (2..=64).contains(weight))
    }

    fn bits(&mut self) -> Option<Vec<u8>> {
        let bits = self.run(|byte| byte == b'0' || byte == b'1')?;
        Some(bits.iter().map(|byte| byte - b'0').collect())
    }

    fn wire(&mut self) -> Option<Wire> {
        if self.eat("(k 0)") {
            return Some(Wire::Constant(false));
        }
        if self.eat("(k 1)") {
            return Some(Wire::Constant(true));
        }
        self.need("(n ")?;
        let id = self.number()?;
        self.need(")")?;
        Some(Wire::Node(id))
    }

    fn end(&self) -> Option<()> {
        self.rest.is_empty().then_some(())
    }
}

/// The form of one line, its newline taken off.
fn form(line: &[u8]) -> Option<Form> {
    let mut cursor = Cursor { rest: line };
    if cursor.eat("(fbs ") {
        let p = cursor.number()?;
        cursor.need(" ")?;
        let m = cursor.number()?;
        cursor.need(" ")?;
        let t = cursor.number()?;
        cursor.need(" ")?;
        let norm = if cursor.eat("none") {
            None
        } else {
            Some(cursor.number().filter(|norm| *norm <= 4096)?)
        };
        cursor.need(" ")?;
        let policy = if cursor.eat("basic") {
            Policy::Basic
        } else if cursor.eat("naive") {
            Policy::Naive
        } else {
            cursor.need("span")?;
            Policy::Span
        };
        cursor.need(" ")?;
        let many = if cursor.eat("many") {
            true
        } else {
            cursor.need("one")?;
            false
        };
        cursor.need(")")?;
        cursor.end()?;
        return Some(Form::Fbs {
            p,
            m,
            t,
            norm,
            policy,
            many,
        });
    }
    if cursor.eat("(in ") {
        let name = cursor.name()?;
        let weight = cursor.weight()?;
        cursor.need(")")?;
        cursor.end()?;
        return Some(Form::In(Input { name, weight }));
    }
    if cursor.eat("(gate ") {
        cursor.name()?;
        cursor.need(" ")?;
        let bits = cursor.bits()?;
        let mut wires = Vec::new();
        while cursor.eat(" ") {
            wires.push(cursor.wire()?);
        }
        cursor.need(")")?;
        cursor.end()?;
        return Some(Form::Gate(bits, wires));
    }
    cursor.need("(out ")?;
    let name = cursor.name()?;
    cursor.need(" ")?;
    let wire = cursor.wire()?;
    cursor.need(")")?;
    cursor.end()?;
    Some(Form::Out(name, wire))
}

#[derive(Clone, Copy, Eq, Ord, PartialEq, PartialOrd)]
enum Part {
    Start,
    Inputs,
    Gates,
    Outputs,
}

/// Read a text, or refuse it by the lowest condition on its first bad line.
pub fn read(text: &[u8]) -> Result<Circuit, Refusal> {
    let mut part = Part::Start;
    let mut settings = None;
    let mut inputs: Vec<Input> = Vec::new();
    let mut gates: Vec<Gate> = Vec::new();
    let mut outputs: Vec<(String, Wire)> = Vec::new();

    let mut rest = text;
    let mut line = 0;
    while !rest.is_empty() {
        line += 1;
        let refuse = |number| Err(Refusal { number, line });
        // A last line without its newline is no form.
        let Some(length) = rest.iter().position(|byte| *byte == b'\n') else {
            return refuse(1);
        };
        let form = form(&rest[..length]);
        rest = &rest[length + 1..];
        let nodes = (inputs.len() + gates.len()) as u64;
        let dangling = |wire: &Wire| matches!(wire, Wire::Node(id) if *id >= nodes);
        match form {
            None => return refuse(1),
            Some(Form::Fbs {
                p,
                m,
                t,
                norm,
                policy,
                many,
            }) => {
                if !(2..=16).contains(&p) || !(p..=2 * p).contains(&m) || !(1..=10).contains(&t) {
                    return refuse(2);
                }
                if part != Part::Start {
                    return refuse(4);
                }
                part = Part::Inputs;
                settings = Some(Settings {
                    p: p as usize,
                    m: m as usize,
                    t: t as usize,
                    norm,
                    policy,
                    many,
                });
            }
            Some(Form::In(input)) => {
                if inputs.len() == MOST_INPUTS {
                    return refuse(3);
                }
                if part != Part::Inputs {
                    return refuse(4);
                }
                if inputs.iter().any(|other| other.name == input.name) {
                    return refuse(5);
                }
                inputs.push(input);
            }
            Some(Form::Gate(bits, wires)) => {
                if gates.len() == MOST_GATES {
                    return refuse(3);
                }
                if part == Part::Start || part > Part::Gates {
                    return refuse(4);
                }
                if wires.iter().any(dangling) {
                    return refuse(6);
                }
                if !matches!((wires.len(), bits.len()), (1, 2) | (2, 4)) {
                    return refuse(7);
                }
                part = Part::Gates;
                gates.push(Gate { line, bits, wires });
            }
            Some(Form::Out(name, wire)) => {
                if outputs.len() == MOST_OUTPUTS {
                    return refuse(3);
                }
                if part == Part::Start {
                    return refuse(4);
                }
                if dangling(&wire) {
                    return refuse(6);
                }
                part = Part::Outputs;
                outputs.push((name, wire));
            }
        }
    }
    let Some(settings) = settings else {
        // Only an empty text gets here.
        return Err(Refusal { number: 4, line: 1 });
    };
    Ok(Circuit {
        settings,
        inputs,
        gates,
        outputs,
    })
}
