// The plain Rust version of crates/form, crates/network and crates/draft_count: the same representation, the same
// rules, the same refusals, the same generator and the same printed line, with no contract and no proof.
// bench/draft_ratio counts the instructions of both.
use std::fmt;
use std::process::ExitCode;

const DRAFTS: u16 = 100;
const INPUTS: u16 = 64;
const WIRES: u16 = 1024;
const NODES: usize = 192;
const OUTPUTS: usize = 64;

// A linear form: the XOR of a set of basis elements and a constant bit. The elements ascend.
#[derive(Clone)]
struct Form {
    elements: Vec<u16>,
    constant: bool,
}

// The elements in just one of two ascending slices, ascending.
fn merge(a: &[u16], b: &[u16]) -> Vec<u16> {
    let mut out = Vec::with_capacity(a.len() + b.len());
    let mut i = 0;
    let mut j = 0;
    while i < a.len() && j < b.len() {
        if a[i] < b[j] {
            out.push(a[i]);
            i += 1;
        } else if b[j] < a[i] {
            out.push(b[j]);
            j += 1;
        } else {
            i += 1;
            j += 1;
        }
    }
    out.extend_from_slice(&a[i..]);
    out.extend_from_slice(&b[j..]);
    out
}

impl Form {
    fn zero() -> Form {
        Form {
            elements: Vec::new(),
            constant: false,
        }
    }

    fn element(i: u16) -> Form {
        Form {
            elements: vec![i],
            constant: false,
        }
    }

    fn xor(&self, other: &Form) -> Form {
        Form {
            elements: merge(&self.elements, &other.elements),
            constant: self.constant ^ other.constant,
        }
    }

    fn invert(self) -> Form {
        Form {
            elements: self.elements,
            constant: !self.constant,
        }
    }
}

// How a wire comes to be: an input, or a gate over earlier wires.
#[derive(Clone, Copy)]
enum Step {
    Input,
    Xor(u16, u16),
    And(u16, u16),
    Inv(u16),
}

struct Wire {
    #[allow(dead_code)]
    step: Step,
    form: Form,
}

#[allow(dead_code)]
struct Node {
    first: Form,
    second: Form,
}

#[derive(Debug)]
enum Refusal {
    Inputs,
    WireLimit,
    NoSuchWire,
    NodeLimit,
    OutputLimit,
    NoOutput,
}

impl fmt::Display for Refusal {
    fn fmt(&self, f: &mut fmt::Formatter<'_>) -> fmt::Result {
        write!(f, "refused: {self:?}")
    }
}

// The form of an AND of two forms, or none where it takes a node.
fn and_form(a: &Form, b: &Form) -> Option<Form> {
    if a.elements.is_empty() {
        return Some(if a.constant { b.clone() } else { Form::zero() });
    }
    if b.elements.is_empty() {
        return Some(if b.constant { a.clone() } else { Form::zero() });
    }
    if a.elements == b.elements {
        return Some(if a.constant ^ b.constant {
            Form::zero()
        } else {
            a.clone()
        });
    }
    None
}

// Whether a step at wire `at` of a draft with n inputs reads earlier wires only.
fn reads_earlier(step: Step, n: u16, at: u16) -> bool {
    match step {
        Step::Input => at < n,
        Step::Xor(a, b) | Step::And(a, b) => a < at && b < at,
        Step::Inv(a) => a < at,
    }
}

struct Draft {
    inputs: u16,
    wires: Vec<Wire>,
    nodes: Vec<Node>,
    outputs: Vec<u16>,
}

impl Draft {
    fn new(n: u16) -> Result<Draft, Refusal> {
        if !(1..=64).contains(&n) {
            return Err(Refusal::Inputs);
        }
        let mut wires = Vec::new();
        for i in 0..n {
            wires.push(Wire {
                step: Step::Input,
                form: Form::element(i),
            });
        }
        Ok(Draft {
            inputs: n,
            wires,
            nodes: Vec::new(),
            outputs: Vec::new(),
        })
    }

    fn form(&self, i: u16) -> &Form {
        &self.wires[i as usize].form
    }

    // Asks what every gate must meet: there is room for a wire, and the wires it reads exist.
    fn admit(&self, step: Step) -> Result<(), Refusal> {
        let at = self.wires.len() as u16;
        if at >= WIRES {
            return Err(Refusal::WireLimit);
        }
        if !reads_earlier(step, self.inputs, at) {
            return Err(Refusal::NoSuchWire);
        }
        Ok(())
    }

    fn append(&mut self, step: Step, form: Form) -> u16 {
        let at = self.wires.len() as u16;
        self.wires.push(Wire { step, form });
        at
    }

    fn append_node(&mut self, a: u16, b: u16) -> Result<u16, Refusal> {
        let k = self.nodes.len();
        if k >= NODES {
            return Err(Refusal::NodeLimit);
        }
        let node = Node {
            first: self.form(a).clone(),
            second: self.form(b).clone(),
        };
        self.nodes.push(node);
        let form = Form::element(self.inputs + k as u16);
        Ok(self.append(Step::And(a, b), form))
    }

    fn xor(&mut self, a: u16, b: u16) -> Result<u16, Refusal> {
        let step = Step::Xor(a, b);
        self.admit(step)?;
        let form = self.form(a).xor(self.form(b));
        Ok(self.append(step, form))
    }

    fn and(&mut self, a: u16, b: u16) -> Result<u16, Refusal> {
        let step = Step::And(a, b);
        self.admit(step)?;
        match and_form(self.form(a), self.form(b)) {
            Some(form) => Ok(self.append(step, form)),
            None => self.append_node(a, b),
        }
    }

    fn inv(&mut self, a: u16) -> Result<u16, Refusal> {
        let step = Step::Inv(a);
        self.admit(step)?;
        let form = self.form(a).clone().invert();
        Ok(self.append(step, form))
    }

    fn output(&mut self, w: u16) -> Result<u16, Refusal> {
        if w as usize >= self.wires.len() {
            return Err(Refusal::NoSuchWire);
        }
        let k = self.outputs.len();
        if k >= OUTPUTS {
            return Err(Refusal::OutputLimit);
        }
        self.outputs.push(w);
        Ok(k as u16)
    }

    fn seal(self) -> Result<Network, Refusal> {
        if self.outputs.is_empty() {
            return Err(Refusal::NoOutput);
        }
        Ok(Network {
            inputs: self.inputs,
            wires: self.wires,
            nodes: self.nodes,
            outputs: self.outputs,
        })
    }
}

struct Network {
    #[allow(dead_code)]
    inputs: u16,
    wires: Vec<Wire>,
    nodes: Vec<Node>,
    outputs: Vec<u16>,
}

impl Network {
    fn output(&self, j: usize) -> Option<&Form> {
        let wire = *self.outputs.get(j)?;
        Some(&self.wires[wire as usize].form)
    }
}

// A linear congruential generator.
struct Generator {
    state: u64,
}

impl Generator {
    // The next number, below n.
    fn below(&mut self, n: u16) -> u16 {
        self.state = self
            .state
            .wrapping_mul(6_364_136_223_846_793_005)
            .wrapping_add(1_442_695_040_888_963_407);
        ((self.state >> 33) % u64::from(n)) as u16
    }
}

struct Totals {
    nodes: u64,
    sum: u64,
}

// Adds a random gate over the first `at` wires: one in six is an AND, one in six an INV.
fn add_gate(draft: &mut Draft, numbers: &mut Generator, at: u16) -> Result<u16, Refusal> {
    let kind = numbers.below(6);
    let a = numbers.below(at);
    let b = numbers.below(at);
    match kind {
        0 => draft.and(a, b),
        1 => draft.inv(a),
        _ => draft.xor(a, b),
    }
}

fn random_draft(numbers: &mut Generator) -> Result<Draft, Refusal> {
    let mut draft = Draft::new(INPUTS)?;
    for at in INPUTS..WIRES {
        add_gate(&mut draft, numbers, at)?;
    }
    Ok(draft)
}

// The network of a draft whose last 64 wires are the outputs.
fn sealed(mut draft: Draft) -> Result<Network, Refusal> {
    for wire in WIRES - 64..WIRES {
        draft.output(wire)?;
    }
    draft.seal()
}

// The sum of the elements and constants of all outputs.
fn outputs_sum(network: &Network) -> u64 {
    let mut sum = 0u64;
    for j in 0..network.outputs.len() {
        if let Some(form) = network.output(j) {
            sum += form.elements.iter().map(|e| u64::from(*e)).sum::<u64>();
            sum += u64::from(form.constant);
        }
    }
    sum
}

fn counted() -> Result<Totals, Refusal> {
    let mut numbers = Generator { state: 1 };
    let mut totals = Totals { nodes: 0, sum: 0 };
    for _ in 0..DRAFTS {
        let network = sealed(random_draft(&mut numbers)?)?;
        totals.nodes += network.nodes.len() as u64;
        totals.sum += outputs_sum(&network);
    }
    Ok(totals)
}

fn main() -> ExitCode {
    match counted() {
        Ok(Totals { nodes, sum }) => {
            println!("nodes {nodes} sum {sum}");
            ExitCode::SUCCESS
        }
        Err(refusal) => {
            eprintln!("{refusal}");
            ExitCode::FAILURE
        }
    }
}
