//! The same work as `emu settle` on whole designs, as plain Rust without proofs.
//!
//! It stands here to be compared with, as `plain.rs`: hierarchy, vectors, and cells of all kinds, without
//! groups, openings, and read ports that have a clock; and it looks for no fault but those that would
//! stop it. Compile it with `rustc -O`.

mod flat;
mod json;
mod verilog;

use flat::{Design, Element, Memory, State};
use std::collections::HashMap;
use std::io::Write as _;
use std::process::exit;
use verilog::Op;

#[derive(Clone, Copy)]
enum Driver {
    None,
    Elem(u32),
    Read(u32, u32, u32),
}

#[derive(Clone, Copy)]
enum Node {
    Net(u32),
    Write(u32, u32),
}

fn refuse(what: &str) -> ! {
    println!("refused {what}");
    exit(2)
}

fn drivers(design: &Design) -> Option<Vec<Driver>> {
    let mut drivers = vec![Driver::None; design.names.len()];
    let mut put = |net: u32, driver| matches!(std::mem::replace(&mut drivers[net as usize], driver), Driver::None).then_some(());
    for (k, element) in design.elements.iter().enumerate() {
        match element {
            Element::Gate(_, _, output) => put(*output, Driver::Elem(k as u32))?,
            Element::Flop(state) | Element::Latch(state) => put(state.q, Driver::Elem(k as u32))?,
            Element::Memory(m) => {
                for (p, (_, bits)) in design.memories[*m].reads.iter().enumerate() {
                    for (b, bit) in bits.iter().enumerate() {
                        put(*bit, Driver::Read(*m as u32, p as u32, b as u32))?;
                    }
                }
            }
        }
    }
    Some(drivers)
}

struct Graph<'a> {
    design: &'a Design<'a>,
    drivers: &'a [Driver],
    /// The number of the first write node of each memory.
    firsts: Vec<u32>,
    nodes: Vec<Node>,
}

impl<'a> Graph<'a> {
    fn new(design: &'a Design, drivers: &'a [Driver]) -> Graph<'a> {
        let mut nodes: Vec<Node> = (0..drivers.len() as u32).map(Node::Net).collect();
        let mut firsts = Vec::new();
        for (m, memory) in design.memories.iter().enumerate() {
            firsts.push(nodes.len() as u32);
            nodes.extend((0..memory.writes.len() as u32).map(|p| Node::Write(m as u32, p)));
        }
        Graph { design, drivers, firsts, nodes }
    }

    fn state(state: &State, latch: bool, mut each: impl FnMut(u32)) {
        each(state.clock.0);
        state.clear.iter().chain(&state.preset).for_each(|level| each(level.0));
        if latch {
            each(state.feed);
        }
    }

    fn dependencies(&self, node: u32, mut each: impl FnMut(u32)) {
        match self.nodes[node as usize] {
            Node::Net(net) => match self.drivers[net as usize] {
                Driver::None => {}
                Driver::Elem(k) => match &self.design.elements[k as usize] {
                    Element::Gate(_, inputs, _) => inputs.iter().for_each(|net| each(*net)),
                    Element::Flop(state) => Graph::state(state, false, each),
                    Element::Latch(state) => Graph::state(state, true, each),
                    Element::Memory(_) => {}
                },
                Driver::Read(m, p, _) => {
                    let memory = &self.design.memories[m as usize];
                    memory.reads[p as usize].0.iter().for_each(|net| each(*net));
                    (0..memory.writes.len() as u32).for_each(|p| each(self.firsts[m as usize] + p));
                }
            },
            Node::Write(m, p) => {
                each(self.design.memories[m as usize].writes[p as usize].clock.0);
                if p > 0 {
                    each(node - 1);
                }
            }
        }
    }

    /// All nodes, each after those that it depends on.
    fn order(&self) -> Option<Vec<u32>> {
        let count = self.nodes.len();
        let (mut pending, mut starts) = (vec![0u32; count], vec![0u32; count + 1]);
        for node in 0..count as u32 {
            self.dependencies(node, |on| {
                pending[node as usize] += 1;
                starts[on as usize + 1] += 1;
            });
        }
        for k in 0..count {
            starts[k + 1] += starts[k];
        }
        let mut readers = vec![0u32; starts[count] as usize];
        let mut next = starts.clone();
        for node in 0..count as u32 {
            self.dependencies(node, |on| {
                readers[next[on as usize] as usize] = node;
                next[on as usize] += 1;
            });
        }
        let mut order: Vec<u32> = (0..count as u32).filter(|node| pending[*node as usize] == 0).collect();
        let mut done = 0;
        while let Some(&node) = order.get(done) {
            done += 1;
            for reader in &readers[starts[node as usize] as usize..starts[node as usize + 1] as usize] {
                pending[*reader as usize] -= 1;
                if pending[*reader as usize] == 0 {
                    order.push(*reader);
                }
            }
        }
        (order.len() == count).then_some(order)
    }
}

fn gate(op: Op, inputs: &[u32], values: &[bool]) -> bool {
    let mut bits = inputs.iter().map(|net| values[*net as usize]);
    match op {
        Op::And => bits.all(|b| b),
        Op::Nand => !bits.all(|b| b),
        Op::Or => bits.any(|b| b),
        Op::Nor => !bits.any(|b| b),
        Op::Xor => bits.fold(false, |a, b| a ^ b),
        Op::Xnor => !bits.fold(false, |a, b| a ^ b),
        Op::Buf => bits.next().unwrap_or(false),
        Op::Not => !bits.next().unwrap_or(false),
        Op::Table(table) => table >> bits.enumerate().fold(0, |row, (k, bit)| row | usize::from(bit) << k) & 1 == 1,
    }
}

fn number(nets: &[u32], values: &[bool]) -> u128 {
    nets.iter().enumerate().fold(0, |sum, (k, net)| sum | u128::from(values[*net as usize]) << k)
}

struct Run<'a> {
    graph: &'a Graph<'a>,
    order: &'a [u32],
    old: Vec<bool>,
    now: Vec<bool>,
    words: Vec<Vec<u128>>,
}

impl Run<'_> {
    fn edge(&self, clock: (u32, bool)) -> bool {
        let (old, now) = (self.old[clock.0 as usize], self.now[clock.0 as usize]);
        old != now && now == clock.1
    }

    fn state(&self, state: &State, latch: bool) -> bool {
        let active = |level: &Option<(u32, bool)>| level.is_some_and(|(net, high)| self.now[net as usize] == high);
        let open = latch && self.now[state.clock.0 as usize] == state.clock.1;
        if active(&state.clear) {
            false
        } else if active(&state.preset) {
            true
        } else if open {
            self.now[state.feed as usize]
        } else if !latch && self.edge(state.clock) {
            self.old[state.feed as usize]
        } else {
            self.old[state.q as usize]
        }
    }

    fn write(&mut self, memory: &Memory, m: u32, p: u32) {
        let port = &memory.writes[p as usize];
        if self.edge(port.clock) && self.old[port.enable.0 as usize] == port.enable.1 {
            let address = number(&port.address, &self.old) as usize;
            self.words[m as usize][address] = number(&port.feed, &self.old);
        }
    }

    fn pass(&mut self) {
        for node in self.order {
            match self.graph.nodes[*node as usize] {
                Node::Write(m, p) => self.write(&self.graph.design.memories[m as usize], m, p),
                Node::Net(net) => match self.graph.drivers[net as usize] {
                    Driver::None => {}
                    Driver::Elem(k) => {
                        self.now[net as usize] = match &self.graph.design.elements[k as usize] {
                            Element::Gate(op, inputs, _) => gate(*op, inputs, &self.now),
                            Element::Flop(state) => self.state(state, false),
                            Element::Latch(state) => self.state(state, true),
                            Element::Memory(_) => false,
                        }
                    }
                    Driver::Read(m, p, b) => {
                        let address = number(&self.graph.design.memories[m as usize].reads[p as usize].0, &self.now) as usize;
                        self.now[net as usize] = self.words[m as usize][address] >> b & 1 == 1;
                    }
                },
            }
        }
        self.old.copy_from_slice(&self.now);
    }
}

/// Puts a value in hexadecimal on the bits of a port.
fn put(digits: &[u8], nets: &[u32], values: &mut [bool]) -> Option<()> {
    nets.iter().for_each(|net| values[*net as usize] = false);
    for (k, digit) in digits.iter().rev().enumerate() {
        let digit = char::from(*digit).to_digit(16)?;
        for bit in 0..4 {
            if digit >> bit & 1 == 1 {
                values[*nets.get(4 * k + bit)? as usize] = true;
            }
        }
    }
    Some(())
}

/// Gives the inputs the values of an opening, which has nothing besides, and copies all values.
fn open(tree: &json::Json, ports: &HashMap<&[u8], &Vec<u32>>, values: &mut [bool]) -> Option<Vec<bool>> {
    if let Some(json::Json::Object(members)) = tree.get("inputs") {
        for (name, value) in members {
            let json::Json::Text(digits) = value else { return None };
            put(digits.as_bytes(), ports.get(name.as_bytes())?, values)?;
        }
    }
    let rest = ["ones", "words"].iter().filter_map(|name| tree.get(name)?.list());
    rest.map(<[_]>::len).all(|count| count == 0).then(|| values.to_vec())
}

fn words_of(line: &[u8]) -> Vec<&[u8]> {
    line.split(|b| matches!(b, b' ' | b'\t' | b'\r')).filter(|word| !word.is_empty()).collect()
}

fn line(number: usize, design: &Design, values: &[bool]) -> String {
    let mut text = number.to_string();
    for (name, nets) in &design.outputs {
        text += &format!(" {}=", String::from_utf8_lossy(name));
        for digit in nets.chunks(4).rev() {
            let value = digit.iter().enumerate().fold(0, |sum, (k, net)| sum | u32::from(values[*net as usize]) << k);
            text.push(char::from_digit(value, 16).expect("four bits are a digit"));
        }
    }
    text + "\n"
}

fn main() {
    let words: Vec<String> = std::env::args().skip(1).collect();
    let [command, top, names @ ..] = &words[..] else { refuse("words") };
    let texts: Vec<Vec<u8>> = names.iter().map(|name| std::fs::read(name).expect("a text is held")).collect();
    let ("settle", [design, cells, _, opening, events]) = (command.as_str(), &texts[..]) else { refuse("words") };
    let Some(tokens) = verilog::tokens(design) else { refuse("design") };
    let Some(modules) = verilog::parse(&tokens) else { refuse("design") };
    let Some(cells) = json::read(cells).and_then(|tree| flat::cells(&tree)) else { refuse("cells") };
    let Some(design) = flat::flatten(&tokens, &modules, &cells, top.as_bytes()) else { refuse("design") };
    drop(modules);
    let Some(drivers) = drivers(&design) else { refuse("design") };
    let graph = Graph::new(&design, &drivers);
    let Some(order) = graph.order() else { refuse("rank") };
    let mut values = vec![false; design.names.len()];
    values[1] = true;
    let words = design.memories.iter().map(|memory| vec![0; 1 << memory.address_bits]).collect();
    let mut run = Run { graph: &graph, order: &order, old: values.clone(), now: values, words };
    let ports: HashMap<&[u8], &Vec<u32>> = design.inputs.iter().map(|(name, nets)| (*name, nets)).collect();
    let Some(opened) = json::read(opening).and_then(|tree| open(&tree, &ports, &mut run.now)) else { refuse("opening") };
    run.old[..].copy_from_slice(&opened);
    run.pass();
    let mut trace = String::new();
    let lines = events.split(|b| *b == b'\n').filter(|line| !line.starts_with(b"#") && !words_of(line).is_empty());
    for (k, event) in lines.enumerate() {
        for word in &words_of(event)[1..] {
            let equals = word.iter().rposition(|b| *b == b'=').unwrap_or_else(|| refuse("events"));
            let put = ports.get(&word[..equals]).and_then(|nets| put(&word[equals + 1..], nets, &mut run.now));
            put.unwrap_or_else(|| refuse("events"));
        }
        run.pass();
        trace += &line(k + 1, &design, &run.now);
    }
    std::io::stdout().write_all(trace.as_bytes()).expect("the trace is written");
}
