//! Cells, and flattening, for the plain program on whole designs.

use crate::json::Json;
use crate::verilog::{Expr, Inst, Item, Links, Module, Op, Range, Tokens};
use std::collections::HashMap;

pub struct Pin {
    name: String,
    width: u32,
    needed: bool,
}

type Level = Option<(usize, bool)>;

enum Feed {
    Pin(usize),
    Table(Vec<usize>, u64),
}

struct CellWrite {
    clock: (usize, bool),
    enable: Level,
    address: Option<usize>,
    feed: usize,
}

/// A kind of cell, over the places of its pins.
enum Shape {
    Comb(Vec<usize>, Vec<(usize, u64)>),
    State { flop: bool, clock: (usize, bool), feed: Feed, clear: Level, preset: Level, q: usize, qn: Option<usize> },
    GateClock { clock: usize, enable: usize, test: Option<usize>, output: usize },
    Memory { address_bits: u32, writes: Vec<CellWrite>, reads: Vec<(Option<usize>, usize)> },
}

pub struct Cell {
    pins: Vec<Pin>,
    shape: Shape,
}

fn text(tree: &Json) -> Option<&str> {
    match tree {
        Json::Text(text) => Some(text),
        _ => None,
    }
}

/// Pins as they are named, one after the other.
struct Pins(Vec<Pin>);

impl Pins {
    fn add(&mut self, tree: &Json, width: u32) -> Option<usize> {
        let name = text(tree)?;
        if let Some(place) = self.0.iter().position(|pin| pin.name == name) {
            return Some(place);
        }
        self.0.push(Pin { name: name.to_string(), width, needed: true });
        Some(self.0.len() - 1)
    }

    fn bit(&mut self, tree: &Json, name: &str) -> Option<usize> {
        self.add(tree.get(name)?, 1)
    }

    fn optional(&mut self, tree: &Json, name: &str, width: u32) -> Option<Option<usize>> {
        match tree.get(name) {
            None => Some(None),
            Some(pin) => Some(Some(self.add(pin, width)?)),
        }
    }

    fn level(&mut self, tree: &Json, name: &str) -> Option<Level> {
        let Some(level) = tree.get(name) else {
            return Some(None);
        };
        Some(Some((self.bit(level, "pin")?, level.get("active")?.word()? == 1)))
    }

    fn edge(&mut self, tree: &Json) -> Option<(usize, bool)> {
        let clock = tree.get("clock")?;
        Some((self.bit(clock, "pin")?, text(clock.get("edge")?)? == "rise"))
    }

    fn feed(&mut self, tree: &Json) -> Option<Feed> {
        let data = tree.get("data")?;
        if text(data).is_some() {
            return Some(Feed::Pin(self.add(data, 1)?));
        }
        let pins = data.get("pins")?.list()?.iter().map(|pin| self.add(pin, 1)).collect::<Option<_>>()?;
        Some(Feed::Table(pins, table(data.get("table")?)?))
    }

    fn bits(&mut self, tree: &Json, name: &str) -> Option<Vec<usize>> {
        tree.get(name)?.list()?.iter().map(|pin| self.add(pin, 1)).collect()
    }
}

fn table(tree: &Json) -> Option<u64> {
    Some(text(tree)?.bytes().enumerate().fold(0, |table, (k, digit)| table | u64::from(digit == b'1') << k))
}

fn cell(tree: &Json) -> Option<(Vec<u8>, Cell)> {
    let mut pins = Pins(Vec::new());
    let shape = match text(tree.get("kind")?)? {
        "comb" => {
            let out = |pins: &mut Pins, out: &Json| Some((pins.bit(out, "pin")?, table(out.get("table")?)?));
            let outputs = tree.get("outputs")?.list()?.iter().map(|o| out(&mut pins, o)).collect::<Option<_>>()?;
            Shape::Comb(pins.bits(tree, "inputs")?, outputs)
        }
        kind @ ("flop" | "latch") => {
            let q = pins.bit(tree, "q")?;
            let qn = pins.optional(tree, "qn", 1)?;
            if let Some(place) = qn {
                pins.0[place].needed = false;
            }
            let clock = if kind == "flop" { pins.edge(tree)? } else { pins.level(tree, "gate")?? };
            let feed = pins.feed(tree)?;
            let (clear, preset) = (pins.level(tree, "clear")?, pins.level(tree, "preset")?);
            Shape::State { flop: kind == "flop", clock, feed, clear, preset, q, qn }
        }
        "gate_clock" => {
            let output = pins.bit(tree, "output")?;
            let (clock, enable) = (pins.bit(tree, "clock")?, pins.bit(tree, "enable")?);
            Shape::GateClock { clock, enable, test: pins.optional(tree, "test", 1)?, output }
        }
        "memory" => {
            let (address_bits, width) = (tree.get("address_bits")?.word()?, tree.get("width")?.word()?);
            let mut write = |port: &Json| {
                let (clock, enable) = (pins.edge(port)?, pins.level(port, "enable")?);
                let address = pins.optional(port, "address", address_bits)?;
                Some(CellWrite { clock, enable, address, feed: pins.add(port.get("data")?, width)? })
            };
            let writes = tree.get("writes")?.list()?.iter().map(&mut write).collect::<Option<_>>()?;
            let mut read = |port: &Json| Some((pins.optional(port, "address", address_bits)?, pins.add(port.get("data")?, width)?));
            let reads = tree.get("reads")?.list()?.iter().map(&mut read).collect::<Option<_>>()?;
            Shape::Memory { address_bits, writes, reads }
        }
        _ => return None,
    };
    Some((text(tree.get("name")?)?.as_bytes().to_vec(), Cell { pins: pins.0, shape }))
}

/// The table of cells of a JSON tree.
pub fn cells(tree: &Json) -> Option<HashMap<Vec<u8>, Cell>> {
    tree.get("cells")?.list()?.iter().map(cell).collect()
}

type NetLevel = Option<(u32, bool)>;

pub struct State {
    pub clock: (u32, bool),
    pub feed: u32,
    pub clear: NetLevel,
    pub preset: NetLevel,
    pub q: u32,
}

pub enum Element {
    Gate(Op, Vec<u32>, u32),
    Flop(State),
    Latch(State),
    Memory(usize),
}

pub struct Write {
    pub clock: (u32, bool),
    pub enable: (u32, bool),
    pub address: Vec<u32>,
    pub feed: Vec<u32>,
}

pub struct Memory {
    pub address_bits: u32,
    pub writes: Vec<Write>,
    pub reads: Vec<(Vec<u32>, Vec<u32>)>,
}

struct Net<'t> {
    name: &'t [u8],
    first: u32,
    range: Range,
    input: Option<bool>,
}

/// The nets of a module, before it is entered.
struct Nets<'t> {
    rows: Vec<Net<'t>>,
    places: HashMap<&'t [u8], u32>,
    width: u32,
}

fn width(range: Range) -> u32 {
    range.map_or(1, |(left, right)| left.abs_diff(right) + 1)
}

impl<'t> Nets<'t> {
    fn declare(&mut self, name: &'t [u8], range: Range, input: Option<bool>) {
        let place = *self.places.entry(name).or_insert(self.rows.len() as u32) as usize;
        if place == self.rows.len() {
            self.rows.push(Net { name, first: 0, range: None, input: None });
        }
        let row = &mut self.rows[place];
        row.range = row.range.or(range);
        row.input = row.input.or(input);
    }

    fn mention(&mut self, tokens: &Tokens<'t>, expr: &Expr) {
        match expr {
            Expr::Whole(name) => self.declare(tokens.bytes(*name), None, None),
            Expr::Join(parts) | Expr::Repeat(_, parts) => parts.iter().for_each(|part| self.mention(tokens, part)),
            _ => {}
        }
    }

    fn mention_links(&mut self, tokens: &Tokens<'t>, links: &Links) {
        match links {
            Links::Empty => {}
            Links::Ordered(places) => places.iter().flatten().for_each(|expr| self.mention(tokens, expr)),
            Links::Named(named) => named.iter().filter_map(|link| link.1.as_ref()).for_each(|expr| self.mention(tokens, expr)),
        }
    }

    /// Ports, then declared nets, then implicit ones.
    fn of(tokens: &Tokens<'t>, module: &Module) -> Nets<'t> {
        let mut nets = Nets { rows: Vec::new(), places: HashMap::new(), width: 0 };
        for (name, given) in &module.ports {
            nets.declare(tokens.bytes(*name), given.and_then(|g| g.1), given.map(|g| g.0));
        }
        for item in &module.items {
            match item {
                Item::Ports(input, range, names) => names.iter().for_each(|name| nets.declare(tokens.bytes(*name), *range, Some(*input))),
                Item::Nets(range, list) => list.iter().for_each(|net| nets.declare(tokens.bytes(net.0), *range, None)),
                Item::Supply(_, range, names) => names.iter().for_each(|name| nets.declare(tokens.bytes(*name), *range, None)),
                _ => {}
            }
        }
        for item in &module.items {
            match item {
                Item::Assign(pairs) => pairs.iter().filter(|p| matches!(p.0, Expr::Whole(_))).for_each(|p| nets.mention(tokens, &p.0)),
                Item::Gates(_, prims) => prims.iter().flat_map(|prim| &prim.terminals).for_each(|expr| nets.mention(tokens, expr)),
                Item::Instances(_, insts) => insts.iter().for_each(|inst| nets.mention_links(tokens, &inst.links)),
                _ => {}
            }
        }
        for row in &mut nets.rows {
            row.first = nets.width;
            nets.width += width(row.range);
        }
        nets
    }
}

/// A design, flattened.
pub struct Design<'t> {
    /// The scope, the name and the index of each net.
    pub names: Vec<(u32, &'t [u8], Option<u32>)>,
    pub scopes: Vec<(u32, &'t [u8])>,
    pub elements: Vec<Element>,
    pub paths: Vec<u32>,
    pub memories: Vec<Memory>,
    pub inputs: Vec<(&'t [u8], Vec<u32>)>,
    pub outputs: Vec<(&'t [u8], Vec<u32>)>,
}

struct Flattener<'a, 't> {
    tokens: &'a Tokens<'t>,
    modules: &'a [Module],
    named: HashMap<&'t [u8], usize>,
    nets: Vec<Nets<'t>>,
    cells: &'t HashMap<Vec<u8>, Cell>,
    design: Design<'t>,
}

/// Where an expression is read.
#[derive(Clone, Copy)]
struct Here {
    module: usize,
    scope: u32,
    base: u32,
    depth: u32,
}

impl<'a, 't> Flattener<'a, 't> {
    fn push(&mut self, scope: u32, element: Element) {
        self.design.elements.push(element);
        self.design.paths.push(scope);
    }

    fn buffers(&mut self, scope: u32, from: &[u32], to: &[u32]) -> Option<()> {
        (from.len() == to.len()).then_some(())?;
        for (source, target) in from.iter().zip(to) {
            self.push(scope, Element::Gate(Op::Buf, vec![*source], *target));
        }
        Some(())
    }

    /// Puts the bits of an expression behind others, from bit 0 on.
    fn bits(&self, here: Here, expr: &Expr, bits: &mut Vec<u32>) -> Option<()> {
        let nets = &self.nets[here.module];
        let net = |name: &u32| Some(&nets.rows[*nets.places.get(self.tokens.bytes(*name))? as usize]);
        let index = |net: &Net, index: u32| {
            let (left, right) = net.range?;
            (left.min(right)..=left.max(right)).contains(&index).then_some(here.base + net.first + index.abs_diff(right))
        };
        match expr {
            Expr::Whole(name) => {
                let net = net(name)?;
                let low = here.base + net.first;
                bits.extend(low..low + width(net.range));
            }
            Expr::Bit(name, at) => bits.push(index(net(name)?, *at)?),
            Expr::Part(name, left, right) => {
                let net = net(name)?;
                bits.extend(index(net, *right)?..=index(net, *left)?);
            }
            Expr::Constant(token) => {
                let (size, value) = self.tokens.constant(*token);
                bits.extend((0..size).map(|k| (value >> k & 1) as u32));
            }
            Expr::Join(parts) => parts.iter().rev().try_for_each(|part| self.bits(here, part, bits))?,
            Expr::Repeat(times, parts) => {
                for _ in 0..*times {
                    parts.iter().rev().try_for_each(|part| self.bits(here, part, bits))?;
                }
            }
        }
        Some(())
    }

    fn read(&self, here: Here, expr: &Expr) -> Option<Vec<u32>> {
        let mut bits = Vec::new();
        self.bits(here, expr, &mut bits)?;
        Some(bits)
    }

    fn name(&self, here: Here, name: u32) -> Option<Vec<u32>> {
        self.read(here, &Expr::Whole(name))
    }

    /// What is connected to each of some ports or pins.
    fn ties(&self, here: Here, links: &Links, count: usize, place: impl Fn(&[u8]) -> Option<usize>) -> Option<Vec<Option<Vec<u32>>>> {
        let read = |expr: &Option<Expr>| match expr {
            None => Some(None),
            Some(expr) => Some(Some(self.read(here, expr)?)),
        };
        match links {
            Links::Empty => Some(vec![None; count]),
            Links::Ordered(places) => (places.len() == count).then(|| places.iter().map(read).collect())?,
            Links::Named(named) => {
                let mut ties = vec![None; count];
                for (port, expr) in named {
                    ties[place(self.tokens.bytes(*port))?] = read(expr)?;
                }
                Some(ties)
            }
        }
    }

    fn enter(&mut self, parent: u32, name: &'t [u8], module: usize, depth: u32) -> Here {
        let here = Here { module, scope: self.design.scopes.len() as u32, base: self.design.names.len() as u32, depth };
        self.design.scopes.push((parent, name));
        for net in &self.nets[module].rows {
            match net.range {
                None => self.design.names.push((here.scope, net.name, None)),
                Some((left, right)) if left < right => self.design.names.extend((left..=right).rev().map(|k| (here.scope, net.name, Some(k)))),
                Some((left, right)) => self.design.names.extend((right..=left).map(|k| (here.scope, net.name, Some(k)))),
            }
        }
        here
    }

    fn module_instance(&mut self, here: Here, inst: &Inst, module: usize) -> Option<()> {
        (here.depth < 64).then_some(())?;
        let ports = &self.modules[module].ports;
        let place = |name: &[u8]| ports.iter().position(|port| self.tokens.bytes(port.0) == name);
        let ties = self.ties(here, &inst.links, ports.len(), place)?;
        let child = self.enter(here.scope, self.tokens.bytes(inst.name), module, here.depth + 1);
        for input in [true, false] {
            for (port, tie) in ports.iter().zip(&ties) {
                let nets = &self.nets[module];
                let row = &nets.rows[nets.places[self.tokens.bytes(port.0)] as usize];
                if let (Some(tie), true) = (tie, row.input? == input) {
                    let own: Vec<u32> = (child.base + row.first..child.base + row.first + width(row.range)).collect();
                    if input {
                        self.buffers(child.scope, tie, &own)?;
                    } else {
                        self.buffers(child.scope, &own, tie)?;
                    }
                }
            }
            if input {
                self.items(child)?;
            }
        }
        Some(())
    }

    fn cell_instance(&mut self, here: Here, inst: &Inst, cell: &'t Cell) -> Option<()> {
        let pins = &cell.pins;
        let place = |name: &[u8]| pins.iter().position(|pin| pin.name.as_bytes() == name);
        let ties = self.ties(here, &inst.links, pins.len(), place)?;
        let scope = self.design.scopes.len() as u32;
        self.design.scopes.push((here.scope, self.tokens.bytes(inst.name)));
        let mut nets = Vec::with_capacity(pins.len());
        let joined: Vec<bool> = ties.iter().map(Option::is_some).collect();
        for (pin, tie) in pins.iter().zip(ties) {
            nets.push(match tie {
                Some(tie) => (tie.len() as u32 == pin.width).then_some(tie)?,
                None if pin.needed => (0..pin.width).map(|k| self.fresh(scope, pin.name.as_bytes(), (pin.width > 1).then_some(k))).collect(),
                None => Vec::new(),
            });
        }
        self.shape(scope, &cell.shape, &nets, &joined);
        Some(())
    }

    fn fresh(&mut self, scope: u32, name: &'t [u8], index: Option<u32>) -> u32 {
        self.design.names.push((scope, name, index));
        self.design.names.len() as u32 - 1
    }

    fn shape(&mut self, scope: u32, shape: &Shape, nets: &[Vec<u32>], joined: &[bool]) {
        let bit = |pin: usize| nets[pin][0];
        let level = |level: &Level| level.map(|(pin, high)| (bit(pin), high));
        match shape {
            Shape::Comb(inputs, outputs) => {
                for (pin, table) in outputs {
                    self.push(scope, Element::Gate(Op::Table(*table), inputs.iter().map(|pin| bit(*pin)).collect(), bit(*pin)));
                }
            }
            Shape::State { flop, clock, feed, clear, preset, q, qn } => {
                let feed = match feed {
                    Feed::Pin(pin) => bit(*pin),
                    Feed::Table(pins, table) => {
                        let inner = self.fresh(scope, b"$", None);
                        self.push(scope, Element::Gate(Op::Table(*table), pins.iter().map(|pin| bit(*pin)).collect(), inner));
                        inner
                    }
                };
                let state = State { clock: (bit(clock.0), clock.1), feed, clear: level(clear), preset: level(preset), q: bit(*q) };
                self.push(scope, if *flop { Element::Flop(state) } else { Element::Latch(state) });
                if let Some(qn) = qn.filter(|qn| joined[*qn]) {
                    self.push(scope, Element::Gate(Op::Not, vec![bit(*q)], bit(qn)));
                }
            }
            Shape::GateClock { clock, enable, test, output } => {
                let mut feed = bit(*enable);
                if let Some(test) = test {
                    let either = self.fresh(scope, b"$", None);
                    self.push(scope, Element::Gate(Op::Or, vec![feed, bit(*test)], either));
                    feed = either;
                }
                let q = self.fresh(scope, b"$", None);
                self.push(scope, Element::Latch(State { clock: (bit(*clock), false), feed, clear: None, preset: None, q }));
                self.push(scope, Element::Gate(Op::And, vec![q, bit(*clock)], bit(*output)));
            }
            Shape::Memory { address_bits, writes, reads } => {
                let address = |pin: &Option<usize>| pin.map_or(Vec::new(), |pin| nets[pin].clone());
                let write = |port: &CellWrite| Write {
                    clock: (bit(port.clock.0), port.clock.1),
                    enable: level(&port.enable).unwrap_or((1, true)),
                    address: address(&port.address),
                    feed: nets[port.feed].clone(),
                };
                let reads = reads.iter().map(|port| (address(&port.0), nets[port.1].clone())).collect();
                let memory = Memory { address_bits: *address_bits, writes: writes.iter().map(write).collect(), reads };
                self.design.memories.push(memory);
                self.push(scope, Element::Memory(self.design.memories.len() - 1));
            }
        }
    }

    fn prim(&mut self, here: Here, op: Op, name: Option<u32>, nets: Vec<u32>) {
        let mut scope = here.scope;
        if let Some(name) = name {
            scope = self.design.scopes.len() as u32;
            self.design.scopes.push((here.scope, self.tokens.bytes(name)));
        }
        if matches!(op, Op::Buf | Op::Not) {
            let (input, outputs) = nets.split_last().expect("a primitive has terminals");
            outputs.iter().for_each(|output| self.push(scope, Element::Gate(op, vec![*input], *output)));
        } else {
            self.push(scope, Element::Gate(op, nets[1..].to_vec(), nets[0]));
        }
    }

    fn items(&mut self, here: Here) -> Option<()> {
        for item in &self.modules[here.module].items {
            match item {
                Item::Ports(..) => {}
                Item::Nets(_, list) => {
                    for (name, value) in list {
                        if let Some(value) = value {
                            self.buffers(here.scope, &self.read(here, value)?, &self.name(here, *name)?)?;
                        }
                    }
                }
                Item::Supply(one, _, names) => {
                    for name in names {
                        let to = self.name(here, *name)?;
                        self.buffers(here.scope, &vec![u32::from(*one); to.len()], &to)?;
                    }
                }
                Item::Assign(pairs) => {
                    for (left, right) in pairs {
                        self.buffers(here.scope, &self.read(here, right)?, &self.read(here, left)?)?;
                    }
                }
                Item::Gates(op, prims) => {
                    for prim in prims {
                        let mut nets = Vec::with_capacity(prim.terminals.len());
                        prim.terminals.iter().try_for_each(|expr| self.bits(here, expr, &mut nets))?;
                        (nets.len() == prim.terminals.len()).then_some(())?;
                        self.prim(here, *op, prim.name, nets);
                    }
                }
                Item::Instances(name, insts) => {
                    let name = self.tokens.bytes(*name);
                    for inst in insts {
                        match self.named.get(name) {
                            Some(module) => self.module_instance(here, inst, *module)?,
                            None => self.cell_instance(here, inst, self.cells.get(name)?)?,
                        }
                    }
                }
            }
        }
        Some(())
    }
}

pub fn flatten<'t>(tokens: &Tokens<'t>, modules: &[Module], cells: &'t HashMap<Vec<u8>, Cell>, top: &[u8]) -> Option<Design<'t>> {
    let named: HashMap<&[u8], usize> = modules.iter().enumerate().map(|(k, module)| (tokens.bytes(module.name), k)).collect();
    let place = *named.get(top)?;
    let constants: [(u32, &[u8], Option<u32>); 2] = [(0, b"1'b0", None), (0, b"1'b1", None)];
    let (names, scopes) = (constants.to_vec(), Vec::new());
    let design = Design { names, scopes, elements: Vec::new(), paths: Vec::new(), memories: Vec::new(), inputs: Vec::new(), outputs: Vec::new() };
    let nets = modules.iter().map(|module| Nets::of(tokens, module)).collect();
    let mut flattener = Flattener { tokens, modules, named, nets, cells, design };
    let here = flattener.enter(0, tokens.bytes(modules[place].name), place, 1);
    flattener.items(here)?;
    for (port, _) in &modules[place].ports {
        let nets = &flattener.nets[place];
        let row = &nets.rows[nets.places[tokens.bytes(*port)] as usize];
        let own = (here.base + row.first..here.base + row.first + width(row.range)).collect();
        let ports = if row.input? { &mut flattener.design.inputs } else { &mut flattener.design.outputs };
        ports.push((tokens.bytes(*port), own));
    }
    Some(flattener.design)
}
