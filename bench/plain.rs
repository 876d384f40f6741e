//! The same work as `emu check`, `emu settle` and `emu replay` on designs of `buf` and `not`, as plain
//! Rust without proofs.
//!
//! It stands here to be compared with: what the proved program costs in time and memory. It reads the
//! texts of a command, makes tokens and a tree, and flattens; `check` and `replay` read netlist, schedule
//! and map and judge the rules for this form; `settle` and `replay` read groups, opening and events and
//! print a trace; `replay` takes no groups. Compile it with `rustc -O`.

mod json;

use json::Json;
use std::collections::{HashMap, HashSet};
use std::io::Write;
use std::process::exit;

#[derive(Clone, Copy, PartialEq)]
enum Kind {
    Name,
    Keyword(u32),
    Number(u32),
    Mark(u8),
}

#[derive(Clone, Copy)]
struct Token {
    kind: Kind,
    start: u32,
    end: u32,
}

const KEYWORDS: [&[u8]; 14] = [
    b"module", b"endmodule", b"input", b"output", b"wire", b"assign", b"and", b"nand", b"or", b"nor",
    b"xor", b"xnor", b"buf", b"not",
];
const MODULE: u32 = 0;
const ENDMODULE: u32 = 1;
const INPUT: u32 = 2;
const OUTPUT: u32 = 3;
const WIRE: u32 = 4;
const BUF: u32 = 12;
const NOT: u32 = 13;

fn refuse(what: &str) -> ! {
    println!("refused {what} NotYet");
    exit(2)
}

fn is_name_byte(byte: u8) -> bool {
    byte.is_ascii_alphanumeric() || byte == b'_' || byte == b'$'
}

/// The place after white space and comments.
fn skip(text: &[u8], mut at: usize) -> Option<usize> {
    loop {
        match text.get(at) {
            Some(b' ' | b'\t' | b'\n' | b'\r' | 12) => at += 1,
            Some(b'/') if text.get(at + 1) == Some(&b'/') => {
                at = text[at..].iter().position(|b| *b == b'\n').map_or(text.len(), |k| at + k);
            }
            Some(b'/') if text.get(at + 1) == Some(&b'*') => {
                at = text[at + 2..].windows(2).position(|w| w == b"*/").map(|k| at + k + 4)?;
            }
            _ => return Some(at),
        }
    }
}

fn number(text: &[u8], at: usize) -> Option<(u32, usize)> {
    let end = text[at..].iter().position(|b| !b.is_ascii_digit()).map_or(text.len(), |k| at + k);
    let value = std::str::from_utf8(&text[at..end]).ok()?.parse().ok()?;
    Some((value, end))
}

fn tokens(text: &[u8]) -> Option<Vec<Token>> {
    let words: HashMap<&[u8], u32> = KEYWORDS.iter().zip(0..).map(|(w, k)| (*w, k)).collect();
    let mut tokens = Vec::new();
    let mut at = 0;
    loop {
        at = skip(text, at)?;
        let Some(&byte) = text.get(at) else {
            return Some(tokens);
        };
        let (kind, end) = if byte.is_ascii_alphabetic() || byte == b'_' {
            let end = text[at..].iter().position(|b| !is_name_byte(*b)).map_or(text.len(), |k| at + k);
            (words.get(&text[at..end]).map_or(Kind::Name, |k| Kind::Keyword(*k)), end)
        } else if byte.is_ascii_digit() {
            let (value, end) = number(text, at)?;
            (Kind::Number(value), end)
        } else if b"()[]{},;:=.".contains(&byte) {
            (Kind::Mark(byte), at + 1)
        } else {
            return None;
        };
        tokens.push(Token { kind, start: at as u32, end: end as u32 });
        at = end;
    }
}

/// A cursor over tokens.
struct Cursor<'t> {
    text: &'t [u8],
    tokens: &'t [Token],
    at: usize,
}

impl<'t> Cursor<'t> {
    fn peek(&self) -> Option<Kind> {
        self.tokens.get(self.at).map(|t| t.kind)
    }

    fn take(&mut self, kind: Kind) -> Option<()> {
        if self.peek()? == kind {
            self.at += 1;
            Some(())
        } else {
            None
        }
    }

    fn name(&mut self) -> Option<u32> {
        self.take(Kind::Name)?;
        Some(self.at as u32 - 1)
    }

    fn bytes(&self, token: u32) -> &'t [u8] {
        let token = self.tokens[token as usize];
        &self.text[token.start as usize..token.end as usize]
    }
}

enum Item {
    Ports(bool, Vec<u32>),
    Wires(Vec<u32>),
    Gates(bool, Vec<Prim>),
}

struct Prim {
    name: Option<u32>,
    terminals: Vec<u32>,
}

struct Module {
    name: u32,
    ports: Vec<u32>,
    items: Vec<Item>,
}

fn names(cursor: &mut Cursor, end: u8) -> Option<Vec<u32>> {
    let mut names = vec![cursor.name()?];
    while cursor.take(Kind::Mark(b',')).is_some() {
        names.push(cursor.name()?);
    }
    cursor.take(Kind::Mark(end))?;
    Some(names)
}

fn prims(cursor: &mut Cursor) -> Option<Vec<Prim>> {
    let mut prims = Vec::new();
    loop {
        let name = cursor.name();
        cursor.take(Kind::Mark(b'('))?;
        prims.push(Prim { name, terminals: names(cursor, b')')? });
        if cursor.take(Kind::Mark(b',')).is_none() {
            cursor.take(Kind::Mark(b';'))?;
            return Some(prims);
        }
    }
}

fn module(cursor: &mut Cursor) -> Option<Module> {
    cursor.take(Kind::Keyword(MODULE))?;
    let name = cursor.name()?;
    let mut ports = Vec::new();
    if cursor.take(Kind::Mark(b'(')).is_some() && cursor.take(Kind::Mark(b')')).is_none() {
        ports = names(cursor, b')')?;
    }
    cursor.take(Kind::Mark(b';'))?;
    let mut items = Vec::new();
    loop {
        let Kind::Keyword(word) = cursor.peek()? else {
            return None;
        };
        cursor.at += 1;
        match word {
            INPUT | OUTPUT => items.push(Item::Ports(word == INPUT, names(cursor, b';')?)),
            WIRE => items.push(Item::Wires(names(cursor, b';')?)),
            BUF | NOT => items.push(Item::Gates(word == NOT, prims(cursor)?)),
            ENDMODULE => return Some(Module { name, ports, items }),
            _ => return None,
        }
    }
}

#[derive(Clone, Copy, PartialEq)]
enum Driver {
    Constant,
    Input,
    Gate(u32),
}

#[derive(Clone, Copy)]
struct Gate {
    inverts: bool,
    input: u32,
    output: u32,
}

struct Design<'t> {
    drivers: Vec<Driver>,
    gates: Vec<Gate>,
    inputs: Vec<u32>,
    outputs: Vec<u32>,
    /// The names of the ports; the first has net 2, and so on.
    ports: Vec<&'t [u8]>,
}

impl<'t> Design<'t> {
    fn name(&self, port: u32) -> &'t [u8] {
        self.ports[port as usize - 2]
    }
}

/// An order of gates in which each stands after those that it reads, given who drives a net.
fn order(gates: &[Gate], driver: impl Fn(u32) -> Option<u32>) -> Option<Vec<u32>> {
    let mut readers: Vec<Vec<u32>> = vec![Vec::new(); gates.len()];
    let mut ready = Vec::new();
    for (k, gate) in gates.iter().enumerate() {
        match driver(gate.input) {
            Some(from) => readers[from as usize].push(k as u32),
            None => ready.push(k as u32),
        }
    }
    let mut order = Vec::with_capacity(gates.len());
    while let Some(k) = ready.pop() {
        order.push(k);
        ready.extend(&readers[k as usize]);
    }
    (order.len() == gates.len()).then_some(order)
}

/// Gives each gate's output its value, the values of what no gate drives being there.
fn pass(gates: &[Gate], order: &[u32], values: &mut [bool]) {
    for k in order {
        let gate = gates[*k as usize];
        values[gate.output as usize] = values[gate.input as usize] ^ gate.inverts;
    }
}

fn flatten<'t>(cursor: &Cursor<'t>, module: &Module, top: &[u8]) -> Option<Design<'t>> {
    if cursor.bytes(module.name) != top {
        return None;
    }
    let mut nets: HashMap<&[u8], u32> = HashMap::new();
    for port in &module.ports {
        if nets.insert(cursor.bytes(*port), nets.len() as u32 + 2).is_some() {
            return None;
        }
    }
    let ports = nets.len();
    let mut given: Vec<Option<bool>> = vec![None; ports];
    let mut wired = vec![false; ports];
    for item in &module.items {
        match item {
            Item::Ports(input, names) => {
                for name in names {
                    let port = *nets.get(cursor.bytes(*name))? as usize - 2;
                    if port >= ports || given[port].replace(*input).is_some() {
                        return None;
                    }
                }
            }
            Item::Wires(names) => {
                for name in names {
                    let next = nets.len() as u32 + 2;
                    let net = *nets.entry(cursor.bytes(*name)).or_insert(next);
                    let known = net as usize - 2 < ports;
                    if net != next && (!known || std::mem::replace(&mut wired[net as usize - 2], true)) {
                        return None;
                    }
                }
            }
            Item::Gates(..) => {}
        }
    }
    let mut gates = Vec::new();
    let mut own: HashMap<&[u8], ()> = HashMap::new();
    for item in &module.items {
        let Item::Gates(inverts, prims) = item else {
            continue;
        };
        for prim in prims {
            let [output, input] = prim.terminals[..] else {
                return None;
            };
            let mut net = |token| {
                let next = nets.len() as u32 + 2;
                *nets.entry(cursor.bytes(token)).or_insert(next)
            };
            let output = net(output);
            gates.push(Gate { inverts: *inverts, output, input: net(input) });
            if let Some(name) = prim.name {
                if own.insert(cursor.bytes(name), ()).is_some() {
                    return None;
                }
            }
        }
    }
    if own.keys().any(|name| nets.contains_key(name)) {
        return None;
    }
    let mut drivers = vec![Driver::Constant; nets.len() + 2];
    let (mut inputs, mut outputs) = (Vec::new(), Vec::new());
    for (port, given) in given.iter().enumerate() {
        let net = port as u32 + 2;
        if (*given)? {
            drivers[net as usize] = Driver::Input;
            inputs.push(net);
        } else {
            outputs.push(net);
        }
    }
    for (k, gate) in gates.iter().enumerate() {
        if drivers[gate.output as usize] != Driver::Constant {
            return None;
        }
        drivers[gate.output as usize] = Driver::Gate(k as u32);
    }
    let undriven = |net: &u32| drivers[*net as usize] == Driver::Constant;
    if gates.iter().any(|g| undriven(&g.input)) || outputs.iter().any(undriven) || gates.len() > 200_000 || drivers.len() > 400_000 {
        return None;
    }
    let ports = module.ports.iter().map(|name| cursor.bytes(*name)).collect();
    Some(Design { drivers, gates, inputs, outputs, ports })
}

struct Chip {
    nets: u32,
    gates: Vec<Gate>,
    registers: Vec<u32>,
}

/// The number of a name such as n12.
fn numbered(bytes: &[u8], letter: u8) -> Option<u32> {
    let (first, digits) = bytes.split_first()?;
    if *first != letter || digits.len() > 1 && digits[0] == b'0' {
        return None;
    }
    number(digits, 0).filter(|n| n.1 == digits.len()).map(|n| n.0)
}

fn chip(cursor: &mut Cursor) -> Option<Chip> {
    cursor.take(Kind::Keyword(MODULE))?;
    let name = cursor.name()?;
    (cursor.bytes(name) == b"chip0").then_some(())?;
    cursor.take(Kind::Mark(b';'))?;
    let mut chip = Chip { nets: 0, gates: Vec::new(), registers: Vec::new() };
    let own = |cursor: &mut Cursor, letter, due: usize| {
        let name = cursor.name()?;
        (numbered(cursor.bytes(name), letter)? as usize == due).then_some(())
    };
    while cursor.take(Kind::Keyword(WIRE)).is_some() {
        own(cursor, b'n', chip.nets as usize)?;
        cursor.take(Kind::Mark(b';'))?;
        chip.nets += 1;
    }
    let net = |cursor: &mut Cursor, nets| {
        let name = cursor.name()?;
        numbered(cursor.bytes(name), b'n').filter(|n| *n < nets)
    };
    while let Some(Kind::Keyword(word @ (BUF | NOT))) = cursor.peek() {
        cursor.at += 1;
        own(cursor, b'g', chip.gates.len())?;
        cursor.take(Kind::Mark(b'('))?;
        let output = net(cursor, chip.nets)?;
        cursor.take(Kind::Mark(b','))?;
        let input = net(cursor, chip.nets)?;
        cursor.take(Kind::Mark(b')'))?;
        cursor.take(Kind::Mark(b';'))?;
        chip.gates.push(Gate { inverts: word == NOT, input, output });
    }
    while let Some(word) = cursor.name() {
        (cursor.bytes(word) == b"EHOLD").then_some(())?;
        own(cursor, b'r', chip.registers.len())?;
        cursor.take(Kind::Mark(b'('))?;
        chip.registers.push(net(cursor, chip.nets)?);
        cursor.take(Kind::Mark(b')'))?;
        cursor.take(Kind::Mark(b';'))?;
    }
    cursor.take(Kind::Keyword(ENDMODULE))?;
    let mut count = vec![0u8; chip.nets as usize];
    for net in chip.gates.iter().map(|g| g.output).chain(chip.registers.iter().copied()) {
        count[net as usize] = count[net as usize].saturating_add(1);
    }
    (cursor.peek().is_none() && count.iter().all(|c| *c == 1)).then_some(chip)
}

struct Frame {
    group: String,
    slots: Vec<Vec<[u32; 3]>>,
}

fn action(tree: &Json) -> Option<[u32; 3]> {
    match tree.list()? {
        [Json::Text(word), chip, register, net] if word == "input" => Some([chip.word()?, register.word()?, net.word()?]),
        _ => None,
    }
}

fn schedule(tree: &Json) -> Option<Vec<Frame>> {
    (tree.get("version")?.word()? == 1).then_some(())?;
    let frame = |frame: &Json| {
        let Json::Text(group) = frame.get("group")? else {
            return None;
        };
        let slots = frame.get("slots")?.list()?.iter().map(|slot| slot.list()?.iter().map(action).collect()).collect::<Option<_>>()?;
        Some(Frame { group: group.clone(), slots })
    };
    tree.get("frames")?.list()?.iter().map(frame).collect()
}

struct Map {
    subjects: Vec<u32>,
    kept: Vec<bool>,
    outputs: Vec<u32>,
}

fn map(tree: &Json, chip: &Chip) -> Option<Map> {
    (tree.get("version")?.word()? == 1).then_some(())?;
    let [entry] = tree.get("chips")?.list()? else {
        return None;
    };
    let subject = |tree: &Json| match tree.list()? {
        [Json::Text(word), net] if word == "net" => net.word(),
        _ => None,
    };
    let subjects: Vec<u32> = entry.get("nets")?.list()?.iter().map(subject).collect::<Option<_>>()?;
    let keep = |tree: &Json| match tree {
        Json::Bool(kept) => Some(*kept),
        _ => None,
    };
    let kept: Vec<bool> = entry.get("registers")?.list()?.iter().map(keep).collect::<Option<_>>()?;
    let output = |tree: &Json| match tree.list()? {
        [c, net] if c.word()? == 0 => net.word().filter(|n| *n < chip.nets),
        _ => None,
    };
    let outputs = tree.get("outputs")?.list()?.iter().map(output).collect::<Option<_>>()?;
    let fits = subjects.len() == chip.nets as usize && kept.len() == chip.registers.len() && entry.get("memories")?.list()?.is_empty();
    fits.then_some(Map { subjects, kept, outputs })
}

struct Results {
    room: u64,
    slots: u32,
    chip: Chip,
    frames: Vec<Frame>,
    map: Map,
}

/// An order of the chip's gates, where the rules hold: all twelve, or those that a replay needs.
fn judge(design: &Design, results: &Results, all: bool) -> Option<Vec<u32>> {
    let Results { chip, map, .. } = results;
    let driver = |net: u32| design.drivers.get(net as usize).copied();
    let mut gate_of = vec![None; chip.nets as usize];
    for (k, gate) in chip.gates.iter().enumerate() {
        gate_of[gate.output as usize] = Some(k as u32);
    }
    let order = order(&chip.gates, |net| gate_of[net as usize])?;
    let copied = |gate: &&Gate| matches!(driver(map.subjects[gate.output as usize]), Some(Driver::Gate(_)));
    if chip.gates.iter().filter(copied).count() as u64 > results.room {
        return None;
    }
    let [frame] = &results.frames[..] else {
        return None;
    };
    if frame.group != "*" || frame.slots.is_empty() || frame.slots.len() > results.slots as usize {
        return None;
    }
    let mut used = vec![0; chip.registers.len()];
    for (slot, actions) in frame.slots.iter().enumerate() {
        for [c, register, net] in actions {
            let fits = *c == 0 && (*register as usize) < used.len() && driver(*net) == Some(Driver::Input);
            if !fits || std::mem::replace(&mut used[*register as usize], slot + 1) == slot + 1 || map.subjects[chip.registers[*register as usize] as usize] != *net {
                return None;
            }
        }
    }
    for gate in &chip.gates {
        let Some(Driver::Gate(k)) = driver(map.subjects[gate.output as usize]) else {
            return None;
        };
        let original = design.gates[k as usize];
        if original.inverts != gate.inverts || map.subjects[gate.input as usize] != original.input {
            return None;
        }
    }
    let mut keeps = vec![false; design.drivers.len()];
    for (k, q) in chip.registers.iter().enumerate() {
        let subject = map.subjects[*q as usize];
        driver(subject)?;
        if map.kept[k] {
            keeps[subject as usize] = true;
            if all && used[k] == 0 && driver(subject) != Some(Driver::Constant) {
                return None;
            }
        }
    }
    let subjects = map.outputs.iter().map(|net| map.subjects[*net as usize]);
    if !design.inputs.iter().all(|net| keeps[*net as usize]) || !subjects.eq(design.outputs.iter().copied()) {
        return None;
    }
    (!all || outputs_stand(chip, map, &order)).then_some(order)
}

/// Whether the outputs are right at the opening: no register that is free comes to them.
fn outputs_stand(chip: &Chip, map: &Map, order: &[u32]) -> bool {
    let mut before = vec![false; chip.nets as usize];
    for (k, q) in chip.registers.iter().enumerate() {
        before[*q as usize] = map.kept[k];
    }
    for k in order {
        let gate = chip.gates[*k as usize];
        before[gate.output as usize] = before[gate.input as usize];
    }
    map.outputs.iter().all(|net| before[*net as usize])
}

/// The one bit of a value in hexadecimal.
fn bit(digits: &[u8]) -> Option<bool> {
    let (last, zeros) = digits.split_last()?;
    (zeros.iter().all(|digit| *digit == b'0') && matches!(last, b'0' | b'1')).then_some(*last == b'1')
}

type Inputs<'t> = HashMap<&'t [u8], u32>;

/// The values that an opening gives to inputs.
fn opening(tree: &Json, inputs: &Inputs) -> Option<Vec<(u32, bool)>> {
    let Json::Object(_) = tree else {
        return None;
    };
    if tree.get("ones").is_some() || tree.get("words").is_some() {
        return None;
    }
    let value = |(name, value): &(String, Json)| match value {
        Json::Text(digits) => Some((*inputs.get(name.as_bytes())?, bit(digits.as_bytes())?)),
        _ => None,
    };
    match tree.get("inputs") {
        None => Some(Vec::new()),
        Some(Json::Object(members)) => members.iter().map(value).collect(),
        Some(_) => None,
    }
}

/// The inputs of each group, by its name; `*` has all.
type Groups = HashMap<Vec<u8>, HashSet<u32>>;

/// The groups of a text; none where two have one name, or one has no port, one twice, or one that is not there.
fn groups(tree: &Json, inputs: &Inputs) -> Option<Groups> {
    let (mut groups, mut taken) = (Groups::new(), HashSet::new());
    for group in tree.get("groups")?.list()? {
        let Some(Json::Text(name)) = group.get("name") else {
            return None;
        };
        let mut nets = HashSet::new();
        for port in group.get("ports")?.list()? {
            let Json::Text(port) = port else {
                return None;
            };
            let net = *inputs.get(port.as_bytes())?;
            taken.insert(net).then_some(())?;
            nets.insert(net);
        }
        (!nets.is_empty() && groups.insert(name.as_bytes().to_vec(), nets).is_none()).then_some(())?;
    }
    groups.insert(b"*".to_vec(), inputs.values().copied().collect());
    Some(groups)
}

/// The values that the words of an event give. `set` has for each net the last line that gave it one.
fn event(line: &[u8], number: usize, groups: &Groups, inputs: &Inputs, set: &mut [usize]) -> Option<Vec<(u32, bool)>> {
    let mut words = line.split(|byte| matches!(byte, b' ' | b'\t')).filter(|word| !word.is_empty());
    let group = groups.get(words.next()?)?;
    let mut values = Vec::new();
    for word in words {
        let equals = word.iter().rposition(|byte| *byte == b'=')?;
        let net = *inputs.get(&word[..equals])?;
        group.contains(&net).then_some(())?;
        if std::mem::replace(&mut set[net as usize], number) == number {
            return None;
        }
        values.push((net, bit(&word[equals + 1..])?));
    }
    Some(values)
}

fn events(text: &[u8], design: &Design, groups: &Groups, inputs: &Inputs) -> Option<Vec<Vec<(u32, bool)>>> {
    let mut set = vec![0; design.ports.len() + 2];
    let mut events = Vec::new();
    for (line, number) in text.split(|byte| *byte == b'\n').zip(1..) {
        let end = line.iter().rposition(|byte| *byte != b'\r').map_or(0, |last| last + 1);
        let line = &line[..end];
        if line.first() == Some(&b'#') || line.iter().all(|byte| matches!(byte, b' ' | b'\t')) {
            continue;
        }
        events.push(event(line, number, groups, inputs, &mut set)?);
    }
    Some(events)
}

/// A line for each event: `step` does it, and tells the value of each output.
fn trace(design: &Design, events: &[Vec<(u32, bool)>], mut step: impl FnMut(&[(u32, bool)], &mut Vec<bool>)) -> Vec<u8> {
    let mut text = Vec::new();
    let mut bits = Vec::new();
    for (event, number) in events.iter().zip(1u64..) {
        bits.clear();
        step(event, &mut bits);
        text.extend(number.to_string().as_bytes());
        for (port, bit) in design.outputs.iter().zip(&bits) {
            text.push(b' ');
            text.extend(design.name(*port));
            text.extend(if *bit { b"=1" } else { b"=0" });
        }
        text.push(b'\n');
    }
    text
}

fn put(values: &[(u32, bool)], table: &mut [bool]) {
    for (net, value) in values {
        table[*net as usize] = *value;
    }
}

/// The settled valuation that the values of the inputs give.
fn opened(design: &Design, order: &[u32], given: &[(u32, bool)]) -> Vec<bool> {
    let mut values = vec![false; design.drivers.len()];
    values[1] = true;
    put(given, &mut values);
    pass(&design.gates, order, &mut values);
    values
}

fn settle(design: &Design, order: &[u32], mut values: Vec<bool>, events: &[Vec<(u32, bool)>]) -> Vec<u8> {
    trace(design, events, |event, bits| {
        put(event, &mut values);
        pass(&design.gates, order, &mut values);
        bits.extend(design.outputs.iter().map(|net| values[*net as usize]));
    })
}

/// The trace of the machine that is loaded from a valuation. `order` is one of the chip's gates.
fn replay(design: &Design, results: &Results, order: &[u32], values: Vec<bool>, events: &[Vec<(u32, bool)>]) -> Vec<u8> {
    let Results { chip, map, .. } = results;
    let mut shown = vec![false; chip.nets as usize];
    for (q, kept) in chip.registers.iter().zip(&map.kept) {
        shown[*q as usize] = *kept && values[map.subjects[*q as usize] as usize];
    }
    let mut outside = values;
    trace(design, events, |event, bits| {
        put(event, &mut outside);
        for actions in &results.frames[0].slots {
            for [_, register, net] in actions {
                shown[chip.registers[*register as usize] as usize] = outside[*net as usize];
            }
            pass(&chip.gates, order, &mut shown);
        }
        bits.extend(map.outputs.iter().map(|net| shown[*net as usize]));
    })
}

fn tree(text: &[u8], what: &str) -> Json {
    json::read(text).unwrap_or_else(|| refuse(what))
}

/// The room and the slots of a board of one chip and no wires.
fn board(tree: &Json) -> Option<(u64, u32)> {
    (tree.get("version")?.word()? == 1 && tree.get("wires")?.list()?.is_empty()).then_some(())?;
    let slots = tree.get("slots")?.word().filter(|slots| (1..=65_535).contains(slots))?;
    match tree.get("chips")?.list()? {
        [chip] => match chip.get("room")? {
            Json::Number(room) => Some((*room, slots)),
            _ => None,
        },
        _ => None,
    }
}

fn read_results(board_text: &[u8], netlist: &[u8], schedule_text: &[u8], map_text: &[u8]) -> Results {
    let Some((room, slots)) = board(&tree(board_text, "board")) else { refuse("board") };
    let Some(list) = tokens(netlist) else { refuse("netlist") };
    let Some(chip) = chip(&mut Cursor { text: netlist, tokens: &list, at: 0 }) else { refuse("netlist") };
    let Some(frames) = schedule(&tree(schedule_text, "schedule")) else { refuse("schedule") };
    let Some(map) = map(&tree(map_text, "map"), &chip) else { refuse("map") };
    Results { room, slots, chip, frames, map }
}

/// The opened valuation, and the events.
fn read_run(design: &Design, order: &[u32], groups_text: &[u8], opening_text: &[u8], events_text: &[u8]) -> (Vec<bool>, Vec<Vec<(u32, bool)>>) {
    let inputs = design.inputs.iter().map(|net| (design.name(*net), *net)).collect();
    let Some(groups) = groups(&tree(groups_text, "groups"), &inputs) else { refuse("groups") };
    let Some(given) = opening(&tree(opening_text, "opening"), &inputs) else { refuse("opening") };
    let Some(events) = events(events_text, design, &groups, &inputs) else { refuse("events") };
    (opened(design, order, &given), events)
}

fn reject() -> ! {
    println!("rejected");
    exit(3)
}

fn print(text: &[u8]) {
    std::io::stdout().write_all(text).expect("the trace is written")
}

fn main() {
    let words: Vec<String> = std::env::args().skip(1).collect();
    let words: Vec<&str> = words.iter().map(String::as_str).collect();
    let (top, names) = match &words[..] {
        ["check", top, names @ ..] if names.len() == 7 => (top, names),
        ["settle", top, names @ ..] if names.len() == 5 => (top, names),
        ["replay", top, names @ ..] if names.len() == 9 => (top, names),
        _ => {
            println!("usage");
            exit(1)
        }
    };
    let texts: Vec<Vec<u8>> = names.iter().map(|name| std::fs::read(name).expect("a text is held")).collect();
    let Some(list) = tokens(&texts[0]) else { refuse("design") };
    let mut cursor = Cursor { text: &texts[0], tokens: &list, at: 0 };
    let Some(module) = module(&mut cursor) else { refuse("design") };
    if cursor.bytes(module.name) != top.as_bytes() {
        println!("refused design NoTop");
        exit(2)
    }
    let Some(design) = flatten(&cursor, &module, top.as_bytes()) else { refuse("design") };
    let drives = |net: u32| match design.drivers[net as usize] {
        Driver::Gate(k) => Some(k),
        _ => None,
    };
    let Some(ranked) = order(&design.gates, drives) else { refuse("design") };
    let is_alone = tree(&texts[2], "groups").get("groups").and_then(Json::list).is_some_and(<[_]>::is_empty);
    if words[0] != "settle" && !is_alone {
        refuse("groups")
    }
    match &texts[3..] {
        [opening, events] => {
            let (values, events) = read_run(&design, &ranked, &texts[2], opening, events);
            print(&settle(&design, &ranked, values, &events));
        }
        [board, netlist, schedule, map, run @ ..] => {
            let results = read_results(board, netlist, schedule, map);
            if let [opening, events] = run {
                let (values, events) = read_run(&design, &ranked, &texts[2], opening, events);
                let Some(order) = judge(&design, &results, false) else { reject() };
                print(&replay(&design, &results, &order, values, &events));
            } else if judge(&design, &results, true).is_some() {
                println!("accepted");
                for frame in &results.frames {
                    println!("frame {} {}", frame.group, frame.slots.len());
                }
            } else {
                reject()
            }
        }
        _ => {}
    }
}
