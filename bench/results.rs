//! Results read from three texts and printed again, as plain Rust without proofs.
//!
//! It stands here to be compared with, as `plain.rs`: tokens of the netlist, gates of all words and tables,
//! the three forms of registers and memories with all their ports, each net with one driver; JSON trees of
//! schedule and map, all actions and all subjects; the map's counts. It names no place of a fault. Compile it
//! with `rustc -O`.

mod json;

use json::Json;
use std::io::Write;
use std::process::exit;

const WORDS: [&str; 8] = ["and", "nand", "or", "nor", "xor", "xnor", "buf", "not"];
const ACTIONS: [(&str, usize); 5] = [("input", 3), ("load", 2), ("send", 3), ("write", 3), ("read", 3)];
const SUBJECTS: [(&str, usize); 8] =
    [("net", 1), ("up", 1), ("down", 1), ("take", 1), ("next", 1), ("takew", 2), ("old", 3), ("taker", 2)];

#[derive(Clone, Copy, PartialEq)]
enum Kind {
    Name,
    Mark(u8),
}

#[derive(Clone, Copy)]
struct Token {
    kind: Kind,
    start: u32,
    end: u32,
}

#[derive(Clone, Copy)]
enum Op {
    Word(u8),
    Table(u64),
}

struct Gate {
    op: Op,
    output: u32,
    inputs: Vec<u32>,
}

#[derive(Clone, Copy)]
struct Register {
    q: u32,
    d: Option<u32>,
    enable: Option<u32>,
}

struct Port {
    enable: u32,
    address: Vec<u32>,
    bits: Vec<u32>,
}

struct Memory {
    address_bits: u32,
    width: u32,
    writes: Vec<Port>,
    reads: Vec<Port>,
}

struct Chip {
    nets: u32,
    gates: Vec<Gate>,
    registers: Vec<Register>,
    memories: Vec<Memory>,
}

/// The place of a word in its table, and its numbers.
#[derive(Clone, Copy)]
struct Row {
    word: u8,
    numbers: [u32; 3],
}

struct Frame {
    group: String,
    slots: Vec<Vec<Row>>,
}

struct MemoryMap {
    of: u32,
    kept: Vec<bool>,
}

struct ChipMap {
    memories: Vec<MemoryMap>,
    nets: Vec<Row>,
    kept: Vec<bool>,
}

struct Map {
    chips: Vec<ChipMap>,
    outputs: Vec<[u32; 2]>,
}

fn tokens(text: &[u8]) -> Option<Vec<Token>> {
    let (mut tokens, mut at) = (Vec::new(), 0);
    while let Some(&byte) = text.get(at) {
        let start = at;
        if byte.is_ascii_whitespace() {
            at += 1;
            continue;
        }
        let kind = if byte.is_ascii_alphabetic() || byte == b'_' {
            at += text[at..].iter().position(|b| !b.is_ascii_alphanumeric() && !b"_$".contains(b)).unwrap_or(text.len() - at);
            Kind::Name
        } else if b"();,".contains(&byte) {
            at += 1;
            Kind::Mark(byte)
        } else {
            return None;
        };
        tokens.push(Token { kind, start: start as u32, end: at as u32 });
    }
    Some(tokens)
}

/// A number without leading zeros.
fn number(digits: &str) -> Option<u32> {
    let plain = digits.bytes().all(|b| b.is_ascii_digit()) && (digits.len() == 1 || !digits.starts_with('0'));
    digits.parse().ok().filter(|_| plain)
}

struct Cursor<'t> {
    text: &'t str,
    tokens: &'t [Token],
    at: usize,
}

impl<'t> Cursor<'t> {
    fn name(&mut self) -> Option<&'t str> {
        let token = self.tokens.get(self.at).filter(|token| token.kind == Kind::Name)?;
        self.at += 1;
        Some(&self.text[token.start as usize..token.end as usize])
    }

    fn take(&mut self, mark: u8) -> Option<()> {
        self.tokens.get(self.at).filter(|token| token.kind == Kind::Mark(mark))?;
        self.at += 1;
        Some(())
    }

    /// A name of these letters and this number.
    fn numbered(&mut self, letters: &str, due: usize) -> Option<()> {
        (number(self.name()?.strip_prefix(letters)?)? as usize == due).then_some(())
    }

    /// The nets between parentheses, each less than so many, and what ends the line.
    fn nets(&mut self, nets: u32) -> Option<Vec<u32>> {
        self.take(b'(')?;
        let mut list = Vec::new();
        loop {
            list.push(number(self.name()?.strip_prefix('n')?).filter(|net| *net < nets)?);
            if self.take(b',').is_none() {
                self.take(b')')?;
                self.take(b';')?;
                return Some(list);
            }
        }
    }
}

/// What a word stands for as a gate with so many inputs.
fn op_of(word: &str, inputs: usize) -> Option<Op> {
    if let Some(k) = WORDS.iter().position(|w| *w == word) {
        return (k < 6 && (1..=64).contains(&inputs) || inputs == 1).then_some(Op::Word(k as u8));
    }
    let (count, digits) = word.strip_prefix("LUT")?.split_once('_')?;
    let lower = digits.bytes().all(|b| matches!(b, b'0'..=b'9' | b'a'..=b'f'));
    let table = u64::from_str_radix(digits, 16).ok()?;
    let fits = number(count)? as usize == inputs && inputs <= 6 && lower && (digits.len() == 1 || !digits.starts_with('0'));
    (fits && (inputs == 6 || table >> (1 << inputs) == 0)).then_some(Op::Table(table))
}

/// The next ones of a list of terminals.
fn next(terminals: &mut std::vec::IntoIter<u32>, count: u32) -> Option<Vec<u32>> {
    let list: Vec<u32> = terminals.take(count as usize).collect();
    (list.len() == count as usize).then_some(list)
}

fn memory(word: &str, terminals: Vec<u32>) -> Option<Memory> {
    let mut numbers = word.strip_prefix("EMEM_")?.split('_').map(number);
    let [address_bits, width, writes, reads] = [numbers.next()??, numbers.next()??, numbers.next()??, numbers.next()??];
    let fits = numbers.next().is_none() && address_bits <= 16 && (1..=128).contains(&width) && writes <= 64 && reads <= 64;
    let mut terminals = fits.then_some(terminals)?.into_iter();
    let mut memory = Memory { address_bits, width, writes: Vec::new(), reads: Vec::new() };
    for _ in 0..writes {
        let enable = terminals.next()?;
        memory.writes.push(Port { enable, address: next(&mut terminals, address_bits)?, bits: next(&mut terminals, width)? });
    }
    for _ in 0..reads {
        memory.reads.push(Port { enable: 0, address: next(&mut terminals, address_bits)?, bits: next(&mut terminals, width)? });
    }
    terminals.next().is_none().then_some(memory)
}

fn register(word: &str, terminals: &[u32]) -> Option<Register> {
    match (word, terminals) {
        ("EHOLD", &[q]) => Some(Register { q, d: None, enable: None }),
        ("EREG", &[q, d]) => Some(Register { q, d: Some(d), enable: None }),
        ("EREGE", &[q, d, enable]) => Some(Register { q, d: Some(d), enable: Some(enable) }),
        _ => None,
    }
}

fn chip(cursor: &mut Cursor, place: usize) -> Option<Chip> {
    cursor.numbered("chip", place)?;
    cursor.take(b';')?;
    let mut chip = Chip { nets: 0, gates: Vec::new(), registers: Vec::new(), memories: Vec::new() };
    loop {
        let word = cursor.name()?;
        let begun = (chip.gates.len(), chip.registers.len(), chip.memories.len());
        if word == "endmodule" {
            return one_driver_each(&chip).then_some(chip);
        } else if word == "wire" {
            (begun == (0, 0, 0)).then_some(())?;
            cursor.numbered("n", chip.nets as usize)?;
            cursor.take(b';')?;
            chip.nets += 1;
        } else if word.starts_with("EMEM") {
            cursor.numbered("m", begun.2)?;
            chip.memories.push(memory(word, cursor.nets(chip.nets)?)?);
        } else if word.starts_with('E') {
            (begun.2 == 0).then_some(())?;
            cursor.numbered("r", begun.1)?;
            chip.registers.push(register(word, &cursor.nets(chip.nets)?)?);
        } else {
            ((begun.1, begun.2) == (0, 0)).then_some(())?;
            cursor.numbered("g", begun.0)?;
            let mut nets = cursor.nets(chip.nets)?;
            let output = nets.remove(0);
            chip.gates.push(Gate { op: op_of(word, nets.len())?, output, inputs: nets });
        }
    }
}

fn one_driver_each(chip: &Chip) -> bool {
    let mut count = vec![0u8; chip.nets as usize];
    let outputs = chip.gates.iter().map(|gate| gate.output).chain(chip.registers.iter().map(|register| register.q));
    let read = chip.memories.iter().flat_map(|memory| &memory.reads).flat_map(|port| port.bits.iter().copied());
    for net in outputs.chain(read) {
        count[net as usize] = count[net as usize].saturating_add(1);
    }
    count.iter().all(|count| *count == 1)
}

fn netlist(text: &[u8]) -> Option<Vec<Chip>> {
    let tokens = tokens(text)?;
    let mut cursor = Cursor { text: std::str::from_utf8(text).ok()?, tokens: &tokens, at: 0 };
    let mut chips = Vec::new();
    while cursor.at < tokens.len() {
        (cursor.name()? == "module").then_some(())?;
        chips.push(chip(&mut cursor, chips.len())?);
    }
    Some(chips)
}

/// The row that a tree is, by the words of a table.
fn row(tree: &Json, words: &[(&str, usize)]) -> Option<Row> {
    let [Json::Text(word), rest @ ..] = tree.list()? else {
        return None;
    };
    let place = words.iter().position(|(name, count)| name == word && *count == rest.len())?;
    let mut numbers = [0; 3];
    for (number, tree) in numbers.iter_mut().zip(rest) {
        *number = tree.word()?;
    }
    Some(Row { word: place as u8, numbers })
}

fn list<T>(tree: Option<&Json>, one: impl Fn(&Json) -> Option<T>) -> Option<Vec<T>> {
    tree?.list()?.iter().map(one).collect()
}

fn kept(tree: &Json) -> Option<bool> {
    match tree {
        Json::Bool(kept) => Some(*kept),
        _ => None,
    }
}

fn schedule(tree: &Json) -> Option<Vec<Frame>> {
    (tree.get("version")?.word()? == 1).then_some(())?;
    list(tree.get("frames"), |tree| {
        let Json::Text(group) = tree.get("group")? else {
            return None;
        };
        let slots = list(tree.get("slots"), |slot| list(Some(slot), |action| row(action, &ACTIONS)))?;
        Some(Frame { group: group.clone(), slots })
    })
}

fn chip_map(tree: &Json, version: u32, chip: &Chip) -> Option<ChipMap> {
    let memory = |tree: &Json| Some(MemoryMap { of: tree.get("of")?.word()?, kept: list(tree.get("reads"), kept)? });
    let subject = |tree: &Json| row(tree, &SUBJECTS[..if version == 2 { 8 } else { 6 }]);
    let map = ChipMap { memories: list(tree.get("memories"), memory)?, nets: list(tree.get("nets"), subject)?, kept: list(tree.get("registers"), kept)? };
    let fits = map.nets.len() == chip.nets as usize && map.kept.len() == chip.registers.len() && map.memories.len() == chip.memories.len();
    (fits && map.memories.iter().zip(&chip.memories).all(|(map, memory)| map.kept.len() == memory.reads.len())).then_some(map)
}

fn map(tree: &Json, chips: &[Chip]) -> Option<Map> {
    let version = tree.get("version")?.word().filter(|version| matches!(version, 1 | 2))?;
    let entries = tree.get("chips")?.list().filter(|entries| entries.len() == chips.len())?;
    let chip_maps = entries.iter().zip(chips).map(|(entry, chip)| chip_map(entry, version, chip)).collect::<Option<_>>()?;
    let outputs = list(tree.get("outputs"), |tree| match tree.list()? {
        [chip, net] => {
            let (chip, net) = (chip.word()?, net.word()?);
            chips.get(chip as usize).filter(|chip| net < chip.nets).map(|_| [chip, net])
        }
        _ => None,
    })?;
    Some(Map { chips: chip_maps, outputs })
}

fn put_nets<'n>(out: &mut Vec<u8>, nets: impl Iterator<Item = &'n u32>) -> std::io::Result<()> {
    for (place, net) in nets.enumerate() {
        write!(out, "{}n{net}", if place == 0 { "" } else { ", " })?;
    }
    writeln!(out, ");")
}

fn put_chip(out: &mut Vec<u8>, place: usize, chip: &Chip) -> std::io::Result<()> {
    writeln!(out, "module chip{place};")?;
    for net in 0..chip.nets {
        writeln!(out, "wire n{net};")?;
    }
    for (place, gate) in chip.gates.iter().enumerate() {
        match gate.op {
            Op::Word(k) => write!(out, "{} g{place} (", WORDS[k as usize])?,
            Op::Table(table) => write!(out, "LUT{}_{table:x} g{place} (", gate.inputs.len())?,
        }
        put_nets(out, [gate.output].iter().chain(&gate.inputs))?;
    }
    for (place, register) in chip.registers.iter().enumerate() {
        let word = if register.d.is_none() { "EHOLD" } else if register.enable.is_none() { "EREG" } else { "EREGE" };
        write!(out, "{word} r{place} (")?;
        put_nets(out, [register.q].iter().chain(&register.d).chain(&register.enable))?;
    }
    for (place, memory) in chip.memories.iter().enumerate() {
        let (writes, reads) = (memory.writes.len(), memory.reads.len());
        write!(out, "EMEM_{}_{}_{writes}_{reads} m{place} (", memory.address_bits, memory.width)?;
        let written = memory.writes.iter().flat_map(|port| std::iter::once(&port.enable).chain(&port.address).chain(&port.bits));
        let read = memory.reads.iter().flat_map(|port| port.address.iter().chain(&port.bits));
        put_nets(out, written.chain(read))?;
    }
    writeln!(out, "endmodule")
}

/// The items between brackets, with commas.
fn put_list<T>(out: &mut Vec<u8>, items: &[T], mut one: impl FnMut(&mut Vec<u8>, &T) -> std::io::Result<()>) -> std::io::Result<()> {
    out.push(b'[');
    for (place, item) in items.iter().enumerate() {
        if place > 0 {
            out.push(b',');
        }
        one(out, item)?;
    }
    out.push(b']');
    Ok(())
}

fn put_row(out: &mut Vec<u8>, words: &[(&str, usize)], row: &Row) -> std::io::Result<()> {
    let (word, count) = words[row.word as usize];
    write!(out, "[\"{word}\"")?;
    for number in &row.numbers[..count] {
        write!(out, ",{number}")?;
    }
    out.push(b']');
    Ok(())
}

fn put_schedule(out: &mut Vec<u8>, frames: &[Frame]) -> std::io::Result<()> {
    write!(out, "{{\"frames\":")?;
    put_list(out, frames, |out, frame| {
        write!(out, "{{\"group\":\"{}\",\"slots\":", frame.group)?;
        put_list(out, &frame.slots, |out, slot| put_list(out, slot, |out, action| put_row(out, &ACTIONS, action)))?;
        write!(out, "}}")
    })?;
    writeln!(out, ",\"version\":1}}")
}

fn put_map(out: &mut Vec<u8>, map: &Map) -> std::io::Result<()> {
    let version = if map.chips.iter().any(|chip| chip.nets.iter().any(|subject| subject.word >= 6)) { 2 } else { 1 };
    write!(out, "{{\"chips\":")?;
    put_list(out, &map.chips, |out, chip| {
        write!(out, "{{\"memories\":")?;
        put_list(out, &chip.memories, |out, memory| {
            write!(out, "{{\"of\":{},\"reads\":", memory.of)?;
            put_list(out, &memory.kept, |out, kept| write!(out, "{kept}"))?;
            write!(out, "}}")
        })?;
        write!(out, ",\"nets\":")?;
        put_list(out, &chip.nets, |out, subject| put_row(out, &SUBJECTS, subject))?;
        write!(out, ",\"registers\":")?;
        put_list(out, &chip.kept, |out, kept| write!(out, "{kept}"))?;
        write!(out, "}}")
    })?;
    write!(out, ",\"outputs\":")?;
    put_list(out, &map.outputs, |out, [chip, net]| write!(out, "[{chip},{net}]"))?;
    writeln!(out, ",\"version\":{version}}}")
}

fn refuse(what: &str) -> ! {
    println!("refused {what}");
    exit(2)
}

fn main() -> std::io::Result<()> {
    let texts: Vec<Vec<u8>> = std::env::args().skip(1).map(|name| std::fs::read(name).expect("a text is held")).collect();
    let [netlist_text, schedule_text, map_text] = &texts[..] else { refuse("words") };
    let Some(chips) = netlist(netlist_text) else { refuse("netlist") };
    let Some(frames) = json::read(schedule_text).and_then(|tree| schedule(&tree)) else { refuse("schedule") };
    let Some(map) = json::read(map_text).and_then(|tree| map(&tree, &chips)) else { refuse("map") };
    let mut out = Vec::new();
    for (place, chip) in chips.iter().enumerate() {
        put_chip(&mut out, place, chip)?;
    }
    put_schedule(&mut out, &frames)?;
    put_map(&mut out, &map)?;
    std::io::stdout().write_all(&out)
}
