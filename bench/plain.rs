// The other side of the benchmark: checker, node counter, label query and window expander as plain Rust, with no proofs and nothing but the standard library.
// `plain OPERATION TIMES < FILE` makes the same calls on the same inputs as the program time_queries and prints the same line; `tools/bench` compares the two.
// Document 01 is what it follows too.
use std::io::Read;

const LARGEST_FILE: usize = 16384;
const LARGEST_SIZE: u64 = 1 << 40;

#[derive(Clone, Copy, PartialEq)]
enum Refusal {
    Short = 1,
    Kind = 2,
    Length = 3,
    Head = 4,
    Rank = 5,
    Symbol = 6,
    Body = 7,
    Trail = 8,
    Large = 9,
    Huge = 10,
    Empty = 11,
    Position = 12,
}

// A refusal with its place.
type Refused = (Refusal, usize);

struct Rule {
    rank: usize,
    // the body, within the grammar's words
    start: usize,
    end: usize,
    // sizes of what stands before, between and after the parameters
    gaps: [u64; 5],
}

struct Grammar {
    words: Vec<u16>,
    rules: Vec<Rule>,
    nodes: u64,
}

fn word_at(file: &[u8], at: usize) -> u16 {
    u16::from_le_bytes([file[at], file[at + 1]])
}

// The payload of the record that is due at a place.
fn payload(file: &[u8], at: usize, kind: u16) -> Result<&[u8], Refusal> {
    let header = file.get(at..at + 6).ok_or(Refusal::Short)?;
    if word_at(header, 4) != kind {
        return Err(Refusal::Kind);
    }
    let length = u32::from_le_bytes([header[0], header[1], header[2], header[3]]) as usize;
    let allowed = if kind == 1 { length == 4 } else { length % 2 == 0 && length >= 4 };
    if !allowed {
        return Err(Refusal::Length);
    }
    file.get(at + 6..at + 6 + length).ok_or(Refusal::Short)
}

fn head(file: &[u8]) -> Result<usize, Refusal> {
    let head = payload(file, 0, 1)?;
    let n = word_at(head, 2) as usize;
    if word_at(head, 0) != 1 || n < 1 || n > 256 {
        return Err(Refusal::Head);
    }
    Ok(n)
}

// A rule's payload, its body put behind the words of the rules below it.
fn rule(payload: &[u8], last: bool, rules: &[Rule], words: &mut Vec<u16>) -> Result<Rule, Refusal> {
    let rank = word_at(payload, 0) as usize;
    if rank > 4 || (last && rank != 0) {
        return Err(Refusal::Rank);
    }
    let start = words.len();
    words.extend(payload[2..].chunks_exact(2).map(|b| u16::from_le_bytes([b[0], b[1]])));
    // 6 is over the whole body before 7, so a broken shape is kept until the last word was seen
    let mut shaped = true;
    let mut due = 1usize;
    let mut parameters = 0usize;
    for &w in &words[start..] {
        let children = match w {
            0 => 0,
            1..=0x7FFF => 2,
            0x8001..=0x8004 => {
                parameters += 1;
                shaped &= (w - 0x8000) as usize == parameters;
                0
            }
            0xC000..=0xC0FF => match rules.get((w - 0xC000) as usize) {
                Some(called) => called.rank,
                None => return Err(Refusal::Symbol),
            },
            _ => return Err(Refusal::Symbol),
        };
        if due == 0 {
            shaped = false;
        } else {
            due = due - 1 + children;
        }
    }
    if !shaped || due != 0 || parameters != rank || (words.len() == start + 1 && words[start] == 0x8001) {
        return Err(Refusal::Body);
    }
    Ok(Rule { rank, start, end: words.len(), gaps: [0; 5] })
}

// The gaps of a body, by those of the rules below it: one pass with the calls that are open. None where the size is over the largest.
fn measure(body: &[u16], rules: &[Rule], open: &mut Vec<(u16, u8)>) -> Option<[u64; 5]> {
    let mut gaps = [0; 5];
    let mut gap = 0;
    let mut total = 0u64;
    open.clear();
    for &w in body {
        match w {
            0..=0x7FFF => {
                gaps[gap] += 1;
                total += 1;
                if w != 0 {
                    // a label is itself before its children and nothing after them
                    open.push((w, 2));
                    continue;
                }
            }
            0x8001..=0x8004 => gap += 1,
            _ => {
                let called = &rules[(w - 0xC000) as usize];
                gaps[gap] += called.gaps[0];
                total += called.gaps[0];
                if called.rank > 0 {
                    open.push((w, called.rank as u8));
                    continue;
                }
            }
        }
        // a subtree has ended: the gaps that follow it are due
        while let Some((w, left)) = open.pop() {
            if w >= 0xC000 {
                let called = &rules[(w - 0xC000) as usize];
                let size = called.gaps[called.rank + 1 - left as usize];
                gaps[gap] += size;
                total += size;
            }
            if left > 1 {
                open.push((w, left - 1));
                break;
            }
        }
        if total > LARGEST_SIZE {
            return None;
        }
    }
    Some(gaps)
}

// The whole check: 9; the records; 8, 10, 11.
fn read(file: &[u8]) -> Result<Grammar, Refused> {
    if file.len() > LARGEST_FILE {
        return Err((Refusal::Large, 0));
    }
    let n = head(file).map_err(|x| (x, 0))?;
    let mut words = Vec::with_capacity(file.len() / 2);
    let mut rules: Vec<Rule> = Vec::with_capacity(n);
    let mut at = 10;
    for r in 0..n {
        let body = payload(file, at, 2).map_err(|x| (x, r + 1))?;
        at += 6 + body.len();
        let found = rule(body, r + 1 == n, &rules, &mut words).map_err(|x| (x, r + 1))?;
        rules.push(found);
    }
    if at < file.len() {
        return Err((Refusal::Trail, n + 1));
    }
    let mut open = Vec::new();
    for r in 0..n {
        let body = &words[rules[r].start..rules[r].end];
        rules[r].gaps = measure(body, &rules[..r], &mut open).ok_or((Refusal::Huge, r + 1))?;
    }
    let nodes = rules[n - 1].gaps[0];
    if nodes == 1 {
        return Err((Refusal::Empty, 0));
    }
    Ok(Grammar { words, rules, nodes })
}

// ---- the tree's words as a grammar of strings: a gap of a rule is a list of words and of gaps of lower rules. Then no tree is left to walk, and a walk needs
// no more places to come back to than there are rules, however deep the tree.

const STOP: u16 = 0xFFFF;
const GAP: u16 = 0x8000;

struct Strings {
    pieces: Vec<u16>,
    // where gap g begins, g = 5 * rule + number
    starts: Vec<u32>,
}

// Puts gap g; one that has no words is left out, and one that is a single piece is put as that piece.
fn put(strings: &mut Strings, rules: &[Rule], g: usize) {
    if rules[g / 5].gaps[g % 5] == 0 {
        return;
    }
    let s = strings.starts[g] as usize;
    let piece = if strings.pieces[s + 1] == STOP { strings.pieces[s] } else { GAP + g as u16 };
    strings.pieces.push(piece);
}

fn strings(grammar: &Grammar) -> Strings {
    let rules = &grammar.rules;
    let mut out = Strings { pieces: Vec::with_capacity(2 * grammar.words.len()), starts: vec![0; 5 * rules.len()] };
    let mut open: Vec<(u16, u8)> = Vec::new();
    for (r, rule) in rules.iter().enumerate() {
        let mut gap = 5 * r;
        out.starts[gap] = out.pieces.len() as u32;
        for &w in &grammar.words[rule.start..rule.end] {
            match w {
                0..=0x7FFF => {
                    out.pieces.push(w);
                    if w != 0 {
                        open.push((w, 2));
                        continue;
                    }
                }
                0x8001..=0x8004 => {
                    out.pieces.push(STOP);
                    gap += 1;
                    out.starts[gap] = out.pieces.len() as u32;
                }
                _ => {
                    let j = (w - 0xC000) as usize;
                    put(&mut out, rules, 5 * j);
                    if rules[j].rank > 0 {
                        open.push((w, rules[j].rank as u8));
                        continue;
                    }
                }
            }
            while let Some((w, left)) = open.pop() {
                if w >= 0xC000 {
                    let j = (w - 0xC000) as usize;
                    put(&mut out, rules, 5 * j + rules[j].rank + 1 - left as usize);
                }
                if left > 1 {
                    open.push((w, left - 1));
                    break;
                }
            }
        }
        out.pieces.push(STOP);
    }
    out
}

// Fills a window that lies within the tree with the words from p on.
fn expand(grammar: &Grammar, p: u64, out: &mut [u16]) {
    let strings = strings(grammar);
    let mut back: Vec<u32> = Vec::with_capacity(256);
    let mut at = strings.starts[5 * (grammar.rules.len() - 1)] as usize;
    let mut skip = p;
    let mut filled = 0;
    while filled < out.len() {
        let piece = strings.pieces[at];
        at += 1;
        if piece < GAP {
            if skip == 0 {
                out[filled] = piece;
                filled += 1;
            } else {
                skip -= 1;
            }
        } else if piece == STOP {
            at = back.pop().unwrap() as usize;
        } else {
            let g = (piece - GAP) as usize;
            let size = grammar.rules[g / 5].gaps[g % 5];
            if size <= skip {
                skip -= size;
            } else {
                back.push(at as u32);
                at = strings.starts[g] as usize;
            }
        }
    }
}

// ---- the four operations

fn check(file: &[u8]) -> Result<(), Refused> {
    read(file).map(|_| ())
}

fn count(file: &[u8]) -> Result<u64, Refused> {
    read(file).map(|grammar| grammar.nodes)
}

fn window(file: &[u8], p: u64, out: &mut [u16]) -> Result<(), Refused> {
    let answer = read(file).and_then(|grammar| {
        if grammar.nodes < out.len() as u64 || grammar.nodes - (out.len() as u64) < p {
            return Err((Refusal::Position, 0));
        }
        expand(&grammar, p, out);
        Ok(())
    });
    if answer.is_err() {
        out.fill(0xFFFF);
    }
    answer
}

fn label(file: &[u8], p: u64) -> (Result<(), Refused>, u16) {
    let mut word = [0];
    let answer = window(file, p, &mut word);
    (answer, word[0])
}

// ---- the loops, with time_queries' inputs and checksum

#[derive(Default)]
struct Tally {
    accepted: u64,
    sum: u32,
}

impl Tally {
    fn mix(&mut self, x: u64) {
        self.sum = self.sum.wrapping_mul(31).wrapping_add(x as u32);
    }

    fn add(&mut self, answer: Result<(), Refused>, value: u64) {
        let (number, place) = match answer {
            Ok(()) => {
                self.accepted += 1;
                (0, 0)
            }
            Err((x, place)) => (x as u64, place as u64),
        };
        self.mix(number);
        self.mix(place);
        self.mix(value);
    }
}

// The first word of rule 0's body changes by 256 and back: no call is like the one before it.
fn flip(file: &mut [u8]) {
    if file.len() >= 20 {
        file[19] ^= 1;
    }
}

fn next_start(p: u64, starts: u64) -> u64 {
    p.wrapping_add(618033988749) % starts
}

fn starts_of(nodes: u64, length: u64) -> u64 {
    if nodes < length { 1 } else { nodes - length + 1 }
}

fn run(operation: &str, times: u64, file: &mut [u8], nodes: u64) -> Tally {
    let mut tally = Tally::default();
    let mut p = 0;
    match operation {
        "check" => {
            for _ in 0..times {
                tally.add(check(file), 0);
                flip(file);
            }
        }
        "count" => {
            for _ in 0..times {
                let n = count(file);
                tally.add(n.map(|_| ()), n.unwrap_or(0));
                flip(file);
            }
        }
        "label" => {
            let starts = starts_of(nodes, 1);
            for _ in 0..times {
                let (answer, word) = label(file, p);
                tally.add(answer, word as u64);
                p = next_start(p, starts);
            }
        }
        "window" => {
            let length = if nodes < 510 { nodes / 2 + 1 } else { 256 };
            let starts = starts_of(nodes, length);
            let mut words = vec![0; length as usize];
            for _ in 0..times {
                let answer = window(file, p, &mut words);
                tally.add(answer, words.iter().map(|&w| w as u64).sum());
                p = next_start(p, starts);
            }
        }
        _ => panic!("no such operation"),
    }
    tally
}

fn main() {
    let arguments: Vec<String> = std::env::args().collect();
    let times = arguments[2].parse().expect("a number of times");
    let mut file = Vec::new();
    std::io::stdin().take(LARGEST_FILE as u64 + 1).read_to_end(&mut file).expect("the file on standard input");
    let nodes = count(&file).unwrap_or(0);
    let tally = run(&arguments[1], times, &mut file, nodes);
    println!("nodes {} accepted {} sum {}", nodes, tally.accepted, tally.sum);
}
