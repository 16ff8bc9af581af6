//! The reader of crates/masm/specs in Rust, definition by definition: Tokens, Expressions, Operands, Lines.
//! That it is that reader is held by the stored lines, which are theorems of antt (crates/masm/proofs/Stored.antt).

#[derive(Clone, Debug, PartialEq, Eq)]
pub enum Token {
    Word(String),
    Sign(u8),
}
use Token::{Sign, Word};

// ---- Tokens

fn is_word(c: u8) -> bool {
    c.is_ascii_alphanumeric() || b"_$@?".contains(&c)
}

pub fn tokens(text: &str) -> Vec<Token> {
    let (mut made, mut word) = (Vec::new(), String::new());
    for c in text.bytes().chain([b' ']) {
        if is_word(c) {
            word.push(c.to_ascii_lowercase() as char);
            continue;
        }
        if !word.is_empty() {
            made.push(Word(std::mem::take(&mut word)));
        }
        if c != b' ' && c != b'\t' {
            made.push(Sign(c));
        }
    }
    made
}

fn uncommented(mut tokens: Vec<Token>) -> Vec<Token> {
    if let Some(at) = tokens.iter().position(|token| *token == Sign(b';')) {
        tokens.truncate(at);
    }
    tokens
}

// ---- Numbers and registers

pub fn numeral(word: &str) -> Option<u32> {
    let (digits, base) = match word.as_bytes().last()? {
        b'h' => (&word[..word.len() - 1], 16),
        b'd' | b't' => (&word[..word.len() - 1], 10),
        b'o' | b'q' => (&word[..word.len() - 1], 8),
        b'b' | b'y' => (&word[..word.len() - 1], 2),
        _ => (word, 10),
    };
    value_of(word, digits, base)
}

fn decimal(word: &str) -> Option<u32> {
    value_of(word, word, 10)
}

/// The value of the digits of a word, which begins with one.
fn value_of(word: &str, digits: &str, base: u32) -> Option<u32> {
    if !word.starts_with(|c: char| c.is_ascii_digit()) {
        return None;
    }
    let mut value: u128 = 0;
    for c in digits.chars() {
        value = (value * base as u128 + c.to_digit(base)? as u128).min(1 << 64);
    }
    u32::try_from(value).ok()
}

pub const CLASSES: [&[&str]; 10] = [
    &["eax", "ecx", "edx", "ebx", "esp", "ebp", "esi", "edi"],
    &["ax", "cx", "dx", "bx", "sp", "bp", "si", "di"],
    &["al", "cl", "dl", "bl", "ah", "ch", "dh", "bh"],
    &["es", "cs", "ss", "ds", "fs", "gs"],
    &["st(0)", "st(1)", "st(2)", "st(3)", "st(4)", "st(5)", "st(6)", "st(7)"],
    &["mm0", "mm1", "mm2", "mm3", "mm4", "mm5", "mm6", "mm7"],
    &["xmm0", "xmm1", "xmm2", "xmm3", "xmm4", "xmm5", "xmm6", "xmm7"],
    &["ymm0", "ymm1", "ymm2", "ymm3", "ymm4", "ymm5", "ymm6", "ymm7"],
    &["zmm0", "zmm1", "zmm2", "zmm3", "zmm4", "zmm5", "zmm6", "zmm7"],
    &["k0", "k1", "k2", "k3", "k4", "k5", "k6", "k7"],
];

pub fn register_name(register: u8) -> &'static str {
    CLASSES[register as usize / 8][register as usize % 8]
}

fn register(ts: &[Token]) -> Option<u8> {
    if ts == [Word("st".into())] {
        return Some(32);
    }
    (0..80).filter(|r| r / 8 != 3 || r % 8 < 6).find(|r| tokens(register_name(*r)) == ts)
}

// ---- Values

#[derive(Clone, Debug, PartialEq, Eq)]
pub struct Value {
    pub counts: Vec<(u8, u128)>,
    pub starts: u128,
    pub number: i128,
    pub bracket: bool,
}

fn constant(number: i128) -> Value {
    Value { counts: vec![], starts: 0, number, bracket: false }
}

fn plus(a: &Value, b: &Value) -> Value {
    Value {
        counts: [&a.counts[..], &b.counts[..]].concat(),
        starts: a.starts + b.starts,
        number: a.number.checked_add(b.number).expect(LARGE),
        bracket: a.bracket || b.bracket,
    }
}

const LARGE: &str = "the port's numbers have 128 bits";

fn mark(bracket: bool, v: &Value) -> Value {
    Value { bracket: bracket || v.bracket, ..v.clone() }
}

fn is_constant(v: &Value) -> bool {
    v.counts.is_empty() && v.starts == 0
}

fn scaled(n: i128, v: &Value) -> Option<Value> {
    let number = v.number.checked_mul(n).expect(LARGE);
    if n < 0 {
        return is_constant(v).then(|| Value { counts: vec![], starts: 0, number, bracket: v.bracket });
    }
    let times = |m: u128| m.checked_mul(n as u128).expect(LARGE);
    Some(Value { counts: v.counts.iter().map(|c| (c.0, times(c.1))).collect(), starts: times(v.starts), number, bracket: v.bracket })
}

fn product(a: &Value, b: &Value) -> Option<Value> {
    if is_constant(a) {
        Some(mark(a.bracket, &scaled(a.number, b)?))
    } else if is_constant(b) {
        Some(mark(b.bracket, &scaled(b.number, a)?))
    } else {
        None
    }
}

// ---- Expressions

#[derive(Clone)]
struct Level {
    opened: u8,
    inside: bool,
    total: Value,
    factors: Value,
    factor: Value,
}

fn level(opened: u8, inside: bool, total: Value, factors: Value) -> Level {
    Level { opened, inside, total, factors, factor: constant(0) }
}

fn finished(l: &Level) -> Option<Value> {
    Some(plus(&l.total, &product(&l.factors, &l.factor)?))
}

fn part_of(inside: bool, word: &str) -> Option<Value> {
    if let Some(n) = numeral(word) {
        return Some(constant(n.into()));
    }
    if word == "$" {
        return Some(Value { starts: 1, ..constant(0) });
    }
    let r = inside.then(|| register(&[Word(word.into())]))??;
    Some(Value { counts: vec![(r, 1)], ..constant(0) })
}

/// The levels from the outermost to the one that is read, and whether a part is there.
struct State {
    levels: Vec<Level>,
    has: bool,
}

fn step(token: &Token, state: &mut State) -> Option<()> {
    let has = state.has;
    let l = state.levels.last_mut().unwrap();
    match token {
        Word(w) => {
            if has {
                return None;
            }
            l.factor = plus(&l.factor, &part_of(l.inside, w)?);
            state.has = true;
        }
        Sign(c @ (b'(' | b'[')) => {
            let inside = l.inside || *c == b'[';
            state.levels.push(level(*c, inside, constant(0), constant(1)));
            state.has = false;
        }
        Sign(b'+') if !has => {}
        Sign(b'-') if !has => l.factors = scaled(-1, &l.factors)?,
        Sign(c @ (b'+' | b'-')) => {
            *l = level(l.opened, l.inside, finished(l)?, constant(if *c == b'-' { -1 } else { 1 }));
            state.has = false;
        }
        Sign(b'*') if has => {
            *l = level(l.opened, l.inside, l.total.clone(), product(&l.factors, &l.factor)?);
            state.has = false;
        }
        Sign(c @ (b')' | b']')) if has => {
            if l.opened != if *c == b')' { b'(' } else { b'[' } {
                return None;
            }
            let v = finished(l)?;
            state.levels.pop();
            let o = state.levels.last_mut()?;
            o.factor = plus(&o.factor, &mark(*c == b']', &v));
        }
        Sign(_) => return None,
    }
    Some(())
}

fn expression(ts: &[Token]) -> Option<Value> {
    let mut state = State { levels: vec![level(0, false, constant(0), constant(1))], has: false };
    for token in ts {
        step(token, &mut state)?;
    }
    match &state.levels[..] {
        [l] if state.has => finished(l),
        _ => None,
    }
}

// ---- Operands

pub const LABELS: [&str; 10] = ["byte", "word", "dword", "fword", "qword", "mmword", "tbyte", "xmmword", "ymmword", "zmmword"];
const SYNONYMS: [(&str, &str); 8] = [
    ("sbyte", "byte"),
    ("sword", "word"),
    ("sdword", "dword"),
    ("sqword", "qword"),
    ("real4", "dword"),
    ("real8", "qword"),
    ("real10", "tbyte"),
    ("oword", "xmmword"),
];

/// The words before a branch target or a number, each with the number of bits of the distance.
pub const WIDTHS: [(&str, usize); 2] = [("short", 8), ("near ptr", 32)];

#[derive(Clone, Debug, PartialEq, Eq)]
pub enum Operand {
    Register(u8),
    Immediate(u32),
    Sized(usize, u32),
    Branch(Option<usize>, u32),
    Address { label: Option<&'static str>, segment: Option<u8>, counts: Vec<(u8, u128)>, disp: u32, mask: Option<u8>, broadcast: Option<u32> },
}

pub fn wrapped(number: i128) -> u32 {
    number.rem_euclid(1 << 32) as u32
}

fn operand(start: u32, ts: &[Token]) -> Option<Operand> {
    let (width, ts) = WIDTHS.iter().find_map(|w| Some((Some(w.1), ts.strip_prefix(&tokens(w.0)[..])?))).unwrap_or((None, ts));
    let (label, ts) = match ts {
        [Word(t), Word(p), rest @ ..] if p == "ptr" => {
            let t = SYNONYMS.iter().find(|s| s.0 == t).map_or(&t[..], |s| s.1);
            LABELS.into_iter().find(|label| *label == t).map_or((None, ts), |label| (Some(label), rest))
        }
        _ => (None, ts),
    };
    if let Some(r) = register(ts).filter(|_| width.is_none()) {
        return Some(Operand::Register(r));
    }
    let (segment, ts) = match ts {
        [Word(s), Sign(b':'), rest @ ..] => match CLASSES[3].iter().position(|name| name == s) {
            Some(at) => (Some(24 + at as u8), rest),
            None => (None, ts),
        },
        _ => (None, ts),
    };
    let v = expression(ts)?;
    if v.bracket || segment.is_some() {
        let disp = wrapped(v.number);
        (width.is_none() && v.starts == 0).then_some(Operand::Address { label, segment, counts: v.counts, disp, mask: None, broadcast: None })
    } else if v.starts == 1 && label.is_none() {
        Some(Operand::Branch(width, wrapped(i128::from(start) + v.number)))
    } else {
        let number = wrapped(v.number);
        (v.starts == 0 && label.is_none()).then_some(width.map_or(Operand::Immediate(number), |width| Operand::Sized(width, number)))
    }
}

/// `{k1}` in front of some tokens, and the tokens after it.
fn front_mask(ts: &[Token]) -> (Option<u8>, &[Token]) {
    let found = (72..80).find_map(|r| Some((Some(r), ts.strip_prefix(&tokens(&format!("{{{}}}", register_name(r)))[..])?)));
    found.unwrap_or((None, ts))
}

/// `{1to16}` in front of some tokens, and the tokens after it.
fn front_broadcast(ts: &[Token]) -> (Option<u32>, &[Token]) {
    match ts {
        [Sign(b'{'), Word(w), Sign(b'}'), rest @ ..] => match w.strip_prefix("1to").and_then(decimal) {
            Some(n) => (Some(n), rest),
            None => (None, ts),
        },
        _ => (None, ts),
    }
}

fn decorated(start: u32, ts: &[Token]) -> Option<Operand> {
    let at = ts.iter().position(|token| *token == Sign(b'{')).unwrap_or(ts.len());
    let (mask, rest) = front_mask(&ts[at..]);
    let (broadcast, rest) = front_broadcast(rest);
    if !rest.is_empty() {
        return None;
    }
    match operand(start, &ts[..at])? {
        Operand::Address { label, segment, counts, disp, .. } => Some(Operand::Address { label, segment, counts, disp, mask, broadcast }),
        other => (mask.is_none() && broadcast.is_none()).then_some(other),
    }
}

// ---- Lines

/// The tails, each with its name in crates/masm.
pub const TAILS: [(&str, &str); 5] = [("{sae}", "Sae"), ("{rn-sae}", "Nearest"), ("{rd-sae}", "Down"), ("{ru-sae}", "Up"), ("{rz-sae}", "Zero")];

/// The tail that some tokens end in, and the tokens before it.
fn back_tail(ts: &[Token]) -> (Option<&'static str>, &[Token]) {
    TAILS.iter().find_map(|tail| Some((Some(tail.0), ts.strip_suffix(&tokens(tail.0)[..])?))).unwrap_or((None, ts))
}

pub const PREFIXES: [(&str, &str); 8] = [
    ("xacquire", "Xacquire"),
    ("xrelease", "Xrelease"),
    ("lock", "Lock"),
    ("rep", "Rep"),
    ("repe", "Repe"),
    ("repz", "Repe"),
    ("repne", "Repne"),
    ("repnz", "Repne"),
];

#[derive(Clone, Debug, PartialEq, Eq)]
pub enum Reading {
    Shows { prefixes: Vec<&'static str>, mnemonic: String, operands: Vec<Operand>, tail: Option<&'static str> },
    NoInstruction,
    Refused,
}

fn line(start: u32, mut ts: &[Token]) -> Option<Reading> {
    let mut prefixes = Vec::new();
    loop {
        let [Word(w), rest @ ..] = ts else { return None };
        ts = rest;
        if let Some(prefix) = PREFIXES.iter().find(|prefix| prefix.0 == w) {
            prefixes.push(prefix.1);
            continue;
        }
        if !w.starts_with(|c: char| c.is_ascii_alphabetic()) {
            return None;
        }
        let (tail, before) = back_tail(ts);
        let operands = match ts {
            [] => vec![],
            _ => before.split(|token| *token == Sign(b',')).map(|part| decorated(start, part)).collect::<Option<_>>()?,
        };
        return Some(Reading::Shows { prefixes, mnemonic: w.clone(), operands, tail });
    }
}

pub fn read(start: u32, text: &str) -> Reading {
    match &uncommented(tokens(text))[..] {
        [] => Reading::NoInstruction,
        ts => line(start, ts).unwrap_or(Reading::Refused),
    }
}
