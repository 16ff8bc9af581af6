//! Lines of a grammar of their own: numbers in all radixes, both cases, blanks, brackets side by side, signs, parentheses, widths, masks,
//! broadcasts, tails, prefixes and comments; and some of them damaged.

pub struct Random(pub u64);

impl Random {
    pub fn next(&mut self) -> u64 {
        // splitmix64
        self.0 = self.0.wrapping_add(0x9E37_79B9_7F4A_7C15);
        let mut z = self.0;
        z = (z ^ (z >> 30)).wrapping_mul(0xBF58_476D_1CE4_E5B9);
        z = (z ^ (z >> 27)).wrapping_mul(0x94D0_49BB_1331_11EB);
        z ^ (z >> 31)
    }

    pub fn below(&mut self, n: usize) -> usize {
        (self.next() % n as u64) as usize
    }

    /// One time in `n`.
    pub fn once_in(&mut self, n: usize) -> bool {
        self.below(n) == 0
    }

    pub fn of<T: Copy>(&mut self, items: &[T]) -> T {
        items[self.below(items.len())]
    }
}

fn blank(r: &mut Random) -> &'static str {
    r.of(&["", "", "", " ", " ", "  ", "\t"])
}

fn number(r: &mut Random, value: u32) -> String {
    let zeros = r.of(&["", "", "", "0", "00"]);
    let (digits, letter) = match r.below(9) {
        0..=2 => (format!("{value}"), ""),
        3 => (format!("{value}"), r.of(&["d", "t", "D", "T"])),
        4 => (format!("{value:o}"), r.of(&["o", "q", "O", "Q"])),
        5 => (format!("{value:b}"), r.of(&["b", "y", "B", "Y"])),
        6 => (format!("{value:x}"), r.of(&["h", "H"])),
        _ => (format!("{value:X}"), "h"),
    };
    let first = if digits.starts_with(|c: char| c.is_ascii_alphabetic()) { "0" } else { zeros };
    format!("{first}{digits}{letter}")
}

fn value(r: &mut Random) -> u32 {
    match r.below(10) {
        0..=4 => r.below(20) as u32,
        5 | 6 => r.below(300) as u32,
        7 => r.below(70_000) as u32,
        8 => r.of(&[0x7F, 0x80, 0xFF, 0x100, 0x7FFF, 0x8000, 0xFFFF, 0x7FFF_FFFF, 0x8000_0000, 0xFFFF_FFFF]),
        _ => r.next() as u32,
    }
}

/// A constant that comes to `value`, in some way; the ways stay below 2^31 where `value` does.
fn exactly(r: &mut Random, value: u32, depth: usize) -> String {
    let (a, b) = (blank(r), blank(r));
    if depth == 0 || value > 0x1000 {
        return number(r, value);
    }
    match r.below(6) {
        0 => {
            let more = r.below(50) as u32;
            format!("({}{a}-{b}{})", exactly(r, value + more, depth - 1), exactly(r, more, depth - 1))
        }
        1 => {
            let less = r.below(value as usize + 1) as u32;
            format!("({}{a}+{b}{})", exactly(r, value - less, depth - 1), exactly(r, less, depth - 1))
        }
        2 if value % 2 == 0 => format!("({}{a}*{b}{})", exactly(r, value / 2, depth - 1), number(r, 2)),
        3 => format!("({})", exactly(r, value, depth - 1)),
        _ => number(r, value),
    }
}

/// Any constant expression.
fn constant(r: &mut Random, depth: usize) -> String {
    let n = value(r);
    if depth == 0 {
        return number(r, n);
    }
    let (a, b) = (blank(r), blank(r));
    match r.below(9) {
        0 => format!("{}{a}+{b}{}", constant(r, depth - 1), constant(r, depth - 1)),
        1 => format!("{}{a}-{b}{}", constant(r, depth - 1), constant(r, depth - 1)),
        2 => format!("{}{a}*{b}{}", constant(r, 0), r.below(9)),
        3 => format!("({a}{}{b})", constant(r, depth - 1)),
        4 => format!("-{a}{}", constant(r, depth - 1)),
        5 => format!("({}){a}*{b}{}", constant(r, depth - 1), r.below(5)),
        6 if r.once_in(3) => format!("{}{a}({})", number(r, n % 1000), constant(r, depth - 1)),
        _ => number(r, n),
    }
}

const GENERAL: [&str; 8] = ["eax", "ecx", "edx", "ebx", "esp", "ebp", "esi", "edi"];
const SMALL: [&str; 8] = ["al", "cl", "dl", "bl", "ah", "ch", "dh", "bh"];
const SEGMENTS: [&str; 6] = ["es", "cs", "ss", "ds", "fs", "gs"];

/// A register times a scale.
fn scaled(r: &mut Random) -> String {
    let register = r.of(&GENERAL);
    let scale = r.of(&[1u32, 2, 2, 4, 4, 8, 8, 3]);
    let (a, b) = (blank(r), blank(r));
    let depth = r.below(3);
    let scale = exactly(r, scale, depth);
    if r.once_in(3) { format!("{scale}{a}*{b}{register}") } else { format!("{register}{a}*{b}{scale}") }
}

/// What an address is made of: registers and numbers, in brackets side by side or in one.
fn address(r: &mut Random) -> String {
    let mut terms = Vec::new();
    match r.below(8) {
        0 => {}
        1..=3 => terms.push(r.of(&GENERAL).to_string()),
        4 => terms.push(scaled(r)),
        _ => {
            terms.push(r.of(&GENERAL).to_string());
            terms.push(if r.once_in(3) { r.of(&GENERAL).to_string() } else { scaled(r) });
        }
    }
    if r.once_in(4) {
        terms.reverse();
    }
    for term in &mut terms {
        if r.once_in(10) {
            *term = format!("({term})");
        }
    }
    let mut text = String::new();
    let numbers = if terms.is_empty() { 1 + r.below(2) } else { r.of(&[0, 0, 1, 1, 1, 2]) };
    for term in terms {
        if text.is_empty() {
            text = format!("[{}{term}", blank(r));
        } else if r.once_in(3) {
            text += &format!("{}]{}[{}{term}", blank(r), blank(r), blank(r));
        } else {
            text += &format!("{}+{}{term}", blank(r), blank(r));
        }
    }
    for _ in 0..numbers {
        let n = value(r);
        let depth = r.below(3);
        let n = exactly(r, n, depth);
        let sign = r.of(&["+", "+", "-"]);
        let open = text.rfind('[') > text.rfind(']') || (text.contains('[') && !text.contains(']'));
        text = match r.below(6) {
            0 if !text.is_empty() && open => format!("{n}{}{text}", blank(r)),
            1 if !text.is_empty() && open => format!("{n}{}+{}{text}", blank(r), blank(r)),
            2 if open => format!("{text}{}]{}{sign}{}{n}", blank(r), blank(r), blank(r)),
            3 if open => format!("{text}]{}[{}{n}", blank(r), if sign == "-" { "-" } else { "" }),
            _ if open => format!("{text}{}{sign}{}{n}", blank(r), blank(r)),
            _ if text.is_empty() => format!("[{}{n}", if sign == "-" { "-" } else { "" }),
            _ => format!("{text}{}{sign}{}{n}", blank(r), blank(r)),
        };
    }
    if text.matches('[').count() > text.matches(']').count() {
        text += "]";
    }
    text
}

fn memory(r: &mut Random) -> String {
    match r.below(12) {
        0 => format!("{}{}:{}{}", r.of(&SEGMENTS), blank(r), blank(r), constant(r, 1)),
        1..=3 => format!("{}{}:{}{}", r.of(&SEGMENTS), blank(r), blank(r), address(r)),
        _ => address(r),
    }
}

fn typed(r: &mut Random, types: &[&str]) -> String {
    format!("{} ptr {}", r.of(types), memory(r))
}

const DWORD: [&str; 4] = ["dword", "dword", "sdword", "real4"];

fn target(r: &mut Random) -> String {
    let (a, b, c) = (blank(r), blank(r), blank(r));
    let n = value(r) % 0x10000;
    let depth = r.below(3);
    let n = exactly(r, n, depth);
    let sign = r.of(&["+", "-"]);
    match r.below(8) {
        0 => "$".into(),
        1 => format!("{n}{a}+{b}$"),
        2 => format!("${a}{sign}{b}{n}{c}{}{}", r.of(&["+", "-"]), value(r) % 300),
        3 => format!("({a}${b}{sign}{c}{n})"),
        4 => format!("($){a}{sign}{b}{n}"),
        _ => format!("${a}{sign}{b}{n}"),
    }
}

/// A word before a target that says no width, or a width before what is no target.
fn misplaced(r: &mut Random) -> String {
    let width = r.of(&["short", "near ptr"]);
    match r.below(5) {
        0 => format!("{} $+{}", r.of(&["near", "short ptr"]), constant(r, 1)),
        1 => format!("short dword ptr {}", target(r)),
        2 => format!("short {}", memory(r)),
        3 => format!("{width} {}", constant(r, 1)),
        _ => format!("{width} {}", r.of(&["", "eax", "cx"])),
    }
}

/// A mask, a broadcast or both after an address. asmc knows no k0 there, and no N but these four, which it does not tell apart.
fn decorations(r: &mut Random) -> String {
    let mask = format!("{}{{k{}}}", blank(r), r.of(&[0, 1, 1, 2, 3, 4, 5, 6, 7]));
    let broadcast = format!("{}{{1to{}}}", blank(r), r.of(&[2, 4, 8, 8, 8, 16, 16, 5, 31]));
    match r.below(8) {
        0 => String::new(),
        1..=3 => mask,
        4 | 5 => broadcast,
        6 => format!("{mask}{broadcast}"),
        _ => r.of(&["{k8}", "{}", "{1to}", "{1to0x4}", "{k1}{k2}", "{1to8}{k1}", "{z}"]).into(),
    }
}

fn tail(r: &mut Random) -> String {
    format!("{}{}", blank(r), r.of(&["{sae}", "{rn-sae}", "{rd-sae}", "{ru-sae}", "{rz-sae}", "{rn}", ""]))
}

fn instruction(r: &mut Random) -> String {
    let comma = format!("{},{}", blank(r), blank(r));
    let general = r.of(&GENERAL);
    let wide = |r: &mut Random| format!("zmm{}", r.below(8));
    match r.below(28) {
        0 | 1 => format!("push {}", constant(r, 3)),
        2 => format!("mov {general}{comma}{}", constant(r, 3)),
        3 => format!("{} {general}{comma}{}", r.of(&["add", "sub", "cmp", "and", "xor"]), constant(r, 2)),
        4..=6 => format!("{} {general}{comma}{}", r.of(&["mov", "lea", "add", "xchg"]), memory(r)),
        7 => format!("mov {}{comma}{general}", memory(r)),
        8 => format!("{} {}", r.of(&["inc", "not", "push", "fild", "fadd"]), typed(r, &DWORD)),
        9 => format!("inc {}", typed(r, &["byte", "sbyte", "word", "sword"])),
        10 => format!("fld {}", typed(r, &["qword", "real8", "tbyte", "real10", "real4", "sqword"])),
        11 => format!("{} {}{comma}{}", r.of(&["cmp", "mov", "or"]), typed(r, &["dword", "byte", "word"]), constant(r, 1)),
        12 | 13 => format!("{} {}", r.of(&["jmp", "call", "jz", "jnb", "loop", "jecxz"]), target(r)),
        14 => format!("{} near ptr {}", r.of(&["jmp", "call", "jz"]), target(r)),
        15 => format!("{} short {}", r.of(&["jmp", "jnb", "loop", "jecxz", "call"]), target(r)),
        16 => format!("jmp {}", misplaced(r)),
        17 => format!("{} {}{comma}{general}", r.of(&["xchg", "test", "adc"]), r.of(&GENERAL)),
        18 => format!("mov {}{comma}{}", r.of(&SMALL), if r.once_in(2) { r.of(&SMALL).into() } else { number(r, 7) }),
        19 => format!("{} {}st{comma}st({})", r.of(&["fadd", "fmul"]), blank(r), r.below(8)),
        20 => format!("{} xmm{}{comma}{}", r.of(&["movaps", "addps"]), r.below(8), if r.once_in(2) { format!("xmm{}", r.below(8)) } else { typed(r, &["xmmword", "oword"]) }),
        21 => format!("{} {}", r.of(&["rep", "REPE", "repz", "repne", "repnz"]), r.of(&["movsb", "cmpsb", "scasb", "stosd"])),
        22 => format!("lock inc {}", typed(r, &DWORD)),
        23 => format!("{} {}{}{comma}{}", r.of(&["vmovapd", "vmovups", "vmovdqu32"]), memory(r), decorations(r), wide(r)),
        24 => format!("vaddpd {}{comma}{}{comma}{}{}", wide(r), wide(r), typed(r, &["qword", "zmmword"]), decorations(r)),
        25 => format!("{} {}{comma}{}{comma}{}{}", r.of(&["vaddpd", "vmulps"]), wide(r), wide(r), wide(r), tail(r)),
        26 => match r.below(4) {
            0 => format!("kandw k{}{comma}k{}{comma}k{}", r.below(8), r.below(8), r.below(8)),
            1 => format!("kmovd {general}{comma}k{}", r.below(8)),
            2 => format!("vaddps {}{comma}{}{comma}{}{}{}", wide(r), wide(r), memory(r), decorations(r), tail(r)),
            _ => format!("vaddps {}{}{comma}{}{}{comma}{}", wide(r), decorations(r), wide(r), tail(r), wide(r)),
        },
        _ => format!("{} dword ptr {general}", r.of(&["inc", "neg", "push"])),
    }
}

fn in_capitals(r: &mut Random, text: String) -> String {
    match r.below(6) {
        0 => text.to_ascii_uppercase(),
        1 => text.chars().map(|c| if r.once_in(3) { c.to_ascii_uppercase() } else { c }).collect(),
        _ => text,
    }
}

fn damaged(r: &mut Random, text: String) -> String {
    let mut bytes = text.into_bytes();
    let at = r.below(bytes.len());
    match r.below(3) {
        0 => drop(bytes.remove(at)),
        1 => bytes[at] = r.of(b"+-*()[]{}:,$;h0 5"),
        _ => bytes.insert(at, r.of(b"+-*()[]{}:,$;h0 5")),
    }
    String::from_utf8(bytes).unwrap()
}

pub fn line(r: &mut Random) -> String {
    let text = instruction(r);
    let mut text = in_capitals(r, text);
    if r.once_in(6) {
        text = damaged(r, text);
    }
    let front = r.of(&["", "", "", " ", "\t"]);
    let comment = r.of(&["", "", "", "", " ", "; [ebx], 5", " ; it's", ";;"]);
    if r.once_in(60) { format!("{front}{comment}") } else { format!("{front}{text}{comment}") }
}
