//! Lines of an own grammar, read by the port of the reader, printed again in another form from what was read, and both assembled by asmc:
//! the bytes have to be the same. Where a width was read, the distance in them has to have so many bits.
//!
//!     reader run ASMC FOLDER LINES SEED
//!     reader stored LINES SEED

mod grammar;
mod port;

use grammar::Random;
use port::{Operand, Reading};
use std::collections::BTreeMap;
use std::process::{Command, Stdio};

fn main() {
    let words: Vec<String> = std::env::args().skip(1).collect();
    let words: Vec<&str> = words.iter().map(|word| &word[..]).collect();
    match words[..] {
        ["run", asmc, folder, lines, seed] => run(asmc, folder, number(lines), number(seed)),
        ["stored", lines, seed] => stored(number(lines), number(seed)),
        _ => panic!("see the head of main.rs"),
    }
}

fn number(word: &str) -> u64 {
    word.parse().unwrap_or_else(|_| panic!("{word} is no number"))
}

// ---- Another form of what was read

/// Each way to write so many times these registers, without a displacement.
fn registers(counts: &[(u8, u128)]) -> Vec<String> {
    let mut times: BTreeMap<u8, u128> = BTreeMap::new();
    for (register, n) in counts {
        *times.entry(*register).or_default() += n;
    }
    let times: Vec<(&str, u128)> = times.into_iter().map(|(register, n)| (port::register_name(register), n)).collect();
    match times[..] {
        [] => vec![],
        [(r, 1)] => vec![r.into(), format!("1 * {r}")],
        [(r, 2)] => vec![format!("2 * {r}"), format!("{r} + {r}")],
        [(r, n @ (3 | 5 | 9))] => vec![format!("{r} + {} * {r}", n - 1)],
        [(r, n)] => vec![format!("{n} * {r}")],
        [(r, n), (s, m)] => {
            let mut forms = Vec::new();
            if n == 1 {
                forms.extend([format!("{r} + {m} * {s}"), if m == 1 { format!("{r} + {s}") } else { format!("{m} * {s} + {r}") }]);
            }
            if m == 1 {
                forms.extend([format!("{s} + {n} * {r}"), if n == 1 { format!("{s} + {r}") } else { format!("{n} * {r} + {s}") }]);
            }
            forms
        }
        _ => vec![times.iter().map(|(r, n)| format!("{n} * {r}")).collect::<Vec<_>>().join(" + ")],
    }
}

fn signed(n: u32) -> String {
    let n = n as i32;
    format!("{} {}", if n < 0 { "-" } else { "+" }, n.unsigned_abs())
}

/// The word that says a width, and a blank, or nothing.
fn width_word(width: Option<usize>) -> String {
    port::WIDTHS.iter().find(|w| Some(w.1) == width).map_or(String::new(), |w| format!("{} ", w.0))
}

fn operand_forms(operand: &Operand) -> Vec<String> {
    match operand {
        Operand::Register(register) => vec![port::register_name(*register).into()],
        Operand::Immediate(n) => vec![format!("{n}"), format!("{}", *n as i32)],
        Operand::Sized(width, n) => vec![format!("{}{n}", width_word(Some(*width))), format!("{}{}", width_word(Some(*width)), *n as i32)],
        Operand::Branch(width, target) => vec![format!("{}$ {}", width_word(*width), signed(*target))],
        Operand::Address { label, segment, counts, disp, mask, broadcast } => {
            let mask = mask.map_or(String::new(), |mask| format!("{{{}}}", port::register_name(mask)));
            let broadcast = broadcast.map_or(String::new(), |n| format!("{{1to{n}}}"));
            let label = label.map_or(String::new(), |label| format!("{label} ptr "));
            let segment = segment.map_or(String::new(), |segment| format!("{}:", port::register_name(segment)));
            let inside = if counts.is_empty() {
                vec![format!("{disp}")]
            } else {
                registers(counts).into_iter().map(|form| if *disp == 0 { form } else { format!("{form} {}", signed(*disp)) }).collect()
            };
            inside.into_iter().map(|inside| format!("{label}{segment}[{inside}]{mask}{broadcast}")).collect()
        }
    }
}

/// A lone number in a bracket, without a segment: MASM takes it for an immediate, and the reader for an address.
fn is_lone(reading: &Reading) -> bool {
    let Reading::Shows { operands, .. } = reading else { return false };
    operands.iter().any(|operand| matches!(operand, Operand::Address { segment: None, counts, .. } if counts.is_empty()))
}

/// The code ends in the distance, in as many bits as were read; true where no width was read.
fn is_as_wide(reading: &Reading, code: &[u8]) -> bool {
    let Reading::Shows { operands, .. } = reading else { return true };
    let [Operand::Branch(Some(width), target)] = operands[..] else { return true };
    let distance = target.wrapping_sub(code.len() as u32).to_le_bytes();
    code.ends_with(&distance[..width / 8])
}

fn forms(reading: &Reading) -> Vec<String> {
    let Reading::Shows { prefixes, mnemonic, operands, tail } = reading else { return vec![] };
    let head: String = prefixes.iter().map(|prefix| prefix.to_ascii_lowercase() + " ").collect::<String>() + mnemonic;
    let mut forms = vec![head];
    for (at, operand) in operands.iter().enumerate() {
        let between = if at == 0 { " " } else { ", " };
        forms = forms.iter().flat_map(|form| operand_forms(operand).into_iter().map(move |more| format!("{form}{between}{more}"))).collect();
    }
    if let Some(tail) = tail {
        forms.iter_mut().for_each(|form| *form += &format!(" {tail}"));
    }
    forms
}

// ---- asmc

/// What stands after each line, so that its bytes can be told from the next one's.
const MARK: [u8; 8] = [0xF1, 0xE2, 0xD3, 0xC4, 0xB5, 0xA6, 0x97, 0x88];
const HEAD: &str = ".686p\n.mmx\n.xmm\n.model flat\nassume fs:nothing, gs:nothing\n.code\n";

/// Every parenthesis, bracket and brace is closed by its like, up to the comment. Any other line asmc refuses, but only at the end of the file.
fn is_closed(line: &str) -> bool {
    let mut open = Vec::new();
    for c in line.split(';').next().unwrap().chars() {
        match c {
            '(' | '[' | '{' => open.push(c),
            ')' if open.pop() != Some('(') => return false,
            ']' if open.pop() != Some('[') => return false,
            '}' if open.pop() != Some('{') => return false,
            _ => {}
        }
    }
    open.is_empty()
}

/// The bytes of each line, or nothing where asmc refuses it.
fn assembled(asmc: &str, folder: &str, lines: &[&str]) -> Vec<Option<Vec<u8>>> {
    let (file, made) = (format!("{folder}/lines.asm"), format!("{folder}/lines.bin"));
    let mut taken: Vec<usize> = (0..lines.len()).filter(|at| is_closed(lines[*at])).collect();
    loop {
        let _ = std::fs::remove_file(&made);
        let mark = MARK.map(|byte| byte.to_string()).join(",");
        let text: String = taken.iter().map(|at| format!("{}\ndb {mark}\n", lines[*at])).collect();
        std::fs::write(&file, format!("{HEAD}{text}end\n")).expect("the folder can be written");
        let said = Command::new(asmc).arg("lines.asm").current_dir(folder).stdin(Stdio::null()).output().expect("asmc can be started");
        let said = String::from_utf8_lossy(&said.stdout).into_owned() + &String::from_utf8_lossy(&said.stderr);
        let head = HEAD.lines().count();
        let wrong: Vec<usize> = said
            .lines()
            .filter(|line| line.contains("error"))
            .filter_map(|line| line.split_once('(')?.1.split_once(')')?.0.parse::<usize>().ok())
            .map(|at| (at - head - 1) / 2)
            .collect();
        assert!(wrong.iter().all(|at| *at < taken.len()), "asmc said {said}");
        if wrong.is_empty() {
            let bytes = std::fs::read(&made).unwrap_or_default();
            let mut all = vec![None; lines.len()];
            let mut rest = &bytes[..];
            for at in &taken {
                let Some(end) = rest.windows(8).position(|window| window == MARK) else {
                    panic!("asmc made no code of {:?} and said {said}", lines[*at])
                };
                all[*at] = (end > 0).then(|| rest[..end].to_vec());
                rest = &rest[end + 8..];
            }
            return all;
        }
        taken = taken.into_iter().enumerate().filter(|(at, _)| !wrong.contains(at)).map(|(_, line)| line).collect();
        if taken.is_empty() {
            return vec![None; lines.len()];
        }
    }
}

fn run(asmc: &str, folder: &str, count: u64, seed: u64) {
    let mut random = Random(seed);
    let (mut taken, mut same, mut lone, mut blank) = (0, 0, 0, 0);
    let (mut misread, mut refused, mut alone) = (Vec::new(), Vec::new(), Vec::new());
    let mut left = count;
    while left > 0 {
        let lines: Vec<String> = (0..left.min(200)).map(|_| grammar::line(&mut random)).collect();
        left -= lines.len() as u64;
        let bytes = assembled(asmc, folder, &lines.iter().map(|line| &line[..]).collect::<Vec<_>>());
        let mut open: Vec<(usize, Vec<String>)> = Vec::new();
        for (at, line) in lines.iter().enumerate() {
            let reading = port::read(0, line);
            match (&reading, &bytes[at]) {
                (Reading::NoInstruction, None) => blank += 1,
                (Reading::NoInstruction, Some(_)) => misread.push(line.clone()),
                (Reading::Refused, None) => {}
                (Reading::Refused, Some(_)) => refused.push(line.clone()),
                (Reading::Shows { .. }, None) => alone.push(line.clone()),
                (Reading::Shows { .. }, Some(code)) if !is_as_wide(&reading, code) => misread.push(format!("{line}   has another width")),
                (Reading::Shows { .. }, Some(_)) if is_lone(&reading) => lone += 1,
                (Reading::Shows { .. }, Some(_)) => {
                    taken += 1;
                    open.push((at, forms(&reading)));
                }
            }
        }
        for round in 0.. {
            let now: Vec<(usize, &str)> = open.iter().filter_map(|(at, forms)| Some((*at, &forms.get(round)?[..]))).collect();
            if now.is_empty() {
                break;
            }
            let again = assembled(asmc, folder, &now.iter().map(|(_, form)| *form).collect::<Vec<_>>());
            let found: Vec<usize> = now.iter().zip(&again).filter(|((at, _), again)| **again == bytes[*at]).map(|((at, _), _)| *at).collect();
            same += found.len();
            open.retain(|(at, _)| !found.contains(at));
        }
        // `push $` has other bytes at another place, so what is left is asked once more, each line alone
        let alone_bytes = |line: &str| assembled(asmc, folder, &[line]).remove(0);
        same += open.len();
        open.retain(|(at, forms)| !forms.iter().any(|form| alone_bytes(form) == alone_bytes(&lines[*at])));
        same -= open.len();
        misread.extend(open.into_iter().map(|(at, forms)| format!("{}   read as   {}", lines[at], forms.first().map_or("", |form| form))));
    }
    println!("{count} lines, of which {blank} hold no instruction for both");
    println!("both take {taken}: of {same} the other form has the same bytes, {} are misread", misread.len());
    println!("{lone} more hold a lone number in a bracket, which MASM takes for an immediate");
    println!("asmc takes {} that the reader refuses, and the reader {} that asmc refuses", refused.len(), alone.len());
    for (name, lines) in [("misread", &misread), ("refused by the reader alone", &refused), ("refused by asmc alone", &alone)] {
        std::fs::write(format!("{folder}/{}", name.replace(' ', "-")), lines.join("\n") + "\n").expect("the folder can be written");
        for line in lines.iter().take(if name == "misread" { 100 } else { 12 }) {
            println!("{name}: {line}");
        }
    }
    std::process::exit(if misread.is_empty() { 0 } else { 1 });
}

// ---- Stored lines, as a module of theorems

fn list(items: impl Iterator<Item = String>) -> String {
    let items: String = items.map(|item| item + " ∷ ").collect();
    if items.is_empty() { "[]".into() } else { format!("({items}[])") }
}

fn option(name: Option<String>) -> String {
    name.map_or("none".into(), |name| format!("(some {name})"))
}

fn of_antt(operand: &Operand) -> String {
    match operand {
        Operand::Register(r) => format!("register {r}"),
        Operand::Immediate(n) => format!("immediate {n}"),
        Operand::Sized(width, n) => format!("sized {width} {n}"),
        Operand::Branch(width, target) => format!("branch {} {target}", option(width.map(|width| width.to_string()))),
        Operand::Address { label, segment, counts, disp, mask, broadcast } => {
            let label = option(label.map(|label| label[..1].to_uppercase() + &label[1..]));
            let segment = option(segment.map(|segment| segment.to_string()));
            let counts = list(counts.iter().map(|(r, n)| format!("({r}, {n})")));
            let mask = option(mask.map(|mask| mask.to_string()));
            let broadcast = option(broadcast.map(|n| n.to_string()));
            format!("address {label} {segment} (times_in {counts}) {disp} {mask} {broadcast}")
        }
    }
}

fn stored(count: u64, seed: u64) {
    let mut random = Random(seed);
    let mut entries = Vec::new();
    while entries.len() < count as usize {
        let line = grammar::line(&mut random);
        if line.len() > 60 {
            continue;
        }
        let reading = match port::read(0x1000, &line) {
            Reading::NoInstruction => "no_instruction".into(),
            Reading::Refused => "refused".into(),
            Reading::Shows { prefixes, mnemonic, operands, tail } => {
                let tail = option(port::TAILS.iter().find(|entry| Some(entry.0) == tail).map(|entry| entry.1.into()));
                let prefixes = list(prefixes.iter().map(|prefix| prefix.to_string()));
                format!("says {prefixes} \"{mnemonic}\" {} {tail}", list(operands.iter().map(of_antt)))
            }
        };
        entries.push(format!("    (\"{}\", {reading}) ∷\n", line.replace('\t', "\\t")));
    }
    print!("{}", include_str!("stored-head"));
    for (at, part) in entries.chunks(40).enumerate() {
        println!("\nlines_{at} : List (String × Reading)\nlines_{at} =\n{}    []", part.concat());
        println!("\nread_{at} : Read lines_{at}\nunfolding read lines_{at}\nread_{at} = refl");
    }
    // none may go missing in silence
    let parts = entries.chunks(40).len();
    let names = |before: &str| (0..parts).map(|at| format!("{before}lines_{at}")).collect::<Vec<_>>();
    println!(
        "\n-- a second hold: how many there are\nstored_lines : {} ≡ {count}\nunfolding {}\nstored_lines = refl",
        names("length ").join(" + "),
        names("").join(" ")
    );
}
