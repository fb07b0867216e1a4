//! The canonical file of a bundle, in plain Rust: what `edicad` without words does, for comparison.
//! It shares no code with the crates, and answers refusals in the same words.
use std::borrow::Cow;
use std::collections::HashMap;
use std::io::{Read, Write};
use std::process::ExitCode;

mod plan;
mod sheet;
mod write;

/// A broken rule at a line or a record, from 1.
#[derive(Debug)]
pub enum Fault {
    Line(u16, u64),
    Record(u16, u64),
}

pub struct Zone<'a> {
    pub code: [u8; 3],
    pub nature: u8,
    pub format: u8,
    pub value: Cow<'a, [u8]>,
}

enum Last {
    Nothing,
    Zone,
    Remark,
}

fn content(line: &[u8]) -> &[u8] {
    let line = line.strip_suffix(b"\n").unwrap_or(line);
    line.strip_suffix(b"\r").unwrap_or(line)
}

/// Code, nature, format and value of a line, or the rule that it breaks.
fn spelled(line: &[u8]) -> Result<([u8; 3], u8, u8, &[u8]), u16> {
    if line.len() < 8 {
        return Err(101);
    }
    let head = &line[..8];
    let is_code = head[..3].iter().all(|b| b.is_ascii_uppercase() || b.is_ascii_digit());
    let is_printable = head[3..5].iter().all(|b| (0x20..=0x7e).contains(b));
    let is_length = head[5].is_ascii_digit() && head[6].is_ascii_digit() && head[7] == b':';
    if !(is_code && is_printable && is_length) {
        return Err(101);
    }
    let length = usize::from(head[5] - b'0') * 10 + usize::from(head[6] - b'0');
    let rest = &line[8..];
    if rest.len() < length {
        return Err(102);
    }
    if rest[length..].iter().any(|b| *b != b' ') {
        return Err(103);
    }
    Ok(([head[0], head[1], head[2]], head[3], head[4], &rest[..length]))
}

/// The zones of a file, or the least broken rule of 101 to 110.
pub fn zones(bytes: &[u8]) -> Result<Vec<Zone<'_>>, Fault> {
    let mut zones: Vec<Zone> = Vec::new();
    let mut last = Last::Nothing;
    let (mut begun, mut set, mut records, mut ended) = (false, false, 0u64, false);
    let mut number = 0;
    for line in bytes.split_inclusive(|b| *b == b'\n') {
        number += 1;
        let line = content(line);
        if line.iter().all(|b| *b == b' ') {
            continue;
        }
        let (code, nature, format, value) = spelled(line).map_err(|rule| Fault::Line(rule, number))?;
        match &code {
            b"NEX" => match last {
                Last::Nothing => return Err(Fault::Line(104, number)),
                Last::Remark => {}
                Last::Zone => zones.last_mut().unwrap().value.to_mut().extend_from_slice(value),
            },
            b"REM" => last = Last::Remark,
            _ => {
                let rule = match &code {
                    b"BOM" if ended => 107,
                    b"BOM" if begun => 108,
                    b"BOM" => 0,
                    _ if !begun => 105,
                    _ if ended => 107,
                    b"CSE" if set || records > 0 => 108,
                    b"CSE" | b"EOM" => 0,
                    b"RTY" if records == 9_999_999 => 110,
                    b"RTY" => 0,
                    _ if records == 0 => 109,
                    _ => 0,
                };
                if rule != 0 {
                    return Err(Fault::Line(rule, number));
                }
                match &code {
                    b"BOM" => begun = true,
                    b"CSE" => set = true,
                    b"EOM" => ended = true,
                    b"RTY" => records += 1,
                    _ => {}
                }
                last = Last::Zone;
                zones.push(Zone { code, nature, format, value: Cow::Borrowed(value) });
            }
        }
    }
    if ended { Ok(zones) } else { Err(Fault::Line(106, number + 1)) }
}

/// The groups of the zones: each begins with RTY.
pub fn groups<'z, 'a>(zones: &'z [Zone<'a>]) -> Vec<&'z [Zone<'a>]> {
    let mut starts: Vec<usize> = zones.iter().enumerate().filter(|(_, z)| &z.code == b"RTY").map(|(i, _)| i).collect();
    starts.push(zones.len() - 1);
    starts.windows(2).map(|w| &zones[w[0]..w[1]]).collect()
}

pub fn pointer(text: &[u8]) -> Option<[&[u8]; 4]> {
    let mut parts = text.split(|b| *b == b';');
    let four = [parts.next()?, parts.next()?, parts.next()?, parts.next()?];
    parts.next().is_none().then_some(four)
}

/// A number in millionths.
pub fn number(text: &[u8]) -> Option<i64> {
    let (minus, digits) = match text {
        [b'-', rest @ ..] => (true, rest),
        [b'+', rest @ ..] => (false, rest),
        _ => (false, text),
    };
    let (whole, fraction) = match digits.iter().position(|b| *b == b'.') {
        Some(i) => (&digits[..i], &digits[i + 1..]),
        None => (digits, &digits[..0]),
    };
    if whole.is_empty() && fraction.is_empty() || !whole.iter().chain(fraction).all(u8::is_ascii_digit) {
        return None;
    }
    let whole = &whole[whole.iter().position(|b| *b != b'0').unwrap_or(whole.len())..];
    let fraction = &fraction[..fraction.iter().rposition(|b| *b != b'0').map_or(0, |i| i + 1)];
    if whole.len() > 9 || fraction.len() > 6 {
        return None;
    }
    let value = |text: &[u8]| text.iter().fold(0i64, |n, b| n * 10 + i64::from(b - b'0'));
    let size = value(whole) * 1_000_000 + value(fraction) * 10i64.pow(6 - fraction.len() as u32);
    Some(if minus { -size } else { size })
}

/// The kinds of links.
#[derive(Clone, Copy, PartialEq, Eq, PartialOrd, Ord, Debug)]
pub enum Role {
    Initial,
    Final,
    Left,
    Right,
    Plain,
}

impl Role {
    pub fn exchanged(self) -> Role {
        match self {
            Role::Initial => Role::Final,
            Role::Final => Role::Initial,
            Role::Left => Role::Right,
            Role::Right => Role::Left,
            Role::Plain => Role::Plain,
        }
    }

    fn of_code(code: &[u8]) -> Option<Role> {
        match code {
            b"IND" => Some(Role::Initial),
            b"FND" => Some(Role::Final),
            b"LPO" => Some(Role::Left),
            b"RPO" => Some(Role::Right),
            _ => None,
        }
    }
}

pub struct Class {
    pub rty: Vec<u8>,
    pub rid: Vec<u8>,
    pub role: Role,
    pub letter: u8,
    pub is_number: bool,
}

pub struct Schema {
    pub classes: Vec<Class>,
    pub by_name: HashMap<(Vec<u8>, Vec<u8>), u32>,
    pub of_role: [Option<u32>; 4],
}

impl Schema {
    pub fn class(&self, rty: &[u8], rid: &[u8]) -> Option<u32> {
        self.by_name.get(&(rty.to_vec(), rid.to_vec())).copied()
    }

    pub fn partner(&self, class: u32) -> u32 {
        match self.classes[class as usize].role {
            Role::Plain => class,
            role => self.of_role[role.exchanged() as usize].unwrap(),
        }
    }
}

fn values<'z>(group: &'z [Zone], code: &[u8; 3]) -> Vec<&'z [u8]> {
    group.iter().filter(|z| &z.code == code).map(|z| z.value.as_ref()).collect()
}

pub fn identifier<'z>(group: &'z [Zone]) -> Option<&'z [u8]> {
    match values(group, b"RID").as_slice() {
        [rid] if !rid.is_empty() && rid.len() <= 255 && !rid.contains(&b';') => Some(*rid),
        _ => None,
    }
}

fn named<'z>(file: &str, records: &[&'z [Zone]]) -> Result<Vec<(&'z [u8], &'z [u8])>, String> {
    records
        .iter()
        .enumerate()
        .map(|(i, g)| match identifier(g) {
            Some(rid) => Ok((g[0].value.as_ref(), rid)),
            None => Err(format!("refused {file} 601 record {}", i + 1)),
        })
        .collect()
}

fn places<'z>(file: &str, names: &[(&'z [u8], &'z [u8])]) -> Result<HashMap<(&'z [u8], &'z [u8]), usize>, String> {
    let mut places = HashMap::new();
    for (i, name) in names.iter().enumerate() {
        if places.insert(*name, i).is_some() {
            return Err(format!("refused {file} 602 record {}", i + 1));
        }
    }
    Ok(places)
}

fn load(scd: &[u8], dic: &[u8]) -> Result<Schema, String> {
    let in_file = |file: &str, fault: Fault| match fault {
        Fault::Line(rule, at) => format!("refused {file} {rule} line {at}"),
        Fault::Record(rule, at) => format!("refused {file} {rule} record {at}"),
    };
    let scd = zones(scd).map_err(|f| in_file("scd", f))?;
    let dic = zones(dic).map_err(|f| in_file("dic", f))?;
    let (scd, dic) = (groups(&scd), groups(&dic));
    let names = named("scd", &scd)?;
    let words = named("dic", &dic)?;
    places("scd", &names)?;
    let words = places("dic", &words)?;
    let mut classes = Vec::new();
    for (i, group) in scd.iter().enumerate() {
        let word_type = match values(group, b"DIP").first() {
            None => None,
            Some(text) => {
                let word = pointer(text).and_then(|p| words.get(&(p[2], p[3])));
                let word = word.ok_or_else(|| format!("refused scd 603 record {}", i + 1))?;
                values(dic[*word], b"TYP").first().copied()
            }
        };
        let (rty, rid) = names[i];
        let kind = values(group, b"KND").first().and_then(|code| Role::of_code(code));
        classes.push(Class {
            rty: rty.to_vec(),
            rid: rid.to_vec(),
            role: kind.or_else(|| Role::of_code(rid)).unwrap_or(Role::Plain),
            letter: match word_type {
                Some([letter @ b'A'..=b'Z']) => *letter,
                _ => b'A',
            },
            is_number: matches!(word_type, Some(b"N" | b"R")),
        });
    }
    classes.sort_by(|a, b| (&a.rty, &a.rid).cmp(&(&b.rty, &b.rid)));
    let mut of_role = [None; 4];
    for (i, class) in classes.iter().enumerate().filter(|(_, c)| c.role != Role::Plain) {
        if class.rty.contains(&b';') {
            return Err("refused kinds 604".to_string());
        }
        if of_role[class.role as usize].replace(i as u32).is_some() {
            return Err("refused kinds 604".to_string());
        }
    }
    if of_role[0].is_some() != of_role[1].is_some() || of_role[2].is_some() != of_role[3].is_some() {
        return Err("refused kinds 604".to_string());
    }
    let by_name = classes.iter().enumerate().map(|(i, c)| ((c.rty.clone(), c.rid.clone()), i as u32)).collect();
    Ok(Schema { classes, by_name, of_role })
}

/// The three files of a bundle.
fn parts(bytes: &[u8]) -> [&[u8]; 3] {
    let mut ends = Vec::new();
    let mut at = 0;
    for line in bytes.split_inclusive(|b| *b == b'\n') {
        at += line.len();
        if line.starts_with(b"EOM") {
            ends.push(at);
            if ends.len() == 2 {
                break;
            }
        }
    }
    let first = ends.first().copied().unwrap_or(bytes.len());
    let second = ends.get(1).copied().unwrap_or(bytes.len());
    [&bytes[..first], &bytes[first..second], &bytes[second..]]
}

fn canonical(bundle: &[u8]) -> Result<Vec<u8>, String> {
    let [scd, dic, vec] = parts(bundle);
    let schema = load(scd, dic)?;
    let of_sheet = |fault: Fault| match fault {
        Fault::Line(rule, at) => format!("refused {rule} line {at}"),
        Fault::Record(rule, at) => format!("refused {rule} record {at}"),
    };
    let zones = zones(vec).map_err(of_sheet)?;
    let sheet = sheet::sheet(&zones).map_err(of_sheet)?;
    let plan = plan::Plan::build(&schema, sheet).map_err(of_sheet)?;
    plan.check().map_err(of_sheet)?;
    let labels = plan::Labels::of(&schema, &plan).map_err(of_sheet)?;
    Ok(write::canon(&schema, &plan, &labels))
}

fn main() -> ExitCode {
    let mut bundle = Vec::new();
    std::io::stdin().lock().read_to_end(&mut bundle).expect("standard input is read");
    let (text, status) = match canonical(&bundle) {
        Ok(file) => (file, 0),
        Err(line) => ((line + "\n").into_bytes(), 2),
    };
    std::io::stdout().lock().write_all(&text).expect("standard output is written");
    ExitCode::from(status)
}
