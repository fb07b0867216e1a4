//! Records of a sheet: rules 201 to 208.
use crate::{Fault, Zone, groups, identifier, number, pointer};

#[derive(Clone, Copy, PartialEq, Eq, PartialOrd, Ord, Hash, Debug)]
pub enum Kind {
    Pno,
    Par,
    Pfe,
    Fea,
    Lnk,
}

impl Kind {
    pub fn of_code(code: &[u8]) -> Option<Kind> {
        match code {
            b"PNO" => Some(Kind::Pno),
            b"PAR" => Some(Kind::Par),
            b"PFE" => Some(Kind::Pfe),
            b"FEA" => Some(Kind::Fea),
            b"LNK" => Some(Kind::Lnk),
            _ => None,
        }
    }
}

pub type Point = (i64, i64, Option<i64>);

#[derive(Clone, Copy, PartialEq, Eq, PartialOrd, Ord, Hash, Debug)]
pub enum Value<'z> {
    Number(i64),
    Bytes(&'z [u8]),
}

impl<'z> Value<'z> {
    pub fn of(may_be_number: bool, text: &'z [u8]) -> Value<'z> {
        match number(text) {
            Some(n) if may_be_number => Value::Number(n),
            _ => Value::Bytes(text),
        }
    }
}

pub struct Attribute<'z> {
    pub atp: [&'z [u8]; 4],
    pub tex: Option<&'z [u8]>,
    pub atv: &'z [u8],
}

/// Code, nature, format and value.
pub type Extra<'z> = ([u8; 3], u8, u8, Value<'z>);

pub struct End<'z> {
    pub text: [&'z [u8]; 4],
    pub sns: Option<&'z [u8]>,
}

pub struct Record<'z> {
    pub kind: Kind,
    pub rid: &'z [u8],
    pub scp: [&'z [u8]; 4],
    pub points: Vec<Point>,
    pub ends: Vec<End<'z>>,
    pub attributes: Vec<Attribute<'z>>,
    pub extras: Vec<Extra<'z>>,
}

pub struct Sheet<'z> {
    pub cse: Option<&'z [u8]>,
    pub list: Vec<Record<'z>>,
}

fn point(text: &[u8]) -> Option<Point> {
    let text = text.strip_suffix(b";").unwrap_or(text);
    let mut parts = text.split(|b| *b == b';');
    let x = number(parts.next()?)?;
    let y = number(parts.next()?)?;
    let z = match parts.next() {
        Some(part) => Some(number(part)?),
        None => None,
    };
    parts.next().is_none().then_some((x, y, z))
}

fn is_count(text: &[u8], count: usize) -> bool {
    let digits = &text[text.iter().position(|b| *b != b'0').unwrap_or(text.len())..];
    let shown = if count == 0 { String::new() } else { count.to_string() };
    !text.is_empty() && text.iter().all(u8::is_ascii_digit) && digits == shown.as_bytes()
}

fn record<'z>(group: &'z [Zone]) -> Result<Record<'z>, u16> {
    let kind = Kind::of_code(&group[0].value).ok_or(201u16)?;
    let mut least = u16::MAX;
    let mut breaks = |rule: u16, broken: bool| {
        if broken {
            least = least.min(rule);
        }
    };
    let rid = identifier(group);
    breaks(202, rid.is_none());
    let mut scp = None;
    let (mut classes, mut ends, mut points) = (0, Vec::new(), Vec::new());
    let mut attributes: Vec<Attribute> = Vec::new();
    let mut extras = Vec::new();
    let (mut open, mut atps, mut ftps, mut cors) = (false, 0, 0, 0);
    let mut counts: [Vec<&[u8]>; 3] = [Vec::new(), Vec::new(), Vec::new()];
    for zone in &group[1..] {
        let text = zone.value.as_ref();
        match (&zone.code, kind) {
            (b"RID" | b"QAC" | b"QAP", _) => {}
            (b"SCP", _) => {
                classes += 1;
                scp = pointer(text);
            }
            (b"ATC", _) => counts[0].push(text),
            (b"PTC", Kind::Par) => counts[1].push(text),
            (b"FTC", Kind::Lnk) => counts[2].push(text),
            (b"ATP", _) => {
                atps += 1;
                open = true;
                let atp = pointer(text);
                breaks(204, atp.is_none());
                attributes.push(Attribute { atp: atp.unwrap_or([b""; 4]), tex: None, atv: b"" });
            }
            (b"TEX", _) if open => {
                let attribute = attributes.last_mut().unwrap();
                breaks(204, attribute.tex.is_some());
                attribute.tex = Some(text);
            }
            (b"ATV", _) => {
                breaks(204, !open);
                if open {
                    attributes.last_mut().unwrap().atv = text;
                }
                open = false;
            }
            (b"COR", Kind::Pno | Kind::Par) => {
                cors += 1;
                let place = point(text);
                breaks(206, place.is_none());
                points.extend(place);
            }
            (b"FTP", Kind::Lnk) => {
                ftps += 1;
                let end = pointer(text);
                breaks(207, end.is_none());
                ends.push(End { text: end.unwrap_or([b""; 4]), sns: None });
            }
            (b"SNS", Kind::Lnk) => match ends.last_mut() {
                Some(end) if end.sns.is_none() => end.sns = Some(text),
                _ => breaks(207, true),
            },
            _ => {
                breaks(208, zone.format == b'P' && !text.is_empty());
                let may_be_number = zone.format == b'N' || zone.format == b'R';
                extras.push((zone.code, zone.nature, zone.format, Value::of(may_be_number, text)));
            }
        }
    }
    breaks(203, classes != 1 || scp.is_none());
    for (texts, count) in counts.iter().zip([atps, cors, ftps]) {
        breaks(205, texts.len() > 1 || texts.iter().any(|text| !is_count(text, count)));
    }
    breaks(206, kind == Kind::Pno && cors != 1 || kind == Kind::Par && cors < 2);
    breaks(207, kind == Kind::Lnk && ftps < 2);
    if least < u16::MAX {
        return Err(least);
    }
    Ok(Record { kind, rid: rid.unwrap(), scp: scp.unwrap(), points, ends, attributes, extras })
}

pub fn sheet<'z>(zones: &'z [Zone]) -> Result<Sheet<'z>, Fault> {
    let cse = zones.get(1).filter(|z| &z.code == b"CSE").map(|z| z.value.as_ref());
    let mut list = Vec::new();
    for (i, group) in groups(zones).into_iter().enumerate() {
        list.push(record(group).map_err(|rule| Fault::Record(rule, i as u64 + 1))?);
    }
    Ok(Sheet { cse, list })
}
