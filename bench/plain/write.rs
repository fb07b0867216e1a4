//! The canonical layout.
use crate::plan::{Labels, Plan, class_after};
use crate::sheet::{Kind, Point, Value};
use crate::Schema;

fn zone(out: &mut Vec<u8>, head: &[u8; 5], value: &[u8]) {
    let first = value.len().min(72);
    out.extend_from_slice(head);
    out.extend_from_slice(format!("{first:02}:").as_bytes());
    out.extend_from_slice(&value[..first]);
    out.extend_from_slice(b"\r\n");
    for piece in value[first..].chunks(72) {
        out.extend_from_slice(format!("NEXT {:02}:", piece.len()).as_bytes());
        out.extend_from_slice(piece);
        out.extend_from_slice(b"\r\n");
    }
}

fn plain(number: i64) -> String {
    let size = number.unsigned_abs();
    let sign = if number < 0 { "-" } else { "" };
    let fraction = format!("{:06}", size % 1_000_000);
    let fraction = fraction.trim_end_matches('0');
    let point = if fraction.is_empty() { "" } else { "." };
    format!("{sign}{}{point}{fraction}", size / 1_000_000)
}

fn signed(number: i64) -> String {
    let sign = if number < 0 { "" } else { "+" };
    format!("{sign}{}", plain(number))
}

fn place(out: &mut Vec<u8>, point: &Point) {
    let mut text = format!("{};{};", signed(point.0), signed(point.1));
    if let Some(height) = point.2 {
        text += &format!("{};", signed(height));
    }
    zone(out, b"CORCC", text.as_bytes());
}

fn value(out: &mut Vec<u8>, head: &[u8; 5], value: &Value) {
    match value {
        Value::Number(number) => zone(out, head, plain(*number).as_bytes()),
        Value::Bytes(text) => zone(out, head, text),
    }
}

fn class(out: &mut Vec<u8>, head: &[u8; 5], schema: &Schema, class: u32) {
    let class = &schema.classes[class as usize];
    zone(out, head, &[b"CANON;SD;", class.rty.as_slice(), b";", class.rid.as_slice()].concat());
}

const CODES: [(&str, &str); 5] = [("PNO", "N"), ("PAR", "A"), ("PFE", "F"), ("FEA", "O"), ("LNK", "L")];

fn record(out: &mut Vec<u8>, schema: &Schema, plan: &Plan, labels: &Labels, i: u32) {
    let record = &plan.list[i as usize];
    let (code, letter) = CODES[record.kind as usize];
    zone(out, b"RTYSA", code.as_bytes());
    zone(out, b"RIDSA", format!("{letter}{}", labels.numbers[i as usize]).as_bytes());
    class(out, b"SCPCP", schema, class_after(schema, plan, &labels.turned, i));
    if record.kind == Kind::Par {
        zone(out, b"PTCSN", record.points.len().to_string().as_bytes());
    }
    if labels.turned[i as usize] {
        record.points.iter().rev().for_each(|point| place(out, point));
    } else {
        record.points.iter().for_each(|point| place(out, point));
    }
    if record.kind == Kind::Lnk {
        zone(out, b"FTCSN", record.ends.len().to_string().as_bytes());
        let mut ends = record.ends.clone();
        ends[1..].sort_by_key(|e| (plan.list[e.0 as usize].kind, labels.numbers[e.0 as usize], e.1));
        for (target, sns) in ends {
            let (code, letter) = CODES[plan.list[target as usize].kind as usize];
            zone(out, b"FTPCP", format!("CANON;S;{code};{letter}{}", labels.numbers[target as usize]).as_bytes());
            if let Some(sns) = sns {
                zone(out, b"SNSSA", sns);
            }
        }
    }
    zone(out, b"ATCSN", record.attributes.len().to_string().as_bytes());
    for (atp, set, text) in &record.attributes {
        class(out, b"ATPCP", schema, *atp);
        if let Some(set) = set {
            zone(out, b"TEXT ", set);
        }
        value(out, &[b'A', b'T', b'V', b'S', schema.classes[*atp as usize].letter], text);
    }
    for (code, nature, format, text) in &record.extras {
        value(out, &[code[0], code[1], code[2], *nature, *format], text);
    }
}

pub fn canon(schema: &Schema, plan: &Plan, labels: &Labels) -> Vec<u8> {
    let mut out = Vec::new();
    zone(&mut out, b"BOMT ", b"CANON.VEC");
    if let Some(cse) = plan.cse {
        zone(&mut out, b"CSET ", cse);
    }
    for i in labels.order.iter().flatten() {
        record(&mut out, schema, plan, labels, *i);
    }
    zone(&mut out, b"EOMT ", b"");
    out
}
