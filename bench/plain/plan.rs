//! Plans, the rules of references and topology, and the numbers of records.
use crate::sheet::{Extra, Kind, Point, Sheet, Value};
use crate::{Fault, Role, Schema};
use std::collections::{HashMap, HashSet};

/// Class, character set, value.
pub type Attribute<'z> = (u32, Option<&'z [u8]>, Value<'z>);

pub struct Record<'z> {
    pub kind: Kind,
    pub class: u32,
    pub points: Vec<Point>,
    /// In order.
    pub attributes: Vec<Attribute<'z>>,
    pub extras: Vec<Extra<'z>>,
    /// The place and the SNS of each end, the origin first.
    pub ends: Vec<(u32, Option<&'z [u8]>)>,
}

pub struct Plan<'z> {
    pub cse: Option<&'z [u8]>,
    pub list: Vec<Record<'z>>,
    /// The node or the face of an arc by each role.
    pub sides: Vec<[Option<u32>; 4]>,
}

impl<'z> Plan<'z> {
    pub fn build(schema: &Schema, sheet: Sheet<'z>) -> Result<Plan<'z>, Fault> {
        let mut names: HashMap<(Kind, &[u8]), u32> = HashMap::with_capacity(sheet.list.len());
        for (i, record) in sheet.list.iter().enumerate() {
            names.entry((record.kind, record.rid)).or_insert(i as u32);
        }
        let kinds: Vec<Kind> = sheet.list.iter().map(|r| r.kind).collect();
        let subset = sheet.list.iter().flat_map(|r| &r.ends).next().map(|e| [e.text[0], e.text[1]]);
        let mut sides = vec![[None; 4]; kinds.len()];
        let mut list = Vec::with_capacity(kinds.len());
        for (i, record) in sheet.list.into_iter().enumerate() {
            let broken = |rule| Err(Fault::Record(rule, i as u64 + 1));
            if names[&(record.kind, record.rid)] != i as u32 {
                return broken(301);
            }
            let Some(class) = schema.class(record.scp[2], record.scp[3]) else {
                return broken(302);
            };
            let mut attributes = Vec::with_capacity(record.attributes.len());
            for attribute in &record.attributes {
                let found = if attribute.atp[2] == b"ATT" { schema.class(attribute.atp[2], attribute.atp[3]) } else { None };
                let Some(atp) = found else {
                    return broken(303);
                };
                let is_number = schema.classes[atp as usize].is_number;
                attributes.push((atp, attribute.tex, Value::of(is_number, attribute.atv)));
            }
            attributes.sort();
            if record.ends.iter().any(|e| Some([e.text[0], e.text[1]]) != subset) {
                return broken(304);
            }
            let mut ends = Vec::with_capacity(record.ends.len());
            for end in &record.ends {
                let kind = Kind::of_code(end.text[2]).filter(|kind| *kind != Kind::Lnk);
                let Some(place) = kind.and_then(|kind| names.get(&(kind, end.text[3]))) else {
                    return broken(305);
                };
                ends.push((*place, end.sns));
            }
            let role = schema.classes[class as usize].role;
            if record.kind == Kind::Lnk && role != Role::Plain {
                let other = if matches!(role, Role::Initial | Role::Final) { Kind::Pno } else { Kind::Pfe };
                let (arc, beside) = match ends.as_slice() {
                    [a, b] if kinds[a.0 as usize] == Kind::Par && kinds[b.0 as usize] == other => (a.0, b.0),
                    [b, a] if kinds[a.0 as usize] == Kind::Par && kinds[b.0 as usize] == other => (a.0, b.0),
                    _ => return broken(306),
                };
                if sides[arc as usize][role as usize].replace(beside).is_some() {
                    return broken(307);
                }
            }
            list.push(Record { kind: record.kind, class, points: record.points, attributes, extras: record.extras, ends });
        }
        Ok(Plan { cse: sheet.cse, list, sides })
    }

    pub fn check(&self) -> Result<(), Fault> {
        let faced: HashSet<u32> = self.sides.iter().flat_map(|s| [s[2], s[3]]).flatten().collect();
        let mut nodes = HashSet::new();
        let mut arcs = HashSet::new();
        for (i, record) in self.list.iter().enumerate() {
            let is_at = |role: Role, point: &Point| match self.sides[i][role as usize] {
                Some(node) => self.list[node as usize].points[0] == *point,
                None => true,
            };
            let rule = match record.kind {
                Kind::Pno if !nodes.insert((record.points[0], record.class, &record.attributes, &record.extras)) => 403,
                Kind::Par if !is_at(Role::Initial, &record.points[0]) => 401,
                Kind::Par if !is_at(Role::Final, record.points.last().unwrap()) => 402,
                Kind::Par if record.points.iter().eq(record.points.iter().rev()) => 404,
                Kind::Par if !arcs.insert(forward(&record.points)) => 405,
                Kind::Pfe if !faced.contains(&(i as u32)) => 406,
                _ => 0,
            };
            if rule != 0 {
                return Err(Fault::Record(rule, i as u64 + 1));
            }
        }
        Ok(())
    }

    pub fn places(&self, kind: Kind) -> Vec<u32> {
        (0..self.list.len() as u32).filter(|i| self.list[*i as usize].kind == kind).collect()
    }
}

fn is_forward(points: &[Point]) -> bool {
    points.iter().lt(points.iter().rev())
}

fn forward(points: &[Point]) -> Vec<Point> {
    if is_forward(points) { points.to_vec() } else { points.iter().rev().copied().collect() }
}

type LinkKey<'k, 'z> = (u32, Vec<(Kind, u32, Option<&'z [u8]>)>, &'k [Attribute<'z>], &'k [Extra<'z>]);

pub struct Labels {
    pub numbers: Vec<u32>,
    pub turned: Vec<bool>,
    pub order: [Vec<u32>; 5],
}

impl Labels {
    pub fn of(schema: &Schema, plan: &Plan) -> Result<Labels, Fault> {
        let list = &plan.list;
        let turned: Vec<bool> = list.iter().map(|r| r.kind == Kind::Par && !is_forward(&r.points)).collect();
        let mut numbers = vec![0; list.len()];
        let number = |numbers: &mut Vec<u32>, order: &[u32]| {
            for (i, place) in order.iter().enumerate() {
                numbers[*place as usize] = i as u32 + 1;
            }
        };
        let mut nodes = plan.places(Kind::Pno);
        nodes.sort_by_key(|i| {
            let r = &list[*i as usize];
            (r.points[0], r.class, &r.attributes, &r.extras)
        });
        number(&mut numbers, &nodes);
        let mut arcs = plan.places(Kind::Par);
        arcs.sort_by_cached_key(|i| forward(&list[*i as usize].points));
        number(&mut numbers, &arcs);
        let mut faces = Vec::new();
        for arc in &arcs {
            let side = &plan.sides[*arc as usize];
            let two = if turned[*arc as usize] { [side[3], side[2]] } else { [side[2], side[3]] };
            for face in two.into_iter().flatten() {
                if numbers[face as usize] == 0 {
                    faces.push(face);
                    numbers[face as usize] = faces.len() as u32;
                }
            }
        }
        let objects = objects(schema, plan, &turned, &numbers)?;
        number(&mut numbers, &objects);
        let mut links = plan.places(Kind::Lnk);
        links.sort_by_cached_key(|i| link_key(schema, plan, &turned, &numbers, u32::MAX, *i));
        number(&mut numbers, &links);
        Ok(Labels { numbers, turned, order: [nodes, arcs, faces, objects, links] })
    }
}

/// The class of a record after the reversals.
pub fn class_after(schema: &Schema, plan: &Plan, turned: &[bool], place: u32) -> u32 {
    let record = &plan.list[place as usize];
    if record.ends.iter().any(|e| turned[e.0 as usize]) { schema.partner(record.class) } else { record.class }
}

fn link_key<'k, 'z>(schema: &Schema, plan: &'k Plan<'z>, turned: &[bool], numbers: &[u32], own: u32, place: u32) -> LinkKey<'k, 'z> {
    let record = &plan.list[place as usize];
    let end = |e: &(u32, Option<&'z [u8]>)| (plan.list[e.0 as usize].kind, if e.0 == own { 0 } else { numbers[e.0 as usize] }, e.1);
    let mut ends: Vec<_> = record.ends.iter().map(end).collect();
    if let [_, others @ ..] = ends.as_mut_slice() {
        others.sort();
    }
    (class_after(schema, plan, turned, place), ends, &record.attributes, &record.extras)
}

/// The objects by their keys, or rule 501.
fn objects(schema: &Schema, plan: &Plan, turned: &[bool], numbers: &[u32]) -> Result<Vec<u32>, Fault> {
    let mut pieces: HashMap<u32, Vec<LinkKey>> = HashMap::new();
    for place in plan.places(Kind::Lnk) {
        let ends = &plan.list[place as usize].ends;
        let mut objects = ends.iter().filter(|e| plan.list[e.0 as usize].kind == Kind::Fea);
        if let (Some(object), None) = (objects.next(), objects.next()) {
            pieces.entry(object.0).or_default().push(link_key(schema, plan, turned, numbers, object.0, place));
        }
    }
    for keys in pieces.values_mut() {
        keys.sort();
    }
    let none = Vec::new();
    let key = |i: &u32| {
        let r = &plan.list[*i as usize];
        (r.class, &r.attributes, &r.extras, pieces.get(i).unwrap_or(&none))
    };
    let mut objects = plan.places(Kind::Fea);
    objects.sort_by(|a, b| key(a).cmp(&key(b)));
    let repeats = objects.windows(2).filter(|w| key(&w[0]) == key(&w[1])).map(|w| w[1]);
    match repeats.min() {
        Some(place) => Err(Fault::Record(501, u64::from(place) + 1)),
        None => Ok(objects),
    }
}
