//! Sets and requests as the original's descriptors, and descriptors as records: a second reading of document 01 and, for places,
//! ST and 512 modules, of document 02.
use crate::module::descriptor::{Exports, ModuleDescriptor, ModuleFlags, Opens, Provides, Requires, RequiresFlags};
use crate::module::reference::{ModuleReference, ModuleSource};
use std::collections::HashSet;
use std::path::PathBuf;

/// A refusal 1 to 3 by document 01: number, which input, offset.
#[derive(Clone, Copy, Debug, PartialEq, Eq)]
pub struct Bad {
    pub number: u8,
    pub which: &'static str,
    pub offset: usize,
}

/// Bytes as the original's text, one char for each: ASCII stays, different bytes stay different, and so does their order.
pub fn text(bytes: &[u8]) -> String {
    bytes.iter().map(|&b| b as char).collect()
}

/// The inverse of `text`.
pub fn bytes(s: &str) -> Vec<u8> {
    s.chars()
        .flat_map(|c| {
            let v = c as u32;
            if v < 256 { vec![v as u8] } else { c.to_string().into_bytes() }
        })
        .collect()
}

struct Body<'a> {
    b: &'a [u8],
    at: usize,
}

impl<'a> Body<'a> {
    fn u8(&mut self) -> Option<u8> {
        let v = *self.b.get(self.at)?;
        self.at += 1;
        Some(v)
    }
    fn u16(&mut self) -> Option<u16> {
        Some(((self.u8()? as u16) << 8) | self.u8()? as u16)
    }
    fn version(&mut self) -> Option<Option<String>> {
        let n = self.u8()? as usize;
        let s = self.b.get(self.at..self.at + n)?;
        self.at += n;
        if s.iter().any(|c| !(0x21..=0x7e).contains(c)) {
            return None;
        }
        Some(if n == 0 { None } else { Some(text(s)) })
    }
    fn name(&mut self) -> Option<String> {
        self.version()?
    }
    fn list(&mut self) -> Option<Vec<String>> {
        let n = self.u16()?;
        (0..n).map(|_| self.name()).collect()
    }
    fn end(&self) -> Option<()> {
        if self.at == self.b.len() { Some(()) } else { None }
    }
}

fn targets(l: Vec<String>) -> Option<Vec<String>> {
    if l.is_empty() { None } else { Some(l) }
}

/// Splits off one record: mark, body, offset of the next.
fn record(b: &[u8], at: usize) -> Option<([u8; 2], &[u8], usize)> {
    let h = b.get(at..at + 4)?;
    let n = ((h[2] as usize) << 8) | h[3] as usize;
    Some(([h[0], h[1]], b.get(at + 4..at + 4 + n)?, at + 4 + n))
}

/// A module of a set while it is read.
struct Found {
    descriptor: ModuleDescriptor,
    automatic: bool,
    location: Option<PathBuf>,
}

/// The modules of a set by their positions, hidden ones too. Their locations are the numbers of their places, and none before the
/// first PL.
pub fn parse_set(b: &[u8]) -> Result<Vec<ModuleReference>, Bad> {
    let bad = |number, offset| Bad { number, which: "set", offset };
    let mut found: Vec<Found> = Vec::new();
    let mut names: HashSet<String> = HashSet::new(); // of the place
    let mut places = 0;
    let mut location = None;
    let mut in_module = false;
    let mut at = 0;
    while at < b.len() {
        let (mark, body, next) = record(b, at).ok_or(bad(1, at))?;
        let mut c = Body { b: body, at: 0 };
        if &mark == b"PL" {
            c.end().ok_or(bad(1, at))?;
            if places == 8 {
                return Err(bad(2, at));
            }
            places += 1;
            location = Some(PathBuf::from(places.to_string()));
            names.clear();
            in_module = false;
        } else if &mark == b"MO" {
            let m = (|| {
                let flags = c.u16()?;
                let auto = c.u8()?;
                if auto > 1 {
                    return None;
                }
                let mut d = ModuleDescriptor::new(c.name()?);
                d.flags = ModuleFlags::from_bits_retain(flags);
                d.version = c.version()?;
                c.end()?;
                Some(Found { descriptor: d, automatic: auto == 1, location: location.clone() })
            })()
            .ok_or(bad(1, at))?;
            if found.len() == 512 {
                return Err(bad(2, at));
            }
            let name = &m.descriptor.name;
            if name == "ALL-UNNAMED" || !names.insert(name.clone()) {
                return Err(bad(3, at));
            }
            places = places.max(1);
            found.push(m);
            in_module = true;
        } else {
            let Some(Found { descriptor: d, .. }) = found.last_mut().filter(|_| in_module) else {
                return Err(bad(1, at));
            };
            (|| {
                match &mark {
                    b"RQ" => {
                        let flags = RequiresFlags::from_bits_retain(c.u16()?);
                        let name = c.name()?;
                        let version = c.version()?;
                        if name == "ALL-UNNAMED" {
                            return None;
                        }
                        d.requires.push(Requires { name, flags, version });
                    }
                    b"EX" => {
                        let package = c.name()?;
                        let targets = targets(c.list()?);
                        d.exports.push(Exports { package, targets });
                    }
                    b"OP" => {
                        let package = c.name()?;
                        let targets = targets(c.list()?);
                        d.opens.push(Opens { package, targets });
                    }
                    b"US" => d.uses.push(c.name()?),
                    b"PV" => {
                        let service = c.name()?;
                        let implementations = c.list()?;
                        d.provides.push(Provides { service, implementations });
                    }
                    b"PK" => {
                        d.packages.insert(c.name()?);
                    }
                    b"MC" => {
                        if d.main_class.is_some() {
                            return None;
                        }
                        d.main_class = Some(c.name()?);
                    }
                    _ => return None,
                }
                c.end()
            })()
            .ok_or(bad(1, at))?;
        }
        at = next;
    }
    Ok(found
        .into_iter()
        .map(|m| {
            let s = if m.automatic { ModuleSource::Automatic } else { ModuleSource::ModulePath };
            ModuleReference::new(m.descriptor, s, m.location)
        })
        .collect())
}

#[derive(Clone, Default, Debug)]
pub struct Request {
    pub roots: Vec<String>,
    pub limit: Option<Vec<String>>,
    pub with_static: bool,
    pub reads: Vec<(String, String)>,
    pub exports: Vec<(String, String, String)>,
    pub opens: Vec<(String, String, String)>,
}

pub fn parse_request(b: &[u8]) -> Result<Request, Bad> {
    let mut r = Request::default();
    let mut at = 0;
    while at < b.len() {
        let bad = Bad { number: 1, which: "request", offset: at };
        let (mark, body, next) = record(b, at).ok_or(bad)?;
        let mut c = Body { b: body, at: 0 };
        (|| {
            match &mark {
                b"RT" => r.roots.push(c.name()?),
                b"LM" => {
                    if r.limit.is_some() {
                        return None;
                    }
                    r.limit = Some(c.list()?);
                }
                b"ST" => {
                    if r.with_static {
                        return None;
                    }
                    r.with_static = true;
                }
                b"AR" => r.reads.push((c.name()?, c.name()?)),
                b"AE" => r.exports.push((c.name()?, c.name()?, c.name()?)),
                b"AO" => r.opens.push((c.name()?, c.name()?, c.name()?)),
                _ => return None,
            }
            c.end()
        })()
        .ok_or(bad)?;
        at = next;
    }
    Ok(r)
}

pub fn parse_both(set: &[u8], request: &[u8]) -> Result<(Vec<ModuleReference>, Request), Bad> {
    if set.len() > 65535 {
        return Err(Bad { number: 2, which: "set", offset: 0 });
    }
    if request.len() > 65535 {
        return Err(Bad { number: 2, which: "request", offset: 0 });
    }
    let s = parse_set(set)?;
    let r = parse_request(request)?;
    Ok((s, r))
}

/// The set form of one descriptor; None if a body is over 65,535 bytes or a name over 255.
pub fn write_descriptor(d: &ModuleDescriptor, auto: bool) -> Option<Vec<u8>> {
    let mut out = Vec::new();
    let mut put = |mark: &[u8], body: Vec<u8>| -> Option<()> {
        out.extend_from_slice(mark);
        out.extend_from_slice(&u16::try_from(body.len()).ok()?.to_be_bytes());
        out.extend_from_slice(&body);
        Some(())
    };
    fn name(s: &str) -> Option<Vec<u8>> {
        let b = bytes(s);
        let mut v = vec![u8::try_from(b.len()).ok()?];
        v.extend(b);
        Some(v)
    }
    fn version(s: &Option<String>) -> Option<Vec<u8>> {
        name(s.as_deref().unwrap_or(""))
    }
    fn list(l: &[String]) -> Option<Vec<u8>> {
        let mut v = u16::try_from(l.len()).ok()?.to_be_bytes().to_vec();
        for s in l {
            v.extend(name(s)?);
        }
        Some(v)
    }
    let mut b = d.flags.bits().to_be_bytes().to_vec();
    b.push(auto as u8);
    b.extend(name(&d.name)?);
    b.extend(version(&d.version)?);
    put(b"MO", b)?;
    for r in &d.requires {
        let mut b = r.flags.bits().to_be_bytes().to_vec();
        b.extend(name(&r.name)?);
        b.extend(version(&r.version)?);
        put(b"RQ", b)?;
    }
    for e in &d.exports {
        put(b"EX", [name(&e.package)?, list(e.targets.as_deref().unwrap_or(&[]))?].concat())?;
    }
    for e in &d.opens {
        put(b"OP", [name(&e.package)?, list(e.targets.as_deref().unwrap_or(&[]))?].concat())?;
    }
    for u in &d.uses {
        put(b"US", name(u)?)?;
    }
    for p in &d.provides {
        put(b"PV", [name(&p.service)?, list(&p.implementations)?].concat())?;
    }
    for p in &d.packages {
        put(b"PK", name(p)?)?;
    }
    if let Some(m) = &d.main_class {
        put(b"MC", name(m)?)?;
    }
    Some(out)
}
