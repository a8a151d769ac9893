//! A second class file reader (JVM Specification 4.1, 4.4, 4.7.25 to 4.7.27; names by document 01). It fills the stand-in types
//! that the original's `from_class_file` reads. An error is the offset of refusal 8.
use crate::records::text;
use ristretto_classfile::attributes::*;
use ristretto_classfile::{ClassFile, Constant, ConstantPool};

struct Cur<'a> {
    b: &'a [u8],
    at: usize,
    end: usize,
}

impl<'a> Cur<'a> {
    fn take(&mut self, n: usize) -> Option<&'a [u8]> {
        if self.end - self.at < n {
            return None;
        }
        let s = &self.b[self.at..self.at + n];
        self.at += n;
        Some(s)
    }
    fn u1(&mut self) -> Option<u8> {
        Some(self.take(1)?[0])
    }
    fn u2(&mut self) -> Option<u16> {
        let s = self.take(2)?;
        Some(u16::from_be_bytes([s[0], s[1]]))
    }
    fn u4(&mut self) -> Option<u32> {
        let s = self.take(4)?;
        Some(u32::from_be_bytes([s[0], s[1], s[2], s[3]]))
    }
    fn u2s(&mut self) -> Option<Vec<u16>> {
        let n = self.u2()?;
        (0..n).map(|_| self.u2()).collect()
    }
}

fn constant(c: &mut Cur, major: u16) -> Option<Constant> {
    Some(match c.u1()? {
        1 => {
            let n = c.u2()? as usize;
            Constant::Utf8(text(c.take(n)?))
        }
        3 => Constant::Integer(c.u4()? as i32),
        4 => Constant::Float(c.u4()?),
        5 => Constant::Long(((c.u4()? as i64) << 32) | c.u4()? as i64),
        6 => Constant::Double(((c.u4()? as u64) << 32) | c.u4()? as u64),
        7 => Constant::Class(c.u2()?),
        8 => Constant::String(c.u2()?),
        9 => Constant::FieldRef(c.u2()?, c.u2()?),
        10 => Constant::MethodRef(c.u2()?, c.u2()?),
        11 => Constant::InterfaceMethodRef(c.u2()?, c.u2()?),
        12 => Constant::NameAndType(c.u2()?, c.u2()?),
        15 => Constant::MethodHandle(c.u1()?, c.u2()?),
        16 => Constant::MethodType(c.u2()?),
        17 if major >= 55 => Constant::Dynamic(c.u2()?, c.u2()?),
        18 => Constant::InvokeDynamic(c.u2()?, c.u2()?),
        19 => Constant::Module(c.u2()?),
        20 => Constant::Package(c.u2()?),
        _ => return None,
    })
}

fn module(c: &mut Cur) -> Option<ModuleAttribute> {
    let module_name_index = c.u2()?;
    let flags = ModuleAccessFlags::from_bits_truncate(c.u2()?);
    let version_index = c.u2()?;
    let n = c.u2()?;
    let requires = (0..n)
        .map(|_| Some(Requires { index: c.u2()?, flags: RequiresFlags::from_bits_truncate(c.u2()?), version_index: c.u2()? }))
        .collect::<Option<Vec<_>>>()?;
    let n = c.u2()?;
    let exports = (0..n)
        .map(|_| Some(Exports { index: c.u2()?, flags: ExportsFlags::from_bits_truncate(c.u2()?), to_index: c.u2s()? }))
        .collect::<Option<Vec<_>>>()?;
    let n = c.u2()?;
    let opens = (0..n)
        .map(|_| Some(Opens { index: c.u2()?, flags: OpensFlags::from_bits_truncate(c.u2()?), to_index: c.u2s()? }))
        .collect::<Option<Vec<_>>>()?;
    let uses = c.u2s()?;
    let n = c.u2()?;
    let provides = (0..n).map(|_| Some(Provides { index: c.u2()?, with_index: c.u2s()? })).collect::<Option<Vec<_>>>()?;
    Some(ModuleAttribute { module_name_index, flags, version_index, requires, exports, opens, uses, provides })
}

fn utf8(cp: &ConstantPool, i: u16) -> Option<&str> {
    match cp.get(i) {
        Some(Constant::Utf8(s)) => Some(s),
        _ => None,
    }
}

/// Document 01's rule for a used name.
fn ok(s: &str) -> Option<&str> {
    let n = s.chars().count();
    if (1..=255).contains(&n) && s.chars().all(|c| ('\x21'..='\x7e').contains(&c)) { Some(s) } else { None }
}
fn used(cp: &ConstantPool, kind: u8, i: u16) -> Option<&str> {
    let n = match (kind, cp.get(i)?) {
        (7, Constant::Class(n)) | (19, Constant::Module(n)) | (20, Constant::Package(n)) => *n,
        _ => return None,
    };
    ok(utf8(cp, n)?)
}
fn version(cp: &ConstantPool, i: u16) -> Option<()> {
    if i != 0 {
        ok(utf8(cp, i)?)?;
    }
    Some(())
}

/// Every name and version of the attribute is a used one.
fn module_names(cp: &ConstantPool, m: &ModuleAttribute) -> Option<()> {
    used(cp, 19, m.module_name_index)?;
    version(cp, m.version_index)?;
    for r in &m.requires {
        if used(cp, 19, r.index)? == "ALL-UNNAMED" {
            return None;
        }
        version(cp, r.version_index)?;
    }
    for e in &m.exports {
        used(cp, 20, e.index)?;
        for &t in &e.to_index {
            used(cp, 19, t)?;
        }
    }
    for e in &m.opens {
        used(cp, 20, e.index)?;
        for &t in &e.to_index {
            used(cp, 19, t)?;
        }
    }
    for &u in &m.uses {
        used(cp, 7, u)?;
    }
    for p in &m.provides {
        used(cp, 7, p.index)?;
        for &t in &p.with_index {
            used(cp, 7, t)?;
        }
    }
    Some(())
}

pub fn read(b: &[u8]) -> Result<ClassFile<'static>, usize> {
    let mut c = Cur { b, at: 0, end: b.len() };
    let (major, count) = (|| {
        if c.u4()? != 0xCAFE_BABE {
            return None;
        }
        c.u2()?;
        let major = c.u2()?;
        let n = c.u2()? as usize;
        if major < 53 || n == 0 { None } else { Some((major, n)) }
    })()
    .ok_or(0usize)?;
    let mut cp = ConstantPool { constants: vec![None] };
    while cp.constants.len() < count {
        let at = c.at;
        let k = constant(&mut c, major).ok_or(at)?;
        let wide = matches!(k, Constant::Long(_) | Constant::Double(_));
        cp.constants.push(Some(k));
        if wide {
            if cp.constants.len() == count {
                return Err(at);
            }
            cp.constants.push(None);
        }
    }
    let pool_end = c.at;
    let count = (|| {
        if c.u2()? != 0x8000 {
            return None;
        }
        match cp.get(c.u2()?) {
            Some(Constant::Class(n)) if utf8(&cp, *n) == Some("module-info") => {}
            _ => return None,
        }
        for _ in 0..4 {
            if c.u2()? != 0 {
                return None;
            }
        }
        c.u2()
    })()
    .ok_or(pool_end)?;
    let mut attributes = Vec::new();
    let mut seen = [false; 3];
    for _ in 0..count {
        let at = c.at;
        let a = (|| {
            let name_index = c.u2()?;
            let name = utf8(&cp, name_index)?;
            let n = c.u4()? as usize;
            let info = c.take(n)?;
            let mut i = Cur { b, at: c.at - n, end: c.at };
            let k = match name {
                "Module" => 0,
                "ModulePackages" => 1,
                "ModuleMainClass" => 2,
                _ => {
                    return Some(Attribute::Unknown { name_index, info: info.to_vec() });
                }
            };
            if std::mem::replace(&mut seen[k], true) {
                return None;
            }
            let a = match k {
                0 => {
                    let m = module(&mut i)?;
                    module_names(&cp, &m)?;
                    Attribute::Module { name_index, module: Box::new(m) }
                }
                1 => {
                    let package_indexes = i.u2s()?;
                    for &p in &package_indexes {
                        used(&cp, 20, p)?;
                    }
                    Attribute::ModulePackages { name_index, package_indexes }
                }
                _ => {
                    let main_class_index = i.u2()?;
                    used(&cp, 7, main_class_index)?;
                    Attribute::ModuleMainClass { name_index, main_class_index }
                }
            };
            if i.at != i.end {
                return None;
            }
            Some(a)
        })()
        .ok_or(at)?;
        attributes.push(a);
    }
    if c.at != b.len() {
        return Err(c.at);
    }
    if !seen[0] {
        return Err(b.len());
    }
    Ok(ClassFile { constant_pool: cp, attributes, marker: std::marker::PhantomData })
}
