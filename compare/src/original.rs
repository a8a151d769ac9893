//! The original's answers, for the library's inputs.
use crate::finder::chain;
use crate::module::descriptor::ModuleDescriptor;
use crate::module::error::ModuleError;
use crate::module::finder::ModuleFinder;
use crate::module::reference::ModuleReference;
use crate::module::resolution::{ResolvedConfiguration, ResolvedModule, Resolver};
use crate::records::{Request, text, write_descriptor};
use saqhovune::{Configuration, Input, Refusal};
use std::collections::{BTreeMap, BTreeSet};

/// A set and a request as the original has them: the modules by their positions, hidden ones too.
pub struct Inputs {
    pub modules: Vec<ModuleReference>,
    pub request: Request,
}

impl Inputs {
    /// A resolver with what the request says.
    pub fn resolver(&self) -> Resolver {
        let mut v = Resolver::new();
        for (s, t) in &self.request.reads {
            v.add_read(s.clone(), t.clone());
        }
        for (s, p, t) in &self.request.exports {
            v.add_export(s.clone(), p.clone(), t.clone());
        }
        for (s, p, t) in &self.request.opens {
            v.add_opens(s.clone(), p.clone(), t.clone());
        }
        if let Some(l) = &self.request.limit {
            v.set_limit_modules(l.iter().cloned().collect());
        }
        v
    }

    /// The original's resolution, which is that of a request with ST.
    pub fn resolve(&self) -> Result<ResolvedConfiguration, ModuleError> {
        self.resolver().resolve(&self.request.roots, &chain(&self.modules))
    }

    fn changed(&self, change: impl Fn(&mut ModuleDescriptor)) -> Self {
        let modules = self.modules.iter().map(|m| {
            let mut d = m.descriptor().clone();
            change(&mut d);
            ModuleReference::new(d, m.source().clone(), m.location().cloned())
        });
        Inputs { modules: modules.collect(), request: self.request.clone() }
    }

    /// Without services, and so without rounds.
    pub fn without_rounds(&self) -> Self {
        self.changed(|d| d.uses.clear())
    }

    pub fn has_static(&self) -> bool {
        self.modules.iter().any(|m| m.descriptor().requires.iter().any(|r| r.is_static()))
    }

    pub fn without_static(&self) -> Self {
        self.changed(|d| d.requires.retain(|r| !r.is_static()))
    }

    /// What the original resolves where these members are the roots and the permitted names: they, with their edges.
    pub fn resolve_members(&self, of: &ResolvedConfiguration) -> ResolvedConfiguration {
        let names: Vec<String> = of.modules().map(|m| m.name().to_string()).collect();
        let request = Request { roots: names.clone(), limit: Some(names), ..self.request.clone() };
        let members = Inputs { modules: self.modules.clone(), request };
        members.resolve().expect("the members resolve together")
    }

    /// Of each position, whether the original's chain has its module; else that is hidden.
    pub fn observable(&self) -> Vec<bool> {
        let mut found = chain(&self.modules).find_all().into_iter().peekable();
        let is = |m: &ModuleReference, f: &ModuleReference| f.name() == m.name() && f.location() == m.location();
        let observable = self.modules.iter().map(|m| found.next_if(|f| is(m, f)).is_some()).collect();
        assert!(found.next().is_none(), "the chain has the modules in their order");
        observable
    }

    /// Of each position the place of its module, from 1, and the place of the module that the original's chain finds instead.
    pub fn places(&self) -> Vec<(usize, Option<usize>)> {
        let place = |m: &ModuleReference| m.location().map_or(1, |l| l.to_str().and_then(|n| n.parse().ok()).expect("a number"));
        let finder = chain(&self.modules);
        let found = |m: &ModuleReference| finder.find(m.name()).map(|f| place(&f)).filter(|p| *p != place(m));
        self.modules.iter().map(|m| (place(m), found(m))).collect()
    }

    /// The position of the module that the original's chain finds.
    pub fn position(&self, name: &str) -> Option<usize> {
        let found = chain(&self.modules).find(name)?;
        self.modules.iter().position(|m| m.name() == name && m.location() == found.location())
    }

    pub fn has_package(&self, name: &str, package: &str) -> bool {
        self.position(name).is_some_and(|i| self.modules[i].descriptor().packages.contains(package))
    }

    /// A refusal of the library as the original's, if it is one of a resolution.
    pub fn told(&self, set: &[u8], request: &[u8], e: &Refusal) -> Option<ModuleError> {
        let observable = self.observable();
        let name = |i: usize| self.modules.get(i).filter(|_| observable[i]).map(|m| m.name().to_string());
        match *e {
            Refusal::ModuleNotFound { input, start, len } => {
                let bytes = if input == Input::Set { set } else { request };
                Some(ModuleError::ModuleNotFound(text(bytes.get(start..start + len)?)))
            }
            Refusal::JavaBaseNotFound => Some(ModuleError::ModuleNotFound("java.base".into())),
            Refusal::SplitPackage { start, len, owner, second } => Some(ModuleError::SplitPackage {
                package: text(set.get(start..start + len)?),
                module1: name(owner)?,
                module2: name(second)?,
            }),
            _ => None,
        }
    }

    /// A resolution of second.rs as the original's.
    pub fn as_original(
        &self,
        set: &[u8],
        request: &[u8],
        resolved: &Result<Configuration, Refusal>,
    ) -> Result<ResolvedConfiguration, ModuleError> {
        let cause = |e: &Refusal| self.told(set, request, e).expect("a refusal of a resolution");
        resolved.as_ref().map(|c| self.configured(c)).map_err(cause)
    }

    /// Whether a refusal of the original names something that is so.
    pub fn is_true(&self, cause: &ModuleError) -> bool {
        match cause {
            ModuleError::ModuleNotFound(n) if n == "java.base" => self.position(n).is_none(),
            ModuleError::ModuleNotFound(n) => {
                let required = |m: &ModuleReference| m.descriptor().requires.iter().any(|r| &r.name == n && !r.is_static());
                let observable = chain(&self.modules).find_all();
                self.position(n).is_none() && (self.request.roots.contains(n) || observable.iter().any(required))
            }
            ModuleError::SplitPackage { package, module1, module2 } => {
                module1 != module2 && self.has_package(module1, package) && self.has_package(module2, package)
            }
            _ => false,
        }
    }

    /// A configuration of the library as the original's, which has nothing at the positions of hidden modules. The owner of a
    /// package is its first member.
    pub fn configured(&self, configuration: &Configuration) -> ResolvedConfiguration {
        let mut resolved = BTreeMap::new();
        let mut owners = ahash::AHashMap::default();
        let observable = self.observable();
        let modules = || self.modules.iter().enumerate().filter(|(i, _)| observable[*i]);
        for (i, reference) in modules().filter(|(i, _)| configuration.contains(*i)) {
            for p in &reference.descriptor().packages {
                owners.entry(p.clone()).or_insert(reference.name().to_string());
            }
            let mut m = ResolvedModule::new(reference.clone());
            for (_, to) in modules().filter(|(j, _)| configuration.reads(i, *j)) {
                m.add_read(to.name().to_string());
            }
            if configuration.reads_unnamed(i) {
                m.add_read("ALL-UNNAMED".to_string());
            }
            resolved.insert(reference.name().to_string(), m);
        }
        // The resolver keeps its overrides to itself, so they come from a resolution of java.base alone.
        let base = ModuleReference::system(ModuleDescriptor::new("java.base".into()));
        let c = self.resolver().resolve(&[], &chain(&[base])).expect("java.base alone resolves");
        ResolvedConfiguration::new(resolved, owners, c.add_exports().clone(), c.add_opens().clone())
    }
}

/// The listing of document 01.
pub fn listing(c: &ResolvedConfiguration) -> String {
    let mut out = format!("resolved {}\n", c.len());
    for m in c.modules() {
        out += &format!("module {}\n", m.name());
        for r in m.reads() {
            out += &format!("reads {r}\n");
        }
    }
    let owners: BTreeMap<_, _> = c.package_to_module.iter().collect();
    for (p, o) in owners {
        out += &format!("owner {p} {o}\n");
    }
    out
}

/// The records of a jar's module.
pub fn jar(jar: &str, manifest: Option<&str>, packages: &[String]) -> Result<Vec<u8>, ModuleError> {
    let packages: BTreeSet<String> = packages.iter().cloned().collect();
    let mut d = ModuleDescriptor::automatic_from_jar_name(jar, manifest, packages)?;
    d.name = text(d.name.as_bytes());
    Ok(write_descriptor(&d, true).expect("the names are short"))
}
