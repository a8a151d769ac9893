//! The modules of one place, in their order, and the original's chain of such finders.
use crate::module::finder::{ModuleFinder, ModuleFinderChain};
use crate::module::reference::ModuleReference;

/// The modules of one place. The original's own finders look into folders and have no order.
pub struct PlaceFinder {
    pub modules: Vec<ModuleReference>,
}

impl ModuleFinder for PlaceFinder {
    fn find(&self, name: &str) -> Option<ModuleReference> {
        self.modules.iter().find(|m| m.name() == name).cloned()
    }

    fn find_all(&self) -> Vec<ModuleReference> {
        self.modules.clone()
    }
}

/// A finder for each place that has modules, front to back. Modules of one place have one location.
pub fn chain(modules: &[ModuleReference]) -> ModuleFinderChain {
    let mut chain = ModuleFinderChain::new();
    for place in modules.chunk_by(|a, b| a.location() == b.location()) {
        chain.add(Box::new(PlaceFinder { modules: place.to_vec() }));
    }
    chain
}
