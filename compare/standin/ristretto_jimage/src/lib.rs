//! Stand-in for the crate `ristretto_jimage`: the types that finder.rs names. The comparison has no system image.
use std::path::Path;

pub struct Image;

pub struct Resource;

impl Image {
    pub fn from_file(_: &Path) -> Result<Self, &'static str> {
        Err("no system image is read")
    }

    pub fn module_names(&self) -> Result<Vec<String>, &'static str> {
        Err("no system image is read")
    }

    pub fn get_resource(&self, _: &str) -> Result<Resource, &'static str> {
        Err("no system image is read")
    }
}

impl Resource {
    pub fn data(&self) -> &[u8] {
        &[]
    }
}
