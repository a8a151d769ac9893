//! Stand-in for the crate `zip`: the types that finder.rs names. The comparison has no jar files.
use std::io::{self, Read};
use std::marker::PhantomData;

pub struct ZipArchive<R>(PhantomData<R>);

pub struct ZipFile;

impl<R> ZipArchive<R> {
    pub fn new(_: R) -> Result<Self, &'static str> {
        Err("no jar is read")
    }

    pub fn len(&self) -> usize {
        0
    }

    pub fn is_empty(&self) -> bool {
        true
    }

    pub fn by_index(&mut self, _: usize) -> Result<ZipFile, &'static str> {
        Err("no jar is read")
    }

    pub fn by_name(&mut self, _: &str) -> Result<ZipFile, &'static str> {
        Err("no jar is read")
    }
}

impl ZipFile {
    pub fn name(&self) -> Result<&str, &'static str> {
        Err("no jar is read")
    }
}

impl Read for ZipFile {
    fn read(&mut self, _: &mut [u8]) -> io::Result<usize> {
        Ok(0)
    }
}
