//! The graph of read edges.
use crate::configuration::{Row, ROW};
use crate::raw;
use crate::refusal::{told, Refusal};

/// The members that read the module of this name, or ALL-UNNAMED (1 to 3 of the set, 4).
pub fn readers_of(set: &[u8], configuration: &(impl AsRef<[u64]> + ?Sized), name: &[u8]) -> Result<Row, Refusal> {
    row(raw::saqhovune_readers_of, set, configuration.as_ref(), name)
}

/// What one read edge or more lead to from the module of this name (1 to 3 of the set, 4).
pub fn transitive_reads(set: &[u8], configuration: &(impl AsRef<[u64]> + ?Sized), name: &[u8]) -> Result<Row, Refusal> {
    row(raw::saqhovune_transitive_reads, set, configuration.as_ref(), name)
}

fn row(function: raw::Graph, set: &[u8], words: &[u64], name: &[u8]) -> Result<Row, Refusal> {
    let mut row = [0; ROW];
    // SAFETY: each pointer is that of a slice with the length beside it; the row has eight words, the particulars have four.
    let answer = told(|particulars| unsafe {
        function(set.as_ptr(), set.len(), words.as_ptr(), words.len(), name.as_ptr(), name.len(), row.as_mut_ptr(), particulars)
    })?;
    Ok(Row { words: row, unnamed: answer[0] == 1 })
}
