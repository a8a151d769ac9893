//! The C functions of libhost.a, as its header saqhovune.h declares them. A slice is a pointer and a length; an empty Rust
//! slice has a pointer that is not null and is aligned, and a bool is 0 or 1, as they ask.

/// A question of the graph.
pub type Graph = unsafe extern "C" fn(
    set: *const u8,
    set_len: usize,
    words: *const u64,
    words_len: usize,
    name: *const u8,
    name_len: usize,
    row: *mut u64,
    particulars: *mut u64,
) -> u64;

extern "C" {
    pub fn saqhovune_check(set: *const u8, set_len: usize, request: *const u8, request_len: usize, particulars: *mut u64) -> u64;

    pub fn saqhovune_resolve(
        set: *const u8,
        set_len: usize,
        request: *const u8,
        request_len: usize,
        words: *mut u64,
        words_len: usize,
        particulars: *mut u64,
    ) -> u64;

    pub fn saqhovune_check_access(
        set: *const u8,
        set_len: usize,
        request: *const u8,
        request_len: usize,
        words: *const u64,
        words_len: usize,
        reflection: bool,
        asker: *const u8,
        asker_len: usize,
        target: *const u8,
        target_len: usize,
        package: *const u8,
        package_len: usize,
        particulars: *mut u64,
    ) -> u64;

    pub fn saqhovune_can_read(
        set: *const u8,
        set_len: usize,
        words: *const u64,
        words_len: usize,
        from: *const u8,
        from_len: usize,
        to: *const u8,
        to_len: usize,
        particulars: *mut u64,
    ) -> u64;

    pub fn saqhovune_find_module_for_package(
        set: *const u8,
        set_len: usize,
        words: *const u64,
        words_len: usize,
        package: *const u8,
        package_len: usize,
        particulars: *mut u64,
    ) -> u64;

    pub fn saqhovune_readers_of(
        set: *const u8,
        set_len: usize,
        words: *const u64,
        words_len: usize,
        name: *const u8,
        name_len: usize,
        row: *mut u64,
        particulars: *mut u64,
    ) -> u64;

    pub fn saqhovune_transitive_reads(
        set: *const u8,
        set_len: usize,
        words: *const u64,
        words_len: usize,
        name: *const u8,
        name_len: usize,
        row: *mut u64,
        particulars: *mut u64,
    ) -> u64;

    pub fn saqhovune_from_class_file(
        file: *const u8,
        file_len: usize,
        out: *mut u8,
        out_len: usize,
        particulars: *mut u64,
    ) -> u64;

    pub fn saqhovune_automatic_from_jar_name(
        jar: *const u8,
        jar_len: usize,
        given: bool,
        manifest: *const u8,
        manifest_len: usize,
        packages: *const u8,
        packages_len: usize,
        out: *mut u8,
        out_len: usize,
        particulars: *mut u64,
    ) -> u64;
}
