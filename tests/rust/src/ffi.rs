//! The library: declarations as in `include/flat.h`, and safe wrappers.

mod c {
    extern "C" {
        pub fn flat_read_sheet(
            sheet: *const u8,
            sheet_len: usize,
            record: *mut u8,
            record_len: usize,
        ) -> u32;
        pub fn flat_read_molfile(
            molfile: *const u8,
            molfile_len: usize,
            record: *mut u8,
            record_len: usize,
        ) -> u32;
        pub fn flat_check_record(atoms: u64, bonds: u64, rows: *const u8, rows_len: usize) -> u32;
        pub fn flat_judge_ring(
            atoms: u64,
            bonds: u64,
            rows: *const u8,
            rows_len: usize,
            list: *const u8,
            list_len: usize,
        ) -> u32;
        pub fn flat_judge_path(
            atoms: u64,
            bonds: u64,
            rows: *const u8,
            rows_len: usize,
            s: u64,
            t: u64,
            list: *const u8,
            list_len: usize,
        ) -> u32;
        pub fn flat_read_field(field: *const u8, field_len: usize) -> u64;
        pub fn flat_zero_filled(field: *const u8, field_len: usize) -> u32;
        pub fn flat_write_field(field: *mut u8, field_len: usize, value: u64);
        pub fn flat_start_rings(
            atoms: u64,
            bonds: u64,
            rows: *const u8,
            rows_len: usize,
            numbers: *mut u64,
            numbers_len: usize,
            prefix: *mut u8,
            prefix_len: usize,
        ) -> u32;
        pub fn flat_start_paths(
            atoms: u64,
            bonds: u64,
            rows: *const u8,
            rows_len: usize,
            s: u64,
            t: u64,
            numbers: *mut u64,
            numbers_len: usize,
            prefix: *mut u8,
            prefix_len: usize,
        ) -> u32;
        pub fn flat_start_rings_up_to(
            atoms: u64,
            bonds: u64,
            rows: *const u8,
            rows_len: usize,
            size: u64,
            numbers: *mut u64,
            numbers_len: usize,
            prefix: *mut u8,
            prefix_len: usize,
        ) -> u32;
        pub fn flat_start_shortest(
            atoms: u64,
            bonds: u64,
            rows: *const u8,
            rows_len: usize,
            s: u64,
            t: u64,
            numbers: *mut u64,
            numbers_len: usize,
            prefix: *mut u8,
            prefix_len: usize,
        ) -> u32;
        pub fn flat_count_shortest(
            atoms: u64,
            bonds: u64,
            rows: *const u8,
            rows_len: usize,
            s: u64,
            t: u64,
            count: *mut u64,
        ) -> u32;
        pub fn flat_run(
            atoms: u64,
            bonds: u64,
            rows: *const u8,
            rows_len: usize,
            numbers: *mut u64,
            numbers_len: usize,
            prefix: *mut u8,
            prefix_len: usize,
            budget: u64,
            out: *mut u8,
            out_len: usize,
        ) -> u32;
        pub fn flat_save(
            atoms: u64,
            bonds: u64,
            rows: *const u8,
            rows_len: usize,
            numbers: *const u64,
            numbers_len: usize,
            prefix: *const u8,
            prefix_len: usize,
            mark: *mut u8,
            mark_len: usize,
        ) -> u32;
        pub fn flat_restore(
            atoms: u64,
            bonds: u64,
            rows: *const u8,
            rows_len: usize,
            mark: *const u8,
            mark_len: usize,
            numbers: *mut u64,
            numbers_len: usize,
            prefix: *mut u8,
            prefix_len: usize,
        ) -> u32;
    }
}

/// The answer to rows, a record, numbers or a prefix of the wrong length.
pub const WRONG_LENGTH: u32 = 10_000;

/// The answer of [`read_field`] to bytes that are no number field.
pub const NO_FIELD: u64 = u64::MAX;

pub fn read_sheet(sheet: &[u8], record: &mut [u8]) -> u32 {
    // SAFETY: both pointers come with the lengths of live slices, and only
    // the second, borrowed mutably, is written.
    unsafe {
        c::flat_read_sheet(
            sheet.as_ptr(),
            sheet.len(),
            record.as_mut_ptr(),
            record.len(),
        )
    }
}

pub fn read_molfile(molfile: &[u8], record: &mut [u8]) -> u32 {
    // SAFETY: both pointers come with the lengths of live slices, and only
    // the second, borrowed mutably, is written.
    unsafe {
        c::flat_read_molfile(
            molfile.as_ptr(),
            molfile.len(),
            record.as_mut_ptr(),
            record.len(),
        )
    }
}

pub fn check_record(atoms: u64, bonds: u64, rows: &[u8]) -> u32 {
    // SAFETY: the pointer comes with the length of a live slice, only read.
    unsafe { c::flat_check_record(atoms, bonds, rows.as_ptr(), rows.len()) }
}

pub fn judge_ring(atoms: u64, bonds: u64, rows: &[u8], list: &[u8]) -> u32 {
    // SAFETY: both pointers come with the lengths of live slices, only read.
    unsafe {
        c::flat_judge_ring(
            atoms,
            bonds,
            rows.as_ptr(),
            rows.len(),
            list.as_ptr(),
            list.len(),
        )
    }
}

pub fn judge_path(atoms: u64, bonds: u64, rows: &[u8], s: u64, t: u64, list: &[u8]) -> u32 {
    // SAFETY: both pointers come with the lengths of live slices, only read.
    unsafe {
        c::flat_judge_path(
            atoms,
            bonds,
            rows.as_ptr(),
            rows.len(),
            s,
            t,
            list.as_ptr(),
            list.len(),
        )
    }
}

pub fn read_field(field: &[u8]) -> u64 {
    // SAFETY: the pointer comes with the length of a live slice, only read.
    unsafe { c::flat_read_field(field.as_ptr(), field.len()) }
}

pub fn zero_filled(field: &[u8]) -> bool {
    // SAFETY: the pointer comes with the length of a live slice, only read.
    let answer = unsafe { c::flat_zero_filled(field.as_ptr(), field.len()) };
    assert!(answer <= 1, "flat_zero_filled answers {answer}");
    answer == 1
}

pub fn write_field(field: &mut [u8], value: u64) {
    // SAFETY: the pointer comes with the length of a live slice that is
    // borrowed mutably.
    unsafe { c::flat_write_field(field.as_mut_ptr(), field.len(), value) }
}

pub fn start_rings(
    atoms: u64,
    bonds: u64,
    rows: &[u8],
    numbers: &mut [u64],
    prefix: &mut [u8],
) -> u32 {
    // SAFETY: the pointers come with the lengths of live slices, and only
    // those borrowed mutably are written.
    unsafe {
        c::flat_start_rings(
            atoms,
            bonds,
            rows.as_ptr(),
            rows.len(),
            numbers.as_mut_ptr(),
            numbers.len(),
            prefix.as_mut_ptr(),
            prefix.len(),
        )
    }
}

pub fn start_paths(
    atoms: u64,
    bonds: u64,
    rows: &[u8],
    (s, t): (u64, u64),
    numbers: &mut [u64],
    prefix: &mut [u8],
) -> u32 {
    // SAFETY: the pointers come with the lengths of live slices, and only
    // those borrowed mutably are written.
    unsafe {
        c::flat_start_paths(
            atoms,
            bonds,
            rows.as_ptr(),
            rows.len(),
            s,
            t,
            numbers.as_mut_ptr(),
            numbers.len(),
            prefix.as_mut_ptr(),
            prefix.len(),
        )
    }
}

pub fn start_rings_up_to(
    atoms: u64,
    bonds: u64,
    rows: &[u8],
    size: u64,
    numbers: &mut [u64],
    prefix: &mut [u8],
) -> u32 {
    // SAFETY: the pointers come with the lengths of live slices, and only
    // those borrowed mutably are written.
    unsafe {
        c::flat_start_rings_up_to(
            atoms,
            bonds,
            rows.as_ptr(),
            rows.len(),
            size,
            numbers.as_mut_ptr(),
            numbers.len(),
            prefix.as_mut_ptr(),
            prefix.len(),
        )
    }
}

pub fn start_shortest(
    atoms: u64,
    bonds: u64,
    rows: &[u8],
    (s, t): (u64, u64),
    numbers: &mut [u64],
    prefix: &mut [u8],
) -> u32 {
    // SAFETY: the pointers come with the lengths of live slices, and only
    // those borrowed mutably are written.
    unsafe {
        c::flat_start_shortest(
            atoms,
            bonds,
            rows.as_ptr(),
            rows.len(),
            s,
            t,
            numbers.as_mut_ptr(),
            numbers.len(),
            prefix.as_mut_ptr(),
            prefix.len(),
        )
    }
}

pub fn count_shortest(
    atoms: u64,
    bonds: u64,
    rows: &[u8],
    (s, t): (u64, u64),
    count: &mut u64,
) -> u32 {
    // SAFETY: the first pointer comes with the length of a live slice, only
    // read, and the second is that of a number borrowed mutably.
    unsafe { c::flat_count_shortest(atoms, bonds, rows.as_ptr(), rows.len(), s, t, count) }
}

pub fn run(
    atoms: u64,
    bonds: u64,
    rows: &[u8],
    numbers: &mut [u64],
    prefix: &mut [u8],
    budget: u64,
    out: &mut [u8],
) -> u32 {
    // SAFETY: the pointers come with the lengths of live slices, and only
    // those borrowed mutably are written.
    unsafe {
        c::flat_run(
            atoms,
            bonds,
            rows.as_ptr(),
            rows.len(),
            numbers.as_mut_ptr(),
            numbers.len(),
            prefix.as_mut_ptr(),
            prefix.len(),
            budget,
            out.as_mut_ptr(),
            out.len(),
        )
    }
}

pub fn save(
    atoms: u64,
    bonds: u64,
    rows: &[u8],
    numbers: &[u64],
    prefix: &[u8],
    mark: &mut [u8],
) -> u32 {
    // SAFETY: the pointers come with the lengths of live slices, and only
    // the last, borrowed mutably, is written.
    unsafe {
        c::flat_save(
            atoms,
            bonds,
            rows.as_ptr(),
            rows.len(),
            numbers.as_ptr(),
            numbers.len(),
            prefix.as_ptr(),
            prefix.len(),
            mark.as_mut_ptr(),
            mark.len(),
        )
    }
}

pub fn restore(
    atoms: u64,
    bonds: u64,
    rows: &[u8],
    mark: &[u8],
    numbers: &mut [u64],
    prefix: &mut [u8],
) -> u32 {
    // SAFETY: the pointers come with the lengths of live slices, and only
    // those borrowed mutably are written.
    unsafe {
        c::flat_restore(
            atoms,
            bonds,
            rows.as_ptr(),
            rows.len(),
            mark.as_ptr(),
            mark.len(),
            numbers.as_mut_ptr(),
            numbers.len(),
            prefix.as_mut_ptr(),
            prefix.len(),
        )
    }
}
