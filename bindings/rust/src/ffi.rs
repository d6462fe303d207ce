//! The structs and calls of include/pechuvo.h, and all unsafe code of the crate: each call behind a safe function.
//!
//! What the header asks of a caller holds by the types: each slice goes with its own length and is aligned, and a
//! buffer lent as `&mut` overlaps no input and is touched by no one else during the call.

#[repr(C)]
pub(crate) struct Answer {
    pub(crate) number: u32,
    pub(crate) place: u32,
}

#[repr(C)]
pub(crate) struct Run {
    pub(crate) reports: u64,
    pub(crate) bytes: u64,
}

#[repr(C)]
pub(crate) struct Sizes {
    pub(crate) number: u32,
    pub(crate) place: u32,
    pub(crate) balance_rows: u64,
    pub(crate) side_rows: u64,
    pub(crate) jump_rows: u64,
    pub(crate) strength_rows: u64,
    pub(crate) columns: u64,
    pub(crate) field_bytes: u64,
    pub(crate) multipliers_bytes: u64,
    pub(crate) both_bytes: u64,
}

#[repr(C)]
pub(crate) struct Book {
    pub(crate) lower_there: u32,
    pub(crate) upper_there: u32,
    pub(crate) lower_numerator: i64,
    pub(crate) lower_denominator: i64,
    pub(crate) upper_numerator: i64,
    pub(crate) upper_denominator: i64,
    pub(crate) count: u64,
}

#[repr(C)]
pub(crate) struct BookAnswer {
    pub(crate) number: u32,
    pub(crate) place: u32,
    pub(crate) book: Book,
}

#[repr(C)]
pub(crate) struct Numbers {
    pub(crate) number: u32,
    pub(crate) place: u32,
    pub(crate) field: u32,
    pub(crate) multipliers: u32,
    pub(crate) l: i64,
    pub(crate) n: i64,
    pub(crate) w: i64,
    pub(crate) m: i64,
    pub(crate) open_rows: u64,
}

#[repr(C)]
pub(crate) struct Next {
    pub(crate) number: u32,
    pub(crate) place: u32,
    pub(crate) strength: f64,
}

extern "C" {
    fn pechuvo_check(
        mesh: *const u8,
        mesh_length: usize,
        table: *const u8,
        table_length: usize,
        claim: *const u8,
        claim_length: usize,
        decimals: i64,
        report: *mut u8,
        report_length: usize,
    ) -> Answer;
    fn pechuvo_check_run(
        mesh: *const u8,
        mesh_length: usize,
        table: *const u8,
        table_length: usize,
        claims: *const u8,
        claims_length: usize,
        reports: *mut u8,
        reports_length: usize,
    ) -> Run;
    fn pechuvo_mesh_sizes(
        mesh: *const u8,
        mesh_length: usize,
        table: *const u8,
        table_length: usize,
    ) -> Sizes;
    fn pechuvo_book_ask(
        book: Book,
        mesh: *const u8,
        mesh_length: usize,
        table: *const u8,
        table_length: usize,
        claim: *const u8,
        claim_length: usize,
    ) -> BookAnswer;
    fn pechuvo_book_commit(
        book: Book,
        count: u64,
        mesh: *const u8,
        mesh_length: usize,
        table: *const u8,
        table_length: usize,
        claim: *const u8,
        claim_length: usize,
    ) -> BookAnswer;
    fn pechuvo_check_numbers(
        mesh: *const i64,
        mesh_count: usize,
        table: *const i64,
        table_count: usize,
        claim: *const i64,
        claim_count: usize,
    ) -> Numbers;
    fn pechuvo_next_strength(k1: f64, l1: f64, k2: f64, l2: f64) -> Next;
}

pub(crate) fn check(
    mesh: &[u8],
    table: &[u8],
    claim: &[u8],
    decimals: i64,
    report: &mut [u8],
) -> Answer {
    // SAFETY: each pointer is a slice's, with its length, lent for the call; `report` is lent to it alone.
    unsafe {
        pechuvo_check(
            mesh.as_ptr(),
            mesh.len(),
            table.as_ptr(),
            table.len(),
            claim.as_ptr(),
            claim.len(),
            decimals,
            report.as_mut_ptr(),
            report.len(),
        )
    }
}

pub(crate) fn check_run(mesh: &[u8], table: &[u8], claims: &[u8], reports: &mut [u8]) -> Run {
    // SAFETY: each pointer is a slice's, with its length, lent for the call; `reports` is lent to it alone.
    unsafe {
        pechuvo_check_run(
            mesh.as_ptr(),
            mesh.len(),
            table.as_ptr(),
            table.len(),
            claims.as_ptr(),
            claims.len(),
            reports.as_mut_ptr(),
            reports.len(),
        )
    }
}

pub(crate) fn mesh_sizes(mesh: &[u8], table: &[u8]) -> Sizes {
    // SAFETY: each pointer is a slice's, with its length, lent for the call.
    unsafe { pechuvo_mesh_sizes(mesh.as_ptr(), mesh.len(), table.as_ptr(), table.len()) }
}

pub(crate) fn book_ask(book: Book, mesh: &[u8], table: &[u8], claim: &[u8]) -> BookAnswer {
    // SAFETY: each pointer is a slice's, with its length, lent for the call.
    unsafe {
        pechuvo_book_ask(
            book,
            mesh.as_ptr(),
            mesh.len(),
            table.as_ptr(),
            table.len(),
            claim.as_ptr(),
            claim.len(),
        )
    }
}

pub(crate) fn book_commit(
    book: Book,
    count: u64,
    mesh: &[u8],
    table: &[u8],
    claim: &[u8],
) -> BookAnswer {
    // SAFETY: each pointer is a slice's, with its length, lent for the call.
    unsafe {
        pechuvo_book_commit(
            book,
            count,
            mesh.as_ptr(),
            mesh.len(),
            table.as_ptr(),
            table.len(),
            claim.as_ptr(),
            claim.len(),
        )
    }
}

pub(crate) fn check_numbers(mesh: &[i64], table: &[i64], claim: &[i64]) -> Numbers {
    // SAFETY: each pointer is a slice's, with its length, lent for the call.
    unsafe {
        pechuvo_check_numbers(
            mesh.as_ptr(),
            mesh.len(),
            table.as_ptr(),
            table.len(),
            claim.as_ptr(),
            claim.len(),
        )
    }
}

pub(crate) fn next_strength(k1: f64, l1: f64, k2: f64, l2: f64) -> Next {
    // SAFETY: four numbers go by value, and nothing is lent.
    unsafe { pechuvo_next_strength(k1, l1, k2, l2) }
}

#[cfg(test)]
mod layout;
