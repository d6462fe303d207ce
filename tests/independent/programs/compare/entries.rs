//! The calls as C has them, each written once: the archive's are taken by their C names, and the independent
//! implementation's are given such names for the fuzzer.

/// Hands a macro each call: its name, numbers that come first, slices that are read with the names of their lengths,
/// numbers after these, and the buffer that is written.
macro_rules! calls {
    ($with:ident) => {
        $with!(check() [mesh mesh_len: u8, table table_len: u8, claim claim_len: u8] (decimals: i64) [report report_len]
            -> Answer);
        $with!(check_numbers() [mesh mesh_len: i64, table table_len: i64, claim claim_len: i64] () [] -> Numbers);
        $with!(check_run() [mesh mesh_len: u8, table table_len: u8, claims claims_len: u8] () [reports reports_len]
            -> Run);
        $with!(mesh_sizes() [mesh mesh_len: u8, table table_len: u8] () [] -> Sizes);
        $with!(book_ask(book: Book) [mesh mesh_len: u8, table table_len: u8, claim claim_len: u8] () [] -> BookAnswer);
        $with!(book_commit(book: Book, count: u64) [mesh mesh_len: u8, table table_len: u8, claim claim_len: u8] () []
            -> BookAnswer);
    };
}
