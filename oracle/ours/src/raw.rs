//! The functions of the static library; a slice is its pointer, then its length.

extern "C" {
    pub fn bitvec_op(op: u64, a: u64, b: u64, out: *mut u64, out_len: usize);

    pub fn check_file(file: *const u8, file_len: usize, out: *mut u64, out_len: usize);

    pub fn rule_op(
        rule: u64,
        op: u64,
        side: u64,
        s: u64,
        t: u64,
        words: *const u64,
        words_len: usize,
        at: usize,
        out: *mut u64,
        out_len: usize,
    );

    pub fn step_op(
        file: *const u8,
        file_len: usize,
        words: *const u64,
        words_len: usize,
        values: *const u64,
        values_len: usize,
        node: u32,
        target: u64,
        at: usize,
        out: *mut u64,
        out_len: usize,
    );

    pub fn solve_file(
        file: *const u8,
        file_len: usize,
        words: *const u64,
        words_len: usize,
        budget: u32,
        values: *mut u64,
        values_len: usize,
        out: *mut u64,
        out_len: usize,
    );

    pub fn list_file(
        file: *const u8,
        file_len: usize,
        buffer: *mut u8,
        buffer_len: usize,
        out: *mut u64,
        out_len: usize,
    );
}
