//! The exported calls as they are, on slices of any length.
//!
//! These are the only declarations of them, and the only unsafe code of the
//! library; a test holds their text against crates/library_c/src/lib.rt. A slice
//! passes as a pointer and a length. The calls ask nothing of their arguments, so
//! any slices do; Rust's own rule that two `&mut` never overlap is all they need.

/// Words that each work slice must have.
pub const WORK_WORDS: usize = 16_384;

unsafe extern "C" {
    fn dresserhawk_size(
        sheet: *const u8,
        sheet_len: usize,
        a: *mut u32,
        a_len: usize,
        b: *mut u32,
        b_len: usize,
        c: *mut u32,
        c_len: usize,
        d: *mut u32,
        d_len: usize,
        answer: *mut usize,
        answer_len: usize,
    ) -> bool;

    fn dresserhawk_lower(
        sheet: *const u8,
        sheet_len: usize,
        a: *mut u32,
        a_len: usize,
        b: *mut u32,
        b_len: usize,
        c: *mut u32,
        c_len: usize,
        d: *mut u32,
        d_len: usize,
        plan: *mut u8,
        plan_len: usize,
        answer: *mut usize,
        answer_len: usize,
    ) -> bool;

    fn dresserhawk_lower_pair(
        left: *const u8,
        left_len: usize,
        right: *const u8,
        right_len: usize,
        all: bool,
        left_a: *mut u32,
        left_a_len: usize,
        left_b: *mut u32,
        left_b_len: usize,
        left_c: *mut u32,
        left_c_len: usize,
        left_d: *mut u32,
        left_d_len: usize,
        right_a: *mut u32,
        right_a_len: usize,
        right_b: *mut u32,
        right_b_len: usize,
        right_c: *mut u32,
        right_c_len: usize,
        right_d: *mut u32,
        right_d_len: usize,
        plan: *mut u8,
        plan_len: usize,
        answer: *mut usize,
        answer_len: usize,
    ) -> bool;
}

/// The sizing call. `answer` gets number, line, start, end, kind and length.
/// False, with nothing written, if it has no room for six words.
pub fn size(sheet: &[u8], work: [&mut [u32]; 4], answer: &mut [usize]) -> bool {
    let [a, b, c, d] = work;
    // The archive reads `sheet` and writes the other slices within their lengths.
    unsafe {
        dresserhawk_size(
            sheet.as_ptr(),
            sheet.len(),
            a.as_mut_ptr(),
            a.len(),
            b.as_mut_ptr(),
            b.len(),
            c.as_mut_ptr(),
            c.len(),
            d.as_mut_ptr(),
            d.len(),
            answer.as_mut_ptr(),
            answer.len(),
        )
    }
}

/// The lowering call. Accepted, `plan` begins with the plan sheet, whose length
/// the answer has; refused, it is as it was. `answer` as for [`size`].
pub fn lower(sheet: &[u8], work: [&mut [u32]; 4], plan: &mut [u8], answer: &mut [usize]) -> bool {
    let [a, b, c, d] = work;
    // As for `size`.
    unsafe {
        dresserhawk_lower(
            sheet.as_ptr(),
            sheet.len(),
            a.as_mut_ptr(),
            a.len(),
            b.as_mut_ptr(),
            b.len(),
            c.as_mut_ptr(),
            c.len(),
            d.as_mut_ptr(),
            d.len(),
            plan.as_mut_ptr(),
            plan.len(),
            answer.as_mut_ptr(),
            answer.len(),
        )
    }
}

/// The call that lowers two sheets into one plan, joined by a `union`; `all` for
/// UNION ALL. The left's work slices, then the right's. `plan` as for [`lower`].
/// `answer` as for [`size`], but for the kind: it has the side, 1 the left and 2
/// the right, in refusals 2 to 6 and 8, and ten times the side more than the
/// form's kind in 7.
pub fn lower_pair(
    left: &[u8],
    right: &[u8],
    all: bool,
    left_work: [&mut [u32]; 4],
    right_work: [&mut [u32]; 4],
    plan: &mut [u8],
    answer: &mut [usize],
) -> bool {
    let [left_a, left_b, left_c, left_d] = left_work;
    let [right_a, right_b, right_c, right_d] = right_work;
    // As for `size`; both sheets are only read, so they may be the same bytes.
    unsafe {
        dresserhawk_lower_pair(
            left.as_ptr(),
            left.len(),
            right.as_ptr(),
            right.len(),
            all,
            left_a.as_mut_ptr(),
            left_a.len(),
            left_b.as_mut_ptr(),
            left_b.len(),
            left_c.as_mut_ptr(),
            left_c.len(),
            left_d.as_mut_ptr(),
            left_d.len(),
            right_a.as_mut_ptr(),
            right_a.len(),
            right_b.as_mut_ptr(),
            right_b.len(),
            right_c.as_mut_ptr(),
            right_c.len(),
            right_d.as_mut_ptr(),
            right_d.len(),
            plan.as_mut_ptr(),
            plan.len(),
            answer.as_mut_ptr(),
            answer.len(),
        )
    }
}
