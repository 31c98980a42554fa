//! The second program under the C calling convention, with the signatures of `plimdrong_judge`, `plimdrong_check` and
//! `plimdrong_why`.

/// # Safety
/// The three slices are valid for the call and the two lent ones overlap nothing.
#[no_mangle]
pub unsafe extern "C" fn second_judge(
    sheet: *const u8,
    sheet_len: usize,
    scratch: *mut u8,
    scratch_len: usize,
    order: *mut u8,
    order_len: usize,
) -> u64 {
    let sheet = std::slice::from_raw_parts(sheet, sheet_len);
    let scratch = std::slice::from_raw_parts_mut(scratch, scratch_len);
    let order = std::slice::from_raw_parts_mut(order, order_len);
    second::judge_into(sheet, scratch, order).word()
}

/// # Safety
/// The two slices are valid for the call.
#[no_mangle]
pub unsafe extern "C" fn second_check(sheet: *const u8, sheet_len: usize, list: *const u8, list_len: usize) -> u64 {
    let sheet = std::slice::from_raw_parts(sheet, sheet_len);
    let list = std::slice::from_raw_parts(list, list_len);
    second::check(sheet, list).word()
}

/// # Safety
/// The three slices are valid for the call and the two lent ones overlap nothing.
#[no_mangle]
pub unsafe extern "C" fn second_why(
    sheet: *const u8,
    sheet_len: usize,
    scratch: *mut u8,
    scratch_len: usize,
    bars: *mut u8,
    bars_len: usize,
) -> u64 {
    let sheet = std::slice::from_raw_parts(sheet, sheet_len);
    let scratch = std::slice::from_raw_parts_mut(scratch, scratch_len);
    let bars = std::slice::from_raw_parts_mut(bars, bars_len);
    second::why_into(sheet, scratch, bars).word()
}
