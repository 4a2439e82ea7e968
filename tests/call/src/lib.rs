//! The planner's call from C, include/weekplan.h, with slices for its pointers and sizes. The only unsafe code of the tests.

type Function = unsafe extern "C" fn(*const u8, usize, *mut u8, usize, *mut u8, usize) -> i32;

extern "C" {
    fn weekplan_choose(
        sheet: *const u8,
        sheet_len: usize,
        picks: *mut u8,
        picks_len: usize,
        recipes: *mut u8,
        recipes_len: usize,
    ) -> i32;

    #[cfg(feature = "before")]
    fn weekplan_choose_before(
        _: *const u8,
        _: usize,
        _: *mut u8,
        _: usize,
        _: *mut u8,
        _: usize,
    ) -> i32;
}

pub fn choose(sheet: &[u8], picks: &mut [u8], recipes: &mut [u8]) -> i32 {
    call(weekplan_choose, sheet, picks, recipes)
}

/// The call of the revision that the call is measured against.
#[cfg(feature = "before")]
pub fn choose_before(sheet: &[u8], picks: &mut [u8], recipes: &mut [u8]) -> i32 {
    call(weekplan_choose_before, sheet, picks, recipes)
}

fn call(function: Function, sheet: &[u8], picks: &mut [u8], recipes: &mut [u8]) -> i32 {
    // SAFETY: each pointer stands for as many bytes as the size after it says; the call reads the sheet, writes within
    // the other two, and keeps none of them. The three do not overlap, two of them being lent to be written.
    unsafe {
        function(
            sheet.as_ptr(),
            sheet.len(),
            picks.as_mut_ptr(),
            picks.len(),
            recipes.as_mut_ptr(),
            recipes.len(),
        )
    }
}
