//! The archive that the kit builds: its functions over slices, by the names and parameters that they have in the source.

// Nothing checks these declarations against the archive but the host test.
mod c {
    use super::Step;

    extern "C" {
        pub fn tewhoranu_version() -> u64;
        pub fn tewhoranu_read(text: *const u8, text_length: usize, table: *mut u64, table_length: usize) -> u64;
        pub fn tewhoranu_write(table: *const u64, table_length: usize, out: *mut u8, out_length: usize) -> u64;
        pub fn tewhoranu_name_sought(text: *const u8, text_length: usize, query: usize, place: *mut u64) -> u64;
        pub fn tewhoranu_listing(
            text: *const u8,
            text_length: usize,
            query: usize,
            out: *mut u8,
            out_length: usize,
        ) -> u64;
        pub fn tewhoranu_listing_counted(
            text: *const u8,
            text_length: usize,
            query: usize,
            out: *mut u8,
            out_length: usize,
            followed: *mut u64,
        ) -> u64;
        pub fn tewhoranu_judge(
            text: *const u8,
            text_length: usize,
            query: usize,
            row: *const u8,
            row_length: usize,
            steps: *mut Step,
            steps_length: usize,
        ) -> u64;
        pub fn tewhoranu_compare(
            text: *const u8,
            text_length: usize,
            first: *const u8,
            first_length: usize,
            second: *const u8,
            second_length: usize,
            first_steps: *mut Step,
            first_steps_length: usize,
            second_steps: *mut Step,
            second_steps_length: usize,
        ) -> u64;
        pub fn tewhoranu_summary(text: *const u8, text_length: usize, out: *mut u8, out_length: usize) -> u64;
        pub fn tewhoranu_to_old(text: *const u8, text_length: usize, out: *mut u8, out_length: usize) -> u64;
        pub fn tewhoranu_to_new(text: *const u8, text_length: usize, out: *mut u8, out_length: usize) -> u64;
        pub fn tewhoranu_readers(
            text: *const u8,
            text_length: usize,
            place: usize,
            out: *mut u8,
            out_length: usize,
        ) -> u64;
        pub fn tewhoranu_dot(text: *const u8, text_length: usize, out: *mut u8, out_length: usize) -> u64;
        pub fn tewhoranu_undot(
            text: *const u8,
            text_length: usize,
            dot: *const u8,
            dot_length: usize,
            out: *mut u8,
            out_length: usize,
        ) -> u64;
        pub fn tewhoranu_rules(
            text: *const u8,
            text_length: usize,
            expression: *const u8,
            expression_length: usize,
            out: *mut u8,
            out_length: usize,
        ) -> u64;
        pub fn tewhoranu_renumber(
            text: *const u8,
            text_length: usize,
            out: *mut u8,
            out_length: usize,
            list: *mut u8,
            list_length: usize,
            listed: *mut u64,
        ) -> u64;
        pub fn tewhoranu_back(
            text: *const u8,
            text_length: usize,
            was: *const u8,
            was_length: usize,
            out: *mut u8,
            out_length: usize,
        ) -> u64;
    }
}

/// A step of a path: the label's letter, and the scope that it comes to.
#[repr(C)]
#[derive(Clone, Copy, Debug, PartialEq, Eq, Default)]
pub struct Step {
    pub label: u8,
    pub scope: u8,
}

// In each function below the pointers and lengths are those of slices, which Rust keeps valid,
// aligned, initialised and, where they are `&mut`, apart from all others for the call; the library
// keeps none of them. That is all that its header asks, the stack aside.

pub fn tewhoranu_version() -> u64 {
    // SAFETY: as said above.
    unsafe { c::tewhoranu_version() }
}

pub fn tewhoranu_read(text: &[u8], table: &mut [u64]) -> u64 {
    // SAFETY: as said above.
    unsafe { c::tewhoranu_read(text.as_ptr(), text.len(), table.as_mut_ptr(), table.len()) }
}

pub fn tewhoranu_write(table: &[u64], out: &mut [u8]) -> u64 {
    // SAFETY: as said above.
    unsafe { c::tewhoranu_write(table.as_ptr(), table.len(), out.as_mut_ptr(), out.len()) }
}

pub fn tewhoranu_name_sought(text: &[u8], query: usize, place: &mut u64) -> u64 {
    // SAFETY: as said above.
    unsafe { c::tewhoranu_name_sought(text.as_ptr(), text.len(), query, place) }
}

pub fn tewhoranu_listing(text: &[u8], query: usize, out: &mut [u8]) -> u64 {
    // SAFETY: as said above.
    unsafe { c::tewhoranu_listing(text.as_ptr(), text.len(), query, out.as_mut_ptr(), out.len()) }
}

pub fn tewhoranu_listing_counted(text: &[u8], query: usize, out: &mut [u8], followed: &mut u64) -> u64 {
    // SAFETY: as said above.
    unsafe { c::tewhoranu_listing_counted(text.as_ptr(), text.len(), query, out.as_mut_ptr(), out.len(), followed) }
}

pub fn tewhoranu_judge(text: &[u8], query: usize, row: &[u8], steps: &mut [Step]) -> u64 {
    // SAFETY: as said above.
    unsafe {
        c::tewhoranu_judge(text.as_ptr(), text.len(), query, row.as_ptr(), row.len(), steps.as_mut_ptr(), steps.len())
    }
}

pub fn tewhoranu_compare(
    text: &[u8],
    first: &[u8],
    second: &[u8],
    first_steps: &mut [Step],
    second_steps: &mut [Step],
) -> u64 {
    // SAFETY: as said above.
    unsafe {
        c::tewhoranu_compare(
            text.as_ptr(),
            text.len(),
            first.as_ptr(),
            first.len(),
            second.as_ptr(),
            second.len(),
            first_steps.as_mut_ptr(),
            first_steps.len(),
            second_steps.as_mut_ptr(),
            second_steps.len(),
        )
    }
}

pub fn tewhoranu_summary(text: &[u8], out: &mut [u8]) -> u64 {
    // SAFETY: as said above.
    unsafe { c::tewhoranu_summary(text.as_ptr(), text.len(), out.as_mut_ptr(), out.len()) }
}

pub fn tewhoranu_to_old(text: &[u8], out: &mut [u8]) -> u64 {
    // SAFETY: as said above.
    unsafe { c::tewhoranu_to_old(text.as_ptr(), text.len(), out.as_mut_ptr(), out.len()) }
}

pub fn tewhoranu_to_new(text: &[u8], out: &mut [u8]) -> u64 {
    // SAFETY: as said above.
    unsafe { c::tewhoranu_to_new(text.as_ptr(), text.len(), out.as_mut_ptr(), out.len()) }
}

pub fn tewhoranu_rules(text: &[u8], expression: &[u8], out: &mut [u8]) -> u64 {
    // SAFETY: as said above.
    unsafe {
        c::tewhoranu_rules(
            text.as_ptr(),
            text.len(),
            expression.as_ptr(),
            expression.len(),
            out.as_mut_ptr(),
            out.len(),
        )
    }
}

pub fn tewhoranu_readers(text: &[u8], place: usize, out: &mut [u8]) -> u64 {
    // SAFETY: as said above.
    unsafe { c::tewhoranu_readers(text.as_ptr(), text.len(), place, out.as_mut_ptr(), out.len()) }
}

pub fn tewhoranu_renumber(text: &[u8], out: &mut [u8], list: &mut [u8], listed: &mut u64) -> u64 {
    // SAFETY: as said above.
    unsafe {
        c::tewhoranu_renumber(
            text.as_ptr(),
            text.len(),
            out.as_mut_ptr(),
            out.len(),
            list.as_mut_ptr(),
            list.len(),
            listed,
        )
    }
}

pub fn tewhoranu_back(text: &[u8], was: &[u8], out: &mut [u8]) -> u64 {
    // SAFETY: as said above.
    unsafe { c::tewhoranu_back(text.as_ptr(), text.len(), was.as_ptr(), was.len(), out.as_mut_ptr(), out.len()) }
}

pub fn tewhoranu_dot(text: &[u8], out: &mut [u8]) -> u64 {
    // SAFETY: as said above.
    unsafe { c::tewhoranu_dot(text.as_ptr(), text.len(), out.as_mut_ptr(), out.len()) }
}

pub fn tewhoranu_undot(text: &[u8], dot: &[u8], out: &mut [u8]) -> u64 {
    // SAFETY: as said above.
    unsafe {
        c::tewhoranu_undot(text.as_ptr(), text.len(), dot.as_ptr(), dot.len(), out.as_mut_ptr(), out.len())
    }
}
