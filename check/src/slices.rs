//! C functions that are handed slices.

/// Makes safe functions of C functions that get some numbers, then slices that
/// they read, then maybe one more number, then slices that they write to, each
/// slice as its place and its size:
///
/// ```text
/// functions_of_slices! {
///     fn name[number: u32](read: &[u8], [late: u32]; written: &mut [u8]) -> Answer;
/// }
/// ```
///
/// Each must be as it is declared, stay within its slices and keep none of them.
#[macro_export]
macro_rules! functions_of_slices {
    ($(
        $visibility:vis fn $function:ident $([$($number:ident: $kind:ty),+])? (
            $($read:ident: &[$row:ty]),+ $(, [$late:ident: $late_kind:ty])?
            $(; $($written:ident: &mut [$cell:ty]),+)?
        ) -> $answer:ty;
    )+) => {$(
        $visibility fn $function(
            $($($number: $kind,)+)?
            $($read: &[$row],)+
            $($late: $late_kind,)?
            $($($written: &mut [$cell],)+)?
        ) -> $answer {
            extern "C" {
                fn $function(
                    $($($number: $kind,)+)?
                    $($read: *const $row, _: usize,)+
                    $($late: $late_kind,)?
                    $($($written: *mut $cell, _: usize,)+)?
                ) -> $answer;
            }
            // SAFETY: each place and size is that of one slice, which lives
            // through the call.
            unsafe {
                $function(
                    $($($number,)+)?
                    $($read.as_ptr(), $read.len(),)+
                    $($late,)?
                    $($($written.as_mut_ptr(), $written.len(),)+)?
                )
            }
        }
    )+};
}
