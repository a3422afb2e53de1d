//! The proved library, through the function that the crate `exports` exports.

mod foreign {
    unsafe extern "C" {
        /// A slice is a pointer and then a length. No pointer is kept after the call.
        pub fn nulambitra_answers(
            network: *const u8,
            network_len: usize,
            rules: *const u8,
            rules_len: usize,
            enquiries: *const u32,
            enquiries_len: usize,
            rounds: u32,
            answers: *mut u32,
            answers_len: usize,
        ) -> usize;
    }
}

/// Loads the files, asks every enquiry `rounds` times and writes what the last round was answered. Gives how many numbers were written.
pub fn answers(network: &[u8], rules: &[u8], enquiries: &[u32], rounds: u32, answers: &mut [u32]) -> usize {
    // SAFETY: each pointer comes with the length of its own slice, and the exported function requires nothing else.
    unsafe {
        foreign::nulambitra_answers(
            network.as_ptr(),
            network.len(),
            rules.as_ptr(),
            rules.len(),
            enquiries.as_ptr(),
            enquiries.len(),
            rounds,
            answers.as_mut_ptr(),
            answers.len(),
        )
    }
}
