//! The score of a loose plan.

extern "C" {
    fn algebra_score_loose(
        language: *const u8,
        language_length: usize,
        root: u32,
        plan: *const u8,
        plan_length: usize,
        table: *const u8,
        table_length: usize,
        least: *mut i64,
        greatest: *mut i64,
    ) -> u32;
}

/// What the score of a loose plan answers, as the library gives it.
#[derive(Clone, Copy, Debug, PartialEq, Eq)]
pub struct LooseScoreAnswer {
    /// 0, or the number of the refusal.
    pub number: u32,
    /// The least score, 0 for a refusal.
    pub least: i64,
    /// The greatest score, 0 for a refusal.
    pub greatest: i64,
}

/// Scores a loose plan by a table.
pub fn score_loose(language: &[u8], root: u32, plan: &[u8], table: &[u8]) -> LooseScoreAnswer {
    let (mut least, mut greatest) = (i64::MIN, i64::MIN);
    // SAFETY: pointers and lengths are those of slices that are lent for the call, and both
    // scores are lent for writing.
    let number = unsafe {
        algebra_score_loose(
            language.as_ptr(),
            language.len(),
            root,
            plan.as_ptr(),
            plan.len(),
            table.as_ptr(),
            table.len(),
            &mut least,
            &mut greatest,
        )
    };
    LooseScoreAnswer { number, least, greatest }
}
