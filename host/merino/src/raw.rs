//! The C functions themselves, for callers that lend their own buffers.
//!
//! `include/merino.h` says what each parameter is and what each buffer holds after each outcome. A slice crosses as a pointer and a
//! number of elements. Each function answers 0 where the call is accepted, else the number of its refusal, as [`crate::Refusal`] has it.
//! They are `unsafe` for one reason: the pointers have to be what they are said to be, and what is written may overlap nothing else.

extern "C" {
    /// Pushes an entry onto a kept list; [`crate::KeptList::push`] is the same in safe Rust.
    ///
    /// # Safety
    /// The pointers are valid for their lengths, and no two overlap.
    ///
    /// ```
    /// let (mut length, mut packed, mut scores) = (0u64, [0u64; 2], [0f32; 2]);
    /// let number = unsafe { merino::raw::merino_push(2, &mut length, packed.as_mut_ptr(), 2, scores.as_mut_ptr(), 2, 196_612, 1.5) };
    /// assert_eq!((number, length, packed[0], scores[0]), (0, 1, 196_612, 1.5));
    /// ```
    pub fn merino_push(
        k: u64,
        length: *mut u64,
        packed: *mut u64,
        packed_len: usize,
        scores: *mut f32,
        scores_len: usize,
        new_packed: u64,
        new_score: f32,
    ) -> u64;

    /// Searches a posting list; [`crate::PostingList::search`] is the same in safe Rust, and has an example.
    ///
    /// # Safety
    /// The pointers are valid for their lengths, and what is written overlaps nothing else.
    pub fn merino_search(
        by_score: u64,
        query_components: *const u32,
        query_components_len: usize,
        query_values: *const f32,
        query_values_len: usize,
        k: u64,
        factor: f32,
        components: *const u32,
        components_len: usize,
        values: *const f32,
        values_len: usize,
        postings: *const u64,
        postings_len: usize,
        block_offsets: *const u64,
        block_offsets_len: usize,
        summary_components: *const u32,
        summary_components_len: usize,
        component_offsets: *const u64,
        component_offsets_len: usize,
        summary_ids: *const u16,
        summary_ids_len: usize,
        codes: *const u8,
        codes_len: usize,
        minimums: *const f32,
        minimums_len: usize,
        steps: *const f32,
        steps_len: usize,
        length: *mut u64,
        packed: *mut u64,
        packed_len: usize,
        scores: *mut f32,
        scores_len: usize,
        visits: *mut u8,
        visits_len: usize,
        block_scores: *mut f32,
        block_scores_len: usize,
        block_order: *mut u64,
        block_order_len: usize,
        position: *mut u64,
        evaluated: *mut u64,
        skipped: *mut u64,
    ) -> u64;
}
extern "C" {
    /// Builds a posting list; [`crate::PostingList::build`] is the same in safe Rust, and has an example.
    ///
    /// # Safety
    /// The pointers are valid for their lengths, and what is written overlaps nothing else.
    pub fn merino_build(
        dimension: u64,
        blocking: u64,
        block_size: u64,
        centroid_fraction: f32,
        min_cluster_size: u64,
        doc_cut: u64,
        summarization: u64,
        n_components: u64,
        summary_energy: f32,
        offsets: *const u64,
        offsets_len: usize,
        components: *const u32,
        components_len: usize,
        values: *const f32,
        values_len: usize,
        ids: *const u64,
        ids_len: usize,
        centroids: *const u64,
        centroids_len: usize,
        postings: *mut u64,
        postings_len: usize,
        block_offsets: *mut u64,
        block_offsets_len: usize,
        summary_components: *mut u32,
        summary_components_len: usize,
        component_offsets: *mut u64,
        component_offsets_len: usize,
        summary_ids: *mut u16,
        summary_ids_len: usize,
        codes: *mut u8,
        codes_len: usize,
        minimums: *mut f32,
        minimums_len: usize,
        steps: *mut f32,
        steps_len: usize,
        order: *mut u64,
        order_len: usize,
        blocks: *mut u64,
        blocks_len: usize,
        sorted: *mut u64,
        sorted_len: usize,
        known: *mut u64,
        known_len: usize,
        taken: *mut u64,
        taken_len: usize,
        counts: *mut u64,
        counts_len: usize,
        starts: *mut u64,
        starts_len: usize,
        slots: *mut u64,
        slots_len: usize,
        weights: *mut f32,
        weights_len: usize,
        sums: *mut f32,
        sums_len: usize,
        keys: *mut u64,
        keys_len: usize,
        postings_written: *mut u64,
        block_offsets_written: *mut u64,
        summary_components_written: *mut u64,
        entries_written: *mut u64,
        summaries_written: *mut u64,
    ) -> u64;
}
