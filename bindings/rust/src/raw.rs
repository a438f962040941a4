//! The functions of include/wintabol.h.

extern "C" {
    pub fn wintabol_combine(
        cohort: *const u8,
        cohort_len: usize,
        clipped: bool,
        clip: *const u8,
        clip_len: usize,
        has_reference: bool,
        reference: *const u8,
        reference_len: usize,
        scratch: *mut u64,
        scratch_len: usize,
        out: *mut u8,
        out_len: usize,
        written: *mut usize,
    ) -> usize;

    pub fn wintabol_looks(
        cohort: *const u8,
        cohort_len: usize,
        clipped: bool,
        clip: *const u8,
        clip_len: usize,
        has_reference: bool,
        reference: *const u8,
        reference_len: usize,
        contig: *const u8,
        contig_len: usize,
        scratch: *mut u64,
        scratch_len: usize,
        figure: *mut usize,
    ) -> usize;

    pub fn wintabol_look_up(
        list: *const u8,
        list_len: usize,
        asked: *const u8,
        asked_len: usize,
        out: *mut u32,
        out_len: usize,
        pairs: *mut usize,
        groups: *mut u32,
    ) -> usize;

    pub fn wintabol_call(list: *const u8, list_len: usize, out: *mut u8, out_len: usize, written: *mut usize) -> usize;

    pub fn wintabol_reverse_trim_alleles(
        alleles: *const u8,
        alleles_len: usize,
        out: *mut u8,
        out_len: usize,
        written: *mut usize,
    ) -> usize;

    pub fn wintabol_gq_phred_from_pl(pl: *const u32, pl_len: usize) -> u32;

    pub fn wintabol_log10_likelihoods_from_pl(
        pl: *const u32,
        pl_len: usize,
        out: *mut f64,
        out_len: usize,
        written: *mut usize,
    ) -> usize;

    pub fn wintabol_subset_log10_genotype_likelihoods(
        gl: *const f64,
        gl_len: usize,
        alleles: usize,
        keep: *const usize,
        keep_len: usize,
        out: *mut f64,
        out_len: usize,
        written: *mut usize,
    ) -> usize;

    pub fn wintabol_subset_unused_alts(
        alts: *const u8,
        alts_len: usize,
        gt: *const usize,
        gt_len: usize,
        gl: *const f64,
        gl_len: usize,
        ad: *const u32,
        ad_len: usize,
        alts_out: *mut u8,
        alts_out_len: usize,
        gl_out: *mut f64,
        gl_out_len: usize,
        ad_out: *mut u32,
        ad_out_len: usize,
        alts_written: *mut usize,
        gl_written: *mut usize,
        ad_written: *mut usize,
    ) -> usize;
}
