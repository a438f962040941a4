//! Wintabol's proved library, as safe Rust functions over slices. Each takes every input; a refused call leaves its outputs as they were.

mod raw;

/// The number of the row of the refusal table that refuses a call (README.md).
#[derive(Clone, Copy, Debug, PartialEq, Eq)]
pub struct Refused(pub usize);

fn answer(row: usize, written: usize) -> Result<usize, Refused> {
    match row {
        0 => Ok(written),
        row => Err(Refused(row)),
    }
}

// SAFETY, for each call below: a pointer and a length are a slice that is borrowed until the call returns, and the proved function reads
// and writes nothing outside its slices.

/// Writes the combined list of the texts to `out` and gives back its length. `scratch` takes breakpoints of a contig, as many at a
/// time as it has places for, and is zero at the end: one place gives the list that any more give, and row 10 is only for no place where there
/// is a site. Rows 1 to 14.
pub fn combine(
    cohort: &[u8],
    clip: Option<&[u8]>,
    reference: Option<&[u8]>,
    scratch: &mut [u64],
    out: &mut [u8],
) -> Result<usize, Refused> {
    let mut written = 0;
    let (clip_text, reference_text) = (clip.unwrap_or(&[]), reference.unwrap_or(&[]));
    let row = unsafe {
        raw::wintabol_combine(
            cohort.as_ptr(),
            cohort.len(),
            clip.is_some(),
            clip_text.as_ptr(),
            clip_text.len(),
            reference.is_some(),
            reference_text.as_ptr(),
            reference_text.len(),
            scratch.as_mut_ptr(),
            scratch.len(),
            out.as_mut_ptr(),
            out.len(),
            &mut written,
        )
    };
    answer(row, written)
}

/// For planning, how many sites the search along a contig looks at, for the texts of [`combine`]: the contig's sites, for each of its intervals
/// that lies in the clip, so 0 for a contig that no site names. Rows 1 to 13, for any contig as [`combine`] refuses the texts; never 14.
/// `scratch` is zero at the end.
pub fn looks(
    cohort: &[u8],
    clip: Option<&[u8]>,
    reference: Option<&[u8]>,
    contig: &[u8],
    scratch: &mut [u64],
) -> Result<usize, Refused> {
    let mut figure = 0;
    let (clip_text, reference_text) = (clip.unwrap_or(&[]), reference.unwrap_or(&[]));
    let row = unsafe {
        raw::wintabol_looks(
            cohort.as_ptr(),
            cohort.len(),
            clip.is_some(),
            clip_text.as_ptr(),
            clip_text.len(),
            reference.is_some(),
            reference_text.as_ptr(),
            reference_text.len(),
            contig.as_ptr(),
            contig.len(),
            scratch.as_mut_ptr(),
            scratch.len(),
            &mut figure,
        )
    };
    answer(row, figure)
}

/// What [`look_up`] stores for a pair that no record holds.
pub const NO_RECORD: u32 = u32::MAX;

/// How many pairs were looked up, and how many record groups were read for them.
#[derive(Clone, Copy, Debug, PartialEq, Eq)]
pub struct LookedUp {
    pub pairs: usize,
    pub groups: u32,
}

/// Looks many positions up in a combined list, front to back. `asked` is a text of groups `contig=` and `pos=`, at most 1,024, in list order.
/// `out` takes for each the number of the record whose stretch holds it, or [`NO_RECORD`]. The record groups read are those up to and including
/// the first that in list order ends at or after the last pair, or all; a fault behind them goes unseen. Rows 1 to 8, 14 and 18.
pub fn look_up(list: &[u8], asked: &[u8], out: &mut [u32]) -> Result<LookedUp, Refused> {
    let (mut pairs, mut groups) = (0, 0);
    let row = unsafe {
        raw::wintabol_look_up(
            list.as_ptr(),
            list.len(),
            asked.as_ptr(),
            asked.len(),
            out.as_mut_ptr(),
            out.len(),
            &mut pairs,
            &mut groups,
        )
    };
    answer(row, pairs).map(|pairs| LookedUp { pairs, groups })
}

/// Writes the called list of a combined list. Rows 1 to 8 and 14.
pub fn call(list: &[u8], out: &mut [u8]) -> Result<usize, Refused> {
    let mut written = 0;
    let row = unsafe { raw::wintabol_call(list.as_ptr(), list.len(), out.as_mut_ptr(), out.len(), &mut written) };
    answer(row, written)
}

/// Writes the alleles of a comma list, REF first, without their common ending. Rows 5 and 14.
pub fn reverse_trim_alleles(alleles: &[u8], out: &mut [u8]) -> Result<usize, Refused> {
    let mut written = 0;
    let row = unsafe {
        raw::wintabol_reverse_trim_alleles(alleles.as_ptr(), alleles.len(), out.as_mut_ptr(), out.len(), &mut written)
    };
    answer(row, written)
}

/// GQ of a list of PLs: second least minus least, at most 99.
pub fn gq_phred_from_pl(pl: &[u32]) -> u32 {
    unsafe { raw::wintabol_gq_phred_from_pl(pl.as_ptr(), pl.len()) }
}

/// Writes minus a tenth of each PL. Row 14.
pub fn log10_likelihoods_from_pl(pl: &[u32], out: &mut [f64]) -> Result<usize, Refused> {
    let mut written = 0;
    let row = unsafe {
        raw::wintabol_log10_likelihoods_from_pl(pl.as_ptr(), pl.len(), out.as_mut_ptr(), out.len(), &mut written)
    };
    answer(row, written)
}

/// Writes the likelihoods of so many alleles over those of a keep list, in its order, less the greatest. Rows 15 and 14.
pub fn subset_log10_genotype_likelihoods(
    gl: &[f64],
    alleles: usize,
    keep: &[usize],
    out: &mut [f64],
) -> Result<usize, Refused> {
    let mut written = 0;
    let row = unsafe {
        raw::wintabol_subset_log10_genotype_likelihoods(
            gl.as_ptr(),
            gl.len(),
            alleles,
            keep.as_ptr(),
            keep.len(),
            out.as_mut_ptr(),
            out.len(),
            &mut written,
        )
    };
    answer(row, written)
}

/// How many values of the ALTs, the likelihoods and AD were written.
#[derive(Clone, Copy, Debug, PartialEq, Eq)]
pub struct Written {
    pub alts: usize,
    pub gl: usize,
    pub ad: usize,
}

/// Writes a record without the ALTs that the GT does not name: ALTs (a comma list), likelihoods and AD. Rows 15 and 14.
pub fn subset_unused_alts(
    alts: &[u8],
    gt: &[usize],
    gl: &[f64],
    ad: &[u32],
    alts_out: &mut [u8],
    gl_out: &mut [f64],
    ad_out: &mut [u32],
) -> Result<Written, Refused> {
    let mut written = Written { alts: 0, gl: 0, ad: 0 };
    let row = unsafe {
        raw::wintabol_subset_unused_alts(
            alts.as_ptr(),
            alts.len(),
            gt.as_ptr(),
            gt.len(),
            gl.as_ptr(),
            gl.len(),
            ad.as_ptr(),
            ad.len(),
            alts_out.as_mut_ptr(),
            alts_out.len(),
            gl_out.as_mut_ptr(),
            gl_out.len(),
            ad_out.as_mut_ptr(),
            ad_out.len(),
            &mut written.alts,
            &mut written.gl,
            &mut written.ad,
        )
    };
    answer(row, 0).map(|_| written)
}
