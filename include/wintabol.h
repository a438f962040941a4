/* Wintabol: combined and called lists of gVCF sites.
 *
 * Link target/staticlib/libwintabol.a, which tools/static_library.sh makes of the crate wintabol_c (x86-64 Linux). Every function takes every
 * input, allocates nothing, keeps no state and calls nothing but memset and memcpy. A slice is a pointer and a number of elements; a slice of
 * no elements has any pointer that is not null and fits its alignment. Slices that are written must not overlap any other slice of the call.
 *
 * A function that writes gives back the number of the row of the refusal table (README.md), 0 for none, and stores how many values it wrote,
 * 0 if it was refused. A refused call leaves its outputs as they were. Behind what was written an output is as it was.
 */
#ifndef WINTABOL_H
#define WINTABOL_H

#include <stdbool.h>
#include <stddef.h>
#include <stdint.h>

#ifdef __cplusplus
extern "C" {
#endif

/* The combined list of cohort.kv, of clip.kv if `clipped`, and of reference.kv if `has_reference`; a text that is not given is not looked
 * at. `scratch` takes breakpoints of a contig, as many at a time as it has places for, and is zero at the end: one place gives the list that any
 * more give, and row 10 is only for no place where there is a site. Rows 1 to 14. The stack of a call stays under 1 MiB. */
size_t wintabol_combine(const uint8_t *cohort, size_t cohort_len,
                        bool clipped, const uint8_t *clip, size_t clip_len,
                        bool has_reference, const uint8_t *reference, size_t reference_len,
                        uint64_t *scratch, size_t scratch_len,
                        uint8_t *out, size_t out_len, size_t *written);

/* For planning: how many sites the search along a contig looks at, for the texts of wintabol_combine. It is the contig's sites, for each of its
 * intervals that lies in the clip; what the search really looks at is at most that. The figure is stored: 0 for a contig that no site names,
 * and where the call is refused. Rows 1 to 13, for any contig as wintabol_combine refuses the texts; never 14. `scratch` is zero at the end. */
size_t wintabol_looks(const uint8_t *cohort, size_t cohort_len,
                      bool clipped, const uint8_t *clip, size_t clip_len,
                      bool has_reference, const uint8_t *reference, size_t reference_len,
                      const uint8_t *contig, size_t contig_len,
                      uint64_t *scratch, size_t scratch_len, size_t *figure);

/* Many positions looked up in a combined list, front to back. `asked` is a text of groups `contig=` and `pos=`, at most 1,024, in list order: by
 * contig name in byte order, then by position, equal ones allowed. `out` takes for each pair the number of the record whose stretch holds it,
 * counted from 0, or 4294967295 for none. Stored are the number of pairs, and how many record groups were read: those up to and including the
 * first that in list order ends at or after the last pair, or all; both 0 where the call is refused. A fault behind what is read goes unseen.
 * Rows 1 to 8, 14 and 18. */
size_t wintabol_look_up(const uint8_t *list, size_t list_len, const uint8_t *asked, size_t asked_len,
                        uint32_t *out, size_t out_len, size_t *pairs, uint32_t *groups);

/* The called list of a combined list: without <NON_REF> and MIN_DP, with PL, AD and GQ over what is left. Rows 1 to 8 and 14. */
size_t wintabol_call(const uint8_t *list, size_t list_len, uint8_t *out, size_t out_len, size_t *written);

/* The alleles of a comma list, REF first, without their common ending. Rows 5 and 14. */
size_t wintabol_reverse_trim_alleles(const uint8_t *alleles, size_t alleles_len, uint8_t *out, size_t out_len, size_t *written);

/* GQ of a list of PLs: second least minus least, at most 99. */
uint32_t wintabol_gq_phred_from_pl(const uint32_t *pl, size_t pl_len);

/* Minus a tenth of each PL. Row 14. */
size_t wintabol_log10_likelihoods_from_pl(const uint32_t *pl, size_t pl_len, double *out, size_t out_len, size_t *written);

/* The likelihoods of so many alleles over those of a keep list, in its order, less the greatest. Rows 15 and 14. */
size_t wintabol_subset_log10_genotype_likelihoods(const double *gl, size_t gl_len, size_t alleles,
                                                  const size_t *keep, size_t keep_len,
                                                  double *out, size_t out_len, size_t *written);

/* A record without the ALTs that the GT does not name: ALTs (a comma list), likelihoods and AD. Rows 15 and 14. */
size_t wintabol_subset_unused_alts(const uint8_t *alts, size_t alts_len, const size_t *gt, size_t gt_len,
                                   const double *gl, size_t gl_len, const uint32_t *ad, size_t ad_len,
                                   uint8_t *alts_out, size_t alts_out_len, double *gl_out, size_t gl_out_len,
                                   uint32_t *ad_out, size_t ad_out_len,
                                   size_t *alts_written, size_t *gl_written, size_t *ad_written);

#ifdef __cplusplus
}
#endif

#endif
