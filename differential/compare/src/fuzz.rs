//! One input of a fuzzer through the library. The first byte says which function, the next two how much room; what follows are texts, with a
//! zero byte between. Whatever is wrong ends the process.

use crate::bad;
use crate::ours::{Call, Library};
use std::cell::RefCell;

thread_local! {
    static LIBRARY: RefCell<Library> = RefCell::new(Library::new());
}

/// Rows 1 to 10 as in `bad`; any places give the same answer; a list that is written is read back by `call`, and with one byte too few it is 14.
fn combine(library: &mut Library, places: usize, room: usize, text: &[u8]) {
    let mut parts = text.splitn(3, |&b| b == 0);
    let cohort = parts.next().unwrap_or_default();
    let (clip, reference) = (parts.next(), parts.next());
    bad::hold(library, cohort, clip, reference).unwrap();
    let whole = Call { cohort, clip, reference, places: 2048, room };
    let answer = library.combine(&whole);
    assert_eq!(library.combine(&Call { places: 1 + places, ..whole }), answer);
    if let Ok(list) = library.combine_roomy(&whole) {
        let room = list.len();
        assert_eq!(library.combine(&Call { room, ..whole }).as_ref(), Ok(&list));
        assert_eq!(library.combine(&Call { room: room - 1, ..whole }), Err(14));
        assert_eq!(bad::hold_list(library, &list), Ok(0));
    }
}

fn trim(alleles: &[u8], room: usize) {
    let mut out = vec![0xA5; room];
    let written = wintabol::reverse_trim_alleles(alleles, &mut out).unwrap_or(0);
    assert!(out[written..].iter().all(|&b| b == 0xA5));
}

/// Likelihoods of any bits, allele counts, keep numbers and GT of any size.
fn subset(bytes: &[u8], room: usize) {
    let words: Vec<u64> = bytes.chunks_exact(8).map(|c| u64::from_le_bytes(c.try_into().unwrap())).collect();
    let (head, values) = words.split_at(words.len().min(3));
    let gl: Vec<f64> = values.iter().map(|&w| f64::from_bits(w)).collect();
    let keep: Vec<usize> = head.iter().map(|&w| w as usize).collect();
    let alleles = keep.first().map_or(0, |w| w % 20);
    let near: Vec<usize> = keep.iter().map(|w| w % 17).collect();
    let mut out = vec![f64::from_bits(0xA5A5); room];
    for list in [&keep, &near] {
        let written = wintabol::subset_log10_genotype_likelihoods(&gl, alleles, list, &mut out).unwrap_or(0);
        assert!(out[written..].iter().all(|v| v.to_bits() == 0xA5A5));
        out.fill(f64::from_bits(0xA5A5));
        let (mut alts, mut ad_out) = (vec![0xA5u8; room], vec![7u32; room]);
        let ad: Vec<u32> = values.iter().map(|&w| w as u32).collect();
        let _ = wintabol::subset_unused_alts(bytes, list, &gl, &ad, &mut alts, &mut out, &mut ad_out);
        out.fill(f64::from_bits(0xA5A5));
        wintabol::gq_phred_from_pl(&ad);
        let _ = wintabol::log10_likelihoods_from_pl(&ad, &mut out);
        out.fill(f64::from_bits(0xA5A5));
    }
}

pub fn one(input: &[u8]) {
    let [which, low, high, rest @ ..] = input else { return };
    let room = usize::from(u16::from_le_bytes([*low, *high]));
    LIBRARY.with_borrow_mut(|library| match which % 8 {
        0..=3 => combine(library, usize::from(*low), room, rest),
        4 | 5 => {
            bad::hold_list(library, rest).unwrap();
            let _ = library.call(rest, room);
        }
        6 => trim(rest, room),
        _ => subset(rest, room % 200),
    });
}

/// # Safety
/// `data` is `len` bytes that may be read.
#[no_mangle]
pub unsafe extern "C" fn wintabol_fuzz_one(data: *const u8, len: usize) {
    let told = std::panic::catch_unwind(|| one(std::slice::from_raw_parts(data, len)));
    if told.is_err() {
        std::process::abort();
    }
}
