//! Peak memory of both sides on the benchmark's cohorts: the Rust's heap while it combines loaded sites, and Wintabol's heap and stack.

#[path = "../shapes.rs"]
mod shapes;

use gatk_haplotypecaller::combine_gvcfs::combine_loaded_gvcfs;
use oracle::cohort::write_cohort;
use oracle::combine::loaded_gvcfs;
use std::alloc::{GlobalAlloc, Layout, System};
use std::hint::black_box;
use std::sync::atomic::{AtomicUsize, Ordering::Relaxed};

/// The system's allocator, with a count of the bytes that are lent and of the most at a time.
struct Counting;
static NOW: AtomicUsize = AtomicUsize::new(0);
static MOST: AtomicUsize = AtomicUsize::new(0);

// SAFETY: every request is passed on as it is.
unsafe impl GlobalAlloc for Counting {
    unsafe fn alloc(&self, layout: Layout) -> *mut u8 {
        MOST.fetch_max(NOW.fetch_add(layout.size(), Relaxed) + layout.size(), Relaxed);
        System.alloc(layout)
    }
    unsafe fn dealloc(&self, at: *mut u8, layout: Layout) {
        NOW.fetch_sub(layout.size(), Relaxed);
        System.dealloc(at, layout)
    }
}

#[global_allocator]
static ALLOCATOR: Counting = Counting;

/// The most heap that a call takes beyond what was there before it.
fn heap(f: impl FnOnce()) -> usize {
    let before = NOW.load(Relaxed);
    MOST.store(before, Relaxed);
    f();
    MOST.load(Relaxed) - before
}

const PAINTED: usize = 3 << 20;
const PAINT: u8 = 0xA5;

/// The stack that a call takes below this frame: what it leaves changed of a stretch that was painted before.
#[inline(never)]
fn stack(f: impl FnOnce()) -> usize {
    let here = 0u8;
    // the painting's own frames stay above this
    let top = (&raw const here as usize) - 4096;
    let low = top - PAINTED;
    for at in low..top {
        // SAFETY: the thread's stack has 8 MiB, and nothing of it is in use below the frames of this loop.
        unsafe { (at as *mut u8).write_volatile(PAINT) }
    }
    f();
    let mut at = low;
    // SAFETY: as above.
    while at < top && unsafe { (at as *const u8).read_volatile() } == PAINT {
        at += 1;
    }
    top + 4096 - at
}

fn measure(shape: &str, samples: usize, sites: usize) {
    let cohort = shapes::cohort(shape, samples, sites, 20261115);
    let (text, loaded) = (write_cohort(&cohort), loaded_gvcfs(&cohort.for_the_rust()));
    let (mut scratch, mut out) = (vec![0u64; shapes::places(&cohort)], vec![0u8; 1 << 24]);
    let rust = heap(|| drop(black_box(combine_loaded_gvcfs(black_box(&loaded), None, None))));
    let mut call = || {
        black_box(wintabol::combine(black_box(text.as_bytes()), None, None, &mut scratch, &mut out)).expect("a list");
    };
    let ours = heap(&mut call);
    println!("{shape} {samples} {sites} {rust} {ours} {}", stack(call));
}

fn main() {
    println!("shape samples sites rust_heap ours_heap ours_stack");
    let all = || {
        for shape in shapes::SHAPES {
            for (samples, sites) in shapes::SIZES {
                measure(shape, samples, sites);
            }
        }
    };
    std::thread::Builder::new().stack_size(8 << 20).spawn(all).unwrap().join().unwrap();
}
