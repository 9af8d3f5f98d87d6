//! `memory SIDE` prints the peak memory of one side: KiB of this process, bytes of stack and bytes of heap under the side's functions.
//! A program of its own, because it counts what is allocated. The stack is measured by painting it.

use benchmark::rows::{rows, run, Row, Side, TIMED};
use std::alloc::{GlobalAlloc, Layout, System};
use std::arch::asm;
use std::sync::atomic::{AtomicUsize, Ordering::Relaxed};

struct Counting;

static HELD: AtomicUsize = AtomicUsize::new(0);
static MOST: AtomicUsize = AtomicUsize::new(0);

// SAFETY: what is asked for is asked of the system's allocator.
unsafe impl GlobalAlloc for Counting {
    unsafe fn alloc(&self, layout: Layout) -> *mut u8 {
        MOST.fetch_max(HELD.fetch_add(layout.size(), Relaxed) + layout.size(), Relaxed);
        System.alloc(layout)
    }

    unsafe fn dealloc(&self, at: *mut u8, layout: Layout) {
        HELD.fetch_sub(layout.size(), Relaxed);
        System.dealloc(at, layout)
    }
}

#[global_allocator]
static ALLOCATOR: Counting = Counting;

const PAINT: u8 = 0xA5;
const STACK: usize = 256 * 1024;

struct Work {
    side: Side,
    rows: Vec<Row>,
    heap: usize,
}

extern "C" fn work(work: *mut Work) {
    // SAFETY: `stack_used` passes a reference.
    let Work { side, rows, heap } = unsafe { &mut *work };
    for row in rows {
        let input = (row.input)(10);
        let held = HELD.load(Relaxed);
        MOST.store(held, Relaxed);
        std::hint::black_box(run(*side, &input));
        *heap = (*heap).max(MOST.load(Relaxed) - held);
    }
}

fn stack_used(all: &mut Work) -> usize {
    let mut stack = vec![PAINT; STACK];
    let top = stack.as_mut_ptr_range().end as usize / 16 * 16;
    // SAFETY: the stack is large enough for the work, aligned, and put back after it; r12 is kept by what is called.
    unsafe {
        asm!("mov r12, rsp", "mov rsp, {top}", "call {work}", "mov rsp, r12",
            top = in(reg) top, work = in(reg) work, in("rdi") all, out("r12") _, clobber_abi("C"));
    }
    STACK - stack.iter().take_while(|&&byte| byte == PAINT).count()
}

fn peak() -> u64 {
    let status = std::fs::read_to_string("/proc/self/status").unwrap_or_default();
    let line = status.lines().find_map(|line| line.strip_prefix("VmHWM:")).unwrap_or_default();
    line.trim().trim_end_matches(" kB").parse().unwrap_or(0)
}

fn main() {
    let side = Side::named(&std::env::args().nth(1).unwrap_or_default());
    let own = stack_used(&mut Work { side, rows: vec![], heap: 0 });
    let mut all = Work { side, rows: rows().into_iter().take(TIMED).collect(), heap: 0 };
    let stack = stack_used(&mut all) - own;
    println!("{} {stack} {}", peak(), all.heap);
}
