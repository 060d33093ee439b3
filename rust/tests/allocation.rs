//! The calls that promise it allocate nothing. One test in a program of its own: its allocator counts.
use hca_frame::{read_frame_into, write_record_into, Delivered, Encoder, Kind, Layout, Record, Tally};
use std::alloc::{GlobalAlloc, Layout as Block, System};
use std::cell::Cell;

struct Counting;

thread_local! {
    static COUNT: Cell<usize> = const { Cell::new(0) };
}

// SAFETY: all is handed to the system's allocator; the count is a plain number of the thread.
unsafe impl GlobalAlloc for Counting {
    unsafe fn alloc(&self, block: Block) -> *mut u8 {
        COUNT.with(|n| n.set(n.get() + 1));
        System.alloc(block)
    }

    unsafe fn dealloc(&self, at: *mut u8, block: Block) {
        System.dealloc(at, block)
    }
}

#[global_allocator]
static ALLOCATOR: Counting = Counting;

fn allocations(work: impl FnOnce()) -> usize {
    let before = COUNT.with(Cell::get);
    work();
    COUNT.with(Cell::get) - before
}

#[test]
fn frame_calls_allocate_nothing() {
    let layout = Layout::builder().channels(&[Kind::Discrete; 2]).bands(30, 0, 60).frame_size(170).build().unwrap();
    let mut encoder = Encoder::new(layout.clone());
    let mut spectra = [0.0; 2 * 1024];
    spectra[3] = 0.5;
    let mut record = Record::silent(&layout);
    let mut frame = [0; 170];
    let (mut answers, mut tally) = ([Delivered::default()], Tally::default());
    assert!(allocations(|| drop(vec![1; 3])) > 0);
    let n = allocations(|| {
        encoder.encode_stereo_frame(&mut spectra, &mut [0; 16]).unwrap();
        encoder.encode_stereo_line(1, &mut spectra.clone(), &mut [0; 16], &mut frame, &mut answers, &mut tally).unwrap();
        encoder.encode_line(1, &spectra, &[0; 16], &mut frame, &mut answers, &mut tally).unwrap();
        encoder.encode_frame(&spectra, &[0; 16]).unwrap();
        read_frame_into(&layout, encoder.frame(), &mut record).unwrap();
        write_record_into(&layout, &record, &mut frame).unwrap();
        read_frame_into(&layout, &[0; 9], &mut record).unwrap_err();
    });
    assert_eq!(n, 0);
    assert_eq!(frame, encoder.frame());
}
