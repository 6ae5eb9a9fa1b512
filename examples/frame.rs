//! Lays two packets into the area of a 1080/60i frame, and reads them back.
//!
//!     ./build
//!     rustc -L target/staticlib -l static=vanc examples/frame.rs

/// What laying gives back; see include/vanc.h.
#[repr(C)]
struct Laid {
    number: u64,
    place: u64,
    word: u64,
    packs: u64,
    bytes: u64,
}

/// What reading gives back.
#[repr(C)]
struct ReadBack {
    number: u64,
    place: u64,
    packing: u64,
    packets: u64,
    numbers: u64,
}

extern "C" {
    fn vanc_lay(sheet: *const u16, sheet_len: usize, packing: u64, area: *mut u8, area_len: usize) -> Laid;
    fn vanc_read(system: u64, area: *const u8, area_len: usize, sheet: *mut u16, sheet_len: usize) -> ReadBack;
}

fn lay(sheet: &[u16], packing: u64, area: &mut [u8]) -> Laid {
    unsafe { vanc_lay(sheet.as_ptr(), sheet.len(), packing, area.as_mut_ptr(), area.len()) }
}

fn read(system: u64, area: &[u8], sheet: &mut [u16]) -> ReadBack {
    unsafe { vanc_read(system, area.as_ptr(), area.len(), sheet.as_mut_ptr(), sheet.len()) }
}

fn main() {
    let sheet: [u16; 24] = [
        1, 1, 2, 9, 0, 561, 3, 16, 0x000, 0x3FF, 0x3FF, 0x145, 0x101, 0x102, 0x110, 0x180, 0x1D8, 0x000, 0x3FF, 0x3FF, 0x145,
        0x101, 0x200, 0x246,
    ];
    for packing in [1, 2] {
        let mut area = [0u8; 9600];
        let laid = lay(&sheet, packing, &mut area);
        assert_eq!((laid.number, laid.place, laid.word), (0, 0, 0));
        println!("laid packs {} bytes {}", laid.packs, laid.bytes);
        let mut back = [0u16; 11482];
        let read = read(1, &area, &mut back);
        assert_eq!((read.number, read.place), (0, 0));
        println!("read packing {} packets {} numbers {}", read.packing, read.packets, read.numbers);
        assert_eq!(&back[..read.numbers as usize], &sheet);
    }
    println!("the same sheet came back, in both packings");
}
