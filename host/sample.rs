//! A host in Rust: document 01's square, through the C calls.
use std::ptr;

extern "C" {
    fn vk_outline_area(vertices: *const f64, vertices_len: usize, area: *mut f64) -> u32;
    fn vk_outline_locate(vertices: *const f64, vertices_len: usize, x: f64, y: f64, location: *mut u32) -> u32;
}

fn main() {
    let square = [0.0, 0.0, 4.0, 0.0, 4.0, 4.0, 0.0, 4.0];
    let (mut area, mut location) = (0.0, 9);
    let numbers = unsafe {
        [
            vk_outline_area(square.as_ptr(), square.len(), &mut area),
            vk_outline_locate(square.as_ptr(), square.len(), 4.0, 2.0, &mut location),
        ]
    };
    assert_eq!((numbers, area, location), ([0, 0], 16.0, 1));
    let refused = unsafe { vk_outline_area(ptr::null(), 0, &mut area) };
    assert_eq!((refused, area), (3, 0.0));
    println!("5 answers compared, 0 wrong");
}
