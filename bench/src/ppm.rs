//! A frame as a PPM file, and its load.
use crate::{
    inputs::{Colour, HEIGHT, WIDTH},
    side::{Sizes, touch},
};
use seluvava_sys::seluvava_load_ppm;

pub struct Ppm {
    file: Vec<u8>,
}

impl Ppm {
    pub fn new(frame: &[Colour]) -> Self {
        let mut file = format!("P6\n{WIDTH} {HEIGHT}\n255\n").into_bytes();
        file.extend(frame.as_flattened());
        Self { file }
    }

    pub fn prepare(&mut self) {
        touch(&self.file);
    }

    pub fn load(&self, [b1, b2, b3]: Sizes, table: &mut [u64]) {
        let number = unsafe {
            seluvava_load_ppm(
                b1,
                b2,
                b3,
                table.as_mut_ptr(),
                table.len(),
                self.file.as_ptr(),
                self.file.len(),
            )
        };
        assert_eq!(number, 0, "load a PPM");
    }
}
