//! Small pictures and destinations.

use qr_lab_image::{Gray8View, Gray8ViewMut};

/// A picture in a slice.
#[derive(Clone)]
pub struct Picture {
    pub width: usize,
    pub height: usize,
    pub stride: usize,
    pub bytes: Vec<u8>,
}

impl Picture {
    /// Makes a picture. The bytes beside the rows are 0 and 255 by turns, so that an operator that reads them errs.
    pub fn new(width: usize, height: usize, stride: usize, tail: usize, pixels: &[u8]) -> Self {
        assert_eq!(pixels.len(), width * height, "a byte for each pixel");
        let mut bytes: Vec<u8> =
            (0..stride * (height - 1) + width + tail).map(|i| if i % 2 == 0 { 0 } else { 255 }).collect();
        for y in 0..height {
            bytes[y * stride..y * stride + width].copy_from_slice(&pixels[y * width..(y + 1) * width]);
        }
        Self { width, height, stride, bytes }
    }

    /// Makes a picture of lent bytes. With one row the stride does not matter and may be larger than any memory, so the
    /// Rust gets the width instead.
    pub fn lent(width: usize, height: usize, stride: usize, bytes: Vec<u8>) -> Self {
        Self { width, height, stride: if height == 1 { width } else { stride }, bytes }
    }

    /// Makes a picture with no padding and no tail.
    pub fn packed(width: usize, height: usize, pixels: &[u8]) -> Self {
        Self::new(width, height, width, 0, pixels)
    }

    /// Makes a picture of one row.
    pub fn row(pixels: &[u8]) -> Self {
        Self::packed(pixels.len(), 1, pixels)
    }

    pub fn view(&self) -> Gray8View<'_> {
        Gray8View::new(&self.bytes, self.width, self.height, self.stride).expect("the slice holds the picture")
    }
}

pub struct Destination {
    width: usize,
    height: usize,
    pub stride: usize,
    pub bytes: Vec<u8>,
}

impl Destination {
    pub fn lent(width: usize, height: usize, stride: usize, bytes: Vec<u8>) -> Self {
        Self { width, height, stride: if height == 1 { width } else { stride }, bytes }
    }

    /// Makes a destination with no padding and no tail.
    pub fn packed(width: usize, height: usize) -> Self {
        Self::lent(width, height, width, vec![0; width * height])
    }

    pub fn view(&mut self) -> Gray8ViewMut<'_> {
        Gray8ViewMut::new(&mut self.bytes, self.width, self.height, self.stride).expect("the slice holds the picture")
    }
}

/// Returns numbers that look random and are the same each time, without end.
pub fn states(seed: u32) -> impl Iterator<Item = u32> {
    let next = |state: &u32| Some(state.wrapping_mul(1_664_525).wrapping_add(1_013_904_223));
    std::iter::successors(Some(seed), next).skip(1)
}

/// Returns such bytes.
pub fn noise(count: usize, seed: u32) -> Vec<u8> {
    states(seed).map(|state| (state >> 24) as u8).take(count).collect()
}
