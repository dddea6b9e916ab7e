//! Declares the archive's exports, in the order of include/imgproc.h, and holds the one place that lends them memory.

extern "C" {
    fn imgproc_abi_3() -> u32;
    pub fn imgproc_validate_layout(len: usize, width: usize, height: usize, stride: usize) -> u32;
    pub fn imgproc_get(
        data: *const u8, len: usize, width: usize, height: usize, stride: usize, x: usize, y: usize, value: *mut u8,
    ) -> u32;
    pub fn imgproc_set(
        data: *mut u8, len: usize, width: usize, height: usize, stride: usize, x: usize, y: usize, value: u8,
    ) -> u32;
    pub fn imgproc_check_row(len: usize, width: usize, height: usize, stride: usize, y: usize) -> u32;
    pub fn imgproc_row(
        data: *const u8, len: usize, width: usize, height: usize, stride: usize, y: usize, out: *mut u8, out_len: usize,
    ) -> u32;
    pub fn imgproc_pack(
        src: *const u8, src_len: usize, width: usize, height: usize, stride: usize, workspace: *mut u8,
        workspace_len: usize, at: usize,
    ) -> u32;
    pub fn imgproc_unpack(
        workspace: *const u8, workspace_len: usize, at: usize, dst: *mut u8, dst_len: usize, width: usize,
        height: usize, stride: usize,
    ) -> u32;
    pub fn imgproc_grayscale_erode_into(
        src: *const u8, src_len: usize, src_width: usize, src_height: usize, src_stride: usize, dst: *mut u8,
        dst_len: usize, dst_width: usize, dst_height: usize, dst_stride: usize, kernel_size: usize, workspace: *mut u8,
        workspace_len: usize, comparisons: *mut u64,
    ) -> u32;
    pub fn imgproc_grayscale_dilate_into(
        src: *const u8, src_len: usize, src_width: usize, src_height: usize, src_stride: usize, dst: *mut u8,
        dst_len: usize, dst_width: usize, dst_height: usize, dst_stride: usize, kernel_size: usize, workspace: *mut u8,
        workspace_len: usize, comparisons: *mut u64,
    ) -> u32;
    pub fn imgproc_grayscale_open_into(
        src: *const u8, src_len: usize, src_width: usize, src_height: usize, src_stride: usize, dst: *mut u8,
        dst_len: usize, dst_width: usize, dst_height: usize, dst_stride: usize, kernel_size: usize, workspace: *mut u8,
        workspace_len: usize, comparisons: *mut u64,
    ) -> u32;
    pub fn imgproc_grayscale_close_into(
        src: *const u8, src_len: usize, src_width: usize, src_height: usize, src_stride: usize, dst: *mut u8,
        dst_len: usize, dst_width: usize, dst_height: usize, dst_stride: usize, kernel_size: usize, workspace: *mut u8,
        workspace_len: usize, comparisons: *mut u64,
    ) -> u32;
    pub fn imgproc_background_divide_into(
        src: *const u8, src_len: usize, src_width: usize, src_height: usize, src_stride: usize, dst: *mut u8,
        dst_len: usize, dst_width: usize, dst_height: usize, dst_stride: usize, structuring_element: usize,
        target_luma: u8, denominator_floor: u8, workspace: *mut u8, workspace_len: usize, comparisons: *mut u64,
    ) -> u32;
    pub fn imgproc_sauvola_into(
        src: *const u8, src_len: usize, src_width: usize, src_height: usize, src_stride: usize, dst: *mut u8,
        dst_len: usize, dst_width: usize, dst_height: usize, dst_stride: usize, radius: usize, k_milli: u32,
        dynamic_range: u32, dark_value: u8, light_value: u8, workspace: *mut u64, workspace_len: usize,
    ) -> u32;
    pub fn imgproc_sauvola_narrow_into(
        src: *const u8, src_len: usize, src_width: usize, src_height: usize, src_stride: usize, dst: *mut u8,
        dst_len: usize, dst_width: usize, dst_height: usize, dst_stride: usize, radius: usize, k_milli: u32,
        dynamic_range: u32, dark_value: u8, light_value: u8, workspace: *mut u32, workspace_len: usize,
    ) -> u32;
    pub fn imgproc_tile_grid_build(
        src: *const u8, src_len: usize, width: usize, height: usize, stride: usize, tile_width: usize,
        tile_height: usize, neighborhood_radius: usize, threshold_offset: i16, contrast_floor: u8, method: u32, k: f64,
        dynamic_range: f64, workspace: *mut u64, workspace_len: usize, thresholds: *mut u8, thresholds_len: usize,
        skips: *mut u8, skips_len: usize, open_tiles: *mut u16, open_tiles_len: usize, tiles_x: *mut usize,
        tiles_y: *mut usize,
    ) -> u32;
    pub fn imgproc_threshold_at(
        width: usize, height: usize, tile_width: usize, tile_height: usize, tiles_x: usize, tiles_y: usize,
        thresholds: *const u8, len: usize, x: usize, y: usize, value: *mut u8,
    ) -> u32;
    pub fn imgproc_is_skip(
        width: usize, height: usize, tile_width: usize, tile_height: usize, tiles_x: usize, tiles_y: usize,
        skips: *const u8, len: usize, x: usize, y: usize, value: *mut u8,
    ) -> u32;
    pub fn imgproc_row_all_skip(
        width: usize, height: usize, tile_width: usize, tile_height: usize, tiles_x: usize, tiles_y: usize,
        open_tiles: *const u16, len: usize, y: usize, value: *mut u8,
    ) -> u32;
    pub fn imgproc_blank_tile(
        width: usize, height: usize, tile_width: usize, tile_height: usize, tiles_x: usize, tiles_y: usize,
        skips: *mut u8, skips_len: usize, open_tiles: *mut u16, open_tiles_len: usize, tile_column: usize,
        tile_row: usize,
    ) -> u32;
    pub fn imgproc_clear_tile(
        width: usize, height: usize, tile_width: usize, tile_height: usize, tiles_x: usize, tiles_y: usize,
        skips: *mut u8, skips_len: usize, open_tiles: *mut u16, open_tiles_len: usize, tile_column: usize,
        tile_row: usize,
    ) -> u32;
    pub fn imgproc_reading(
        src: *const u8, src_len: usize, src_width: usize, src_height: usize, src_stride: usize, dst: *mut u8,
        dst_len: usize, dst_width: usize, dst_height: usize, dst_stride: usize, structuring_element: usize,
        target_luma: u8, denominator_floor: u8, opening_kernel: usize, tile_width: usize, tile_height: usize,
        neighborhood_radius: usize, threshold_offset: i16, contrast_floor: u8, method: u32, k: f64, dynamic_range: f64,
        radius: usize, k_milli: u32, sauvola_dynamic_range: u32, dark_value: u8, light_value: u8, bytes: *mut u8,
        bytes_len: usize, u64s: *mut u64, u64s_len: usize, open_tiles: *mut u16, open_tiles_len: usize, dark: *mut u64,
        light: *mut u64, skipped: *mut u64, comparisons: *mut u64,
    ) -> u32;
    pub fn imgproc_record_write(
        flask: u32, pass: u16, width: usize, height: usize, dark: u64, light: u64, skipped: u64, comparisons: u64,
        destination: *mut u8, destination_len: usize,
    ) -> u32;
    pub fn imgproc_record_read(
        source: *const u8, source_len: usize, flask: *mut u32, pass: *mut u16, width: *mut usize, height: *mut usize,
        dark: *mut u64, light: *mut u64, skipped: *mut u64, comparisons: *mut u64,
    ) -> u32;
    pub fn imgproc_root(x: f64) -> f64;
}

/// Refers to the number of the calling form for which this crate is written, so that a program does not link with an
/// archive of another. The optimiser and the linker keep the reference wherever they keep a call.
#[inline(always)]
pub fn refer_to_abi() {
    std::hint::black_box(imgproc_abi_3 as unsafe extern "C" fn() -> u32);
}

/// Calls an export. `[data]` lends a slice as its pointer and length, and `[mut data]` one to write to. `<g>` stands
/// for a geometry's width, height and stride, `<g tiles>` for a grid's six numbers. A number or a reference goes as it
/// is.
macro_rules! call {
    ($export:ident($($lent:tt)*)) => { $crate::ffi::call!(@ $export () $($lent)*) };
    (@ $export:ident ($($done:expr,)*)) => {{
        $crate::ffi::refer_to_abi();
        // SAFETY: Every pointer comes from a slice, with that slice's own length beside it, or from a `&mut` number.
        // So each is valid, aligned and not null. What a `&mut` lends overlaps nothing else for as long as the call
        // runs, and no caller of this macro lends one of its parameters twice. An export keeps nothing. `$export` is
        // declared above, and tools/interface compares that declaration with the header and the proved source.
        unsafe { $crate::ffi::$export($($done),*) }
    }};
    (@ $export:ident ($($done:expr,)*) [mut $data:ident] $(, $($rest:tt)*)?) => {
        $crate::ffi::call!(@ $export ($($done,)* $data.as_mut_ptr(), $data.len(),) $($($rest)*)?)
    };
    (@ $export:ident ($($done:expr,)*) [$data:ident] $(, $($rest:tt)*)?) => {
        $crate::ffi::call!(@ $export ($($done,)* $data.as_ptr(), $data.len(),) $($($rest)*)?)
    };
    (@ $export:ident ($($done:expr,)*) <$g:ident> $(, $($rest:tt)*)?) => {
        $crate::ffi::call!(@ $export ($($done,)* $g.width, $g.height, $g.stride,) $($($rest)*)?)
    };
    (@ $export:ident ($($done:expr,)*) <$g:ident tiles> $(, $($rest:tt)*)?) => {
        $crate::ffi::call!(@ $export (
            $($done,)* $g.width, $g.height, $g.tile_width, $g.tile_height, $g.tiles_x, $g.tiles_y,
        ) $($($rest)*)?)
    };
    (@ $export:ident ($($done:expr,)*) $number:expr $(, $($rest:tt)*)?) => {
        $crate::ffi::call!(@ $export ($($done,)* $number,) $($($rest)*)?)
    };
}
pub(crate) use call;
