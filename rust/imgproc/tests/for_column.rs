//! Tests the settings for a column: they are the numbers that tools/interface_test.c expects of C, and always in range.

use imgproc::reading::ReadingConfig;

#[test]
fn the_numbers_are_those_of_c() {
    let expected = [
        (0, 3, 1, 1),
        (1, 3, 1, 1),
        (2, 5, 1, 2),
        (8, 17, 1, 10),
        (16, 33, 1, 20),
        (17, 35, 2, 21),
        (40, 81, 3, 50),
        (319, 639, 20, 398),
        (320, 641, 20, 400),
        (4096, 8193, 256, 5120),
        (usize::MAX, 8193, 256, 5120),
    ];
    for (pixels, structuring_element, neighborhood_radius, radius) in expected {
        let mut config = ReadingConfig::default();
        config.division.structuring_element = structuring_element;
        config.grid.neighborhood_radius = neighborhood_radius;
        config.sauvola.radius = radius;
        (config.sauvola.k_milli, config.sauvola.dynamic_range) = (130, 48);
        assert_eq!(ReadingConfig::for_column(pixels), config, "{pixels}");
    }
}

#[test]
fn they_are_good_for_every_number() {
    for pixels in (0..5000).chain([usize::MAX / 3 * 2, usize::MAX - 1, usize::MAX]) {
        assert_eq!(ReadingConfig::for_column(pixels).check(), Ok(()), "{pixels}");
    }
}
