//! Probe frames by their bits: edges in each place, each form of the oxygen
//! reading, readings as probes give them, any bits.

use super::scene::Scene;

/// Zeros, subnormals, neighbours of a µg, of 1, of 100 and of 256, infinities and
/// quiet and signalling NaNs, each with both signs.
const EDGES: [u32; 26] = [
    0,
    1,
    2,
    0x0000_ffff,
    0x007f_ffff,
    0x0080_0000,
    0x0080_0001,
    0x3586_37bc,
    0x3586_37bd,
    0x3586_37be,
    0x3f33_3333,
    0x3f00_0000,
    0x3f7f_ffff,
    0x3f80_0000,
    0x3f80_0001,
    0x42c7_ffff,
    0x42c8_0000,
    0x437f_ffff,
    0x4380_0000,
    0x4380_0001,
    0x7f7f_ffff,
    0x7f80_0000,
    0x7f80_0001,
    0x7fbf_ffff,
    0x7fc0_0000,
    0x7fff_ffff,
];
const SIGN: u32 = 0x8000_0000;
const SATURATIONS: [u32; 7] = [0, 1, 99, 9_999_999, 20_000_000, 20_000_001, u32::MAX];

pub fn all(scene: &mut Scene) {
    for edge in EDGES {
        for bits in [edge, edge | SIGN] {
            for place in 0..4 {
                let mut readings = [0x3f33_3333, 0x4049_0fdb, 0x3dcc_cccd, 0x4112_6666];
                readings[place] = bits;
                scene.frame(readings, 2, 0, 10_000_000);
            }
            for (form, saturation) in [(0, 0), (1, 20_000_000), (1, 9_999_999), (2, 20_000_000)] {
                scene.frame([0; 4], form, bits, saturation);
            }
        }
    }
    for saturation in SATURATIONS {
        for form in 0..3 {
            for oxygen in [0, 0x42c8_0000, 0x437f_ffff, 0x4380_0000, 0x7fc0_0000] {
                scene.frame([0x3f80_0000; 4], form, oxygen, saturation);
                scene.frame([0x3f80_0000, 0, 0xffc0_0000, 0], form, oxygen, saturation);
            }
        }
    }
    for _ in 0..600 {
        // Readings of all sizes below 256, from subnormal ones on.
        let readings = std::array::from_fn(|_| scene.random.below(0x4380_0000) as u32);
        any_frame(scene, readings);
    }
    for _ in 0..500 {
        // From a hundredth of a µg to 256.
        let readings = std::array::from_fn(|_| scene.random.among(0x322b_cc77, 0x437f_ffff));
        any_frame(scene, readings);
    }
    for _ in 0..400 {
        // As a probe gives them: a few g with three decimals.
        let readings =
            std::array::from_fn(|_| (scene.random.below(30_000) as f32 / 1_000.0).to_bits());
        any_frame(scene, readings);
    }
    for _ in 0..300 {
        let readings = std::array::from_fn(|_| scene.random.draw() as u32);
        any_frame(scene, readings);
    }
}

/// A frame with these readings, any form of oxygen and any saturation.
fn any_frame(scene: &mut Scene, [a, b, c, d, oxygen]: [u32; 5]) {
    let form = scene.random.among(0, 2);
    let saturation = scene.random.among(0, 20_000_000);
    scene.frame([a, b, c, d], form, oxygen, saturation);
}
