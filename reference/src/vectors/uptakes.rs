//! Sets at the edge of check 3: one substance that death or hydrolysis takes up, by
//! as little as a search over sets near the published one found, or does not change.

use super::sets::published;
use crate::sets::{Fractions, Set};

/// What SS, XS, XI and XALG are made of; the yield of death, the inert fraction of
/// algae and the yield of hydrolysis.
type Edge = ([[u32; 5]; 4], [u32; 3]);

/// The least uptake that a search found of NH4, HPO4, O2 and HCO3 in 14, then in 15:
/// 357,120, 20,160, 32,460 and 52,080 grains; 22,320, 10,080, 60 and 26,040.
const LEAST_UPTAKE: [Edge; 8] = [
    (
        [
            [517, 107, 258, 84, 34],
            [500, 72, 306, 84, 38],
            [589, 64, 300, 10, 37],
            [340, 73, 515, 38, 34],
        ],
        [63, 32, 90],
    ),
    (
        [
            [587, 81, 275, 54, 3],
            [573, 74, 280, 66, 7],
            [617, 62, 288, 28, 5],
            [353, 72, 503, 68, 4],
        ],
        [59, 11, 97],
    ),
    (
        [
            [579, 88, 277, 53, 3],
            [556, 88, 285, 67, 4],
            [610, 66, 282, 36, 6],
            [366, 68, 505, 53, 8],
        ],
        [52, 19, 96],
    ),
    (
        [
            [566, 106, 252, 66, 10],
            [515, 77, 299, 82, 27],
            [593, 79, 277, 37, 14],
            [310, 76, 512, 73, 29],
        ],
        [57, 37, 85],
    ),
    (
        [
            [606, 74, 262, 57, 1],
            [585, 51, 297, 53, 14],
            [596, 97, 282, 14, 11],
            [362, 44, 521, 49, 24],
        ],
        [57, 32, 93],
    ),
    (
        [
            [576, 110, 271, 34, 9],
            [610, 60, 289, 33, 8],
            [555, 79, 303, 59, 4],
            [341, 64, 523, 37, 35],
        ],
        [52, 19, 89],
    ),
    (
        [
            [534, 105, 290, 71, 0],
            [506, 98, 299, 85, 12],
            [603, 92, 281, 8, 16],
            [401, 42, 493, 43, 21],
        ],
        [64, 33, 92],
    ),
    (
        [
            [533, 89, 278, 79, 21],
            [517, 69, 299, 81, 34],
            [645, 45, 267, 24, 19],
            [341, 56, 516, 48, 39],
        ],
        [52, 20, 97],
    ),
];

/// NH4, HPO4 and HCO3 in 14 and all four in 15 at exactly 0, which is no uptake.
const NO_UPTAKE: [Edge; 7] = [
    (
        [
            [537, 97, 276, 83, 7],
            [530, 75, 298, 90, 7],
            [625, 56, 299, 5, 15],
            [384, 61, 484, 63, 8],
        ],
        [70, 0, 95],
    ),
    (
        [
            [577, 84, 275, 55, 9],
            [580, 74, 273, 55, 18],
            [619, 67, 275, 36, 3],
            [362, 73, 498, 58, 9],
        ],
        [60, 20, 99],
    ),
    (
        [
            [577, 80, 274, 63, 6],
            [573, 75, 276, 65, 11],
            [613, 67, 283, 25, 12],
            [351, 75, 507, 57, 10],
        ],
        [60, 30, 99],
    ),
    (
        [
            [559, 77, 288, 68, 8],
            [564, 74, 283, 68, 11],
            [605, 76, 282, 26, 11],
            [358, 76, 497, 60, 9],
        ],
        [58, 7, 100],
    ),
    (
        [
            [520, 105, 279, 62, 34],
            [542, 66, 287, 71, 34],
            [627, 70, 254, 44, 5],
            [296, 79, 522, 78, 25],
        ],
        [50, 35, 100],
    ),
    (
        [
            [565, 87, 273, 67, 8],
            [565, 87, 273, 67, 8],
            [616, 65, 279, 36, 4],
            [352, 75, 504, 63, 6],
        ],
        [55, 29, 100],
    ),
    (
        [
            [562, 85, 282, 59, 12],
            [562, 82, 272, 68, 16],
            [623, 73, 275, 23, 6],
            [355, 68, 492, 68, 17],
        ],
        [60, 2, 100],
    ),
];

fn at_edge(&([ss, xs, xi, xalg], [death, algae, hydrolysis]): &Edge) -> Set {
    let [ss, xs, xi, xalg] = [ss, xs, xi, xalg].map(Fractions::from);
    let mut set = Set { ss, xs, xi, xalg, ..published() };
    set.yields.death = death;
    set.yields.hydrolysis = hydrolysis;
    set.inert.algae = algae;
    set
}

/// Sets that check 3 refuses for the least uptake of one substance in 14 or 15.
pub fn least_uptakes() -> Vec<Set> {
    LEAST_UPTAKE.iter().map(at_edge).collect()
}

/// Sets that check 3 does not refuse, with that entry at 0.
pub fn no_uptakes() -> Vec<Set> {
    NO_UPTAKE.iter().map(at_edge).collect()
}
