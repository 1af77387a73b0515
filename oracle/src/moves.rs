//! Samples of the clock's moves, for the tests of the oracle and of the tally.

/// Last place and running count.
type Clock = (u64, u32);

/// The clock, the place of an accepted reading, and the clock after it.
pub type Move = (Clock, u64, Clock);

/// With weeks of ten bits.
pub const MOVES: [Move; 17] = [
    ((1_000, 7), 1_000, (1_000, 7)),
    ((1_000, 7), 1_001, (1_001, 8)),
    // Back by 60 seconds or less nothing changes, by 61 the place is the new one.
    ((1_000, 7), 999, (1_000, 7)),
    ((1_000, 7), 940, (1_000, 7)),
    ((1_000, 7), 939, (939, 7)),
    // Forward again is a step like any other: 61 back and 61 forward add 61.
    ((939, 7), 1_000, (1_000, 68)),
    // Around the end of the cycle too it is the step that decides.
    ((30, 7), 619_315_170, (30, 7)),
    ((30, 7), 619_315_169, (619_315_169, 7)),
    ((619_315_199, 7), 0, (0, 8)),
    // Half a cycle is a step back, one second less the longest step forward.
    ((0, 7), 309_657_600, (309_657_600, 7)),
    ((0, 7), 309_657_599, (309_657_599, 309_657_606)),
    ((309_657_600, 7), 0, (0, 7)),
    // A year back, and on from there.
    ((100_000_000, 7), 68_464_000, (68_464_000, 7)),
    ((68_464_000, 7), 68_464_010, (68_464_010, 17)),
    // The count wraps by steps forward alone.
    ((5, 4_294_967_295), 6, (6, 0)),
    ((619_315_199, 4_294_967_295), 309_657_598, (309_657_598, 309_657_598)),
    ((619_315_199, 4_294_967_295), 309_657_599, (309_657_599, 4_294_967_295)),
];

/// With weeks of thirteen bits.
pub const WIDE_MOVES: [Move; 22] = [
    ((1_000, 7), 1_000, (1_000, 7)),
    ((10, 7), 9, (10, 7)),
    // Back by 60 and by 61, also around the end of the cycle and over week 1,024's start.
    ((1_000, 7), 940, (1_000, 7)),
    ((1_000, 7), 939, (939, 7)),
    ((939, 7), 1_000, (1_000, 68)),
    ((30, 7), 4_954_521_570, (30, 7)),
    ((30, 7), 4_954_521_569, (4_954_521_569, 7)),
    ((619_315_230, 7), 619_315_170, (619_315_230, 7)),
    ((619_315_230, 7), 619_315_169, (619_315_169, 7)),
    // Week 8,191 to week 0, and week 1,023 to week 1,024 and to week 0.
    ((4_954_521_599, 7), 0, (0, 8)),
    ((619_315_199, 7), 619_315_200, (619_315_200, 8)),
    ((619_315_199, 7), 0, (0, 7)),
    // Half a cycle is a step back, one second less the longest step forward.
    ((0, 7), 2_477_260_800, (2_477_260_800, 7)),
    ((0, 7), 2_477_260_799, (2_477_260_799, 2_477_260_806)),
    ((2_477_260_800, 7), 0, (0, 7)),
    // Steps of 2^31 and of more, forward and back, and half the cycle of ten bits.
    ((0, 7), 2_147_483_648, (2_147_483_648, 2_147_483_655)),
    ((2_147_483_649, 7), 0, (0, 7)),
    ((0, 7), 309_657_600, (309_657_600, 309_657_607)),
    // Over 2^32.
    ((4_294_967_295, 7), 4_294_967_296, (4_294_967_296, 8)),
    // The count wraps by steps forward alone.
    ((5, 4_294_967_295), 6, (6, 0)),
    ((0, 4_294_967_295), 2_477_260_799, (2_477_260_799, 2_477_260_798)),
    ((0, 4_294_967_295), 2_477_260_800, (2_477_260_800, 4_294_967_295)),
];
