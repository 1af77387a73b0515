//! Samples of a response's span, for the tests of the oracle and of the tally.

/// Granted lease, age, lease sent, and whether the response is right.
pub const SPANS: [(u32, u32, u32, bool); 13] = [
    (3_600, 0, 3_600, true),
    (3_600, 0, 3_599, false),
    (3_600, 40, 3_559, false),
    (3_600, 40, 3_560, true),
    (3_600, 40, 3_580, true),
    (3_600, 40, 3_600, true),
    (3_600, 40, 3_601, false),
    (60, 59, 0, false),
    (60, 59, 1, true),
    (60, 59, 60, true),
    (60, 59, 61, false),
    (7_200, 7_199, 1, true),
    (60, 0, u32::MAX, false),
];
