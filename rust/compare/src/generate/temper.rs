//! What a player may do with a pair that is Ready, and how likely it is to.

use Action::*;

#[derive(Clone, Copy)]
pub(super) enum Action {
    /// The expected packet.
    Stream,
    /// The packet after it, and the expected one is kept for later.
    Lose,
    /// The packet after it.
    Ahead,
    /// A packet that was executed.
    Repeat,
    /// A packet that was lost.
    Late,
    Mutate,
    Compose,
    Noise,
    Host,
    WriteHeader,
    OddCut,
    /// Another message, whatever is left of this one.
    Forget,
    /// More entries and regions than there is room for.
    Crowd,
}

pub(super) struct Temper {
    /// How many calls a list has.
    pub calls: usize,
    /// With a weight each.
    pub actions: &'static [(Action, usize)],
}

pub(super) const TEMPERS: [Temper; 3] = [
    // A lossy network, and little else.
    Temper {
        calls: 500,
        actions: &[
            (Stream, 140),
            (Lose, 8),
            (Ahead, 4),
            (Repeat, 12),
            (Late, 4),
            (Noise, 1),
            (Host, 8),
            (Crowd, 1),
        ],
    },
    Temper {
        calls: 300,
        actions: &[
            (Stream, 110),
            (Lose, 6),
            (Ahead, 4),
            (Repeat, 10),
            (Late, 4),
            (Mutate, 6),
            (Compose, 10),
            (Noise, 2),
            (Host, 12),
            (WriteHeader, 2),
            (OddCut, 2),
            (Forget, 2),
            (Crowd, 1),
        ],
    },
    // Most lives end early.
    Temper {
        calls: 150,
        actions: &[
            (Stream, 40),
            (Lose, 4),
            (Ahead, 3),
            (Repeat, 8),
            (Late, 3),
            (Mutate, 24),
            (Compose, 40),
            (Noise, 5),
            (Host, 14),
            (WriteHeader, 6),
            (OddCut, 6),
            (Forget, 3),
            (Crowd, 1),
        ],
    },
];
