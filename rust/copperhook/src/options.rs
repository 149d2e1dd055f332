//! What a caller may choose of a call that sweeps.

/// How often a sweep is rescaled. The bits of an answer depend on it.
#[derive(Clone, Copy, Debug, PartialEq, Eq)]
pub enum Manner {
    /// By every step's largest entry.
    PerElement = 0,
    /// By every fourth step's largest entry.
    Block = 1,
}

/// Which backward vectors a call keeps. Its room depends on it ([`Job::room_in`](crate::Job::room_in)), and no bit of an answer.
#[derive(Clone, Copy, Debug, PartialEq, Eq)]
pub enum Arrangement {
    /// Those of every pair's later vertex: pairs are answered when both sweeps have passed.
    KeepAll = 0,
    /// Those of propagated pairs' later vertices: a pair nearer than the window is answered as the backward sweep passes it.
    LessRoom = 2,
}

/// Who calls. The tester has smaller limits ([`limits::TESTER_WINDOW`](crate::limits::TESTER_WINDOW),
/// [`limits::TESTER_FREE`](crate::limits::TESTER_FREE)); what it is answered within them is what the desk is answered, bit for bit.
#[derive(Clone, Copy, Debug, PartialEq, Eq)]
pub enum Caller {
    /// The sheet desk.
    Desk = 0,
    /// The tester on the bench.
    Tester = 4,
}

/// The options of a call. A [`Manner`] alone stands for a call of the desk's in that manner, which keeps all.
#[derive(Clone, Copy, Debug, PartialEq, Eq)]
pub struct Options {
    /// How often a sweep is rescaled.
    pub manner: Manner,
    /// Which backward vectors are kept.
    pub arrangement: Arrangement,
    /// Who calls.
    pub caller: Caller,
}

impl Options {
    /// Returns the number that they are over C.
    pub const fn number(self) -> usize {
        self.manner as usize + self.arrangement as usize + self.caller as usize
    }

    /// Returns these options in another arrangement.
    pub const fn arranged(self, arrangement: Arrangement) -> Options {
        Options { arrangement, ..self }
    }

    /// Returns these options for another caller.
    pub const fn called_by(self, caller: Caller) -> Options {
        Options { caller, ..self }
    }
}

impl From<Manner> for Options {
    fn from(manner: Manner) -> Options {
        Options { manner, arrangement: Arrangement::KeepAll, caller: Caller::Desk }
    }
}
