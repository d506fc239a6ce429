//! The verdicts by their numbers. Complete and cut aren't in any phase's rows:
//! they fall where the recording runs out.

#[derive(Clone, Copy)]
pub enum Verdict {
    Complete = 20,
    EmptyStream = 21,
    Cut = 22,
    Attention = 23,
    NoReceiver = 24,
    BadStart = 25,
    OutOfTurn = 26,
    EndMarkNotAcknowledged = 27,
    AcknowledgementShort = 28,
    AcknowledgementLong = 29,
    LateClock = 30,
    SenderTimeOut = 31,
    ValidTimeShort = 32,
    DataMoved = 33,
    ClockStall = 34,
    ReceiverTimeOut = 35,
    Hurried = 36,
    MovedAfterTheEnd = 37,
}
