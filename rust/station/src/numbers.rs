//! Every number that the library answers with, and those that the command `tray` prints. A later one is a line here.

use crate::number::numbers;
use crate::UnknownNumber;

/// The number of the one pass, a finished transfer: [`judge`](crate::judge) then gives a [`Transfer`](crate::Transfer), and
/// [`judge_command`](crate::judge_command) a [`CommandTransfer`](crate::CommandTransfer).
pub const COMPLETE: u32 = 20;

/// The number that says that the writer wrote: [`write`](crate::write) then gives a [`Written`](crate::Written). It says
/// nothing of a transfer.
pub const WRITTEN: u32 = 0;

numbers! {
    /// A verdict of the judge that is no pass.
    ///
    /// ```
    /// use station::Fault;
    ///
    /// assert_eq!(Fault::Cut.number(), 22);
    /// assert_eq!(Fault::try_from(22), Ok(Fault::Cut));
    /// assert_eq!("cut".parse(), Ok(Fault::Cut));
    /// assert_eq!(Fault::Cut.to_string(), "cut");
    ///
    /// // A pass is no fault.
    /// let error = Fault::try_from(station::COMPLETE).unwrap_err();
    /// assert_eq!(error.to_string(), "no fault has the number 20");
    /// ```
    #[non_exhaustive]
    "fault" Fault {
        EmptyStream = 21 "empty-stream": "the sender did not go on within 512 ticks, and no byte was handed over: a time-out",
        Cut = 22 "cut": "the recording ended before the transfer was finished",
        Attention = 23 "attention": "ATN was pulled",
        NoReceiver = 24 "no-receiver": "nobody took DATA in the first 256 ticks",
        BadStart = 25 "bad-start": "CLK was not pulled at the first tick",
        OutOfTurn = 26 "out-of-turn": "a line moved when it was not its turn",
        EndMarkNotAcknowledged = 27 "end-mark-not-acknowledged": "the receiver did not answer the end mark in time",
        AcknowledgementShort = 28 "acknowledgement-short": "the receiver held its answer for fewer than 60 ticks",
        AcknowledgementLong = 29 "acknowledgement-long": "the receiver held its answer for more than 150 ticks",
        LateClock = 30 "late-clock": "after the receiver's answer the sender pulled CLK later than 60 ticks",
        SenderTimeOut = 31 "sender-time-out": "the sender did not go on within 512 ticks, after bytes were handed over",
        ValidTimeShort = 32 "valid-time-short": "a bit was valid for fewer than 20 ticks",
        DataMoved = 33 "data-moved": "DATA moved with a bit's CLK release, or while the bit was valid",
        ClockStall = 34 "clock-stall": "a bit's set-up or valid time was longer than 200 ticks",
        ReceiverTimeOut = 35 "receiver-time-out": "a byte was not taken within 1,000 ticks",
        Hurried = 36 "hurried": "the sender went on fewer than 100 ticks after the take",
        MovedAfterTheEnd = 37 "moved-after-the-end": "a line moved after the transfer was finished",
        EndMarkUnderAttention = 38 "end-mark-under-attention": "the sender stayed silent for 200 ticks, an end mark, while ATN was pulled",
        AttentionReleased = 39 "attention-released": "ATN was released before the commands were finished",
        Overrun = 40 "overrun": "the recorder lost ticks before this step: nothing can be said of the transfer; record it again",
    }

    /// Why the judge refused a recording, or the memory it was lent. It says nothing of a drive.
    #[non_exhaustive]
    "refusal of the judge" Refusal {
        ShortFile = 1 "short-file": "fewer than 16 bytes",
        WrongVersion = 2 "wrong-version": "the version is not 1",
        TooManySteps = 3 "too-many-steps": "more than 16,000 steps",
        WrongOffset = 4 "wrong-offset": "the steps do not begin at 16",
        WrongLength = 5 "wrong-length": "the length, by the header or truly, is not that of its steps",
        ZeroDuration = 6 "zero-duration": "a step of no ticks",
        StrayBits = 7 "stray-bits": "a step with line bits beyond the four, or a last byte above 1",
        WrongTotal = 8 "wrong-total": "the total is not the sum of the steps",
        ShortBuffers = 9 "short-buffers": "too little memory was lent",
    }

    /// Why the writer refused. As an error it reads as its name; [`meaning`](WriteRefusal::meaning) says more.
    #[non_exhaustive]
    "refusal of the writer" WriteRefusal {
        TooManyBytes = 10 "too-many-bytes": "more than 799 bytes",
        ShortDestination = 11 "short-destination": "too little memory was lent",
    }

    /// Why the tray refused a call: what the command `tray` prints. No function of this library gives one.
    #[non_exhaustive]
    "refusal of the tray" TrayRefusal {
        NoSuchSeat = 13 "no-such-seat": "seat 40 or above",
        VacantSeat = 14 "vacant-seat": "posting to or removing from a vacant seat",
        SeatInUse = 15 "seat-in-use": "loading a seat in use",
        NotFortySeats = 16 "not-forty-seats": "the tray is not forty seats long",
    }
}

impl core::error::Error for WriteRefusal {}
