//! The rows of each phase, tried in document 01's order. Lines are written
//! (CLK, DATA), and a tick that a row doesn't name falls to the next.

use super::limits::Limits;
use super::state::{Byte, Lines, Next, Phase, Place, State};
use super::verdict::Verdict;

const PULLED: bool = true;
const RELEASED: bool = false;

impl State {
    /// A.
    #[inline]
    pub fn start(self, now: Place, lines: Lines) -> Next {
        match (lines.clock, lines.data) {
            (RELEASED, _) if now.tick == 0 => Next::Stop(Verdict::BadStart),
            (RELEASED, _) => Next::Stop(Verdict::OutOfTurn),
            (PULLED, PULLED) => Next::Go(self.enter(Phase::Hold, now)),
            (PULLED, RELEASED) if self.offset(now) == Limits::NO_RECEIVER => {
                Next::Stop(Verdict::NoReceiver)
            }
            (PULLED, RELEASED) => Next::Stay,
        }
    }

    /// B. After a byte its first tick is the take.
    #[inline]
    pub fn hold(self, now: Place, lines: Lines) -> Next {
        match (lines.clock, lines.data) {
            (PULLED, PULLED) => Next::Stay,
            (RELEASED, PULLED) if !self.byte.is_whole() => {
                Next::Go(self.enter(Phase::ReadyToSend, now))
            }
            (RELEASED, PULLED) if self.offset(now) >= Limits::TAKE_TO_RELEASE => {
                self.hand_over(now)
            }
            (RELEASED, PULLED) => Next::Stop(Verdict::Hurried),
            (_, RELEASED) => Next::Stop(Verdict::OutOfTurn),
        }
    }

    /// "Entering it after a byte hands that byte over": the way from there to C.
    #[inline]
    fn hand_over(self, now: Place) -> Next {
        Next::HandOver(State {
            count: self.count + 1,
            ..self.enter(Phase::ReadyToSend, now)
        })
    }

    /// C.
    #[inline]
    pub fn ready_to_send(self, now: Place, lines: Lines) -> Next {
        match (lines.clock, lines.data) {
            (RELEASED, PULLED) => Next::Stay,
            (RELEASED, RELEASED) if self.byte.end_mark => Next::Go(self.enter(Phase::End, now)),
            (RELEASED, RELEASED) => Next::Go(State {
                ready: now.tick,
                ..self.enter(Phase::ReadyForData, now)
            }),
            (PULLED, _) => Next::Stop(Verdict::OutOfTurn),
        }
    }

    /// D.
    #[inline]
    pub fn ready_for_data(self, now: Place, lines: Lines) -> Next {
        let offset = self.offset(now);
        match (lines.clock, lines.data) {
            (PULLED, _) if offset < Limits::END_MARK => self.begin_bits(now, lines, false),
            (PULLED, _) => Next::Stop(Verdict::OutOfTurn),
            (RELEASED, PULLED) if offset < Limits::END_MARK => Next::Stop(Verdict::OutOfTurn),
            (RELEASED, PULLED) => Next::Go(self.enter(Phase::Acknowledgement, now)),
            (RELEASED, RELEASED) if offset == Limits::NOT_ACKNOWLEDGED => {
                Next::Stop(Verdict::EndMarkNotAcknowledged)
            }
            (RELEASED, RELEASED) => Next::Stay,
        }
    }

    /// F.
    #[inline]
    pub fn acknowledgement(self, now: Place, lines: Lines) -> Next {
        let offset = self.offset(now);
        match (lines.clock, lines.data) {
            (PULLED, _) => Next::Stop(Verdict::OutOfTurn),
            (RELEASED, PULLED) if offset == Limits::ACKNOWLEDGEMENT_LONG => {
                Next::Stop(Verdict::AcknowledgementLong)
            }
            (RELEASED, PULLED) => Next::Stay,
            (RELEASED, RELEASED) if offset < Limits::ACKNOWLEDGEMENT_SHORT => {
                Next::Stop(Verdict::AcknowledgementShort)
            }
            (RELEASED, RELEASED) => Next::Go(self.enter(Phase::AfterAcknowledgement, now)),
        }
    }

    /// G.
    #[inline]
    pub fn after_acknowledgement(self, now: Place, lines: Lines) -> Next {
        let timed_out = now.tick - self.ready == Limits::SENDER_TIME_OUT;
        match (lines.clock, lines.data) {
            (RELEASED, PULLED) => Next::Stop(Verdict::OutOfTurn),
            (PULLED, _) if self.offset(now) <= Limits::CLOCK_IN_TIME => {
                self.begin_bits(now, lines, true)
            }
            (PULLED, _) => Next::Stop(Verdict::LateClock),
            (RELEASED, RELEASED) if timed_out && self.count == 0 => {
                Next::Stop(Verdict::EmptyStream)
            }
            (RELEASED, RELEASED) if timed_out => Next::Stop(Verdict::SenderTimeOut),
            (RELEASED, RELEASED) => Next::Stay,
        }
    }

    /// From D or G to the set-up of bit 1.
    #[inline]
    fn begin_bits(self, now: Place, lines: Lines, end_mark: bool) -> Next {
        let byte = Byte {
            end_mark,
            ..Byte::NONE
        };
        State { byte, ..self }.begin_set_up(now, lines)
    }

    #[inline]
    fn begin_set_up(self, now: Place, lines: Lines) -> Next {
        Next::Go(State {
            data: lines.data,
            ..self.enter(Phase::SetUp, now)
        })
    }

    /// Set-up: DATA is free, and its last tick's is the bit.
    #[inline]
    pub fn set_up(self, now: Place, lines: Lines) -> Next {
        match (lines.clock, lines.data == self.data) {
            (PULLED, _) if self.offset(now) == Limits::SET_UP => Next::Stop(Verdict::ClockStall),
            (PULLED, true) => Next::Stay,
            (PULLED, false) => Next::Go(State {
                data: lines.data,
                ..self
            }),
            (RELEASED, true) => Next::Go(self.enter(Phase::Valid, now)),
            (RELEASED, false) => Next::Stop(Verdict::DataMoved),
        }
    }

    /// Valid, the tick of the next CLK pull no longer: it's the first of the
    /// next set-up, or of the handover, whatever DATA does in it. A change of
    /// DATA in a 201st valid tick meets the row of 33 before that of 34.
    #[inline]
    pub fn valid(self, now: Place, lines: Lines) -> Next {
        let offset = self.offset(now);
        match (lines.clock, lines.data == self.data) {
            (RELEASED, false) => Next::Stop(Verdict::DataMoved),
            (RELEASED, true) if offset == Limits::VALID => Next::Stop(Verdict::ClockStall),
            (RELEASED, true) => Next::Stay,
            (PULLED, _) if offset < Limits::VALID_AT_LEAST => Next::Stop(Verdict::ValidTimeShort),
            (PULLED, _) => self.end_bit(now, lines),
        }
    }

    #[inline]
    fn end_bit(self, now: Place, lines: Lines) -> Next {
        let byte = self.byte.with(self.data);
        let state = State { byte, ..self };
        if byte.is_whole() {
            state.begin_handover(now, lines)
        } else {
            state.begin_set_up(now, lines)
        }
    }

    /// Offset 0 of the handover; `data` is bit 8.
    #[inline]
    fn begin_handover(self, now: Place, lines: Lines) -> Next {
        match (self.data, lines.data) {
            (RELEASED, PULLED) => Next::Stop(Verdict::OutOfTurn),
            (PULLED, PULLED) => Next::Go(self.enter(Phase::Carried, now)),
            (_, RELEASED) => self.enter(Phase::Carried, now).begin_open(now),
        }
    }

    /// DATA is seen released: the sender lets go. The offset goes on counting
    /// from the CLK pull.
    #[inline]
    fn begin_open(self, now: Place) -> Next {
        Next::Go(State {
            phase: Phase::Open,
            byte: Byte {
                let_go: now.tick,
                ..self.byte
            },
            ..self
        })
    }

    /// Open. "CLK released while DATA has been open" is 26, whatever DATA shows.
    #[inline]
    pub fn open(self, now: Place, lines: Lines) -> Next {
        match (lines.clock, lines.data) {
            (RELEASED, _) => Next::Stop(Verdict::OutOfTurn),
            (PULLED, RELEASED) if self.offset(now) == Limits::RECEIVER_TIME_OUT => {
                Next::Stop(Verdict::ReceiverTimeOut)
            }
            (PULLED, RELEASED) => Next::Stay,
            (PULLED, PULLED) => {
                let byte = Byte {
                    take: now.tick,
                    ..self.byte
                };
                Next::Go(State { byte, ..self }.enter(Phase::Hold, now))
            }
        }
    }

    /// Carried. "DATA released in the same tick as CLK" is 26.
    #[inline]
    pub fn carried(self, now: Place, lines: Lines) -> Next {
        let offset = self.offset(now);
        match (lines.clock, lines.data) {
            (RELEASED, RELEASED) => Next::Stop(Verdict::OutOfTurn),
            (PULLED, PULLED) => Next::Stay,
            (PULLED, RELEASED) if offset <= Limits::LAST_LETTING_GO => self.begin_open(now),
            (PULLED, RELEASED) => Next::Stop(Verdict::OutOfTurn),
            (RELEASED, PULLED) if offset < Limits::FIRST_TAKE + Limits::TAKE_TO_RELEASE => {
                Next::Stop(Verdict::Hurried)
            }
            (RELEASED, PULLED) => {
                let first_take = self.first.tick + Limits::FIRST_TAKE;
                let byte = Byte {
                    let_go: first_take,
                    take: first_take,
                    ..self.byte
                };
                State { byte, ..self }.hand_over(now)
            }
        }
    }

    /// E.
    #[inline]
    pub fn end(self, lines: Lines) -> Next {
        match (lines.clock, lines.data) {
            (RELEASED, RELEASED) => Next::Stay,
            _ => Next::Stop(Verdict::MovedAfterTheEnd),
        }
    }
}
