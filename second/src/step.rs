//! The step table: the act of each place, and the place it goes to.

use crate::lock::*;

impl Lock {
    /// The step table. Each arm does the act of one place and gives the place it goes to.
    pub fn step(&mut self, me: u8) {
        let own = me as usize;
        let edition = self.edition;
        let r = &mut self.rows;
        // Only the places that have a pred or a succ use these as row numbers.
        let pred = r[own].pred as usize;
        let succ = r[own].succ as usize;

        let to = match r[own].place {
            REST => {
                if r[own].flag {
                    r[own].flag = false;
                    REST
                } else {
                    way_in(edition)
                }
            }
            GATE => {
                if r[own].guard {
                    GATE
                } else {
                    CLEAR
                }
            }
            CLEAR => {
                r[own].next = NONE;
                SWAP
            }
            SWAP => {
                r[own].pred = self.tail;
                self.tail = me;
                if r[own].pred == NONE {
                    INSIDE
                } else {
                    ARM
                }
            }
            ARM => {
                r[own].locked = LOCKED;
                LINK
            }
            LINK => {
                r[pred].next = me;
                if edition == PLAIN {
                    SPIN
                } else {
                    CLAIM
                }
            }
            CLAIM => {
                if r[pred].locked == R_P {
                    r[pred].locked = RELEASED;
                    SETTLE
                } else {
                    SPIN
                }
            }
            SPIN => {
                if r[own].locked == RELEASED {
                    INSIDE
                } else if edition == PLAIN {
                    SPIN
                } else {
                    POLL
                }
            }
            SETTLE => {
                r[own].locked = RELEASED;
                INSIDE
            }
            INSIDE => {
                if edition == OLD {
                    FREE
                } else {
                    LOOK
                }
            }
            POLL => {
                if r[own].flag && r[own].locked == LOCKED {
                    r[own].locked = PREEMPTED;
                    r[own].flag = false;
                    SERVICE
                } else {
                    SPIN
                }
            }
            SERVICE => BACK,
            BACK => {
                if r[own].locked == PREEMPTED {
                    r[own].locked = LOCKED;
                    SPIN
                } else {
                    REGAIN
                }
            }
            REGAIN => {
                if r[own].locked == R_P {
                    r[own].locked = RELEASED;
                    SPIN
                } else {
                    way_in(edition)
                }
            }
            LOOK => {
                if r[own].next == NONE {
                    CLOSE
                } else {
                    r[own].succ = r[own].next;
                    HAND
                }
            }
            CLOSE => {
                if self.tail == me {
                    self.tail = NONE;
                    REST
                } else {
                    AWAIT
                }
            }
            AWAIT => {
                if r[own].next == NONE {
                    AWAIT
                } else {
                    r[own].succ = r[own].next;
                    HAND
                }
            }
            HAND => {
                if edition == PLAIN || r[succ].locked == LOCKED {
                    r[succ].locked = RELEASED;
                    REST
                } else if edition == DRAWN {
                    PARK
                } else {
                    FENCE
                }
            }
            FENCE => {
                r[succ].guard = true;
                PARK
            }
            PARK => {
                if r[succ].locked == PREEMPTED {
                    r[succ].locked = R_P;
                    PEEK
                } else {
                    r[own].nx = r[own].succ;
                    LIFT
                }
            }
            PEEK => {
                r[own].nx = r[succ].next;
                if r[own].nx == NONE {
                    LIFT
                } else {
                    TAKE
                }
            }
            TAKE => {
                if r[succ].locked == R_P {
                    r[succ].locked = RELEASED;
                    if edition == DRAWN {
                        REREAD
                    } else {
                        LIFT
                    }
                } else {
                    r[own].nx = NONE;
                    LIFT
                }
            }
            LIFT => {
                r[succ].guard = false;
                on_or(REST, &mut r[own])
            }
            REREAD => {
                r[own].nx = r[succ].next;
                on_or(LOST, &mut r[own])
            }
            LOST => LOST,
            TRY => {
                if self.tail == NONE {
                    self.tail = me;
                    INSIDE
                } else {
                    OLD_POLL
                }
            }
            OLD_POLL => {
                if r[own].flag {
                    r[own].flag = false;
                    OLD_SERVICE
                } else {
                    TRY
                }
            }
            OLD_SERVICE => TRY,
            FREE => {
                self.tail = NONE;
                REST
            }
            place => unreachable!("no place {}", place),
        };

        // The drawn edition has no place 22: it makes the choice of 22 in the same step, without the guard.
        r[own].place = if edition == DRAWN && to == LIFT { on_or(REST, &mut r[own]) } else { to };
    }
}

/// Where a processor goes that wants to enter.
fn way_in(edition: u8) -> u8 {
    match edition {
        GUARDED => GATE,
        OLD => TRY,
        _ => CLEAR,
    }
}

/// The choice of places 22 and 27: on with nx as the new succ, or to another place if nx is none.
fn on_or(otherwise: u8, row: &mut Row) -> u8 {
    if row.nx == NONE {
        otherwise
    } else {
        row.succ = row.nx;
        HAND
    }
}
