//! The gate logic (01, Gates).

/// A timeout step of 131.072 µs is 16,384 ticks of 8 ns.
pub const TIMEOUT_STEP: u32 = 16_384;

/// State IDs of the Manual, Table 3.13.
#[derive(Clone, Copy, Debug, PartialEq, Eq, Default)]
pub enum State {
    #[default]
    Idle = 0,
    Prepare = 1,
    Gate = 2,
    Waiting = 3,
    Error = 4,
    Recover = 5,
    Direct = 6,
}

#[derive(Clone, Debug, PartialEq, Eq, Default)]
pub struct Gate {
    pub state: State,
    pub timer: u32,
    /// Set by event commands 0x2 and 0x3, dropped by the next accepted tick.
    pub prepare_pulse: bool,
    pub recover_pulse: bool,
    /// Kept from the last accepted tick.
    pub last_prepare: bool,
    pub last_output: bool,
}

/// What a gate sees in one tick besides its own state.
#[derive(Clone, Copy, Debug)]
pub struct Seen {
    pub input: bool,
    pub mode_bit: bool,
    pub prepare_bit: bool,
    pub recover_bit: bool,
    pub timeout: u16,
}

impl Gate {
    // 01, Gates: "high in a tick if their register bit is set or an event has
    // pulsed them since the last accepted tick"
    pub fn prepare(&self, seen: Seen) -> bool {
        seen.prepare_bit || self.prepare_pulse
    }

    pub fn recover(&self, seen: Seen) -> bool {
        seen.recover_bit || self.recover_pulse
    }

    /// At most one of the listed steps; the new state is looked at next tick.
    pub fn step(&mut self, seen: Seen) {
        self.state = match self.state {
            State::Idle => self.idle_step(seen),
            State::Prepare => self.prepare_step(seen),
            State::Gate if !seen.input => State::Waiting,
            State::Waiting if seen.input => State::Error,
            State::Waiting if !self.prepare(seen) => State::Idle,
            State::Error if self.recover(seen) => State::Recover,
            State::Recover if !self.recover(seen) => State::Idle,
            State::Direct if !seen.mode_bit => State::Idle,
            // 01, Gates: "Where no condition holds the state stays."
            same => same,
        };
    }

    fn idle_step(&mut self, seen: Seen) -> State {
        if seen.mode_bit {
            return State::Direct;
        }
        if seen.input {
            return State::Error;
        }
        if self.prepare(seen) && !self.last_prepare {
            self.timer = TIMEOUT_STEP * u32::from(seen.timeout);
            return State::Prepare;
        }
        State::Idle
    }

    fn prepare_step(&mut self, seen: Seen) -> State {
        if seen.input {
            return State::Gate;
        }
        if self.timer <= 1 {
            return State::Error;
        }
        self.timer -= 1;
        State::Prepare
    }

    /// By the state after the step.
    // 01, Gates: "high in GATE, the input's level in DIRECT, else low"
    pub fn output(&self, input: bool) -> bool {
        match self.state {
            State::Gate => true,
            State::Direct => input,
            _ => false,
        }
    }

    // 01, order of a tick: "then event pulses are dropped and levels kept"
    pub fn settle(&mut self, seen: Seen) {
        self.last_prepare = self.prepare(seen);
        self.last_output = self.output(seen.input);
        self.prepare_pulse = false;
        self.recover_pulse = false;
    }
}

#[cfg(test)]
mod tests {
    use super::*;

    const LOW: Seen = Seen { input: false, mode_bit: false, prepare_bit: false, recover_bit: false, timeout: 0 };

    fn after(state: State, seen: Seen) -> State {
        let mut gate = Gate { state, ..Gate::default() };
        gate.step(seen);
        gate.state
    }

    #[test]
    fn idle_tests_mode_then_input_then_prepare() {
        let all = Seen { input: true, mode_bit: true, prepare_bit: true, ..LOW };
        assert_eq!(after(State::Idle, all), State::Direct);
        assert_eq!(after(State::Idle, Seen { mode_bit: false, ..all }), State::Error);
        assert_eq!(after(State::Idle, Seen { prepare_bit: true, ..LOW }), State::Prepare);
        assert_eq!(after(State::Idle, LOW), State::Idle);
    }

    #[test]
    fn idle_needs_a_rise_of_prepare() {
        let mut gate = Gate { last_prepare: true, ..Gate::default() };
        gate.step(Seen { prepare_bit: true, ..LOW });
        assert_eq!(gate.state, State::Idle);
    }

    #[test]
    fn waiting_tests_input_before_prepare() {
        assert_eq!(after(State::Waiting, Seen { input: true, ..LOW }), State::Error);
        assert_eq!(after(State::Waiting, LOW), State::Idle);
        assert_eq!(after(State::Waiting, Seen { prepare_bit: true, ..LOW }), State::Waiting);
    }

    #[test]
    fn error_and_recover_do_not_look_at_the_input() {
        let recover = Seen { input: true, recover_bit: true, ..LOW };
        assert_eq!(after(State::Error, recover), State::Recover);
        assert_eq!(after(State::Recover, recover), State::Recover);
        assert_eq!(after(State::Recover, Seen { input: true, ..LOW }), State::Idle);
    }

    #[test]
    fn prepare_with_an_expired_timer_still_takes_a_high_input() {
        assert_eq!(after(State::Prepare, Seen { input: true, ..LOW }), State::Gate);
        assert_eq!(after(State::Prepare, LOW), State::Error);
    }
}
