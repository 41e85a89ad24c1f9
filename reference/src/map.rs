//! The register map: Manual 3.2.3 to 3.2.14, less 0x071D, which 01 does not
//! model, and of 02 the raw counts and what 0x0905 reads.

use crate::numbers::GATE_BITS;

/// The register that an address names. Numbers count from the block's start.
#[derive(Clone, Copy, Debug, PartialEq, Eq)]
pub enum Register {
    BackplaneMask(usize),
    ModuleId(usize),
    NegativeOverflow(usize),
    PositiveOverflow(usize),
    GateError,
    WatchdogError(usize),
    GateIn,
    GateOut,
    OutSignal,
    GateState(usize),
    WatchdogTimeout,
    CountersControl,
    GateMode,
    GateTimeout(usize),
    WatchdogReset(usize),
    TagLow,
    TagHigh,
    Code,
    LoaderState,
    LoaderIterator,
    QueueLength,
    EventKey,
    EventControl,
    ThresholdReload,
    GatePrepare,
    GateRecover,
    Input(usize),
    OutputSelection(usize, usize),
    Count(usize),
    RawCount(usize),
    Group(usize),
    Threshold(usize),
    Memory(usize),
}

/// Words of one output's selection block (Manual, Table 3.27).
pub const SELECT_NEGATIVE: usize = 0x00;
pub const SELECT_POSITIVE: usize = 0x08;
pub const SELECT_GATE_ERROR: usize = 0x10;
pub const SELECT_WATCHDOG: usize = 0x11;
pub const SELECT_FORWARD: usize = 0x15;
pub const SELECTION_WORDS: usize = 22;

/// None where 01 says "not in the map".
pub fn register(address: u16) -> Option<Register> {
    let at = usize::from(address);
    match at {
        0x0630..=0x0635 => Some(Register::BackplaneMask(at - 0x0630)),
        0x0638..=0x063D => Some(Register::ModuleId(at - 0x0638)),
        0x0700..=0x071C => status(at),
        0x0800..=0x0813 => control(at),
        0x0900..=0x0905 => event_status(at),
        0x0A00..=0x0A04 => event_control(at),
        0x1000..=0x107F => Some(Register::Input(at - 0x1000)),
        0x1100..=0x11BF => output_selection(at - 0x1100),
        0x1200..=0x12FF => Some(Register::Count(at - 0x1200)),
        // 02, CR 1: "The addresses 0x1300 to 0x136B join the map as read-only."
        0x1300..=0x136B => Some(Register::RawCount(at - 0x1300)),
        0x1600..=0x161F => Some(Register::Group(at - 0x1600)),
        0x1800..=0x19FF => Some(Register::Threshold(at - 0x1800)),
        0x8000..=0xBFFF => Some(Register::Memory(at - 0x8000)),
        _ => None,
    }
}

/// Manual, Table 3.7.
fn status(at: usize) -> Option<Register> {
    match at {
        0x0700..=0x0707 => Some(Register::NegativeOverflow(at - 0x0700)),
        0x0708..=0x070F => Some(Register::PositiveOverflow(at - 0x0708)),
        0x0710 => Some(Register::GateError),
        0x0711..=0x0714 => Some(Register::WatchdogError(at - 0x0711)),
        0x0717 => Some(Register::GateIn),
        0x0718 => Some(Register::GateOut),
        0x0719 => Some(Register::OutSignal),
        0x071A..=0x071C => Some(Register::GateState(at - 0x071A)),
        _ => None,
    }
}

/// Manual, Table 3.14. 01, Writes: timeouts and watchdog resets are "one
/// register each, against the Manual's block tables".
fn control(at: usize) -> Option<Register> {
    match at {
        0x0800 => Some(Register::WatchdogTimeout),
        0x0801 => Some(Register::CountersControl),
        0x0802 => Some(Register::GateMode),
        0x0804..=0x080F => Some(Register::GateTimeout(at - 0x0804)),
        0x0810..=0x0813 => Some(Register::WatchdogReset(at - 0x0810)),
        _ => None,
    }
}

/// Manual, Table 3.18.
fn event_status(at: usize) -> Option<Register> {
    match at {
        0x0900 => Some(Register::TagLow),
        0x0901 => Some(Register::TagHigh),
        0x0902 => Some(Register::Code),
        0x0903 => Some(Register::LoaderState),
        0x0904 => Some(Register::LoaderIterator),
        // 02, CR 5
        0x0905 => Some(Register::QueueLength),
        _ => None,
    }
}

/// Manual, Table 3.20.
fn event_control(at: usize) -> Option<Register> {
    match at {
        0x0A00 => Some(Register::EventKey),
        0x0A01 => Some(Register::EventControl),
        0x0A02 => Some(Register::ThresholdReload),
        0x0A03 => Some(Register::GatePrepare),
        0x0A04 => Some(Register::GateRecover),
        _ => None,
    }
}

/// Six blocks of 22 words at a raster of 32 (Manual, 3.2.10).
fn output_selection(offset: usize) -> Option<Register> {
    let (output, word) = (offset / 32, offset % 32);
    (word < SELECTION_WORDS).then_some(Register::OutputSelection(output, word))
}

pub fn read_only(register: Register) -> bool {
    use Register::*;
    matches!(
        register,
        ModuleId(_)
            | NegativeOverflow(_)
            | PositiveOverflow(_)
            | GateError
            | WatchdogError(_)
            | GateIn
            | GateOut
            | OutSignal
            | GateState(_)
            | TagLow
            | TagHigh
            | Code
            | LoaderState
            | LoaderIterator
            | QueueLength
            | Count(_)
            | RawCount(_)
            | Threshold(_)
    )
}

/// Bits that a write keeps.
// 01, Writes: "Unused bits are dropped and read 0."
pub fn used_bits(register: Register) -> u16 {
    use Register::*;
    match register {
        BackplaneMask(_) | GateMode | GatePrepare | GateRecover => GATE_BITS,
        CountersControl => 0x0003,
        WatchdogReset(3) => 0x003F,
        EventControl => 0x0001,
        ThresholdReload => 0x1FFF,
        OutputSelection(_, SELECT_GATE_ERROR | SELECT_FORWARD) => GATE_BITS,
        OutputSelection(_, 0x14) => 0x003F,
        _ => 0xFFFF,
    }
}

#[cfg(test)]
mod tests {
    use super::*;

    #[test]
    fn the_map_has_17621_addresses_of_which_915_are_read_only() {
        let named: Vec<Register> = (0..=0xFFFF).filter_map(register).collect();
        assert_eq!(named.len(), 17_621);
        assert_eq!(named.iter().filter(|r| read_only(**r)).count(), 915);
    }

    #[test]
    fn registers_not_modelled_are_not_in_the_map() {
        let gaps = [0x0715, 0x0716, 0x0803, 0x0636, 0x0637, 0x1116, 0x11B6, 0x136C, 0x15FF, 0xC000];
        for address in gaps.into_iter().chain([0x071D, 0x0906]) {
            assert_eq!(register(address), None, "{address:#06x}");
        }
    }
}
