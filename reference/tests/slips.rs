//! 01, "Slips to expect", refusals of single calls, and points easily missed.

mod common;

use common::{new_crate, ticks, writes};
use reference::Crate;

/// The word of a read, refused ones included.
fn word(device: &Crate, memory: &[u16], address: u16) -> u16 {
    device.read(memory, address).1
}

#[test]
fn no_false_rise_when_a_counter_is_re_patched() {
    let (mut device, mut memory) = new_crate();
    writes(&mut device, &mut memory, &[(0x0802, 1), (0x1000, 54 << 6)]);
    ticks(&mut device, &memory, 2, 0b10, 1);
    // Input 1 has been high for two ticks; input 0 is low.
    writes(&mut device, &mut memory, &[(0x1000, 54 << 6 | 1)]);
    ticks(&mut device, &memory, 1, 0b10, 1);
    assert_eq!(device.counters[0].count, 0);
    // A rise in the very tick of the new patching is no false one.
    writes(&mut device, &mut memory, &[(0x1000, 54 << 6)]);
    ticks(&mut device, &memory, 1, 0b11, 1);
    assert_eq!(device.counters[0].count, 1);
}

#[test]
fn autoreset_sees_no_rise_of_a_gate_that_is_already_open() {
    let (mut device, mut memory) = new_crate();
    writes(&mut device, &mut memory, &[(0x0802, 3), (0x0801, 2), (0x1000, 0x0D80)]);
    ticks(&mut device, &memory, 1, 0, 3);
    ticks(&mut device, &memory, 1, 1, 3);
    assert_eq!(device.counters[0].count, 1);
    writes(&mut device, &mut memory, &[(0x1000, 0x1D80)]);
    ticks(&mut device, &memory, 1, 0, 3);
    assert_eq!(device.counters[0].count, 1);
    ticks(&mut device, &memory, 1, 0, 1);
    assert_eq!(device.counters[0].count, 1);
    ticks(&mut device, &memory, 1, 1, 3);
    assert_eq!(device.counters[0].count, 1);
}

#[test]
fn thresholds_are_not_compared_with_at_least() {
    let (device, memory) = new_crate();
    // Count 0 and thresholds 0 at power-up.
    for address in 0x0700..0x0710 {
        assert_eq!(word(&device, &memory, address), 0);
    }
}

#[test]
fn a_forwarded_gate_trips_when_low_from_the_write_on() {
    let (mut device, mut memory) = new_crate();
    writes(&mut device, &mut memory, &[(0x1115, 0x0004)]);
    assert_eq!(word(&device, &memory, 0x0719), 0x3E);
    // The gate's input counts, not its output, which stays low here.
    ticks(&mut device, &memory, 1, 0, 4);
    assert_eq!(word(&device, &memory, 0x0719), 0x3F);
    assert_eq!(word(&device, &memory, 0x0718), 0);
    ticks(&mut device, &memory, 1, 0, 0);
    assert_eq!(word(&device, &memory, 0x0719), 0x3E);
}

#[test]
fn a_reload_reads_memory_and_group_when_it_handles_the_counter() {
    let (mut device, mut memory) = new_crate();
    writes(&mut device, &mut memory, &[(0x8000 + 4, 1), (0x8000 + 8, 1), (0x1600, 0x3000), (0x0A02, 0x1000)]);
    // Taking tick, then counters 0 and 1.
    ticks(&mut device, &memory, 3, 0, 0);
    assert_eq!(word(&device, &memory, 0x0904), 1);
    writes(&mut device, &mut memory, &[(0x8000 + 4, 2), (0x8000 + 8, 2), (0x800C, 9), (0x1600, 0x0000)]);
    ticks(&mut device, &memory, 2, 0, 0);
    let positive: Vec<i32> = device.counters[1..4].iter().map(|counter| counter.positive).collect();
    assert_eq!(positive, [1, 2, 9]);
}

#[test]
fn loader_state_and_iterator() {
    let (mut device, mut memory) = new_crate();
    writes(&mut device, &mut memory, &[(0x0A01, 1)]);
    assert_eq!(device.tag(&memory, 0x1000), 0);
    assert_eq!(device.tag(&memory, 0x1000), 0);
    assert_eq!(word(&device, &memory, 0x0903), 0);
    let mut seen = Vec::new();
    for _ in 0..131 {
        ticks(&mut device, &memory, 1, 0, 0);
        seen.push((word(&device, &memory, 0x0903), word(&device, &memory, 0x0904)));
    }
    assert_eq!(seen[0], (3, 0));
    assert_eq!(seen[1], (3, 0));
    assert_eq!(seen[127], (3, 126));
    assert_eq!(seen[128], (0, 127));
    assert_eq!(seen[129], (3, 127));
    assert_eq!(seen[130], (3, 0));
}

#[test]
fn the_queue_length_leaves_out_the_request_at_work() {
    let (mut device, mut memory) = new_crate();
    writes(&mut device, &mut memory, &[(0x0A01, 1), (0x0A02, 0x1000)]);
    assert_eq!(word(&device, &memory, 0x0905), 1);
    for waiting in 2..=16 {
        assert_eq!(device.tag(&memory, 0x1000), 0);
        assert_eq!(word(&device, &memory, 0x0905), waiting);
    }
    assert_eq!(device.tag(&memory, 0x1000), 5);
    assert_eq!(word(&device, &memory, 0x0905), 16);
    // The taking tick, 128 counters, the next taking tick.
    ticks(&mut device, &memory, 1, 0, 0);
    assert_eq!(word(&device, &memory, 0x0905), 15);
    ticks(&mut device, &memory, 128, 0, 0);
    assert_eq!(word(&device, &memory, 0x0905), 15);
    ticks(&mut device, &memory, 1, 0, 0);
    assert_eq!(word(&device, &memory, 0x0905), 14);
    assert_eq!(device.write(&mut memory, 0x0905, 0), 3);
    assert_eq!(word(&device, &memory, 0x0905), 14);
    assert_eq!(device.write(&mut memory, 0x0906, 0), 2);
}

#[test]
fn a_refused_request_leaves_trigger_clear() {
    let (mut device, mut memory) = new_crate();
    assert_eq!(device.write(&mut memory, 0x0A02, 0xF020), 4);
    assert_eq!(word(&device, &memory, 0x0A02), 0);
    assert_eq!(device.write(&mut memory, 0x0A02, 0xF01F), 0);
    assert_eq!(word(&device, &memory, 0x0A02), 0x101F);
    // TRIGGER stays set: no request, so no dataset to refuse.
    assert_eq!(device.write(&mut memory, 0x0A02, 0x1FFF), 0);
    assert_eq!(device.loader.queue.len(), 1);
}

#[test]
fn a_tag_refused_4_or_5_is_still_shown() {
    let (mut device, mut memory) = new_crate();
    writes(&mut device, &mut memory, &[(0x0A00, 0xBEEF), (0x0A01, 1)]);
    assert_eq!(device.tag(&memory, 0xBEEF_1F20), 4);
    let shown: Vec<u16> = (0x0900..0x0903).map(|address| word(&device, &memory, address)).collect();
    assert_eq!(shown, [0x1F20, 0xBEEF, 0x1F20]);
}

#[test]
fn command_4_clears_once_and_reset_holds() {
    let (mut device, mut memory) = new_crate();
    writes(&mut device, &mut memory, &[(0x0802, 1), (0x1000, 0x0D80), (0x0A01, 1)]);
    ticks(&mut device, &memory, 1, 1, 1);
    assert_eq!(device.tag(&memory, 0x4FFF), 0);
    assert_eq!(word(&device, &memory, 0x1200), 0);
    ticks(&mut device, &memory, 1, 0, 1);
    ticks(&mut device, &memory, 1, 1, 1);
    assert_eq!(word(&device, &memory, 0x1200), 1);
    writes(&mut device, &mut memory, &[(0x0801, 0xFFFD)]);
    assert_eq!((word(&device, &memory, 0x1200), word(&device, &memory, 0x0801)), (0, 1));
    ticks(&mut device, &memory, 1, 0, 1);
    ticks(&mut device, &memory, 1, 1, 1);
    assert_eq!(word(&device, &memory, 0x1200), 0);
}

#[test]
fn pulses_wait_for_an_accepted_tick_and_last_one() {
    let (mut device, mut memory) = new_crate();
    writes(&mut device, &mut memory, &[(0x0A01, 1), (0x0806, 1)]);
    assert_eq!(device.tag(&memory, 0x2004), 0);
    assert_eq!(device.tick(&memory, 1 << 63, 0), 6);
    ticks(&mut device, &memory, 1, 0, 0);
    assert_eq!(word(&device, &memory, 0x071A), 0x0100);
    assert!(!device.gates[2].prepare_pulse);
    ticks(&mut device, &memory, 1, 0, 4);
    ticks(&mut device, &memory, 1, 0, 0);
    assert_eq!(word(&device, &memory, 0x071A), 0x0300);
    ticks(&mut device, &memory, 1, 0, 0);
    assert_eq!(word(&device, &memory, 0x071A), 0x0000);
}

#[test]
fn pulses_in_successive_ticks_are_one_rise() {
    let (mut device, mut memory) = new_crate();
    writes(&mut device, &mut memory, &[(0x0A01, 1), (0x0802, 1)]);
    ticks(&mut device, &memory, 1, 0, 0);
    writes(&mut device, &mut memory, &[(0x0802, 0)]);
    // DIRECT to IDLE with a pulse: kept as the last prepare signal.
    device.tag(&memory, 0x2001);
    ticks(&mut device, &memory, 1, 0, 0);
    device.tag(&memory, 0x2001);
    ticks(&mut device, &memory, 1, 0, 0);
    assert_eq!(word(&device, &memory, 0x071A), 0);
    ticks(&mut device, &memory, 1, 0, 0);
    device.tag(&memory, 0x2001);
    ticks(&mut device, &memory, 1, 0, 0);
    assert_eq!(word(&device, &memory, 0x071A), 1);
}

#[test]
fn a_watchdog_is_reset_by_the_fall_of_its_bit() {
    let (mut device, mut memory) = new_crate();
    writes(&mut device, &mut memory, &[(0x0800, 0)]);
    ticks(&mut device, &memory, 1, 1, 0);
    let errors: Vec<u16> = (0x0711..0x0715).map(|address| word(&device, &memory, address)).collect();
    assert_eq!(errors, [0xFFFF, 0xFFFF, 0xFFFF, 0x003F]);
    writes(&mut device, &mut memory, &[(0x0813, 0xFFFF)]);
    assert_eq!((word(&device, &memory, 0x0714), word(&device, &memory, 0x0813)), (0x3F, 0x3F));
    writes(&mut device, &mut memory, &[(0x0813, 0x0001)]);
    assert_eq!(word(&device, &memory, 0x0714), 0x0001);
    assert_eq!(device.watchdogs[49].value, 0);
    assert_eq!(device.watchdogs[48].value, 1);
}

#[test]
fn the_watchdog_value_stops_at_its_limit() {
    let mut watchdog = reference::watchdog::Watchdog { value: 8_388_479, error: false };
    watchdog.step(false, 0xFFFF);
    assert_eq!((watchdog.value, watchdog.error), (8_388_480, true));
    watchdog.step(false, 0xFFFF);
    assert_eq!(watchdog.value, 8_388_480);
}

#[test]
fn unused_bits_are_dropped() {
    let masked = [
        (0x0630, 0x0FFF), (0x0635, 0x0FFF), (0x0801, 0x0003), (0x0802, 0x0FFF), (0x0812, 0xFFFF), (0x0813, 0x003F),
        (0x0A01, 0x0001), (0x0A03, 0x0FFF), (0x0A04, 0x0FFF), (0x1110, 0x0FFF), (0x1113, 0xFFFF), (0x1114, 0x003F),
        (0x1115, 0x0FFF), (0x11B4, 0x003F), (0x107F, 0xFFFF), (0x161F, 0xFFFF), (0x080F, 0xFFFF), (0x8000, 0xFFFF),
    ];
    let (mut device, mut memory) = new_crate();
    for (address, kept) in masked {
        assert_eq!(device.write(&mut memory, address, 0xFFFF), 0);
        assert_eq!(word(&device, &memory, address), kept, "{address:#06x}");
    }
}

#[test]
fn a_write_changes_its_own_word_only() {
    let (device, memory) = new_crate();
    for address in 0x0600..0x1A00 {
        let (mut device, mut memory) = (device.clone(), memory.clone());
        let before: Vec<u16> = (0x0600..0x1A00).map(|a| word(&device, &memory, a)).collect();
        let answer = device.write(&mut memory, address, 0x0A5A);
        for (k, a) in (0x0600..0x1A00).enumerate() {
            let stays = answer != 0 || a != address;
            // Forwarded gates are low at power-up, so 0x0719 may follow.
            if stays && a != 0x0719 {
                assert_eq!(word(&device, &memory, a), before[k], "{address:#06x} {a:#06x}");
            }
        }
    }
}

#[test]
fn download_order_of_refusals() {
    let (mut device, mut memory) = new_crate();
    assert_eq!(device.download(&mut memory[..5], 99, &[1; 3]), 1);
    assert_eq!(device.download(&mut memory, 99, &[1; 511]), 11);
    assert_eq!(device.download(&mut memory, 32, &[1; 512]), 4);
    assert!(memory.iter().all(|word| *word == 0));
    assert_eq!(device.download(&mut memory, 31, &[1; 512]), 0);
    assert_eq!(memory.iter().filter(|word| **word == 1).count(), 512);
    assert!(memory[512 * 31..].iter().all(|word| *word == 1));
}

#[test]
fn memory_length_comes_first_in_every_call() {
    let (mut device, memory) = new_crate();
    let before = device.clone();
    for length in [0, 16_383, 16_385] {
        let mut wrong = vec![0; length];
        assert_eq!(device.read(&wrong, 0x063C), (1, 0));
        assert_eq!(device.write(&mut wrong, 0xC000, 0), 1);
        assert_eq!(device.tag(&wrong, 0), 1);
        assert_eq!(device.tick(&wrong, u64::MAX, 0xFFFF), 1);
    }
    assert_eq!(device, before);
    assert_eq!(device.tick(&memory, 1 << 54, 0), 6);
    assert_eq!(device.tick(&memory, 0, 1 << 15), 6);
    assert_eq!(device, before);
}
