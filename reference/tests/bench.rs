//! 01, Bench checks: the starred ones and the run-only ones.

mod common;

use common::{new_crate, ticks, word, writes};
use reference::loader::Loader;

#[test]
fn module_ids() {
    let (device, memory) = new_crate();
    assert_eq!(word(&device, &memory, 0x063C), 0x0307);
    assert_eq!(word(&device, &memory, 0x063D), 0x0603);
    for address in 0x0638..0x063C {
        assert_eq!(word(&device, &memory, address), 0x0707);
    }
}

#[test]
fn threshold_5_is_clear_at_5_and_over_at_6() {
    let (mut device, mut memory) = new_crate();
    // Counter 0: input 0 up, ground down, gate 0 in direct mode.
    writes(&mut device, &mut memory, &[(0x8000, 5), (0x1000, 0x0D80), (0x0802, 1), (0x0A02, 0x1000)]);
    ticks(&mut device, &memory, 129, 0, 1);
    for count in 1..=6 {
        ticks(&mut device, &memory, 1, 1, 1);
        ticks(&mut device, &memory, 1, 0, 1);
        assert_eq!(word(&device, &memory, 0x1200), count);
        assert_eq!(word(&device, &memory, 0x0708), u16::from(count > 5));
    }
}

#[test]
fn the_largest_count_and_one_more() {
    let (mut device, mut memory) = new_crate();
    writes(&mut device, &mut memory, &[(0x1000, 0x0D80), (0x0802, 1)]);
    device.counters[0].count = 2_147_483_647;
    ticks(&mut device, &memory, 1, 1, 1);
    assert_eq!(device.counters[0].count, -2_147_483_648);
    assert_eq!((word(&device, &memory, 0x1200), word(&device, &memory, 0x1201)), (0, 0x8000));
    assert_eq!(word(&device, &memory, 0x0700), 1);
}

#[test]
fn up_and_down_together() {
    let (mut device, mut memory) = new_crate();
    // Input 3 up, input 4 down, and counter 1 with one input on both.
    writes(&mut device, &mut memory, &[(0x1000, 4 << 6 | 3), (0x1001, 3 << 6 | 3), (0x0802, 1)]);
    ticks(&mut device, &memory, 1, 0x18, 1);
    assert_eq!((device.counters[0].count, device.counters[1].count), (0, 0));
    ticks(&mut device, &memory, 1, 0x00, 1);
    ticks(&mut device, &memory, 1, 0x10, 1);
    assert_eq!(device.counters[0].count, -1);
}

#[test]
fn timeout_0_ends_at_the_first_low_tick() {
    let (mut device, mut memory) = new_crate();
    writes(&mut device, &mut memory, &[(0x0A03, 1)]);
    ticks(&mut device, &memory, 1, 0, 0);
    assert_eq!(word(&device, &memory, 0x071A), 1);
    ticks(&mut device, &memory, 1, 0, 0);
    assert_eq!(word(&device, &memory, 0x071A), 4);
    assert_eq!(word(&device, &memory, 0x0710), 1);
}

#[test]
fn first_rises_of_the_test_signals() {
    let (mut device, mut memory) = new_crate();
    for k in 0..9 {
        writes(&mut device, &mut memory, &[(0x1000 + k, 54 << 6 | (55 + k))]);
    }
    writes(&mut device, &mut memory, &[(0x0802, 1)]);
    let mut first = [0; 9];
    for tick in 1..=12_500 {
        ticks(&mut device, &memory, 1, 0, 1);
        for (k, seen) in first.iter_mut().enumerate() {
            if *seen == 0 && device.counters[k].count == 1 {
                *seen = tick;
            }
        }
    }
    assert_eq!(first, [12_500, 1_263, 1_250, 127, 125, 13, 13, 6, 5]);
    // 12,500 ticks are 0.1 ms: a tenth of f rises.
    let counts: Vec<i32> = device.counters[..9].iter().map(|counter| counter.count).collect();
    assert_eq!(counts, [1, 9, 10, 99, 100, 990, 1000, 2490, 2500]);
}

#[test]
fn dataset_31_is_taken_and_32_refused() {
    let (mut device, mut memory) = new_crate();
    writes(&mut device, &mut memory, &[(0x0A02, 0x101F), (0x0A02, 0x0000)]);
    let before = device.clone();
    assert_eq!(device.write(&mut memory, 0x0A02, 0x1020), 4);
    assert_eq!(device, before);
    assert_eq!(device.loader.queue.len(), 1);
}

#[test]
fn the_17th_request_is_refused_and_taken_a_tick_later() {
    let (mut device, mut memory) = new_crate();
    writes(&mut device, &mut memory, &[(0x0A01, 1)]);
    for _ in 0..16 {
        assert_eq!(device.tag(&memory, 0x1000), 0);
    }
    assert_eq!(device.tag(&memory, 0x1000), 5);
    assert_eq!(device.write(&mut memory, 0x0A02, 0x1000), 5);
    ticks(&mut device, &memory, 1, 0, 0);
    assert_eq!(device.write(&mut memory, 0x0A02, 0x1000), 0);
    assert_eq!(device.tag(&memory, 0x1000), 5);
}

#[test]
fn ends_of_the_map() {
    let (mut device, mut memory) = new_crate();
    assert_eq!(device.write(&mut memory, 0xBFFF, 7), 0);
    assert_eq!(memory[16_383], 7);
    assert_eq!(device.write(&mut memory, 0xC000, 7), 2);
    assert_eq!(device.write(&mut memory, 0x0700, 7), 3);
    assert_eq!(device.read(&memory, 0xC000), (2, 0));
}

/// Error bit of input 0 after two rises so many ticks apart, timeout 1.
fn watchdog_after_rises(apart: usize) -> u16 {
    let (mut device, mut memory) = new_crate();
    writes(&mut device, &mut memory, &[(0x0800, 1)]);
    ticks(&mut device, &memory, 1, 1, 0);
    ticks(&mut device, &memory, apart - 1, 0, 0);
    ticks(&mut device, &memory, 1, 1, 0);
    word(&device, &memory, 0x0711) & 1
}

#[test]
fn rises_128_apart_are_clear_and_129_an_error() {
    assert_eq!(watchdog_after_rises(128), 0);
    assert_eq!(watchdog_after_rises(129), 1);
}

#[test]
fn timeout_1_runs_out_at_the_16384th_low_tick() {
    let (mut device, mut memory) = new_crate();
    writes(&mut device, &mut memory, &[(0x0804, 1), (0x0A03, 1)]);
    ticks(&mut device, &memory, 1, 0, 0);
    ticks(&mut device, &memory, 16_383, 0, 0);
    assert_eq!(word(&device, &memory, 0x071A), 1);
    ticks(&mut device, &memory, 1, 0, 0);
    assert_eq!(word(&device, &memory, 0x071A), 4);
}

/// Ticks until the request accepted last has had counter 127 handled.
fn ticks_to_finish(mut loader: Loader, requests: usize) -> usize {
    let mut ends = 0;
    let mut spent = 0;
    while ends < requests {
        spent += 1;
        let handled = loader.step();
        ends += usize::from(handled.is_some_and(|(n, _)| n == 127));
    }
    spent
}

// 01: "With k waiting requests ahead, an accepted one is finished within
// 128 + 129 × (k + 1) accepted ticks."
#[test]
fn the_bound_of_the_queue_is_met_and_tight() {
    for k in 0..16 {
        let mut loader = Loader::default();
        let request = reference::loader::Request { dataset: 0, group: 0 };
        assert_eq!(loader.enqueue(request), 0);
        assert_eq!(loader.step(), None);
        for _ in 0..=k {
            assert_eq!(loader.enqueue(request), 0);
        }
        assert_eq!(ticks_to_finish(loader, k + 2), 128 + 129 * (k + 1));
    }
}

#[test]
fn power_up_image() {
    let (device, memory) = new_crate();
    for address in 0..=0xFFFF {
        let (answer, word) = device.read(&memory, address);
        let expected = match address {
            0x0638..=0x063B => 0x0707,
            0x063C => 0x0307,
            0x063D => 0x0603,
            0x0719 => 0x003F,
            0x0800 => 0xFFFF,
            0x1000..=0x107F => 0xFDB6,
            _ => 0,
        };
        assert_eq!(word, expected, "{address:#06x}");
        assert!(answer == 0 || (answer == 2 && word == 0));
    }
}
