//! What the tests of single calls share.
#![allow(dead_code)] // not every test file uses all of it

use reference::Crate;

pub fn new_crate() -> (Crate, Vec<u16>) {
    let mut memory = vec![0xABCD; 16_384];
    let (answer, device) = Crate::power_up(&mut memory);
    assert_eq!(answer, 0);
    assert!(memory.iter().all(|word| *word == 0));
    (device, memory)
}

pub fn ticks(device: &mut Crate, memory: &[u16], repeat: usize, inputs: u64, gates: u16) {
    for _ in 0..repeat {
        assert_eq!(device.tick(memory, inputs, gates), 0);
    }
}

pub fn writes(device: &mut Crate, memory: &mut [u16], list: &[(u16, u16)]) {
    for (address, word) in list {
        assert_eq!(device.write(memory, *address, *word), 0, "{address:#06x}");
    }
}

pub fn word(device: &Crate, memory: &[u16], address: u16) -> u16 {
    let (answer, word) = device.read(memory, address);
    assert_eq!(answer, 0, "{address:#06x}");
    word
}
