//! The words that patch a counter against plain arithmetic, and in a run.
use mirvacula::{
    group_word, group_word_by_numbers, input_word, input_word_by_numbers, run, GROUND, MEMORY_WORDS, NO_GATE,
};

const NO_WORD: u32 = 0x10000;
/// Numbers that no field has room for.
const TOO_LARGE: [u16; 7] = [128, 129, 255, 256, 4_096, 32_768, 65_535];

/// All numbers up to 70, past every field of an input register, and larger ones.
fn numbers() -> impl Iterator<Item = u16> + Clone {
    (0..=70).chain(TOO_LARGE)
}

#[test]
fn input_words_are_their_fields() {
    for up in numbers() {
        for down in numbers() {
            for gate in numbers() {
                let fits = up <= 63 && down <= 63 && gate <= 15;
                let word = fits.then(|| up + 64 * down + 4_096 * gate);
                assert_eq!(input_word(up, down, gate), word, "{up} {down} {gate}");
                assert_eq!(input_word_by_numbers(up, down, gate), word.map_or(NO_WORD, u32::from));
            }
        }
    }
}

/// The groups of the four counters of a register.
fn groups(word: u16) -> [u16; 4] {
    [word % 16, word / 16 % 16, word / 256 % 16, word / 4_096]
}

#[test]
fn a_group_is_put_among_three_others() {
    for word in 0..=65_535 {
        for place in 0..4 {
            for group in 0..16 {
                let mut wanted = groups(word);
                wanted[usize::from(place)] = group;
                // Another register of the 32 each time.
                let counter = 4 * (word % 32) + place;
                assert_eq!(group_word(word, counter, group).map(groups), Some(wanted), "{word:#06x} {counter} {group}");
            }
        }
    }
}

#[test]
fn every_counter_has_its_place() {
    for counter in 0..=65_535 {
        for group in numbers() {
            let fits = counter <= 127 && group <= 15;
            let word = fits.then(|| {
                let mut wanted = groups(0x4321);
                wanted[usize::from(counter % 4)] = group;
                wanted[0] + 16 * wanted[1] + 256 * wanted[2] + 4_096 * wanted[3]
            });
            assert_eq!(group_word(0x4321, counter, group), word, "{counter} {group}");
            assert_eq!(group_word_by_numbers(0x4321, counter, group), word.map_or(NO_WORD, u32::from));
        }
    }
}

#[test]
fn power_up_has_the_word_of_ground_and_no_gate() {
    let image = run(&mut vec![0; MEMORY_WORDS], &[], 0);
    for counter in 0..128 {
        assert_eq!(image.register(0x1000 + counter), input_word(GROUND, GROUND, NO_GATE));
    }
}
