//! Random cards for the lister and the page program.

use super::generate;
use super::logs::{random_faulty_log, random_faulty_race, random_faulty_take, random_log};
use crate::limits::SEGMENT_BYTES;
use crate::random::Random;

/// The card of a seed for a program that takes `segments`: left by a script, or stored byte by byte; whole, damaged, or of
/// a wrong length.
pub fn card(seed: u64, segments: usize) -> Vec<u8> {
    let mut random = Random::new(!seed);
    let most = segments as u64;
    let segments = random.pick(&[1, 1, 2, 3, random.clone().between(1, most), most, most + 1]) as usize;
    let mut card = match random.below(16) {
        0..=3 => card_of_script(seed),
        4..=7 => random_log(&mut random, segments),
        8 => random_faulty_log(&mut random, segments),
        9..=12 => random_faulty_race(&mut random, segments),
        13..=14 => random_faulty_take(&mut random, segments),
        _ => vec![random.byte(); segments * SEGMENT_BYTES],
    };
    match random.below(10) {
        0..=1 => damage(&mut random, &mut card),
        2 => {
            let length = random.below(card.len() as u64 + SEGMENT_BYTES as u64);
            card.resize(length as usize, 0);
        }
        _ => {}
    }
    card
}

/// The card that the script of a seed leaves.
fn card_of_script(seed: u64) -> Vec<u8> {
    let mut card = Vec::new();
    generate(seed, Some(250), &mut |_, _, shell| card = shell.card().to_vec());
    card
}

/// Bytes are written over, most of them in summaries.
fn damage(random: &mut Random, card: &mut [u8]) {
    for _ in 0..random.between(1, 3) {
        if card.is_empty() {
            return;
        }
        let summary = card.len().min(crate::limits::SUMMARY_AT) + random.below(60) as usize;
        let anywhere = random.below(card.len() as u64) as usize;
        let at = if random.chance(70) { summary } else { anywhere };
        if let Some(byte) = card.get_mut(at) {
            *byte = random.byte();
        }
    }
}
