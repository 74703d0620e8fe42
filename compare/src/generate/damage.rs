//! Messages with something wrong in them.

use super::maker::Message;
use crate::list::MOST_OCTETS;
use crate::prng::Random;
use crate::wire::{filler, ART, CONFIGURATION, RREP, RREQ};

/// The message's octets, now and then with noise, damage or padding.
pub fn octets_of(random: &mut Random, message: &Message) -> Vec<u8> {
    match random.below(100) {
        0..=64 => message.draft.octets(),
        65..=84 => message.draft.noisy_octets(random),
        85..=90 => damaged_options(random, message),
        91..=97 => damaged(random, message.draft.octets()),
        98 => padded(random, message.draft.octets()),
        _ => {
            let size = random.below(200);
            random.octets(size)
        }
    }
}

/// One octet cut, changed, lost or too many.
pub fn damaged(random: &mut Random, mut octets: Vec<u8>) -> Vec<u8> {
    let place = random.below(octets.len());
    match random.below(7) {
        0 | 1 => octets.truncate(random.below(octets.len() + 1)),
        2 => octets[place] = random.octet(),
        3 => octets[place] ^= 1 << random.below(8),
        4 => octets.insert(place, random.octet()),
        5 => {
            octets.remove(place);
        }
        _ => {
            let size = random.within(1, 4);
            octets.extend(random.octets(size));
        }
    }
    octets
}

/// An option lost, doubled, of another type or of another size.
fn damaged_options(random: &mut Random, message: &Message) -> Vec<u8> {
    let mut options = message.draft.options();
    let place = random.below(options.len());
    match random.below(8) {
        0 => {
            options.remove(place);
        }
        1 => options.insert(place, options[place].clone()),
        2 => options[place][0] = random.pick(&[CONFIGURATION, RREQ, RREP, ART, 0x0e, 0x00]),
        3 => resize(random, &mut options[place]),
        4 => options.push(vec![random.pick(&[0x00, 0x01, RREQ, ART, 0xff])]),
        5 => options.truncate(place),
        6 => options.insert(place, vec![random.pick(&[RREQ, RREP, ART]), 0]),
        _ => return another_mode(random, message),
    }
    let mut octets = message.draft.base();
    for option in options {
        octets.extend(option);
        if random.one_in(4) {
            octets.extend(filler(random));
        }
    }
    octets
}

/// Another MOP, in a message that is else right.
fn another_mode(random: &mut Random, message: &Message) -> Vec<u8> {
    let mut octets = message.draft.octets();
    octets[4] = random.octet();
    octets
}

/// Some octets more or fewer, with a length octet that says so.
fn resize(random: &mut Random, option: &mut Vec<u8>) {
    let size = option.len() - 2;
    let size = match random.below(4) {
        0 => size + 1,
        1 => size.saturating_sub(1),
        2 => random.below(20),
        _ => size + 16,
    };
    let size = size.min(255);
    option.resize(2 + size, 0x11);
    option[1] = size as u8;
}

/// Pad1 up to about the greatest length: still a good message at 1,236.
fn padded(random: &mut Random, mut octets: Vec<u8>) -> Vec<u8> {
    let size = random.pick(&[
        MOST_OCTETS - 1,
        MOST_OCTETS,
        MOST_OCTETS,
        MOST_OCTETS + 1,
        1500,
    ]);
    octets.resize(size, 0);
    octets
}
