//! The messages that the proved node writes, for other readers.

use kajakulm::CALLER;

use crate::generate;
use crate::lockstep::{self, Difference, Seen};
use crate::node;
use crate::run::list_seed;

/// So many different messages, from lists of this seed.
pub fn messages(seed: u64, count: usize) -> Result<Vec<Vec<u8>>, Difference> {
    let mut found: Vec<Vec<u8>> = Vec::new();
    for number in 0.. {
        if found.len() >= count {
            break;
        }
        let list = generate::list(list_seed(seed, number));
        // The node beside, the proved one, is the one that is watched.
        lockstep::run(&list, node::second, node::proved, &mut |seen| {
            for message in written(seen) {
                if found.len() < count && !found.iter().any(|known| known == message) {
                    found.push(message.to_vec());
                }
            }
        })?;
    }
    Ok(found)
}

/// What a call wrote, but for a path for the caller.
fn written<'a>(seen: &Seen<'a>) -> impl Iterator<Item = &'a [u8]> {
    let (outcome, after) = (seen.outcome, seen.after);
    let forward = &after.forward[..outcome.forward_length as usize];
    let reply = &after.reply[..outcome.reply_length as usize];
    let is_path = outcome.forward_way == CALLER;
    [(!is_path).then_some(forward), Some(reply)]
        .into_iter()
        .flatten()
        .filter(|octets| !octets.is_empty())
}

#[cfg(test)]
mod tests {
    use super::*;
    use reference::wire;

    #[test]
    fn each_is_a_message_and_stands_once() {
        let messages = messages(7, 100).expect("alike");
        assert_eq!(messages.len(), 100);
        for (place, message) in messages.iter().enumerate() {
            assert!(wire::read(message).is_ok());
            assert!(!messages[..place].contains(message));
        }
    }
}
