//! Small damages to a body: bytes lost, put in, changed, doubled; often no longer UTF-8.

use crate::random::Random;

const SPECIAL: &[u8] = b"{}()[]!=:<>'\"\\ #NxuU07\n\tsar";

pub fn damage(random: &mut Random, body: &mut Vec<u8>) {
    let at = random.below(body.len() + 1);
    let other = if random.once_in(12) {
        0x80 | random.next() as u8
    } else {
        SPECIAL[random.below(SPECIAL.len())]
    };
    match random.below(6) {
        0 => body.truncate(at),
        1 if at < body.len() => {
            body.remove(at);
        }
        2 if at < body.len() => body[at] = other,
        3 => {
            let upto = (at + random.below(8)).min(body.len());
            let again = body[at..upto].to_vec();
            body.splice(at..at, again);
        }
        _ => body.insert(at, other),
    }
}
