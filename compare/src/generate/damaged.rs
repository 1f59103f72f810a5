//! Jobs with damaged bytes.

use crate::random::Random;

/// Damages a job; `other` is one to take bytes from.
pub fn damage(random: &mut Random, mut job: Vec<u8>, other: &[u8]) -> Vec<u8> {
    for _ in 0..random.within(1, 3) {
        let at = random.below(job.len() + 1);
        match random.below(9) {
            0 => job.truncate(at),
            1 if at < job.len() => job[at] ^= 1 << random.below(8),
            2 if at < job.len() => job[at] = random.below(256) as u8,
            3 if at < job.len() => job[at] = job[at].wrapping_add(1),
            4 if at < job.len() => job[at] = job[at].wrapping_sub(1),
            5 => job.insert(at, random.below(256) as u8),
            6 if at < job.len() => {
                job.remove(at);
            }
            7 => {
                job.truncate(at);
                job.extend(&other[random.below(other.len() + 1)..]);
            }
            8 => {
                let end = at + random.below(job.len() - at + 1);
                let again = job[at..end].to_vec();
                job.splice(at..at, again);
            }
            _ => {}
        }
    }
    job
}

/// Bytes that never were a job; most are small, as those of jobs are.
pub fn noise(random: &mut Random) -> Vec<u8> {
    let most = *random.pick(&[2, 4, 16, 256]);
    (0..random.below(200))
        .map(|_| random.below(most) as u8)
        .collect()
}
