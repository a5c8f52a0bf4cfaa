//! The incident's shape: no call reads or writes a byte outside the room and the arguments.

use crate::guarded::{guarded, Against};
use differential::random::Random;
use judge::both::Both;
use judge::call::{id_of, Call};
use judge::draws;
use judge::numbered::keys;
use judge::reader::SIZE;
use judge::totals::BYTE_LIMIT;

/// The same calls on a guarded room with guarded arguments, and on a plain room beside the judge.
fn run(against: Against, room: &mut [u8], both: &mut Both, calls: impl Iterator<Item = Call>) {
    for call in calls {
        let answer = call.ask_by(room, |bytes| guarded(bytes, against));
        assert_eq!(answer, both.call(&call).0, "{:02x?}", call);
        assert!(room == &both.room[..SIZE], "the room after {:02x?}", call);
    }
}

#[test]
fn rooms_beside_pages_that_may_not_be_touched() {
    for against in [Against::Start, Against::End] {
        let mut random = Random::seeded(31);
        let mut both = Both::fresh(7, 0x77);
        let room = guarded(&both.room[..SIZE], against);
        let calls = (0..1_500).map(|_| draws::call(&mut random, 9));
        run(against, room, &mut both, calls);
    }
}

#[test]
fn full_rooms_beside_pages_that_may_not_be_touched() {
    let list = |from, count| keys(from, count, 32);
    for against in [Against::Start, Against::End] {
        let mut both = Both::fresh(7, 0x77);
        let room = guarded(&both.room[..SIZE], against);
        // 1,024 keys of 32 bytes are as many marks and key bytes as there may be.
        let begins = (0..32).map(|n| Call::NewTransaction(id_of(n)));
        let entries = (0..96).map(|n| Call::Batch(list(n, 1), 8));
        let sets = (0..32).map(|n| Call::Writes(id_of(n as u8), list(n * 3, 29)));
        run(against, room, &mut both, begins.chain(entries).chain(sets));
        assert_eq!(judge::totals::totals(&both.judge.state), (1_024, BYTE_LIMIT));
        let refused = [Call::Writes(id_of(9), list(500, 1)), Call::Check(id_of(3)), Call::Minimum];
        let freed = (0..32).map(|n| Call::Commit(id_of(n), 9 + u64::from(n)));
        run(against, room, &mut both, refused.into_iter().chain(freed));
    }
}
