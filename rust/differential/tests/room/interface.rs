//! The typed interface of crate `stranvek` against its own boundary: the same calls on equal rooms.

use bytes::Bytes;
use differential::random::Random;
use judge::both::{Both, Statuses};
use judge::call::Call;
use judge::draws;
use judge::forms;
use std::ops::Bound;
use stranvek::boundary::Answer;
use stranvek::numbers::{ABSENT, DONE};
use stranvek::{Error, KeyList, Keys, TransactionManager, TxnId};

fn done(answer: Result<u64, Error>) -> Answer {
    match answer {
        Ok(value) => Answer { status: DONE, value },
        Err(error) => Answer { status: error.status(), value: 0 },
    }
}

fn ended(answer: Result<(bool, u64), Error>) -> Answer {
    match answer {
        Ok((true, value)) => Answer { status: DONE, value },
        Ok((false, value)) => Answer { status: ABSENT, value },
        Err(error) => done(Err(error)),
    }
}

/// A list as the builder writes it from its keys, or as it is where it is badly formed.
fn with_list<T>(list: &[u8], ask: impl FnOnce(Keys) -> T) -> T {
    let keys = match forms::key_list(list) {
        Some(keys) => keys,
        None => return ask(Keys::encoded(list)),
    };
    let mut buffer = vec![0; list.len()];
    let mut built = KeyList::new(&mut buffer);
    keys.iter().for_each(|key| built.push(key).expect("the list's own length"));
    ask(Keys::from(&built))
}

fn lent(bound: &Bound<Bytes>) -> Bound<&[u8]> {
    match bound {
        Bound::Included(key) => Bound::Included(key),
        Bound::Excluded(key) => Bound::Excluded(key),
        Bound::Unbounded => Bound::Unbounded,
    }
}

/// What the interface answers; nothing where it cannot be asked: a wrong length of an id, bounds that are badly formed.
fn ask(room: &mut [u8], call: &Call) -> Option<Answer> {
    let mut manager = TransactionManager::open(room).expect("a good room");
    let id = call.id().map_or(Ok(TxnId::from([0; 16])), TxnId::try_from).ok()?;
    Some(match call {
        Call::New(_) => return None,
        Call::NewTransaction(_) => done(manager.new_transaction(&id)),
        Call::Writes(_, list) => with_list(list, |keys| done(manager.track_write_keys(&id, keys))),
        Call::Reads(_, list) => with_list(list, |keys| done(manager.track_read_keys(&id, keys))),
        Call::Range(_, bounds) => {
            let (start, end) = forms::bounds(bounds)?;
            done(manager.track_read_range(&id, (lent(&start), lent(&end))))
        }
        Call::Check(_) => done(manager.check_has_conflict(&id).map(u64::from)),
        Call::Batch(list, seq) => {
            with_list(list, |keys| done(manager.track_recent_committed_write_batch(keys, *seq)))
        }
        Call::Commit(_, seq) => {
            let committed = manager.track_recent_committed_txn(&id, *seq);
            ended(committed.map(|end| (end.was_active, end.last_committed_seq)))
        }
        Call::Drop(_) => ended(manager.drop_txn(&id).map(|end| (end.was_active, end.entries_kept))),
        Call::Minimum => {
            let start = manager.min_active_seq();
            ended(start.map(|start| (start.is_some(), start.unwrap_or(0))))
        }
    })
}

#[test]
fn the_interface_says_what_the_boundary_says() {
    let mut random = Random::seeded(17);
    let (mut statuses, mut not_asked) = (Statuses::default(), 0);
    for run in 0..100 {
        let mut theirs = Both::fresh(run, 0x77).room;
        for _ in 0..300 {
            let call = draws::call(&mut random, run);
            let mut ours = theirs.clone();
            let answer = ask(&mut ours, &call);
            let due = call.ask(&mut theirs);
            match answer {
                Some(answer) => {
                    assert_eq!(answer, due, "{:02x?}", call);
                    assert!(ours == theirs, "the room after {:02x?}", call);
                    statuses[usize::from(due.status)] += 1;
                }
                None => not_asked += 1,
            }
        }
    }
    println!("statuses 0 to 7: {:?}, {} not asked", statuses, not_asked);
    assert_eq!(statuses.iter().sum::<u64>() + not_asked, 30_000);
    assert!(not_asked < 1_000 && statuses[..6].iter().all(|met| *met > 50));
}
