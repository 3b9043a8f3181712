//! Who may do what: every operation with and without its right, tokens of others, and the temporary worker of the customer's story.

mod common;

use common::{configuration, fresh_path};
use ironbus_delivery_state::{
    CheckpointError, Configuration, Consumer, LeaseToken, NewJournal, Offset, Refusal, Rights,
    Standing, View, WorkerId,
};

/// A worker with every right, and the one that is tried.
const CHIEF: WorkerId = WorkerId::new(0);
const OTHER: WorkerId = WorkerId::new(5);

/// Each operation's right, and every call that it covers. A call answers whether it was permitted.
type Call = fn(&mut Consumer, LeaseToken) -> Result<(), Refusal>;
const CALLS: [(Rights, Call); 21] = [
    (Rights::CLAIM, |c, _| {
        c.claim(OTHER, Offset::new(9), 0).map(drop)
    }),
    (Rights::SETTLE, |c, token| c.ack(OTHER, token)),
    (Rights::SETTLE, |c, token| c.term(OTHER, token)),
    (Rights::NACK, |c, token| {
        c.nack(OTHER, token, 0, None).map(drop)
    }),
    (Rights::NACK, |c, token| {
        c.nack(OTHER, token, 0, Some(1)).map(drop)
    }),
    (Rights::EXTEND, |c, token| {
        c.progress(OTHER, token, 0).map(drop)
    }),
    (Rights::COMMIT, |c, _| {
        c.commit(OTHER, Offset::new(2)).map(drop)
    }),
    // where nothing moves
    (Rights::COMMIT, |c, _| {
        c.commit(OTHER, Offset::ZERO).map(drop)
    }),
    (Rights::LOOK, |c, _| c.waiting(OTHER, 0, &mut []).map(drop)),
    (Rights::LOOK, |c, _| c.committed(OTHER).map(drop)),
    (Rights::LOOK, |c, _| {
        c.is_settled(OTHER, Offset::ZERO).map(drop)
    }),
    (Rights::LOOK, |c, _| {
        c.lease_of(OTHER, Offset::ZERO).map(drop)
    }),
    (Rights::LOOK, |c, _| {
        c.count_of(OTHER, Offset::ZERO).map(drop)
    }),
    (Rights::LOOK, |c, _| c.all_attempt_counts(OTHER).map(drop)),
    (Rights::LOOK, |c, _| c.in_flight(OTHER).map(drop)),
    (Rights::LOOK, |c, _| c.is_due(OTHER).map(drop)),
    (Rights::LOOK, |c, _| c.blocks_left(OTHER).map(drop)),
    (Rights::LOOK, |c, _| {
        c.view(OTHER, Offset::new(3), 0).map(drop)
    }),
    (Rights::LOOK, |c, _| {
        c.open_stretches(OTHER, Offset::ZERO, Offset::new(9))
            .map(drop)
    }),
    (Rights::LOOK, |c, _| {
        c.nearest_open(OTHER, Offset::ZERO).map(drop)
    }),
    // lists that would be refused too
    (Rights::LOOK, |c, _| match c.plan(OTHER, &[], &mut [7]) {
        Err(Refusal::UnequalLengths) => Ok(()),
        answer => answer.map(drop),
    }),
];

const OPERATIONS: [Rights; 7] = [
    Rights::CLAIM,
    Rights::SETTLE,
    Rights::NACK,
    Rights::EXTEND,
    Rights::COMMIT,
    Rights::CHECKPOINT,
    Rights::LOOK,
];

fn with_rights(worker: WorkerId, rights: Rights) -> Configuration {
    let mut configuration = configuration(5, 9, 100, 1000);
    configuration.settings.rights[worker.get() as usize] = rights;
    configuration
}

/// A consumer with one checkpoint, on a journal of a name.
fn start(name: &str, configuration: &Configuration) -> Consumer {
    let journal = NewJournal::create(fresh_path(name), 18).unwrap();
    let consumer = Consumer::start(configuration, journal).unwrap();
    consumer.checkpoint(CHIEF).unwrap()
}

/// The same in which worker 5 holds offset 3, under rights that it has for that alone.
fn holding(name: &str, rights: Rights) -> (Consumer, LeaseToken) {
    let mut consumer = start(name, &with_rights(OTHER, rights));
    let token = consumer.claim(OTHER, Offset::new(3), 0).unwrap().token();
    (consumer, token)
}

#[test]
fn a_call_needs_its_right_and_no_other() {
    for (i, (right, call)) in CALLS.iter().enumerate() {
        // To hold a lease it has to claim, so that right comes along but where it is the one tried.
        let (mut consumer, token) = holding(&format!("right-{i}"), *right | Rights::CLAIM);
        assert_eq!(
            call(&mut consumer, token),
            Ok(()),
            "call {i} with {right:?}"
        );
    }
}

#[test]
fn a_call_without_its_right_is_refused_and_changes_nothing() {
    for (i, (right, call)) in CALLS.iter().enumerate() {
        let all_others = OPERATIONS
            .iter()
            .filter(|other| *other != right)
            .fold(Rights::SUPERVISOR, |rights, other| rights | *other);
        let mut consumer = start(&format!("wrong-{i}"), &with_rights(OTHER, all_others));
        let token = consumer.claim(CHIEF, Offset::new(3), 0).unwrap().token();
        let before = consumer.lease_of(CHIEF, Offset::new(3));
        // The token is another's and the bound may hold: the right is asked for first.
        let refused = Err(Refusal::NotPermitted);
        assert_eq!(
            call(&mut consumer, token),
            refused,
            "call {i} without {right:?}"
        );
        assert_eq!(consumer.lease_of(CHIEF, Offset::new(3)), before);
        assert_eq!(consumer.in_flight(CHIEF), Ok(1));
        assert_eq!(consumer.committed(CHIEF), Ok(Offset::ZERO));
    }
}

#[test]
fn a_checkpoint_needs_its_right_at_begin() {
    for (i, operation) in OPERATIONS.iter().enumerate() {
        let consumer = start(&format!("begin-{i}"), &with_rights(OTHER, *operation));
        match consumer.checkpoint(OTHER) {
            Ok(_) => assert_eq!(*operation, Rights::CHECKPOINT),
            Err(error) => {
                assert_ne!(*operation, Rights::CHECKPOINT);
                assert_eq!(error.refusal(), Some(Refusal::NotPermitted));
                let CheckpointError::Refused(error) = error else {
                    panic!("the disk didn't fail");
                };
                assert_eq!(error.refusal(), Refusal::NotPermitted);
                // It goes on with whoever may.
                let mut consumer = error.into_consumer();
                let _ = consumer.claim(CHIEF, Offset::ZERO, 0).unwrap();
            }
        }
    }
}

#[test]
fn there_is_no_worker_8() {
    let mut consumer = start("unknown", &configuration(5, 9, 100, 1000));
    let refused = Refusal::UnknownWorker;
    for number in [8, 9, 255, 256, 1 << 32, u64::MAX] {
        let nobody = WorkerId::new(number);
        assert_eq!(
            consumer.claim(nobody, Offset::new(u64::MAX), 0),
            Err(refused)
        );
        assert_eq!(consumer.commit(nobody, Offset::ZERO), Err(refused));
        let mut list = [Offset::new(7); 2];
        assert_eq!(consumer.waiting(nobody, 0, &mut list), Err(refused));
        assert_eq!(list, [Offset::new(7); 2]);
    }
    assert_eq!(refused.number(), 38);
    // The last of all, which was given nothing.
    let last = WorkerId::new(7);
    assert_eq!(
        consumer.claim(last, Offset::ZERO, 0),
        Err(Refusal::NotPermitted)
    );
}

#[test]
fn a_token_works_for_its_worker_alone() {
    let mut consumer = start("token", &with_rights(OTHER, Rights::all()));
    let recipe = Offset::new(3);
    let token = consumer.claim(OTHER, recipe, 0).unwrap().token();
    let foreign = Refusal::ForeignToken;
    assert_eq!(consumer.ack(CHIEF, token), Err(foreign));
    assert_eq!(consumer.term(CHIEF, token), Err(foreign));
    assert_eq!(consumer.nack(CHIEF, token, 1, None), Err(foreign));
    assert_eq!(consumer.progress(CHIEF, token, 1), Err(foreign));
    assert_eq!(foreign.number(), 40);
    // A nack gives a new generation, which nobody holds: the old token is out of date for its worker and for others.
    let again = consumer.nack(OTHER, token, 1, Some(4)).unwrap();
    assert_eq!(consumer.ack(OTHER, token), Err(Refusal::Fenced));
    assert_eq!(consumer.ack(CHIEF, token), Err(Refusal::Fenced));
    // The lease is still the worker's, and the next claim is another's.
    let requeued = LeaseToken {
        offset: recipe,
        generation: consumer
            .lease_of(CHIEF, recipe)
            .unwrap()
            .unwrap()
            .generation,
    };
    assert_eq!(consumer.ack(CHIEF, requeued), Err(foreign));
    let second = consumer.claim(CHIEF, recipe, again).unwrap().token();
    assert_eq!(consumer.ack(OTHER, second), Err(foreign));
    assert_eq!(consumer.ack(CHIEF, second), Ok(()));
}

/// A temporary worker committed a whole batch.
#[test]
fn a_temporary_worker_can_not_commit_the_batch() {
    let rights = Rights::CLAIM | Rights::SETTLE | Rights::NACK | Rights::EXTEND;
    let configuration = with_rights(OTHER, rights);
    let mut consumer = start("temporary", &configuration);
    let batch = Offset::new(100);
    assert_eq!(consumer.commit(OTHER, batch), Err(Refusal::NotPermitted));
    assert_eq!(consumer.is_settled(CHIEF, Offset::ZERO), Ok(false));
    // It does the work that it was given.
    let token = consumer.claim(OTHER, Offset::ZERO, 0).unwrap().token();
    consumer.ack(OTHER, token).unwrap();
    // The rights come with the configuration, at each restart anew.
    let journal = consumer.checkpoint(CHIEF).unwrap().into_journal();
    let mut consumer = Consumer::restart(&configuration, journal).unwrap();
    assert_eq!(consumer.commit(OTHER, batch), Err(Refusal::NotPermitted));
    let trusted = with_rights(OTHER, rights | Rights::COMMIT);
    let mut consumer = Consumer::restart(&trusted, consumer.into_journal()).unwrap();
    assert_eq!(consumer.commit(OTHER, batch), Ok(true));
    assert_eq!(consumer.is_settled(CHIEF, Offset::new(99)), Ok(true));
}

#[test]
fn a_worker_sees_the_standing_and_a_supervisor_who_holds_what() {
    let supervisor = WorkerId::new(6);
    let mut configuration = with_rights(OTHER, Rights::CLAIM | Rights::NACK | Rights::LOOK);
    configuration.settings.rights[6] = Rights::LOOK | Rights::SUPERVISOR;
    let mut consumer = start("views", &configuration);
    let offset = Offset::new(3);
    let token = consumer.claim(OTHER, offset, 0).unwrap().token();
    let whole = |standing, generation, deadline| View {
        standing,
        attempts: Some(1),
        generation: Some(generation),
        deadline: Some(deadline),
        holder: Some(OTHER),
    };
    // Held up to the deadline, and waiting from it on, with its lease still shown.
    for (now, standing) in [(99, Standing::Held), (100, Standing::Waiting)] {
        assert_eq!(consumer.view(OTHER, offset, now), Ok(View::bare(standing)));
        let shown = whole(standing, token.generation, 100);
        assert_eq!(consumer.view(supervisor, offset, now), Ok(shown));
    }
    // Nacked, it stays who claimed it, under the next generation.
    assert_eq!(consumer.nack(OTHER, token, 100, Some(50)), Ok(150));
    let next = consumer.lease_of(CHIEF, offset).unwrap().unwrap();
    let shown = whole(Standing::Held, next.generation, 150);
    assert_eq!(consumer.view(supervisor, offset, 149), Ok(shown));
    assert_ne!(next.generation, token.generation);
    // Never handed out, the last offset too.
    for offset in [4, u64::MAX].map(Offset::new) {
        let waiting = View::bare(Standing::Waiting);
        assert_eq!(consumer.view(OTHER, offset, 0), Ok(waiting));
        let counted = View {
            attempts: Some(0),
            ..waiting
        };
        assert_eq!(consumer.view(supervisor, offset, 0), Ok(counted));
    }
    // After a restart the count is carried, and the lease is gone.
    let journal = consumer.checkpoint(CHIEF).unwrap().into_journal();
    let mut consumer = Consumer::restart(&configuration, journal).unwrap();
    let carried = View {
        attempts: Some(1),
        ..View::bare(Standing::Waiting)
    };
    assert_eq!(consumer.view(supervisor, offset, 0), Ok(carried));
    // Settled: nothing but that, for either.
    consumer.commit(CHIEF, Offset::new(4)).unwrap();
    for reader in [OTHER, supervisor] {
        let settled = View::bare(Standing::Settled);
        assert_eq!(consumer.view(reader, offset, 0), Ok(settled));
    }
}
