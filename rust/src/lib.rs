//! The delivery state of one message-queue consumer, for a server in Rust: which messages are settled, who holds which until
//! when, how often each was handed out, and how all of that survives a power failure.
//!
//! The work is done by a library in Rattle whose every function is proved to meet its contract; this crate gives it a safe
//! interface and a journal over a file. The names are those of IronBus.
//!
//! # Errors and panics
//!
//! Refusals are [`Refusal`], whose variants have the numbers of `docs/SPEC.md`. What a start, a restart or a checkpoint that was not
//! made gives back is in its error, and every error is one of [`std::error::Error`], so that `?` takes it. An error says its own level
//! alone; what caused it, the refusal or what the disk said, is its `source`.
//!
//! A start, a restart and the codecs of snapshots panic where the linked library is another one: see [`check_library`]. Nothing else
//! panics, unless the library answers what it is proved not to.
//!
//! # One state, used once
//!
//! The proof that no message is handed out too often, and that no token from before a restart is ever taken, has one premise
//! about the caller: each call gets what the one before left, and nobody else writes the journal. Here the types say so, of a
//! journal over a file. What they can't say is for the server to keep: that each restart is handed the configuration of the start,
//! that nobody writes, copies or removes the file by its name, and that a [new journal](NewJournal) is made once in a consumer's life.
//!
//! ```
//! use ironbus_delivery_state::{Configuration, Consumer, HandOut, NewJournal, Offset, Refusal, WorkerId};
//! # let path = std::env::temp_dir().join(format!("ironbus-doc-{}", std::process::id()));
//! # let _ = std::fs::remove_file(&path);
//!
//! // Every call says who makes it. Unless the settings say otherwise, worker 0 may do everything and the others nothing.
//! let worker = WorkerId::new(0);
//! let journal = NewJournal::create(&path, 128)?;
//! let consumer = Consumer::start(&Configuration::default(), journal)?;
//! let mut consumer = consumer.checkpoint(worker)?;
//! let HandOut::Deliver { token, .. } = consumer.claim(worker, Offset::new(0), 0)? else { unreachable!() };
//! consumer.ack(worker, token)?;
//! assert_eq!(consumer.ack(worker, token), Err(Refusal::Fenced));
//! # drop(consumer);
//! # std::fs::remove_file(&path)?;
//! # Ok::<(), Box<dyn std::error::Error>>(())
//! ```
//!
//! A consumer can't be copied:
//!
//! ```compile_fail,E0599
//! # use ironbus_delivery_state::Consumer;
//! fn twice(consumer: Consumer) -> (Consumer, Consumer) {
//!     (consumer.clone(), consumer)
//! }
//! ```
//!
//! It can't be called while a checkpoint is being written:
//!
//! ```compile_fail,E0382
//! # use ironbus_delivery_state::{Consumer, Offset, WorkerId};
//! fn claim_in_between(mut consumer: Consumer, worker: WorkerId) {
//!     let writing = consumer.begin(worker);
//!     let _ = consumer.claim(worker, Offset::new(0), 0);
//! }
//! ```
//!
//! A step can't be made twice:
//!
//! ```compile_fail,E0382
//! # use ironbus_delivery_state::Writing;
//! fn again(writing: Writing) {
//!     let _ = writing.step();
//!     let _ = writing.step();
//! }
//! ```
//!
//! After an error of the disk there is no state left to call, and a restart needs the journal read again:
//!
//! ```compile_fail,E0308
//! # use ironbus_delivery_state::{Configuration, Consumer, Failed};
//! fn go_on(failed: Failed) {
//!     let _ = Consumer::restart(&Configuration::default(), failed);
//! }
//! ```
//!
//! A journal that was used can't be started on:
//!
//! ```compile_fail,E0308
//! # use ironbus_delivery_state::{Configuration, Consumer, Journal};
//! fn from_nothing(journal: Journal) {
//!     let _ = Consumer::start(&Configuration::default(), journal);
//! }
//! ```
//!
//! A journal's file can't be had by itself, to write it:
//!
//! ```compile_fail,E0624
//! # use ironbus_delivery_state::JournalFile;
//! let file = JournalFile::open("recipes.journal");
//! ```
//!
//! ```compile_fail,E0616
//! # use ironbus_delivery_state::Journal;
//! fn file_of(journal: Journal) {
//!     let _ = journal.storage;
//! }
//! ```
//!
//! Two threads can't ask it at once; [`Consumer`] has how several share one:
//!
//! ```compile_fail,E0277
//! # use ironbus_delivery_state::Consumer;
//! fn from_two_threads(consumer: &Consumer) {
//!     std::thread::scope(|scope| {
//!         scope.spawn(|| consumer.checkpoint_due());
//!     });
//! }
//! ```
//!
//! What is left unused is warned of, a consumer, a checkpoint that is being written, a step, and what was handed out:
//!
//! ```compile_fail
//! #![deny(unused_must_use)]
//! # use ironbus_delivery_state::{Consumer, WorkerId};
//! fn forgotten(consumer: Consumer, worker: WorkerId) {
//!     consumer.checkpoint(worker).unwrap();
//! }
//! ```
//!
//! ```compile_fail
//! #![deny(unused_must_use)]
//! # use ironbus_delivery_state::{Consumer, WorkerId};
//! fn never_written(consumer: Consumer, worker: WorkerId) {
//!     consumer.begin(worker).unwrap();
//! }
//! ```
//!
//! ```compile_fail
//! #![deny(unused_must_use)]
//! # use ironbus_delivery_state::Writing;
//! fn one_step_alone(writing: Writing) {
//!     writing.step().unwrap();
//! }
//! ```
//!
//! ```compile_fail
//! #![deny(unused_must_use)]
//! # use ironbus_delivery_state::{Consumer, Offset, WorkerId};
//! fn given_to_nobody(consumer: &mut Consumer, worker: WorkerId) {
//!     consumer.claim(worker, Offset::new(0), 0).unwrap();
//! }
//! ```
//!
//! ```
//! #![deny(unused_must_use)]
//! # use ironbus_delivery_state::{Consumer, Offset, Writing, WorkerId};
//! fn given_up(mut consumer: Consumer, other: Consumer, writing: Writing, worker: WorkerId) {
//!     let _ = consumer.claim(worker, Offset::new(0), 0).unwrap();
//!     drop(consumer.checkpoint(worker).unwrap());
//!     drop(other.begin(worker).unwrap());
//!     drop(writing.step().unwrap());
//! }
//! ```
//!
//! And a consumer that was given up is gone:
//!
//! ```compile_fail,E0382
//! # use ironbus_delivery_state::{Consumer, Offset, WorkerId};
//! fn after_the_end(mut consumer: Consumer, worker: WorkerId) {
//!     let journal = consumer.into_journal();
//!     let _ = consumer.claim(worker, Offset::new(0), 0);
//! }
//! ```

#![deny(unsafe_code)]
#![deny(missing_docs)]

mod abi;
mod configuration;
mod consumer;
mod errors;
#[allow(unsafe_code)]
mod ffi;
mod hours;
mod journal;
mod refusal;
mod snapshot;
mod types;
mod workers;

pub use abi::{check_library, WrongLibrary, ABI, EXPORTS_ABI};
pub use configuration::{Configuration, DeliveryConfig, LeaseConfig, Settings};
pub use consumer::{Consumer, Step, Writing, MAX_STRETCHES, STACK};
pub use errors::{
    BeginError, CheckpointError, OlderJournal, RestartAtLeastError, RestartError, StartError,
};
pub use hours::{Hours, HoursError, TimeOfDay, Weekday};
pub use journal::{
    Failed, Journal, JournalError, JournalFile, NewJournal, Storage, BLOCK, MAX_BLOCKS, MIN_BLOCKS,
};
pub use refusal::Refusal;
pub use snapshot::{
    decode_attempt_snapshot, encode_attempt_snapshot, encode_attempt_snapshot_v2, MAX_PAIRS,
};
pub use types::{Due, Generation, HandOut, Lease, LeaseToken, Offset, Standing, Stretch, View};
pub use workers::{Rights, WorkerId, WORKERS};
