//! Both ends of the tote broadcast for firmware in Rust: a [`Sender`] and a [`Receiver`] above the static library, with a type for each of
//! its answers. It needs neither `std` nor `alloc`. What each call does is proved; `tob.h` says it in full, and [`calls`] has the calls by
//! numbers, as C does. The library that is linked is the one that `rt lib` makes in the folder crates/tob of this repository, for x86-64
//! Linux.
//!
//! In each slot the sender makes one frame of one message. The receiver takes the frames that arrive, and tells of each message, some slots
//! after its own, whether it is whole, lost, or contradicted. The message that the report of slot t tells of is t - D, where D is the
//! smaller of the delay and the window less 1.
//!
//! ```
//! use tob::{Receiver, Sender, Settings, Told};
//!
//! // Of any 9 slots in a row any 2 may be lost, or any within 4 in a row; a message is told 5 slots later.
//! const SETTINGS: Settings = Settings { window: 9, delay: 5, burst: 4, scattered: 2, lanes: 2 };
//!
//! let mut sender = Sender::open(SETTINGS, [0; tob::SENDER_MEMORY])?;
//! let mut receiver = Receiver::open(SETTINGS, [0; tob::RECEIVER_MEMORY])?;
//! let mut whole = 0;
//! for slot in 0..40 {
//!     let frame = sender.send(&[slot; 8])?;
//!     if (10..14).contains(&slot) {
//!         continue; // lost on the way
//!     }
//!     receiver.receive(frame, |slot, told| match told {
//!         Told::Whole(message) => {
//!             assert_eq!(message, [slot as u8 - 5; 8]);
//!             whole += 1;
//!         }
//!         Told::NoneYet => assert!(slot < 5),
//!         Told::Lost | Told::Clash => panic!("these losses are repaired"),
//!     })?;
//! }
//! assert_eq!(whole, 35);
//! # Ok::<(), tob::Cause>(())
//! ```
//!
//! A message can be known before it is told, and is then looked up. A receiver that is switched on late is opened at the slot of the first
//! frame that it hears:
//!
//! ```
//! use tob::{frame_slot, Known, Receiver, Sender, Settings, Told};
//!
//! let settings = Settings { window: 4, delay: 3, burst: 2, scattered: 2, lanes: 1 };
//! let mut sender = Sender::open(settings, [0; 32])?;
//! sender.send(b"ab")?;
//! let frame = sender.send(b"cd")?;
//!
//! let mut receiver = Receiver::open_at(settings, frame_slot(frame)?, [0; 32])?;
//! assert_eq!(receiver.heard(frame)?, Told::NoneYet);
//! assert_eq!(receiver.look_up(1)?, Known::Whole(b"cd"));
//! assert_eq!(receiver.look_up(0)?, Known::Lost);
//! # Ok::<(), tob::Cause>(())
//! ```

#![no_std]
#![deny(unsafe_code, unsafe_op_in_unsafe_fn)]
#![warn(missing_docs)]

#[allow(unsafe_code)]
pub mod calls;
mod cause;
mod frames;
mod kept;
mod receiver;
mod sender;
mod settings;
mod told;

pub use cause::Cause;
pub use frames::{frame_slot, pair_cause};
pub use kept::{Memory, State};
pub use receiver::{Received, Receiver, MOST_SKIPPED};
pub use sender::Sender;
pub use settings::{Settings, LAST_SLOT, LONGEST_FRAME, LONGEST_MESSAGE, RECEIVER_MEMORY, SENDER_MEMORY};
pub use told::{Known, Told};
