//! Runs eBPF programs of several tenants over array maps whose equal pages share memory.
//!
//! What the calls promise is proved, and stands in docs/PROMISES.md of the repository: an accepted program never faults, returns what
//! RFC 9669 says, and keeps to its tenant's maps; no tenant sees what another one does. This crate is tested, not proved.
//!
//! A [`Map`] and a [`Program`] belong to their [`Host`]: they can't outlive it, and can't be handed to another one.
//!
//! ```
//! use bpf_host::{Host, Options};
//!
//! let host = Host::new(2, 1, Options::default())?;
//! let answer = [0xb7, 0, 0, 0, 42, 0, 0, 0, 0x95, 0, 0, 0, 0, 0, 0, 0]; // r0 = 42, exit
//! let program = host.tenant(0).load(&answer, 0)?;
//! let run = program.run(&[])?;
//! assert_eq!((run.ret, run.steps), (42, 2));
//! # Ok::<(), bpf_host::Refused>(())
//! ```
//!
//! A filter of an object file, and a new version in its place, for which the maps keep their values:
//!
//! ```no_run
//! use bpf_host::{Host, Object, Options};
//!
//! let first = Object::read(&std::fs::read("caps.o")?, "admit", 8)?;
//! let host = Host::new(32, 1, Options::default())?;
//! let mut program = host.tenant(0).load_object(&first, false)?;
//! let next = Object::read(&std::fs::read("caps_2.o")?, "admit", 8)?;
//! if next.has_same_maps(&first) {
//!     program = match program.replace(&next) {
//!         Ok(replaced) => replaced,
//!         Err(returned) => {
//!             eprintln!("{}", returned.refused);
//!             returned.value
//!         }
//!     };
//! }
//! let status = program.run(&[7, 0, 0, 0, 0, 0, 0, 0])?.ret;
//! let windows = first.map_named("windows").ok_or("the file has no map `windows`")?;
//! let window = host.tenant(0).map(windows)?.get(7)?;
//! # Ok::<(), Box<dyn std::error::Error>>(())
//! ```
//!
//! A map is not used after its host is gone:
//!
//! ```compile_fail,E0597
//! use bpf_host::{Host, Options, Shape};
//!
//! let map = {
//!     let host = Host::new(2, 1, Options::default()).unwrap();
//!     host.tenant(0).create_map(Shape { value_size: 8, entries: 1 }, true).unwrap()
//! };
//! map.update(0, &[0; 8]).unwrap();
//! ```
//!
//! nor after it was removed:
//!
//! ```compile_fail,E0382
//! use bpf_host::{Host, Options, Shape};
//!
//! let host = Host::new(2, 1, Options::default()).unwrap();
//! let map = host.tenant(0).create_map(Shape { value_size: 8, entries: 1 }, true).unwrap();
//! map.remove().unwrap();
//! map.update(0, &[0; 8]).unwrap();
//! ```
//!
//! A host may move to another thread, or stand behind a lock, where numbers find its maps and programs:
//!
//! ```
//! use bpf_host::{Host, Options};
//! use std::sync::Mutex;
//!
//! let host = Host::new(2, 1, Options::default())?;
//! let answer = [0xb7, 0, 0, 0, 42, 0, 0, 0, 0x95, 0, 0, 0, 0, 0, 0, 0];
//! let number = host.tenant(0).load(&answer, 0)?.number();
//! let host = Mutex::new(host);
//! std::thread::scope(|threads| {
//!     for _thread in 0..2 {
//!         threads.spawn(|| assert_eq!(host.lock().unwrap().tenant(0).program(number).run(&[]).unwrap().ret, 42));
//!     }
//! });
//! # Ok::<(), bpf_host::Refused>(())
//! ```
//!
//! but is not used by two threads at a time:
//!
//! ```compile_fail,E0277
//! use bpf_host::{Host, Options};
//!
//! let host = Host::new(2, 1, Options::default()).unwrap();
//! std::thread::scope(|threads| {
//!     threads.spawn(|| host.counters());
//!     host.counters()
//! });
//! ```

#![warn(missing_docs)]

mod ffi;
mod host;
mod map;
mod object;
mod program;
mod refused;
mod tenant;
mod text;

pub use host::{Counters, Host, Options, Setting};
pub use map::{Map, Shape};
pub use object::{Object, ObjectMap, ObjectRefused};
pub use program::{Program, Run};
pub use refused::{code, Frames, Refused, Returned};
pub use tenant::Tenant;
pub use text::{explain, lower, verify};
