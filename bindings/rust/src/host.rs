//! A host, and what belongs to all its tenants.

use crate::ffi;
use crate::refused::Refused;
use crate::tenant::Tenant;
use std::cell::UnsafeCell;
use std::ptr;

/// The options of the scanner, by the names of Linux's KSM. The default is that of docs/MERGING.md.
#[derive(Clone, Copy, Debug, PartialEq, Eq)]
pub struct Options {
    /// 1 to 100000. [`Host::visit`] takes its own number.
    pub pages_to_scan: u32,
    /// Whether the scanner visits pages.
    pub run: bool,
    /// Whether pages of zeros share one frame.
    pub use_zero_pages: bool,
    /// How many pages may share a frame: 2 to 65535.
    pub max_page_sharing: u32,
}

impl Default for Options {
    fn default() -> Options {
        Options {
            pages_to_scan: 100,
            run: true,
            use_zero_pages: false,
            max_page_sharing: 256,
        }
    }
}

/// An option of the scanner, with its new value.
#[derive(Clone, Copy, Debug, PartialEq, Eq)]
pub enum Setting {
    /// [`Options::pages_to_scan`]
    PagesToScan(u32),
    /// [`Options::run`]
    Run(bool),
    /// [`Options::use_zero_pages`]
    UseZeroPages(bool),
    /// [`Options::max_page_sharing`]
    MaxPageSharing(u32),
}

impl Setting {
    /// The number of the option in C, and its value.
    fn numbers(self) -> (u32, u32) {
        match self {
            Setting::PagesToScan(pages) => (0, pages),
            Setting::Run(on) => (1, on.into()),
            Setting::UseZeroPages(on) => (2, on.into()),
            Setting::MaxPageSharing(pages) => (3, pages),
        }
    }
}

/// The counters of the kernel's KSM, over the maps of all tenants, and the free frames.
#[derive(Clone, Copy, Debug, PartialEq, Eq)]
#[non_exhaustive]
pub struct Counters {
    /// How often all pages were visited.
    pub full_scans: u64,
    /// How many frames are shared.
    pub pages_shared: u32,
    /// How many more pages share them.
    pub pages_sharing: u32,
    /// How many pages wait for an equal one.
    pub pages_unshared: u32,
    /// How many pages changed between their last two visits.
    pub pages_volatile: u32,
    /// How many pages of zeros share the zero frame.
    pub ksm_zero_pages: u32,
    /// How many contents lie on several frames, since too many pages have them for one.
    pub stable_node_chains: u32,
    /// How many frames these are.
    pub stable_node_dups: u32,
    /// How many frames no page uses.
    pub frames_free: u32,
}

impl From<ffi::Counters> for Counters {
    fn from(read: ffi::Counters) -> Counters {
        Counters {
            full_scans: read.full_scans,
            pages_shared: read.pages_shared,
            pages_sharing: read.pages_sharing,
            pages_unshared: read.pages_unshared,
            pages_volatile: read.pages_volatile,
            ksm_zero_pages: read.ksm_zero_pages,
            stable_node_chains: read.stable_node_chains,
            stable_node_dups: read.stable_node_dups,
            frames_free: read.frames_free,
        }
    }
}

/// A host: its tenants, their maps and programs, and the scanner that merges equal pages. It may move to another thread, and be used by one at a
/// time.
///
/// What the type doesn't ensure: no call, nor the drop of a `Host`, is made from a signal handler, or from the child of a process that had several
/// threads when it forked; `malloc` is the C library's, or aligns as it does.
#[derive(Debug)]
pub struct Host {
    // The calls take the handle one at a time: a `Host` isn't `Sync`, and no call goes back to Rust.
    handle: UnsafeCell<ffi::Handle>,
}

// SAFETY: the library proves of its handle that it may go to another thread (`handles_cross` of crates/host_handle). What hands a `Host` over orders
// the calls before and after, as the header asks, and a `Host` moves only while nothing borrows it.
unsafe impl Send for Host {}

impl Host {
    /// A host of 1 to 16 tenants without maps, whose maps have 2 to 4096 frames of 4096 bytes in all.
    ///
    /// # Panics
    /// If the library has another version than this crate.
    ///
    /// # Errors
    /// `BadShape` for other numbers, `BadOption`, and `OutOfMemory`.
    pub fn new(frames: u32, tenants: u32, options: Options) -> Result<Host, Refused> {
        ffi::check_version();
        let options = ffi::Options {
            pages_to_scan: options.pages_to_scan,
            run: options.run.into(),
            use_zero_pages: options.use_zero_pages.into(),
            max_page_sharing: options.max_page_sharing,
        };
        let mut handle = ffi::Handle {
            at: ptr::null_mut(),
            is_open: false,
        };
        // SAFETY: the options and the closed handle outlive the call.
        let code = unsafe { ffi::bpf_host_new(frames, tenants, &options, &mut handle) };
        Refused::check(code, ffi::Refused::default())?;
        Ok(Host {
            handle: UnsafeCell::new(handle),
        })
    }

    /// A tenant by its number, from 0 on. If there is none, [`Tenant::map`] is refused as `NoMap`, and each other call as `BadTenant`,
    /// but for those that ask for no step and no run.
    pub fn tenant(&self, number: u32) -> Tenant<'_> {
        Tenant { host: self, number }
    }

    /// Lets the scanner visit so many pages, one after the other. The counters are those afterwards.
    pub fn visit(&self, visits: u32) -> Counters {
        let mut after = ffi::Counters::default();
        // SAFETY: the handle is open, and no other call runs.
        let code = unsafe { ffi::bpf_host_visit(self.handle(), visits, &mut after) };
        debug_assert_eq!(code, 0, "an open handle isn't refused");
        after.into()
    }

    /// Sets an option of the scanner.
    ///
    /// # Errors
    /// `BadOption` if it can't have this value, and `PagesShared` if `max_page_sharing` is to be set while the counter
    /// `pages_shared` isn't 0.
    pub fn set(&self, setting: Setting) -> Result<(), Refused> {
        let (option, value) = setting.numbers();
        // SAFETY: as in `visit`.
        let code = unsafe { ffi::bpf_host_set(self.handle(), option, value) };
        Refused::check(code, ffi::Refused::default())
    }

    /// Gives each page that shares a frame one of its own, and stops the scanner.
    ///
    /// # Errors
    /// `NoFrames`.
    pub fn unmerge(&self) -> Result<(), Refused> {
        let mut refused = ffi::Refused::default();
        // SAFETY: as in `visit`.
        let code = unsafe { ffi::bpf_host_unmerge(self.handle(), &mut refused) };
        Refused::check(code, refused)
    }

    /// The counters.
    pub fn counters(&self) -> Counters {
        let mut read = ffi::Counters::default();
        // SAFETY: as in `visit`.
        let code = unsafe { ffi::bpf_host_counters(self.handle(), &mut read) };
        debug_assert_eq!(code, 0, "an open handle isn't refused");
        read.into()
    }

    /// The open handle. It is used by one call at a time.
    pub(crate) fn handle(&self) -> *mut ffi::Handle {
        self.handle.get()
    }
}

impl Drop for Host {
    fn drop(&mut self) {
        // SAFETY: the handle is open, and nothing uses it afterwards.
        unsafe { ffi::bpf_host_free(self.handle.get()) }
    }
}
