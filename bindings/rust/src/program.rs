//! A loaded program, and its runs.

use crate::ffi;
use crate::object::Object;
use crate::refused::{code, Refused, Returned};
use crate::tenant::Tenant;

/// An accepted program of a tenant. A `Program` is the program's number: if it is dropped, the program stays loaded, and [`Tenant::program`] finds
/// it; `unload` removes it. After that a `Program` that `Tenant::program` gave before is refused as `NoProgram`, or is a newer program with that
/// number.
#[derive(Debug)]
#[must_use = "the program stays loaded; its number finds it"]
pub struct Program<'h> {
    pub(crate) tenant: Tenant<'h>,
    pub(crate) number: u32,
}

/// What a run returned.
#[derive(Clone, Copy, Debug, PartialEq, Eq)]
pub struct Run {
    /// R0 at its end: of a C function that returns `int` only the lower 32 bits are the number, `ret as i32`.
    pub ret: u64,
    /// How many instructions it executed.
    pub steps: u32,
}

impl From<ffi::Run> for Run {
    fn from(run: ffi::Run) -> Run {
        Run {
            ret: run.ret,
            steps: run.steps,
        }
    }
}

impl<'h> Program<'h> {
    /// The number of the program: 0 to 7.
    pub fn number(&self) -> u32 {
        self.number
    }

    /// Runs the program on a context of its size, to its end.
    ///
    /// # Errors
    /// `Busy` while a run of the tenant is open, `NoProgram` after it was unloaded, `BadContext`, `NoFrames`, and `OutOfMemory`. The run wasn't begun
    /// then.
    pub fn run(&self, context: &[u8]) -> Result<Run, Refused> {
        let (mut run, mut refused) = (ffi::Run::default(), ffi::Refused::default());
        // SAFETY: as in `Tenant::create_map`; the context has its length.
        let code = unsafe {
            ffi::bpf_host_run(
                self.tenant.host.handle(),
                self.tenant.number,
                self.number,
                context.as_ptr(),
                context.len(),
                &mut run,
                &mut refused,
            )
        };
        Refused::check(code, refused)?;
        Ok(run.into())
    }

    /// Runs the program once for each member of `rets`, on contexts of one size of which one stands after the other, and writes what each run
    /// returns, as [`Run::ret`].
    ///
    /// # Errors
    /// `WrongLength` if the contexts can't have one size, and what `run` refuses. It stops at the first refusal, whose member `made` is how many runs
    /// were made before; the other members of `rets` are unchanged. Where `rets` is empty, nothing else is refused.
    pub fn run_many(&self, contexts: &[u8], rets: &mut [u64]) -> Result<(), Refused> {
        let (mut made, mut refused) = (0, ffi::Refused::default());
        // SAFETY: as in `run`; the numbers have their length.
        let code = unsafe {
            ffi::bpf_host_run_many(
                self.tenant.host.handle(),
                self.tenant.number,
                self.number,
                contexts.as_ptr(),
                contexts.len(),
                rets.as_mut_ptr(),
                rets.len(),
                &mut made,
                &mut refused,
            )
        };
        Refused::check(code, refused).map_err(|refused| Refused { made, ..refused })
    }

    /// Opens a run on a context of the program's size, which goes on by [`Tenant::step`], and reserves the frames that it may need. A tenant has at
    /// most one open run.
    ///
    /// # Errors
    /// What `run` refuses.
    pub fn begin(&self, context: &[u8]) -> Result<(), Refused> {
        let mut refused = ffi::Refused::default();
        // SAFETY: as in `run`.
        let code = unsafe {
            ffi::bpf_host_begin(
                self.tenant.host.handle(),
                self.tenant.number,
                self.number,
                context.as_ptr(),
                context.len(),
                &mut refused,
            )
        };
        Refused::check(code, refused)
    }

    /// Puts a new version in place of the program, on the same maps, whose values stay: an object that [has the same maps](Object::has_same_maps) as
    /// the program's, which isn't checked. It is loaded beside the program, which is then unloaded, so the tenant has at most seven programs before.
    ///
    /// # Errors
    /// What [`Tenant::load`] refuses, and `NoProgram` after it was unloaded. Then the tenant's programs are as they were, and `self` comes back.
    pub fn replace(self, next: &Object) -> Result<Program<'h>, Returned<Program<'h>>> {
        let loaded = match self.tenant.load(&next.text, next.context_size) {
            Ok(loaded) => loaded,
            Err(refused) => return Err(self.returned(refused)),
        };
        // The new number was free before, so no program had it.
        let unloaded = if loaded.number == self.number {
            Err(self.returned(Refused::of(code::NO_PROGRAM)))
        } else {
            self.unload()
        };
        match unloaded {
            Ok(()) => Ok(loaded),
            Err(returned) => {
                // No run is open, so that this isn't refused.
                let _ = loaded.unload();
                Err(returned)
            }
        }
    }

    /// The program, with what refused it.
    fn returned(self, refused: Refused) -> Returned<Program<'h>> {
        Returned {
            value: self,
            refused,
        }
    }

    /// Removes the program from its tenant.
    ///
    /// # Errors
    /// `Busy` while a run of the tenant is open, and `NoProgram` after it was unloaded: `self` comes back.
    pub fn unload(self) -> Result<(), Returned<Program<'h>>> {
        // SAFETY: as in `Tenant::create_map`.
        let code = unsafe {
            ffi::bpf_host_unload(self.tenant.host.handle(), self.tenant.number, self.number)
        };
        Refused::check(code, ffi::Refused::default()).map_err(|refused| self.returned(refused))
    }
}
