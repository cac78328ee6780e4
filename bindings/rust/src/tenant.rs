//! A tenant of a host.

use crate::ffi;
use crate::host::Host;
use crate::map::{Map, Shape};
use crate::object::Object;
use crate::program::{Program, Run};
use crate::refused::{code, Refused};

/// The most maps of a tenant.
const MOST_MAPS: u32 = 8;

/// A tenant of a host, by its number.
#[derive(Clone, Copy, Debug)]
pub struct Tenant<'h> {
    pub(crate) host: &'h Host,
    pub(crate) number: u32,
}

impl<'h> Tenant<'h> {
    /// Makes a map of zeros: at most eight for a tenant. `mergeable` says whether the scanner may merge its pages
    /// with equal ones of other tenants, too: then who chooses contents can make visits slow, and the time of a store may show that another tenant
    /// has an equal page.
    ///
    /// # Errors
    /// `BadTenant`, `Busy` while a run is open, `TooManyMaps`, `BadShape`, and `NoFrames`.
    pub fn create_map(&self, shape: Shape, mergeable: bool) -> Result<Map<'h>, Refused> {
        let (mut number, mut refused) = (0, ffi::Refused::default());
        // SAFETY: the handle is open, no other call runs, and all that is written outlives the call.
        let code = unsafe {
            ffi::bpf_host_create_map(
                self.host.handle(),
                self.number,
                shape.value_size,
                shape.entries,
                mergeable,
                &mut number,
                &mut refused,
            )
        };
        Refused::check(code, refused)?;
        Ok(Map {
            tenant: *self,
            number,
        })
    }

    /// The tenant's map with a number, which was made before.
    ///
    /// # Errors
    /// `NoMap`, of a tenant that doesn't exist, too.
    pub fn map(&self, number: u32) -> Result<Map<'h>, Refused> {
        let map = Map {
            tenant: *self,
            number,
        };
        map.shape()?;
        Ok(map)
    }

    /// The tenant's program with a number, which was loaded before: so a host can be kept behind a lock, or handed to another thread, with the
    /// numbers of its programs beside it. If there is no such program, its calls are refused as `NoProgram`.
    pub fn program(&self, number: u32) -> Program<'h> {
        Program {
            tenant: *self,
            number,
        }
    }

    /// Loads a program for contexts of so many bytes: a multiple of 8, up to 256. It is verified for the tenant's maps.
    ///
    /// # Errors
    /// `BadTenant`, `Busy` while a run is open, `TooManyPrograms` after eight, `BadContext`, a rule of the verifier, and `OutOfMemory`.
    pub fn load(&self, text: &[u8], context_size: u32) -> Result<Program<'h>, Refused> {
        let (mut number, mut refused) = (0, ffi::Refused::default());
        // SAFETY: as in `create_map`; the text has its length.
        let code = unsafe {
            ffi::bpf_host_load(
                self.host.handle(),
                self.number,
                text.as_ptr(),
                text.len(),
                context_size,
                &mut number,
                &mut refused,
            )
        };
        Refused::check(code, refused)?;
        Ok(Program {
            tenant: *self,
            number,
        })
    }

    /// Makes the maps of an object file and loads its program, for a tenant that has no map, since the text names maps by number. `map` finds the
    /// maps afterwards; `load` loads further programs of the same file. What `mergeable` means is said at [`Tenant::create_map`].
    ///
    /// # Errors
    /// `HasMaps`, and what `create_map`, [`Map::update`] and `load` refuse. Then the maps are dropped, except one to which an older program of the
    /// tenant refers.
    pub fn load_object(&self, object: &Object, mergeable: bool) -> Result<Program<'h>, Refused> {
        if (0..MOST_MAPS).any(|number| self.map(number).is_ok()) {
            return Err(Refused::of(code::HAS_MAPS));
        }
        let mut made = Vec::new();
        let loaded = self.make_and_load(object, mergeable, &mut made);
        if loaded.is_err() {
            for map in made {
                // One stays to which a program refers that was loaded before; no run is open.
                let _ = map.remove();
            }
        }
        loaded
    }

    fn make_and_load(
        &self,
        object: &Object,
        mergeable: bool,
        made: &mut Vec<Map<'h>>,
    ) -> Result<Program<'h>, Refused> {
        for of_object in &object.maps {
            let map = self.create_map(of_object.shape, mergeable)?;
            made.push(map);
            if let (Some(map), false) = (made.last(), of_object.first.is_empty()) {
                map.update(0, &of_object.first)?;
            }
        }
        self.load(&object.text, object.context_size)
    }

    /// Makes at most so many steps of the run that [`Program::begin`] opened: what it returned, if it ended with them.
    ///
    /// # Errors
    /// `BadTenant`, and `NoRun` if none is open; nothing if `steps` is 0.
    pub fn step(&self, steps: u64) -> Result<Option<Run>, Refused> {
        let (mut ended, mut run) = (false, ffi::Run::default());
        // SAFETY: as in `create_map`.
        let code = unsafe {
            ffi::bpf_host_step(self.host.handle(), self.number, steps, &mut ended, &mut run)
        };
        Refused::check(code, ffi::Refused::default())?;
        Ok(ended.then_some(run.into()))
    }
}
