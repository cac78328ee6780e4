//! A map of a tenant.

use crate::ffi;
use crate::refused::{Refused, Returned};
use crate::tenant::Tenant;

/// A map of a tenant: an array of values, which programs reach by their helpers. A `Map` is the map's number: if it is dropped, the map stays in its
/// host, where [`Tenant::map`] finds it; `remove` removes it. After that a `Map` that `Tenant::map` gave before is refused as `NoMap`, or is a
/// newer map with that number.
#[derive(Debug)]
pub struct Map<'h> {
    pub(crate) tenant: Tenant<'h>,
    pub(crate) number: u32,
}

/// The shape of a map.
#[derive(Clone, Copy, Debug, PartialEq, Eq)]
pub struct Shape {
    /// The bytes of a value: 1 to 4096.
    pub value_size: u32,
    /// How many values there are: 1 to 65536, on at most 256 pages of 4096 bytes, where a value takes a multiple of 8 bytes.
    pub entries: u32,
}

impl Shape {
    /// The pages of 4096 bytes of such a map, where a value takes a multiple of eight bytes.
    pub(crate) fn pages(self) -> u64 {
        let stride = (u64::from(self.value_size) + 7) / 8 * 8;
        (stride * u64::from(self.entries) + 4095) / 4096
    }
}

impl<'h> Map<'h> {
    /// The number by which programs name the map: 0 to 7.
    pub fn number(&self) -> u32 {
        self.number
    }

    /// The map's shape.
    ///
    /// # Errors
    /// `NoMap` after it was removed.
    pub fn shape(&self) -> Result<Shape, Refused> {
        let mut shape = ffi::Shape::default();
        // SAFETY: as in `Tenant::create_map`.
        let code = unsafe {
            let host = self.tenant.host.handle();
            ffi::bpf_host_shape(host, self.tenant.number, self.number, &mut shape)
        };
        Refused::check(code, ffi::Refused::default())?;
        Ok(Shape {
            value_size: shape.value_size,
            entries: shape.entries,
        })
    }

    /// Copies a value to a buffer of exactly its size.
    ///
    /// # Errors
    /// `NoMap`, `NoElement` if there is no such key, and `WrongLength`.
    pub fn lookup(&self, key: u32, value: &mut [u8]) -> Result<(), Refused> {
        // SAFETY: as in `Tenant::create_map`; the value has its length.
        let code = unsafe {
            ffi::bpf_host_lookup(
                self.tenant.host.handle(),
                self.tenant.number,
                self.number,
                key,
                value.as_mut_ptr(),
                value.len(),
            )
        };
        Refused::check(code, ffi::Refused::default())
    }

    /// A copy of a value.
    ///
    /// # Errors
    /// `NoMap`, and `NoElement` if there is no such key.
    pub fn get(&self, key: u32) -> Result<Vec<u8>, Refused> {
        let mut value = vec![0; self.shape()?.value_size as usize];
        self.lookup(key, &mut value)?;
        Ok(value)
    }

    /// Writes a value of exactly its size.
    ///
    /// # Errors
    /// `Busy` while a run of the tenant is open, `NoMap`, `NoElement`, `BadShape` if the length is another one, and `NoFrames`.
    pub fn update(&self, key: u32, value: &[u8]) -> Result<(), Refused> {
        let mut refused = ffi::Refused::default();
        // SAFETY: as in `lookup`.
        let code = unsafe {
            ffi::bpf_host_update(
                self.tenant.host.handle(),
                self.tenant.number,
                self.number,
                key,
                value.as_ptr(),
                value.len(),
                &mut refused,
            )
        };
        Refused::check(code, refused)
    }

    /// Removes the map from its tenant.
    ///
    /// # Errors
    /// `Busy` while a run of the tenant is open, `NoMap`, and `InUse` if a loaded program refers to it: the map comes back.
    pub fn remove(self) -> Result<(), Returned<Map<'h>>> {
        // SAFETY: as in `Tenant::create_map`.
        let code = unsafe {
            ffi::bpf_host_drop_map(self.tenant.host.handle(), self.tenant.number, self.number)
        };
        Refused::check(code, ffi::Refused::default()).map_err(|refused| Returned {
            value: self,
            refused,
        })
    }
}
