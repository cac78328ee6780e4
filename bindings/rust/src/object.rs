//! A program of an object file, as `clang -g -O2 -mcpu=v3 -target bpf -c` makes it.

use crate::ffi;
use crate::map::Shape;
use crate::refused::Refused;
use std::alloc::{alloc_zeroed, handle_alloc_error, Layout};
use std::fmt;

/// The most bytes of a name that wasn't cut: one that was has 63 left.
const LONGEST_WHOLE_NAME: usize = 62;

/// A program of an object file, which the verifier accepts for the maps that the file has.
///
/// Before [`Program::replace`](crate::Program::replace) don't compare `maps` by `==`, which takes names that may have been cut for the same:
/// [`Object::has_same_maps`] doesn't.
#[derive(Clone, Debug, PartialEq, Eq)]
pub struct Object {
    /// The size of the contexts on which it runs.
    pub context_size: u32,
    /// The text, of functions that are copied into one and of loops that are unrolled.
    pub text: Vec<u8>,
    /// The maps, by the numbers that the text has for them.
    pub maps: Vec<ObjectMap>,
}

/// A map of an object file, one that it defines or that its global variables are in.
#[derive(Clone, Debug, PartialEq, Eq)]
pub struct ObjectMap {
    /// Its name, at most 63 bytes of it. One with other characters than a name of C and dots is escaped for a terminal, not for HTML, and if it
    /// has more than 40, the others are two dots.
    pub name: String,
    /// Its shape.
    pub shape: Shape,
    /// Value 0 at the start, or nothing if that is zeros.
    pub first: Vec<u8>,
}

/// Why an object file has no program for this host.
#[derive(Clone, Debug, PartialEq, Eq)]
#[non_exhaustive]
pub struct ObjectRefused {
    /// The refusal. The slot is that of the text before it was lowered.
    pub refused: Refused,
    /// What the program `bpf_object` says, with the line of C: at most 1023 bytes. Who uploads the file chooses names and lines in it; they are
    /// escaped for a terminal, not for HTML.
    pub why: String,
}

impl Object {
    /// Reads an object file of at most 16 MiB. The name is that of a function's section, or else of a function; if there is one function, it may be
    /// empty. A thread that reads files needs a stack of 128 KiB: the library takes at most 96 in tests.
    ///
    /// # Panics
    /// If the library has another version than this crate.
    ///
    /// # Errors
    /// `BadContext`, `BadObject` of a file that isn't accepted, a rule of the verifier, and `OutOfMemory`.
    ///
    /// ```
    /// let refused = bpf_host::Object::read(b"no ELF", "", 0).unwrap_err();
    /// assert!(refused.why.starts_with("this is no ELF file; compile C with"));
    /// ```
    pub fn read(file: &[u8], name: &str, context_size: u32) -> Result<Object, ObjectRefused> {
        ffi::check_version();
        let mut read = zeroed();
        let mut refused = ffi::Refused::default();
        // SAFETY: the file and the name are slices of their lengths; they and what is written outlive the call.
        let code = unsafe {
            ffi::bpf_host_read_object(
                file.as_ptr(),
                file.len(),
                name.as_ptr(),
                name.len(),
                context_size,
                &mut *read,
                &mut refused,
            )
        };
        match Refused::check(code, refused) {
            Ok(()) => Ok(Object::of(&read)),
            Err(refused) => Err(ObjectRefused {
                refused,
                why: text_of(&read.why),
            }),
        }
    }

    /// Whether two objects that were read have the same maps by number: names, of C and dots and of less than 63 bytes, so that none was cut or
    /// escaped, shapes and initial values. Then [`Program::replace`](crate::Program::replace) can put one in place of the other. Their context sizes
    /// may differ, and what the bytes of a value mean isn't compared: members of a struct that change places are seen by nobody.
    pub fn has_same_maps(&self, other: &Object) -> bool {
        self.maps == other.maps && self.maps.iter().all(ObjectMap::has_whole_name)
    }

    /// The number of the map that was read with a name, by which [`Tenant::map`](crate::Tenant::map) finds it once the object is loaded. It is
    /// [`ObjectMap::name`], which of a long name is a part.
    pub fn map_named(&self, name: &str) -> Option<u32> {
        let mut numbered = (0..).zip(&self.maps);
        numbered.find_map(|(number, map)| (map.name == name).then_some(number))
    }

    /// How many pages of 4096 bytes the maps take. Who uploads a file chooses its maps, so refuse one that takes more than its owner may have: a host
    /// that has two frames for each page that all its tenants may have, and two more, refuses no call for lack of them.
    pub fn pages(&self) -> u64 {
        self.maps.iter().map(|map| map.shape.pages()).sum()
    }

    fn of(read: &ffi::Object) -> Object {
        Object {
            context_size: read.context_size,
            text: read.text[..read.text_len as usize].to_vec(),
            maps: read.maps[..read.maps_len as usize]
                .iter()
                .map(ObjectMap::of)
                .collect(),
        }
    }
}

impl ObjectMap {
    /// Whether the name is surely the one in the file: neither cut nor escaped.
    fn has_whole_name(&self) -> bool {
        let is_plain = |byte: u8| byte.is_ascii_alphanumeric() || byte == b'_' || byte == b'.';
        // One with another character after its first 40 was cut to these and two dots.
        let may_be_cut = self.name.len() == 42 && self.name.ends_with("..");
        self.name.len() <= LONGEST_WHOLE_NAME && !may_be_cut && self.name.bytes().all(is_plain)
    }

    fn of(map: &ffi::ObjectMap) -> ObjectMap {
        ObjectMap {
            name: text_of(&map.name),
            shape: Shape {
                value_size: map.shape.value_size,
                entries: map.shape.entries,
            },
            first: map.first[..map.first_len as usize].to_vec(),
        }
    }
}

impl fmt::Display for ObjectRefused {
    fn fmt(&self, out: &mut fmt::Formatter<'_>) -> fmt::Result {
        write!(out, "{}", self.why)
    }
}

impl std::error::Error for ObjectRefused {}

/// An object of zeros for the library to write. `Box::new` may build its 67180 bytes on the stack first.
fn zeroed() -> Box<ffi::Object> {
    let layout = Layout::new::<ffi::Object>();
    // SAFETY: the layout isn't of size 0.
    let at = unsafe { alloc_zeroed(layout) }.cast::<ffi::Object>();
    if at.is_null() {
        handle_alloc_error(layout);
    }
    // SAFETY: the global allocator, which is also a `Box`'s, gave the block just now, for this layout, and nothing else points to it. All members are
    // numbers and arrays of numbers, so zeros are an object.
    unsafe { Box::from_raw(at) }
}

/// The text up to the first zero.
fn text_of(bytes: &[u8]) -> String {
    let end = bytes.iter().position(|byte| *byte == 0);
    String::from_utf8_lossy(&bytes[..end.unwrap_or(bytes.len())]).into_owned()
}
