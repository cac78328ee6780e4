//! What the verifier and the lowering say of a text, without a host.

use crate::ffi;
use crate::map::Shape;
use crate::refused::{code, Refused};

/// The most bytes of a program's text: 4096 slots.
const MOST_BYTES: usize = 32768;

/// Verifies a text as [`Tenant::load`](crate::Tenant::load) does, for maps of these shapes, by number, and contexts of `context_size` bytes. A
/// number without a shape is that of no map; so is a shape of two zeros.
///
/// # Panics
/// If the library has another version than this crate.
///
/// # Errors
/// `TooManyMaps` of more than eight shapes, `BadShape`, `BadContext`, a rule of the verifier, and `OutOfMemory`.
///
/// ```
/// let endless = [0x05, 0, 0xff, 0xff, 0, 0, 0, 0]; // goto -1
/// let refused = bpf_host::verify(&endless, &[], 0).unwrap_err();
/// assert_eq!((refused.name(), refused.slot), ("BackJump", Some(0)));
/// ```
pub fn verify(text: &[u8], shapes: &[Option<Shape>], context_size: u32) -> Result<(), Refused> {
    ffi::check_version();
    let shapes = given(shapes);
    let mut refused = ffi::Refused::default();
    // SAFETY: the text and the shapes are slices of their lengths, and outlive the call.
    let code = unsafe {
        ffi::bpf_host_verify(
            text.as_ptr(),
            text.len(),
            shapes.as_ptr(),
            shapes.len(),
            context_size,
            &mut refused,
        )
    };
    Refused::check(code, refused)
}

/// A text with the same runs that [`verify`] accepts, with blocks in another order and loops in several copies (docs/LOWER.md).
///
/// It needs as much stack as [`Object::read`](crate::Object::read).
///
/// # Panics
/// As [`verify`].
///
/// # Errors
/// What `verify` refuses, if no such text is found.
///
/// ```
/// // r0 = 0; r0 += 1; if r0 < 3 goto -2; exit
/// let loops = [
///     0xb7, 0, 0, 0, 0, 0, 0, 0, 0x07, 0, 0, 0, 1, 0, 0, 0, //
///     0xa5, 0, 0xfe, 0xff, 3, 0, 0, 0, 0x95, 0, 0, 0, 0, 0, 0, 0,
/// ];
/// let lowered = bpf_host::lower(&loops, &[], 0)?;
/// assert!(bpf_host::verify(&loops, &[], 0).is_err());
/// assert!(bpf_host::verify(&lowered, &[], 0).is_ok());
/// # Ok::<(), bpf_host::Refused>(())
/// ```
pub fn lower(text: &[u8], shapes: &[Option<Shape>], context_size: u32) -> Result<Vec<u8>, Refused> {
    ffi::check_version();
    let shapes = given(shapes);
    let mut refused = ffi::Refused::default();
    let mut lowered = vec![0; MOST_BYTES];
    let mut written = 0;
    // SAFETY: as in `verify`; the buffer has room for its length, and overlaps nothing.
    let code = unsafe {
        ffi::bpf_host_lower(
            text.as_ptr(),
            text.len(),
            shapes.as_ptr(),
            shapes.len(),
            context_size,
            lowered.as_mut_ptr(),
            lowered.len(),
            &mut written,
            &mut refused,
        )
    };
    Refused::check(code, refused)?;
    lowered.truncate(written);
    Ok(lowered)
}

/// What the program `explain` prints of a text: the line of its verdict, and its instructions with what the verifier knows at each. If memory runs
/// out, it may say so in place of them.
///
/// It needs as much stack as [`Object::read`](crate::Object::read).
///
/// # Panics
/// As [`verify`].
///
/// # Errors
/// `OutOfMemory`.
///
/// ```
/// let answer = [0xb7, 0, 0, 0, 42, 0, 0, 0, 0x95, 0, 0, 0, 0, 0, 0, 0]; // r0 = 42, exit
/// let explained = bpf_host::explain(&answer, &[], 0)?;
/// assert!(explained.starts_with("accepted slots 2 instructions 2 reserve 0\n"));
/// # Ok::<(), bpf_host::Refused>(())
/// ```
pub fn explain(
    text: &[u8],
    shapes: &[Option<Shape>],
    context_size: u32,
) -> Result<String, Refused> {
    ffi::check_version();
    let shapes = given(shapes);
    let mut explained = vec![0; MOST_BYTES];
    loop {
        let mut written = 0;
        // SAFETY: as in `lower`.
        let code = unsafe {
            ffi::bpf_host_explain(
                text.as_ptr(),
                text.len(),
                shapes.as_ptr(),
                shapes.len(),
                context_size,
                explained.as_mut_ptr(),
                explained.len(),
                &mut written,
            )
        };
        if code == code::WRONG_LENGTH {
            explained.resize(written, 0);
            continue;
        }
        Refused::check(code, ffi::Refused::default())?;
        explained.truncate(written);
        return Ok(String::from_utf8_lossy(&explained).into_owned());
    }
}

/// The shapes as C gives them.
fn given(shapes: &[Option<Shape>]) -> Vec<ffi::Shape> {
    let number = |shape: &Option<Shape>| match shape {
        Some(shape) => ffi::Shape {
            value_size: shape.value_size,
            entries: shape.entries,
        },
        None => ffi::Shape::default(),
    };
    shapes.iter().map(number).collect()
}
