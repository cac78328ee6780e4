//! Why a call is refused.

use crate::ffi;
use std::fmt;

/// A refusal: its number of docs/HOST.md, and what belongs to it. A refused call changed nothing, unless it says otherwise.
#[derive(Clone, Copy, Debug, PartialEq, Eq)]
#[non_exhaustive]
pub struct Refused {
    /// One of [`code`].
    pub code: u32,
    /// If the code is that of a rule of the verifier, the slot of the instruction that breaks it.
    pub slot: Option<u32>,
    /// If the code is [`code::NO_FRAMES`], how many frames are needed, and how many are available.
    pub frames: Option<Frames>,
    /// How many runs [`Program::run_many`](crate::Program::run_many) made before it was refused. 0 for any other call.
    pub made: usize,
}

/// How many frames are needed, and how many are available.
#[derive(Clone, Copy, Debug, PartialEq, Eq)]
pub struct Frames {
    /// How many are needed.
    pub need: u32,
    /// How many are available.
    pub have: u32,
}

/// A refusal of a call that takes a map or a program, and that value. Where `?` wants an error without it, `map_err(Refused::from)` gives one.
#[derive(Clone, Copy, Debug, PartialEq, Eq)]
pub struct Returned<T> {
    /// What the call was made on, as it was.
    pub value: T,
    /// Why it was refused.
    pub refused: Refused,
}

/// Makes a constant of each number, and the function that names them.
macro_rules! codes {
    ($($number:literal $constant:ident $name:literal)*) => {
        /// Numbers of refusals: 1 to 25 are rules of the verifier (docs/VERIFIER.md), 31 to 45 refusals of the host (docs/HOST.md), the others
        /// those of the library.
        pub mod code {
            $(
                #[doc = concat!("`", $name, "`")]
                pub const $constant: u32 = $number;
            )*
        }

        /// The name of a number.
        fn name_of(code: u32) -> &'static str {
            match code {
                $($number => $name,)*
                _ => "an unknown refusal",
            }
        }
    };
}

codes! {
    1 BAD_LENGTH "BadLength"
    2 UNKNOWN_OPCODE "UnknownOpcode"
    3 BAD_FIELD "BadField"
    4 BAD_REGISTER "BadRegister"
    5 CUT_WIDE "CutWide"
    11 BACK_JUMP "BackJump"
    12 JUMP_OUT "JumpOut"
    13 FALLS_OFF "FallsOff"
    14 UNSET_REGISTER "UnsetRegister"
    15 WRONG_KIND "WrongKind"
    16 OUTSIDE_CONTEXT "OutsideContext"
    17 OUTSIDE_STACK "OutsideStack"
    18 UNSET_STACK "UnsetStack"
    19 OUTSIDE_MAP "OutsideMap"
    20 MISALIGNED "Misaligned"
    21 NULL_NOT_CHECKED "NullNotChecked"
    22 FRAME_WRITTEN "FrameWritten"
    23 UNKNOWN_HELPER "UnknownHelper"
    24 UNKNOWN_MAP "UnknownMap"
    25 POINTER_LEAKS "PointerLeaks"
    31 NO_FRAMES "NoFrames"
    32 TOO_MANY_MAPS "TooManyMaps"
    33 BAD_SHAPE "BadShape"
    34 NO_MAP "NoMap"
    35 NO_ELEMENT "NoElement"
    36 BUSY "Busy"
    37 NO_RUN "NoRun"
    38 NO_PROGRAM "NoProgram"
    39 BAD_CONTEXT "BadContext"
    40 BAD_OPTION "BadOption"
    41 OUT_OF_MEMORY "OutOfMemory"
    42 BAD_TENANT "BadTenant"
    43 IN_USE "InUse"
    44 PAGES_SHARED "PagesShared"
    45 TOO_MANY_PROGRAMS "TooManyPrograms"
    100 CLOSED "Closed"
    101 OPEN_ALREADY "OpenAlready"
    102 WRONG_LENGTH "WrongLength"
    103 BAD_OBJECT "BadObject"
    104 HAS_MAPS "HasMaps"
}

impl Refused {
    /// What a call answered: nothing if the code is 0.
    pub(crate) fn check(code: u32, more: ffi::Refused) -> Result<(), Refused> {
        if code == 0 {
            return Ok(());
        }
        let frames = Frames {
            need: more.need,
            have: more.have,
        };
        Err(Refused {
            code,
            slot: (1..=25).contains(&code).then_some(more.slot),
            frames: (code == code::NO_FRAMES).then_some(frames),
            made: 0,
        })
    }

    /// A refusal with nothing beside its number.
    pub(crate) fn of(code: u32) -> Refused {
        Refused {
            code,
            slot: None,
            frames: None,
            made: 0,
        }
    }

    /// The name of the refusal, as in docs/HOST.md.
    pub fn name(&self) -> &'static str {
        name_of(self.code)
    }
}

impl fmt::Display for Refused {
    fn fmt(&self, out: &mut fmt::Formatter<'_>) -> fmt::Result {
        write!(out, "refused {} {}", self.code, self.name())?;
        if let Some(slot) = self.slot {
            write!(out, " at {slot}")?;
        }
        if let Some(Frames { need, have }) = self.frames {
            write!(out, " need {need} have {have}")?;
        }
        Ok(())
    }
}

impl std::error::Error for Refused {}

impl<T> fmt::Display for Returned<T> {
    fn fmt(&self, out: &mut fmt::Formatter<'_>) -> fmt::Result {
        self.refused.fmt(out)
    }
}

impl<T: fmt::Debug> std::error::Error for Returned<T> {}

impl<T> From<Returned<T>> for Refused {
    fn from(returned: Returned<T>) -> Refused {
        returned.refused
    }
}
