//! Why a call was refused.

use crate::raw::DONE;
use std::fmt;

/// What a call returns, or why it was refused. A refused call has changed nothing.
pub type Result<T> = std::result::Result<T, Error>;

macro_rules! errors {
    ($($number:literal $name:ident $text:literal)*) => {
        /// Why a call was refused: the faults of `docs/faults.md`, by their names in `swimtab.h`. This
        /// crate never causes `NodeThere`, `TooSmall`, `BadForm` and `BadSize` to `NoSeed`.
        #[derive(Clone, Copy, Debug, PartialEq, Eq, Hash)]
        #[non_exhaustive]
        pub enum Error {
            $(#[doc = $text] $name,)*
            /// the system gave no random bytes for a nonce
            NoRandom,
            /// A status that this crate does not know.
            Unknown(u32),
        }

        impl Error {
            pub(crate) fn of(status: u32) -> Error {
                match status {
                    $($number => Error::$name,)*
                    unknown => Error::Unknown(unknown),
                }
            }

            /// The fault's number in `docs/faults.md`, or 0 for [`NoRandom`](Error::NoRandom), which is not
            /// the library's.
            ///
            /// ```
            /// assert_eq!(swimtab::Error::Gone.number(), 25);
            /// ```
            pub fn number(self) -> u32 {
                match self {
                    $(Error::$name => $number,)*
                    Error::NoRandom => 0,
                    Error::Unknown(status) => status,
                }
            }
        }

        impl fmt::Display for Error {
            fn fmt(&self, f: &mut fmt::Formatter<'_>) -> fmt::Result {
                match self {
                    $(Error::$name => f.write_str($text),)*
                    Error::NoRandom => f.write_str("the system gave no random bytes for a nonce"),
                    Error::Unknown(status) => write!(f, "status {status}"),
                }
            }
        }
    };
}

errors! {
    1 Ended "the bytes end too soon"
    2 NotUnsigned "expected a number that is not negative"
    3 OutOfRange "a number is above the maximum of its field"
    4 NotBool "expected a boolean"
    5 NotRaw "expected text or bytes"
    6 TooLong "text or bytes are longer than their field allows"
    7 NotMap "expected a map"
    8 MapCount "a map has more pairs than the message has fields"
    10 Memory "out of memory"
    11 NameEmpty "the name is empty"
    12 NameTooLong "the name has more than 1,024 bytes"
    13 BadAddress "the address does not have 4 or 16 bytes"
    14 MetaTooLong "the metadata has more than 512 bytes"
    15 BadVersions "the versions do not have 0 or 6 bytes"
    16 WrongType "the message is of another type"
    17 UnknownKey "a map has a key that the message does not have"
    18 DuplicateKey "a map has a key twice"
    19 BadState "a state is not 0, 1, 2 or 3"
    20 TooManyNodes "the stream announces more than 131,072 members"
    21 UserTooLong "the stream has more than 20,971,520 bytes of user state"
    22 Trailing "bytes follow the end"
    23 TooManyRecords "the table has more than 131,072 records, too many for a stream"
    24 Exhausted "there is no greater incarnation"
    25 Gone "the member was declared dead, or left"
    40 WrapperEnded "a wrapper or compressed bytes end too soon"
    41 WrapperTrailing "bytes follow a compression"
    42 BadCode "a compression has a code that is not in the dictionary"
    43 BadChecksum "the checksum is wrong"
    44 BadMap "the map of a compression is invalid"
    45 BadAlgo "the compression is not LZW"
    46 BadLabel "the label is empty"
    47 TooLarge "wrapped bytes exceed the limit"
    48 TooDeep "more than 4 wrappers are nested"
    50 BadKey "the key does not have 16, 24 or 32 bytes"
    51 CipherTooLong "the label, or what is encrypted, is too long"
    52 CipherTooShort "encrypted bytes end too soon"
    53 WrongVersion "the version of the encryption is not 0 or 1"
    54 WrongTag "no key decrypts it"
    55 BadPadding "decrypted bytes are not padded"
    56 NotEncrypted "the stream is not encrypted"
    57 CipherTrailing "bytes follow an encrypted stream"
    59 Unencrypted "it is not encrypted, and only what is encrypted is read"
    64 NoNode "the handle is empty"
    65 NodeThere "the handle has a node, a view or an agent already"
    66 TooSmall "the buffer is too small"
    67 NoMember "there is no such member"
    68 OwnName "a member does not declare itself dead; it leaves"
    69 TooManyPackets "there are more than 255 packets for one compound packet"
    70 BadForm "there is no such form of a stream, or it has no user state"
    71 NoItem "there is no key, part or accuser at this index, or no further record or output"
    72 KeyInUse "the first key encrypts, so it is not removed"
    73 NotBack "the member has not come back"
    74 BadSize "the size of a struct is not that of any version"
    75 BadMultiplier "a multiplier of the configuration is too large"
    76 ShortDatagrams "the configuration has datagrams of fewer than 576 bytes"
    77 NoSeed "the seed of the configuration was never drawn"
}

impl std::error::Error for Error {}

/// Ok if a call was done.
pub(crate) fn done(status: u32) -> Result<()> {
    if status == DONE {
        Ok(())
    } else {
        Err(Error::of(status))
    }
}

#[cfg(test)]
mod tests {
    use super::Error;
    use crate::raw;
    use std::ffi::CStr;

    /// What the library says of a status.
    fn told(status: u32) -> String {
        // SAFETY: the text is static, and ends with a zero.
        let text = unsafe { CStr::from_ptr(raw::swimtab_fault_text(status)) };
        text.to_str().unwrap().to_owned()
    }

    #[test]
    fn each_status_has_an_error_with_the_text_of_the_library() {
        for status in 1..256 {
            let (error, told) = (Error::of(status), told(status));
            assert_eq!(error.number(), status);
            if told == "There is no such status." {
                assert_eq!(error, Error::Unknown(status));
            } else {
                let text = error.to_string();
                let (first, rest) = text.split_at(1);
                assert_eq!(format!("{}{rest}.", first.to_uppercase()), told);
            }
        }
    }
}
