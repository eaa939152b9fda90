package swimtab

// #include <swimtab.h>
import "C"

import (
	"fmt"
	"strings"
)

// Error says why a call was refused, by a number of docs/faults.md. A refused call has changed nothing. Compare
// errors with errors.Is(err, swimtab.ErrEnded).
type Error uint32

// The errors that a call can return.
const (
	ErrEnded           Error = C.SWIMTAB_ENDED            // the bytes end too soon: of a stream, more may help
	ErrNotUnsigned     Error = C.SWIMTAB_NOT_UNSIGNED     // expected a number that is not negative
	ErrOutOfRange      Error = C.SWIMTAB_OUT_OF_RANGE     // a number is above the maximum of its field
	ErrNotBool         Error = C.SWIMTAB_NOT_BOOL         // expected a boolean
	ErrNotRaw          Error = C.SWIMTAB_NOT_RAW          // expected text or bytes
	ErrTooLong         Error = C.SWIMTAB_TOO_LONG         // text or bytes are longer than their field allows
	ErrNotMap          Error = C.SWIMTAB_NOT_MAP          // expected a map
	ErrMapCount        Error = C.SWIMTAB_MAP_COUNT        // a map has more pairs than the message has fields
	ErrMemory          Error = C.SWIMTAB_MEMORY           // out of memory
	ErrNameEmpty       Error = C.SWIMTAB_NAME_EMPTY       // a name is empty
	ErrNameTooLong     Error = C.SWIMTAB_NAME_TOO_LONG    // a name has more than 1,024 bytes
	ErrBadAddress      Error = C.SWIMTAB_BAD_ADDRESS      // an address does not have 4 or 16 bytes
	ErrMetaTooLong     Error = C.SWIMTAB_META_TOO_LONG    // metadata has more than 512 bytes
	ErrBadVersions     Error = C.SWIMTAB_BAD_VERSIONS     // versions do not have 0 or 6 bytes
	ErrWrongType       Error = C.SWIMTAB_WRONG_TYPE       // a message of another type
	ErrUnknownKey      Error = C.SWIMTAB_UNKNOWN_KEY      // a map has a key that the message does not have
	ErrDuplicateKey    Error = C.SWIMTAB_DUPLICATE_KEY    // a map has a key twice
	ErrBadState        Error = C.SWIMTAB_BAD_STATE        // a state is not 0, 1, 2 or 3
	ErrTooManyNodes    Error = C.SWIMTAB_TOO_MANY_NODES   // a stream announces more than 131,072 members
	ErrUserTooLong     Error = C.SWIMTAB_USER_TOO_LONG    // a stream has more than 20,971,520 bytes of user state
	ErrTrailing        Error = C.SWIMTAB_TRAILING         // bytes follow the end
	ErrTooManyRecords  Error = C.SWIMTAB_TOO_MANY_RECORDS // a table has more than 131,072 records, too many for a stream
	ErrExhausted       Error = C.SWIMTAB_EXHAUSTED        // there is no greater incarnation
	ErrGone            Error = C.SWIMTAB_GONE             // the member was declared dead, or left
	ErrWrapperEnded    Error = C.SWIMTAB_WRAPPER_ENDED    // a wrapper or compressed bytes end too soon
	ErrWrapperTrailing Error = C.SWIMTAB_WRAPPER_TRAILING // bytes follow a compression or its last code
	ErrBadCode         Error = C.SWIMTAB_BAD_CODE         // a compression has a code that is not in the dictionary
	ErrBadChecksum     Error = C.SWIMTAB_BAD_CHECKSUM     // a checksum is wrong
	ErrBadMap          Error = C.SWIMTAB_BAD_MAP          // the map of a compression is invalid
	ErrBadAlgo         Error = C.SWIMTAB_BAD_ALGO         // a compression is not LZW
	ErrBadLabel        Error = C.SWIMTAB_BAD_LABEL        // a label is empty
	ErrTooLarge        Error = C.SWIMTAB_TOO_LARGE        // wrapped bytes, or what they unwrap to, exceed the limit
	ErrTooDeep         Error = C.SWIMTAB_TOO_DEEP         // more than 4 wrappers are nested
	ErrBadKey          Error = C.SWIMTAB_BAD_KEY          // a key does not have 16, 24 or 32 bytes
	ErrCipherTooLong   Error = C.SWIMTAB_CIPHER_TOO_LONG  // a label, or what is encrypted, is too long
	ErrCipherTooShort  Error = C.SWIMTAB_CIPHER_TOO_SHORT // encrypted bytes end too soon
	ErrWrongVersion    Error = C.SWIMTAB_WRONG_VERSION    // the version of an encryption is not 0 or 1
	ErrWrongTag        Error = C.SWIMTAB_WRONG_TAG        // no key decrypts it: the tag does not match
	ErrBadPadding      Error = C.SWIMTAB_BAD_PADDING      // decrypted bytes are not padded
	ErrNotEncrypted    Error = C.SWIMTAB_NOT_ENCRYPTED    // a stream is not encrypted: its first byte is not 10
	ErrCipherTrailing  Error = C.SWIMTAB_CIPHER_TRAILING  // bytes follow an encrypted stream
	ErrUnencrypted     Error = C.SWIMTAB_UNENCRYPTED      // it is in the clear, there are keys, and that is not accepted
	ErrNoNode          Error = C.SWIMTAB_NO_NODE          // the node or the view was closed
	ErrNoMember        Error = C.SWIMTAB_NO_MEMBER        // there is no member at this index, or of this name
	ErrOwnName         Error = C.SWIMTAB_OWN_NAME         // a member does not declare itself dead; it leaves
	ErrTooManyPackets  Error = C.SWIMTAB_TOO_MANY_PACKETS // there are more than 255 packets for one compound packet
	ErrBadForm         Error = C.SWIMTAB_BAD_FORM         // there is no such form of a stream, or it has no user state
	ErrNoItem          Error = C.SWIMTAB_NO_ITEM          // there is no such key, part or accuser, or no further record
	ErrKeyInUse        Error = C.SWIMTAB_KEY_IN_USE       // the first key encrypts, so it is not removed
	ErrNotBack         Error = C.SWIMTAB_NOT_BACK         // the member has not come back
	ErrBadSize         Error = C.SWIMTAB_BAD_SIZE         // the linked library is older than the header
)

// Name returns the name of the fault in docs/faults.md: "Ended".
func (e Error) Name() string {
	return C.GoString(C.swimtab_fault_name(C.uint32_t(e)))
}

// Error returns the number, the name and what is wrong: "swimtab: fault 1 Ended: the bytes end too soon".
func (e Error) Error() string {
	text := strings.TrimSuffix(C.GoString(C.swimtab_fault_text(C.uint32_t(e))), ".")
	return fmt.Sprintf("swimtab: fault %d %s: %s%s", uint32(e), e.Name(), strings.ToLower(text[:1]), text[1:])
}

// done returns nil if a call was done, so that Error 0 is never returned.
func done(status C.swimtab_status) error {
	if status == C.SWIMTAB_DONE {
		return nil
	}
	return Error(status)
}
