package swimtab

import (
	"bytes"
	"strings"
	"testing"
)

// What a real cluster sent, and what it says. The bytes are those of tests/c/sealing.c, which says where they come
// from.
const (
	newKey      = "3b91421dae7f570e037c45dd729985efad5f7659103d10134452b9016801a83f"
	suspectSent = "018dccbf33b5e26f3f81a65fd70ea9d69b1348813ba29bc4e9ab063156cc18dc3c55115dc87a942e07e25d6bcce8164a55ee" +
		"3c20b4a793b16652643b16b49e34513039e20b"
	suspectClear       = "0383a446726f6da464622d32ab496e6361726e6174696f6e01a44e6f6465a464622d33"
	key16              = "10171e252c333a41484f565d646b7279"
	labelled           = "6c6162656c6c6564"
	labelledSent       = "f40465617374010518b6eda9ae85b3032d0a4fce82ef025099abc4d5e68f21a9fc9eb54669615b149ff295"
	labelledStreamSent = "f404656173740a0000002501c7baf9e8c9a5ae07b800f654274ded0e46948099ad5b4eebcc79afa0f9e1eb3928a309dd"
	key32              = "000102030405060708090a0b0c0d0e0f101112131415161718191a1b1c1d1e1f"
	clearAlive         = "0486a441646472a47f000001ab496e6361726e6174696f6e00a44d657461a0a44e6f6465a161a4506f7274cd1f0aa356736e" +
		"a0"
	packedAlive = "0caa798b020982a4416c676f00a3427566da003c0009182215840c1939a4fe0000106055123763c2c87113864e9a376e0090" +
		"6a52864e1850a49cbc21532654185250dec8a1d3ec83825156e6b8011510"
	sealedAlive = "f4026463016e6f6e63652d6e756d6265723920ab3d76e6704b1981b2c4e261f17ba5fc3f130ff8cd1d66bc9156e844b4b8bc" +
		"30546c509b67376ac0f3e39120cd2272652423e554e1f10971feecd5feda8d3d8cea"
	clearStream = "0683a44a6f696ec2a54e6f64657301ac5573657253746174654c656e0087a441646472a47f000001ab496e6361726e617469" +
		"6f6e00a44d657461a0a44e616d65a161a4506f7274cd1f0aa5537461746500a356736ea0"
	sealedStream = "f40264630a0000008d006e6f6e63652d6e756d6265723424ab3d7ee56defc5c3c7a39328c118c98273d79fdcb844a452e54a" +
		"df83d880f2f39ac5d8d9a46d9882f3e4be038d72c12ad6e19daac821b704768d546f7528744183bc06243ddbc40f0850f3d2" +
		"2ed0ccbc18544e0bf4f3d866e25a87d491ec3e0f6ad1a8bdb2950829fc54ff7279587b06cbcd7b5e5c17e150c6feb935b8d1"
	sealedReply = "0a00000073017265706c792d6e756d626572cac33fce2641d8d4bca9832bea86239a813d97cde094ecba0ca5c532f8690843" +
		"0e42d76f5bae8aaf91d5153387d57ae1ffbd621086e929bf00f3f783854ca8be93a7e61f1a4dd76542711255994f2af38d89" +
		"d1c698a2ae58d0d2a6d36eb14726b7c5d5c927fc"
)

func keyring(t *testing.T, keys ...string) *Keyring {
	t.Helper()
	made := new(Keyring)
	for _, key := range keys {
		if err := made.Add(unhex(key)); err != nil {
			t.Fatal(err)
		}
	}
	t.Cleanup(func() { made.Close() })
	return made
}

func TestKeysHave16Or24Or32Bytes(t *testing.T) {
	for _, length := range []int{0, 15, 17, 31, 33} {
		_, err := NewKeyring(make([]byte, 16), make([]byte, length))
		refused(t, err, ErrBadKey)
	}
	made := must[*Keyring](t)(NewKeyring(make([]byte, 16), make([]byte, 24), make([]byte, 32)))
	made.Close()
	made.Close()
	var none *Keyring
	same(t)(none.Seal("", []byte("m")))("m")
}

func TestPacketsAreUnwrapped(t *testing.T) {
	all := keyring(t, key16, newKey, key32)
	same(t)(all.Unwrap(unhex(suspectSent)))(string(unhex(suspectClear)))
	same(t)(all.Unwrap(unhex(sealedAlive)))(string(unhex(clearAlive)))
	var none *Keyring
	same(t)(none.Unwrap(unhex(packedAlive)))(string(unhex(clearAlive)))
	// an encrypted packet looks like a ping, and is none
	same(t)(none.Unwrap(unhex(suspectSent)))(string(unhex(suspectSent)))
	if _, err := ReadProbe(unhex(suspectSent)); err == nil {
		t.Error("it was read as a ping")
	}
	_, err := none.Unwrap([]byte{200})
	refused(t, err, ErrWrongType)
	_, err = none.Unwrap(nil)
	refused(t, err, ErrEnded)
	_, err = keyring(t, key16).Unwrap(unhex(suspectSent))
	refused(t, err, ErrWrongTag)
	_, err = none.Unwrap([]byte{12, 0, 0, 0, 1})
	refused(t, err, ErrBadChecksum)
}

func TestStreamsAreUnwrapped(t *testing.T) {
	all, clear := keyring(t, key16, key32), string(unhex(clearStream))
	same(t)(all.UnwrapStream("", unhex(sealedStream)))(clear)
	same(t)(all.UnwrapStream("dc", unhex(sealedReply)))(clear)
	same(t)(new(Keyring).UnwrapStream("dc", unhex(clearStream)))(clear)
	_, err := keyring(t, key32).UnwrapStream("", unhex(sealedReply))
	refused(t, err, ErrWrongTag)
	_, err = all.UnwrapStream(strings.Repeat("x", 256), unhex(sealedReply))
	refused(t, err, ErrCipherTooLong)
	_, err = new(Keyring).UnwrapStream("", nil)
	refused(t, err, ErrEnded)
	_, err = new(Keyring).UnwrapStream("", unhex(sealedStream))
	refused(t, err, ErrWrongType)
}

func TestWhatIsInTheClearIsReadIfThatIsAccepted(t *testing.T) {
	keys, packet, stream := keyring(t, key16), string(unhex(clearAlive)), string(unhex(clearStream))
	_, err := keys.Unwrap([]byte(packet))
	refused(t, err, ErrUnencrypted)
	_, err = keys.UnwrapStream("", []byte(stream))
	refused(t, err, ErrUnencrypted)
	if err := keys.AcceptClear(); err != nil {
		t.Fatal(err)
	}
	same(t)(keys.Unwrap([]byte(packet)))(packet)
	same(t)(keys.UnwrapStream("", []byte(stream)))(stream)
	refused(t, new(Keyring).AcceptClear(), ErrNoNode)
}

func TestStreamsAreUnwrappedWhenAllHasCome(t *testing.T) {
	all := keyring(t, key16, key32)
	for _, sent := range []string{sealedStream, sealedReply} {
		bytes := unhex(sent)
		for end := 1; end < len(bytes); end++ {
			if string(bytes[:end]) == "\xf4\x02dc" {
				continue // nothing behind the label tells whether it is encrypted
			}
			if _, err := all.UnwrapStream("dc", bytes[:end]); err != ErrEnded {
				t.Fatal(end, err)
			}
		}
	}
}

// listed checks the keys of a keyring.
func listed(t *testing.T, k *Keyring, wanted ...string) {
	t.Helper()
	keys := k.Keys()
	if len(keys) != len(wanted) {
		t.Fatalf("%d keys, wanted %d", len(keys), len(wanted))
	}
	for i, key := range keys {
		if !bytes.Equal(key, unhex(wanted[i])) {
			t.Errorf("key %d is %x, wanted %s", i, key, wanted[i])
		}
	}
}

func TestKeysAreListedChosenAndRemoved(t *testing.T) {
	key24 := key16 + "0001020304050607"
	keys := keyring(t, key16, key24, key32)
	listed(t, keys, key16, key24, key32)
	keys.Keys()[0][0]++ // a copy
	if err := keys.Use(unhex(key32)); err != nil {
		t.Error(err)
	}
	listed(t, keys, key32, key24, key16)
	refused(t, keys.Use(unhex(newKey)), ErrNoItem)
	refused(t, keys.Use(unhex(key24)[1:17]), ErrNoItem)
	refused(t, keys.Remove(unhex(newKey)), ErrNoItem)
	refused(t, keys.Remove(nil), ErrNoItem)
	refused(t, keys.Remove(unhex(key32)), ErrKeyInUse)
	if err := keys.Remove(unhex(key24)); err != nil {
		t.Error(err)
	}
	listed(t, keys, key32, key16)
	for _, key := range []string{key24, key16, key24, key24} {
		keys.Add(unhex(key))
	}
	if err := keys.Remove(unhex(key24)); err != nil {
		t.Error(err)
	}
	listed(t, keys, key32, key16, key16)
	keys.Add(unhex(key32))
	refused(t, keys.Remove(unhex(key32)), ErrKeyInUse)
	listed(t, keys, key32, key16, key16, key32)
	keys.Close()
	listed(t, keys)
	refused(t, keys.Use(unhex(key32)), ErrNoItem)
	var none *Keyring
	listed(t, none)
	refused(t, none.Use(unhex(key16)), ErrNoItem)
	refused(t, none.Remove(unhex(key16)), ErrNoItem)
}

func TestKeysAreRotated(t *testing.T) {
	keys, message := new(Keyring), unhex(clearAlive)
	defer keys.Close()
	refused(t, keys.Rotate(unhex(key16)[1:]), ErrBadKey)
	for _, step := range []struct{ key, all string }{
		{key16, key16}, {key16, key16}, {newKey, newKey + " " + key16}, {newKey, newKey + " " + key16},
		{key16, key16 + " " + newKey}, {key32, key32 + " " + newKey + " " + key16},
	} {
		if err := keys.Rotate(unhex(step.key)); err != nil {
			t.Error(err)
		}
		listed(t, keys, strings.Split(step.all, " ")...)
		same(t)(keyring(t, step.key).Unwrap(must[[]byte](t)(keys.Seal("", message))))(string(message))
	}
	same(t)(keys.Unwrap(unhex(suspectSent)))(string(unhex(suspectClear))) // an old key still decrypts
}

func TestMessagesAreSealed(t *testing.T) {
	nonceAt := func(sent string, at int) []byte { return unhex(sent)[at : at+nonceSize] }
	east, dc := keyring(t, key16), keyring(t, key32, key16)
	same(t)(east.seal(nonceAt(labelledSent, 7), "east", unhex(labelled)))(string(unhex(labelledSent)))
	same(t)(dc.seal(nonceAt(sealedAlive, 5), "dc", unhex(clearAlive)))(string(unhex(sealedAlive)))
	stream := string(unhex(labelledStreamSent))
	same(t)(east.sealStream(nonceAt(labelledStreamSent, 12), "east", false, unhex(labelled)))(stream)
	same(t)(dc.sealStream(nonceAt(sealedReply, 6), "dc", true, unhex(clearStream)))(string(unhex(sealedReply)))
	same(t)(new(Keyring).SealStream("dc", false, unhex(clearStream)))("\xf4\x02dc" + string(unhex(clearStream)))
	same(t)(new(Keyring).SealStream("dc", true, unhex(clearStream)))(string(unhex(clearStream)))
	_, err := dc.Seal(strings.Repeat("x", 256), nil)
	refused(t, err, ErrCipherTooLong)
}

func TestEachByteOfANonceIsDrawn(t *testing.T) {
	// behind the version, which is the first byte of a packet without a label
	keys, drawn := keyring(t, key16), [nonceSize]map[byte]bool{}
	for i := 0; i < 20; i++ {
		for j, one := range must[[]byte](t)(keys.Seal("", []byte{8}))[1 : 1+nonceSize] {
			if drawn[j] == nil {
				drawn[j] = map[byte]bool{}
			}
			drawn[j][one] = true
		}
	}
	for j := range drawn {
		if len(drawn[j]) == 1 {
			t.Errorf("byte %d of a nonce is always the same", j)
		}
	}
}

func TestWhatIsSealedIsUnwrapped(t *testing.T) {
	keys, message := keyring(t, newKey), unhex(clearAlive)
	first, second := must[[]byte](t)(keys.Seal("dc", message)), must[[]byte](t)(keys.Seal("dc", message))
	if bytes.Equal(first, second) {
		t.Error("one nonce was drawn twice")
	}
	same(t)(keys.Unwrap(first))(string(message))
	same(t)(keys.Unwrap(second))(string(message))
	for _, reply := range []bool{false, true} {
		sent := must[[]byte](t)(keys.SealStream("dc", reply, unhex(clearStream)))
		same(t)(keys.UnwrapStream("dc", sent))(string(unhex(clearStream)))
	}
}
