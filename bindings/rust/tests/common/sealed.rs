//! Packets and streams that were sealed with known keys and nonces. The bytes are those of tests/c/sealing.c,
//! which says where they come from.
#![allow(dead_code)] // each test uses some of it

use super::Keyring;

pub const NEW_KEY: &str = "3b91421dae7f570e037c45dd729985efad5f7659103d10134452b9016801a83f";
pub const SUSPECT_SENT: &str = concat!(
    "018dccbf33b5e26f3f81a65fd70ea9d69b1348813ba29bc4e9ab063156cc18dc3c55115dc87a942e07e25d6bcc",
    "e8164a55ee3c20b4a793b16652643b16b49e34513039e20b",
);
pub const SUSPECT: &str = "0383a446726f6da464622d32ab496e6361726e6174696f6e01a44e6f6465a464622d33";
pub const KEY_16: &str = "10171e252c333a41484f565d646b7279";
pub const LABELLED: &str = "6c6162656c6c6564";
pub const LABELLED_SENT: &str =
    "f40465617374010518b6eda9ae85b3032d0a4fce82ef025099abc4d5e68f21a9fc9eb54669615b149ff295";
pub const LABELLED_STREAM_SENT: &str = concat!(
    "f404656173740a0000002501c7baf9e8c9a5ae07b800f654274ded0e46948099ad5b4eebcc79afa0f9e1eb3928",
    "a309dd",
);
pub const KEY_32: &str = "000102030405060708090a0b0c0d0e0f101112131415161718191a1b1c1d1e1f";
pub const CLEAR_ALIVE: &str = concat!(
    "0486a441646472a47f000001ab496e6361726e6174696f6e00a44d657461a0a44e6f6465a161a4506f7274cd1f",
    "0aa356736ea0",
);
pub const PACKED_ALIVE: &str = concat!(
    "0caa798b020982a4416c676f00a3427566da003c0009182215840c1939a4fe0000106055123763c2c87113864e",
    "9a376e00906a52864e1850a49cbc21532654185250dec8a1d3ec83825156e6b8011510",
);
pub const SEALED_ALIVE: &str = concat!(
    "f4026463016e6f6e63652d6e756d6265723920ab3d76e6704b1981b2c4e261f17ba5fc3f130ff8cd1d66bc9156",
    "e844b4b8bc30546c509b67376ac0f3e39120cd2272652423e554e1f10971feecd5feda8d3d8cea",
);
pub const CLEAR_STREAM: &str = concat!(
    "0683a44a6f696ec2a54e6f64657301ac5573657253746174654c656e0087a441646472a47f000001ab496e6361",
    "726e6174696f6e00a44d657461a0a44e616d65a161a4506f7274cd1f0aa5537461746500a356736ea0",
);
pub const SEALED_STREAM: &str = concat!(
    "f40264630a0000008d006e6f6e63652d6e756d6265723424ab3d7ee56defc5c3c7a39328c118c98273d79fdcb8",
    "44a452e54adf83d880f2f39ac5d8d9a46d9882f3e4be038d72c12ad6e19daac821b704768d546f7528744183bc",
    "06243ddbc40f0850f3d22ed0ccbc18544e0bf4f3d866e25a87d491ec3e0f6ad1a8bdb2950829fc54ff7279587b",
    "06cbcd7b5e5c17e150c6feb935b8d1",
);
pub const SEALED_REPLY: &str = concat!(
    "0a00000073017265706c792d6e756d626572cac33fce2641d8d4bca9832bea86239a813d97cde094ecba0ca5c5",
    "32f86908430e42d76f5bae8aaf91d5153387d57ae1ffbd621086e929bf00f3f783854ca8be93a7e61f1a4dd765",
    "42711255994f2af38d89d1c698a2ae58d0d2a6d36eb14726b7c5d5c927fc",
);

/// The bytes that hexadecimal digits stand for.
pub fn unhex(text: &str) -> Vec<u8> {
    (0..text.len()).step_by(2).map(|i| u8::from_str_radix(&text[i..i + 2], 16).unwrap()).collect()
}

/// A keyring with these keys.
pub fn keyring(keys: &[&str]) -> Keyring {
    let mut keyring = Keyring::new();
    for key in keys {
        keyring.add(&unhex(key)).unwrap();
    }
    keyring
}
