//! The sums by which the build script knows the library of a released package: examples of the standard, and each length of a last block.
#[path = "../build/sha256.rs"]
mod sha256;

#[test]
fn examples_of_the_standard() {
    let examples: [(&[u8], &str); 4] = [
        (b"", "e3b0c44298fc1c149afbf4c8996fb92427ae41e4649b934ca495991b7852b855"),
        (b"abc", "ba7816bf8f01cfea414140de5dae2223b00361a396177a9cb410ff61f20015ad"),
        (
            b"abcdbcdecdefdefgefghfghighijhijkijkljklmklmnlmnomnopnopq",
            "248d6a61d20638b8e5c026930c3e6039a33ce45964ff2167f6ecedd419db06c1",
        ),
        (&[b'a'; 1_000_000], "cdc76e5c9914fb9281a1c7e284d73e67f1809a48a497200e046d39ccc7112cd0"),
    ];
    for (bytes, sum) in examples {
        assert_eq!(sha256::sum(bytes), sum);
    }
}

#[test]
fn each_length_of_a_last_block() {
    let sums: String = (0..130).map(|length| sha256::sum(&vec![7; length])).collect();
    assert_eq!(sha256::sum(sums.as_bytes()), "2fbe4d6634efb2451704b4cb404f89d1b859eef0ff16f9e42c9daa9a2d625cb3");
}
