//! Inputs that decode to given bytes.

pub fn hex(plain: &[u8]) -> Vec<u8> {
    let mut out = Vec::new();
    for (i, b) in plain.iter().enumerate() {
        for d in [b >> 4, b & 15] {
            out.push(b"0123456789abcdef"[d as usize]);
        }
        if i % 32 == 31 {
            out.push(b'\n');
        }
    }
    out.push(b'>');
    out
}

pub fn base85(plain: &[u8]) -> Vec<u8> {
    let mut out = Vec::new();
    for (i, group) in plain.chunks(4).enumerate() {
        let mut four = [0; 4];
        four[..group.len()].copy_from_slice(group);
        let mut v = u32::from_be_bytes(four);
        let mut digits = [0; 5];
        for d in digits.iter_mut().rev() {
            *d = (v % 85) as u8 + b'!';
            v /= 85;
        }
        if group.len() == 4 && four == [0; 4] {
            out.push(b'z');
        } else {
            out.extend_from_slice(&digits[..group.len() + 1]);
        }
        if i % 15 == 14 {
            out.push(b'\n');
        }
    }
    out.extend_from_slice(b"~>");
    out
}

pub fn marked(plain: &[u8]) -> Vec<u8> {
    [plain, super::MARK].concat()
}

fn enciphered(salt: [u8; 4], plain: &[u8]) -> Vec<u8> {
    let mut key = 55665u16;
    let mut out = Vec::new();
    for p in salt.iter().chain(plain) {
        let c = p ^ (key >> 8) as u8;
        out.push(c);
        key = (c as u16).wrapping_add(key).wrapping_mul(52845).wrapping_add(22719);
    }
    out
}

/// Four bytes before the plain ones whose cipher begins with no hexadecimal digits.
pub fn eexec_binary(plain: &[u8]) -> Vec<u8> {
    enciphered([0; 4], plain)
}

pub fn eexec_hex(plain: &[u8]) -> Vec<u8> {
    let mut text = hex(&enciphered([0; 4], plain));
    text.pop();
    text
}

pub fn four_deep(plain: &[u8]) -> Vec<u8> {
    hex(&marked(&base85(&eexec_binary(plain))))
}
