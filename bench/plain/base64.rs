// Whether a text is base64: RFC 4648 section 4 with padding, and unused bits that are 0.
const NONE: u8 = 0xFF;

const VALUES: [u8; 256] = {
    let alphabet = b"ABCDEFGHIJKLMNOPQRSTUVWXYZabcdefghijklmnopqrstuvwxyz0123456789+/";
    let mut values = [NONE; 256];
    let mut i = 0;
    while i < 64 {
        values[alphabet[i] as usize] = i as u8;
        i += 1;
    }
    values
};

fn value(c: u8) -> u8 {
    VALUES[c as usize]
}

fn is_digit(c: &u8) -> bool {
    value(*c) != NONE
}

pub fn is_text(text: &[u8]) -> bool {
    if text.len() % 4 != 0 {
        return false;
    }
    let Some((body, last)) = text.split_last_chunk::<4>() else {
        return true;
    };
    body.iter().all(is_digit) && is_last(*last)
}

fn is_last(quad: [u8; 4]) -> bool {
    match quad {
        [a, b, b'=', b'='] => is_digit(&a) && is_digit(&b) && value(b) % 16 == 0,
        [a, b, c, b'='] => [a, b, c].iter().all(is_digit) && value(c) % 4 == 0,
        _ => quad.iter().all(is_digit),
    }
}
