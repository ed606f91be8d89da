//! A register that was just opened.

use imbrolt::{open_register, Fen, Register};

#[test]
fn a_default_register_is_an_open_one() {
    assert_eq!(Register::default(), open_register());
}

#[test]
fn an_open_register_has_no_entries() {
    let register = open_register();
    assert_eq!(register.owed(7), Ok(Fen(0)));
    assert!(register.as_bytes().iter().all(|&byte| byte == 0));
    assert_eq!(format!("{register:?}"), "Register of 0 entries");
}
