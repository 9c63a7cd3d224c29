//! The second file of a word, which its argument names. This stands in place of the proved program's own file of this name,
//! which proves nothing of what is read. A file that cannot be opened or read, or is longer than the room for it, is said
//! on standard error, and then the program says nothing else.

use super::words::{Command, Reply};
use crate::io::{fail, note, FAILED};
use crate::kit::rt::HostRuntime;
use std::env::args_os;
use std::fs::File;
use std::io::{stderr, Error, ErrorKind, Read, Write};

/// The room for a second file: 1 MiB.
const MORE: usize = 1_048_576;
/// A longer name is no file's.
const NAME: usize = 4096;
const TOO_LONG: i32 = 36;

/// That room, cleared.
pub fn room() -> [u8; MORE] {
    [0; MORE]
}

/// Does the command have a second file?
pub fn has_second(c: Command) -> bool {
    matches!(c, Command::One(Reply::Back | Reply::Undot))
}

/// Reads the file that word i names; `whole` becomes true if all of it was read. Returns how many bytes it put at the front
/// of the room.
pub fn read_second(_: &HostRuntime, i: usize, room: &mut [u8], whole: &mut bool) -> usize {
    let path = args_os().nth(i).unwrap_or_default();
    let named = path.as_encoded_bytes();
    if NAME < named.len() {
        fail(b"gym", &Error::from_raw_os_error(TOO_LONG));
        return 0;
    }
    match File::open(&path).and_then(|mut file| read_open(&mut file, room)) {
        Ok(size) if size <= room.len() => {
            *whole = true;
            return size;
        }
        Ok(_) => {
            note(FAILED);
            let said = format!(": longer than {MORE} bytes\n");
            let _ = stderr().write_all(&[named, said.as_bytes()].concat());
        }
        Err(error) => fail(named, &error),
    }
    0
}

/// Reads an open file to its end, or to the first byte that the room does not hold; how many bytes that is.
fn read_open(file: &mut File, room: &mut [u8]) -> Result<usize, Error> {
    let (mut size, mut one) = (0, [0]);
    loop {
        let is_full = size == room.len();
        match file.read(if is_full { &mut one } else { &mut room[size..] }) {
            Ok(0) => return Ok(size),
            Ok(n) if is_full => return Ok(size + n),
            Ok(n) => size += n,
            Err(error) if error.kind() == ErrorKind::Interrupted => {}
            Err(error) => return Err(error),
        }
    }
}
