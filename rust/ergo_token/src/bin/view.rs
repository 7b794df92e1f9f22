//! Prints the tokens of a script for its author, or why it is refused, as `ergo_token::view` writes it. With `--contact` the script is a contact, with
//! its limits.
//!
//!     view [--contact] FILE
//!
//! The status is 0 for an accepted script, 1 for a refused one, 2 where the file cannot be read or nothing can be written.
use ergo_token::SCRIPT_LIMIT;
use std::ffi::OsStr;
use std::fs::File;
use std::io::{self, BufWriter, Read, Write};
use std::process::ExitCode;

fn view(path: &OsStr, contact: bool) -> io::Result<bool> {
    let mut script = Vec::new();
    // One byte more than a script may have is enough to be refused.
    File::open(path)?.take(SCRIPT_LIMIT as u64 + 1).read_to_end(&mut script)?;
    let mut out = BufWriter::new(io::stdout().lock());
    let accepted = if contact { ergo_token::view_contact(&mut out, &script)? } else { ergo_token::view(&mut out, &script)? };
    out.flush()?;
    Ok(accepted)
}

fn main() -> ExitCode {
    let arguments: Vec<_> = std::env::args_os().skip(1).collect();
    let (path, contact) = match &arguments[..] {
        [path] => (path, false),
        [option, path] if option == "--contact" => (path, true),
        _ => {
            eprintln!("usage: view [--contact] FILE");
            return ExitCode::from(2);
        }
    };
    match view(path, contact) {
        Ok(true) => ExitCode::SUCCESS,
        Ok(false) => ExitCode::from(1),
        Err(error) => {
            // A name can hold direction marks as a script can.
            eprintln!("{}: {error}", ergo_token::shown(path.as_encoded_bytes()));
            ExitCode::from(2)
        }
    }
}
