//! The witness: a plain program that answers about porting files, written from the paper alone.

use std::io::Write;
use std::os::unix::ffi::OsStringExt;
use witness::{commands, examples};

fn main() {
    let args: Vec<Vec<u8>> = std::env::args_os().skip(1).map(|a| a.into_vec()).collect();
    let args: Vec<&[u8]> = args.iter().map(|a| &a[..]).collect();
    let mut out = Vec::new();
    let result = if args == [b"selftest"] {
        examples::selftest(&mut out)
    } else {
        commands::run(&args, &mut out)
    };
    let written = std::io::stdout().write_all(&out).and_then(|()| std::io::stdout().flush());
    let status = match (result, written) {
        (Ok(status), Ok(())) => status,
        (Err(words), _) => {
            eprintln!("{}", words);
            2
        }
        (_, Err(error)) => {
            eprintln!("standard output: {}", error);
            2
        }
    };
    std::process::exit(i32::from(status));
}
