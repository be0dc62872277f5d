//! `second-scripts DIR`: writes the scripts for the bench into a folder, one numbered file each,
//! and prints what each is there for.

use second::scripts::scripts;
use std::env;
use std::fs;
use std::path::Path;
use std::process::ExitCode;

/// Writes every script; the folder is made if it is not there.
fn main() -> ExitCode {
    let arguments: Vec<String> = env::args().skip(1).collect();
    let [folder] = &arguments[..] else {
        eprintln!("usage: second-scripts DIR");
        return ExitCode::FAILURE;
    };
    let written = fs::create_dir_all(folder).and_then(|()| {
        for (number, script) in (1..).zip(scripts()) {
            fs::write(Path::new(folder).join(format!("{number:03}")), &script.bytes)?;
            println!("{number:03} {}", script.what);
        }
        Ok(())
    });
    match written {
        Ok(()) => ExitCode::SUCCESS,
        Err(error) => {
            eprintln!("{folder}: {error}");
            ExitCode::FAILURE
        }
    }
}
