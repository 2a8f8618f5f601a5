//! `resolves NAME ADDRESS:PORT`: prints the IPv4 addresses of a name.

use std::process::ExitCode;

fn main() -> ExitCode {
    let words: Vec<String> = std::env::args().skip(1).collect();
    match words.as_slice() {
        [name, server] => resolve(name, server),
        _ => {
            eprintln!("usage: resolves NAME ADDRESS:PORT");
            ExitCode::from(2)
        }
    }
}

fn resolve(name: &str, server: &str) -> ExitCode {
    match server.parse().map(|server| resolves::addresses(name, server)) {
        Ok(Ok(found)) => {
            found.iter().for_each(|it| println!("{it}"));
            ExitCode::SUCCESS
        }
        Ok(Err(error)) => {
            eprintln!("{name}: {error}");
            ExitCode::FAILURE
        }
        Err(error) => {
            eprintln!("{server}: {error}");
            ExitCode::from(2)
        }
    }
}
