//! Draws a table with its plan: `picture [--cut M] [--page] [FILE]`, the table from standard input
//! where no file is named. The picture, or the page with the picture and the sweep turn by turn,
//! goes to standard output. `--wrong NAME` draws the plan of one of the wrong planners.

use std::env;
use std::fs;
use std::io::{self, Read, Write};
use std::path::Path;
use std::process::ExitCode;
use tests::page::page;
use tests::picture::answer::{planned_wrongly, product_answer};
use tests::picture::{picture, planned_picture, Maker, Options};

const USAGE: &str = "usage: picture [--cut M] [--page | --wrong NAME] [FILE]";

fn main() -> ExitCode {
    match request().and_then(drawn) {
        Ok(text) => written(&text),
        Err(reason) => {
            eprintln!("picture: {reason}");
            ExitCode::FAILURE
        }
    }
}

/// What the command line asks for.
#[derive(Default)]
struct Request {
    file: Option<String>,
    cut: Option<usize>,
    page: bool,
    wrong: Option<String>,
}

fn request() -> Result<Request, String> {
    let mut request = Request::default();
    let mut arguments = env::args().skip(1);
    while let Some(argument) = arguments.next() {
        match argument.as_str() {
            "--page" => request.page = true,
            "--wrong" => request.wrong = Some(arguments.next().ok_or(USAGE)?),
            "--cut" => request.cut = Some(number(arguments.next())?),
            _ if argument.starts_with("--") || request.file.is_some() => {
                return Err(USAGE.to_string());
            }
            _ => request.file = Some(argument),
        }
    }
    Ok(request)
}

fn number(argument: Option<String>) -> Result<usize, String> {
    let number = argument.and_then(|text| text.parse().ok());
    number.ok_or_else(|| USAGE.to_string())
}

fn drawn(request: Request) -> Result<String, String> {
    let bytes = table_bytes(request.file.as_deref()).map_err(|error| error.to_string())?;
    let options = Options {
        name: name(request.file.as_deref()),
        cut: request.cut,
        maker: request.wrong.map_or(Maker::Product, Maker::Wrong),
    };
    let drawn = match (&options.maker, request.page) {
        (Maker::Wrong(wrong), false) => planned_picture(&planned_wrongly(&bytes, wrong)?, &options),
        (Maker::Product, true) => return page(&bytes, &product_answer(&bytes)?, &options),
        (Maker::Product, false) => picture(&bytes, &product_answer(&bytes)?, &options),
        _ => return Err(USAGE.to_string()),
    };
    drawn.map(|drawn| drawn.written())
}

fn table_bytes(file: Option<&str>) -> io::Result<Vec<u8>> {
    let mut bytes = Vec::new();
    match file {
        Some(file) => bytes = fs::read(file)?,
        None => drop(io::stdin().lock().read_to_end(&mut bytes)?),
    }
    Ok(bytes)
}

/// The file's name without folder and ending.
fn name(file: Option<&str>) -> String {
    let stem = file.and_then(|file| Path::new(file).file_stem());
    stem.map_or("a table".to_string(), |stem| stem.to_string_lossy().into())
}

fn written(text: &str) -> ExitCode {
    match io::stdout().lock().write_all(text.as_bytes()) {
        Ok(()) => ExitCode::SUCCESS,
        Err(_) => ExitCode::FAILURE,
    }
}
