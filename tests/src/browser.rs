//! A browser without a window, where one is installed: what a page holds after its script has run,
//! and what it prints.

use std::env;
use std::fs;
use std::path::{Path, PathBuf};
use std::process::{Command, Stdio};

const NAMES: [&str; 3] = ["chromium", "chromium-browser", "google-chrome"];

pub struct Browser {
    program: PathBuf,
    /// A folder for its profile and for the pages.
    folder: PathBuf,
}

impl Browser {
    /// The first browser on the path.
    pub fn find() -> Option<Browser> {
        let program = NAMES.iter().find_map(|name| on_path(name))?;
        let folder = env::temp_dir().join(format!("page-test-{}", std::process::id()));
        fs::create_dir_all(&folder).ok()?;
        Some(Browser { program, folder })
    }

    /// The document after its scripts have run.
    pub fn document(&self, page: &str) -> Result<String, String> {
        let output = self.run(page, &["--virtual-time-budget=10000", "--dump-dom"])?;
        String::from_utf8(output).map_err(|error| error.to_string())
    }

    /// The text of the printed page; none where pdftotext is not installed.
    pub fn printed_text(&self, page: &str) -> Result<Option<String>, String> {
        let pdf = self.folder.join("page.pdf");
        self.run(page, &[&format!("--print-to-pdf={}", pdf.display())])?;
        let bytes = fs::read(&pdf).map_err(|error| error.to_string())?;
        if !bytes.starts_with(b"%PDF") {
            return Err("what is printed is no PDF".to_string());
        }
        let Some(pdftotext) = on_path("pdftotext") else {
            return Ok(None);
        };
        let mut command = Command::new(pdftotext);
        let text = output(command.arg(&pdf).arg("-"))?;
        Ok(Some(String::from_utf8_lossy(&text).into_owned()))
    }

    fn run(&self, page: &str, arguments: &[&str]) -> Result<Vec<u8>, String> {
        let file = self.folder.join("page.html");
        fs::write(&file, page).map_err(|error| error.to_string())?;
        let profile = self.folder.join("profile");
        let mut command = Command::new(&self.program);
        command
            .args([
                "--headless",
                "--no-sandbox",
                "--disable-gpu",
                "--window-size=1700,1000",
            ])
            .arg(format!("--user-data-dir={}", profile.display()))
            .args(arguments)
            .arg(format!("file://{}", file.display()));
        output(&mut command)
    }
}

impl Drop for Browser {
    fn drop(&mut self) {
        // What is left in the folder for temporary files harms nobody.
        let _ = fs::remove_dir_all(&self.folder);
    }
}

fn output(command: &mut Command) -> Result<Vec<u8>, String> {
    let done = command.stderr(Stdio::null()).output();
    let done = done.map_err(|error| error.to_string())?;
    match done.status.success() {
        true => Ok(done.stdout),
        false => Err(format!(
            "{:?} ended with {}",
            command.get_program(),
            done.status
        )),
    }
}

fn on_path(name: &str) -> Option<PathBuf> {
    let folders = env::var_os("PATH")?;
    env::split_paths(&folders)
        .map(|folder: PathBuf| Path::new(&folder).join(name))
        .find(|file| file.is_file())
}
