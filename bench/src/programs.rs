//! Both programs that read scenarios: the proved one, and this one's plain Rust.

use std::fs::File;
use std::process::Command;

use crate::Failure;
use crate::timing::children_seconds;

pub struct Programs {
    /// The proved program's path.
    proved: String,
    /// This program's own path.
    plain: std::path::PathBuf,
    /// A folder for what they read and print.
    folder: String,
}

/// What a program printed, and the processor time that it took.
pub struct Run {
    pub printed: String,
    pub seconds: f64,
}

impl Programs {
    pub fn new(proved: &str, folder: &str) -> Result<Programs, Failure> {
        std::fs::create_dir_all(folder)?;
        Ok(Programs {
            proved: proved.to_string(),
            plain: std::env::current_exe()?,
            folder: folder.to_string(),
        })
    }

    fn path(&self, name: &str) -> String {
        format!("{}/{name}.txt", self.folder)
    }

    /// Keeps a scenario under a name.
    pub fn keep(&self, name: &str, scenario: &str) -> Result<(), Failure> {
        Ok(std::fs::write(self.path(name), scenario)?)
    }

    fn run(&self, mut command: Command, name: &str) -> Result<Run, Failure> {
        let printed = self.path("printed");
        command.stdin(File::open(self.path(name))?);
        command.stdout(File::create(&printed)?);
        let before = children_seconds();
        let status = command.status()?;
        let seconds = children_seconds() - before;
        if !status.success() {
            return Err(format!("{command:?} on {name}: {status}").into());
        }
        let printed = std::fs::read_to_string(printed)?;
        Ok(Run { printed, seconds })
    }

    pub fn run_proved(&self, name: &str) -> Result<Run, Failure> {
        self.run(Command::new(&self.proved), name)
    }

    pub fn run_plain(&self, name: &str) -> Result<Run, Failure> {
        let mut command = Command::new(&self.plain);
        command.arg("scenario");
        self.run(command, name)
    }

    /// Both print the same on a scenario, and here it is.
    pub fn compare(&self, name: &str, scenario: &str) -> Result<String, Failure> {
        self.keep(name, scenario)?;
        let proved = self.run_proved(name)?.printed;
        let plain = self.run_plain(name)?.printed;
        for (number, (ours, theirs)) in proved.lines().zip(plain.lines()).enumerate() {
            assert_eq!(ours, theirs, "line {number} printed on {name}");
        }
        assert_eq!(proved.len(), plain.len(), "what is printed on {name}");
        Ok(proved)
    }
}
