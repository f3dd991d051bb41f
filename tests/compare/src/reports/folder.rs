//! A folder for the files of a comparison, removed with all that is in it.

use std::ffi::OsStr;
use std::fs::{self, Permissions};
use std::os::unix::fs::PermissionsExt;
use std::path::{Path, PathBuf};

/// Everybody may read it and run it, or go there; and nobody may.
pub const FOR_ALL: u32 = 0o755;
pub const FOR_NOBODY: u32 = 0;

pub struct Folder {
    path: PathBuf,
}

impl Folder {
    pub fn new(name: &str) -> Result<Folder, String> {
        let name = format!("{name}-{}", std::process::id());
        let path = std::env::temp_dir().join(name);
        fs::create_dir(&path).map_err(|error| format!("{}: {error}", path.display()))?;
        let folder = Folder { path };
        folder.allow(".", FOR_ALL)?;
        Ok(folder)
    }

    pub fn path(&self) -> &Path {
        &self.path
    }

    pub fn write(&self, name: impl AsRef<OsStr>, bytes: &[u8]) -> Result<(), String> {
        self.told(name.as_ref(), |path| fs::write(path, bytes))
    }

    pub fn remove(&self, name: impl AsRef<OsStr>) -> Result<(), String> {
        self.told(name.as_ref(), |path| fs::remove_file(path))
    }

    /// A folder in the folder.
    pub fn make(&self, name: &str) -> Result<(), String> {
        self.told(OsStr::new(name), |path| fs::create_dir(path))
    }

    /// Sets what its users may do with a file.
    pub fn allow(&self, name: &str, mode: u32) -> Result<(), String> {
        self.told(OsStr::new(name), |path| {
            fs::set_permissions(path, Permissions::from_mode(mode))
        })
    }

    /// A copy of a file from elsewhere.
    pub fn copy(&self, name: &str, from: &Path) -> Result<(), String> {
        self.told(OsStr::new(name), |path| fs::copy(from, path).map(drop))
    }

    /// A symbolic link to what the target names, seen from the folder.
    pub fn link(&self, name: &str, target: &str) -> Result<(), String> {
        self.told(OsStr::new(name), |path| {
            std::os::unix::fs::symlink(target, path)
        })
    }

    fn told(
        &self,
        name: &OsStr,
        act: impl FnOnce(&Path) -> std::io::Result<()>,
    ) -> Result<(), String> {
        let path = self.path.join(name);
        act(&path).map_err(|error| format!("{}: {error}", path.display()))
    }
}

impl Drop for Folder {
    fn drop(&mut self) {
        let _ = fs::remove_dir_all(&self.path);
    }
}
