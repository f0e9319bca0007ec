//! What a file has beside its bytes: owner, permissions, extended attributes, access lists among them.
use super::names::shown;
use super::system;
use std::ffi::CStr;
use std::fs::{File, Metadata};
use std::io;
use std::os::unix::fs::{fchown, MetadataExt};

/// The file whose attributes another takes over, and whether it may do so without the owner.
pub struct Keep<'f> {
    pub old: &'f File,
    pub new_owner: bool,
}

/// The attributes of a file that is written.
#[derive(Clone, Copy)]
pub enum Attributes<'a> {
    /// It is the caller's, with these permissions as far as his mask allows them.
    Own(u32),
    /// It takes over those of another file.
    Kept(&'a Keep<'a>),
}

impl<'a> Attributes<'a> {
    /// A new file that anybody may read and write whom the caller's mask lets.
    pub const NEW: Attributes<'static> = Attributes::Own(0o666);

    /// Those of the old file, where there is one.
    pub fn of(keep: Option<&'a Keep<'a>>) -> Attributes<'a> {
        keep.map_or(Attributes::NEW, Attributes::Kept)
    }

    /// The permissions with which the file is made. One that takes over another's is its owner's alone until then.
    pub fn mode(self) -> u32 {
        match self {
            Attributes::Own(mode) => mode,
            Attributes::Kept(_) => 0o600,
        }
    }
}

/// Gives a new file the owner, the extended attributes and the permissions of the old one. What cannot be kept is
/// refused.
pub fn keep(new: &File, keep: &Keep) -> Result<(), String> {
    let old = keep.old.metadata().map_err(|error| format!("its attributes cannot be read: {error}"))?;
    keep_owner(new, &old, keep.new_owner)?;
    let names = system::attribute_names(keep.old).map_err(|error| format!("its attributes cannot be read: {error}"))?;
    for name in &names {
        keep_attribute(new, keep.old, name).map_err(|error| {
            format!("its extended attribute {} cannot be kept: {error}", shown(name.to_string_lossy().as_ref()))
        })?;
    }
    // Last, since a change of the owner takes permissions away.
    new.set_permissions(old.permissions()).map_err(|error| format!("its permissions cannot be kept: {error}"))
}

/// Gives the new file to the owner and the group of the old one, as far as the caller may.
fn keep_owner(new: &File, old: &Metadata, new_owner: bool) -> Result<(), String> {
    let made = new.metadata().map_err(|error| error.to_string())?;
    // The group first: whoever gives the file away may no longer change it.
    let group = made.gid() == old.gid() || fchown(new, None, Some(old.gid())).is_ok();
    let user = made.uid() == old.uid() || fchown(new, Some(old.uid()), None).is_ok();
    match (user && group) || new_owner {
        true => Ok(()),
        false => Err(format!(
            "it belongs to user {} and group {}, and its replacement would belong to user {} and group {}; \
             run the command as the first, or allow it with --new-owner",
            old.uid(),
            old.gid(),
            if user { old.uid() } else { made.uid() },
            if group { old.gid() } else { made.gid() }
        )),
    }
}

/// An attribute that the new file has already, as a label that the system gives, need not be set.
fn keep_attribute(new: &File, old: &File, name: &CStr) -> io::Result<()> {
    let value = match system::attribute(old, name) {
        Err(error) if error.raw_os_error() == Some(system::ENODATA) => return Ok(()),
        value => value?,
    };
    match system::set_attribute(new, name, &value) {
        Err(_) if system::attribute(new, name).is_ok_and(|has| has == value) => Ok(()),
        set => set,
    }
}
