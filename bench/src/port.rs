//! The port: an archive of it, linked as several shared libraries in which the same code stands at several places.
//!
//! A processor foresees the end of a short loop at one address and not at another, so that the same code may take twice
//! as long where a linker happens to put it. So every time is one over all places.

use std::env;
use std::ffi::{c_char, c_int, c_void, CString};
use std::fs;
use std::path::{Path, PathBuf};
use std::process::{self, Command};
use std::sync::atomic::{AtomicUsize, Ordering};
use std::sync::OnceLock;

/// How many places, and how many bytes lie between two. Functions begin at multiples of 4 or, on x86-64, of 16, and a slow
/// place was seen to come again after each 256 bytes: up to that no two of these are the same, and of the multiples of 4 in
/// a row of 16 each has as many. Else the same instructions seem to take 4 % more in one build than in another.
pub const PLACES: usize = 8;
const APART: usize = 60;

extern "C" {
    fn dlopen(file: *const c_char, flags: c_int) -> *mut c_void;
    fn dlsym(library: *mut c_void, name: *const c_char) -> *mut c_void;
}

/// Every name is looked up at once, and seen by nobody else.
const NOW_AND_LOCAL: c_int = 2;

/// A build of the port: an open library for each place.
pub struct Build(Vec<*mut c_void>);

// SAFETY: a handle may be used by any thread.
unsafe impl Send for Build {}
unsafe impl Sync for Build {}

impl Build {
    /// Links an archive and opens the libraries, whose files are not needed any more then. A library of a name that is open
    /// already would not be opened again, so each build has names of its own.
    pub fn open(archive: &Path) -> Result<Build, String> {
        // A shared library would be taken as well, and would stand at one place only.
        let bytes = fs::read(archive).map_err(|e| format!("{}: {e}", archive.display()))?;
        if !bytes.starts_with(b"!<arch>") {
            return Err(format!("{} is no archive", archive.display()));
        }
        static BUILDS: AtomicUsize = AtomicUsize::new(0);
        let build = BUILDS.fetch_add(1, Ordering::Relaxed);
        let folder = env::temp_dir().join(format!("ohg-bench-{}-{build}", process::id()));
        fs::create_dir_all(&folder).map_err(|e| format!("{}: {e}", folder.display()))?;
        let libraries = (0..PLACES).map(|place| open_at(place, archive, &folder));
        let libraries: Result<Vec<_>, String> = libraries.collect();
        fs::remove_dir_all(&folder).map_err(|e| format!("{}: {e}", folder.display()))?;
        Ok(Build(libraries?))
    }

    /// A function's address at each place, or nothing if the build has none of this name.
    pub fn addresses(&self, name: &str) -> Option<Vec<usize>> {
        let name = CString::new(name).expect("a name has no NUL");
        // SAFETY: the handles are open.
        let symbols = self
            .0
            .iter()
            .map(|&library| unsafe { dlsym(library, name.as_ptr()) });
        symbols
            .map(|symbol| (!symbol.is_null()).then_some(symbol as usize))
            .collect()
    }
}

fn open_at(place: usize, archive: &Path, folder: &Path) -> Result<*mut c_void, String> {
    let [before, library] = ["s", "so"].map(|end| folder.join(format!("{place}.{end}")));
    let skipped = format!(".text\n.balign 256\n.skip {}\n", APART * (1 + place));
    fs::write(&before, skipped).map_err(|e| format!("{}: {e}", before.display()))?;
    let mut cc = Command::new("cc");
    // The port's own calls go straight, as in a program that it is linked into.
    cc.args(["-shared", "-Wl,-Bsymbolic-functions", "-o"])
        .args([&library, &before]);
    cc.arg("-Wl,--whole-archive")
        .arg(archive)
        .arg("-Wl,--no-whole-archive");
    let linked = cc.status().map_err(|e| format!("cc: {e}"))?;
    let name = CString::new(library.to_string_lossy().as_bytes()).expect("a path has no NUL");
    // SAFETY: opening one of our libraries runs no code.
    let opened = unsafe { dlopen(name.as_ptr(), NOW_AND_LOCAL) };
    if !linked.success() || opened.is_null() {
        return Err(format!("{} can't be linked and opened", archive.display()));
    }
    Ok(opened)
}

/// The place at which the next calls are made.
static PLACE: AtomicUsize = AtomicUsize::new(0);

pub fn stand_at(place: usize) {
    PLACE.store(place, Ordering::Relaxed);
}

pub fn place() -> usize {
    PLACE.load(Ordering::Relaxed)
}

static MEASURED: OnceLock<[Build; 2]> = OnceLock::new();

/// Opens the builds that are measured beside the original, of the port and of the archive above it: the delivered ones on
/// x86-64, else those that `native-archive` makes; or those in the folder that `OHG_LIB_DIR` names, counted from the
/// repository's root.
pub fn open_measured() -> Result<(), String> {
    let (folder, command) = match env::consts::ARCH {
        "x86_64" => ("target/staticlib", "tools/archive"),
        _ => ("target/native", "tools/native-archive"),
    };
    let folder = env::var_os("OHG_LIB_DIR").unwrap_or(folder.into());
    let root = PathBuf::from(env!("CARGO_MANIFEST_DIR")).join("..");
    let folder = root.join(folder);
    let build = |name: &str| {
        let archive = folder.join(format!("lib{name}.a"));
        if !archive.is_file() {
            return Err(format!(
                "no {}: run `{command} {name}` first",
                archive.display()
            ));
        }
        Build::open(&archive)
    };
    let builds = [build("ohg")?, build("price")?];
    MEASURED.get_or_init(|| builds);
    Ok(())
}

/// A function's address at each place, in the builds that are measured; 0 where it was not looked up yet.
pub struct Addresses([AtomicUsize; PLACES]);

impl Addresses {
    pub const fn new() -> Self {
        Addresses([const { AtomicUsize::new(0) }; PLACES])
    }

    /// The address at the place of now. This is timed with each call, so it is not looked up again.
    #[inline(always)]
    pub fn now(&self, name: &str) -> usize {
        match self.0[place() % PLACES].load(Ordering::Relaxed) {
            0 => self.look_up(name),
            address => address,
        }
    }

    #[cold]
    fn look_up(&self, name: &str) -> usize {
        let mut builds = MEASURED.get().into_iter().flatten();
        let found = builds.find_map(|build| build.addresses(name));
        let found = found.unwrap_or_else(|| panic!("no {name} in the archives"));
        for (kept, address) in self.0.iter().zip(&found) {
            kept.store(*address, Ordering::Relaxed);
        }
        found[place()]
    }
}

/// Declares functions of the port, as `extern "C"` does. A call of one is made at the place of now.
macro_rules! functions {
    ($(pub fn $name:ident($($part:ident: $type:ty),* $(,)?) -> u64;)*) => {$(
        pub unsafe fn $name($($part: $type),*) -> u64 {
            static ADDRESSES: crate::port::Addresses = crate::port::Addresses::new();
            let address = ADDRESSES.now(stringify!($name)) as *const ();
            std::mem::transmute::<*const (), unsafe extern "C" fn($($type),*) -> u64>(address)($($part),*)
        }
    )*};
}
pub(crate) use functions;
