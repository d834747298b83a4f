//! The lengths of the work rooms, which stand in the C headers of the port and of the archive above it.

use std::collections::HashMap;
use std::path::{Path, PathBuf};
use std::{env, fs};

/// The port's header, seen from the repository's root, and the other, which stands beside it.
const HEADER: &str = "bindings/ohg.h";
const ABOVE: &str = "price.h";

/// A length stands in a line of its own: `#define OHG_ROOM_DELETE_NODES 4096`.
const DEFINE: &str = "#define ";
const PREFIX: &str = "OHG_ROOM_";

pub struct Rooms {
    header: PathBuf,
    lengths: HashMap<String, usize>,
}

impl Rooms {
    /// Reads the headers: the port's, or the one that `OHG_HEADER` names, and what is above it.
    pub fn read() -> Result<Rooms, String> {
        let root = Path::new(env!("CARGO_MANIFEST_DIR")).join("../..");
        let header = root.join(env::var_os("OHG_HEADER").unwrap_or(HEADER.into()));
        let mut lengths = HashMap::new();
        for header in [&header, &header.with_file_name(ABOVE)] {
            let text = fs::read_to_string(header);
            let text = text.map_err(|e| format!("{}: {e}", header.display()))?;
            lengths.extend(text.lines().filter_map(defined));
        }
        Ok(Rooms { header, lengths })
    }

    /// The length of a function's work room.
    pub fn of(&self, function: &str) -> Result<usize, String> {
        let name = function.trim_start_matches("ohg_").to_uppercase();
        self.lengths.get(&name).copied().ok_or_else(|| {
            format!(
                "{} has no line `{DEFINE}{PREFIX}{name} N` for the work room of {function}",
                self.header.display()
            )
        })
    }
}

/// The name after the prefix and the length, where a line gives them.
fn defined(line: &str) -> Option<(String, usize)> {
    let (name, length) = line
        .strip_prefix(DEFINE)?
        .strip_prefix(PREFIX)?
        .split_once(' ')?;
    Some((name.to_string(), length.trim().parse().ok()?))
}

#[cfg(test)]
mod tests {
    use super::*;

    #[test]
    fn a_length_is_read_from_its_line() {
        let room = |line| defined(line);
        let found = Some(("DELETE_NODES".to_string(), 4096));
        assert_eq!(room("#define OHG_ROOM_DELETE_NODES 4096"), found);
        assert_eq!(room("#define OHG_FORM_BYTES 655385"), None);
        assert_eq!(room("/* OHG_ROOM_DELETE_NODES 4096 */"), None);
    }
}
