//! Only named by the dump, which never runs.

use core::fmt::{self, Display};

pub fn display_iter<T: Display>(
    items: impl IntoIterator<Item = T>,
    separator: &str,
) -> impl Display {
    let texts: Vec<String> = items.into_iter().map(|item| item.to_string()).collect();
    Joined(texts.join(separator))
}

struct Joined(String);

impl Display for Joined {
    fn fmt(&self, f: &mut fmt::Formatter<'_>) -> fmt::Result {
        f.write_str(&self.0)
    }
}
