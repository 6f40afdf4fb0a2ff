//! Applies a unified diff to a text, strictly: every line that it keeps or takes out has to stand where it says, and
//! every hunk has to have the lines that its head counts.

/// A text, and the lines of it that have been written so far.
struct Altering<'a> {
    old: Vec<&'a str>,
    at: usize,
    new: Vec<&'a str>,
    /// What the hunk still has to have of old lines and of new ones.
    left: [usize; 2],
}

/// The head of a hunk: its first line in the old text, and how many lines it has of the old and of the new one.
struct Head {
    first: usize,
    counts: [usize; 2],
}

/// The text as the diff alters it, or what does not fit. Lines before the first hunk are words to a reader.
pub fn altered(text: &str, diff: &str) -> Result<String, String> {
    let mut altering = Altering {
        old: text.split('\n').collect(),
        at: 0,
        new: Vec::new(),
        left: [0; 2],
    };
    let mut hunks = 0;
    for (number, line) in diff.lines().enumerate() {
        let failed = |why: String| format!("line {}: {why}", number + 1);
        if line.starts_with("@@ ") {
            hunks += 1;
            altering.go_to(head(line)).map_err(failed)?;
        } else if hunks > 0 {
            altering.follow(line).map_err(failed)?;
        }
    }
    if hunks == 0 {
        return Err("it has no hunk".to_string());
    }
    altering.end()
}

/// Reads `@@ -497,9 +497,8 @@`.
fn head(line: &str) -> Option<Head> {
    let (old, new) = line
        .strip_prefix("@@ -")?
        .split_once(" @@")?
        .0
        .split_once(" +")?;
    let (first, count) = old.split_once(',')?;
    let (_, new_count) = new.split_once(',')?;
    Some(Head {
        first: first.parse().ok()?,
        counts: [count.parse().ok()?, new_count.parse().ok()?],
    })
}

impl<'a> Altering<'a> {
    /// Begins a hunk: keeps the lines before it.
    fn go_to(&mut self, head: Option<Head>) -> Result<(), String> {
        self.whole()?;
        let head = head.ok_or("no head of a hunk")?;
        let place = head.first.checked_sub(1);
        let place = place.filter(|&place| self.at <= place && place <= self.old.len());
        let place = place.ok_or("no hunk can begin there")?;
        self.new.extend(&self.old[self.at..place]);
        self.at = place;
        self.left = head.counts;
        Ok(())
    }

    /// Keeps, takes out or adds a line, by the sign before it.
    fn follow(&mut self, line: &'a str) -> Result<(), String> {
        let (sign, words) = line.split_at_checked(1).unwrap_or((" ", ""));
        let [is_old, is_new] = match sign {
            " " => [true, true],
            "-" => [true, false],
            "+" => [false, true],
            _ => return Err(format!("{sign:?} is no sign")),
        };
        if is_old {
            self.take(0)?;
            if self.old.get(self.at) != Some(&words) {
                let there = self.old.get(self.at).unwrap_or(&"the end");
                return Err(format!(
                    "{words:?} is not at line {}: {there:?}",
                    self.at + 1
                ));
            }
            self.at += 1;
        }
        if is_new {
            self.take(1)?;
            self.new.push(words);
        }
        Ok(())
    }

    /// Counts a line of the hunk, old (0) or new (1).
    fn take(&mut self, which: usize) -> Result<(), String> {
        let less = self.left[which].checked_sub(1);
        self.left[which] = less.ok_or("the hunk has more lines than its head counts")?;
        Ok(())
    }

    fn whole(&self) -> Result<(), String> {
        if self.left == [0; 2] {
            return Ok(());
        }
        Err("a hunk has fewer lines than its head counts".to_string())
    }

    fn end(mut self) -> Result<String, String> {
        self.whole()?;
        self.new.extend(&self.old[self.at..]);
        Ok(self.new.join("\n"))
    }
}

#[cfg(test)]
mod tests {
    use super::altered;

    const TEXT: &str = "one\ntwo\nthree\nfour\nfive\n";
    const DIFF: &str = "words\n--- a\n+++ b\n@@ -2,3 +2,3 @@\n two\n-three\n+3\n four\n";

    #[test]
    fn lines_are_taken_out_and_added() {
        assert_eq!(
            altered(TEXT, DIFF).as_deref(),
            Ok("one\ntwo\n3\nfour\nfive\n")
        );
    }

    #[test]
    fn a_text_that_does_not_fit_is_refused() {
        for other in [
            "one\ntwo\n3\nfour\nfive\n",
            "two\nthree\nfour\n",
            "one\ntwo\nthree\n",
            "",
        ] {
            assert!(altered(other, DIFF).is_err(), "{other:?}");
        }
        assert!(altered(&format!("zero\n{TEXT}"), DIFF).is_err());
    }

    #[test]
    fn a_diff_that_is_none_is_refused() {
        for diff in [
            "",
            "words\n",
            "@@ -9,1 +9,1 @@\n six\n",
            "@@ -1,1 +1,1 @@\n*one\n",
            "@@ -1 +1 @@\n one\n",
        ] {
            assert!(altered(TEXT, diff).is_err(), "{diff:?}");
        }
    }

    #[test]
    fn a_diff_that_is_cut_off_or_goes_on_is_refused() {
        assert!(altered(TEXT, DIFF.strip_suffix(" four\n").unwrap()).is_err());
        assert!(altered(TEXT, &format!("{DIFF} five\n")).is_err());
        assert!(altered(TEXT, &format!("{DIFF}+six\n")).is_err());
    }
}
