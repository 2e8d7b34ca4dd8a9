//! The places where tasks are spawned: a program has few, and comes to each often.

use crate::fields::{shortened, Place};
use std::borrow::Cow;
use std::collections::HashMap;
use std::sync::{PoisonError, RwLock};
use taskscope::Location;

/// How many places are kept.
const MOST: usize = 4096;

/// How many places a thread keeps: a power of two.
const RECENT: usize = 64;

/// The places of one file, by lines and columns.
type OfFile = HashMap<(u32, u32), Site>;

/// The places that tasks were spawned at, by their files as tokio reports them. Their texts stay.
#[derive(Debug, Default)]
pub(crate) struct Places(RwLock<HashMap<String, OfFile>>);

/// A place as lines have it.
#[derive(Clone, Debug)]
pub(crate) struct Site {
    /// `file:line:column`, the name of an item that has none.
    pub(crate) text: Cow<'static, str>,
    pub(crate) location: Location,
}

/// The places that a thread came to last, each in the one place that its line gives.
#[derive(Debug)]
pub(crate) struct Recent(Vec<Option<(Place, Site)>>);

impl Recent {
    pub(crate) const NONE: Recent = Recent(Vec::new());

    #[inline]
    fn place(place: &Place) -> usize {
        (place.line ^ place.column << 3) as usize % RECENT
    }

    fn keep(&mut self, place: &Place, site: &Site) {
        if self.0.is_empty() {
            self.0.resize_with(RECENT, || None);
        }
        let kept = Place { file: place.file.clone(), ..*place };
        self.0[Recent::place(place)] = Some((kept, site.clone()));
    }
}

impl Places {
    /// A place as lines have it. Its file has no bytes if tokio reported none.
    #[inline]
    pub(crate) fn site(&self, recent: &mut Recent, place: &Place) -> Site {
        if let Some(Some((known, site))) = recent.0.get(Recent::place(place)) {
            if known == place {
                return site.clone();
            }
        }
        let site = self.known(place).unwrap_or_else(|| self.add(place));
        if let Cow::Borrowed(_) = site.text {
            recent.keep(place, &site);
        }
        site
    }

    fn known(&self, place: &Place) -> Option<Site> {
        let places = self.0.read().unwrap_or_else(PoisonError::into_inner);
        places.get(&place.file)?.get(&(place.line, place.column)).cloned()
    }

    /// Keeps a place, for good, if there is room for it.
    fn add(&self, place: &Place) -> Site {
        let file = shortened(&place.file);
        let text = format!("{file}:{}:{}", place.line, place.column);
        let mut places = self.0.write().unwrap_or_else(PoisonError::into_inner);
        if places.values().map(HashMap::len).sum::<usize>() >= MOST {
            let location = Location::new(file.to_owned(), place.line, place.column);
            return Site { text: Cow::Owned(text), location };
        }
        let site = || {
            let text: &'static str = Box::leak(text.into_boxed_str());
            Site { text: text.into(), location: Location::new(&text[..file.len()], place.line, place.column) }
        };
        let of_file = places.entry(place.file.clone()).or_default();
        of_file.entry((place.line, place.column)).or_insert_with(site).clone()
    }
}

#[cfg(test)]
mod tests {
    use super::*;

    #[test]
    fn places_are_kept_up_to_a_limit() {
        let (places, mut recent) = (Places::default(), Recent::NONE);
        for _ in 0..2 {
            for line in 0..5000 {
                let site = places.site(&mut recent, &Place { file: "src/main.rs".to_owned(), line, column: 5 });
                assert_eq!(site.location, Location::new("src/main.rs", line, 5));
                assert_eq!(matches!(site.text, Cow::Borrowed(_)), line < 4096, "line {line}");
                assert_eq!(site.text, format!("src/main.rs:{line}:5"));
            }
        }
    }

    #[test]
    fn a_thread_tells_places_of_one_line_apart() {
        let (places, mut recent) = (Places::default(), Recent::NONE);
        let of_cargo = "/home/me/.cargo/registry/src/index.crates.io-6f17d22bba15001f/hyper-0.14.19/src/exec.rs";
        let cases = [
            ("src/main.rs", 7, 5, "src/main.rs:7:5"),
            ("src/mine.rs", 7, 5, "src/mine.rs:7:5"),
            ("src/main.rs", 7 + 64, 5, "src/main.rs:71:5"),
            ("src/main.rs", 7, 5 + 8, "src/main.rs:7:13"),
            (of_cargo, 7, 5, "hyper-0.14.19/src/exec.rs:7:5"),
            ("", 0, 0, ":0:0"),
        ];
        for _ in 0..3 {
            for (file, line, column, text) in cases {
                for _ in 0..2 {
                    let site = places.site(&mut recent, &Place { file: file.to_owned(), line, column });
                    assert_eq!(site.text, text);
                    let short = text.rsplitn(3, ':').last().expect("a file").to_owned();
                    assert_eq!(site.location, Location::new(short, line, column));
                }
            }
        }
    }
}
