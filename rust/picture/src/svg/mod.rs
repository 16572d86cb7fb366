//! The drawings, as SVG. Each brings its own paper, so that it reads on light and dark
//! backgrounds alike; kinds differ in form, not in colour alone; title and description
//! say it all in words.
//!
//! - [`listings`]: listings, one below the other
//! - [`why`]: why a lookup ends where it does
//! - [`cuttings`]: how a flush can be cut into runs
//! - [`levels`]: records on levels, and [`pages`]: pages with their spare entries; the
//!   pieces that pictures are put together from
//! - [`paper`]: what they are drawn on; [`slide`]: what those for a slide share

pub mod cuttings;
pub mod levels;
pub mod listings;
pub mod pages;
pub mod paper;
pub mod slide;
pub mod why;

/// What the tests share.
#[cfg(test)]
pub(crate) mod testing {
    /// What stands between two marks, for the first place that has them.
    pub fn between<'a>(text: &'a str, before: &str, after: &str) -> &'a str {
        let (_, rest) = text.split_once(before).expect(before);
        rest.split_once(after).expect(after).0
    }

    /// How many elements have a class of this name.
    pub fn count(picture: &str, class: &str) -> usize {
        let (_, drawn) = picture.split_once("</defs>").expect("a style sheet");
        drawn
            .split("class=\"")
            .skip(1)
            .filter_map(|rest| rest.split('"').next())
            .filter(|classes| classes.split(' ').any(|one| one == class))
            .count()
    }

    /// Every tag that is opened is closed, in order; nothing needs escaping.
    pub fn tags_match(picture: &str) {
        let mut open: Vec<&str> = Vec::new();
        for tag in picture.split('<').skip(1) {
            let (tag, _) = tag.split_once('>').expect("a tag ends");
            let name = tag.trim_start_matches('/').split(' ').next();
            match (tag.starts_with('/'), tag.ends_with('/')) {
                (true, _) => assert_eq!(open.pop(), name),
                (false, true) => {}
                (false, false) => open.extend(name),
            }
        }
        assert!(open.is_empty(), "{open:?}");
        assert!(!picture.contains('&'));
    }
}
