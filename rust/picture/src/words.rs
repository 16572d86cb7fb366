//! Words that several modules use.

use hedjosur_model::record::Kind;

/// A number of things, in words.
///
/// ```
/// use hedjosur_picture::words::counted;
///
/// assert_eq!(counted(1, "level"), "1 level");
/// assert_eq!(counted(2, "level"), "2 levels");
/// ```
pub fn counted(count: usize, what: &str) -> String {
    match count {
        1 => format!("1 {what}"),
        _ => format!("{count} {what}s"),
    }
}

/// What a record of a kind is.
///
/// ```
/// use hedjosur_model::record::Kind;
/// use hedjosur_picture::words::kind;
///
/// assert_eq!(kind(Kind::Single), "single");
/// assert_eq!(kind(Kind::Accurate { stride: 2 }), "stride 2");
/// assert_eq!(kind(Kind::Approximate { slope: 2 }), "approximate");
/// ```
pub fn kind(kind: Kind) -> String {
    match kind {
        Kind::Single => "single".to_string(),
        Kind::Accurate { stride } => format!("stride {stride}"),
        Kind::Approximate { .. } => "approximate".to_string(),
    }
}
