//! The text of a feed, and the listing of its scaling factors.
use crate::ffi;

/// The text of a feed's bytes: the rows of each block with the line `limited`, those of each reading with the line `columns`, then `blocks` and how many, or the line
/// of a refusal.
///
/// ```
/// let mut feed = vec![1, 8, 0, 4, 0, 4, 2];
/// feed.resize(70, 0);
/// feed.extend([8, 0, 0, 0, 0, 0, 0, 9]);
/// let text = foxentu::feed_text(&feed);
/// assert!(text.starts_with("1 1 1 1\n") && text.ends_with("0 0 0 0\ncolumns 0\nblocks 1\n"));
/// assert_eq!(foxentu::feed_text(&[9]), "refused 24 0\n");
/// ```
pub fn feed_text(feed: &[u8]) -> String {
    let mut text = vec![0; unsafe { ffi::residual_feed_room(feed.as_ptr(), feed.len()) }];
    let ran = unsafe { ffi::residual_feed_run(feed.as_ptr(), feed.len(), text.as_mut_ptr(), text.len()) };
    text.truncate(ran.end);
    text.into_iter().map(char::from).collect()
}

/// Which factor m scaling uses at each index of a feed's blocks, and why: a line for each index with the index, m, the reason (`none`, `four`, `eight`, `dc`, `repeat`
/// or `skip`) and the position in the list, or a hyphen; then the line of a refusal, where the feed has one.
///
/// ```
/// let mut feed = vec![1, 8, 0, 4, 0, 2];
/// feed.extend([20; 64]);
/// feed.extend([30, 6]);
/// feed.resize(feed.len() + 4 * 256, 0);
/// let listing = foxentu::listing_text(&feed);
/// assert!(listing.starts_with("0 30 dc -\n1 20 repeat 0\n2 20 repeat 1\n"));
/// assert_eq!(listing.lines().count(), 256);
/// assert_eq!(foxentu::listing_text(&[9]), "refused 24 0\n");
/// ```
pub fn listing_text(feed: &[u8]) -> String {
    let mut text = vec![0; unsafe { ffi::residual_listing_room(feed.as_ptr(), feed.len()) }];
    let ran = unsafe { ffi::residual_listing_run(feed.as_ptr(), feed.len(), text.as_mut_ptr(), text.len()) };
    text.truncate(ran.end);
    text.into_iter().map(char::from).collect()
}
