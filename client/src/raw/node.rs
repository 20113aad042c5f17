//! What stands at a path.

extern "C" {
    fn algebra_node(
        language: *const u8,
        language_length: usize,
        root: u32,
        tree: *const u8,
        tree_length: usize,
        index: *const u8,
        index_length: usize,
        path: *const u8,
        path_length: usize,
        kind: *mut u32,
        name: *mut u32,
        arguments: *mut u32,
    ) -> u32;
}

/// The name that stands for a token, which has none.
pub const NO_NAME: u32 = 256;

/// What stands at a path, as the library gives it; a refusal has kind, name and arguments 0.
#[derive(Clone, Copy, Debug, PartialEq, Eq)]
pub struct NodeAnswer {
    /// 0, or the number of the refusal.
    pub number: u32,
    /// The kind of the node.
    pub kind: u32,
    /// The name of its production, or [`NO_NAME`] for a token.
    pub name: u32,
    /// How many arguments it has.
    pub arguments: u32,
}

/// Tells what stands in a tree, with its index, at a path.
pub fn node(language: &[u8], root: u32, tree: &[u8], index: &[u8], path: &[u8]) -> NodeAnswer {
    let (mut kind, mut name, mut arguments) = (u32::MAX, u32::MAX, u32::MAX);
    // SAFETY: pointers and lengths are those of slices that are lent for the call, and the
    // figures are lent for writing.
    let number = unsafe {
        algebra_node(
            language.as_ptr(),
            language.len(),
            root,
            tree.as_ptr(),
            tree.len(),
            index.as_ptr(),
            index.len(),
            path.as_ptr(),
            path.len(),
            &mut kind,
            &mut name,
            &mut arguments,
        )
    };
    NodeAnswer { number, kind, name, arguments }
}
