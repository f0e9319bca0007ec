//! Nodes: the 32-byte values of the tree, commitments among them.
use crate::hex;
use std::error::Error;
use std::fmt;
use std::str::FromStr;

/// A node of the tree. It is shown and read as 64 hex digits.
#[derive(Clone, Copy, PartialEq, Eq, Hash, PartialOrd, Ord, Default)]
pub struct Node(pub [u8; 32]);

impl AsRef<[u8]> for Node {
    fn as_ref(&self) -> &[u8] {
        &self.0
    }
}

impl From<[u8; 32]> for Node {
    fn from(bytes: [u8; 32]) -> Node {
        Node(bytes)
    }
}

impl fmt::Display for Node {
    fn fmt(&self, f: &mut fmt::Formatter<'_>) -> fmt::Result {
        f.pad(&hex::encode(&self.0))
    }
}

impl fmt::Debug for Node {
    fn fmt(&self, f: &mut fmt::Formatter<'_>) -> fmt::Result {
        write!(f, "Node({self})")
    }
}

/// The text is not 64 hex digits.
#[derive(Clone, Copy, Debug, PartialEq, Eq)]
pub struct NotANode;

impl fmt::Display for NotANode {
    fn fmt(&self, f: &mut fmt::Formatter<'_>) -> fmt::Result {
        f.write_str("a node is written as 64 hex digits")
    }
}

impl Error for NotANode {}

impl FromStr for Node {
    type Err = NotANode;

    fn from_str(text: &str) -> Result<Node, NotANode> {
        let bytes = hex::decode(text).ok_or(NotANode)?;
        bytes.try_into().map(Node).map_err(|_| NotANode)
    }
}

#[cfg(test)]
mod tests {
    use super::*;

    #[test]
    fn text_there_and_back() {
        let node = Node(std::array::from_fn(|i| i as u8));
        let text = "000102030405060708090a0b0c0d0e0f101112131415161718191a1b1c1d1e1f";
        assert_eq!(node.to_string(), text);
        assert_eq!(text.parse(), Ok(node));
        assert_eq!(text.to_uppercase().parse(), Ok(node));
        assert_eq!(format!("{node:?}"), format!("Node({text})"));
    }

    #[test]
    fn other_text_is_no_node() {
        let long = "00".repeat(33);
        let odd = "0".repeat(63);
        let bad = "g".repeat(64);
        for text in ["", "00", &long, &odd, &bad] {
            assert_eq!(text.parse::<Node>(), Err(NotANode), "{text:?}");
        }
    }
}
