//! The limits of a node. They are those of the proved program.

/// Peers that are known at a time.
pub const PEERS: usize = 256;

/// Incoming connections that are open at a time.
pub const CONNECTIONS: usize = 512;

/// Octets of the bodies of one message, all its frames together.
pub const MESSAGE_OCTETS: usize = 1 << 20;

/// Frames of one message.
pub const MESSAGE_FRAMES: usize = 1024;

/// Octets of the body of one ZMTP command.
pub const COMMAND_OCTETS: u64 = 1 << 16;

/// Groups that one peer is in.
pub const GROUPS: usize = 1024;

/// Headers of one peer, counted by distinct names.
pub const HEADERS: usize = 256;

/// Octets of a group's name.
pub const GROUP_OCTETS: usize = 255;

/// Groups that the node itself is in.
pub const OWN_GROUPS: usize = 1024;

/// Octets on one link that are queued and not yet sent.
pub const UNSENT_OCTETS: usize = 4 << 20;

/// Octets of one line of a capture, without its line feed.
pub const LINE_OCTETS: usize = 4 << 20;
