//! Maps and queues.

pub mod btree_map;
pub mod hash_map;
pub mod vec_deque;

pub use btree_map::BTreeMap;
pub use hash_map::HashMap;
pub use vec_deque::VecDeque;
