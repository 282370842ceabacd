//! The calls and their values. docs/RULES.md, 'The pair' and 'The calls'.

/// What an enter gives.
#[derive(Clone, Copy)]
pub struct Entry {
    pub id: u64,
    pub kind: u64,
    pub category: u64,
    pub isd: u64,
    pub side: u64,
    pub amount: u64,
    pub deliverer: u64,
    pub receiver: u64,
}

#[derive(Clone, Copy)]
pub enum Call {
    Enter(Entry),
    Hold { id: u64, side: u64, on: u64 },
    Lack { id: u64, lack: u64 },
    Settle { id: u64, part: u64 },
    Cancel { id: u64 },
    Close,
}

impl Call {
    /// The id of the pair that it speaks of; a close speaks of all.
    pub fn id(&self) -> Option<u64> {
        match *self {
            Call::Enter(Entry { id, .. })
            | Call::Hold { id, .. }
            | Call::Lack { id, .. }
            | Call::Settle { id, .. }
            | Call::Cancel { id } => Some(id),
            Call::Close => None,
        }
    }
}
