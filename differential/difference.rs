//! A difference between the engine and another side.

pub struct Difference {
    /// From whom, and what differs.
    pub what: &'static str,
    /// The call behind which it was seen.
    pub call: String,
    pub engine: String,
    pub other: String,
}

pub fn same(what: &'static str, call: &str, engine: String, other: String) -> Result<(), Difference> {
    if engine == other {
        return Ok(());
    }
    Err(Difference { what, call: call.to_owned(), engine, other })
}
