/// Accessors of the comparison: what this file keeps private, handed out as it is.
pub mod accessors {
    use super::{ConsensusBaseBuilder, SimpleConsensusCaller, SimpleUmiConsensusCaller};

    /// A wrapper around any caller; the source's own constructor takes the default one.
    #[must_use]
    pub fn wrapped(caller: SimpleConsensusCaller) -> SimpleUmiConsensusCaller {
        SimpleUmiConsensusCaller { caller }
    }

    /// The caller in a wrapper.
    #[must_use]
    pub fn inner(caller: &mut SimpleUmiConsensusCaller) -> &mut SimpleConsensusCaller {
        &mut caller.caller
    }

    #[must_use]
    pub fn wrapped_builder(caller: &SimpleUmiConsensusCaller) -> &ConsensusBaseBuilder {
        &caller.caller.builder
    }

    /// [`SimpleConsensusCaller::is_dna_base`].
    #[must_use]
    pub fn is_dna_base(b: u8) -> bool {
        SimpleConsensusCaller::is_dna_base(b)
    }
}
