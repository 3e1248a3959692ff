/// Accessors of the comparison: what this file keeps private, handed out as it is.
pub mod accessors {
    use super::{
        AdjustedProbabilityTables, ConsensusBaseBuilder, DNA_BASE_COUNT, LogProbability,
        PhredScore, UnanimousGapTables, build_unanimous_gap_tables, f64x4,
    };

    /// `correct` and `error_per_alt` of a post-UMI rate, computed anew.
    #[must_use]
    pub fn adjusted_tables(post: PhredScore) -> (Box<[LogProbability]>, Box<[LogProbability]>) {
        let AdjustedProbabilityTables { correct, error_per_alt } =
            AdjustedProbabilityTables::compute(post);
        (correct, error_per_alt)
    }

    /// Thresholds, `cerr_min` and cap of a pre-UMI rate, computed anew.
    #[must_use]
    pub fn gap_tables(pre: PhredScore) -> (Box<[f64]>, Box<[f64]>, usize) {
        let UnanimousGapTables { thresholds, cerr_min, cap } = build_unanimous_gap_tables(pre);
        (thresholds, cerr_min, cap)
    }

    /// What a builder has summed up and counted, in the order A, C, G, T.
    #[derive(Clone, Copy)]
    pub struct State {
        pub likelihoods: [LogProbability; DNA_BASE_COUNT],
        pub compensations: [f64; DNA_BASE_COUNT],
        pub observations: [u32; DNA_BASE_COUNT],
    }

    #[must_use]
    pub fn state(builder: &ConsensusBaseBuilder) -> State {
        State {
            likelihoods: *builder.likelihoods.as_array(),
            compensations: *builder.compensations.as_array(),
            observations: builder.observations,
        }
    }

    /// Gives a builder a state that it need not have reached by itself.
    pub fn set_state(builder: &mut ConsensusBaseBuilder, state: State) {
        builder.likelihoods = f64x4::from(state.likelihoods);
        builder.compensations = f64x4::from(state.compensations);
        builder.observations = state.observations;
    }

    /// [`ConsensusBaseBuilder::try_unanimous_fast_path`].
    #[must_use]
    pub fn try_unanimous_fast_path(builder: &ConsensusBaseBuilder) -> Option<(u8, PhredScore)> {
        builder.try_unanimous_fast_path()
    }

    /// [`ConsensusBaseBuilder::try_multibase_fast_path`].
    #[must_use]
    pub fn try_multibase_fast_path(builder: &ConsensusBaseBuilder) -> Option<(u8, PhredScore)> {
        builder.try_multibase_fast_path()
    }

    /// [`ConsensusBaseBuilder::call_full`].
    #[must_use]
    pub fn call_full(builder: &ConsensusBaseBuilder) -> (u8, PhredScore) {
        builder.call_full()
    }
}
