//! The benchmark, all of whose code stands 32 octets further on (src/bench).

a6plan_tests::bench!(32);
