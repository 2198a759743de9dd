//! The benchmark, all of whose code stands 16 octets further on (src/bench).

a6plan_tests::bench!(16);
