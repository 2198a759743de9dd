//! The benchmark, all of whose code stands 48 octets further on (src/bench).

a6plan_tests::bench!(48);
