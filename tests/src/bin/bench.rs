//! The benchmark (src/bench).

a6plan_tests::bench!(0);
