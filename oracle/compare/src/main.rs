//! The comparison, and the first of the four programs that `oracle speed` measures with.
oracle::program!(0);
