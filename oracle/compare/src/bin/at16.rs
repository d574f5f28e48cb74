//! The same program with its code 16 bytes further on (../speed.rs).
oracle::program!(16);
