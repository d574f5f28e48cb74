//! The same program with its code 32 bytes further on (../speed.rs).
oracle::program!(32);
