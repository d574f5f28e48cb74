//! The same program with its code 48 bytes further on (../speed.rs).
oracle::program!(48);
