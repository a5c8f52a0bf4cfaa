include!("slatedb/oracle.rs");
