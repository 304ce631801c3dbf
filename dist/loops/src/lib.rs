//! Nothing: the examples are all there is.
