//! Specs alone name Rattle's table of words and slots.
