"""The commands of this folder, a module for each: `bench/NAME` starts it."""
