"""Tests of the runner. They need no toolchain: a script stands in for it."""
