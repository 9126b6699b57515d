"""Scripts that measure time and memory. docs/BENCHMARKS.md has their figures."""
