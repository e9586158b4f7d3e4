"""The comparisons of .ci/check-pages, by what they compare. Each is a function that yields a line for each difference."""
