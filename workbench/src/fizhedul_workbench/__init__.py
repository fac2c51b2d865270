"""A shell, pictures and imports around the proved program; none of them computes an answer of its own."""
