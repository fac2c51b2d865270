"""Many questions, or one over many windows, on many processors and machines."""
