"""Pictures: the answers of a window as a timeline."""
