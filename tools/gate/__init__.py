"""The quick look and the gate, with the checks of pages, sources and dist/."""
