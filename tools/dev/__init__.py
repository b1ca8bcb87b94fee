"""Single crates, wrong bodies, costs, and the pages and rows that are written from sources."""
