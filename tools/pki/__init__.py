"""What ./verify and ./vouch share: how files are read and written whole, and what is reported of items."""
