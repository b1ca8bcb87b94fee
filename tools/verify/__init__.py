"""What ./verify does: files and words in, the answers of the proved programs out, as text, JSON, DOT or a page.

Nothing here reads PEM or DER or judges anything. The package `certpath` takes the items out of files, says what an item is
and shows its fields, and asks OpenSSL for signatures; `certpath why` and `certpath paths` answer.
"""
