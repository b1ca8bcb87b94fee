"""What the wheel, ./install and the Debian package consist of, and how each is made."""
