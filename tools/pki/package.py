"""Makes the package python/certpath known to the scripts that share its modules."""
import sys

from program import installed

sys.path.insert(0, installed.FOLDER)
