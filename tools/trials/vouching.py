"""Runs ./vouch, and ./bundle before it, on keys, certificates and lists that openssl makes anew: which lines come out, what is told, and the status."""
import tempfile

from trials import vouching_algorithms, vouching_files, vouching_items, vouching_tries
from trials.count import Trial
from trials.vouching_pki import Workshop
from trials.vouching_trials import Trials


GROUPS = (vouching_algorithms, vouching_items, vouching_tries, vouching_files)


class Vouching(Trial):
    def test_vouching(self):
        self.need("openssl")
        self.program()
        with tempfile.TemporaryDirectory(prefix="vouching-") as room:
            trials = Trials(Workshop(room), self)
            for group in GROUPS:
                group.trials(trials)
