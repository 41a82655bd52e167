"""What the tests of one leg's numbers have in common: a file that is made, a word that runs on it, and its end."""
import os
import subprocess
import tempfile

from checks import Wrong


class Made:
    """A network, made of a seed: whether it is of version 2, its histories and periods, legs with their seats and
    authorised seats, products with their fares and legs, and demand by product and history."""

    def file(self):
        rows = [("periods", self.histories, self.periods, *([2] if self.second else []))]
        rows += [("leg", name, seats, *([authorised] if self.second else []), 300, 100)
                 for name, seats, authorised in self.legs]
        rows += [("product", name, fare, *legs) for name, fare, legs in self.products]
        rows += [("demand", name, history, *seats) for (name, history), seats in self.demand.items()]
        return "".join(",".join(map(str, row)) + "\n" for row in rows)


def ended(program, runs):
    """Runs words on made networks, each a word, a network, more words, the status and the line that are wanted, and
    what looks at all that was told. Gives how many passed and failed, and what was seen; what fails is told."""
    passed, failed, seen = 0, 0, []
    for word, made, words, status, line, look in runs:
        with tempfile.TemporaryDirectory() as folder:
            with open(os.path.join(folder, "network.csv"), "w") as file:
                file.write(made.file())
            done = subprocess.run([*program, word, "network.csv", *words], cwd=folder, text=True, capture_output=True)
        try:
            if done.returncode != status or done.stderr or line is not None and done.stdout != line:
                raise Wrong(f"status {status}{f' and {line!r}' if line else ''}")
            seen += [look(made, done.stdout)] if look else []
            passed += 1
        except Wrong as wrong:
            failed += 1
            print(f"{word} {' '.join(words)}: status {done.returncode}: {done.stdout}{done.stderr}", f"wanted {wrong}",
                  *made.file().splitlines(), sep="\n    ")
    return passed, failed, seen
