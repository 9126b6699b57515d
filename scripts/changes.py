"""What changed in the repository since a commit, and which crates that concerns."""

import re
import subprocess

from repository import MADE_OF

# a public item of a source
PUBLIC = re.compile(r"^\s*pub (?:const |unsafe )*(?:fn|struct|enum|trait|const|static|type) (\w+)", re.M)


class Changes:
    """The files that differ from a commit's, those that aren't committed yet among them."""

    def __init__(self, repository, revision):
        self.repository, self.revision = repository, revision
        self.is_known = bool(self.git("rev-parse", "--verify", "--quiet", f"{revision}^{{commit}}"))
        named = self.git("diff", "--name-only", revision, "--").splitlines() if self.is_known else []
        named += self.git("ls-files", "--others", "--exclude-standard").splitlines() if self.is_known else []
        self.files = {repository.root / it for it in named}

    def git(self, *words):
        words = ["git", "-c", "core.quotepath=off", *words]
        ran = subprocess.run(words, cwd=self.repository.root, capture_output=True, text=True, check=False)
        return ran.stdout.strip() if ran.returncode == 0 else ""

    def draw(self):
        """Returns a number that each HEAD has its own of."""
        return int(self.git("rev-parse", "HEAD")[:8] or "0", 16)

    def crates(self):
        """Returns the crates that changed, and then those above that name what changed."""
        crates = [*self.repository.crates.values()]
        changed = [it for it in crates if self.of(it, (*MADE_OF, "attacks")) or self.has_new_line(it)]
        below = {it: [low for low in self.repository.below(it) if low in changed] for it in crates if it not in changed}
        return changed + [it for it, those in below.items() if any(self.is_told(it, low) for low in those)]

    def of(self, crate, folders):
        """Returns the crate's files in these of its folders that changed, but wrong bodies that are gone."""
        found = [it for it in self.files if crate.folder in it.parents and it.relative_to(crate.folder).parts[0] in folders]
        return [it for it in found if it.suffix != ".edit" or it.exists()]

    def has_new_line(self, crate):
        if not self.is_known:
            return False
        before = self.git("show", f"{self.revision}:crates.txt").splitlines()
        return crate.line not in [it.split("#")[0].strip() for it in before]

    def is_told(self, crate, below):
        """Whether a text of the crate names what stands in a file of one below that changed; where nothing does, whether it stands on it
        directly."""
        files = self.of(below, MADE_OF)
        there = [it for it in files if it.exists()]
        names = {name for it in there for name in ([it.stem] if it.suffix == ".antt" else PUBLIC.findall(it.read_text(encoding="utf-8")))}
        if not names:
            return bool(files) and below.name in crate.uses
        texts = (set(re.findall(r"\w+", it.read_text(encoding="utf-8"))) for it in [*crate.files(".rt"), *crate.files(".antt")])
        return any(below.name in words and names & words for words in texts)
