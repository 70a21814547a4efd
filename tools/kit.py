"""What the scripts of this repository know of Rattle's kit: where it lies, what crates.txt lists, what is still as the sources have it, and how the
kit's compiler is called over the libraries that `rt ci` has left, so that nothing that was proved is proved again.
"""
import os
import subprocess

PARTS = ('src', 'specs', 'proofs')


def home():
    """The kit's folder: the one that has the page `rt doc` names."""
    told = subprocess.run(['rt', 'doc'], stdout=subprocess.PIPE, check=True, text=True)
    return os.path.dirname(told.stdout.strip())


def jobs():
    return str(min(len(os.sched_getaffinity(0)), 4))


class Crates:
    """The crates that crates.txt lists, in the folder that has it."""

    def __init__(self, root):
        self.root = root
        self.named = {}
        self.static = set()
        with open(os.path.join(root, 'crates.txt'), encoding='utf-8') as lines:
            for line in lines:
                head, colon, names = line.partition('#')[0].partition(':')
                words = head.split()
                if colon and words:
                    self.named[words[0]] = names.split()
                    if 'staticlib' in words[1:]:
                        self.static.add(words[0])

    def folder(self, name):
        return os.path.join(self.root, 'crates', name)

    def library(self, name):
        return os.path.join(self.folder(name), 'out', 'rlib', name + '.rlib')

    def below(self, name):
        """The repository's libraries below a crate, each behind those that it uses."""
        found = []
        for used in self.named[name]:
            if used in self.named:
                found += [it for it in self.below(used) + [used] if it not in found]
        return found

    def changed(self, name):
        """When a file was last written that a crate, or one below it, is made from."""
        latest = os.stat(os.path.join(self.root, 'crates.txt')).st_mtime_ns
        for it in self.below(name) + [name]:
            for part in PARTS:
                for at, _, files in os.walk(os.path.join(self.folder(it), part)):
                    for path in [at] + [os.path.join(at, file) for file in files]:
                        latest = max(latest, os.stat(path).st_mtime_ns)
        return latest

    def is_current(self, path, name):
        """Whether a path is there, and was made after the last change of what the crate is made from."""
        return os.path.exists(path) and os.stat(path).st_mtime_ns > self.changed(name)

    def has_libraries(self, name):
        """Whether the libraries below a crate stand as its sources have them: `rt ci` and `rt check` leave them, once they are proved."""
        return all(os.path.exists(os.path.join(self.library(it), 'format')) and self.is_current(self.library(it), it) for it in self.below(name))

    def words(self, name, kit):
        """The words after `rattle check` or `rattle build`, in the crate's folder or a copy of it, over the libraries below."""
        root = 'src/main.rt' if os.path.exists(os.path.join(self.folder(name), 'src', 'main.rt')) else 'src/lib.rt'
        found = ['--crate-name', name, root, '--links', name + '=']
        for used in ['std'] + self.named[name]:
            library = self.library(used) if used in self.named else os.path.join(kit, 'rlibs', used + '.rlib')
            found += ['--extern', used + '=' + library]
        for place in [os.path.dirname(self.library(it)) for it in self.below(name)] + [os.path.join(kit, 'rlibs')]:
            found += ['-L', 'dependency=' + place]
        found += ['--antt-project', os.path.join(kit, 'rattle', 'logic', 'antt-project.json'), '--logic-built', os.path.join(kit, 'logic_built')]
        return found + (['--crate-type', 'staticlib'] if name in self.static else [])


def prepared(crates, name):
    """Whether the libraries below a crate stand as its sources have them; where that is not plain, `rt check` in its folder sees to it."""
    how = {'cwd': crates.folder(name), 'stdin': subprocess.DEVNULL, 'stdout': subprocess.DEVNULL, 'stderr': subprocess.DEVNULL}
    return crates.has_libraries(name) or subprocess.run(['rt', 'check'], **how).returncode == 0
