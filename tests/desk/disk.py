"""A power cut leaves names as at their folder's last fsync, and a file as at its own."""

import os
import stat


class Disk:
    """A folder, and beside it what a power cut would leave of it."""

    def __init__(self, folder, lasting):
        self.folder = folder
        self.contents, self.names = lasting / "contents", lasting / "names"
        for place in (self.contents, self.names):
            place.mkdir()

    def watch(self):
        """From now on this process tells the disk what it makes last."""
        os.fsync = self.fsync

    def fsync(self, handle):
        status = os.fstat(handle)
        if stat.S_ISDIR(status.st_mode):
            self.keep_names()
        else:
            self.keep_contents(status.st_ino)

    def content_of(self, inode):
        return self.contents / str(inode)

    def keep_contents(self, inode):
        for path in self.folder.iterdir():
            if path.stat().st_ino == inode:
                self.content_of(inode).write_bytes(path.read_bytes())

    def keep_names(self):
        emptied(self.names)
        for path in self.folder.iterdir():
            content = self.content_of(path.stat().st_ino)
            (self.names / path.name).write_bytes(content.read_bytes() if content.exists() else b"")

    def keep_all(self):
        """All that is there now will last."""
        emptied(self.contents)
        for path in self.folder.iterdir():
            self.keep_contents(path.stat().st_ino)
        self.keep_names()

    def cut(self):
        emptied(self.folder)
        for path in self.names.iterdir():
            (self.folder / path.name).write_bytes(path.read_bytes())
        self.keep_all()


def emptied(folder):
    for path in folder.iterdir():
        path.unlink()
