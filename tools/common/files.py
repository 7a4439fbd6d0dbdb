"""Files that get their names once they are whole."""
import os


class WholeFiles:
    """Files that are written beside their places, and get their names when all of them are whole. They are made at once, so a folder
    that takes none is found out before all else."""

    def __init__(self, paths, replaces):
        self.paths, self.replaces = [os.path.abspath(path) for path in paths], replaces
        self.parts = []

    def __enter__(self):
        self.forbid_replacing()
        try:
            for path in self.paths:
                part = f"{path}.{os.getpid()}.part"
                os.close(os.open(part, os.O_CREAT | os.O_EXCL | os.O_WRONLY, 0o666))
                self.parts.append(part)
        except BaseException:
            self.remove()
            raise
        return self

    def __exit__(self, *_):
        self.remove()

    def forbid_replacing(self):
        for path in self.paths:
            if os.path.lexists(path) and not self.replaces:
                raise FileExistsError(17, "there is such a file already, which --force replaces", path)

    def write(self, *contents):
        """Writes each file, given as pieces of bytes, and gives them their names."""
        try:
            for part, pieces in zip(self.parts, contents):
                with open(part, "wb") as file:
                    file.writelines(pieces)
            self.forbid_replacing()
            for part, path in zip(self.parts, self.paths):
                os.replace(part, path)
        finally:
            self.remove()

    def remove(self):
        """Takes away what has no name yet."""
        for part in self.parts:
            try:
                os.unlink(part)
            except OSError:
                pass
