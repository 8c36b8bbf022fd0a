"""Where the files are that a line of session text names: regular files, from a folder on or in it alone."""
import contextlib
import errno
import os
import stat
from collections.abc import Iterator


class Folder:
    """A folder from which files are sought. Where it is closed, only those are taken that lie in it, wherever links lead, and
    without a path there is none of them."""

    def __init__(self, path=".", is_closed=False) -> None:
        self._path, self._is_closed = path, is_closed

    def read(self, name, most) -> bytes:
        """The first bytes of a file, one more than `most` where it has more. What is no regular file isn't waited for."""
        if self._path is None:
            raise OSError(errno.EACCES, "there is no folder of which files are taken")
        path = os.path.join(self._path, name)
        self._look_at(path)
        _want_regular(os.stat(path))
        with open(os.open(path, os.O_RDONLY | os.O_NONBLOCK | os.O_CLOEXEC), "rb") as file:
            # Meanwhile another file may have taken the name.
            link = f"/proc/self/fd/{file.fileno()}"
            self._look_at(link if os.path.exists(link) else path)
            _want_regular(os.fstat(file.fileno()))
            return file.read(most + 1)

    def _look_at(self, path) -> None:
        """Refuses what lies outside of a closed folder."""
        own = os.path.realpath(self._path)
        if self._is_closed and os.path.commonpath((own, os.path.realpath(path))) != own:
            raise OSError(errno.EACCES, f"it isn't below {self._path}")


def _want_regular(found) -> None:
    if not stat.S_ISREG(found.st_mode):
        raise OSError(errno.EINVAL, "it is no regular file")


class Mounted:
    """A folder of this system that the service's ground knows under a name of its own, as `/cf`: its files are read and written there.
    None is outside of it: links aren't followed, and names don't lead upwards."""

    MOUNT = b"/cf/"

    def __init__(self, path, most) -> None:
        self._path, self._most = path, most

    def has(self, name) -> bool:
        """Whether a name is one of a file here, and there is such a file."""
        with contextlib.suppress(OSError), self._above(name) as (folder, last):
            return stat.S_ISREG(os.stat(last, dir_fd=folder, follow_symlinks=False).st_mode)
        return False

    def read(self, name) -> bytes:
        """The content of a file."""
        with self._above(name) as (folder, last):
            found = os.open(last, os.O_RDONLY | os.O_NONBLOCK | os.O_NOFOLLOW | os.O_CLOEXEC, dir_fd=folder)
            with open(found, "rb") as file:
                _want_regular(os.fstat(file.fileno()))
                content = file.read(self._most + 1)
        if len(content) > self._most:
            raise OSError(errno.EFBIG, f"it has more than {self._most:,} bytes")
        return content

    def write(self, name, content) -> None:
        """Writes a file. Whoever reads it meanwhile has the one before or the new one, whole."""
        with self._above(name) as (folder, last):
            part = b"." + last[-200:] + b".part"
            made = os.open(part, os.O_WRONLY | os.O_CREAT | os.O_TRUNC | os.O_NOFOLLOW | os.O_CLOEXEC, 0o666, dir_fd=folder)
            try:
                with open(made, "wb") as file:
                    file.write(content)
                os.rename(part, last, src_dir_fd=folder, dst_dir_fd=folder)
            except OSError:
                os.unlink(part, dir_fd=folder)
                raise

    def is_of(self, name) -> bool:
        """Whether a name is one of a file here, whether there is one or not."""
        return name.startswith(self.MOUNT)

    @contextlib.contextmanager
    def _above(self, name) -> Iterator[tuple[int, bytes]]:
        """The folder in which a file lies, and its name there."""
        *above, last = name.removeprefix(self.MOUNT).split(b"/")
        if not self.is_of(name) or any(it in (b"", b".", b"..") for it in (*above, last)):
            raise OSError(errno.EACCES, "its name leads out of the folder, or to none")
        folder = os.open(self._path, os.O_RDONLY | os.O_DIRECTORY | os.O_CLOEXEC)
        try:
            for each in above:
                below = os.open(each, os.O_RDONLY | os.O_DIRECTORY | os.O_NOFOLLOW | os.O_CLOEXEC, dir_fd=folder)
                os.close(folder)
                folder = below
            yield folder, last
        finally:
            os.close(folder)
