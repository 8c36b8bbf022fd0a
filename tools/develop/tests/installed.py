"""What checks need beside the kit, which apt-get installs where it isn't there."""
import os
import shutil
import subprocess
import sys


def install(check, package):
    """Installs a package where that may be done."""
    if os.geteuid() != 0 or shutil.which("apt-get") is None:
        return
    print(f"{check}: apt-get installs {package}", file=sys.stderr)
    quiet = {"stdout": subprocess.DEVNULL, "stdin": subprocess.DEVNULL}
    for command in (["apt-get", "update"], ["apt-get", "install", "-y", "--no-install-recommends", package]):
        subprocess.run(command, env=os.environ | {"DEBIAN_FRONTEND": "noninteractive"}, check=False, **quiet)


def found(check, program, package):
    """The path of a program, which is installed where that may be done. Without it the check ends with 2."""
    if shutil.which(program) is None:
        install(check, package)
    path = shutil.which(program)
    if path is None:
        print(f"{check}: no {program}, nothing was checked; as root: apt-get install {package}", file=sys.stderr)
        sys.exit(2)
    return path
