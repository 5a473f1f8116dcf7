"""The folder of temporary files for checks: `python3 tools/common/temporary.py` prints it.

A check copies the built logic there, some 300 MB; in memory that is least work. So it is the system's folder in memory, where there is one that
has room and lets programs be run, and else the usual folder."""
import os
import shutil
import tempfile

MEMORY, LEAST = "/dev/shm", 2 ** 31


def folder():
    roomy = os.access(MEMORY, os.W_OK) and shutil.disk_usage(MEMORY).free >= LEAST and not os.statvfs(MEMORY).f_flag & os.ST_NOEXEC
    return MEMORY if roomy else tempfile.gettempdir()


if __name__ == "__main__":
    print(folder())
