"""A root folder with a layer on top that takes what is written, for tests that install or run what they find there."""
import os

# What a shell of new namespaces does: $1 is where all is put together, $2 the layer, $3 a folder that the kernel needs,
# and $4 the folder below. What it mounts ends with it. It may not write the settings of this machine's kernel.
BEGIN = r"""
set -e
root=$1
mount -t overlay overlay -o "lowerdir=$4,upperdir=$2,workdir=$3" "$root"
mount -t proc proc "$root/proc"
mount --bind "$root/proc/sys" "$root/proc/sys"
mount -o remount,bind,ro "$root/proc/sys"
mount -t sysfs -o nosuid,nodev,noexec,ro sysfs "$root/sys"
mount -t tmpfs -o mode=755 tmpfs "$root/dev"
for it in null zero full random urandom tty; do
    touch "$root/dev/$it"
    mount --bind "/dev/$it" "$root/dev/$it"
done
mkdir "$root/dev/pts" "$root/dev/shm"
mount -t devpts -o newinstance,ptmxmode=0666,mode=620 devpts "$root/dev/pts"
ln -s pts/ptmx "$root/dev/ptmx"
ln -s /proc/self/fd "$root/dev/fd"
for it in dev/shm run tmp; do mount -t tmpfs -o mode=1777 tmpfs "$root/$it"; done
chmod 755 "$root/run"
"""
# How the shell goes over to that root.
GO = r"""
cd "$root"
pivot_root . .
umount -l .
"""
PATH = "/usr/local/sbin:/usr/local/bin:/usr/sbin:/usr/bin:/sbin:/bin"


class Layered:
    """A root folder with a layer on top, in the folder of a test."""

    def __init__(self, tried, name, below="/"):
        self.tried, self.name, self.below = tried, name, below
        for part in ("root", "layer", "work"):
            os.makedirs(self.of(part))
        os.chmod(tried.folder, 0o755)
        self.layer = self.of("layer")

    def of(self, part):
        return self.tried.path(f"{self.name}/{part}")

    def words(self, options, then):
        """The words that begin a shell in new namespaces, with these options of `unshare`; it goes on with THEN."""
        return ["unshare", "--mount", "--pid", "--fork", "--kill-child", *options, "bash", "-c", BEGIN + then, "begin",
                self.of("root"), self.layer, self.of("work"), self.below]
