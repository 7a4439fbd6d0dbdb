# Why no file can be made in /proc depends on the user.
why=$(LC_ALL=C touch /proc/melt.told 2>&1)
cat <<END
melt: the disk, which is the file melt.stale of this folder, failed.
melt: A line 'end disk-fault' says that the thread could not read an object from it, and
melt: a line 'halt disk-fault' that the run was ended since it could not be made, opened or written.
melt: What is found there now, which need not be the cause:
melt:   melt.stale is not there
melt:   the folder takes no new file: ${why##*: }
melt:   0 KB are left on its file system
END
